//! The orders: seeded random ones, of which each call is one that its unit mostly takes at that point.

use super::{
    asked::{Call, LAST, Opening, SetUps, Side, UnitCall, UnitSetUp},
    expected::{self, Expected, Session},
};
use crate::{
    chips::asked::Draw,
    inputs::{Random, SEED, known_cut},
    published::Chip,
    setups::{
        asked::{Both, OldUnit, Unit, Width},
        inputs as set_ups,
    },
};

/// So many calls an order has at most.
const LONGEST: u64 = 40;

/// The rates of the old chip's openings, of which the last three are refused.
const OLD_RATES: [u32; 11] =
    [44_100, 8_000, 16_000, 22_050, 48_000, 96_000, 192_000, 629_976, 0, 2_441, 16_777_216];

const ALLOWANCES: [u16; 8] = [0, 1, 2, 3, 5, 8, 20, u16::MAX];

/// Around the ends of what each unit takes.
const TX_LENGTHS: [u32; 6] = [0, 1, 65_534, 65_535, 65_536, u32::MAX];
const RX_LENGTHS: [u32; 12] = [0, 1, 2, 3, 4, 4_092, 4_094, 4_095, 4_096, 4_097, 4_098, 4_100];

const LIMITS: [u16; 5] = [0, 4, 4_092, 4_096, u16::MAX];

/// The longest start that is drawn.
const LONGEST_LATE: u64 = 4;
const LONGEST_WAIT: u64 = 7;

/// A line of an order, and what the port must print of it.
pub struct Step {
    pub side: Option<Side>,
    pub call: &'static str,
    pub line: String,
    pub expected: Expected,
}

impl Step {
    /// The call, and its unit where it is of one.
    pub fn name(&self) -> String {
        match self.side {
            Some(side) => format!("{} {}", side.word(), self.call),
            None => self.call.to_string(),
        }
    }
}

/// An opening, calls, and the line that ends them.
pub struct Order {
    pub chip: Chip,
    pub steps: Vec<Step>,
}

/// Random orders of a chip; or what is left unexplained of one.
pub fn orders(chip: Chip, count: usize) -> impl Iterator<Item = Result<Order, String>> {
    let mut random = Random(SEED ^ 10 ^ chip as u64);
    (0..count).map(move |_| order(chip, &mut random))
}

fn order(chip: Chip, random: &mut Random) -> Result<Order, String> {
    let opening = opening(chip, random);
    let told = |line: &str, why: String| format!("{line}: {why}");
    let line = opening.line();
    let (expected, session) = expected::open(&opening).map_err(|why| told(&line, why))?;
    let mut steps = vec![Step { side: None, call: "open", line, expected }];
    let ended = match session {
        Some(mut session) => {
            for _ in 0..random.below(LONGEST + 1) {
                let call = call(&opening, &session, random);
                let line = call.line();
                let made = session.make(call).map_err(|why| told(&line, why))?;
                // Nothing where the port would note too much: another call may do.
                if let Some(expected) = made {
                    let side = Some(call.side);
                    steps.push(Step { side, call: call.call.name(), line, expected });
                }
            }
            session.end()?
        }
        None => Expected::nothing_reported(),
    };
    steps.push(Step { side: None, call: LAST, line: LAST.to_string(), expected: ended });
    Ok(Order { chip, steps })
}

fn one<T: Copy>(of: &[T], random: &mut Random) -> T {
    of[random.below(of.len() as u64) as usize]
}

fn opening(chip: Chip, random: &mut Random) -> Opening {
    let set_ups = match chip {
        Chip::New if random.below(50) == 0 => both_refused(random),
        Chip::New => SetUps::New(unit(random, 24), unit(random, 24)),
        Chip::Old => SetUps::Old(Both {
            rate: one(if random.below(12) == 0 { &OLD_RATES } else { &OLD_RATES[..8] }, random),
            narrow: random.below(2) == 0,
            tx: old_unit(random),
            rx: old_unit(random),
        }),
    };
    let limits = [0; 2].map(|_| match random.below(3) {
        0 => one(&LIMITS, random),
        1 => 4_096,
        _ => random.below(1 << 16) as u16,
    });
    let draws = [0; 2].map(|_| draws(random));
    Opening { set_ups, limits, draws }
}

/// A transmit unit refused by 2, which the Rust finds after the receive unit refused by 1.
fn both_refused(random: &mut Random) -> SetUps {
    let tx = Unit { width: Width::Bits(0), ..set_ups::sane(random) };
    let rx = Unit { mask: 0, ..set_ups::sane(random) };
    SetUps::New(tx, rx)
}

/// Draws for some starts, or for none.
fn draws(random: &mut Random) -> Vec<Draw> {
    let count = random.below(9);
    (0..count)
        .map(|_| Draw {
            late: random.below(LONGEST_LATE + 1) as u32,
            wait: random.below(LONGEST_WAIT + 1) as u32,
            hung: random.below(4) == 0,
        })
        .collect()
}

/// A unit that passes, but for one of so many that may not and one that is cut.
fn unit(random: &mut Random, one_of: u64) -> Unit {
    match random.below(one_of) {
        0 => set_ups::any(random),
        1 => Unit { rate: one(known_cut(Chip::New.max(), 16), random), ..set_ups::sane(random) },
        _ => set_ups::sane(random),
    }
}

fn old_unit(random: &mut Random) -> OldUnit {
    let units: Vec<OldUnit> = OldUnit::all().collect();
    one(&units, random)
}

fn call(opening: &Opening, session: &Session, random: &mut Random) -> Call {
    let side = one(&Side::BOTH, random);
    let runs = session.runs(side) != (random.below(20) == 0);
    let call = match (runs, random.below(8)) {
        (_, 0) => UnitCall::Listen(mask(random)),
        (_, 1) => one(
            &[UnitCall::Unlisten(mask(random)), UnitCall::ClearInterrupts(mask(random))],
            random,
        ),
        (false, 2 | 3) => UnitCall::ApplyConfig(match opening.chip() {
            Chip::New => UnitSetUp::New(unit(random, 8)),
            Chip::Old => UnitSetUp::Old(old_unit(random)),
        }),
        (false, _) => UnitCall::Start(
            length(side, opening.limits[side as usize], random),
            one(&ALLOWANCES, random),
        ),
        (true, 2) => UnitCall::Stop,
        (true, _) => UnitCall::Wait(one(&ALLOWANCES, random)),
    };
    Call { side, call }
}

fn mask(random: &mut Random) -> u8 {
    random.below(16) as u8
}

/// A length within the limit, around it, or at an end of what the unit takes.
fn length(side: Side, limit: u16, random: &mut Random) -> u32 {
    let limit = u32::from(limit);
    match (random.below(8), side) {
        (0, Side::Transmit) => one(&TX_LENGTHS, random),
        (0, Side::Receive) => one(&RX_LENGTHS, random),
        (1, Side::Transmit) => limit + random.below(2) as u32,
        (1, Side::Receive) => limit / 4 * 4 + 4 * random.below(2) as u32,
        (_, Side::Transmit) => 1 + random.below(u64::from(limit.max(1))) as u32,
        (_, Side::Receive) => 4 + 4 * random.below(u64::from(limit.min(4_096) / 4).max(1)) as u32,
    }
}
