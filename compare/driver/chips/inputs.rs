//! The calls: every function of each chip, in every course of both halves.

use super::asked::{Asked, Before, Call, Course, Draw};
use crate::{
    inputs::{Random, SEED},
    published::Chip,
    setups::{
        asked::{Asked as SetUp, Both, OldUnit, Unit},
        expected::{self, Kind},
        inputs as set_ups,
    },
};

/// Calls of one function of one chip, and what is said of them beside that.
pub struct Group {
    pub chip: Chip,
    pub calls: Vec<Asked>,
    pub of: &'static str,
}

impl Group {
    fn new(chip: Chip, calls: Vec<Asked>) -> Group {
        Group { chip, calls, of: "" }
    }

    fn at_rest(chip: Chip, calls: Vec<Call>) -> Group {
        let asked = |call| Asked { chip, before: Before::NEW, call };
        Group::new(chip, calls.into_iter().map(asked).collect())
    }
}

const ALLOWANCES: [u16; 7] = [0, 1, 2, 5, 9, 100, u16::MAX];

/// Around the ends of words, of a descriptor and of the fields. The new chip's Rust subtracts 1, so 0 is the old chip's alone.
const LENGTHS: [u32; 18] = [
    4,
    8,
    4_092,
    4_096,
    1,
    2,
    3,
    5,
    7,
    4_091,
    4_093,
    4_095,
    4_097,
    65_535,
    65_536,
    65_537,
    u32::MAX - 1,
    u32::MAX,
];

const MASKS: std::ops::Range<u8> = 0..16;

/// How many units are taken of each way to make them, and how many that are refused.
const UNITS: usize = 1_600;
const REFUSED_UNITS: usize = 60;

/// How many random units are looked at.
const LOOKED_AT: usize = 8_000;

/// The rates of the old chip's pairs, one of them for each.
const OLD_RATES: [u32; 8] = [44_100, 2_442, 8_000, 22_050, 48_000, 96_000, 192_000, 629_976];

fn draws() -> impl Iterator<Item = Draw> {
    (0..5).flat_map(|late| {
        (0..5).flat_map(move |wait| [false, true].map(|hung| Draw { late, wait, hung }))
    })
}

/// Every course of both halves with some draws and masks of events that are enabled.
fn courses(chip: Chip) -> impl Iterator<Item = Before> {
    let masks = match chip {
        Chip::Old => [0, 1, 2, 3],
        Chip::New => [0, 1, 6, 15],
    };
    let draws = [(0, 0, false), (1, 0, true), (0, 2, true), (3, 4, false)];
    Course::ALL.into_iter().flat_map(move |tx| {
        Course::ALL.into_iter().flat_map(move |rx| {
            draws.into_iter().flat_map(move |(late, wait, hung)| {
                masks.map(|enabled| Before { tx, rx, draw: Draw { late, wait, hung }, enabled })
            })
        })
    })
}

pub fn groups(chip: Chip) -> Vec<Group> {
    let mut groups = plain(chip);
    groups.extend(polled(chip));
    groups.extend(of_events(chip));
    groups.extend(match chip {
        Chip::Old => old_set_ups(),
        Chip::New => new_set_ups(),
    });
    groups
}

/// Functions that neither poll nor take events, in every course.
fn plain(chip: Chip) -> Vec<Group> {
    let alone = [Call::SetMaster, Call::Update, Call::ResetTx, Call::TxStop, Call::ResetRx];
    let mut groups: Vec<Group> = alone.map(|call| in_courses(chip, [call].into_iter())).into();
    let with_zero = (chip == Chip::Old).then_some(0);
    groups.push(in_courses(chip, LENGTHS.into_iter().chain(with_zero).map(Call::RxStart)));
    groups
}

fn in_courses(chip: Chip, calls: impl Iterator<Item = Call>) -> Group {
    let calls = calls
        .flat_map(|call| courses(chip).map(move |before| Asked { chip, before, call }))
        .collect();
    Group::new(chip, calls)
}

/// Every allowance with every draw in every course.
fn polled(chip: Chip) -> Vec<Group> {
    let of: [fn(u16) -> Call; 3] = [Call::TxStart, Call::WaitForTxDone, Call::WaitForRxDone];
    of.map(|call| {
        let mut calls = Vec::new();
        for draw in draws() {
            for tx in Course::ALL {
                for rx in Course::ALL {
                    let before = Before { tx, rx, draw, enabled: 0 };
                    calls.extend(ALLOWANCES.map(|n| Asked { chip, before, call: call(n) }));
                }
            }
        }
        Group::new(chip, calls)
    })
    .into()
}

/// Every mask, and for what is reported every mask of the enabled events.
fn of_events(chip: Chip) -> Vec<Group> {
    let mut groups = vec![
        in_courses(
            chip,
            MASKS.flat_map(|mask| [false, true].map(|on| Call::EnableListen(mask, on))),
        ),
        in_courses(chip, MASKS.map(Call::Listen)),
        in_courses(chip, MASKS.map(Call::Unlisten)),
        in_courses(chip, MASKS.map(Call::ClearInterrupts)),
    ];
    let mut calls = Vec::new();
    for enabled in MASKS {
        let befores = courses(chip).filter(|before| before.enabled == 0);
        let befores = befores.map(|before| Before { enabled, ..before });
        calls.extend(befores.map(|before| Asked { chip, before, call: Call::Interrupts }));
    }
    groups.push(Group::new(chip, calls));
    groups
}

/// Whether both sides take it, maybe with a cut pair.
fn accepted(set_up: SetUp) -> bool {
    expected::of(set_up).is_ok_and(|expected| matches!(expected.kind, Kind::Numbers | Kind::Cut))
}

/// Whether both sides refuse it.
fn refused(set_up: SetUp) -> bool {
    expected::of(set_up).is_ok_and(|expected| expected.kind == Kind::Refused)
}

/// Some units out of each way to make them in the comparison of set-ups.
fn units(holds: fn(SetUp) -> bool, count: usize) -> Vec<Unit> {
    let ways = [
        set_ups::every_enum(),
        set_ups::masks_and_fills(),
        set_ups::rates_of_units(),
        set_ups::random(LOOKED_AT),
    ];
    let mut random = Random(SEED ^ 7);
    let of = |way: Vec<Unit>| {
        let held = way.into_iter().filter(|unit| holds(SetUp::New(*unit))).collect();
        parts(held, count).iter().filter_map(|part| any(part, &mut random)).collect::<Vec<Unit>>()
    };
    ways.into_iter().flat_map(of).collect()
}

/// So many parts of all, as equal as can be.
pub fn parts<T>(mut all: Vec<T>, count: usize) -> Vec<Vec<T>> {
    (1..=count).rev().map(|parts| all.drain(..all.len() / parts).collect()).collect()
}

/// Any one of them, if there is one.
fn any(units: &[Unit], random: &mut Random) -> Option<Unit> {
    units.get(random.below(units.len() as u64) as usize).copied()
}

/// Every unit in either half, and each as the receive unit with any transmit unit that is taken.
fn new_set_ups() -> Vec<Group> {
    let taken = units(accepted, UNITS);
    let refused = units(refused, REFUSED_UNITS);
    let mut random = Random(SEED ^ 6);
    let mut with_any = |units: &[Unit]| -> Vec<Call> {
        let pair = |unit: &Unit| Some(Call::Configure(any(&taken, &mut random)?, *unit));
        units.iter().filter_map(pair).collect()
    };
    let alone = |units: &[Unit], call: fn(Unit) -> Call| units.iter().copied().map(call).collect();
    let mut of = |units: &[Unit]| {
        let calls =
            [with_any(units), alone(units, Call::ConfigureTx), alone(units, Call::ConfigureRx)];
        calls.map(|calls| Group::at_rest(Chip::New, calls))
    };
    let (taken, refused) = (of(&taken), of(&refused));
    taken.into_iter().chain(refused.map(|group| Group { of: ", refused", ..group })).collect()
}

/// Every pair of units in both formats.
fn old_set_ups() -> Vec<Group> {
    let mut random = Random(SEED ^ 8);
    let mut both = Vec::new();
    let units: Vec<OldUnit> = OldUnit::all().collect();
    for narrow in [false, true] {
        for tx in &units {
            for rx in &units {
                let rate = OLD_RATES[random.below(OLD_RATES.len() as u64) as usize];
                both.push(Both { rate, narrow, tx: *tx, rx: *rx });
            }
        }
    }
    assert!(both.iter().all(|both| accepted(SetUp::Old(*both))));
    let both = both.into_iter().map(Call::ConfigureBoth).collect();
    let of = |call: fn(OldUnit, bool) -> Call| {
        units.iter().flat_map(|unit| [false, true].map(|narrow| call(*unit, narrow))).collect()
    };
    [both, of(Call::ConfigureOldTx), of(Call::ConfigureOldRx)]
        .map(|calls: Vec<Call>| Group::at_rest(Chip::Old, calls))
        .into()
}

/// Lines that are no call.
pub fn bad_lines() -> Vec<String> {
    let lines = [
        "1",
        "1 tx_stop",
        "2 tx_stop 0 0 0 0 0 0",
        "1 tx_stopped 0 0 0 0 0 0",
        "1 tx_stop 0 0 0 0 0",
        "1 tx_stop 0 0 0 0 0 0 0",
        "1 tx_stop 3 0 0 0 0 0",
        "1 tx_stop 0 3 0 0 0 0",
        "1 tx_stop 0 0 0 0 2 0",
        "1 tx_stop 0 0 0 0 0 16",
        "1 tx_stop 0 0 4294967296 0 0 0",
        "1 tx_start 0 0 0 0 0 0",
        "1 tx_start 0 0 0 0 0 0 65536",
        "1 wait_for_tx_done 0 0 0 0 0 0 1 1",
        "1 rx_start 0 0 0 0 0 0",
        "1 rx_start 0 0 0 0 0 0 -1",
        "1 enable_listen 0 0 0 0 0 0 15",
        "1 enable_listen 0 0 0 0 0 0 15 2",
        "1 clear_interrupts 0 0 0 0 0 0 16",
        "1 configure_tx 0 0 0 0 0 0 44100 2 3 0 0 4 0 0 1 1 0",
        "1 configure 0 0 0 0 0 0 44100 2 3 0 0 4 0 0 1 1 0 0",
        "0 configure_tx 0 0 0 0 0 0 0 0 0 0",
        "0 configure 0 0 0 0 0 0 44100 2 0 0 0 0 0 0 0 0",
        // More than a block notes: a receive half at rest never ends.
        "1 wait_for_rx_done 0 0 0 0 0 0 2049",
    ];
    lines.map(str::to_string).to_vec()
}
