//! What the port must answer to a set-up, from the Rust's answers and the named differences alone.

use super::{
    asked::{Asked, Both, Unit},
    numbers::{self, Numbers, SPLIT},
    recorded::{self, Answer, Build, Channels, Half},
};
use crate::{
    exact::{CUT, Search, WHOLE},
    inputs::known_cut,
    published::{self, Chip, Input},
};

const FRAME_TOO_LONG: u32 = 3;
const RATE_OUT_OF_RANGE: u32 = 4;
const CLOCK_OUT_OF_REACH: u32 = 5;

const LONGEST_FRAME: u16 = 128;

/// How the two sides stand to each other.
#[derive(Clone, Copy, Debug, PartialEq, Eq, PartialOrd, Ord)]
pub enum Kind {
    /// Both have the same numbers.
    Numbers,
    /// Both refuse alike.
    Refused,
    /// 16 slots or more: `Channels::new` shifts by too much.
    Count,
    /// A frame above 128 bits, whose half has no place in its field.
    Frame,
    /// A clock of 0 or past 32 bits.
    Rate,
    /// An integer part outside 1 to 255.
    Part,
    /// A pair that cannot be split.
    Split,
    /// A pair that cut products hid from the Rust.
    Cut,
}

impl Kind {
    pub const ALL: [Kind; 8] = [
        Kind::Numbers,
        Kind::Refused,
        Kind::Count,
        Kind::Frame,
        Kind::Rate,
        Kind::Part,
        Kind::Split,
        Kind::Cut,
    ];
}

/// What the port must answer; the Rust's own answers, with overflow checks and without, for the
/// transmit half where the chip asks by halves; and the puts that no set-up changes.
pub struct Expected {
    pub kind: Kind,
    pub line: String,
    pub checked: Answer,
    pub unchecked: Answer,
    pub others: Vec<(&'static str, u32)>,
}

struct Judged {
    kind: Kind,
    line: String,
    others: Vec<(&'static str, u32)>,
}

impl Judged {
    fn refused(kind: Kind, number: u32) -> Judged {
        Judged { kind, line: format!("refused {number}"), others: Vec::new() }
    }

    fn with(self, checked: Answer, unchecked: Answer) -> Expected {
        let Judged { kind, line, others } = self;
        Expected { kind, line, checked, unchecked, others }
    }
}

/// Nothing of it may be left unexplained: that is an error.
pub fn of(asked: Asked) -> Result<Expected, String> {
    match asked {
        Asked::New(unit) => of_unit(unit),
        Asked::Old(both) => of_both(both),
    }
}

fn of_unit(unit: Unit) -> Result<Expected, String> {
    let ask = |build, channels| {
        [Half::Transmit, Half::Receive].map(|half| recorded::unit(build, unit, half, channels))
    };
    let checked = ask(Build::Checked, Channels::Made);
    let unchecked = ask(Build::Unchecked, Channels::Made);
    let judged = if unit.count < 16 {
        hold_together(&checked, recorded::twice(unit))?;
        hold_builds(&checked[0], &unchecked[0])?;
        hold_builds(&checked[1], &unchecked[1])?;
        judge_unit(unit, checked.clone())?
    } else if checked == [Answer::Panicked, Answer::Panicked] {
        let judged = judge_unit(unit, ask(Build::Checked, Channels::Whole))?;
        Judged { kind: Kind::Count, ..judged }
    } else {
        return Err("the checked Rust takes 16 slots or more".to_string());
    };
    let ([checked, _], [unchecked, _]) = (checked, unchecked);
    Ok(judged.with(checked, unchecked))
}

/// `configure` does to both halves what is done to each.
fn hold_together(halves: &[Answer; 2], both: Answer) -> Result<(), String> {
    let together = match halves {
        [Answer::Stored(tx), Answer::Stored(rx)] => Answer::Stored([&tx[..], &rx[..]].concat()),
        [tx, _] => tx.clone(),
    };
    if together == both { Ok(()) } else { Err(format!("both halves of the Rust: {both:?}")) }
}

/// Where the checked Rust does not panic the unchecked one does the same.
fn hold_builds(checked: &Answer, unchecked: &Answer) -> Result<(), String> {
    if *checked == Answer::Panicked || checked == unchecked {
        Ok(())
    } else {
        Err(format!("the builds of the Rust differ: {checked:?} and {unchecked:?}"))
    }
}

fn judge_unit(unit: Unit, halves: [Answer; 2]) -> Result<Judged, String> {
    let input = Input { rate: unit.rate, channels: unit.count, bits: unit.data_bits() };
    match halves {
        [Answer::Refused(number), Answer::Refused(other)] if number == other => {
            Ok(Judged::refused(Kind::Refused, number))
        }
        [Answer::Panicked, Answer::Panicked] | [Answer::Stored(_), Answer::Stored(_)]
            if unit.frame() > LONGEST_FRAME =>
        {
            Ok(Judged::refused(Kind::Frame, FRAME_TOO_LONG))
        }
        [Answer::Panicked, Answer::Panicked] => judge_panic(Chip::New, input),
        [Answer::Stored(tx), Answer::Stored(rx)] => {
            let tx = numbers::of_half(&tx, Half::Transmit)?;
            let rx = numbers::of_half(&rx, Half::Receive)?;
            hold_halves_alike(&tx, &rx)?;
            judge_numbers(Chip::New, input, tx, rx.others)
        }
        halves => Err(format!("the halves of the Rust differ: {halves:?}")),
    }
}

fn hold_halves_alike(tx: &Numbers, rx: &Numbers) -> Result<(), String> {
    match rx.named.iter().find(|(name, number)| tx.get(name) != Some(*number)) {
        Some((name, number)) => Err(format!("the receive half has {number} in {name}")),
        None => Ok(()),
    }
}

fn of_both(both: Both) -> Result<Expected, String> {
    let checked = recorded::both(Build::Checked, both);
    let unchecked = recorded::both(Build::Unchecked, both);
    let input = Input { rate: both.rate, channels: 2, bits: both.data_bits() };
    hold_builds(&checked, &unchecked)?;
    let judged = match &checked {
        Answer::Panicked => judge_panic(Chip::Old, input)?,
        Answer::Stored(events) => {
            judge_numbers(Chip::Old, input, numbers::of_both(events)?, Vec::new())?
        }
        Answer::Refused(_) => return Err("the Rust refuses on the old chip".to_string()),
    };
    Ok(judged.with(checked, unchecked))
}

/// Why the Rust panics at a frame that it can store.
fn judge_panic(chip: Chip, input: Input) -> Result<Judged, String> {
    if is_out_of_range(input) {
        return Ok(Judged::refused(Kind::Rate, RATE_OUT_OF_RANGE));
    }
    match chip.checked(input) {
        Some([_, _, denominator, numerator])
            if chip == Chip::New && published::split([denominator, numerator]).is_none() =>
        {
            Ok(Judged::refused(Kind::Split, CLOCK_OUT_OF_REACH))
        }
        _ => Err("the Rust panics".to_string()),
    }
}

/// Whether a clock is 0 or passes 32 bits.
fn is_out_of_range(input: Input) -> bool {
    let bits = input.channels as u64 * input.bits as u64;
    let multiple = if input.bits == 24 { 192 } else { 256 };
    let clocks = [input.rate as u64 * bits, input.rate as u64 * multiple];
    clocks.into_iter().any(|clock| clock == 0 || clock > u32::MAX as u64)
}

fn judge_numbers(
    chip: Chip,
    input: Input,
    numbers: Numbers,
    more: Vec<(&'static str, u32)>,
) -> Result<Judged, String> {
    let [part, _, denominator, numerator] = chip.checked(input).ok_or("the dividers panic")?;
    if !(1..=255).contains(&part) {
        return Ok(Judged::refused(Kind::Part, CLOCK_OUT_OF_REACH));
    }
    let search = Search::new(input, chip.max());
    if search.pair(CUT) != [denominator, numerator] {
        return Err("the Rust's search is not understood".to_string());
    }
    let best = search.pair(WHOLE);
    let others = [numbers.others.as_slice(), &more].concat();
    if best == [denominator, numerator] {
        return Ok(Judged { kind: Kind::Numbers, line: numbers.line(), others });
    }
    if !known_cut(chip.max(), input.bits).contains(&input.rate) || chip == Chip::Old {
        return Err("a cut pair at a rate that is not a known one".to_string());
    }
    let line = with_split_of(best, numbers)?.line();
    Ok(Judged { kind: Kind::Cut, line, others })
}

/// The numbers with the Rust's split of another pair.
fn with_split_of(pair: [u32; 2], mut numbers: Numbers) -> Result<Numbers, String> {
    let split = published::split(pair).ok_or("the split of the better pair panics")?;
    for (name, number) in SPLIT.into_iter().zip(split) {
        numbers.set(name, number);
    }
    Ok(numbers)
}
