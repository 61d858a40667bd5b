//! The fixed list of `chip_oracle`: calls, and what the Rust and the named differences ask for. The
//! port is not asked.

use super::{
    asked::Asked,
    expected::{self, Kind},
    inputs,
};
use crate::{
    inputs::{Random, SEED},
    published::Chip,
};

/// So many calls of each function of each chip.
const LISTED: usize = 12;

/// A call's line and what the port must print.
type Line = (String, String);

pub fn lines() -> Vec<Line> {
    let mut random = Random(SEED ^ 9);
    let groups = Chip::BOTH.into_iter().flat_map(inputs::groups);
    groups.flat_map(|group| picked(group.calls, &mut random)).collect()
}

/// A call of each part: any one, or the next that has a line.
fn picked(calls: Vec<Asked>, random: &mut Random) -> Vec<Line> {
    let parts = inputs::parts(calls, LISTED).into_iter();
    let from = |part: Vec<Asked>| {
        let first = random.below(part.len() as u64) as usize;
        part.into_iter().skip(first).find_map(line)
    };
    parts.filter_map(from).collect()
}

/// Nothing for a cut pair, since those rates are in the list of `oracle`, and for too many notes.
fn line(asked: Asked) -> Option<Line> {
    let expected = expected::of(asked).unwrap_or_else(|why| panic!("{}: {why}", asked.line()));
    let expected = expected.filter(|expected| expected.kind != Kind::Cut)?;
    Some((asked.line(), expected.line))
}
