//! The fixed list of `setup_oracle`: set-ups, and the answers that the Rust and the named
//! differences ask for. The port is not asked.

use super::{
    asked::Asked,
    expected::{self, Kind},
    inputs,
};

/// Of each group so many are looked at.
const LOOKED_AT: usize = 2_000;

/// A set-up's line and its answer.
type Line = (String, String);

pub fn lines() -> Vec<Line> {
    let new = |units, stored, refused| picked(inputs::new(units), stored, refused);
    let old = inputs::old(inputs::old_pairs(&inputs::rates()));
    [
        new(inputs::every_enum(), 80, 40),
        new(inputs::masks_and_fills(), 40, 10),
        new(inputs::rates_of_units(), 60, 40),
        new(inputs::random(LOOKED_AT), 60, 20),
        new(inputs::odd_counts(), 30, 40),
        picked(old, 80, 20),
    ]
    .concat()
}

/// So many with numbers and so many refused.
fn picked(group: Vec<Asked>, stored: usize, refused: usize) -> Vec<Line> {
    let lines = some_of(group, LOOKED_AT).into_iter().filter_map(line);
    let (no, yes) = lines.partition(|(_, answer): &Line| answer.starts_with("refused"));
    [some_of(yes, stored), some_of(no, refused)].concat()
}

/// Nothing for a cut pair: those rates are in the list of `oracle`.
fn line(asked: Asked) -> Option<Line> {
    let expected = expected::of(asked).unwrap_or_else(|why| panic!("{}: {why}", asked.line()));
    (expected.kind != Kind::Cut).then(|| (asked.line(), expected.line))
}

/// At most that many, evenly out of all.
fn some_of<T>(all: Vec<T>, count: usize) -> Vec<T> {
    let step = all.len().div_ceil(count).max(1);
    all.into_iter().step_by(step).collect()
}
