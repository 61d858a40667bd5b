//! The orders of the fixed list of `chip_oracle`, and what the Rust and the named differences ask for. The port is not asked.

use std::collections::BTreeSet;

use super::{
    expected::Kind,
    inputs::{self, Order},
};
use crate::published::Chip;

/// The first orders of each chip are listed, and of the others those that show more.
const FIRST: usize = 8;
const LOOKED_AT: usize = 400;

/// A line, and what the port must print of it.
type Line = (String, String);

pub fn lines() -> Vec<Line> {
    let steps = Chip::BOTH.into_iter().flat_map(listed).flat_map(|order| order.steps);
    steps.map(|step| (step.line, step.expected.line)).collect()
}

/// So that each difference of each call is shown, but for cut pairs, since their rates are in the list of `oracle`.
fn listed(chip: Chip) -> Vec<Order> {
    let orders = inputs::orders(chip, LOOKED_AT);
    let mut listed = Vec::new();
    let mut shown = BTreeSet::new();
    for order in orders.map(|order| order.unwrap_or_else(|why| panic!("{why}"))) {
        let shows: Vec<_> =
            order.steps.iter().map(|step| (step.expected.kind, step.name())).collect();
        let is_cut = shows.iter().any(|(kind, _)| *kind == Kind::Cut);
        let shows_more = shows.iter().any(|what| !shown.contains(what));
        if !is_cut && (listed.len() < FIRST || shows_more) {
            shown.extend(shows);
            listed.push(order);
        }
    }
    listed
}
