//! Counts how the port's orders stand to the Rust's, and prints the summary.

use std::collections::BTreeMap;

use super::{
    asked::LAST,
    expected::Kind,
    inputs::{Order, Step},
};
use crate::{published::Chip, setups::port::Port};

/// Of the unexplained only the first are printed; all are counted.
const SHOWN: usize = 40;

/// Of the notes of a named difference the last are printed, and the answer.
const SHOWN_NOTES: usize = 4;

/// Counts of one chip's calls of a name.
type Name = (Chip, String);

#[derive(Default)]
pub struct Tally {
    orders: BTreeMap<Chip, u64>,
    /// Of units, without openings and last lines.
    calls: BTreeMap<Chip, u64>,
    kinds: BTreeMap<Name, BTreeMap<Kind, u64>>,
    unexplained_of: BTreeMap<Name, u64>,
    first: BTreeMap<(Kind, Chip, &'static str), String>,
    notes: u64,
    bad_lines: usize,
    unexplained: Vec<String>,
}

impl Tally {
    pub fn compare(
        &mut self,
        port: &Port,
        chip: Chip,
        orders: impl Iterator<Item = Result<Order, String>>,
    ) {
        let mut asked = Vec::new();
        for order in orders {
            match order {
                Ok(order) => asked.push(order),
                Err(why) => self.wrong(why),
            }
        }
        let lines: Vec<&str> =
            asked.iter().flat_map(|order| &order.steps).map(|step| step.line.as_str()).collect();
        match port.answers(&(lines.join("\n") + "\n")) {
            Ok(answers) if answers.len() == lines.len() => {
                let mut answers = answers.iter();
                for order in &asked {
                    self.order(order, answers.by_ref().take(order.steps.len()));
                }
            }
            Ok(answers) => self.wrong(format!("{} answers of {}", answers.len(), lines.len())),
            Err(why) => self.wrong(format!("orders of the {}: {why}", words_of(chip))),
        }
    }

    fn order<'a>(&mut self, order: &Order, answers: impl Iterator<Item = &'a String>) {
        let calls = order.steps.iter().filter(|step| step.side.is_some()).count() as u64;
        *self.orders.entry(order.chip).or_default() += 1;
        *self.calls.entry(order.chip).or_default() += calls;
        for (place, (step, answer)) in order.steps.iter().zip(answers).enumerate() {
            let name = (order.chip, step.name());
            if step.expected.line != *answer {
                *self.unexplained_of.entry(name).or_default() += 1;
                self.wrong(told(order, place, answer));
                continue;
            }
            let kind = step.expected.kind;
            self.notes += answer.split(", ").count() as u64 - 1;
            *self.kinds.entry(name).or_default().entry(kind).or_default() += 1;
            if kind != Kind::Same {
                let what = (kind, order.chip, step.call);
                self.first.entry(what).or_insert_with(|| shown(kind, step));
            }
        }
    }

    /// Holds the program to its refusal of lines that are none of an order, behind a line that is good.
    pub fn refuse(&mut self, port: &Port, good: &str, lines: &[&str]) {
        for bad in lines {
            self.bad_lines += 1;
            if !port.refuses_second(good, bad, &format!("{LAST}\n")) {
                self.wrong(format!("chip_oracle does not refuse the line {bad} behind {good}"));
            }
        }
    }

    fn wrong(&mut self, what: String) {
        self.unexplained.push(what);
    }

    /// Prints everything; true if nothing is left unexplained.
    pub fn report(self) -> bool {
        let kinds: Vec<&str> = Kind::ALL.into_iter().map(column).collect();
        println!("\n| calls in orders | compared | {} | unexplained |", kinds.join(" | "));
        println!("|{}", "---|".repeat(kinds.len() + 3));
        let mut sum = BTreeMap::new();
        for (name, of_kind) in &self.kinds {
            let unexplained = self.unexplained_of.get(name).copied().unwrap_or(0);
            print_row(&format!("{}: {}", words_of(name.0), name.1), of_kind, unexplained);
            for (kind, count) in of_kind {
                *sum.entry(*kind).or_default() += count;
            }
        }
        print_row("all", &sum, self.unexplained_of.values().sum());
        println!("\nNamed differences of orders, each with the first that shows it:");
        for ((kind, chip, call), first) in &self.first {
            println!("  {}, {}, {call}\n    {first}", words(*kind), words_of(*chip));
        }
        let orders: Vec<String> = self
            .orders
            .iter()
            .map(|(chip, count)| format!("{count} of the {}", words_of(*chip)))
            .collect();
        let calls: u64 = self.calls.values().sum();
        println!("\nOrders: {}, with {calls} calls of units", orders.join(", "));
        println!("Notes of both in them, in the same order: {}", self.notes);
        println!("Lines that are none of an order, refused with their number: {}", self.bad_lines);
        println!("\nUnexplained in orders: {}", self.unexplained.len());
        for what in self.unexplained.iter().take(SHOWN) {
            println!("  {what}");
        }
        self.unexplained.is_empty()
    }
}

fn print_row(name: &str, of_kind: &BTreeMap<Kind, u64>, unexplained: u64) {
    let count = |kind| of_kind.get(&kind).copied().unwrap_or(0);
    let counts: Vec<String> = Kind::ALL.into_iter().map(|kind| count(kind).to_string()).collect();
    let all = of_kind.values().sum::<u64>() + unexplained;
    println!("| {name} | {all} | {} | {unexplained} |", counts.join(" | "));
}

/// The order up to a line, and what both sides have of that.
fn told(order: &Order, place: usize, answer: &str) -> String {
    let lines: Vec<&str> = order.steps[..=place].iter().map(|step| step.line.as_str()).collect();
    format!(
        "at the last line of\n      {}\n    the port must print\n      {}\n    and prints\n      {answer}",
        lines.join("\n      "),
        order.steps[place].expected.line
    )
}

/// The line and what answers it, of many notes the last alone.
fn shown(kind: Kind, step: &Step) -> String {
    let notes: Vec<&str> = step.expected.line.split(", ").collect();
    match kind {
        Kind::Cut => step.line.clone(),
        _ => format!(
            "{}: {}",
            step.line,
            notes[notes.len().saturating_sub(SHOWN_NOTES)..].join(", ")
        ),
    }
}

fn words_of(chip: Chip) -> &'static str {
    match chip {
        Chip::Old => "old chip",
        Chip::New => "new chip",
    }
}

fn column(kind: Kind) -> &'static str {
    match kind {
        Kind::Same => "same",
        Kind::Past => "past",
        Kind::Forever => "for ever",
        Kind::Length => "length",
        Kind::NotOwn => "not own",
        Kind::SetUp => "set-up",
        Kind::Cut => "cut",
        Kind::Early => "early",
        Kind::Other => "other",
        Kind::NotTaken => "not taken",
    }
}

fn words(kind: Kind) -> &'static str {
    match kind {
        Kind::Same => "the same",
        Kind::Past => "the Rust polls past the allowance",
        Kind::Forever => "the Rust waits for ever",
        Kind::Length => "the Rust takes the length",
        Kind::NotOwn => "events that are not the unit's own are passed over",
        Kind::SetUp => "the Rust panics at the set-up, or cuts it",
        Kind::Cut => "cut pair",
        Kind::Early => "the Rust puts before it refuses",
        Kind::Other => "the Rust names the receive unit's fault first",
        Kind::NotTaken => "the unit does not take the call",
    }
}
