//! Counts how the port's calls stand to the Rust's, and prints the summary.

use std::collections::{BTreeMap, BTreeSet};

use super::{
    asked::{Asked, Call},
    expected::{self, Expected, Kind},
    inputs::Group,
};
use crate::{inputs::known_cut, published::Chip, setups::port::Port};

/// Of the unexplained only the first are printed; all are counted.
const SHOWN: usize = 40;

#[derive(Clone, Default)]
struct Counts {
    kinds: BTreeMap<Kind, u64>,
    unexplained: u64,
    unasked: u64,
}

impl Counts {
    fn of(&self, kind: Kind) -> u64 {
        self.kinds.get(&kind).copied().unwrap_or(0)
    }

    fn compared(&self) -> u64 {
        self.kinds.values().sum::<u64>() + self.unexplained
    }

    fn add(&mut self, other: &Counts) {
        for (kind, count) in &other.kinds {
            *self.kinds.entry(*kind).or_default() += count;
        }
        self.unexplained += other.unexplained;
        self.unasked += other.unasked;
    }
}

#[derive(Default)]
pub struct Tally {
    groups: Vec<(String, Counts)>,
    first: BTreeMap<(Kind, &'static str, &'static str), String>,
    cut: BTreeSet<u32>,
    notes: u64,
    reads: u64,
    writes: u64,
    bad_lines: usize,
    unexplained: Vec<String>,
}

impl Tally {
    pub fn compare(&mut self, port: &Port, group: Group) {
        let Some(first) = group.calls.first() else {
            return self.wrong("a group without a call".to_string());
        };
        let name = format!("{}: {}{}", chip(group.chip), first.call.name(), group.of);
        let mut counts = Counts::default();
        let mut asked = Vec::new();
        for call in group.calls {
            match expected::of(call) {
                Ok(Some(expected)) => asked.push((call, expected)),
                Ok(None) => counts.unasked += 1,
                Err(why) => {
                    counts.unexplained += 1;
                    self.wrong(format!("{}: {why}", call.line()));
                }
            }
        }
        let lines: Vec<String> = asked.iter().map(|(call, _)| call.line()).collect();
        match port.answers(&(lines.join("\n") + "\n")) {
            Ok(answers) if answers.len() == asked.len() => {
                for ((call, expected), answer) in asked.into_iter().zip(answers) {
                    self.one(call, expected, &answer, &mut counts);
                }
            }
            Ok(answers) => self.wrong(format!("{} answers to {name}", answers.len())),
            Err(why) => self.wrong(format!("{name}: {why}")),
        }
        self.groups.push((name, counts));
    }

    fn one(&mut self, asked: Asked, expected: Expected, answer: &str, counts: &mut Counts) {
        let Expected { kind, line, reads, writes } = expected;
        if line != answer {
            counts.unexplained += 1;
            return self.wrong(format!(
                "{}: the port must print\n    {line}\n  and prints\n    {answer}",
                asked.line()
            ));
        }
        self.notes += line.split(", ").count() as u64 - 1;
        self.reads += reads;
        self.writes += writes;
        *counts.kinds.entry(kind).or_default() += 1;
        if kind == Kind::Cut {
            self.cut.extend(units(asked.call).into_iter().filter(is_known_cut));
        }
        if kind != Kind::Same {
            let what = (kind, chip(asked.chip), asked.call.name());
            let shown = if kind == Kind::Cut { String::new() } else { format!(": {line}") };
            self.first.entry(what).or_insert_with(|| format!("{}{shown}", asked.line()));
        }
    }

    /// Holds the program to its refusal of lines that are no call.
    pub fn refuse(&mut self, port: &Port, good: &str, lines: Vec<String>) {
        for bad in lines {
            self.bad_lines += 1;
            if !port.refuses_line(good, &bad) {
                self.wrong(format!("chip_oracle does not refuse the line {bad}"));
            }
        }
    }

    fn wrong(&mut self, what: String) {
        self.unexplained.push(what);
    }

    /// Prints everything; true if nothing is left unexplained.
    pub fn report(mut self) -> bool {
        let known: BTreeSet<u32> = known_cut(511, 16).iter().copied().collect();
        if self.cut != known {
            self.wrong(format!("calls are cut at {:?}, and not at the known rates", self.cut));
        }
        self.print_groups();
        println!("\nNamed differences of calls, each with the first that shows it:");
        for ((kind, chip, name), first) in &self.first {
            println!("  {}, {chip}, {name}\n    {first}", words(*kind));
        }
        let cut: Vec<String> = self.cut.iter().map(u32::to_string).collect();
        println!("  cut, another split at the rates: {}", cut.join(" "));
        println!("\nNotes of both, in the same order: {}", self.notes);
        println!(
            "Writes of registers by the Rust: {}; reads of theirs that the port does not make: {}",
            self.writes, self.reads
        );
        println!("Lines that are no call, refused with their number: {}", self.bad_lines);
        println!("\nUnexplained calls: {}", self.unexplained.len());
        for what in self.unexplained.iter().take(SHOWN) {
            println!("  {what}");
        }
        self.unexplained.is_empty()
    }

    fn print_groups(&self) {
        println!(
            "\n| calls | compared | same | past | for ever | lacking | cut | half | \
             unexplained | not asked |"
        );
        println!("|{}", "---|".repeat(10));
        let mut sum = Counts::default();
        for (name, counts) in &self.groups {
            print_row(name, counts);
            sum.add(counts);
        }
        print_row("all", &sum);
    }
}

fn print_row(name: &str, counts: &Counts) {
    let kinds: Vec<String> = Kind::ALL.iter().map(|kind| counts.of(*kind).to_string()).collect();
    println!(
        "| {name} | {} | {} | {} | {} |",
        counts.compared(),
        kinds.join(" | "),
        counts.unexplained,
        counts.unasked
    );
}

/// The rates of the new chip's units in a call.
fn units(call: Call) -> Vec<u32> {
    match call {
        Call::Configure(tx, rx) => vec![tx.rate, rx.rate],
        Call::ConfigureTx(unit) | Call::ConfigureRx(unit) => vec![unit.rate],
        _ => Vec::new(),
    }
}

fn is_known_cut(rate: &u32) -> bool {
    known_cut(511, 16).contains(rate)
}

fn chip(chip: Chip) -> &'static str {
    match chip {
        Chip::Old => "old chip",
        Chip::New => "new chip",
    }
}

fn words(kind: Kind) -> &'static str {
    match kind {
        Kind::Same => "the same",
        Kind::Past => "the Rust polls past the allowance",
        Kind::Forever => "the Rust waits for ever",
        Kind::Lacking => "events that the chip lacks are passed over",
        Kind::Cut => "cut pair",
        Kind::Half => "the Rust stores the transmit unit before it refuses",
    }
}
