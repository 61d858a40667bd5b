//! Counts how the port's answers stand to the Rust's, and prints the summary.

use std::collections::{BTreeMap, BTreeSet};

use super::{
    asked::Asked,
    expected::{self, Expected, Kind},
    numbers,
    port::Port,
    recorded::{Answer, Half},
};
use crate::inputs::known_cut;

/// Of the unexplained only the first are printed; all are counted.
const SHOWN: usize = 40;

#[derive(Default)]
struct Counts {
    kinds: BTreeMap<Kind, u64>,
    unexplained: u64,
}

impl Counts {
    fn of(&self, kind: Kind) -> u64 {
        self.kinds.get(&kind).copied().unwrap_or(0)
    }

    fn compared(&self) -> u64 {
        self.kinds.values().sum::<u64>() + self.unexplained
    }
}

/// How often a build of the Rust did something, and where it first did.
#[derive(Default)]
struct Seen {
    count: u64,
    first: String,
}

/// A named difference: its kind, what the port does, which build of the Rust, and what that does.
type What = (Kind, &'static str, &'static str, &'static str);

#[derive(Default)]
pub struct Tally {
    groups: Vec<(String, Counts)>,
    seen: BTreeMap<What, Seen>,
    cut: BTreeSet<u32>,
    others: BTreeMap<(&'static str, &'static str), u32>,
    bad_lines: usize,
    unexplained: Vec<String>,
}

impl Tally {
    pub fn compare(&mut self, name: &str, port: &Port, group: Vec<Asked>) {
        let lines: Vec<String> = group.iter().map(Asked::line).collect();
        let answers = match port.answers(&(lines.join("\n") + "\n")) {
            Ok(answers) if answers.len() == group.len() => answers,
            Ok(answers) => return self.wrong(format!("{} answers to {name}", answers.len())),
            Err(why) => return self.wrong(format!("{name}: {why}")),
        };
        let mut counts = Counts::default();
        for (asked, answer) in group.into_iter().zip(answers) {
            self.one(asked, &answer, &mut counts);
        }
        self.groups.push((name.to_string(), counts));
    }

    fn one(&mut self, asked: Asked, answer: &str, counts: &mut Counts) {
        let held = expected::of(asked).and_then(|expected| {
            if expected.line == answer {
                self.hold_others(asked, &expected)?;
                Ok(expected)
            } else {
                let Expected { kind, line, .. } = expected;
                Err(format!("{kind:?}: the port must answer\n    {line} and does\n    {answer}"))
            }
        });
        match held {
            Ok(expected) => {
                *counts.kinds.entry(expected.kind).or_default() += 1;
                self.see(asked, &expected);
            }
            Err(why) => {
                counts.unexplained += 1;
                self.wrong(format!("{}: {why}", asked.line()));
            }
        }
    }

    /// A field that is not compared by name gets the same number in every set-up.
    fn hold_others(&mut self, asked: Asked, expected: &Expected) -> Result<(), String> {
        for (field, number) in &expected.others {
            let known = *self.others.entry((chip(asked), field)).or_insert(*number);
            if known != *number {
                return Err(format!("the Rust puts {number} into {field}, and {known} before"));
            }
        }
        Ok(())
    }

    fn see(&mut self, asked: Asked, expected: &Expected) {
        match (expected.kind, asked) {
            (Kind::Numbers | Kind::Refused, _) => {}
            (Kind::Cut, Asked::New(unit)) => {
                self.cut.insert(unit.rate);
            }
            (kind, _) => {
                let builds = [("checked", &expected.checked), ("unchecked", &expected.unchecked)];
                for (build, answer) in builds {
                    let what = (kind, port(&expected.line), build, outcome(answer));
                    let seen = self.seen.entry(what).or_default();
                    if seen.count == 0 {
                        let line = asked.line();
                        let stored = stored(asked, answer);
                        let port = refusal(&expected.line).unwrap_or("has numbers");
                        seen.first = format!("{line}: {stored}the port {port}");
                    }
                    seen.count += 1;
                }
            }
        }
    }

    /// Holds the program to its refusal of lines that are no set-up.
    pub fn refuse(&mut self, port: &Port, good: &str, lines: Vec<String>) {
        for bad in lines {
            self.bad_lines += 1;
            if !port.refuses_line(good, &bad) {
                self.wrong(format!("setup_oracle does not refuse the line {bad}"));
            }
        }
    }

    fn wrong(&mut self, what: String) {
        self.unexplained.push(what);
    }

    /// Prints everything; true if nothing is left unexplained.
    pub fn report(mut self) -> bool {
        let known: BTreeSet<u32> = known_cut(511, 16).iter().copied().collect();
        if self.cut != known {
            self.wrong(format!("cut at {:?}, and not at the known rates", self.cut));
        }
        self.print_groups();
        self.print_named();
        self.print_others();
        println!("\nLines that are no set-up, refused with their number: {}", self.bad_lines);
        println!("\nUnexplained set-ups: {}", self.unexplained.len());
        for what in self.unexplained.iter().take(SHOWN) {
            println!("  {what}");
        }
        self.unexplained.is_empty()
    }

    fn print_groups(&self) {
        println!(
            "\n| set-ups | compared | same numbers | same refusal | count | frame | rate | part \
             | split | cut | unexplained |"
        );
        println!("|{}", "---|".repeat(11));
        let mut sum = Counts::default();
        for (name, counts) in &self.groups {
            print_row(name, counts);
            sum.unexplained += counts.unexplained;
            for (kind, count) in &counts.kinds {
                *sum.kinds.entry(*kind).or_default() += count;
            }
        }
        print_row("all", &sum);
    }

    fn print_named(&self) {
        println!("\nNamed differences of set-ups, each with its first line:");
        for ((kind, port, build, outcome), Seen { count, first }) in &self.seen {
            let kind = words(*kind);
            println!("  {kind}: {count} times the {build} Rust {outcome}, the port {port}");
            println!("    {first}");
        }
        let cut: Vec<String> = self.cut.iter().map(u32::to_string).collect();
        println!("  cut, another split at the rates: {}", cut.join(" "));
    }

    fn print_others(&self) {
        println!("\nPuts that are the same in every set-up:");
        for chip in ["old chip", "new chip"] {
            let of_chip = self.others.iter().filter(|((of, _), _)| *of == chip);
            let puts: Vec<String> =
                of_chip.map(|((_, field), number)| format!("{field} {number}")).collect();
            println!("  {chip}: {}", puts.join(", "));
        }
    }
}

fn print_row(name: &str, counts: &Counts) {
    let kinds: Vec<String> = Kind::ALL.iter().map(|kind| counts.of(*kind).to_string()).collect();
    let compared = counts.compared();
    println!("| {name} | {compared} | {} | {} |", kinds.join(" | "), counts.unexplained);
}

fn chip(asked: Asked) -> &'static str {
    match asked {
        Asked::New(_) => "new chip",
        Asked::Old(_) => "old chip",
    }
}

fn words(kind: Kind) -> &'static str {
    match kind {
        Kind::Numbers => "same numbers",
        Kind::Refused => "same refusal",
        Kind::Count => "count of 16 and more",
        Kind::Frame => "frame above 128 bits",
        Kind::Rate => "rate with a clock of 0 or past 32 bits",
        Kind::Part => "integer part outside 1 to 255",
        Kind::Split => "a pair that cannot be split",
        Kind::Cut => "cut pair",
    }
}

fn refusal(line: &str) -> Option<&str> {
    line.starts_with("refused").then_some(line)
}

fn port(line: &str) -> &'static str {
    if refusal(line).is_some() { "refuses" } else { "has numbers" }
}

fn outcome(answer: &Answer) -> &'static str {
    match answer {
        Answer::Stored(_) => "has numbers",
        Answer::Refused(_) => "refuses",
        Answer::Panicked => "panics",
    }
}

/// The numbers that a named difference is about, or what refused.
fn stored(asked: Asked, answer: &Answer) -> String {
    let numbers = match (asked, answer) {
        (_, Answer::Refused(number)) => return format!("the Rust refused {number}, "),
        (_, Answer::Panicked) => return String::new(),
        (Asked::New(_), Answer::Stored(events)) => numbers::of_half(events, Half::Transmit),
        (Asked::Old(_), Answer::Stored(events)) => numbers::of_both(events),
    };
    let Ok(numbers) = numbers else {
        return String::new();
    };
    let about = ["clkm_div_num", "bck_div_num", "half_sample_bits", "tdm_chan_en"];
    let words: Vec<String> = about
        .iter()
        .filter_map(|name| numbers.get(name).map(|number| format!("{name} {number}")))
        .collect();
    format!("the Rust {}, ", words.join(" "))
}
