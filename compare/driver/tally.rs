//! Counts the verdicts, keeps what is to be listed, and prints the summary.

use std::collections::{BTreeMap, BTreeSet};

use crate::{
    inputs::{LAST_RATE, WIDTHS, known_cut},
    judge::{self, SplitVerdict, Verdict, pair},
    published::{Chip, Input},
};

/// Of the unexplained only the first are printed; all are counted.
const SHOWN: usize = 40;

#[derive(Default)]
struct Counts {
    agreed: u64,
    cut: u64,
    refused: u64,
    unexplained: u64,
}

/// How often something came up, and where it first did.
#[derive(Default)]
struct Seen {
    count: u64,
    first: Option<String>,
}

impl Seen {
    fn add(&mut self, what: impl FnOnce() -> String) {
        self.count += 1;
        self.first.get_or_insert_with(what);
    }

    fn print(&self, what: &str) {
        let first = self.first.as_deref().map(|first| format!(", first {first}"));
        println!("  {what}: {}{}", self.count, first.unwrap_or_default());
    }
}

#[derive(Default)]
pub struct Tally {
    groups: Vec<(String, u32, Counts)>,
    splits: u64,
    by_zero: Seen,
    pairs: u64,
    pairs_by_zero: Seen,
    listed: BTreeMap<(u32, u8), BTreeSet<u32>>,
    not_listed: Seen,
    wrapped: Seen,
    both_panic: Seen,
    unexplained: Vec<String>,
}

impl Tally {
    /// Compares every input of a group on both chips.
    pub fn compare<I: Iterator<Item = Input>>(&mut self, name: &str, inputs: impl Fn() -> I) {
        for chip in Chip::BOTH {
            let mut counts = Counts::default();
            for input in inputs() {
                self.one(chip, input, &mut counts);
            }
            self.groups.push((name.to_string(), chip.max(), counts));
        }
    }

    fn one(&mut self, chip: Chip, input: Input, counts: &mut Counts) {
        match judge::dividers(chip, input) {
            Verdict::Agreed(both) => {
                counts.agreed += 1;
                self.split_of(chip, input, pair(both));
            }
            Verdict::Cut { rust, port } => {
                counts.cut += 1;
                self.cut(chip, input, rust, port);
                self.split_of(chip, input, pair(rust));
                self.split_of(chip, input, pair(port));
            }
            Verdict::Refused(unchecked) => {
                counts.refused += 1;
                self.refused(input, unchecked);
            }
            Verdict::Unexplained(what) => {
                counts.unexplained += 1;
                self.unexplained.push(format!("MAX {} {input:?}: {what}", chip.max()));
            }
        }
    }

    /// A cut rate is listed where a driver would set it: in stereo, at a width of the formats,
    /// with an integer part that the divider takes.
    fn cut(&mut self, chip: Chip, input: Input, rust: [u32; 4], port: [u32; 4]) {
        let taken = (1..=255).contains(&port[0]);
        if taken && input.channels == 2 && WIDTHS.contains(&input.bits) && input.rate <= LAST_RATE {
            self.listed.entry((chip.max(), input.bits)).or_default().insert(input.rate);
        } else {
            let max = chip.max();
            self.not_listed
                .add(|| format!("MAX {max} {input:?}: the Rust {rust:?}, the port {port:?}"));
        }
    }

    fn refused(&mut self, input: Input, unchecked: Option<[u32; 4]>) {
        match unchecked {
            Some(numbers) => self.wrapped.add(|| format!("{input:?} to {numbers:?}")),
            None => self.both_panic.add(|| format!("{input:?}")),
        }
    }

    fn split_of(&mut self, chip: Chip, input: Input, pair: [u32; 2]) {
        if chip == Chip::New {
            self.splits += 1;
            if self.split(pair) {
                self.by_zero.add(|| format!("{pair:?} of {input:?}"));
            }
        }
    }

    /// Compares the split of a pair that no rate need give.
    pub fn pair(&mut self, pair: [u32; 2]) {
        self.pairs += 1;
        if self.split(pair) {
            self.pairs_by_zero.add(|| format!("{pair:?}"));
        }
    }

    /// True if the Rust divides by zero there.
    fn split(&mut self, pair: [u32; 2]) -> bool {
        let verdict = judge::split(pair);
        if let SplitVerdict::Unexplained(what) = &verdict {
            self.unexplained.push(format!("split of {pair:?}: {what}"));
        }
        matches!(verdict, SplitVerdict::ByZero)
    }

    /// Notes a check that is not a comparison with the published Rust.
    pub fn hold(&mut self, holds: bool, what: impl FnOnce() -> String) {
        if !holds {
            self.unexplained.push(what());
        }
    }

    /// Prints everything; true if nothing is left unexplained.
    pub fn report(mut self) -> bool {
        self.hold_known_cuts();
        self.print_groups();
        self.print_faults();
        self.print_unexplained();
        self.unexplained.is_empty()
    }

    fn hold_known_cuts(&mut self) {
        for chip in Chip::BOTH {
            for bits in WIDTHS {
                let max = chip.max();
                let found = self.listed.get(&(max, bits)).cloned().unwrap_or_default();
                let known = known_cut(max, bits).iter().copied().collect();
                self.hold(found == known, || {
                    format!("cut at MAX {max} and {bits} bits: found {found:?}, known {known:?}")
                });
            }
        }
    }

    fn print_groups(&self) {
        println!("| inputs | MAX | compared | agreed | cut | refused | unexplained |");
        println!("|---|---|---|---|---|---|---|");
        let mut sum = Counts::default();
        for (name, max, counts) in &self.groups {
            print_row(name, &max.to_string(), counts);
            sum.agreed += counts.agreed;
            sum.cut += counts.cut;
            sum.refused += counts.refused;
            sum.unexplained += counts.unexplained;
        }
        print_row("all", "", &sum);
    }

    fn print_faults(&self) {
        println!("\nFault 1, products cut to 32 bits: the Rust takes another pair.");
        for chip in Chip::BOTH {
            for bits in WIDTHS {
                self.print_listed(chip.max(), bits);
            }
        }
        self.not_listed.print("others");
        println!("\nFault 2, overflow or a zero: the checked Rust panics, the port refuses.");
        self.wrapped.print("the unchecked Rust wraps to numbers");
        self.both_panic.print("the unchecked Rust panics too, dividing by zero");
        println!(
            "\nFault 3, a pair n = a: the Rust's split divides by zero, the port refuses."
        );
        self.by_zero.print(&format!("of {} splits of the pairs above at MAX 511", self.splits));
        self.pairs_by_zero.print(&format!("of {} splits of every pair to MAX 511", self.pairs));
    }

    fn print_listed(&self, max: u32, bits: u8) {
        let rates = self.listed.get(&(max, bits)).into_iter().flatten();
        let rates: Vec<String> = rates.map(u32::to_string).collect();
        let rates = if rates.is_empty() { "none".to_string() } else { rates.join(" ") };
        println!("  MAX {max}, stereo, {bits} bits, integer part 1..=255: {rates}");
    }

    fn print_unexplained(&self) {
        println!("\nUnexplained: {}", self.unexplained.len());
        for what in self.unexplained.iter().take(SHOWN) {
            println!("  {what}");
        }
    }
}

fn print_row(name: &str, max: &str, counts: &Counts) {
    let Counts { agreed, cut, refused, unexplained } = counts;
    let compared = agreed + cut + refused + unexplained;
    println!("| {name} | {max} | {compared} | {agreed} | {cut} | {refused} | {unexplained} |");
}
