//! A block behind the registers of the published driver: it moves as docs/RULES.md says, answers what
//! the driver reads, and notes each put, clear, enabling and poll as `chip_oracle` prints them.

use std::collections::VecDeque;

use recorder::{Behind, Event};

use super::{
    asked::{Before, Course, Draw},
    widths::stored,
};
use crate::published::Chip;

/// What the published driver puts for the clock's source: the register as a whole, with bit 22.
const CLOCK_SOURCE: u32 = 1 << 22;

const SIDES: [&str; 2] = ["tx", "rx"];
const TX: usize = 0;
const RX: usize = 1;

/// The events of each half, by their names and without tx_ and rx_.
const EVENTS: [[&str; 4]; 2] =
    [["hung", "done", "out_done", "out_total_eof"], ["hung", "done", "in_done", "in_suc_eof"]];

/// All but hung, which stand at the end of every transfer.
const ENDED: [bool; 4] = [false, true, true, true];

/// What a start draws behind the last row of a script: a transfer that is not seen to end.
const AFTER_THE_LAST: Draw = Draw { late: 0, wait: u32::MAX, hung: false };

/// What the starts of a half draw.
#[derive(Clone)]
enum Draws {
    Paced(Draw),
    Scripted(VecDeque<Draw>),
}

impl Draws {
    fn next(&mut self) -> Draw {
        match self {
            Draws::Paced(draw) => *draw,
            Draws::Scripted(rows) => rows.pop_front().unwrap_or(AFTER_THE_LAST),
        }
    }
}

#[derive(Clone)]
struct Half {
    draws: Draws,
    busy: bool,
    late: u32,
    wait: u32,
    hung: bool,
    stand: [bool; 4],
    enabled: [bool; 4],
}

impl Half {
    fn at_rest(draws: Draws) -> Half {
        Half {
            draws,
            busy: false,
            late: 0,
            wait: 0,
            hung: false,
            stand: [false; 4],
            enabled: [false; 4],
        }
    }

    fn start(&mut self) {
        let draw = self.draws.next();
        self.busy = true;
        self.late = draw.late;
        self.wait = draw.wait;
        self.hung = draw.hung;
    }

    fn end(&mut self) {
        self.busy = false;
        for (place, stands) in self.stand.iter_mut().enumerate() {
            *stands |= ENDED[place] || place == 0 && self.hung;
        }
    }

    /// A poll of a transmit half: whether it is found idle.
    fn poll_tx(&mut self) -> bool {
        if !self.busy {
            return true;
        }
        if self.late > 0 {
            self.late -= 1;
            return true;
        }
        if self.wait > 0 {
            self.wait -= 1;
            return false;
        }
        self.end();
        true
    }

    fn poll_rx(&mut self) {
        if self.busy && self.wait > 0 {
            self.wait -= 1;
        } else if self.busy {
            self.end();
        }
    }
}

/// The events that a write of int_clr or int_ena names, with the bit that is put for each.
type Named = [[Option<bool>; 4]; 2];

#[derive(Clone)]
pub struct Block {
    chip: Chip,
    halves: [Half; 2],
    idle: bool,
    named: Named,
    /// Whether the function names events of both halves, and turns them on or off.
    for_both: Option<bool>,
    allowance: Option<u16>,
    pub polls: u32,
    /// Whether the driver went on past the allowance.
    pub used_up: bool,
    pub notes: Vec<String>,
    /// What the driver did that no block does.
    pub wrong: Vec<String>,
    /// Reads of registers that it changes, or whose events it looks at.
    pub reads: u64,
    pub writes: u64,
}

impl Block {
    /// A block to which nothing was done, whose starts draw the rows of a list for each half, transmit first.
    pub fn scripted(chip: Chip, [tx, rx]: [&[Draw]; 2]) -> Block {
        let script = |rows: &[Draw]| Draws::Scripted(rows.iter().copied().collect());
        Block::at_rest(chip, [script(tx), script(rx)])
    }

    fn at_rest(chip: Chip, draws: [Draws; 2]) -> Block {
        Block {
            chip,
            halves: draws.map(Half::at_rest),
            idle: true,
            named: Named::default(),
            for_both: None,
            allowance: None,
            polls: 0,
            used_up: false,
            notes: Vec::new(),
            wrong: Vec::new(),
            reads: 0,
            writes: 0,
        }
    }

    /// A function begins, with so many polls allowed and nothing noted.
    pub fn begin(&mut self, allowance: Option<u16>, for_both: Option<bool>) {
        self.allowance = allowance;
        self.for_both = for_both;
        self.polls = 0;
        self.used_up = false;
        self.notes.clear();
    }

    pub fn new(
        chip: Chip,
        before: Before,
        allowance: Option<u16>,
        for_both: Option<bool>,
    ) -> Block {
        let mut block = Block::at_rest(chip, [before.draw; 2].map(Draws::Paced));
        block.begin(allowance, for_both);
        for (side, course) in [before.tx, before.rx].into_iter().enumerate() {
            let half = &mut block.halves[side];
            if course != Course::Rest {
                half.start();
            }
            if course == Course::Ended {
                half.late = 0;
                half.wait = 0;
                half.end();
            }
        }
        block.enable_before(before.enabled);
        block
    }

    fn enable_before(&mut self, mask: u8) {
        let has_done = self.chip == Chip::New;
        self.halves[RX].enabled = [mask & 1 != 0, mask & 4 != 0 && has_done, false, false];
        self.halves[TX].enabled = [mask & 2 != 0, mask & 8 != 0 && has_done, false, false];
    }

    fn put(&mut self, register: &'static str, field: &'static str, value: u32) {
        match (register, field) {
            ("int_clr" | "int_ena", _) => match event(field) {
                Some((side, place)) => self.named[side][place] = Some(value != 0),
                None => self.wrong.push(format!("{register} has no event {field}")),
            },
            ("clkm_conf", "bits") if self.chip == Chip::Old && value == CLOCK_SOURCE => {
                self.notes.push("put clkm_bit22 1".to_string());
            }
            (_, "bits") => self.wrong.push(format!("{value} is put into {register} as a whole")),
            _ => self.store(field, stored(self.chip, field, value)),
        }
    }

    fn store(&mut self, field: &'static str, number: u32) {
        self.notes.push(format!("put {field} {number}"));
        match (field, number) {
            ("tx_start", 1) => self.halves[TX].start(),
            ("rx_start", 1) => self.halves[RX].start(),
            ("tx_reset", 1) => self.halves[TX].busy = false,
            ("rx_reset", 1) => self.halves[RX].busy = false,
            _ => {}
        }
    }

    /// The write of int_clr or int_ena is over: a call for each half that it names, or for both.
    fn name_events(&mut self, register: &str) {
        for side in [TX, RX] {
            let named = std::mem::take(&mut self.named[side]);
            if self.for_both.is_some() || named != [None; 4] {
                self.name_events_of(register, side, named);
            }
        }
    }

    fn name_events_of(&mut self, register: &str, side: usize, named: [Option<bool>; 4]) {
        let events = words(side, named.map(|put| put.is_some()));
        let half = &mut self.halves[side];
        if register == "int_clr" {
            if named.contains(&Some(false)) {
                self.wrong.push("0 is put into int_clr".to_string());
            }
            for place in 0..4 {
                half.stand[place] &= named[place].is_none();
            }
            self.notes.push(format!("clear {events}"));
            return;
        }
        for place in 0..4 {
            half.enabled[place] = named[place].unwrap_or(half.enabled[place]);
        }
        let on = self.for_both == Some(true);
        if named.contains(&Some(!on)) {
            self.wrong.push("int_ena is turned the other way".to_string());
        }
        self.notes.push(format!("enable {events} {}", if on { "on" } else { "off" }));
    }

    fn poll(&mut self, side: usize) {
        if self.allowance == Some(self.polls.try_into().unwrap_or(u16::MAX)) {
            self.used_up = true;
            panic!("the driver waits for ever");
        }
        self.polls += 1;
        let half = &mut self.halves[side];
        if side == TX {
            self.idle = half.poll_tx();
            let found = if self.idle { "idle" } else { "busy" };
            self.notes.push(format!("poll tx {found}"));
        } else {
            half.poll_rx();
            let events = words(RX, half.stand);
            self.notes.push(format!("poll {events}"));
        }
    }
}

impl Behind for Block {
    fn told(&mut self, event: Event) {
        match event {
            Event::Read { register: "state" } => self.poll(TX),
            Event::Read { register: "int_raw" } => self.poll(RX),
            Event::Read { .. } => self.reads += 1,
            Event::Put { register, field, value } => self.put(register, field, value),
            Event::Written { register } => {
                self.writes += 1;
                if ["int_clr", "int_ena"].contains(&register) {
                    self.name_events(register);
                }
            }
        }
    }

    fn found(&self, register: &'static str, field: &'static str) -> u32 {
        let reads = |half: &Half, place: usize| match register {
            "int_raw" => half.stand[place],
            "int_st" => half.stand[place] && half.enabled[place],
            _ => false,
        };
        match (register, field, event(field)) {
            ("state", "tx_idle", _) => self.idle as u32,
            (_, _, Some((side, place))) => reads(&self.halves[side], place) as u32,
            _ => 0,
        }
    }
}

/// The half of an event by the driver's name, and its place there.
fn event(name: &str) -> Option<(usize, usize)> {
    for (side, names) in EVENTS.iter().enumerate() {
        for (place, known) in names.iter().enumerate() {
            let is_of_half = ["hung", "done"].contains(known);
            let bare = name.strip_prefix(SIDES[side]).and_then(|name| name.strip_prefix('_'));
            if bare == Some(known) && is_of_half || name == *known && !is_of_half {
                return Some((side, place));
            }
        }
    }
    None
}

/// A half and some of its events.
fn words(side: usize, events: [bool; 4]) -> String {
    let mut words = vec![SIDES[side]];
    words.extend(
        EVENTS[side].iter().zip(events).filter(|(_, is_one)| *is_one).map(|(name, _)| *name),
    );
    words.join(" ")
}
