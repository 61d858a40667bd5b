//! What the port must print of an order, from the Rust and the named differences alone.

use super::{
    asked::{Call, LAST, Opening, SetUps, Side, UnitCall, UnitSetUp},
    rust::{self, Refusal, Units, run},
};
use crate::{
    chips::{
        asked::Call as Function,
        block::Block,
        expected::{ENOUGH, OLD_EVENTS, events_answer, put_better_split},
    },
    published::Chip,
    setups::{
        asked::Asked as SetUp,
        expected::{self as set_ups, Kind as SetUpKind},
        recorded::Build,
    },
};

/// How the two sides stand to each other.
#[derive(Clone, Copy, Debug, PartialEq, Eq, PartialOrd, Ord)]
pub enum Kind {
    /// Both do and answer the same.
    Same,
    /// The Rust polls past the allowance, and ends later; the port refuses by 8 or 9.
    Past,
    /// The same, and the Rust waits for ever.
    Forever,
    /// A length that the port refuses by 6 and the Rust does not.
    Length,
    /// Events that are not the unit's own are handed in; the Rust is handed the others alone.
    NotOwn,
    /// A set-up that the port refuses by 3, 4 or 5, where the Rust panics or cuts.
    SetUp,
    /// A pair that cut products hid from the Rust.
    Cut,
    /// The Rust puts before it refuses an opening; the port puts nothing.
    Early,
    /// The same, and of two units that are both refused the Rust names the other.
    Other,
    /// The unit does not take the call at that point; in the Rust it is lent to its transfer.
    NotTaken,
}

impl Kind {
    pub const ALL: [Kind; 10] = [
        Kind::Same,
        Kind::Past,
        Kind::Forever,
        Kind::Length,
        Kind::NotOwn,
        Kind::SetUp,
        Kind::Cut,
        Kind::Early,
        Kind::Other,
        Kind::NotTaken,
    ];
}

#[derive(Clone, Debug)]
pub struct Expected {
    pub kind: Kind,
    pub line: String,
}

impl Expected {
    fn new(kind: Kind, mut notes: Vec<String>, answer: impl Into<String>) -> Expected {
        notes.push(answer.into());
        Expected { kind, line: notes.join(", ") }
    }

    /// The last line of an order whose opening is refused.
    pub fn nothing_reported() -> Expected {
        Expected::without_notes(Kind::Same, events_answer(0))
    }

    fn without_notes(kind: Kind, answer: impl Into<String>) -> Expected {
        Expected { kind, line: answer.into() }
    }
}

/// Notes that the port keeps of an order.
const MOST_NOTES: usize = 2_048;

/// The longest transfers that the port starts, in bytes.
const TX_LONGEST: u32 = 65_535;
const RX_LONGEST: u32 = 4_096;

/// The events of each unit, transmit first.
const OWN_EVENTS: [u8; 2] = [2 + 8, 1 + 4];

/// The block after a run, and what the run gave; nothing if it panicked.
type Ran<T> = (Block, Option<T>);

/// The units of an opening that both sides accept.
pub struct Session {
    chip: Chip,
    limits: [u16; 2],
    block: Block,
    checked: Box<dyn Units>,
    unchecked: Box<dyn Units>,
    runs: [bool; 2],
    notes: usize,
}

/// What the port must print of an opening, and its units if it is accepted. Nothing of it may be left unexplained: that is an error.
pub fn open(opening: &Opening) -> Result<(Expected, Option<Session>), String> {
    let block = Block::scripted(opening.chip(), [&opening.draws[0], &opening.draws[1]]);
    let (after, checked) = run(block.clone(), || rust::open(Build::Checked, opening));
    let (other, unchecked) = run(block, || rust::open(Build::Unchecked, opening));
    let judged = judge(opening.set_ups)?;
    if let Some((side, refused)) = judged.iter().find(|(_, judged)| judged.is_refused()) {
        let answer = format!("{} {}", refused.line, side.word());
        let kind = match checked {
            _ if refused.kind != SetUpKind::Refused => Kind::SetUp,
            Some(Err(Refusal::SetUp(number))) if format!("refused {number}") == refused.line => {
                Kind::Early
            }
            Some(Err(Refusal::SetUp(number))) if names_another(&judged, number) => Kind::Other,
            _ => return Err("the Rust does not refuse the opening like that".to_string()),
        };
        if kind != Kind::SetUp {
            hold_alike(&after, &other)?;
            if after.notes.is_empty() {
                return Err("the Rust puts nothing before it refuses".to_string());
            }
        }
        return Ok((Expected::without_notes(kind, answer), None));
    }
    let (Some(Ok(checked)), Some(Ok(unchecked))) = (checked, unchecked) else {
        return Err("the Rust does not open".to_string());
    };
    hold_alike(&after, &other)?;
    let mut notes = after.notes.clone();
    let kind = match opening.set_ups {
        SetUps::New(tx, rx) if put_better_split(Function::Configure(tx, rx), &mut notes)? => {
            Kind::Cut
        }
        _ => Kind::Same,
    };
    let session = Session {
        chip: opening.chip(),
        limits: opening.limits,
        notes: notes.len(),
        block: after,
        checked,
        unchecked,
        runs: [false; 2],
    };
    Ok((Expected::new(kind, notes, "end"), Some(session)))
}

/// What the comparison of set-ups asks of the port.
struct Judged {
    kind: SetUpKind,
    line: String,
}

impl Judged {
    fn is_refused(&self) -> bool {
        self.line.starts_with("refused ")
    }
}

fn judge_one(set_up: SetUp) -> Result<Judged, String> {
    let set_ups::Expected { kind, line, .. } = set_ups::of(set_up)?;
    if kind == SetUpKind::Count {
        return Err("channels that the Rust cannot make".to_string());
    }
    Ok(Judged { kind, line })
}

/// The set-ups in the order in which the port checks them. The old chip's one rate counts as the transmit unit's.
fn judge(set_ups: SetUps) -> Result<Vec<(Side, Judged)>, String> {
    match set_ups {
        SetUps::New(tx, rx) => Ok(vec![
            (Side::Transmit, judge_one(SetUp::New(tx))?),
            (Side::Receive, judge_one(SetUp::New(rx))?),
        ]),
        SetUps::Old(both) => Ok(vec![(Side::Transmit, judge_one(SetUp::Old(both))?)]),
    }
}

/// Whether the receive unit is refused by this number too.
fn names_another(judged: &[(Side, Judged)], number: u32) -> bool {
    judged
        .iter()
        .any(|(side, judged)| *side == Side::Receive && judged.line == format!("refused {number}"))
}

/// Both builds of the Rust do the same, and what a block does.
fn hold_alike(checked: &Block, unchecked: &Block) -> Result<(), String> {
    if checked.notes != unchecked.notes || checked.used_up != unchecked.used_up {
        return Err(format!(
            "the builds of the Rust differ: {:?} and {:?}",
            checked.notes, unchecked.notes
        ));
    }
    match checked.wrong.first() {
        Some(wrong) => Err(format!("the Rust does what no block does: {wrong}")),
        None => Ok(()),
    }
}

impl Session {
    pub fn runs(&self, side: Side) -> bool {
        self.runs[side as usize]
    }

    /// What the port must print of a call, which is then made; nothing, and nothing is made, where the port would not keep all notes.
    pub fn make(&mut self, call: Call) -> Result<Option<Expected>, String> {
        if !call.call.is_taken(self.runs(call.side)) {
            return Ok(Some(Expected::without_notes(Kind::NotTaken, "not taken")));
        }
        if let UnitCall::ApplyConfig(UnitSetUp::New(unit)) = call.call {
            let judged = judge_one(SetUp::New(unit))?;
            if judged.is_refused() && judged.kind != SetUpKind::Refused {
                return Ok(Some(Expected::without_notes(Kind::SetUp, judged.line)));
            }
        }
        let (after, given) = self.ask(call)?;
        if is_out_of_range(call) && given != Some(Err(Refusal::IllegalArgument)) {
            self.hold_words_refused(call)?;
            return Ok(Some(Expected::without_notes(Kind::Length, "refused 6")));
        }
        let mut notes = after.notes.clone();
        let (kind, answer) = match given {
            None if after.used_up => {
                let (added, answer) = self.timed_out(call)?;
                notes.extend(added);
                (self.past(call)?, answer)
            }
            None => return Err("the Rust panics".to_string()),
            Some(Ok(())) if is_cut(call, &mut notes)? => (Kind::Cut, "end".to_string()),
            Some(Ok(())) => (self.kind(call), answer(call.call, &after)),
            Some(Err(Refusal::Dma)) => {
                let UnitCall::Start(len, _) = call.call else {
                    return Err("the Rust refuses what it starts not".to_string());
                };
                (Kind::Same, format!("refused 7 {len} {}", self.limits[call.side as usize]))
            }
            Some(Err(refusal)) if notes.is_empty() => {
                let number = match refusal {
                    Refusal::SetUp(number) => number,
                    _ => 6,
                };
                (Kind::Same, format!("refused {number}"))
            }
            Some(Err(_)) => return Err("the Rust puts and then refuses".to_string()),
        };
        if self.notes + notes.len() > MOST_NOTES {
            return Ok(None);
        }
        self.notes += notes.len();
        self.runs[call.side as usize] = match (call.call, given) {
            (UnitCall::Start(..), Some(Ok(()))) => true,
            (UnitCall::Wait(_), Some(_)) | (UnitCall::Stop, _) => false,
            _ => self.runs(call.side),
        };
        self.block = after;
        Ok(Some(Expected::new(kind, notes, answer)))
    }

    /// What the port must print at the end: the events that are reported.
    pub fn end(mut self) -> Result<Expected, String> {
        self.block.begin(None, None);
        let chip = self.chip;
        let (checked, events) = run(self.block.clone(), || rust::reported(Build::Checked, chip));
        let (unchecked, others) = run(self.block, || rust::reported(Build::Unchecked, chip));
        hold_alike(&checked, &unchecked)?;
        match events {
            Some(events) if events == others.unwrap_or(!events) => {
                Ok(Expected::without_notes(Kind::Same, events_answer(events)))
            }
            _ => Err(format!("the Rust's {LAST} differ: {events:?} and {others:?}")),
        }
    }

    /// Both builds of the Rust, which do the same but where the port's lengths are passed.
    fn ask(&mut self, call: Call) -> Result<Ran<Result<(), Refusal>>, String> {
        let own = self.with_own_events(call);
        let begun = self.begun(call, call.call.allowance());
        let (after, given) = run(begun.clone(), || self.checked.make(own));
        let (other, other_given) = run(begun, || self.unchecked.make(own));
        if !is_out_of_range(call) {
            hold_alike(&after, &other)?;
            if given != other_given {
                return Err(format!("the builds of the Rust give {given:?} and {other_given:?}"));
            }
        }
        Ok((after, given))
    }

    /// The receive lengths that `read_dma` takes and the port does not are those that `read_words` refuses.
    fn hold_words_refused(&mut self, call: Call) -> Result<(), String> {
        let Call { side: Side::Receive, call: UnitCall::Start(len, _) } = call else {
            return Ok(());
        };
        let begun = self.begun(call, None);
        match run(begun, || self.checked.read_words(len)) {
            (block, Some(Err(Refusal::IllegalArgument))) if block.notes.is_empty() => Ok(()),
            _ => Err("the Rust's read_words does not refuse the length".to_string()),
        }
    }

    fn begun(&self, call: Call, allowance: Option<u16>) -> Block {
        let for_both = match call.call {
            UnitCall::Listen(_) => Some(true),
            UnitCall::Unlisten(_) | UnitCall::ClearInterrupts(_) => Some(false),
            _ => None,
        };
        let mut block = self.block.clone();
        block.begin(allowance, for_both);
        block
    }

    fn with_own_events(&self, Call { side, call }: Call) -> Call {
        let own = self.own_events(side);
        let call = match call {
            UnitCall::Listen(mask) => UnitCall::Listen(mask & own),
            UnitCall::Unlisten(mask) => UnitCall::Unlisten(mask & own),
            UnitCall::ClearInterrupts(mask) => UnitCall::ClearInterrupts(mask & own),
            other => other,
        };
        Call { side, call }
    }

    fn own_events(&self, side: Side) -> u8 {
        let of_chip = match self.chip {
            Chip::Old => OLD_EVENTS,
            Chip::New => u8::MAX,
        };
        OWN_EVENTS[side as usize] & of_chip
    }

    fn kind(&self, Call { side, call }: Call) -> Kind {
        match call.mask() {
            Some(mask) if mask & !self.own_events(side) != 0 => Kind::NotOwn,
            _ => Kind::Same,
        }
    }

    /// What the port adds to a start or a wait that ends at its allowance.
    fn timed_out(&self, call: Call) -> Result<(Option<String>, String), String> {
        match call {
            Call { side: Side::Transmit, call: UnitCall::Start(_, allowance) } => {
                Ok((Some("put tx_start 0".to_string()), format!("refused 8 {allowance}")))
            }
            Call { call: UnitCall::Wait(allowance), .. } => {
                Ok((None, format!("refused 9 {allowance}")))
            }
            _ => Err("the Rust polls where nothing is waited for".to_string()),
        }
    }

    /// Whether the Rust would end with more polls.
    fn past(&mut self, call: Call) -> Result<Kind, String> {
        let begun = self.begun(call, Some(ENOUGH));
        match run(begun, || self.checked.make(call)) {
            (block, None) if block.used_up => Ok(Kind::Forever),
            (_, Some(Ok(()))) => Ok(Kind::Past),
            _ => Err("the Rust answers otherwise with more polls".to_string()),
        }
    }
}

/// Whether the port alone has a word against the length.
fn is_out_of_range(Call { side, call }: Call) -> bool {
    let longest = match side {
        Side::Transmit => TX_LONGEST,
        Side::Receive => RX_LONGEST,
    };
    matches!(call, UnitCall::Start(len, _) if len == 0 || len > longest)
}

fn is_cut(Call { side, call }: Call, notes: &mut [String]) -> Result<bool, String> {
    match (side, call) {
        (Side::Transmit, UnitCall::ApplyConfig(UnitSetUp::New(unit))) => {
            put_better_split(Function::ConfigureTx(unit), notes)
        }
        (Side::Receive, UnitCall::ApplyConfig(UnitSetUp::New(unit))) => {
            put_better_split(Function::ConfigureRx(unit), notes)
        }
        _ => Ok(false),
    }
}

fn answer(call: UnitCall, after: &Block) -> String {
    match call.allowance() {
        Some(_) => format!("answer {}", after.polls),
        None => "end".to_string(),
    }
}
