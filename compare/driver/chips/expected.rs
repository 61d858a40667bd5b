//! What the port must print of a call, from the Rust and the named differences alone.

use super::{
    asked::{Asked, Call},
    block::Block,
    rust::run,
};
use crate::{
    exact::{CUT, Search, WHOLE},
    inputs::known_cut,
    published::{self, Chip, Input},
    setups::{asked::Unit, numbers::SPLIT, recorded::Build},
};

/// How the two sides stand to each other.
#[derive(Clone, Copy, Debug, PartialEq, Eq, PartialOrd, Ord)]
pub enum Kind {
    /// Both do and answer the same.
    Same,
    /// The Rust polls past the allowance; the port stops there and answers none.
    Past,
    /// The same, and the Rust never finds what it waits for.
    Forever,
    /// Events that the old chip lacks are handed in, which the Rust cannot be; the port passes over them.
    Lacking,
    /// A pair that cut products hid from the Rust.
    Cut,
    /// The Rust stores the transmit unit and then refuses the receive unit; the port puts nothing.
    Half,
}

impl Kind {
    pub const ALL: [Kind; 6] =
        [Kind::Same, Kind::Past, Kind::Forever, Kind::Lacking, Kind::Cut, Kind::Half];
}

pub struct Expected {
    pub kind: Kind,
    pub line: String,
    /// Of the Rust: reads of registers that it changes or looks at, and writes of registers.
    pub reads: u64,
    pub writes: u64,
}

const EVENT_NAMES: [&str; 4] = ["rx_hung", "tx_hung", "rx_done", "tx_done"];

/// The events that the old chip has.
pub const OLD_EVENTS: u8 = 3;

/// More polls than any draw of the inputs asks for.
pub const ENOUGH: u16 = 1_000;

/// Notes that a line of the port has at most.
pub const MOST_NOTES: usize = 2_048;

/// Nothing where the Rust would do more than the port's block notes. Nothing of it may be left
/// unexplained: that is an error.
pub fn of(asked: Asked) -> Result<Option<Expected>, String> {
    let (block, given) = run(Build::Checked, asked);
    let (other, other_given) = run(Build::Unchecked, asked);
    if (&block.notes, given) != (&other.notes, other_given) {
        return Err(format!(
            "the builds of the Rust differ: {:?} and {:?}",
            block.notes, other.notes
        ));
    }
    if let Some(wrong) = block.wrong.first() {
        return Err(format!("the Rust does what no block does: {wrong}"));
    }
    if block.notes.len() > MOST_NOTES {
        return Ok(None);
    }
    let (kind, answer) = match given {
        None if block.used_up => (past(asked), "answer none".to_string()),
        None => return Err("the Rust panics".to_string()),
        Some(Err(number)) => return refused(asked, number, &block),
        Some(Ok(events)) => (kind(asked), answer(asked.call, &block, events)),
    };
    let (reads, writes) = (block.reads, block.writes);
    let mut notes = block.notes;
    let kind = if put_better_split(asked.call, &mut notes)? { Kind::Cut } else { kind };
    notes.push(answer);
    Ok(Some(Expected { kind, line: notes.join(", "), reads, writes }))
}

/// The port puts nothing where it refuses. So does the Rust, or it has stored the transmit unit.
fn refused(asked: Asked, number: u32, block: &Block) -> Result<Option<Expected>, String> {
    let kind = match asked.call {
        _ if block.notes.is_empty() => Kind::Same,
        Call::Configure(tx, _) => {
            let alone = Asked { call: Call::ConfigureTx(tx), ..asked };
            if run(Build::Checked, alone).0.notes != block.notes {
                return Err("the Rust stores more than the transmit unit".to_string());
            }
            Kind::Half
        }
        _ => return Err("the Rust stores and then refuses".to_string()),
    };
    let line = format!("refused {number}");
    Ok(Some(Expected { kind, line, reads: block.reads, writes: block.writes }))
}

/// Whether the Rust would end with more polls.
fn past(asked: Asked) -> Kind {
    let call = asked.call.with_allowance(ENOUGH);
    match run(Build::Checked, Asked { call, ..asked }) {
        (block, _) if block.used_up => Kind::Forever,
        _ => Kind::Past,
    }
}

fn kind(asked: Asked) -> Kind {
    let handed_in = match asked.call {
        Call::Interrupts => asked.before.enabled,
        call => call.mask().unwrap_or(0),
    };
    if asked.chip == Chip::Old && handed_in & !OLD_EVENTS != 0 { Kind::Lacking } else { Kind::Same }
}

fn answer(call: Call, block: &Block, events: u8) -> String {
    if call == Call::Interrupts {
        events_answer(events)
    } else if call.allowance().is_some() {
        format!("answer {}", block.polls)
    } else {
        "end".to_string()
    }
}

/// The answer with the events of a mask.
pub fn events_answer(events: u8) -> String {
    let mut words = vec!["answer"];
    words.extend((0..4).filter(|bit| events >> bit & 1 != 0).map(|bit| EVENT_NAMES[bit]));
    words.join(" ")
}

/// At the known cut rates the port puts the Rust's split of the better pair; whether it does.
pub fn put_better_split(call: Call, notes: &mut [String]) -> Result<bool, String> {
    let units = match call {
        Call::Configure(tx, rx) => [("tx", Some(tx)), ("rx", Some(rx))],
        Call::ConfigureTx(unit) => [("tx", Some(unit)), ("rx", None)],
        Call::ConfigureRx(unit) => [("tx", None), ("rx", Some(unit))],
        _ => return Ok(false),
    };
    let mut is_cut = false;
    for (half, unit) in units {
        let Some(split) = unit.map(better_split).transpose()?.flatten() else {
            continue;
        };
        is_cut = true;
        for (name, number) in SPLIT.into_iter().zip(split) {
            let begins = format!("put {half}_{name} ");
            let mut puts = notes.iter_mut().filter(|note| note.starts_with(&begins));
            match (puts.next(), puts.next()) {
                (Some(note), None) => *note = format!("{begins}{number}"),
                _ => return Err(format!("{half}_{name} is not put once")),
            }
        }
    }
    Ok(is_cut)
}

fn better_split(unit: Unit) -> Result<Option<[u32; 4]>, String> {
    let search =
        Search::new(Input { rate: unit.rate, channels: unit.count, bits: unit.data_bits() }, 511);
    let best = search.pair(WHOLE);
    if search.pair(CUT) == best {
        return Ok(None);
    }
    if !known_cut(Chip::New.max(), unit.data_bits()).contains(&unit.rate) {
        return Err("a cut pair at a rate that is not a known one".to_string());
    }
    let split = published::split(best).ok_or("the split of the better pair panics")?;
    Ok(Some(split))
}
