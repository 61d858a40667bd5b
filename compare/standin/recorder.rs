//! What a run of the published driver does to the registers, noted by the stand-ins in its order.
//! A stand-in that has more to tell, as of a transfer, adds a kind of event.

use std::{cell::RefCell, rc::Rc};

#[derive(Clone, Copy, Debug, PartialEq, Eq)]
pub enum Event {
    /// A register is read, by itself or at the head of a change.
    Read { register: &'static str },
    /// A field's new number, which the next `Written` stores. The field `bits` is the register as a whole.
    Put { register: &'static str, field: &'static str, value: u32 },
    /// The register is written.
    Written { register: &'static str },
}

/// What stands behind the registers in a run: it is told each event as it comes, and what it holds is read.
pub trait Behind {
    fn told(&mut self, event: Event);

    /// What the latest read of the register found in a field.
    fn found(&self, register: &'static str, field: &'static str) -> u32;
}

thread_local! {
    static NOTED: RefCell<Option<Vec<Event>>> = const { RefCell::new(None) };
    static BEHIND: RefCell<Option<Rc<RefCell<dyn Behind>>>> = const { RefCell::new(None) };
}

/// Notes an event, if somebody asked for the events of this run.
pub fn note(event: Event) {
    NOTED.with_borrow_mut(|noted| {
        if let Some(events) = noted {
            events.push(event);
        }
    });
    if let Some(behind) = behind() {
        behind.borrow_mut().told(event);
    }
}

/// What a field that was read holds: 0 where nothing stands behind the registers.
pub fn found(register: &'static str, field: &'static str) -> u32 {
    behind().map_or(0, |behind| behind.borrow().found(register, field))
}

fn behind() -> Option<Rc<RefCell<dyn Behind>>> {
    BEHIND.with_borrow(|behind| behind.clone())
}

/// What a run gives, and its events. A run that may panic catches that itself.
pub fn recorded<T>(run: impl FnOnce() -> T) -> (T, Vec<Event>) {
    NOTED.set(Some(Vec::with_capacity(128)));
    let given = run();
    (given, NOTED.take().unwrap_or_default())
}

/// What a run gives with this behind the registers. A run that may panic catches that itself.
pub fn over<T>(block: Rc<RefCell<dyn Behind>>, run: impl FnOnce() -> T) -> T {
    BEHIND.set(Some(block));
    let given = run();
    BEHIND.set(None);
    given
}
