//! Stand-in for the module `interrupt`: a handler that is never called.

pub type IsrCallback = extern "C" fn();

#[derive(Clone, Copy)]
pub struct Priority;

#[derive(Clone, Copy)]
pub struct InterruptHandler {
    callback: IsrCallback,
    priority: Priority,
}

impl InterruptHandler {
    pub fn handler(&self) -> IsrCallback {
        self.callback
    }

    pub fn priority(&self) -> Priority {
        self.priority
    }
}

pub trait InterruptConfigurable: crate::private::Sealed {
    fn set_interrupt_handler(&mut self, handler: InterruptHandler);
}
