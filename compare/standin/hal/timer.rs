//! Stand-in for the module `timer`: a system timer that stands still.

pub mod systimer {
    pub enum Unit {
        Unit0,
    }

    pub struct SystemTimer;

    impl SystemTimer {
        pub fn unit_value(_unit: Unit) -> u64 {
            0
        }

        pub fn ticks_per_second() -> u64 {
            16_000_000
        }
    }
}
