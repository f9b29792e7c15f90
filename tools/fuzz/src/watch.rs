//! How long calls take.

use crate::clock::Clock;
use crate::input::Input;

/// The longest call of an export, and the input that it comes from.
#[derive(Clone, Default)]
pub struct Longest {
    pub nanoseconds: u64,
    pub input: Vec<u8>,
}

/// The clock of one export after the other.
pub struct Watch {
    /// The shortest of an input's calls: the first may meet traps.
    shortest: u64,
    pub longest: Vec<Longest>,
}

impl Watch {
    /// For so many exports.
    pub fn new(exports: usize) -> Watch {
        Watch { shortest: u64::MAX, longest: vec![Longest::default(); exports] }
    }

    /// Calls.
    pub fn time<T>(&mut self, call: impl FnOnce() -> T) -> T {
        let clock = Clock::start();
        let reply = call();
        self.shortest = self.shortest.min(clock.nanoseconds());
        reply
    }

    /// Ends the calls of an input.
    pub fn end(&mut self, export: usize, input: &Input) {
        let nanoseconds = std::mem::replace(&mut self.shortest, u64::MAX);
        let longest = &mut self.longest[export];
        if nanoseconds != u64::MAX && nanoseconds > longest.nanoseconds {
            *longest = Longest { nanoseconds, input: input.bytes() };
        }
    }
}
