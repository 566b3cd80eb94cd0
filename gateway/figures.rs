//! Figures for INFO, which are reported to the first worker in notes.

use std::time::{Duration, Instant};

/// The least time between two reports of a figure.
const PAUSE: Duration = Duration::from_secs(1);
/// The memory of clients is reported again if it has changed by more than this, or by more than a tenth.
const STEP: u64 = 1 << 16;

/// A figure, and what was last reported of it.
pub struct Figure {
    pub name: &'static str,
    /// By how much it may differ from the value that was reported last, before it is reported again.
    step: fn(u64) -> u64,
    /// The value that was reported last.
    told: u64,
    /// When it may be reported again.
    next: Instant,
}

impl Figure {
    /// The four figures: refused clients, clients that were closed because they took the most memory, bytes
    /// that all clients take, and resident bytes of both programs.
    pub fn all(now: Instant) -> [Figure; 4] {
        let figure = |name, step| Figure { name, step, told: 0, next: now };
        [
            figure("rejected_connections", |_| 0),
            figure("clients_closed", |_| 0),
            figure("clients_memory", |told| STEP.min(told / 10)),
            figure("resident_bytes", |told| told / 100),
        ]
    }

    /// Whether this value is due to be reported now.
    pub fn is_due(&self, value: u64, now: Instant) -> bool {
        value.abs_diff(self.told) > (self.step)(self.told) && now >= self.next
    }

    /// Notes that this value was reported.
    pub fn tell(&mut self, value: u64, now: Instant) {
        (self.told, self.next) = (value, now + PAUSE);
    }
}
