//! Whose input a worker gets next, and how much of it.
//!
//! A worker answers input in the order in which it arrived. So input waits for all the input that arrived
//! before it. Clients with input therefore take turns: after its turn a client goes to the back of the queue.
//! While several clients of a worker have input, a turn is short, and little waits for the worker. A client
//! that is alone gets long turns, which cost less for each byte.
//!
//! A client that sends a request and waits for the reply has no input most of the time. So a worker counts as
//! shared until one client has had all turns for a while. That is long enough to think about a reply, and for
//! more input than may be sent before a reply.

use std::collections::{TryReserveError, VecDeque};
use std::mem;
use std::ops::Range;
use std::time::{Duration, Instant};

/// How much input a worker gets.
pub struct Share {
    /// The most bytes of one turn.
    pub piece: usize,
    /// The most bytes that may wait for the worker, including those of the last turn.
    pub most: usize,
    /// How many bytes the worker's pipe holds.
    pub pipe: usize,
    /// Whether bytes in the pipe count as waiting.
    pub counts_pipe: bool,
}

/// For a worker with several clients that have input.
const SHARED: Share = Share { piece: 1 << 12, most: 1 << 14, pipe: 1 << 14, counts_pipe: true };
/// For a worker with one client that has input.
pub const ALONE: Share = Share { piece: 1 << 16, most: 1 << 17, pipe: 1 << 16, counts_pipe: false };
/// How long one client has all turns before it counts as alone.
const WHILE: Duration = Duration::from_secs(1);
/// How many bytes it has sent by then.
const RUN: usize = 1 << 16;

#[derive(Default)]
/// The queue of a worker's clients that have input.
pub struct Turns {
    /// The next client is at the front. A client is in the queue once at most. Its number may be there after
    /// it has gone.
    queue: VecDeque<u64>,
    /// How many clients at the back are new since `settle`.
    fresh: usize,
    /// Which client had the last turn.
    last: Option<u64>,
    /// When a client other than the one before had a turn.
    changed: Option<Instant>,
    /// How many bytes were taken since then.
    taken: usize,
}

impl Turns {
    pub fn is_empty(&self) -> bool {
        self.queue.is_empty()
    }

    pub fn len(&self) -> usize {
        self.queue.len()
    }

    /// Adds a client to the back of the queue. An error is returned if there is no memory for it.
    pub fn put(&mut self, number: u64) -> Result<(), TryReserveError> {
        self.queue.try_reserve(1)?;
        self.queue.push_back(number);
        self.fresh += 1;
        Ok(())
    }

    /// Removes the client whose turn it is from the queue.
    pub fn take(&mut self) -> Option<u64> {
        self.queue.pop_front()
    }

    /// A client had this many bytes of input at its turn.
    pub fn had(&mut self, number: u64, count: usize, now: Instant) {
        if self.last.replace(number).is_some_and(|last| last != number) {
            (self.changed, self.taken) = (Some(now), 0);
        }
        self.taken = self.taken.saturating_add(count);
    }

    /// How much input the worker gets now.
    pub fn share(&self, now: Instant) -> &'static Share {
        let is_recent = |at| now - at < WHILE || self.taken < RUN;
        if self.queue.len() > 1 || self.changed.is_some_and(is_recent) {
            &SHARED
        } else {
            &ALONE
        }
    }

    /// The places in the queue of clients that are new and still wait. They are not new any more.
    pub fn settle(&mut self) -> Range<usize> {
        let fresh = mem::take(&mut self.fresh).min(self.queue.len());
        self.queue.len() - fresh..self.queue.len()
    }

    /// The client at this place of the queue.
    pub fn at(&self, place: usize) -> u64 {
        self.queue[place]
    }
}
