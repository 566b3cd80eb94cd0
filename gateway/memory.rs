//! The memory that clients may take: half of it in the gateway, and half in the workers, which report what
//! they hold for each client.
//!
//! A limit for each client bounds no sum, because many clients below it may take all memory. Closing the
//! client that asks for more at the limit of the sum would hit clients that take little. So the client that
//! takes the most is closed, until the sum is within its half again. Sums are kept at each change. The
//! greatest client is looked for only if a sum is too great.
//!
//! Many clients that send long requests at once would exceed the sum soon, and none of them is to blame. So
//! while the workers hold much, one client at a time goes on with a request of which they hold a long part.
//! The others wait.

use std::fmt::{self, Display, Formatter};
use std::time::{Duration, Instant};

/// More than a worker can hold for a client, and so little that no sum overflows.
const MOST: u64 = 1 << 40;

/// Where memory is taken.
#[derive(Clone, Copy)]
pub enum Half {
    Gateway,
    Workers,
}

impl Display for Half {
    fn fmt(&self, to: &mut Formatter<'_>) -> fmt::Result {
        to.write_str(match self {
            Half::Gateway => "in the gateway",
            Half::Workers => "in the server",
        })
    }
}

/// Bytes that are taken.
#[derive(Clone, Copy, Default, PartialEq, Debug)]
pub struct Taken {
    gateway: u64,
    workers: u64,
}

/// A client: the place of its worker, and its number.
pub type Who = (u64, u64);

/// If the workers hold no more bytes than this for a client, it goes on at any time.
const SMALL: u64 = 1 << 14;
/// How long others wait for a client that sends no more of its request.
const PATIENCE: Duration = Duration::from_secs(1);

/// Counts what all clients take.
pub struct Memory {
    /// Bytes that may be taken in each half.
    most: u64,
    /// Bytes that are taken in each half.
    sum: Taken,
    /// The one client that goes on with a long request, and since when it has sent nothing.
    first: Option<(Who, Instant)>,
    /// How many clients were closed because they took the most.
    pub closed: u64,
}

impl Taken {
    pub fn of(&self, half: Half) -> u64 {
        match half {
            Half::Gateway => self.gateway,
            Half::Workers => self.workers,
        }
    }

    fn of_mut(&mut self, half: Half) -> &mut u64 {
        match half {
            Half::Gateway => &mut self.gateway,
            Half::Workers => &mut self.workers,
        }
    }
}

impl Memory {
    pub fn new(most: usize) -> Memory {
        Memory { most: most as u64 / 2, sum: Taken::default(), first: None, closed: 0 }
    }

    /// Replaces the bytes that are counted for a client in this half.
    pub fn count(&mut self, client: &mut Taken, half: Half, bytes: u64) {
        let bytes = bytes.min(MOST);
        let (sum, before) = (self.sum.of_mut(half), client.of_mut(half));
        *sum = *sum - *before + bytes;
        *before = bytes;
    }

    /// The workers hold this many bytes for a client now. If these are fewer than before, its request has
    /// ended, and another client may go on.
    pub fn hold(&mut self, who: Who, client: &mut Taken, bytes: u64) {
        if bytes < client.workers {
            self.pass(who);
        }
        self.count(client, Half::Workers, bytes);
    }

    /// This client is no longer the one that goes on.
    pub fn pass(&mut self, who: Who) {
        self.first = self.first.filter(|(first, _)| *first != who);
    }

    /// Whether input of a client may be taken now. If the workers hold more than a quarter of their half,
    /// only one client with a long request goes on.
    pub fn may_go_on(&mut self, who: Who, client: Taken, now: Instant) -> bool {
        if client.workers <= SMALL || self.sum.workers <= self.most / 4 {
            return true;
        }
        let goes = self.first.is_none_or(|(first, since)| first == who || now - since >= PATIENCE);
        if goes {
            self.first = Some((who, now));
        }
        goes
    }

    /// A half in which more is taken than may be. None if there is none.
    pub fn above(&self) -> Option<Half> {
        [Half::Gateway, Half::Workers].into_iter().find(|half| self.sum.of(*half) > self.most)
    }

    pub fn sum(&self) -> u64 {
        self.sum.gateway + self.sum.workers
    }

    /// Whether the sums are those of these clients.
    pub fn is_sum_of(&self, clients: impl Iterator<Item = Taken>) -> bool {
        let add =
            |sum: Taken, it: Taken| Taken { gateway: sum.gateway + it.gateway, workers: sum.workers + it.workers };
        clients.fold(Taken::default(), add) == self.sum
    }
}
