//! What the gateway keeps of a client, which belongs to one worker of the server.

use crate::before_login::{Fault, Reader, REPLIES};
use crate::channel::Channel;
use crate::common::Shared;
use crate::memory::Taken;
use std::time::Instant;

/// Bytes that count for a client while nothing waits for it, rounded up. With 2,000 to 9,000 idle clients the
/// gateway grew by 320 to 590 bytes for each, depending on how full the maps of clients were.
pub const BASE: usize = 640;

/// Whether a client's input waits for its turn.
#[derive(Clone, Copy, PartialEq)]
pub enum Turn {
    None,
    /// It waits since the last events, and may have its turn before the gateway waits for the next ones.
    New,
    /// It waits, and its socket is not watched for input meanwhile.
    Waits,
}

/// A client, which is known by its number. It is removed once a CLOSE went in both directions and its socket
/// is closed, in any order.
pub struct Client {
    /// None once the socket is closed.
    pub socket: Option<Channel>,
    /// The worker was sent a CLOSE, or is owed one.
    pub sent_close: bool,
    /// The CLOSE is not in the worker's queue yet, for example because there was no memory for it.
    pub owes_close: bool,
    /// The worker has sent a CLOSE.
    pub got_close: bool,
    pub turn: Turn,
    /// When it was last read or written.
    pub active: Instant,
    /// Since when it is unauthenticated. None while it is authenticated.
    pub unauthenticated: Option<Instant>,
    /// Follows its requests. None if it will never be unauthenticated again.
    pub reader: Option<Reader>,
    /// How many of the bytes that wait for it were owed before the worker let it out. `usize::MAX` until the
    /// worker has sent all of these.
    pub owed: usize,
    /// Input that is not sent to the worker yet, and which limit of unauthenticated clients it exceeds.
    pub held: Option<(Fault, Vec<u8>)>,
    /// How many `sync` notes about it the worker has not answered yet.
    pub asked: u32,
    /// What is counted of it in `Memory`.
    pub taken: Taken,
}

impl Client {
    pub fn new(socket: Channel, now: Instant) -> Client {
        Client {
            socket: Some(socket),
            sent_close: false,
            owes_close: false,
            got_close: false,
            turn: Turn::None,
            active: now,
            unauthenticated: Some(now),
            reader: Some(Reader::default()),
            owed: 0,
            held: None,
            asked: 0,
            taken: Taken::default(),
        }
    }

    /// Whether it can be removed.
    pub fn is_over(&self) -> bool {
        self.socket.is_none() && self.sent_close && !self.owes_close && self.got_close
    }

    /// Bytes that it takes in the gateway. Once its socket is closed there are none, because they are about
    /// to be given back. They are no reason to close others.
    pub fn memory(&self) -> usize {
        let Some(socket) = &self.socket else { return 0 };
        BASE + socket.taken() + self.held.as_ref().map_or(0, |(_, bytes)| bytes.capacity())
    }

    /// Whether its socket is watched for input.
    pub fn is_awaited(&self) -> bool {
        !self.sent_close && self.turn != Turn::Waits && self.held.is_none()
    }

    /// Whether it has been unauthenticated for too long.
    pub fn is_late(&self, shared: &Shared) -> bool {
        let most = shared.auth_timeout;
        !most.is_zero() && self.unauthenticated.is_some_and(|since| shared.now - since >= most)
    }

    /// Ends `owed` at the bytes that wait now: the worker has sent all that was owed before it let the client
    /// out.
    pub fn bound_owed(&mut self) {
        self.owed = self.owed.min(self.socket.as_ref().map_or(0, Channel::waiting));
    }

    /// The most bytes that may wait for it.
    pub fn output_limit(&mut self, shared: &Shared) -> usize {
        if self.unauthenticated.is_none() || self.owed == usize::MAX {
            return shared.output_limit;
        }
        self.bound_owed();
        shared.output_limit.min(self.owed + REPLIES)
    }
}
