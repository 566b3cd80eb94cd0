//! The link of a device of the server to the far store. Packets of the device go to a connection to the store
//! as bytes, and bytes of the store go back in packets. docs/FORMATS.md defines the packets.
//!
//! A device has one call in flight. It sends data, and then a WAIT before each packet that it takes of the
//! reply. DATA and WAIT are ignored if their number is not that of the last OPEN, or if the connection was
//! closed.
//!
//! An OPEN takes the link's spare, a connection on which the store has already answered. If there is none,
//! the device gets a CLOSE, so that no call waits for a store that has gone. A new spare is made by another
//! thread (`store`).
//!
//! A connection is also closed if no byte moves for too long while the device waits, or while bytes wait for
//! the store. An idle connection may stay.

use crate::channel::Channel;
use crate::common::Shared;
use crate::packet::{self, Packet, Packets, CLOSE, DATA, LONGEST, OPEN, PLACE, REPLIES, REQUESTS};
use crate::system::{INPUT, OUTPUT};
use std::fs::File;
use std::io::{self, ErrorKind, Read};
use std::mem;
use std::time::{Duration, Instant};

const WAIT: u8 = 3;
/// If this many bytes wait for the store, no more is read from the device. The same holds in the other
/// direction.
const LIMIT: usize = 1 << 16;
/// Bytes of memory that a queue does not give back.
const KEPT: usize = 1 << 18;
/// The least time from one attempt to make a spare to the next one, and after an attempt failed.
const PAUSE: Duration = Duration::from_secs(1);
/// Why a connection ends for which the system has no memory.
const SHORTAGE: &str = "no memory for it";
/// The number in the token of the connection.
const SOCKET: u64 = 0;
/// The number in the token of the spare.
const SPARE: u64 = 1;

/// The most bytes that a packet of this kind from the device carries. None if it may not send the kind.
fn longest(kind: u8) -> Option<usize> {
    match kind {
        DATA => Some(LONGEST),
        OPEN | WAIT => Some(0),
        _ => None,
    }
}

/// A device's two pipes, and its connections to the store.
pub struct Link {
    /// Which link it is, as the highest byte of its tokens.
    place: u64,
    requests: Channel,
    replies: Channel,
    packets: Packets,
    /// The number of the last OPEN.
    number: u64,
    /// None once the connection is closed.
    socket: Option<Channel>,
    /// The device is owed a CLOSE for this connection.
    owes_close: bool,
    /// Packets that the device waits for, counted since it last began to send data.
    awaited: usize,
    /// Packets that it was sent, counted since then.
    given: usize,
    /// When a byte last moved on the connection, or a wait for one began.
    moved: Instant,
    /// A connection for the next OPEN.
    spare: Option<File>,
    /// A spare is being made.
    is_greeting: bool,
    /// When the next spare may be made.
    next: Instant,
    /// Why the last connection ended, until that is taken.
    failure: Option<&'static str>,
}

impl Link {
    pub fn new(place: usize, requests: File, replies: File, spare: File, shared: &Shared) -> io::Result<Link> {
        let place = (place as u64) << PLACE;
        let mut requests = Channel::new(requests, place | REQUESTS);
        requests.watch(&shared.epoll, true, false)?;
        let mut link = Link {
            place,
            requests,
            replies: Channel::new(replies, place | REPLIES),
            packets: Packets::new(),
            number: 0,
            socket: None,
            owes_close: false,
            awaited: 0,
            given: 0,
            moved: shared.now,
            spare: None,
            is_greeting: false,
            next: shared.now,
            failure: None,
        };
        link.take_spare(Some(spare), shared);
        Ok(link)
    }

    /// Handles an event. An event may be out of date, and does no harm then: reading and writing find out.
    pub fn see(&mut self, token: u64, flags: u32, shared: &mut Shared) -> io::Result<()> {
        match token & REQUESTS {
            REQUESTS => self.take_requests(shared)?,
            SPARE => self.look_at_spare(),
            SOCKET if flags != OUTPUT => self.read_store(shared),
            // `hand_over` writes what waits.
            _ => {}
        }
        Ok(())
    }

    /// Writes what waits for the store and for the device. Closes the connection if something is owed and no
    /// byte has moved for `patience`. An error is returned if the device's pipe fails.
    pub fn hand_over(&mut self, patience: Duration, shared: &mut Shared) -> io::Result<()> {
        self.flush_socket(shared.now);
        let is_owed = self.awaited > self.given || self.waiting() > 0;
        if self.socket.is_some() && is_owed && shared.now - self.moved >= patience {
            self.fail("it is silent for too long");
        }
        self.owes_close = self.owes_close && packet::put(&mut self.replies, CLOSE, self.number, b"").is_err();
        self.replies.flush()?;
        self.replies.shrink(KEPT);
        let has_room = self.replies.waiting() < LIMIT;
        if self.socket.as_mut().is_some_and(|it| it.watch(&shared.epoll, has_room, false).is_err()) {
            self.fail(SHORTAGE);
        }
        self.replies.watch(&shared.epoll, false, false)?;
        let has_room = self.waiting() < LIMIT;
        self.requests.watch(&shared.epoll, has_room, false)
    }

    /// Whether to make a spare now. If so, this is noted.
    pub fn wants_spare(&mut self, now: Instant) -> bool {
        let wants = self.spare.is_none() && !self.is_greeting && now >= self.next;
        if wants {
            self.is_greeting = true;
            self.next = now + PAUSE;
        }
        wants
    }

    /// Takes the spare that was made. None if it could not be made.
    pub fn take_spare(&mut self, made: Option<File>, shared: &Shared) {
        let is_watched = |file: &File| shared.epoll.watch(file, 0, INPUT, self.place | SPARE).is_ok();
        self.spare = made.filter(is_watched);
        self.is_greeting = false;
        if self.spare.is_none() {
            self.next = shared.now + PAUSE;
        }
    }

    /// Gives up a spare that was closed, or on which bytes arrived that nobody asked for.
    fn look_at_spare(&mut self) {
        let is_quiet = |mut it: &File| it.read(&mut [0]).is_err_and(|fault| fault.kind() == ErrorKind::WouldBlock);
        self.spare = self.spare.take().filter(is_quiet);
    }

    /// Bytes that wait for the store.
    fn waiting(&self) -> usize {
        self.socket.as_ref().map_or(0, Channel::waiting)
    }

    /// Reads the pipe of requests once, and handles its packets.
    fn take_requests(&mut self, shared: &mut Shared) -> io::Result<()> {
        let mut packets = mem::take(&mut self.packets);
        packets.read(&self.requests)?;
        while let Some(packet) = packets.next(longest)? {
            match packet {
                Packet::Data(number, bytes) if number == self.number => self.send(bytes, shared.now),
                Packet::Sign(WAIT, number, _) if number == self.number => {
                    self.awaited += 1;
                    self.moved = shared.now;
                }
                Packet::Sign(OPEN, number, _) => self.open(number, shared)?,
                Packet::Data(..) | Packet::Sign(..) => {}
            }
        }
        self.packets = packets;
        Ok(())
    }

    /// Handles an OPEN: the last connection is over, and the spare takes its place.
    fn open(&mut self, number: u64, shared: &Shared) -> io::Result<()> {
        (self.number, self.socket, self.owes_close) = (number, None, false);
        (self.awaited, self.given, self.moved) = (0, 0, shared.now);
        match self.spare.take() {
            Some(spare) => {
                shared.epoll.watch(&spare, INPUT, 0, self.place | SPARE)?;
                self.socket = Some(Channel::new(spare, self.place | SOCKET));
                self.next = shared.now;
            }
            None => self.close(),
        }
        Ok(())
    }

    /// Why a connection ended by itself since the last call.
    pub fn take_failure(&mut self) -> Option<&'static str> {
        self.failure.take()
    }

    /// Ends a connection that fails.
    fn fail(&mut self, why: &'static str) {
        self.failure = Some(why);
        self.close();
    }

    /// Ends the connection. The device gets a CLOSE once there is memory for it.
    fn close(&mut self) {
        (self.socket, self.owes_close) = (None, true);
    }

    /// Adds bytes of the device to those that wait for the store.
    fn send(&mut self, bytes: &[u8], now: Instant) {
        let Some(socket) = &mut self.socket else { return };
        if self.awaited > 0 {
            // It is a new call: the device has taken what it was given before.
            (self.awaited, self.given) = (0, 0);
        }
        if socket.waiting() == 0 {
            self.moved = now;
        }
        if socket.put(bytes).is_err() {
            self.fail(SHORTAGE);
        }
    }

    fn flush_socket(&mut self, now: Instant) {
        let Some(socket) = &mut self.socket else { return };
        let waiting = socket.waiting();
        let flushed = socket.flush();
        socket.shrink(KEPT);
        if socket.waiting() < waiting {
            self.moved = now;
        }
        if flushed.is_err() {
            self.fail("it can't be written to");
        }
    }

    fn read_store(&mut self, shared: &mut Shared) {
        let Some(socket) = self.socket.as_ref().filter(|_| self.replies.waiting() < LIMIT) else { return };
        match socket.read(&mut shared.room) {
            Ok(None) => {}
            Ok(Some(0)) => self.fail("it closes the connection"),
            Err(_) => self.fail("it can't be read from"),
            Ok(Some(count)) => {
                self.given += 1;
                self.awaited = self.awaited.min(self.given);
                self.moved = shared.now;
                if packet::put(&mut self.replies, DATA, self.number, &shared.room[..count]).is_err() {
                    self.fail(SHORTAGE);
                }
            }
        }
    }
}
