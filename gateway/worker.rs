//! A worker of the server, and its clients. Bytes of their sockets go to the worker by one pipe, in packets.
//! Packets that arrive by the other pipe go to the sockets. docs/FORMATS.md defines the packets.
//!
//! Each client gets a number, drawn in order, which no other client of the worker ever gets. A side that gets
//! a CLOSE and has sent none answers with one. Once a CLOSE went in both directions and the socket is closed,
//! the client is removed, and packets for its number are ignored.
//!
//! A worker ignores data after its own CLOSE. The gateway still delivers data after its own CLOSE if the
//! socket takes it, because a client may end only its sending. Several WAKE packets that a worker has not
//! read yet may become one.
//!
//! Replies are always read, and wait for their client up to a limit. Input is read in turns (`turns`), and
//! only while little waits for the worker. So the rest waits in the sockets.
//!
//! A client is unauthenticated until the worker lets it in, and after the worker lets it out. It has limits
//! then (`unauthenticated`). Before input beyond a limit the worker is asked to report when it has answered all that
//! was sent before. If the client is authenticated by then, the input is sent.

mod input;

use crate::channel::Channel;
use crate::client::{Client, Turn};
use crate::common::Shared;
use crate::log::Subject;
use crate::memory::{Half, Taken};
use crate::packet::{self, Packet, Packets, CLOSE, DATA, LONGEST, OPEN, PLACE, REPLIES, REQUESTS};
use crate::system::{Epoll, OUTPUT};
use crate::turns::{Turns, ALONE};
use std::collections::HashMap;
use std::fs::File;
use std::io::{self, ErrorKind, Write};
use std::time::Duration;
use std::{fmt, mem};

const WAKE: u8 = 3;
const LET_IN: u8 = 4;
const LET_OUT: u8 = 5;
const NOTE: u8 = 6;
const HOLDS: u8 = 7;
/// The most bytes of a note from the worker.
const LONGEST_NOTE: usize = 4096;
/// Bytes of the number that a HOLDS packet carries.
const COUNT: usize = 8;
/// The most bytes of a note to the worker.
const NOTED: usize = 64;

/// The most bytes that a packet of this kind from the worker carries. None if it may not send the kind.
fn longest(kind: u8) -> Option<usize> {
    match kind {
        DATA => Some(LONGEST),
        CLOSE | WAKE | LET_IN | LET_OUT => Some(0),
        NOTE => Some(LONGEST_NOTE),
        HOLDS => Some(COUNT),
        _ => None,
    }
}

/// A worker's two pipes, and its clients.
pub struct Worker {
    /// Which worker it is, as the highest byte of its tokens.
    place: u64,
    requests: Channel,
    replies: Channel,
    packets: Packets,
    /// By their numbers.
    clients: HashMap<u64, Client>,
    /// The number of the next client.
    next: u64,
    /// Clients whose input waits for its turn.
    turns: Turns,
    /// A WAKE is to be sent.
    owes_wake: bool,
    /// Some client's CLOSE is not in the queue yet.
    owes_close: bool,
    /// How many bytes the pipe of requests holds, as far as this is known.
    pipe: usize,
    /// It waits for the worker to read on, and no event will report that.
    is_blind: bool,
}

impl Worker {
    pub fn new(place: usize, requests: File, replies: File, epoll: &Epoll) -> io::Result<Worker> {
        let place = (place as u64) << PLACE;
        let requests = Channel::new(requests, place | REQUESTS);
        let mut replies = Channel::new(replies, place | REPLIES);
        replies.watch(epoll, true, false)?;
        Ok(Worker {
            place,
            requests,
            replies,
            packets: Packets::new(),
            clients: HashMap::new(),
            next: 0,
            turns: Turns::default(),
            owes_wake: false,
            owes_close: false,
            pipe: ALONE.pipe,
            is_blind: false,
        })
    }

    pub fn has_clients(&self) -> bool {
        !self.clients.is_empty()
    }

    /// Adds a client with this address, as text. Gives the socket back if there is no memory for it.
    pub fn take_client(&mut self, socket: File, address: &[u8], shared: &mut Shared) -> Result<(), File> {
        let number = self.next;
        if self.clients.try_reserve(1).is_err() || self.put(OPEN, number, address).is_err() {
            return Err(socket);
        }
        self.next += 1;
        self.clients.insert(number, Client::new(Channel::new(socket, self.place | number), shared.now));
        shared.clients += 1;
        self.update(number, shared);
        Ok(())
    }

    /// Adds a packet to the worker's queue. An error is returned if there is no memory for it.
    fn put(&mut self, kind: u8, number: u64, bytes: &[u8]) -> io::Result<()> {
        packet::put(&mut self.requests, kind, number, bytes)
    }

    /// Sends the worker a note: a text about no connection. An error is returned if there is no memory for
    /// it.
    pub fn tell(&mut self, text: fmt::Arguments) -> io::Result<()> {
        let mut bytes = [0; NOTED];
        let mut rest = &mut bytes[..];
        rest.write_fmt(text)?;
        let count = NOTED - rest.len();
        self.put(NOTE, 0, &bytes[..count])
    }

    /// Handles an event. An event may be out of date, and does no harm then: reading and writing find out.
    pub fn see(&mut self, token: u64, flags: u32, shared: &mut Shared) -> io::Result<()> {
        match token & REQUESTS {
            REQUESTS => Ok(()),
            REPLIES => self.take_replies(shared),
            number => {
                self.flush_client(number, shared);
                if flags != OUTPUT && self.client(number).is_some_and(|it| it.is_awaited()) {
                    self.want_turn(number, shared);
                }
                Ok(())
            }
        }
    }

    /// The client with this number. None if it was removed, for example before a late event.
    fn client(&mut self, number: u64) -> Option<&mut Client> {
        self.clients.get_mut(&number)
    }

    /// Counts what a client takes now, and watches its socket for the events that it waits for now.
    fn update(&mut self, number: u64, shared: &mut Shared) {
        let Some(client) = self.client(number) else { return };
        let memory = client.memory() as u64;
        shared.memory.count(&mut client.taken, Half::Gateway, memory);
        let input = client.is_awaited();
        if client.socket.as_mut().is_some_and(|it| it.watch(&shared.epoll, input, false).is_err()) {
            self.drop_client(number, shared);
        }
    }

    /// Handles a note of the worker. Other texts are for later versions, and are ignored.
    fn take_note(&mut self, text: &[u8], shared: &mut Shared) {
        let Ok(text) = str::from_utf8(text) else { return };
        if let Some(facts) = text.strip_prefix("news ") {
            shared.news.take(facts, &mut shared.log, shared.now);
        }
        if let Some(number) = text.strip_prefix("synced ").and_then(|it| it.parse().ok()) {
            self.see_answered(number, shared);
        }
    }

    /// Counts the bytes that the worker now holds for a client. `ErrorKind::InvalidData` is returned if they
    /// are not given in 8 bytes.
    fn hold(&mut self, number: u64, bytes: &[u8], shared: &mut Shared) -> io::Result<()> {
        let bytes = bytes.try_into().map_err(|_| ErrorKind::InvalidData)?;
        let place = self.place;
        if let Some(client) = self.client(number).filter(|it| it.socket.is_some() && !it.got_close) {
            shared.memory.hold((place, number), &mut client.taken, u64::from_be_bytes(bytes));
        }
        Ok(())
    }

    /// What is counted of each client.
    pub fn taken(&self) -> impl Iterator<Item = Taken> + '_ {
        self.clients.values().map(|it| it.taken)
    }

    /// Of the clients that are not closed, the one that takes the most of this half: how much, and its
    /// number. If several take the same, it is the newest.
    pub fn greatest(&self, half: Half) -> Option<(u64, u64)> {
        let open = self.clients.iter().filter(|(_, it)| it.socket.is_some());
        open.map(|(number, it)| (it.taken.of(half), *number)).max()
    }

    /// The worker has let a client in.
    fn let_in(&mut self, number: u64, shared: &Shared) {
        let Some(client) = self.client(number) else { return };
        client.unauthenticated = None;
        if !shared.is_guarded && client.held.is_none() {
            client.reader = None;
        }
    }

    /// The worker has let a client out again.
    fn let_out(&mut self, number: u64, shared: &mut Shared) {
        let Some(client) = self.client(number) else { return };
        client.unauthenticated = Some(shared.now);
        // Replies from before may still arrive.
        client.owed = usize::MAX;
        if self.ask(number).is_err() {
            self.drop_client(number, shared);
        }
    }

    /// Writes to a client what waits for it.
    fn flush_client(&mut self, number: u64, shared: &mut Shared) {
        let Some(client) = self.client(number) else { return };
        let Some(socket) = client.socket.as_mut().filter(|it| it.waiting() > 0) else { return };
        client.active = shared.now;
        let flushed = socket.flush();
        socket.shrink(0);
        match flushed {
            Ok(()) => self.close_if_out(number, shared),
            Err(_) => self.drop_client(number, shared),
        }
    }

    /// Takes no more input of a client, drops what is held of it, and sends the worker a CLOSE.
    fn end_input(&mut self, number: u64, shared: &mut Shared) {
        let Some(client) = self.clients.get_mut(&number) else { return };
        client.held = None;
        if !mem::replace(&mut client.sent_close, true) {
            client.owes_close = packet::put(&mut self.requests, CLOSE, number, b"").is_err();
            self.owes_close |= client.owes_close;
            self.update(number, shared);
        }
    }

    /// Takes no more input of any client.
    pub fn end_inputs(&mut self, shared: &mut Shared) {
        for client in self.clients.values_mut() {
            client.held = None;
            client.owes_close |= !mem::replace(&mut client.sent_close, true);
            // If its events can't be changed, it is closed with all others, a second later.
            let _ = client.socket.as_mut().map(|it| it.watch(&shared.epoll, false, false));
        }
        self.owes_close = true;
    }

    /// Adds the CLOSE packets that are owed to the queue, and removes the clients for which they were the
    /// last step.
    fn put_closes(&mut self, shared: &mut Shared) {
        if !mem::take(&mut self.owes_close) {
            return;
        }
        for (number, client) in self.clients.iter_mut().filter(|(_, it)| it.owes_close) {
            client.owes_close = packet::put(&mut self.requests, CLOSE, *number, b"").is_err();
            self.owes_close |= client.owes_close;
        }
        let count = self.clients.len();
        self.clients.retain(|_, it| !it.is_over());
        shared.clients -= count - self.clients.len();
    }

    /// Closes a client's socket, whatever it is owed. The worker is about to free what it holds for the
    /// client.
    pub fn drop_client(&mut self, number: u64, shared: &mut Shared) {
        let place = self.place;
        let Some(client) = self.client(number) else { return };
        if client.socket.take().is_some() {
            shared.log.line(
                Subject::Closed,
                shared.now,
                format_args!("a client of worker {} has gone", place >> PLACE),
            );
        }
        shared.memory.count(&mut client.taken, Half::Gateway, 0);
        shared.memory.hold((place, number), &mut client.taken, 0);
        self.end_input(number, shared);
        self.free_if_over(number, shared);
    }

    /// Removes a client if it is over.
    fn free_if_over(&mut self, number: u64, shared: &mut Shared) {
        if self.client(number).is_some_and(|it| it.is_over()) {
            self.clients.remove(&number);
            shared.clients -= 1;
        }
    }

    /// Closes a client's socket if the worker has closed the connection and all replies are written.
    fn close_if_out(&mut self, number: u64, shared: &mut Shared) {
        let Some(client) = self.client(number) else { return };
        if !client.got_close || client.socket.as_ref().is_some_and(|it| it.waiting() > 0) {
            return self.update(number, shared);
        }
        // If input is unread, the system closes by a reset. A reset discards replies that the client has not
        // read.
        let _ = client.socket.as_ref().map(|it| it.read(&mut shared.room));
        self.drop_client(number, shared);
    }

    /// Reads the pipe of replies once, and handles its packets.
    fn take_replies(&mut self, shared: &mut Shared) -> io::Result<()> {
        let mut packets = mem::take(&mut self.packets);
        packets.read(&self.replies)?;
        while let Some(packet) = packets.next(longest)? {
            match packet {
                Packet::Data(number, bytes) => self.send(number, bytes, shared),
                Packet::Sign(CLOSE, number, _) => self.end_output(number, shared),
                Packet::Sign(LET_IN, number, _) => self.let_in(number, shared),
                Packet::Sign(LET_OUT, number, _) => self.let_out(number, shared),
                Packet::Sign(WAKE, 0, _) => shared.wakes = true,
                Packet::Sign(NOTE, 0, text) => self.take_note(text, shared),
                Packet::Sign(HOLDS, number, bytes) => self.hold(number, bytes, shared)?,
                Packet::Sign(..) => return Err(ErrorKind::InvalidData.into()),
            }
        }
        self.packets = packets;
        Ok(())
    }

    /// Sends a client bytes of the worker.
    fn send(&mut self, number: u64, bytes: &[u8], shared: &mut Shared) {
        let Some(client) = self.client(number).filter(|it| !it.got_close) else { return };
        client.active = shared.now;
        let limit = client.output_limit(shared);
        match client.socket.as_mut().map_or(Ok(()), |it| it.send(bytes, limit)) {
            Ok(()) => self.update(number, shared),
            Err(fault) => {
                if fault.kind() == ErrorKind::OutOfMemory {
                    let text = format_args!("a client was closed: more than {limit} bytes of replies wait for it");
                    shared.log.line(Subject::Backlog, shared.now, text);
                }
                self.drop_client(number, shared);
            }
        }
    }

    /// Handles a CLOSE of the worker.
    fn end_output(&mut self, number: u64, shared: &mut Shared) {
        let place = self.place;
        let Some(client) = self.client(number) else { return };
        if !mem::replace(&mut client.got_close, true) {
            shared.memory.hold((place, number), &mut client.taken, 0);
            self.end_input(number, shared);
            self.close_if_out(number, shared);
            self.free_if_over(number, shared);
        }
    }

    /// Closes clients that were silent for `idle`, unless it is zero. Asks the worker about clients that were
    /// unauthenticated for too long, because it may have let them in.
    pub fn close_late(&mut self, idle: Duration, shared: &mut Shared) {
        let mut numbers = Vec::new();
        if numbers.try_reserve_exact(self.clients.len()).is_err() {
            // A client that is late is still late at the next sweep.
            return;
        }
        numbers.extend(self.clients.keys());
        for number in numbers {
            let Some(client) = self.client(number) else { continue };
            let is_late = client.asked == 0 && client.turn == Turn::None && client.is_late(shared);
            if !idle.is_zero() && shared.now - client.active >= idle {
                let text = format_args!("a client was closed: it was silent for {} seconds", idle.as_secs());
                shared.log.line(Subject::Silent, shared.now, text);
                self.drop_client(number, shared);
            } else if is_late {
                // If there is no memory for the note, the worker is asked at the next sweep.
                let _ = self.ask(number);
            }
        }
    }
}
