//! Sends clients' input to the worker, turn by turn.

use super::{Worker, WAKE};
use crate::before_login;
use crate::client::Turn;
use crate::common::Shared;
use crate::log::Subject;
use crate::packet::DATA;
use crate::turns::Share;
use std::io;

/// Bytes of memory that the queue of requests does not give back.
const KEPT: usize = 1 << 18;

impl Worker {
    /// Sends the worker what waits for it: CLOSE packets that are owed, a WAKE, and clients' input while
    /// there is room. An error is returned if the worker's pipe fails.
    pub fn hand_over(&mut self, shared: &mut Shared) -> io::Result<()> {
        self.requests.flush()?;
        self.put_closes(shared);
        let share = self.turns.share(shared.now);
        let mut room = self.room(share)?;
        self.owes_wake |= shared.wakes;
        if self.owes_wake && room >= share.piece {
            self.owes_wake = self.put(WAKE, 0, b"").is_err();
        }
        for _ in 0..self.turns.len() {
            if room < share.piece {
                break;
            }
            let waiting = self.requests.waiting();
            self.give_turn(share, shared);
            room = room.saturating_sub(self.requests.waiting() - waiting);
        }
        self.requests.flush()?;
        self.requests.shrink(KEPT);
        self.settle_turns(shared);
        let wants_room = room < share.piece && (self.owes_wake || !self.turns.is_empty());
        self.await_room(wants_room, share, shared)
    }

    /// Watches no socket of clients that go on waiting for their turn.
    fn settle_turns(&mut self, shared: &mut Shared) {
        for place in self.turns.settle() {
            let number = self.turns.at(place);
            if let Some(client) = self.client(number) {
                client.turn = Turn::Waits;
                self.update(number, shared);
            }
        }
    }

    /// How many more bytes may wait for the worker.
    fn room(&mut self, share: &Share) -> io::Result<usize> {
        if self.pipe != share.pipe && self.requests.size_pipe(share.pipe) {
            self.pipe = share.pipe;
        }
        let in_pipe = if share.counts_pipe { self.requests.in_pipe()? } else { 0 };
        Ok(share.most.saturating_sub(self.requests.waiting() + in_pipe))
    }

    /// If room is needed, asks for an event once the worker has read enough for the next turn.
    fn await_room(&mut self, wants_room: bool, share: &Share, shared: &Shared) -> io::Result<()> {
        // A pipe of this size reports room once a turn fits into it. A larger pipe reports it earlier.
        let is_told = self.pipe <= share.pipe || self.requests.waiting() > 0;
        self.is_blind = wants_room && !is_told;
        self.requests.watch(&shared.epoll, false, wants_room && is_told)
    }

    /// Whether `hand_over` has to be called again soon, although no event will arrive.
    pub fn is_blind(&self) -> bool {
        self.is_blind
    }

    /// Puts a client into the queue for a turn, at which its input is taken. Without memory for that it is
    /// closed.
    pub(super) fn want_turn(&mut self, number: u64, shared: &mut Shared) {
        let Some(client) = self.clients.get_mut(&number).filter(|it| it.turn == Turn::None) else { return };
        match self.turns.put(number) {
            Ok(()) => client.turn = Turn::New,
            Err(_) => self.drop_client(number, shared),
        }
    }

    /// Takes input of the client whose turn it is.
    fn give_turn(&mut self, share: &Share, shared: &mut Shared) {
        let Some(number) = self.turns.take() else { return };
        let place = self.place;
        let Some(client) = self.client(number) else { return };
        client.turn = Turn::None;
        if !shared.memory.may_go_on((place, number), client.taken, shared.now) {
            return self.want_turn(number, shared);
        }
        if let Some((_, bytes)) = client.held.take() {
            self.turns.had(number, bytes.len(), shared.now);
            let taken = self.take_input(number, &bytes);
            return self.go_on(number, taken, shared);
        }
        self.read_client(number, share, shared);
    }

    /// Reads a client's socket once, and sends the worker what was read.
    fn read_client(&mut self, number: u64, share: &Share, shared: &mut Shared) {
        let Some(client) = self.clients.get_mut(&number).filter(|it| it.is_awaited()) else { return };
        let Some(socket) = client.socket.as_ref() else { return };
        let most = if client.unauthenticated.is_some() { before_login::READ.min(share.piece) } else { share.piece };
        match socket.read(&mut shared.room[..most]) {
            Ok(None) => self.update(number, shared),
            Ok(Some(0)) => self.end_input(number, shared),
            Ok(Some(count)) => {
                client.active = shared.now;
                self.turns.had(number, count, shared.now);
                let taken = self.take_input(number, &shared.room[..count]);
                self.go_on(number, taken, shared);
            }
            Err(_) => self.drop_client(number, shared),
        }
    }

    /// Goes on with a client, or closes it if there was no memory for its input.
    fn go_on(&mut self, number: u64, taken: io::Result<()>, shared: &mut Shared) {
        match taken {
            Ok(()) => self.update(number, shared),
            Err(_) => {
                shared.log.line(Subject::Shortage, shared.now, format_args!("a client was closed: no memory"));
                self.drop_client(number, shared);
            }
        }
    }

    /// Sends the worker input of a client, and holds the part that exceeds a limit of unauthenticated
    /// clients. An error is returned if there is no memory for it.
    fn take_input(&mut self, number: u64, bytes: &[u8]) -> io::Result<()> {
        let Some(client) = self.client(number) else { return Ok(()) };
        let is_let_in = client.unauthenticated.is_none();
        let read = client.reader.as_mut().map_or(Ok(()), |it| it.read(bytes, is_let_in));
        let (count, fault) = read.map_or_else(|(count, fault)| (count, Some(fault)), |()| (bytes.len(), None));
        if let Some(fault) = fault {
            let mut rest = Vec::new();
            rest.try_reserve_exact(bytes.len() - count)?;
            rest.extend_from_slice(&bytes[count..]);
            client.held = Some((fault, rest));
        }
        if count > 0 {
            self.put(DATA, number, &bytes[..count])?;
        }
        if fault.is_some() {
            self.ask(number)?;
        }
        Ok(())
    }

    /// Asks the worker to report when it has answered all that was sent. An error is returned if there is no
    /// memory for it.
    pub(super) fn ask(&mut self, number: u64) -> io::Result<()> {
        self.tell(format_args!("sync {number}"))?;
        if let Some(client) = self.client(number) {
            client.asked += 1;
        }
        Ok(())
    }

    /// The worker has answered all that was sent before it was asked. So it is certain now whether the client
    /// is authenticated.
    pub(super) fn see_answered(&mut self, number: u64, shared: &mut Shared) {
        let Some(client) = self.client(number).filter(|it| it.asked > 0) else { return };
        client.asked -= 1;
        if client.asked > 0 {
            return;
        }
        client.bound_owed();
        let is_late = client.is_late(shared);
        match (&client.held, client.unauthenticated) {
            (Some(_), None) => self.want_turn(number, shared),
            (&Some((fault, _)), Some(_)) => {
                let text = format_args!("a client was closed: it sends more than it may before it gives the password");
                shared.log.line(Subject::Unauthenticated, shared.now, text);
                self.send(number, fault.reply(), shared);
                self.end_input(number, shared);
            }
            (None, _) if is_late => {
                let patience = shared.auth_timeout.as_secs();
                let text = format_args!("a client was closed: it gave no password within {patience} seconds");
                shared.log.line(Subject::Unauthenticated, shared.now, text);
                self.drop_client(number, shared);
            }
            (None, _) => {}
        }
    }
}
