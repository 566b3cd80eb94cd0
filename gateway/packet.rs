//! Packets on the pipes between the gateway and the server. docs/FORMATS.md defines them.

use crate::channel::Channel;
use std::io::{self, ErrorKind};

pub const DATA: u8 = 0;
pub const OPEN: u8 = 1;
pub const CLOSE: u8 = 2;
/// An epoll token has a place in its highest byte, which is a worker's or a link's. Its other bytes are a
/// number.
pub const PLACE: u32 = 56;
/// The numbers in the tokens of a pair of pipes.
pub const REQUESTS: u64 = (1 << PLACE) - 1;
pub const REPLIES: u64 = REQUESTS - 1;
/// The most bytes of data in a packet.
pub const LONGEST: usize = 1 << 20;
/// Bytes of a packet's head.
const HEAD: usize = 13;
/// The most bytes of one read of a pipe.
const READ: usize = 1 << 18;

/// A packet that has arrived, or a piece of one with data.
pub enum Packet<'a> {
    /// A piece of data: the connection's number, and those bytes that have arrived.
    Data(u64, &'a [u8]),
    /// Another packet: its kind, its number, and all its bytes.
    Sign(u8, u64, &'a [u8]),
}

/// The most bytes that a packet of a kind carries, None for a kind that is not allowed. A packet that is not
/// data is given whole, so it has to be shorter than one read of a pipe.
pub type Longest = fn(u8) -> Option<usize>;

/// Cuts what arrives by a pipe into packets.
#[derive(Default)]
pub struct Packets {
    /// A buffer. Its bytes from `start` to `end` are not taken yet.
    room: Vec<u8>,
    start: usize,
    end: usize,
    /// The number of the data that is arriving, and how many of its bytes are missing.
    coming: (u64, usize),
}

/// Adds a packet to a pipe's queue. If there is no memory for it, an error is returned and nothing is added.
pub fn put(pipe: &mut Channel, kind: u8, number: u64, bytes: &[u8]) -> io::Result<()> {
    let mut head = [kind; HEAD];
    head[1..9].copy_from_slice(&number.to_be_bytes());
    head[9..].copy_from_slice(&(bytes.len() as u32).to_be_bytes());
    pipe.reserve(HEAD + bytes.len())?;
    pipe.put(&head)?;
    pipe.put(bytes)
}

fn number(bytes: &[u8]) -> u64 {
    bytes.iter().fold(0, |all, byte| all << 8 | u64::from(*byte))
}

impl Packets {
    pub fn new() -> Packets {
        Packets { room: vec![0; READ], ..Packets::default() }
    }

    /// Reads a pipe once. Call it only after `next` has returned None. `ErrorKind::UnexpectedEof` is returned
    /// at the end.
    pub fn read(&mut self, pipe: &Channel) -> io::Result<()> {
        match pipe.read(&mut self.room[self.end..])? {
            Some(0) => Err(ErrorKind::UnexpectedEof.into()),
            count => {
                self.end += count.unwrap_or(0);
                Ok(())
            }
        }
    }

    /// The next packet, or piece of data, of what was read. None if less than a packet is left, which is then
    /// moved to the start of the buffer. `ErrorKind::InvalidData` is returned for a packet that is not
    /// allowed.
    pub fn next(&mut self, longest: Longest) -> io::Result<Option<Packet<'_>>> {
        loop {
            let (start, came) = (self.start, self.end - self.start);
            if self.coming.1 > 0 && came > 0 {
                let count = self.coming.1.min(came);
                self.coming.1 -= count;
                self.start += count;
                return Ok(Some(Packet::Data(self.coming.0, &self.room[start..self.start])));
            }
            if came < HEAD {
                return Ok(self.wait());
            }
            let head = &self.room[start..start + HEAD];
            let (kind, number, length) = (head[0], number(&head[1..9]), number(&head[9..]) as usize);
            if longest(kind).is_none_or(|most| length > most) {
                return Err(ErrorKind::InvalidData.into());
            }
            let bytes = start + HEAD;
            if kind == DATA {
                self.start = bytes;
                self.coming = (number, length);
                continue;
            }
            if came < HEAD + length {
                return Ok(self.wait());
            }
            self.start = bytes + length;
            return Ok(Some(Packet::Sign(kind, number, &self.room[bytes..self.start])));
        }
    }

    /// Moves what is left to the start of the buffer.
    fn wait<T>(&mut self) -> Option<T> {
        self.room.copy_within(self.start..self.end, 0);
        (self.start, self.end) = (0, self.end - self.start);
        None
    }
}
