//! A pipe or a socket that is read and written without waiting, and a queue of bytes that it had no room for
//! yet.

use crate::system::{self, Epoll, INPUT, OUTPUT};
use std::collections::VecDeque;
use std::fs::File;
use std::io::{self, ErrorKind, IoSlice, Read, Write};

/// A pipe or a socket, with its queue of output.
pub struct Channel {
    file: File,
    /// The token of its events.
    token: u64,
    watched: u32,
    queue: VecDeque<u8>,
}

impl Channel {
    pub fn new(file: File, token: u64) -> Channel {
        Channel { file, token, watched: 0, queue: VecDeque::new() }
    }

    /// Bytes in the queue.
    pub fn waiting(&self) -> usize {
        self.queue.len()
    }

    /// Bytes of memory that the queue takes.
    pub fn taken(&self) -> usize {
        self.queue.capacity()
    }

    /// Asks for events of input if `input` is set, and of room for output if `room` is set or the queue is
    /// not empty.
    pub fn watch(&mut self, epoll: &Epoll, input: bool, room: bool) -> io::Result<()> {
        let flags = if input { INPUT } else { 0 } | if room || self.waiting() > 0 { OUTPUT } else { 0 };
        if flags != self.watched {
            epoll.watch(&self.file, self.watched, flags, self.token)?;
            self.watched = flags;
        }
        Ok(())
    }

    /// Reads once. Returns how many bytes were read, 0 at the end, and None if there are none yet.
    pub fn read(&self, room: &mut [u8]) -> io::Result<Option<usize>> {
        at_once((&self.file).read(room))
    }

    /// Sets how many bytes this pipe holds at most. False if the system refuses it for now.
    pub fn size_pipe(&self, bytes: usize) -> bool {
        system::size_pipe(&self.file, bytes)
    }

    /// Bytes that are in this pipe.
    pub fn in_pipe(&self) -> io::Result<usize> {
        system::in_pipe(&self.file)
    }

    /// Adds bytes to the queue. If there is no memory for them, an error is returned and none is added.
    pub fn put(&mut self, bytes: &[u8]) -> io::Result<()> {
        self.reserve(bytes.len())?;
        self.queue.extend(bytes);
        Ok(())
    }

    /// Takes memory for this many bytes more. A queue that has to grow grows by a quarter, so that many small
    /// pieces don't move it each time, or by what is needed if that is more. It grows by no more, because its
    /// memory counts.
    pub fn reserve(&mut self, count: usize) -> io::Result<()> {
        let (want, taken) = (self.waiting() + count, self.taken());
        if want > taken {
            self.queue.try_reserve_exact(want.max(taken + taken / 4) - self.waiting())?;
        }
        Ok(())
    }

    /// Writes as much of the queue as there is room for.
    pub fn flush(&mut self) -> io::Result<()> {
        if self.waiting() > 0 {
            let (first, second) = self.queue.as_slices();
            let parts = [IoSlice::new(first), IoSlice::new(second)];
            let written = at_once((&self.file).write_vectored(&parts))?.unwrap_or(0);
            self.queue.drain(..written);
        }
        Ok(())
    }

    /// Writes bytes, and adds the rest to the queue. An error is returned if more than `limit` bytes would
    /// wait then, or if there is no memory for them.
    pub fn send(&mut self, bytes: &[u8], limit: usize) -> io::Result<()> {
        let is_first = self.waiting() == 0;
        let written = if is_first { at_once((&self.file).write(bytes))?.unwrap_or(0) } else { 0 };
        let rest = &bytes[written..];
        if rest.len() > limit.saturating_sub(self.waiting()) {
            return Err(ErrorKind::OutOfMemory.into());
        }
        self.put(rest)
    }

    /// Gives memory back if half of it is unused and more than `keeps` bytes are taken.
    pub fn shrink(&mut self, keeps: usize) {
        let waiting = self.waiting();
        if self.taken() > keeps && waiting <= self.taken() / 2 {
            self.queue.shrink_to(waiting + waiting / 4);
        }
    }
}

/// None if the call would have had to wait, or was interrupted.
fn at_once(result: io::Result<usize>) -> io::Result<Option<usize>> {
    match result {
        Err(fault) if matches!(fault.kind(), ErrorKind::WouldBlock | ErrorKind::Interrupted) => Ok(None),
        result => result.map(Some),
    }
}
