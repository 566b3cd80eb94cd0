//! What a client may send while it is unauthenticated, that is before the server has seen its password. The
//! limits and the texts of the errors are those of redis-server. They bound what such a client can make the
//! server keep.
//!
//! A `Reader` follows a client's requests, which the server reads in full. It only finds where a request
//! begins, and how long its arguments are. If something is no request, it leaves that to the server, which
//! replies an error and ends the connection.

/// The most arguments of a request.
const ARGUMENTS: u64 = 10;
/// The most bytes of an argument.
const ARGUMENT: u64 = 16_384;
/// The most bytes of a line of words, before its LF.
const LINE: usize = 16_384;
/// After this many bytes of a line that is no request, the server has seen that it is none.
const ENOUGH: usize = 1024;
/// The greatest length that any client may give.
const GREATEST: u64 = u32::MAX as u64;
/// Bytes of replies that may wait for an unauthenticated client.
pub const REPLIES: usize = 1024;
/// Bytes of one read from an unauthenticated client. What exceeds a limit is kept while the worker is asked
/// about the client.
pub const READ: usize = 1 << 14;

/// Why an unauthenticated client may not send the next byte.
#[derive(Clone, Copy)]
pub enum Fault {
    /// The request has too many arguments.
    Arguments,
    /// An argument is too long.
    Argument,
    /// A line of words is too long.
    Line,
    /// What arrived is no request.
    Broken,
}

impl Fault {
    /// The error that the client gets.
    pub fn reply(self) -> &'static [u8] {
        match self {
            Fault::Arguments => b"-ERR Protocol error: unauthenticated multibulk length\r\n",
            Fault::Argument => b"-ERR Protocol error: unauthenticated bulk length\r\n",
            Fault::Line => b"-ERR Protocol error: too big inline request\r\n",
            Fault::Broken => b"-ERR Protocol error\r\n",
        }
    }
}

/// What the next byte belongs to.
#[derive(Clone, Copy, Default)]
enum Place {
    /// A new request.
    #[default]
    Start,
    /// A line of words, and how many of its bytes have arrived.
    Words(usize),
    /// The number of arguments, after `*`.
    Count(Number),
    /// The `$` of an argument, and how many more arguments follow it.
    Mark(u64),
    /// The length of an argument, and how many more arguments follow it.
    Length(u64, Number),
    /// An argument: how many of its bytes are missing, including CR LF, and how many more arguments follow
    /// it.
    Argument(u64, u64),
    /// A line that is no request, and how many of its bytes have arrived.
    Broken(usize),
    /// What follows such a line.
    End,
}

/// A number and its CR, as far as they have arrived.
#[derive(Clone, Copy, Default)]
struct Number {
    value: u64,
    is_negative: bool,
    has_digit: bool,
    has_cr: bool,
}

/// Follows the requests of a client.
#[derive(Default)]
pub struct Reader {
    place: Place,
}

impl Reader {
    /// Follows these bytes. If one exceeds a limit, returns how many bytes are before it, and why. The next
    /// call goes on there.
    pub fn read(&mut self, bytes: &[u8], is_let_in: bool) -> Result<(), (usize, Fault)> {
        let mut at = 0;
        while at < bytes.len() {
            at += self.step(&bytes[at..], is_let_in).map_err(|fault| (at, fault))?;
        }
        Ok(())
    }

    /// Follows some bytes, and returns how many: none if only the place has changed.
    fn step(&mut self, bytes: &[u8], is_let_in: bool) -> Result<usize, Fault> {
        let byte = bytes[0];
        self.place = match self.place {
            Place::Start if byte == b'*' => Place::Count(Number::default()),
            Place::Start => {
                self.place = Place::Words(0);
                return Ok(0);
            }
            Place::Words(length) => return self.read_words(length, bytes, is_let_in),
            Place::Count(number) => match number.with(byte, limit(ARGUMENTS, is_let_in)).ok_or(Fault::Arguments)? {
                Digit::More(number) => Place::Count(number),
                Digit::End(0) => Place::Start,
                Digit::End(count) => Place::Mark(count - 1),
                Digit::Bad => return Ok(self.give_up()),
            },
            Place::Mark(more) if byte == b'$' => Place::Length(more, Number::default()),
            Place::Mark(_) => return Ok(self.give_up()),
            Place::Length(more, number) => {
                match number.with(byte, limit(ARGUMENT, is_let_in)).ok_or(Fault::Argument)? {
                    Digit::More(Number { is_negative: true, .. }) | Digit::Bad => return Ok(self.give_up()),
                    Digit::More(number) => Place::Length(more, number),
                    Digit::End(length) => Place::Argument(length + 2, more),
                }
            }
            Place::Argument(left, more) => {
                let count = left.min(bytes.len() as u64);
                self.place = match (left - count, more) {
                    (0, 0) => Place::Start,
                    (0, more) => Place::Mark(more - 1),
                    (left, more) => Place::Argument(left, more),
                };
                return Ok(count as usize);
            }
            Place::Broken(length) if byte == b'\n' || length == ENOUGH => Place::End,
            Place::Broken(length) => Place::Broken(length + 1),
            Place::End if is_let_in => return Ok(bytes.len()),
            Place::End => return Err(Fault::Broken),
        };
        Ok(1)
    }

    /// Leaves the line to the server, which may read all of it before it replies.
    fn give_up(&mut self) -> usize {
        self.place = Place::Broken(0);
        0
    }

    /// Follows a line of words.
    fn read_words(&mut self, length: usize, bytes: &[u8], is_let_in: bool) -> Result<usize, Fault> {
        let end = bytes.iter().position(|it| *it == b'\n');
        let count = end.unwrap_or(bytes.len());
        let room = if is_let_in { count } else { LINE.saturating_sub(length) };
        if count > room {
            if room == 0 {
                return Err(Fault::Line);
            }
            self.place = Place::Words(length + room);
            return Ok(room);
        }
        self.place = if end.is_some() { Place::Start } else { Place::Words(length.saturating_add(count)) };
        Ok(count + usize::from(end.is_some()))
    }
}

/// The greatest number that may follow a `*` or a `$`.
fn limit(of_unauthenticated: u64, is_let_in: bool) -> u64 {
    if is_let_in {
        GREATEST
    } else {
        of_unauthenticated
    }
}

/// What a byte makes of a number.
enum Digit {
    More(Number),
    /// The line is over. A negative number is 0.
    End(u64),
    /// This is no number, or one that is too great for any client.
    Bad,
}

impl Number {
    /// The number with one more byte. None if it exceeds `most`, a limit of unauthenticated clients.
    fn with(mut self, byte: u8, most: u64) -> Option<Digit> {
        match byte {
            b'-' if !self.has_digit && !self.is_negative => self.is_negative = true,
            b'0'..=b'9' if !self.has_cr => {
                self.value = self.value.saturating_mul(10).saturating_add(u64::from(byte - b'0'));
                self.has_digit = true;
                if self.value > most && !self.is_negative {
                    return if most == GREATEST { Some(Digit::Bad) } else { None };
                }
            }
            b'\r' if self.has_digit && !self.has_cr => self.has_cr = true,
            b'\n' if self.has_cr => return Some(Digit::End(if self.is_negative { 0 } else { self.value })),
            _ => return Some(Digit::Bad),
        }
        Some(Digit::More(self))
    }
}
