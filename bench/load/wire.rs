//! Connections, requests and replies.
use std::ffi::{c_int, c_short, c_ulong};
use std::fs::File;
use std::io::{self, Error, Read, Write};
use std::net::TcpStream;
use std::os::fd::{AsRawFd, OwnedFd};
use std::os::unix::net::UnixStream;
use std::time::Instant;

/// The bytes that a value has in front: its key, and a number that no other value of the key has.
pub const LEAST_VALUE: usize = 32;
const READ: usize = 1 << 16;
/// How long a reply may be waited for, in milliseconds.
const PATIENCE: c_int = 30_000;

pub enum Reply {
    Value(Vec<u8>),
    Missed,
    Done,
    Refused(String),
}

/// One that blocks where it writes. It is read once `wait` says that something came.
pub struct Connection {
    socket: File,
    is_resp: bool,
    input: Vec<u8>,
    /// When the request was sent.
    pub sent: Instant,
}

#[repr(C)]
struct Waited {
    file: c_int,
    events: c_short,
    told: c_short,
}

extern "C" {
    fn poll(files: *mut Waited, count: c_ulong, milliseconds: c_int) -> c_int;
}

/// Which of these have input, once there is some.
pub fn wait(of: &[Connection]) -> io::Result<Vec<usize>> {
    let mut files: Vec<_> = of.iter().map(|it| Waited { file: it.socket.as_raw_fd(), events: 1, told: 0 }).collect();
    // Safety: these are so many, in the C library's form.
    match unsafe { poll(files.as_mut_ptr(), files.len() as c_ulong, PATIENCE) } {
        0 => Err(Error::other("no reply comes")),
        count if count < 0 => Err(Error::last_os_error()),
        _ => Ok((0..files.len()).filter(|at| files[*at].told != 0).collect()),
    }
}

/// A key of 16 bytes. Those of values of different lengths differ.
fn key_text(key: u64, length: usize) -> String {
    format!("{length:06x}{key:010}")
}

/// What stands behind a value's beginning hangs on all of that, so that parts of two values make no third.
fn add_value(output: &mut Vec<u8>, key: u64, length: usize, own: u64) {
    let end = output.len() + length;
    let _ = write!(output, "{}{own:016x}", key_text(key, length));
    let mut word = (key ^ own).wrapping_mul(0x9e37_79b9_7f4a_7c15);
    while output.len() < end {
        word = word.wrapping_add(0xd1b5_4a32_d192_ed03).rotate_left(23);
        output.extend_from_slice(&word.to_le_bytes());
    }
    output.truncate(end);
}

pub fn is_right(value: &[u8], key: u64, length: usize) -> bool {
    let text = value.get(16..LEAST_VALUE).and_then(|it| std::str::from_utf8(it).ok());
    let mut wanted = Vec::with_capacity(length + 8);
    text.and_then(|it| u64::from_str_radix(it, 16).ok()).is_some_and(|own| {
        add_value(&mut wanted, key, length, own);
        wanted == value
    })
}

impl Connection {
    /// To HOST:PORT, or to the path of a Unix socket.
    pub fn new(address: &str, is_resp: bool) -> io::Result<Self> {
        let socket: OwnedFd = if address.contains('/') {
            UnixStream::connect(address)?.into()
        } else {
            let stream = TcpStream::connect(address)?;
            stream.set_nodelay(true)?;
            stream.into()
        };
        Ok(Connection { socket: socket.into(), is_resp, input: Vec::new(), sent: Instant::now() })
    }

    /// Sends a get (true) or a set of a key, if any. A value has a length and a number of its own.
    pub fn ask(&mut self, asked: Option<(bool, u64)>, length: usize, own: u64) -> io::Result<()> {
        let Some((is_get, key)) = asked else { return Ok(()) };
        let text = key_text(key, length);
        let head = match (self.is_resp, is_get) {
            (true, true) => format!("*2\r\n$3\r\nGET\r\n$16\r\n{text}\r\n"),
            (true, false) => format!("*3\r\n$3\r\nSET\r\n$16\r\n{text}\r\n${length}\r\n"),
            (false, true) => format!("get {text}\r\n"),
            (false, false) => format!("set {text} 0 0 {length}\r\n"),
        };
        let mut output = head.into_bytes();
        if !is_get {
            add_value(&mut output, key, length, own);
            output.extend_from_slice(b"\r\n");
        }
        self.socket.write_all(&output)?;
        self.sent = Instant::now();
        Ok(())
    }

    pub fn read(&mut self) -> io::Result<()> {
        let filled = self.input.len();
        self.input.resize(filled + READ, 0);
        let count = self.socket.read(&mut self.input[filled..])?;
        self.input.truncate(filled + count);
        if count == 0 {
            Err(Error::other("the server has closed a connection"))
        } else {
            Ok(())
        }
    }

    /// Takes the reply, if it has come whole.
    pub fn reply(&mut self) -> io::Result<Option<Reply>> {
        let Some(length) = self.input.windows(2).position(|it| it == b"\r\n") else { return Ok(None) };
        let line = String::from_utf8_lossy(&self.input[..length]).into_owned();
        let (head, end) = if self.is_resp { ("$", "\r\n") } else { ("VALUE ", "\r\nEND\r\n") };
        let fault = |text: &str| Err(Error::other(format!("no reply, or no end of it: {text}")));
        let mut used = length + 2;
        let reply = match line.as_str() {
            "$-1" | "END" => Reply::Missed,
            "+OK" | "STORED" => Reply::Done,
            text if text.starts_with(head) => {
                let Some(Ok(count)) = text.rsplit([' ', '$']).next().map(str::parse::<usize>) else {
                    return fault(text);
                };
                let Some(found) = self.input.get(used..used + count + end.len()) else { return Ok(None) };
                if &found[count..] != end.as_bytes() {
                    return fault(text);
                }
                used += found.len();
                Reply::Value(found[..count].to_vec())
            }
            text if text.starts_with('-') || !self.is_resp => Reply::Refused(text.trim_start_matches('-').to_string()),
            text => return fault(text),
        };
        self.input.drain(..used);
        Ok(Some(reply))
    }
}
