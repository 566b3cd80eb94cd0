//! A worker that stands in for the server's where the gateway is measured: `worker REQUESTS REPLIES` answers PING, SET and GET over
//! the gateway's packets from a map of its own, and anything else with `+OK`. It trusts what comes, but for its length.

use std::collections::HashMap;
use std::env;
use std::fs::File;
use std::io::{self, Read, Write};

const HEAD: usize = 13;
const READ: usize = 1 << 18;
const DATA: u8 = 0;
const OPEN: u8 = 1;
const CLOSE: u8 = 2;
const LET_IN: u8 = 4;

/// The number that follows a line's mark, and the place behind the line.
fn line(bytes: &[u8], at: usize) -> Option<(usize, usize)> {
    let length = bytes.get(at..)?.windows(2).position(|it| it == b"\r\n")?;
    let digits = bytes.get(at + 1..at + length)?;
    let number = digits.iter().fold(0, |all, digit| all * 10 + usize::from(digit & 15));
    Some((number, at + length + 2))
}

/// The arguments of the request at the front, and its length.
fn request<'a>(bytes: &'a [u8], words: &mut Vec<&'a [u8]>) -> Option<usize> {
    words.clear();
    let (count, mut at) = line(bytes, 0)?;
    for _ in 0..count {
        let (length, from) = line(bytes, at)?;
        words.push(bytes.get(from..from + length)?);
        at = from + length + 2;
    }
    (at <= bytes.len()).then_some(at)
}

fn answer(words: &[&[u8]], kept: &mut HashMap<Vec<u8>, Vec<u8>>, out: &mut Vec<u8>) {
    match words {
        [b"PING"] => out.extend_from_slice(b"+PONG\r\n"),
        [b"SET", key, value] => {
            kept.insert(key.to_vec(), value.to_vec());
            out.extend_from_slice(b"+OK\r\n");
        }
        [b"GET", key] => match kept.get(*key) {
            Some(value) => {
                write!(out, "${}\r\n", value.len()).unwrap();
                out.extend_from_slice(value);
                out.extend_from_slice(b"\r\n");
            }
            None => out.extend_from_slice(b"$-1\r\n"),
        },
        _ => out.extend_from_slice(b"+OK\r\n"),
    }
}

fn frame(kind: u8, connection: u64, bytes: &[u8], out: &mut Vec<u8>) {
    out.push(kind);
    out.extend_from_slice(&connection.to_be_bytes());
    out.extend_from_slice(&(bytes.len() as u32).to_be_bytes());
    out.extend_from_slice(bytes);
}

fn main() -> io::Result<()> {
    let paths: Vec<_> = env::args_os().skip(1).collect();
    let mut requests = File::open(&paths[0])?;
    let mut replies = File::options().write(true).open(&paths[1])?;
    let mut kept = HashMap::new();
    let mut halves: HashMap<u64, Vec<u8>> = HashMap::new();
    let (mut input, mut filled) = (vec![0; 2 * READ], 0);
    let (mut out, mut reply) = (Vec::new(), Vec::new());
    loop {
        let count = requests.read(&mut input[filled..])?;
        if count == 0 {
            return Ok(());
        }
        filled += count;
        let mut at = 0;
        while filled - at >= HEAD {
            let head = &input[at..at + HEAD];
            let connection = u64::from_be_bytes(head[1..9].try_into().unwrap());
            let length = u32::from_be_bytes(head[9..].try_into().unwrap()) as usize;
            if filled - at - HEAD < length {
                break;
            }
            let bytes = &input[at + HEAD..at + HEAD + length];
            match head[0] {
                DATA => {
                    let kept_half = halves.entry(connection).or_default();
                    let mut half = std::mem::take(kept_half);
                    let mut rest = bytes;
                    if !half.is_empty() {
                        half.extend_from_slice(bytes);
                        rest = &half;
                    }
                    reply.clear();
                    let mut words = Vec::new();
                    while let Some(length) = request(rest, &mut words) {
                        answer(&words, &mut kept, &mut reply);
                        rest = &rest[length..];
                    }
                    *kept_half = rest.to_vec();
                    if !reply.is_empty() {
                        frame(DATA, connection, &reply, &mut out);
                    }
                }
                OPEN => frame(LET_IN, connection, b"", &mut out),
                CLOSE => {
                    halves.remove(&connection);
                    frame(CLOSE, connection, b"", &mut out);
                }
                _ => {}
            }
            at += HEAD + length;
        }
        input.copy_within(at..filled, 0);
        filled -= at;
        replies.write_all(&out)?;
        out.clear();
    }
}
