//! The program `fartable` on several files in its plainest form, to compare it with: a thread for each file on 64 locked
//! maps. It takes the same arguments; the files are read in order and parsed side by side, and their pairs are gathered and
//! sorted by as many threads. No limit on objects, and no check of the lines.

use std::collections::HashMap;
use std::env;
use std::fs;
use std::io::{self, BufWriter, Write};
use std::sync::Mutex;
use std::thread;

const MAPS: usize = 64;

type Pair = (Vec<u8>, Vec<u8>);

type Maps = Vec<Mutex<HashMap<Vec<u8>, Vec<u8>>>>;

enum Command {
    Put(Vec<u8>, Vec<u8>),
    Get(Vec<u8>),
    Delete(Vec<u8>),
    PutIf(Vec<u8>, Vec<u8>, Vec<u8>),
    PutNew(Vec<u8>, Vec<u8>),
}

fn command(line: &[u8]) -> Command {
    let words: Vec<&[u8]> = line.split(|byte| *byte == b' ').collect();
    match words[..] {
        [b"put", key, value] => Command::Put(key.to_vec(), value.to_vec()),
        [b"get", key] => Command::Get(key.to_vec()),
        [b"del", key] => Command::Delete(key.to_vec()),
        [b"putif", key, expected, value] => {
            Command::PutIf(key.to_vec(), expected.to_vec(), value.to_vec())
        }
        [b"putnew", key, value] => Command::PutNew(key.to_vec(), value.to_vec()),
        _ => panic!("no command: {}", String::from_utf8_lossy(line)),
    }
}

fn commands(text: &[u8]) -> Vec<Command> {
    let lines = text.split(|byte| *byte == b'\n');
    lines.filter(|line| !line.is_empty()).map(command).collect()
}

/// Reads file after file; each is parsed while those behind it are read.
fn read(paths: &[String]) -> io::Result<Vec<Vec<Command>>> {
    thread::scope(|scope| {
        let mut parsing = Vec::new();
        for path in paths {
            let text = fs::read(path)?;
            parsing.push(scope.spawn(move || commands(&text)));
        }
        Ok(parsing.into_iter().map(|parsed| parsed.join().unwrap()).collect())
    })
}

/// Runs one command, and gives the value that the key had.
fn answer(maps: &Maps, command: &Command) -> Option<Vec<u8>> {
    let key = match command {
        Command::Put(key, _) | Command::Get(key) | Command::Delete(key) => key,
        Command::PutIf(key, _, _) | Command::PutNew(key, _) => key,
    };
    let hash = key.iter().fold(0u32, |hash, byte| hash.wrapping_mul(31).wrapping_add(u32::from(*byte)));
    let mut map = maps[hash as usize % MAPS].lock().unwrap();
    match command {
        Command::Put(key, value) => map.insert(key.clone(), value.clone()),
        Command::Get(key) => map.get(key).cloned(),
        Command::Delete(key) => map.remove(key),
        Command::PutIf(key, expected, value) => {
            let held = map.get(key).cloned();
            if held.as_ref() == Some(expected) {
                map.insert(key.clone(), value.clone());
            }
            held
        }
        Command::PutNew(key, value) => {
            let held = map.get(key).cloned();
            if held.is_none() {
                map.insert(key.clone(), value.clone());
            }
            held
        }
    }
}

fn run(maps: &Maps, commands: Vec<Command>) -> Vec<u8> {
    let mut replies = Vec::new();
    for command in &commands {
        replies.extend_from_slice(answer(maps, command).as_deref().unwrap_or(b"none"));
        replies.push(b'\n');
    }
    replies
}

fn main() -> io::Result<()> {
    let paths: Vec<String> = env::args().skip(4).collect();
    let maps: Maps = (0..MAPS).map(|_| Mutex::default()).collect();
    let files = read(&paths)?;
    let replies: Vec<Vec<u8>> = thread::scope(|scope| {
        let workers: Vec<_> = files.into_iter().map(|file| scope.spawn(|| run(&maps, file))).collect();
        workers.into_iter().map(|worker| worker.join().unwrap()).collect()
    });
    let mut pairs: Vec<Pair> = thread::scope(|scope| {
        let gather = |part: &[Mutex<HashMap<Vec<u8>, Vec<u8>>>]| {
            let mut pairs: Vec<Pair> = Vec::new();
            for map in part {
                pairs.extend(map.lock().unwrap().iter().map(|(key, value)| (key.clone(), value.clone())));
            }
            pairs.sort_unstable();
            pairs
        };
        let parts: Vec<_> = maps.chunks(MAPS.div_ceil(paths.len())).map(|part| scope.spawn(move || gather(part))).collect();
        parts.into_iter().flat_map(|part| part.join().unwrap()).collect()
    });
    // A stable sort merges parts that are in order.
    pairs.sort();
    let mut out = BufWriter::new(io::stdout().lock());
    for (at, replies) in replies.iter().enumerate() {
        writeln!(out, "file {}", at + 1)?;
        out.write_all(replies)?;
    }
    out.write_all(b"contents\n")?;
    for (key, value) in &pairs {
        out.write_all(key)?;
        out.write_all(b" ")?;
        out.write_all(value)?;
        out.write_all(b"\n")?;
    }
    out.flush()
}
