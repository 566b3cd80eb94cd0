//! The runs on one map, in the same order and over the same calls as those of `farbench mixed`.

use crate::{Key, SharedMap};
use std::error::Error;
use std::fs;
use std::hint::spin_loop;
use std::sync::atomic::{AtomicUsize, Ordering};
use std::thread;
use std::time::{Duration, Instant};

/// For how many threads' calls a file has draws, over all runs: no run repeats what an earlier one called.
const PARTS: usize = 25;

/// How many threads warm up.
const WARMING: usize = 4;

/// The keys and the draws of the files.
struct Files {
    keys: Vec<Key>,
    draws: Vec<u32>,
}

/// The calls of one thread: keys in the order in which they are called, so that a call finds its key in the cache, and
/// whether each is a get.
struct Calls {
    keys: Vec<Key>,
    gets: Vec<bool>,
}

impl Calls {
    /// The calls of a part of the draws, of which so many in a hundred are gets.
    fn new(files: &Files, part: usize, gets: u32) -> Calls {
        let count = files.draws.len() / PARTS;
        let own = &files.draws[part * count..][..count];
        Calls {
            keys: own
                .iter()
                .map(|draw| files.keys[(draw & 0xff_ffff) as usize])
                .collect(),
            gets: own.iter().map(|draw| draw >> 24 < gets).collect(),
        }
    }

    /// Makes the calls, and counts those that found no value.
    fn make<M: SharedMap>(&self, map: &M, value: &[u8]) -> u64 {
        let mut lost = 0;
        for (key, is_get) in self.keys.iter().zip(&self.gets) {
            let found = if *is_get {
                map.get(key)
            } else {
                map.put(key, value)
            };
            lost += u64::from(found.is_none());
        }
        lost
    }
}

/// Runs the calls of so many threads, each from about the same moment on. Answers the span from the first beginning to the
/// last end, and how many calls were lost.
fn together<M: SharedMap>(map: &M, value: &[u8], calls: Vec<Calls>) -> (Duration, u64) {
    let arrived = AtomicUsize::new(0);
    let threads = calls.len();
    let timed = |calls: Calls| {
        arrived.fetch_add(1, Ordering::SeqCst);
        while arrived.load(Ordering::SeqCst) < threads {
            spin_loop();
        }
        let began = Instant::now();
        let lost = calls.make(map, value);
        (began, Instant::now(), lost)
    };
    let timed = &timed;
    let ended: Vec<(Instant, Instant, u64)> = thread::scope(|scope| {
        let started: Vec<_> = calls
            .into_iter()
            .map(|calls| scope.spawn(move || timed(calls)))
            .collect();
        started
            .into_iter()
            .map(|thread| thread.join().expect("a thread ends"))
            .collect()
    });
    let first = ended
        .iter()
        .map(|(began, ..)| *began)
        .min()
        .expect("a thread");
    let last = ended
        .iter()
        .map(|(_, ended, _)| *ended)
        .max()
        .expect("a thread");
    (last - first, ended.iter().map(|(.., lost)| lost).sum())
}

/// The bytes that are resident.
fn resident() -> Result<u64, Box<dyn Error>> {
    let words = fs::read_to_string("/proc/self/statm")?;
    let pages: u64 = words.split(' ').nth(1).ok_or("no second word")?.parse()?;
    Ok(pages * 4_096)
}

/// The elements of the file, which have so many bytes each.
fn read<const N: usize, T>(
    name: &str,
    element: impl Fn([u8; N]) -> T,
) -> Result<Vec<T>, Box<dyn Error>> {
    let bytes = fs::read(name)?;
    Ok(bytes
        .chunks_exact(N)
        .map(|chunk| element(chunk.try_into().expect("the chunk's length")))
        .collect())
}

/// Runs all calls of a file of draws on the map, and prints a line for each run.
fn rows<M: SharedMap>(map: &M, value: &[u8], files: &Files, skew: &str) {
    let calls = |first: usize, threads: usize, gets: u32| {
        let parts = first..first + threads;
        parts.map(|part| Calls::new(files, part, gets)).collect()
    };
    together(map, value, calls(0, WARMING, 95));
    let mut first = WARMING;
    for gets in [95, 50, 0] {
        for threads in [1, 2, 4] {
            let (took, lost) = together(map, value, calls(first, threads, gets));
            let count = threads * (files.draws.len() / PARTS);
            println!("{skew} {gets} {threads} {count} {} {lost}", took.as_nanos());
            first += threads;
        }
    }
}

/// Fills a map with the keys of the folder, and prints how many bytes more are resident than before it was opened, empty and
/// filled; then runs the calls on it.
pub fn run<M: SharedMap>(value: usize, open: impl FnOnce() -> M) -> Result<(), Box<dyn Error>> {
    let mut files = Files {
        keys: read("keys", |key| key)?,
        draws: Vec::new(),
    };
    let value = vec![7u8; value];
    let before = resident()?;
    let map = open();
    let opened = resident()?.saturating_sub(before);
    for key in &files.keys {
        map.put(key, &value);
    }
    let filled = resident()?.saturating_sub(before);
    println!("memory {opened} {filled}");
    for skew in ["uniform", "zipf"] {
        files.draws = read(skew, u32::from_le_bytes)?;
        rows(&map, &value, &files, skew);
    }
    Ok(())
}
