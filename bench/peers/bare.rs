//! What `bench/far.sh` holds the map against, built by rustc alone: a map of std's with all pairs in memory, and a plain loop of
//! reads.
//!
//! - `bare keys COUNT BUCKETS EMPTY` and `bare draws COUNT CALLS SKEW` write files as `peers` does (`main.rs`).
//! - `bare used BUCKETS` prints how many buckets the keys of the file `keys` lie in.
//! - `bare map VALUE` runs the calls on a locked `HashMap` that has the pairs of the file `keys`, with values of so many bytes.
//! - `bare reads VALUE LOCAL DIR PAUSE` runs the same calls where a key's value lies in memory with the probability LOCAL, and else in
//!   a slot of a file without a name in the folder, which a get reads by one pread. Puts write to memory alone. It pauses for so
//!   many seconds when the file is written.
mod files;
mod runs;
mod shared;

use shared::{bucket, Key, SharedMap};
use std::collections::HashMap;
use std::env;
use std::error::Error;
use std::fs::{self, File};
use std::io::{self, Write};
use std::os::unix::fs::FileExt;
use std::process;
use std::sync::Mutex;
use std::thread;
use std::time::Duration;

/// The bytes from one slot to the next: the smallest class of the scratch files for a pair with a value of 512 bytes.
const SLOT: u64 = 1_024;

/// How many values lie in memory, and how many slots there are.
const PLACES: u64 = 1 << 16;
const SLOTS: u64 = 1_000_000;

/// A map of std's.
#[derive(Default)]
struct Locked(Mutex<HashMap<Key, Box<[u8]>>>);

impl SharedMap for Locked {
    fn get(&self, key: &Key) -> Option<Box<[u8]>> {
        self.0.lock().unwrap().get(key).cloned()
    }

    fn put(&self, key: &Key, value: &[u8]) -> Option<Box<[u8]>> {
        self.0.lock().unwrap().insert(*key, value.into())
    }
}

/// Values, of which a part lies in memory. Which value a key has nobody looks at: its place is drawn from its digits.
struct Reads {
    near: Vec<Mutex<Box<[u8]>>>,
    far: File,
    value: usize,
    /// A key is near where the upper half of its draw is below.
    near_below: u64,
}

impl Reads {
    fn new(value: usize, local: f64, folder: &str, pause: u64) -> io::Result<Reads> {
        let name = format!("{folder}/bare-{}", process::id());
        let far = File::options()
            .read(true)
            .write(true)
            .create_new(true)
            .open(&name)?;
        fs::remove_file(&name)?;
        let bytes = vec![7u8; (SLOTS * SLOT) as usize / 1_000];
        for part in 0..1_000 {
            far.write_all_at(&bytes, part * bytes.len() as u64)?;
        }
        far.sync_data()?;
        thread::sleep(Duration::from_secs(pause));
        let near = (0..PLACES).map(|_| Mutex::new(vec![7u8; value].into()));
        Ok(Reads {
            near: near.collect(),
            far,
            value,
            near_below: (local * 2f64.powi(32)) as u64,
        })
    }

    /// A number that the key draws.
    fn draw(key: &Key) -> u64 {
        let (high, low) = key.split_at(8);
        let number = |part: &[u8]| u64::from_le_bytes(part.try_into().expect("8 bytes"));
        let mixed =
            (number(high) ^ number(low).rotate_left(29)).wrapping_mul(0x9e37_79b9_7f4a_7c15);
        (mixed ^ (mixed >> 32)).wrapping_mul(0xbf58_476d_1ce4_e5b9)
    }
}

impl SharedMap for Reads {
    fn get(&self, key: &Key) -> Option<Box<[u8]>> {
        let draw = Reads::draw(key);
        if draw >> 32 < self.near_below {
            return Some(self.near[(draw % PLACES) as usize].lock().unwrap().clone());
        }
        let mut value = vec![0u8; self.value];
        self.far
            .read_exact_at(&mut value, draw % SLOTS * SLOT)
            .ok()?;
        Some(value.into())
    }

    fn put(&self, key: &Key, value: &[u8]) -> Option<Box<[u8]>> {
        let place = (Reads::draw(key) % PLACES) as usize;
        let mut near = self.near[place].lock().unwrap();
        Some(std::mem::replace(&mut *near, value.into()))
    }
}

fn main() -> Result<(), Box<dyn Error>> {
    let words: Vec<String> = env::args().skip(1).collect();
    let words: Vec<&str> = words.iter().map(String::as_str).collect();
    match words[..] {
        ["keys", count, buckets, empty] => {
            let keys = files::keys(count.parse()?, buckets.parse()?, empty.parse()?);
            io::stdout().write_all(&keys.concat())?;
        }
        ["draws", count, calls, skew] => {
            let draws = files::draws(count.parse()?, calls.parse()?, skew == "zipf");
            let bytes: Vec<u8> = draws.iter().flat_map(|draw| draw.to_le_bytes()).collect();
            io::stdout().write_all(&bytes)?;
        }
        ["used", buckets] => {
            let buckets = buckets.parse()?;
            let keys = fs::read("keys")?;
            let mut used = vec![false; buckets as usize];
            for key in keys.chunks_exact(16) {
                used[bucket(key.try_into()?, buckets) as usize] = true;
            }
            println!("{}", used.iter().filter(|is| **is).count());
        }
        ["map", value] => runs::run(value.parse()?, Locked::default)?,
        ["reads", value, local, folder, pause] => {
            let value = value.parse()?;
            let reads = Reads::new(value, local.parse()?, folder, pause.parse()?)?;
            runs::run(value, || reads)?;
        }
        _ => {
            return Err(
                "bare keys | draws | used | map | reads: this file's head says with which words"
                    .into(),
            )
        }
    }
    Ok(())
}
