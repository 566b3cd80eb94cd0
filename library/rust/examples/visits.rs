//! Counts the URLs of files, one a line, in a map that may be larger than its memory:
//! `visits FOLDER FILE..`. Scratch files are in the folder. Prints the ten most frequent.

use std::env;
use std::error::Error;
use std::fs::File;
use std::io::{BufRead, BufReader};
use std::sync::atomic::{AtomicUsize, Ordering};
use std::thread;

const THREADS: u32 = 4;

fn count_in(file: &str, session: &mut farmap::Session<'_>) -> Result<(), Box<dyn Error + Send + Sync>> {
    for line in BufReader::new(File::open(file)?).split(b'\n') {
        session.update(&line?, |old| {
            let old = old.and_then(|old| old.try_into().ok()).map_or(0, u64::from_le_bytes);
            Some((old + 1).to_le_bytes().to_vec())
        })?;
    }
    Ok(())
}

fn main() -> Result<(), Box<dyn Error + Send + Sync>> {
    let words: Vec<String> = env::args().skip(1).collect();
    let (folder, files) = words.split_first().ok_or("usage: visits FOLDER FILE..")?;
    let map = farmap::Options::new().memory(64 << 20).far(folder).sessions(THREADS).open()?;
    let next = AtomicUsize::new(0);
    thread::scope(|scope| {
        let work = || {
            let mut session = map.session()?;
            while let Some(file) = files.get(next.fetch_add(1, Ordering::Relaxed)) {
                count_in(file, &mut session)?;
            }
            Ok(())
        };
        let threads: Vec<_> = (0..THREADS).map(|_| scope.spawn(work)).collect();
        threads.into_iter().try_for_each(|thread| thread.join().expect("a thread panicked"))
    })
    .map_err(|fault: Box<dyn Error + Send + Sync>| fault)?;

    let mut session = map.session()?;
    let mut first: Vec<(u64, Vec<u8>)> = Vec::new();
    let mut visit = session.visit();
    while let Some(pairs) = visit.next_bucket()? {
        first.extend(pairs.map(|(url, count)| (u64::from_le_bytes(count.try_into().unwrap_or_default()), url.to_vec())));
        first.sort_by(|one, other| other.0.cmp(&one.0).then_with(|| one.1.cmp(&other.1)));
        first.truncate(10);
    }
    for (count, url) in first {
        println!("{count} {}", String::from_utf8_lossy(&url));
    }
    Ok(())
}
