//! What a user of the table would take instead, on the workloads of `farbench mixed`, and the files that both read.
//!
//! - `peers keys COUNT BUCKETS EMPTY` writes COUNT keys of 16 bytes in the order of their buckets, of which the last EMPTY
//!   get none. Where as many keys are wanted as there are other buckets, each gets one.
//! - `peers draws COUNT CALLS SKEW` writes the draws of so many calls, four bytes each: which of COUNT keys is
//!   drawn, and above 24 bits a number below 100. SKEW is `uniform` or `zipf`.
//! - `peers run KIND VALUE KEPT` runs the calls on the files `keys`, `uniform` and `zipf` of the folder that it is started
//!   in, with values of so many bytes. KIND is `dashmap`, `mutex`, `mutexes` or `farmap`; KEPT is how many pairs a farmap
//!   keeps in memory.
mod far_map;
mod files;
mod maps;
mod runs;
mod shared;

use far_map::FarMap;
use maps::{Mutexes, Pairs};
use shared::{bucket, Key, SharedMap};
use std::env;
use std::error::Error;
use std::io::{self, Write};

fn main() -> Result<(), Box<dyn Error>> {
    let words: Vec<String> = env::args().skip(1).collect();
    let words: Vec<&str> = words.iter().map(String::as_str).collect();
    match words[..] {
        ["keys", count, buckets, empty] => {
            let keys = files::keys(count.parse()?, buckets.parse()?, empty.parse()?);
            io::stdout().write_all(&keys.concat())?;
        }
        ["draws", count, calls, skew] => {
            let draws = files::draws(count.parse()?, calls.parse()?, skew == "zipf");
            let bytes: Vec<u8> = draws.iter().flat_map(|draw| draw.to_le_bytes()).collect();
            io::stdout().write_all(&bytes)?;
        }
        ["run", kind, value, kept] => {
            let (value, kept) = (value.parse()?, kept.parse()?);
            match kind {
                "dashmap" => runs::run(value, Pairs::new)?,
                "mutex" => runs::run(value, || Mutexes::new(1))?,
                "mutexes" => runs::run(value, || Mutexes::new(64))?,
                "farmap" => runs::run(value, || FarMap::new(kept))?,
                _ => return Err("no such kind".into()),
            }
        }
        _ => {
            return Err(
                "peers keys COUNT BUCKETS EMPTY | draws COUNT CALLS SKEW | run KIND VALUE KEPT"
                    .into(),
            )
        }
    }
    Ok(())
}
