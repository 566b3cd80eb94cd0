//! The load of a cache, over RESP2 or memcached's text protocol:
//!
//! load --protocol resp|memcached --address A --keys N --value BYTES --gets PERCENT --draw zipf|uniform --connections C
//!      --threads T --seconds S [--fill] [--seed S]
//!
//! A is HOST:PORT, or the path of a Unix socket. --fill sets each key once before. Then each connection has one command on
//! its way at a time: a get or a set of a key that is drawn evenly, or by Zipf's law with exponent .99 over a permutation of
//! the keys, the same for all seeds. A get that misses sets the key (read-through). A value has its key in it, and each that is
//! got is checked. Threads share the connections out. Built by `rustc -O --edition 2021 bench/load/main.rs`.
//!
//! A line of JSON tells calls a second (gets, sets and those of read-through), the rate of hits, and the microseconds that so
//! many in a hundred gets and sets take at most, from a request sent to its reply read (to 2 in a hundred). Replies that are
//! errors are counted by text. Status 1 where a value was wrong, which a line on standard error tells, or a connection or a
//! reply's form failed; 2 for wrong words.
mod figures;
mod wire;

use figures::{draw, Figures, Random};
use std::collections::HashMap;
use std::process::ExitCode;
use std::str::FromStr;
use std::sync::atomic::{AtomicU64, Ordering::Relaxed};
use std::time::{Duration, Instant};
use std::{env, io, thread};
use wire::{wait, Connection, LEAST_VALUE};

/// What a connection gets (true) or sets next, told of a key that it has missed.
type Next<'a> = Box<dyn FnMut(Option<u64>) -> Option<(bool, u64)> + 'a>;

struct Load {
    address: String,
    is_resp: bool,
    is_zipf: bool,
    is_filled: bool,
    keys: u32,
    value: usize,
    gets: u64,
    connections: usize,
    threads: usize,
    seconds: f64,
    seed: u64,
}

fn word<T: FromStr>(words: &mut HashMap<String, String>, name: &str) -> Result<T, String> {
    let text = words.remove(name).ok_or(format!("--{name} is missing"))?;
    text.parse().map_err(|_| format!("--{name} can't be {text}"))
}

impl Load {
    fn read(mut given: impl Iterator<Item = String>) -> Result<Self, String> {
        let mut words = HashMap::from([("seed".to_string(), "1".to_string())]);
        while let Some(option) = given.next() {
            let text = if option == "--fill" { Some(String::new()) } else { given.next() };
            words.insert(option.trim_start_matches("--").to_string(), text.ok_or(format!("{option} needs a word"))?);
        }
        let of = &mut words;
        let (protocol, draw): (String, String) = (word(of, "protocol")?, word(of, "draw")?);
        let load = Load {
            address: word(of, "address")?,
            is_resp: protocol == "resp",
            is_zipf: draw == "zipf",
            is_filled: of.remove("fill").is_some(),
            keys: word(of, "keys")?,
            value: word(of, "value")?,
            gets: word(of, "gets")?,
            connections: word(of, "connections")?,
            threads: word(of, "threads")?,
            seconds: word(of, "seconds")?,
            seed: word(of, "seed")?,
        };
        let is_known =
            (load.is_resp || protocol == "memcached") && (load.is_zipf || draw == "uniform") && of.is_empty();
        let is_right = load.keys > 0 && (LEAST_VALUE..1 << 24).contains(&load.value) && load.gets <= 100;
        let fits = (0.0..1e9).contains(&load.seconds) && (1..=load.connections).contains(&load.threads);
        if !is_known || !is_right || !fits {
            return Err(format!("wrong words; a value has {LEAST_VALUE} bytes to 16 MiB, a thread a connection"));
        }
        Ok(load)
    }

    /// Has each connection of a thread get or set a key that `next` gives, at first and when it is answered, until none does
    /// more. `next` is told of a key that was missed.
    fn run(&self, thread: usize, mut next: Next) -> io::Result<Figures> {
        let (mut figures, mut random) = (Figures::default(), Random::new(self.seed, thread));
        let own = (thread..self.connections).step_by(self.threads);
        let mut all = own.map(|_| Connection::new(&self.address, self.is_resp)).collect::<io::Result<Vec<_>>>()?;
        let mut asked = vec![None; all.len()];
        for (connection, asked) in all.iter_mut().zip(&mut asked) {
            *asked = next(None);
            connection.ask(*asked, self.value, random.next())?;
        }
        while asked.iter().any(Option::is_some) {
            for at in wait(&all)? {
                all[at].read()?;
                let Some(reply) = all[at].reply()? else { continue };
                let (is_get, key) = asked[at].ok_or_else(|| io::Error::other("a reply to nothing"))?;
                let missed = figures.count(is_get, key, all[at].sent.elapsed(), &reply, self.value);
                asked[at] = next(missed.then_some(key));
                all[at].ask(asked[at], self.value, random.next())?;
            }
        }
        Ok(figures)
    }

    /// Runs `next(thread, a key that was missed)` by each thread. Gives all their figures, and the seconds that it took.
    fn side_by_side<'a>(&self, next: impl Fn(usize) -> Next<'a> + Sync) -> io::Result<(Figures, f64)> {
        let (began, mut all, next) = (Instant::now(), Figures::default(), &next);
        thread::scope(|scope| {
            let threads: Vec<_> =
                (0..self.threads).map(|thread| scope.spawn(move || self.run(thread, next(thread)))).collect();
            threads.into_iter().try_for_each(|it| it.join().expect("a thread ends").map(|of| all.add(of)))
        })?;
        Ok((all, began.elapsed().as_secs_f64()))
    }

    fn all(&self) -> io::Result<ExitCode> {
        let (filled, mut fill, mut fill_seconds) = (AtomicU64::new(0), Figures::default(), 0.0);
        if self.is_filled {
            let next = |_| Some((false, filled.fetch_add(1, Relaxed))).filter(|(_, key)| *key < u64::from(self.keys));
            (fill, fill_seconds) = self.side_by_side(|_| Box::new(next))?;
        }
        let places = &Random::new(0, 0).permutation(self.keys);
        let end = Instant::now() + Duration::from_secs_f64(self.seconds);
        let (mut figures, seconds) = self.side_by_side(|thread| {
            let mut random = Random::new(self.seed, self.threads + thread);
            Box::new(move |missed| match missed {
                Some(key) => Some((false, key)),
                None if Instant::now() >= end => None,
                None => {
                    Some((random.below(100) < self.gets, places[draw(&mut random, self.keys, self.is_zipf)].into()))
                }
            })
        })?;
        figures.errors.extend(fill.errors.into_iter().map(|(kind, count)| (format!("fill: {kind}"), count)));
        println!("{}", figures.told(seconds, fill_seconds));
        Ok(ExitCode::from(u8::from(figures.wrong > 0)))
    }
}

fn main() -> ExitCode {
    let (status, why) = match Load::read(env::args().skip(1)).map(|load| load.all()) {
        Ok(Ok(status)) => return status,
        Ok(Err(fault)) => (1, fault.to_string()),
        Err(fault) => (2, fault),
    };
    eprintln!("load: {why}");
    ExitCode::from(status)
}
