//! Draws, and what is counted.
use crate::wire::{is_right, Reply};
use std::collections::BTreeMap;
use std::time::Duration;

/// SplitMix64.
pub struct Random(u64);

impl Random {
    pub fn new(seed: u64, stream: usize) -> Self {
        let mut mixed = Random(seed.wrapping_mul(0x2545_f491_4f6c_dd1d) ^ stream as u64);
        Random(mixed.next())
    }

    pub fn next(&mut self) -> u64 {
        self.0 = self.0.wrapping_add(0x9e37_79b9_7f4a_7c15);
        let it = (self.0 ^ (self.0 >> 30)).wrapping_mul(0xbf58_476d_1ce4_e5b9);
        let it = (it ^ (it >> 27)).wrapping_mul(0x94d0_49bb_1331_11eb);
        it ^ (it >> 31)
    }

    pub fn below(&mut self, count: u64) -> u64 {
        ((u128::from(self.next()) * u128::from(count)) >> 64) as u64
    }

    pub fn permutation(&mut self, count: u32) -> Vec<u32> {
        let mut all: Vec<u32> = (0..count).collect();
        (1..all.len()).rev().for_each(|at| all.swap(at, self.below(at as u64 + 1) as usize));
        all
    }
}

/// As many as there are times of 64 bits.
const RANGES: usize = 64 * 59;

/// A number below a count, drawn evenly or by Zipf's law, by which the lower come more often: by rejection from the inverse
/// of x^-.99's integral (Hörmann and Derflinger 1996), which is exact and needs no table.
pub fn draw(random: &mut Random, count: u32, is_zipf: bool) -> usize {
    if !is_zipf {
        return random.below(count.into()) as usize;
    }
    let flat = 1.0 - 0.99;
    let integral = |x: f64| (x.powf(flat) - 1.0) / flat;
    let (low, high) = (integral(1.5) - 1.0, integral(f64::from(count) + 0.5));
    loop {
        let area = low + (random.next() >> 11) as f64 / (1u64 << 53) as f64 * (high - low);
        let rank = (1.0 + area * flat).powf(1.0 / flat).round().clamp(1.0, count.into());
        if area >= integral(rank + 0.5) - rank.powf(flat - 1.0) {
            return rank as usize - 1;
        }
    }
}

/// Of counts of times by nanoseconds, 64 ranges of one width from each power of two to the next: the microseconds that such a
/// part of all took at most (a range's middle), 0 where there are none.
fn most(counts: &[u64], part: f64) -> f64 {
    let mut left = ((counts.iter().sum::<u64>() as f64 * part).ceil() as u64).max(1);
    for (at, count) in counts.iter().enumerate() {
        if left <= *count {
            let power = at / 64 - 1;
            return ((at - 64 * power) as f64 + 0.5) * (1u64 << power) as f64 / 1000.0;
        }
        left -= count;
    }
    0.0
}

fn told(counts: &[u64]) -> String {
    let ([p50, p99, p999], count) = ([0.5, 0.99, 0.999].map(|part| most(counts, part)), counts.iter().sum::<u64>());
    format!(r#"{{"count": {count}, "p50": {p50:.1}, "p99": {p99:.1}, "p99.9": {p999:.1}}}"#)
}

#[derive(Default)]
pub struct Figures {
    /// Of sets and of gets.
    times: [Vec<u64>; 2],
    hits: u64,
    read_through: u64,
    pub errors: BTreeMap<String, u64>,
    pub wrong: u64,
}

impl Figures {
    /// Counts a reply to a get or a set of a key. Says whether it was missed.
    pub fn count(&mut self, is_get: bool, key: u64, took: Duration, reply: &Reply, length: usize) -> bool {
        let nanoseconds = (took.as_nanos() as u64).max(64);
        let power = nanoseconds.ilog2() - 6;
        self.times.iter_mut().for_each(|it| it.resize(RANGES, 0));
        self.times[usize::from(is_get)][64 * power as usize + (nanoseconds >> power) as usize] += 1;
        match reply {
            Reply::Value(value) if is_get && is_right(value, key, length) => self.hits += 1,
            Reply::Value(value) => {
                self.wrong += 1;
                let start = &value[..value.len().min(48)];
                eprintln!("load: wrong: key {key} has {} bytes, {}..", value.len(), start.escape_ascii());
            }
            // It stands in JSON, and so keeps no marks or control characters.
            Reply::Refused(text) => {
                let kind = text.chars().filter(|it| !it.is_control() && !"\"\\".contains(*it)).take(80).collect();
                *self.errors.entry(kind).or_default() += 1;
            }
            Reply::Missed => self.read_through += 1,
            Reply::Done => {}
        }
        matches!(reply, Reply::Missed)
    }

    pub fn add(&mut self, other: Figures) {
        for (own, more) in self.times.iter_mut().zip(other.times) {
            own.resize(RANGES, 0);
            own.iter_mut().zip(more).for_each(|(own, more)| *own += more);
        }
        self.hits += other.hits;
        self.read_through += other.read_through;
        self.wrong += other.wrong;
        other.errors.into_iter().for_each(|(kind, count)| *self.errors.entry(kind).or_default() += count);
    }

    pub fn told(&self, seconds: f64, fill_seconds: f64) -> String {
        let [sets, gets] = [0, 1].map(|at| self.times[at].iter().sum::<u64>());
        let calls = (gets + sets) as f64 / seconds.max(1e-9);
        let rate = self.hits as f64 / gets.max(1) as f64;
        let errors: Vec<_> = self.errors.iter().map(|(kind, count)| format!(r#""{kind}": {count}"#)).collect();
        let (sets, gets, errors) = (told(&self.times[0]), told(&self.times[1]), errors.join(", "));
        format!(
            r#"{{"calls_per_second": {calls:.1}, "hit_rate": {rate:.5}, "gets": {gets}, "sets": {sets}, "read_through": {}, "errors": {{{errors}}}, "wrong": {}, "seconds": {seconds:.2}, "fill_seconds": {fill_seconds:.2}}}"#,
            self.read_through, self.wrong
        )
    }
}
