//! The keys and the draws.

use crate::{bucket, Key};

/// How skewed draws are: the rank `r` is drawn in proportion to `r` to the power of minus this.
const SKEW: f64 = 0.99;

/// A splitmix generator.
struct Random(u64);

impl Random {
    fn next(&mut self) -> u64 {
        self.0 = self.0.wrapping_add(0x9e37_79b9_7f4a_7c15);
        let mut mixed = self.0;
        mixed = (mixed ^ (mixed >> 30)).wrapping_mul(0xbf58_476d_1ce4_e5b9);
        mixed = (mixed ^ (mixed >> 27)).wrapping_mul(0x94d0_49bb_1331_11eb);
        mixed ^ (mixed >> 31)
    }

    /// A number below the bound.
    fn below(&mut self, bound: usize) -> usize {
        (u128::from(self.next()) * bound as u128 >> 64) as usize
    }

    /// A number from 0 to 1.
    fn unit(&mut self) -> f64 {
        (self.next() >> 11) as f64 / (1u64 << 53) as f64
    }
}

/// So many keys, each the 16 hexadecimal digits of a random number, in the order of their buckets. None is in one of the
/// last `empty` buckets; where there are as many keys as other buckets, each of these has one.
pub fn keys(count: usize, buckets: u32, empty: u32) -> Vec<Key> {
    let used = buckets - empty;
    let one_each = count == used as usize;
    let mut has_key = vec![false; used as usize];
    let mut random = Random(1);
    let mut keys: Vec<Key> = Vec::with_capacity(count);
    while keys.len() < count {
        let digits = format!("{:016x}", random.next());
        let key = digits.into_bytes().try_into().expect("16 digits");
        let at = bucket(&key, buckets);
        if at < used && !(one_each && has_key[at as usize]) {
            has_key[at as usize] = true;
            keys.push(key);
        }
    }
    keys.sort_by_key(|key| bucket(key, buckets));
    keys
}

/// The draws of so many calls.
pub fn draws(count: usize, calls: usize, skewed: bool) -> Vec<u32> {
    let mut random = Random(2);
    // Which key has which rank is drawn too, so that the first ranks are no neighbours.
    let mut ranked: Vec<u32> = (0..count as u32).collect();
    for left in (1..count).rev() {
        ranked.swap(left, random.below(left + 1));
    }
    let mut sum = 0.0;
    let up_to: Vec<f64> = (1..=count)
        .map(|rank| {
            sum += (rank as f64).powf(-SKEW);
            sum
        })
        .collect();
    (0..calls)
        .map(|_| {
            let rank = if skewed {
                let drawn = random.unit() * sum;
                up_to.partition_point(|&to| to < drawn).min(count - 1)
            } else {
                random.below(count)
            };
            ranked[rank] | (random.below(100) as u32) << 24
        })
        .collect()
}
