//! Maps that lie in memory.

use crate::{bucket, Key, SharedMap};
use dashmap::DashMap;
use std::collections::HashMap;
use std::sync::Mutex;

/// A sharded concurrent map.
pub struct Pairs(DashMap<Key, Box<[u8]>>);

impl Pairs {
    pub fn new() -> Pairs {
        Pairs(DashMap::new())
    }
}

impl SharedMap for Pairs {
    fn get(&self, key: &Key) -> Option<Box<[u8]>> {
        self.0.get(key).map(|value| value.clone())
    }

    fn put(&self, key: &Key, value: &[u8]) -> Option<Box<[u8]>> {
        self.0.insert(*key, value.into())
    }
}

/// A map of std's behind a lock, on cache lines of its own.
#[repr(align(128))]
struct Shard(Mutex<HashMap<Key, Box<[u8]>>>);

/// Maps of std's, each behind a lock. A key is in that of its bucket.
pub struct Mutexes(Vec<Shard>);

impl Mutexes {
    pub fn new(count: usize) -> Mutexes {
        Mutexes((0..count).map(|_| Shard(Mutex::default())).collect())
    }

    fn shard(&self, key: &Key) -> &Mutex<HashMap<Key, Box<[u8]>>> {
        match &self.0[..] {
            [one] => &one.0,
            shards => &shards[bucket(key, shards.len() as u32) as usize].0,
        }
    }
}

impl SharedMap for Mutexes {
    fn get(&self, key: &Key) -> Option<Box<[u8]>> {
        self.shard(key).lock().unwrap().get(key).cloned()
    }

    fn put(&self, key: &Key, value: &[u8]) -> Option<Box<[u8]>> {
        let value = value.into();
        self.shard(key).lock().unwrap().insert(*key, value)
    }
}
