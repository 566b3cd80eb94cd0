//! A map by hand that is larger than its memory: shards behind locks, each of which keeps so many pairs in the order of their
//! last use, and locked maps of bytes that stand for the device and have the others.

use crate::{bucket, Key, SharedMap};
use std::collections::HashMap;
use std::sync::Mutex;

const SHARDS: usize = 64;

/// As many as the table has in `farbench mixed`.
const LANES: usize = 16;

/// A pair that lies in memory, and its neighbours in the order of the last use.
struct Slot {
    key: Key,
    value: Box<[u8]>,
    newer: usize,
    older: usize,
}

/// The pairs of a shard that lie in memory. The order's two ends are the `older` of the first slot, which holds no pair, and
/// its `newer`.
struct Shard {
    places: HashMap<Key, usize>,
    slots: Vec<Slot>,
    most: usize,
}

/// A device in memory. What goes to it and what comes from it is copied.
#[repr(align(128))]
struct Lane(Mutex<HashMap<Key, Box<[u8]>>>);

/// The map.
pub struct FarMap {
    shards: Vec<AlignedShard>,
    lanes: Vec<Lane>,
}

#[repr(align(128))]
struct AlignedShard(Mutex<Shard>);

impl Lane {
    fn write(&self, key: Key, bytes: &[u8]) {
        let bytes = bytes.into();
        self.0.lock().unwrap().insert(key, bytes);
    }

    fn take(&self, key: &Key) -> Option<Box<[u8]>> {
        let mut objects = self.0.lock().unwrap();
        let value = objects.get(key)?.clone();
        objects.remove(key);
        Some(value)
    }
}

impl Shard {
    /// A shard that keeps so many pairs in memory, at least one.
    fn new(most: usize) -> Shard {
        let ends = Slot {
            key: [0; 16],
            value: Box::default(),
            newer: 0,
            older: 0,
        };
        Shard {
            places: HashMap::new(),
            slots: vec![ends],
            most: most.max(1),
        }
    }

    fn unlink(&mut self, at: usize) {
        let Slot { newer, older, .. } = self.slots[at];
        self.slots[newer].older = older;
        self.slots[older].newer = newer;
    }

    fn link_newest(&mut self, at: usize) {
        let older = self.slots[0].older;
        self.slots[at].newer = 0;
        self.slots[at].older = older;
        self.slots[older].newer = at;
        self.slots[0].older = at;
    }

    /// The slot of the key, which is the newest now.
    fn used(&mut self, key: &Key) -> Option<usize> {
        let at = *self.places.get(key)?;
        self.unlink(at);
        self.link_newest(at);
        Some(at)
    }

    /// Keeps the pair as the newest. What goes out for it is answered.
    fn keep(&mut self, key: Key, value: Box<[u8]>) -> Option<(Key, Box<[u8]>)> {
        let (at, out) = if self.slots.len() <= self.most {
            self.slots.push(Slot {
                key,
                value,
                newer: 0,
                older: 0,
            });
            (self.slots.len() - 1, None)
        } else {
            let at = self.slots[0].newer;
            self.unlink(at);
            let slot = &mut self.slots[at];
            let out = (slot.key, std::mem::replace(&mut slot.value, value));
            slot.key = key;
            self.places.remove(&out.0);
            (at, Some(out))
        };
        self.link_newest(at);
        self.places.insert(key, at);
        out
    }
}

impl FarMap {
    /// A map that keeps so many pairs in memory, over all shards.
    pub fn new(kept: usize) -> FarMap {
        FarMap {
            shards: (0..SHARDS)
                .map(|_| AlignedShard(Mutex::new(Shard::new(kept / SHARDS))))
                .collect(),
            lanes: (0..LANES).map(|_| Lane(Mutex::default())).collect(),
        }
    }

    fn shard(&self, key: &Key) -> &Mutex<Shard> {
        &self.shards[bucket(key, SHARDS as u32) as usize].0
    }

    fn lane(&self, key: &Key) -> &Lane {
        &self.lanes[usize::from(key[15]) % LANES]
    }

    fn keep(&self, shard: &mut Shard, key: &Key, value: Box<[u8]>) {
        if let Some((key, value)) = shard.keep(*key, value) {
            self.lane(&key).write(key, &value);
        }
    }
}

impl SharedMap for FarMap {
    fn get(&self, key: &Key) -> Option<Box<[u8]>> {
        let mut shard = self.shard(key).lock().unwrap();
        if let Some(at) = shard.used(key) {
            return Some(shard.slots[at].value.clone());
        }
        let value = self.lane(key).take(key)?;
        let answer = value.clone();
        self.keep(&mut shard, key, value);
        Some(answer)
    }

    fn put(&self, key: &Key, value: &[u8]) -> Option<Box<[u8]>> {
        let value: Box<[u8]> = value.into();
        let mut shard = self.shard(key).lock().unwrap();
        if let Some(at) = shard.used(key) {
            return Some(std::mem::replace(&mut shard.slots[at].value, value));
        }
        let old = self.lane(key).take(key);
        self.keep(&mut shard, key, value);
        old
    }
}
