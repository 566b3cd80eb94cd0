//! What is measured.

/// A key.
pub type Key = [u8; 16];

/// A map that threads share. Its answers are copies of their own, as the table's are.
pub trait SharedMap: Sync {
    /// The value of the key.
    fn get(&self, key: &Key) -> Option<Box<[u8]>>;

    /// Gives the key a copy of the value, and answers the value that it had.
    fn put(&self, key: &Key, value: &[u8]) -> Option<Box<[u8]>>;
}

/// The bucket of a key, as the table's format has it: over its length in two bytes, and then its bytes.
pub fn bucket(key: &Key, buckets: u32) -> u32 {
    let front = (key.len() as u16).to_be_bytes();
    let bytes = front.iter().chain(key);
    bytes.fold(0u32, |hash, byte| {
        hash.wrapping_mul(31).wrapping_add(u32::from(*byte))
    }) % buckets
}
