//! What is counted.

/// What a session has counted, and what is known of the map. No number is exact while other calls are made.
#[derive(Clone, Copy, Debug, Default, PartialEq, Eq)]
#[repr(C)]
#[non_exhaustive]
pub struct Stats {
    /// Gets of the session that were finished.
    pub gets: u64,
    /// Puts of the session.
    pub puts: u64,
    /// Removals of the session.
    pub removes: u64,
    /// Its `put_if` and `put_new`.
    pub put_ifs: u64,
    /// Calls of the session that were refused because a bucket would be too long.
    pub too_long: u64,
    /// The same because there was no room.
    pub full: u64,
    /// The same because the map had no version number left.
    pub names_spent: u64,
    /// The same because a device failed.
    pub device: u64,
    /// The same because bytes of a device were damaged.
    pub damaged: u64,
    /// The same because memory was refused.
    pub memory: u64,
    /// What calls of the session read in memory.
    pub local_reads: u64,
    /// What they read on devices.
    pub far_reads: u64,
    /// Objects that they moved into memory.
    pub swap_ins: u64,
    /// Objects that they moved to devices.
    pub swap_outs: u64,
    /// How often a device failed in them.
    pub device_failures: u64,
    /// The pairs of the map.
    pub pairs: u64,
    /// Bytes of the map's objects in memory.
    pub bytes_in_memory: u64,
    /// The bound of these.
    pub most_bytes_in_memory: u64,
    /// The number of buckets.
    pub buckets: u64,
    /// Changes and moves until the map is renewed.
    pub names_left: u64,
    /// How often it was renewed.
    pub renewals: u64,
    /// Pairs that were lost by renewals, since they could not be put again.
    pub lost_pairs: u64,
    /// Buckets that were lost by renewals, since they could not be read.
    pub lost_buckets: u64,
}
