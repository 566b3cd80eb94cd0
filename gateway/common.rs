//! What all workers and links of the gateway share.

use crate::log::Log;
use crate::memory::Memory;
use crate::news::News;
use crate::system::Epoll;
use crate::turns::ALONE;
use crate::words::Options;
use std::time::{Duration, Instant};

/// The one value of this kind, which the main thread passes to each of its parts.
pub struct Shared {
    pub epoll: Epoll,
    /// The most bytes that may wait for a client.
    pub output_limit: usize,
    /// Whether the server asks for a password. If so, a client that was let in may be let out again.
    pub is_guarded: bool,
    /// How long a client may be unauthenticated; zero for ever.
    pub auth_timeout: Duration,
    /// How many clients all workers have.
    pub clients: usize,
    /// What they take.
    pub memory: Memory,
    /// When the last events arrived.
    pub now: Instant,
    /// Every worker is to get a WAKE.
    pub wakes: bool,
    pub log: Log,
    /// What the server last reported for the log.
    pub news: News,
    /// A buffer for what is read from a socket.
    pub room: Vec<u8>,
}

impl Shared {
    pub fn new(epoll: Epoll, log: Log, options: &Options) -> Shared {
        Shared {
            epoll,
            output_limit: options.output_limit,
            is_guarded: options.guarded,
            auth_timeout: Duration::from_secs(options.auth_timeout.into()),
            clients: 0,
            memory: Memory::new(options.clients_memory),
            now: Instant::now(),
            wakes: false,
            log,
            news: News::default(),
            room: vec![0; ALONE.piece],
        }
    }
}
