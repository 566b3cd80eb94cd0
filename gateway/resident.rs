//! How many bytes of both programs are resident.

use crate::system;
use std::fs::File;
use std::os::unix::fs::FileExt;
use std::process;

/// More bytes than a file `statm` has.
const LINE: usize = 256;

pub struct Resident {
    /// The file `statm` of each program.
    files: Vec<File>,
    page: u64,
}

impl Resident {
    /// For the gateway, and for the server if its process is known.
    pub fn new(server: Option<u32>) -> Resident {
        let processes = [Some(process::id()), server];
        let open = |process: u32| File::open(format!("/proc/{process}/statm")).ok();
        Resident { files: processes.into_iter().flatten().filter_map(open).collect(), page: system::page() }
    }

    /// Resident bytes of these programs, without those about which the system reports nothing. Allocates
    /// nothing.
    pub fn bytes(&self) -> u64 {
        self.files.iter().filter_map(pages).sum::<u64>() * self.page
    }
}

/// The second number of a file `statm`: resident pages.
fn pages(file: &File) -> Option<u64> {
    let mut line = [0; LINE];
    let count = file.read_at(&mut line, 0).ok()?;
    str::from_utf8(&line[..count]).ok()?.split(' ').nth(1)?.parse().ok()
}
