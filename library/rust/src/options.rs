//! Options of a map.

use crate::map::Map;
use crate::{ffi, Error, Result};
use std::ffi::{c_char, CStr, CString};
use std::os::unix::ffi::OsStrExt;
use std::path::{Path, PathBuf};
use std::ptr;

/// How a map is opened. Set what you need, and then call [`open`](Options::open).
#[derive(Clone, Debug, Default)]
pub struct Options {
    memory: u64,
    pairs: u64,
    sessions: u32,
    handshake: bool,
    names: u64,
    folders: Vec<PathBuf>,
}

impl Options {
    /// 256 MiB of memory, no folder, and a session for each processor.
    pub fn new() -> Options {
        Options::default()
    }

    /// How many bytes of memory the map may take. Answers and values in calls come in addition.
    pub fn memory(mut self, bytes: u64) -> Options {
        self.memory = bytes;
        self
    }

    /// How many pairs are expected. It is a hint, and more may be put.
    pub fn pairs(mut self, pairs: u64) -> Options {
        self.pairs = pairs;
        self
    }

    /// Adds a folder for scratch files with what has no room in memory. Without one, calls that need more memory
    /// return [`ErrorKind::Full`](crate::ErrorKind::Full). Take a folder on a local disk.
    pub fn far(mut self, folder: impl AsRef<Path>) -> Options {
        self.folders.push(folder.as_ref().to_owned());
        self
    }

    /// How many sessions there are, 1 to 256: as many threads may use the map at once.
    pub fn sessions(mut self, sessions: u32) -> Options {
        self.sessions = sessions;
        self
    }

    /// Has the map's own threads make the calls, which is slower. Other ways to call can't be used in each process:
    /// see the page of the library.
    pub fn handshake(mut self, handshake: bool) -> Options {
        self.handshake = handshake;
        self
    }

    /// After how many changes and moves the map is renewed. Only trials need it.
    #[doc(hidden)]
    pub fn names(mut self, names: u64) -> Options {
        self.names = names;
        self
    }

    /// Opens the map.
    pub fn open(&self) -> Result<Map> {
        let wrong = |_| Error::new(33, "a folder's path has a NUL");
        let folders = self
            .folders
            .iter()
            .map(|folder| CString::new(folder.as_os_str().as_bytes()).map_err(wrong))
            .collect::<Result<Vec<CString>>>()?;
        let mut paths: Vec<*const c_char> = folders.iter().map(|folder| folder.as_ptr()).collect();
        paths.push(ptr::null());
        let options = ffi::Options {
            memory: self.memory,
            pairs: self.pairs,
            folders: paths.as_ptr(),
            sessions: self.sessions,
            flags: if self.handshake { ffi::HANDSHAKE } else { 0 },
            names: self.names,
            reserved: [0; 3],
        };
        let mut map = ptr::null_mut();
        let mut reason = [0 as c_char; ffi::REASON];
        // SAFETY: all pointers are to what lives until the call returns, and the list of folders ends with NULL.
        let status = unsafe { ffi::farmap_open(&options, &mut map, reason.as_mut_ptr(), reason.len()) };
        if status != ffi::OK {
            // SAFETY: the library ends the text with a NUL.
            let reason = unsafe { CStr::from_ptr(reason.as_ptr()) };
            return Err(Error::new(status, &reason.to_string_lossy()));
        }
        Ok(Map::new(map))
    }
}
