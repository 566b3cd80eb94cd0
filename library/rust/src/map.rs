//! A map.

use crate::session::Session;
use crate::{ffi, Error, Options, Result};
use std::fmt;
use std::ptr::{self, NonNull};

/// A map. It is closed when it is dropped, and everything in it is gone then.
///
/// A session borrows its map, so no session is left when the map is dropped.
pub struct Map {
    map: NonNull<ffi::Map>,
}

// SAFETY: the library's functions on a map may be called by all threads at once.
unsafe impl Send for Map {}
// SAFETY: the same.
unsafe impl Sync for Map {}

impl Map {
    pub(crate) fn new(map: *mut ffi::Map) -> Map {
        Map {
            map: NonNull::new(map).expect("an opened map is not NULL"),
        }
    }

    /// Opens a map of 256 MiB, whose scratch files are in this folder. [`Options`] has more to choose.
    pub fn open(folder: impl AsRef<std::path::Path>) -> Result<Map> {
        Options::new().far(folder).open()
    }

    /// Takes a session. [`ErrorKind::NoSession`](crate::ErrorKind::NoSession) if all are taken.
    pub fn session(&self) -> Result<Session<'_>> {
        let mut session = ptr::null_mut();
        // SAFETY: the map is open, as it is closed only when it is dropped.
        let status = unsafe { ffi::farmap_session_open(self.map.as_ptr(), &mut session) };
        match NonNull::new(session) {
            Some(session) if status == ffi::OK => Ok(Session::new(session)),
            _ => Err(Error::new(status, "")),
        }
    }

    /// How many sessions there are in all.
    pub fn sessions(&self) -> u32 {
        // SAFETY: the map is open.
        unsafe { ffi::farmap_sessions(self.map.as_ptr()) }
    }
}

impl Drop for Map {
    fn drop(&mut self) {
        // SAFETY: no session is left. One that was forgotten is not used any more, and is in no call. In the child of
        // a fork this does nothing.
        let _ = unsafe { ffi::farmap_close(self.map.as_ptr()) };
    }
}

impl fmt::Debug for Map {
    fn fmt(&self, f: &mut fmt::Formatter<'_>) -> fmt::Result {
        f.debug_struct("Map").field("sessions", &self.sessions()).finish_non_exhaustive()
    }
}
