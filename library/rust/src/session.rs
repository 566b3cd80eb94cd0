//! A session: the calls of a map.

use crate::stats::Stats;
use crate::{ffi, Error, Map, Result};
use std::ffi::{c_int, CStr};
use std::marker::PhantomData;
use std::ptr::{self, NonNull};
use std::{fmt, slice};

/// A session of a map, by which one thread at a time makes calls. It is given back when it is dropped.
///
/// Each call takes `&mut self`, so the bytes that the last call returned are not used any more.
pub struct Session<'m> {
    session: NonNull<ffi::Session>,
    map: PhantomData<&'m Map>,
}

// SAFETY: a session may be used by different threads one after another. (It is not `Sync`: no call takes `&self`, and
// the bytes that one returns are borrowed from it.)
unsafe impl Send for Session<'_> {}

/// What [`Session::put_if`] did.
#[derive(Clone, Copy, Debug, PartialEq, Eq)]
pub enum PutIf<'s> {
    /// The key was set.
    Set,
    /// The key has another value, which is this one, or none.
    Found(Option<&'s [u8]>),
}

/// What [`Session::put_new`] did.
#[derive(Clone, Copy, Debug, PartialEq, Eq)]
pub enum PutNew<'s> {
    /// The key was set.
    Set,
    /// The key has this value already.
    Found(&'s [u8]),
}

const NOTHING: ffi::Bytes = ffi::Bytes {
    data: ptr::null(),
    length: 0,
};

fn lent(bytes: &[u8]) -> ffi::Bytes {
    ffi::Bytes {
        data: bytes.as_ptr().cast(),
        length: bytes.len(),
    }
}

/// The bytes that a call has returned.
///
/// # Safety
///
/// The session that returned them must not make a call while they are used.
unsafe fn found<'s>(bytes: ffi::Bytes) -> Option<&'s [u8]> {
    if bytes.data.is_null() {
        None
    } else {
        // SAFETY: the library has this many bytes there until the next call.
        Some(unsafe { slice::from_raw_parts(bytes.data.cast(), bytes.length) })
    }
}

impl<'m> Session<'m> {
    pub(crate) fn new(session: NonNull<ffi::Session>) -> Session<'m> {
        Session {
            session,
            map: PhantomData,
        }
    }

    fn as_ptr(&mut self) -> *mut ffi::Session {
        self.session.as_ptr()
    }

    /// Why the last call failed.
    fn error(&self, status: c_int) -> Error {
        // (other statuses were returned before the session was touched, so that its reason is of an earlier call)
        let reason = if (26..=29).contains(&status) {
            ""
        } else {
            // SAFETY: the session is open, and no other thread makes a call by it.
            unsafe { CStr::from_ptr(ffi::farmap_reason(self.session.as_ptr())) }.to_str().unwrap_or("")
        };
        Error::new(status, reason)
    }

    /// Whether it was done, or there was no such value.
    fn flag(&self, status: c_int) -> Result<bool> {
        match status {
            ffi::OK => Ok(true),
            ffi::NONE | ffi::OTHER => Ok(false),
            _ => Err(self.error(status)),
        }
    }

    /// The value of a key.
    pub fn get(&mut self, key: &[u8]) -> Result<Option<&[u8]>> {
        let mut value = NOTHING;
        // SAFETY: the pointers are to what lives until the call returns, and `found` is borrowed from the session.
        let status = unsafe { ffi::farmap_get(self.as_ptr(), lent(key), &mut value) };
        if self.flag(status)? {
            Ok(unsafe { found(value) })
        } else {
            Ok(None)
        }
    }

    /// The values of several keys, in their order. Each is a get, so the whole is not one moment.
    pub fn get_many<K: AsRef<[u8]>>(&mut self, keys: &[K]) -> Result<Vec<Option<&[u8]>>> {
        let keys: Vec<ffi::Bytes> = keys.iter().map(|key| lent(key.as_ref())).collect();
        let mut values = vec![NOTHING; keys.len()];
        // SAFETY: as in `get`; there are as many values as keys.
        let status = unsafe { ffi::farmap_get_many(self.as_ptr(), keys.as_ptr(), keys.len(), values.as_mut_ptr()) };
        self.flag(status)?;
        Ok(values.into_iter().map(|value| unsafe { found(value) }).collect())
    }

    /// Whether a key has a value.
    pub fn contains(&mut self, key: &[u8]) -> Result<bool> {
        // SAFETY: as in `get`.
        let status = unsafe { ffi::farmap_contains(self.as_ptr(), lent(key)) };
        self.flag(status)
    }

    /// Sets a key.
    pub fn put(&mut self, key: &[u8], value: &[u8]) -> Result<()> {
        // SAFETY: as in `get`. No place for the value before is allowed.
        let status = unsafe { ffi::farmap_put(self.as_ptr(), lent(key), lent(value), ptr::null_mut()) };
        self.flag(status).map(|_| ())
    }

    /// Sets a key, and returns the value before.
    pub fn replace(&mut self, key: &[u8], value: &[u8]) -> Result<Option<&[u8]>> {
        let mut before = NOTHING;
        // SAFETY: as in `get`.
        let status = unsafe { ffi::farmap_put(self.as_ptr(), lent(key), lent(value), &mut before) };
        self.flag(status)?;
        Ok(unsafe { found(before) })
    }

    /// Sets a key if it has no value.
    pub fn put_new(&mut self, key: &[u8], value: &[u8]) -> Result<PutNew<'_>> {
        let mut other = NOTHING;
        // SAFETY: as in `get`.
        let status = unsafe { ffi::farmap_put_new(self.as_ptr(), lent(key), lent(value), &mut other) };
        self.flag(status)?;
        Ok(match unsafe { found(other) } {
            None => PutNew::Set,
            Some(value) => PutNew::Found(value),
        })
    }

    /// Sets a key if it has the expected value.
    pub fn put_if(&mut self, key: &[u8], expected: &[u8], value: &[u8]) -> Result<PutIf<'_>> {
        let mut other = NOTHING;
        // SAFETY: as in `get`.
        let status = unsafe { ffi::farmap_put_if(self.as_ptr(), lent(key), lent(expected), lent(value), &mut other) };
        Ok(if self.flag(status)? {
            PutIf::Set
        } else {
            PutIf::Found(unsafe { found(other) })
        })
    }

    /// Removes a key. Returns whether it had a value.
    pub fn remove(&mut self, key: &[u8]) -> Result<bool> {
        // SAFETY: as in `get`.
        let status = unsafe { ffi::farmap_remove(self.as_ptr(), lent(key)) };
        self.flag(status)
    }

    /// Removes a key, and returns the value that it had.
    pub fn take(&mut self, key: &[u8]) -> Result<Option<&[u8]>> {
        let mut value = NOTHING;
        // SAFETY: as in `get`.
        let status = unsafe { ffi::farmap_take(self.as_ptr(), lent(key), &mut value) };
        self.flag(status)?;
        Ok(unsafe { found(value) })
    }

    /// Removes a key if it has the expected value. Returns whether it did.
    pub fn remove_if(&mut self, key: &[u8], expected: &[u8]) -> Result<bool> {
        // SAFETY: as in `get`. No place for the other value is allowed.
        let status = unsafe { ffi::farmap_remove_if(self.as_ptr(), lent(key), lent(expected), ptr::null_mut()) };
        self.flag(status)
    }

    /// Sets a key to what `make` returns for its value, or for `None`. If another thread changes the key meanwhile, it
    /// tries again, so no change of another thread is lost. `make` returns `None` to leave the key as it is.
    ///
    /// A panic of `make` leaves the key as it is.
    pub fn update(&mut self, key: &[u8], mut make: impl FnMut(Option<&[u8]>) -> Option<Vec<u8>>) -> Result<()> {
        let mut old = self.get(key)?.map(<[u8]>::to_vec);
        while let Some(value) = make(old.as_deref()) {
            let other = match &old {
                None => match self.put_new(key, &value)? {
                    PutNew::Set => return Ok(()),
                    PutNew::Found(other) => Some(other.to_vec()),
                },
                Some(expected) => match self.put_if(key, expected, &value)? {
                    PutIf::Set => return Ok(()),
                    PutIf::Found(other) => other.map(<[u8]>::to_vec),
                },
            };
            old = other;
        }
        Ok(())
    }

    /// Visits all pairs, those of one bucket at a time. Other calls may change later buckets meanwhile.
    ///
    /// ```
    /// # fn main() -> Result<(), farmap::Error> {
    /// # let map = farmap::Options::new().memory(64 << 20).open()?;
    /// # let mut session = map.session()?;
    /// # session.put(b"planet", b"Saturn")?;
    /// let mut bytes = 0;
    /// let mut visit = session.visit();
    /// while let Some(pairs) = visit.next_bucket()? {
    ///     for (key, value) in pairs {
    ///         bytes += key.len() + value.len();
    ///     }
    /// }
    /// assert_eq!(bytes, 12);
    /// # Ok(())
    /// # }
    /// ```
    pub fn visit(&mut self) -> Visit<'_, 'm> {
        Visit { session: self, cursor: 0 }
    }

    /// How many pairs the map has. It is exact while no other call is made.
    pub fn len(&mut self) -> Result<u64> {
        let mut length = 0;
        // SAFETY: as in `get`.
        let status = unsafe { ffi::farmap_length(self.as_ptr(), &mut length) };
        self.flag(status)?;
        Ok(length)
    }

    /// Whether the map has no pair.
    pub fn is_empty(&mut self) -> Result<bool> {
        Ok(self.len()? == 0)
    }

    /// What this session has counted, and what is known of the map.
    pub fn stats(&mut self) -> Result<Stats> {
        let mut stats = Stats::default();
        // SAFETY: `Stats` has the numbers of the library's structure, in their order.
        let status = unsafe { ffi::farmap_count(self.as_ptr(), (&mut stats as *mut Stats).cast()) };
        self.flag(status)?;
        Ok(stats)
    }

    /// Moves one object to a device. Returns whether there was one to move. The map does so by itself.
    pub fn evict(&mut self) -> Result<bool> {
        // SAFETY: as in `get`.
        let status = unsafe { ffi::farmap_evict(self.as_ptr()) };
        self.flag(status)
    }
}

impl Drop for Session<'_> {
    fn drop(&mut self) {
        // SAFETY: the session is in no call, and its map is open. In the child of a fork this does nothing.
        let _ = unsafe { ffi::farmap_session_close(self.session.as_ptr()) };
    }
}

impl fmt::Debug for Session<'_> {
    fn fmt(&self, f: &mut fmt::Formatter<'_>) -> fmt::Result {
        f.debug_struct("Session").finish_non_exhaustive()
    }
}

/// A visit of all pairs: see [`Session::visit`].
#[derive(Debug)]
pub struct Visit<'s, 'm> {
    session: &'s mut Session<'m>,
    cursor: u64,
}

impl Visit<'_, '_> {
    /// The pairs of the next bucket that has some. `None` after the last one.
    pub fn next_bucket(&mut self) -> Result<Option<Pairs<'_>>> {
        let (mut pairs, mut count) = (ptr::null(), 0);
        // SAFETY: as in `Session::get`.
        let status = unsafe { ffi::farmap_visit(self.session.as_ptr(), &mut self.cursor, &mut pairs, &mut count) };
        if !self.session.flag(status)? {
            return Ok(None);
        }
        // SAFETY: the library has this many pairs there until the next call, which needs the session.
        let pairs = unsafe { slice::from_raw_parts(pairs, count) };
        Ok(Some(Pairs { pairs: pairs.iter() }))
    }
}

/// The pairs of a bucket, as they were at one moment.
pub struct Pairs<'s> {
    pairs: slice::Iter<'s, ffi::Pair>,
}

impl<'s> Iterator for Pairs<'s> {
    type Item = (&'s [u8], &'s [u8]);

    fn next(&mut self) -> Option<Self::Item> {
        let pair = self.pairs.next()?;
        // SAFETY: as in `Visit::next_bucket`.
        unsafe { Some((found(pair.key)?, found(pair.value)?)) }
    }

    fn size_hint(&self) -> (usize, Option<usize>) {
        self.pairs.size_hint()
    }
}
