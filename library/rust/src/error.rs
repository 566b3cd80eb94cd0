//! Errors.

use crate::ffi;
use std::error;
use std::ffi::{c_int, CStr};
use std::fmt;

/// What kind of error it is.
#[derive(Clone, Copy, Debug, PartialEq, Eq, Hash)]
#[non_exhaustive]
pub enum ErrorKind {
    /// The key has more than 65,535 bytes.
    KeyTooLong,
    /// The value has more than 16 MiB.
    ValueTooLong,
    /// The pairs of the key's bucket would have more than 16 MiB.
    BucketTooLong,
    /// The values of [`Session::get_many`](crate::Session::get_many) have more than 64 MiB, or there are too many
    /// keys.
    AnswerTooLong,
    /// The memory is full, and nothing can be moved out of it.
    Full,
    /// A device failed, for example because its disk is full.
    Device,
    /// A device gave back other bytes than were written.
    Damaged,
    /// The system refused memory.
    Memory,
    /// The change was made, but the system refused memory for its answer.
    Lost,
    /// The map is being renewed again and again. Try again.
    Renewing,
    /// A call of the session is not over, for example because this is its signal handler.
    Busy,
    /// All sessions of the map are taken.
    NoSession,
    /// The process is the child of a fork.
    Forked,
    /// The map is being closed.
    Closed,
    /// The map or the session has ended by a fault.
    Ended,
    /// The system refused something else, for example a thread.
    System,
    /// The map can't be opened with these options.
    Options,
}

/// Why a call was not made. Unless it is [`ErrorKind::Lost`], the map is as it was.
#[derive(Clone, Debug, PartialEq, Eq)]
pub struct Error {
    kind: ErrorKind,
    text: String,
}

impl Error {
    /// The error of a status that is one, with this reason. Without a reason the text is that of the status.
    pub(crate) fn new(status: c_int, reason: &str) -> Error {
        let kind = match status {
            16 => ErrorKind::KeyTooLong,
            17 => ErrorKind::ValueTooLong,
            18 => ErrorKind::BucketTooLong,
            19 => ErrorKind::AnswerTooLong,
            20 => ErrorKind::Full,
            21 => ErrorKind::Device,
            22 => ErrorKind::Damaged,
            23 => ErrorKind::Memory,
            24 => ErrorKind::Lost,
            25 => ErrorKind::Renewing,
            26 => ErrorKind::Busy,
            27 => ErrorKind::NoSession,
            28 => ErrorKind::Forked,
            29 => ErrorKind::Closed,
            30 => ErrorKind::Ended,
            32 => ErrorKind::System,
            _ => ErrorKind::Options,
        };
        let text = if reason.is_empty() {
            // SAFETY: the library returns a constant text for each number.
            unsafe { CStr::from_ptr(ffi::farmap_text(status)) }.to_string_lossy().into_owned()
        } else {
            reason.to_owned()
        };
        Error { kind, text }
    }

    /// What kind of error it is.
    pub fn kind(&self) -> ErrorKind {
        self.kind
    }
}

impl fmt::Display for Error {
    fn fmt(&self, f: &mut fmt::Formatter<'_>) -> fmt::Result {
        f.write_str(&self.text)
    }
}

impl error::Error for Error {}
