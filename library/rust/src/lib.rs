//! A concurrent map of byte strings that may be larger than its memory.
//!
//! What is in use stays in memory, and everything else goes to scratch files in the folders that you name. The map
//! exists as long as it is open. It is no database.
//!
//! ```
//! # fn main() -> Result<(), farmap::Error> {
//! let map = farmap::Options::new().memory(64 << 20).open()?;
//! let mut session = map.session()?;
//! session.put(b"planet", b"Saturn")?;
//! assert_eq!(session.get(b"planet")?, Some(b"Saturn".as_slice()));
//! # Ok(())
//! # }
//! ```
//!
//! # Threads
//!
//! A [`Map`] may be shared by threads. Each thread that makes calls takes a [`Session`] of its own. A session may be
//! sent to another thread, but its calls need `&mut`, so only one thread at a time makes any.
//!
//! # Answers
//!
//! Bytes that a call returns are lent by the session. They stay as they are until its next call, which the compiler
//! checks.
//!
//! # Forks
//!
//! In the child of a fork each call returns [`ErrorKind::Forked`].
//!
//! # How it works
//!
//! The calls are made by a program in another language, which the crate links in (libfarmap). `library/README.md` of
//! its repository says more.

mod error;
mod ffi;
mod map;
mod options;
mod session;
mod stats;

pub use error::{Error, ErrorKind};
pub use map::Map;
pub use options::Options;
pub use session::{Pairs, PutIf, PutNew, Session, Visit};
pub use stats::Stats;

/// What calls return.
pub type Result<T> = std::result::Result<T, Error>;

/// Whether the library was made from a proved program.
pub fn is_proved() -> bool {
    // SAFETY: it only returns a constant.
    unsafe { ffi::farmap_is_proved() != 0 }
}
