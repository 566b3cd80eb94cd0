//! The calls of Linux that std lacks, declared by hand. All unsafe code is here.
#![allow(unsafe_code)]

use std::ffi::{c_char, c_int, c_long, c_uint, c_ulong, c_void};
use std::fs::File;
use std::io;
use std::os::fd::{AsRawFd, FromRawFd};
use std::ptr::null_mut;
use std::time::Duration;

pub const INPUT: u32 = 1;
pub const OUTPUT: u32 = 4;
/// O_NONBLOCK.
pub const NONBLOCK: c_int = 0o4000;
/// SOCK_NONBLOCK and SFD_NONBLOCK, each with its CLOEXEC.
const PRIVATE: c_int = 0o2004000;
/// Operations of epoll_ctl.
const ADD: c_int = 1;
const REMOVE: c_int = 2;
const CHANGE: c_int = 3;
/// SIGINT and SIGTERM, as a set of signals of the C library.
const ENDS: [u64; 16] = [1 << (2 - 1) | 1 << (15 - 1), 0, 0, 0, 0, 0, 0, 0, 0, 0, 0, 0, 0, 0, 0, 0];
const SIG_BLOCK: c_int = 0;
const IPPROTO_TCP: c_int = 6;
const TCP_NODELAY: c_int = 1;
const RLIMIT_NOFILE: c_int = 7;
const SC_PAGESIZE: c_int = 30;
const F_SETPIPE_SZ: c_int = 1031;
/// A parameter of mallopt: from how many bytes on a block is a mapping of its own.
const M_MMAP_THRESHOLD: c_int = -3;
/// A parameter of mallopt: how many free bytes the heap may end with.
const M_TRIM_THRESHOLD: c_int = -1;
/// The value of both parameters.
const LARGE: c_int = 1 << 17;
const FIONREAD: c_ulong = 0x541B;

/// Events of a file that an `Epoll` watches, and the token that was given for the file.
#[repr(C)]
#[cfg_attr(target_arch = "x86_64", repr(packed))]
#[derive(Clone, Copy, Default)]
pub struct Event {
    pub flags: u32,
    pub token: u64,
}

/// `struct tm` of the C library.
#[repr(C)]
struct Moment {
    second: c_int,
    minute: c_int,
    hour: c_int,
    day: c_int,
    month: c_int,
    year: c_int,
    weekday: c_int,
    day_of_year: c_int,
    is_summer: c_int,
    offset: c_long,
    zone: *const c_char,
}

/// A time in the local zone, with months and days from 1 on. `offset` is how many seconds it is ahead of UTC.
#[derive(Clone, Copy)]
pub struct LocalTime {
    pub year: i32,
    pub month: i32,
    pub day: i32,
    pub hour: i32,
    pub minute: i32,
    pub second: i32,
    pub offset: i64,
}

extern "C" {
    fn accept4(listener: c_int, address: *mut c_void, length: *mut c_void, flags: c_int) -> c_int;
    fn epoll_create1(flags: c_int) -> c_int;
    fn epoll_ctl(epoll: c_int, what: c_int, file: c_int, event: *mut Event) -> c_int;
    fn epoll_wait(epoll: c_int, events: *mut Event, most: c_int, milliseconds: c_int) -> c_int;
    fn fcntl(file: c_int, what: c_int, ...) -> c_int;
    fn getrlimit(what: c_int, limits: *mut [u64; 2]) -> c_int;
    fn ioctl(file: c_int, what: c_ulong, ...) -> c_int;
    fn listen(socket: c_int, waiting: c_int) -> c_int;
    fn localtime_r(seconds: *const i64, moment: *mut Moment) -> *mut Moment;
    fn mallopt(what: c_int, value: c_int) -> c_int;
    fn setrlimit(what: c_int, limits: *const [u64; 2]) -> c_int;
    fn setsockopt(socket: c_int, level: c_int, name: c_int, value: *const c_int, length: c_uint) -> c_int;
    fn signalfd(file: c_int, signals: *const [u64; 16], flags: c_int) -> c_int;
    fn sigprocmask(how: c_int, signals: *const [u64; 16], old: *mut [u64; 16]) -> c_int;
    fn sysconf(name: c_int) -> c_long;
    fn umask(mask: c_uint) -> c_uint;
}

/// The result of a call, or the system's error if it is negative.
fn checked(result: c_int) -> io::Result<c_int> {
    (result >= 0).then_some(result).ok_or_else(io::Error::last_os_error)
}

/// Owns the file that a call has just made.
fn made(result: c_int) -> io::Result<File> {
    Ok(unsafe { File::from_raw_fd(checked(result)?) })
}

/// Watches files for events.
pub struct Epoll(File);

impl Epoll {
    pub fn new() -> io::Result<Epoll> {
        Ok(Epoll(made(unsafe { epoll_create1(PRIVATE & !NONBLOCK) })?))
    }

    /// Watches a file for other events from now on. 0 is for none, not even a hang-up.
    pub fn watch(&self, file: &impl AsRawFd, old: u32, flags: u32, token: u64) -> io::Result<()> {
        let what = [[CHANGE, REMOVE], [ADD, ADD]][usize::from(old == 0)][usize::from(flags == 0)];
        let mut event = Event { flags, token };
        checked(unsafe { epoll_ctl(self.0.as_raw_fd(), what, file.as_raw_fd(), &mut event) })?;
        Ok(())
    }

    /// Waits for events, for `patience` at most, and returns how many arrived.
    pub fn wait(&self, events: &mut [Event], patience: Duration) -> io::Result<usize> {
        let (room, most) = (events.as_mut_ptr(), events.len() as c_int);
        let milliseconds = patience.as_millis() as c_int;
        match checked(unsafe { epoll_wait(self.0.as_raw_fd(), room, most, milliseconds) }) {
            Err(fault) if fault.kind() == io::ErrorKind::Interrupted => Ok(0),
            count => Ok(count? as usize),
        }
    }
}

/// A file with input once SIGINT or SIGTERM has arrived. These signals have no other effect from now on.
pub fn ends() -> io::Result<File> {
    checked(unsafe { sigprocmask(SIG_BLOCK, &ENDS, null_mut()) })?;
    made(unsafe { signalfd(-1, &ENDS, PRIVATE) })
}

/// Lets as many connections wait at a listener as the system allows.
pub fn widen(listener: &impl AsRawFd) -> io::Result<()> {
    checked(unsafe { listen(listener.as_raw_fd(), c_int::MAX) }).map(|_| ())
}

/// Accepts a connection. No call on it waits, and what is written goes out at once.
pub fn accept(listener: &impl AsRawFd) -> io::Result<File> {
    let socket = made(unsafe { accept4(listener.as_raw_fd(), null_mut(), null_mut(), PRIVATE) })?;
    // A Unix socket has no such delay, and refuses this option.
    unsafe { setsockopt(socket.as_raw_fd(), IPPROTO_TCP, TCP_NODELAY, &1, 4) };
    Ok(socket)
}

/// Sets how many bytes a pipe holds at most. False if the system refuses it, as it does while more is in the
/// pipe.
pub fn size_pipe(pipe: &impl AsRawFd, bytes: usize) -> bool {
    unsafe { fcntl(pipe.as_raw_fd(), F_SETPIPE_SZ, bytes as c_int) >= 0 }
}

/// How many bytes are in a pipe.
pub fn in_pipe(pipe: &impl AsRawFd) -> io::Result<usize> {
    let mut count: c_int = 0;
    checked(unsafe { ioctl(pipe.as_raw_fd(), FIONREAD, &mut count) })?;
    Ok(count as usize)
}

/// Runs `make`, and lets only the owner use the file that it makes.
pub fn for_owner_alone<T>(make: impl FnOnce() -> T) -> T {
    let old = unsafe { umask(0o177) };
    let made = make();
    unsafe { umask(old) };
    made
}

/// Makes malloc give large blocks back to the system as soon as they are freed.
///
/// By default the first free of a block of up to 32 MiB raises malloc's threshold. Later blocks of that size
/// are then in the heap, which gives nothing back while anything is allocated after them.
pub fn free_at_once() {
    unsafe {
        mallopt(M_MMAP_THRESHOLD, LARGE);
        mallopt(M_TRIM_THRESHOLD, LARGE);
    }
}

/// The local time of this many seconds since 1970. All zeros if the system knows none.
pub fn local_time(seconds: i64) -> LocalTime {
    let mut it = Moment {
        second: 0,
        minute: 0,
        hour: 0,
        day: 0,
        month: -1,
        year: -1900,
        weekday: 0,
        day_of_year: 0,
        is_summer: 0,
        offset: 0,
        zone: null_mut(),
    };
    unsafe { localtime_r(&seconds, &mut it) };
    LocalTime {
        year: it.year + 1900,
        month: it.month + 1,
        day: it.day,
        hour: it.hour,
        minute: it.minute,
        second: it.second,
        offset: it.offset,
    }
}

/// Bytes of a page of memory.
pub fn page() -> u64 {
    unsafe { sysconf(SC_PAGESIZE) as u64 }
}

/// Raises the limit of open files as far as it may be raised, and returns it.
pub fn raise_files() -> io::Result<usize> {
    let mut limits = [0; 2];
    checked(unsafe { getrlimit(RLIMIT_NOFILE, &mut limits) })?;
    limits[0] = limits[1];
    checked(unsafe { setrlimit(RLIMIT_NOFILE, &limits) })?;
    Ok(limits[0] as usize)
}
