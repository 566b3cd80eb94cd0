//! The functions of farmap.h that the crate calls.

use std::ffi::{c_char, c_int, c_void};

pub const OK: c_int = 0;
pub const NONE: c_int = 1;
pub const OTHER: c_int = 2;

pub const REASON: usize = 512;
pub const HANDSHAKE: u32 = 1;

#[repr(C)]
#[derive(Clone, Copy)]
pub struct Bytes {
    pub data: *const c_void,
    pub length: usize,
}

#[repr(C)]
pub struct Pair {
    pub key: Bytes,
    pub value: Bytes,
}

#[repr(C)]
pub struct Options {
    pub memory: u64,
    pub pairs: u64,
    pub folders: *const *const c_char,
    pub sessions: u32,
    pub flags: u32,
    pub names: u64,
    pub reserved: [u64; 3],
}

pub enum Map {}
pub enum Session {}

extern "C" {
    pub fn farmap_open(options: *const Options, map: *mut *mut Map, reason: *mut c_char, size: usize) -> c_int;
    pub fn farmap_close(map: *mut Map) -> c_int;
    pub fn farmap_sessions(map: *const Map) -> u32;
    pub fn farmap_session_open(map: *mut Map, session: *mut *mut Session) -> c_int;
    pub fn farmap_session_close(session: *mut Session) -> c_int;
    pub fn farmap_get(session: *mut Session, key: Bytes, value: *mut Bytes) -> c_int;
    pub fn farmap_get_many(session: *mut Session, keys: *const Bytes, count: usize, values: *mut Bytes) -> c_int;
    pub fn farmap_contains(session: *mut Session, key: Bytes) -> c_int;
    pub fn farmap_put(session: *mut Session, key: Bytes, value: Bytes, before: *mut Bytes) -> c_int;
    pub fn farmap_put_new(session: *mut Session, key: Bytes, value: Bytes, found: *mut Bytes) -> c_int;
    pub fn farmap_put_if(session: *mut Session, key: Bytes, expected: Bytes, value: Bytes, found: *mut Bytes) -> c_int;
    pub fn farmap_remove(session: *mut Session, key: Bytes) -> c_int;
    pub fn farmap_take(session: *mut Session, key: Bytes, value: *mut Bytes) -> c_int;
    pub fn farmap_remove_if(session: *mut Session, key: Bytes, expected: Bytes, found: *mut Bytes) -> c_int;
    pub fn farmap_visit(session: *mut Session, cursor: *mut u64, pairs: *mut *const Pair, count: *mut usize) -> c_int;
    pub fn farmap_length(session: *mut Session, length: *mut u64) -> c_int;
    pub fn farmap_count(session: *mut Session, stats: *mut u64) -> c_int;
    pub fn farmap_evict(session: *mut Session) -> c_int;
    pub fn farmap_text(status: c_int) -> *const c_char;
    pub fn farmap_reason(session: *const Session) -> *const c_char;
    pub fn farmap_is_proved() -> c_int;
}
