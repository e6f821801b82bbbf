//! The calls of `puffin.h`, and its structs. A test compares [`INTERFACE`] with the library's.

use crate::Frame;
use std::ffi::c_void;
use std::fmt;

/// The number of the interface that is declared here.
pub const INTERFACE: u32 = 3;

/// A handle. It isn't open when it is filled with zeros. Only that of a thread has scopes to turn on.
#[repr(C)]
pub struct Handle {
    at: *mut c_void,
    is_open: bool,
    is_on: bool,
}

impl Handle {
    pub const fn new() -> Handle {
        Handle { at: std::ptr::null_mut(), is_open: false, is_on: false }
    }

    pub fn is_on(&self) -> bool {
        self.is_on
    }
}

impl fmt::Debug for Handle {
    fn fmt(&self, f: &mut fmt::Formatter<'_>) -> fmt::Result {
        f.pad("..")
    }
}

/// The offset that stands for no scope.
pub const NO_SCOPE: u64 = 0;

/// A text, which stays where it is.
#[repr(C)]
pub struct Text {
    bytes: *const u8,
    size: usize,
}

impl From<&str> for Text {
    fn from(text: &str) -> Text {
        Text { bytes: text.as_ptr(), size: text.len() }
    }
}

/// A place in the code.
#[repr(C)]
pub struct RawPlace {
    pub name: Text,
    pub function: Text,
    pub file: Text,
    pub line: u32,
}

/// The thread with this name and this start.
#[repr(C)]
pub struct ThreadName {
    name: Text,
    start_ns: i64,
    has_start: bool,
}

impl ThreadName {
    pub fn new(name: &str, start_ns: Option<i64>) -> ThreadName {
        ThreadName { name: name.into(), start_ns: start_ns.unwrap_or(0), has_start: start_ns.is_some() }
    }
}

/// Where a list goes: rows, and the bytes into which they point.
#[repr(C)]
#[derive(Clone, Copy)]
pub struct List<R> {
    pub rows: *mut R,
    pub room: usize,
    pub bytes: *mut u8,
    pub bytes_room: usize,
    pub num_rows: u64,
    pub num_bytes: u64,
}

/// The same of a frame's streams.
#[repr(C)]
pub struct StreamList {
    pub list: List<RawStream>,
    pub next: u64,
    pub frame: RawFrame,
}

/// A scope of a stream.
#[repr(C)]
#[derive(Default, Clone, Copy)]
pub struct RawScope {
    pub start_ns: i64,
    pub stop_ns: i64,
    pub depth: u64,
    pub text_at: u64,
    pub text_size: u64,
    pub id: u32,
}

/// Describes a frame.
#[repr(C)]
#[derive(Default, Clone, Copy)]
pub struct RawFrame {
    pub index: u64,
    pub scopes: u64,
    pub bytes: u64,
    pub start_ns: i64,
    pub stop_ns: i64,
    pub is_some: bool,
}

impl RawFrame {
    /// The frame, if there is one.
    pub fn told(self) -> Option<Frame> {
        let RawFrame { index, scopes, bytes, start_ns, stop_ns, is_some } = self;
        is_some.then_some(Frame { index, scopes, bytes, start_ns, stop_ns })
    }
}

/// A thread's scopes in a frame.
#[repr(C)]
#[derive(Default, Clone, Copy)]
pub struct RawStream {
    pub start_ns: i64,
    pub scopes: u64,
    pub depth: u64,
    pub name_at: u64,
    pub name_size: u64,
    pub stream_at: u64,
    pub stream_size: u64,
    pub has_start: bool,
    pub long_texts: bool,
}

/// What the frames of a file have of one thread.
#[repr(C)]
#[derive(Default, Clone, Copy)]
pub struct RawFileThread {
    pub start_ns: i64,
    pub frames: u64,
    pub scopes: u64,
    pub name_at: u64,
    pub name_size: u64,
    pub has_start: bool,
}

/// A merged scope.
#[repr(C)]
#[derive(Default, Clone, Copy)]
pub struct RawMerged {
    pub start_ns: i64,
    pub total_ns: i64,
    pub per_frame_ns: i64,
    pub max_ns: i64,
    pub pieces: u64,
    pub depth: u64,
    pub text_at: u64,
    pub text_size: u64,
    pub id: u32,
}

#[repr(C)]
#[derive(Debug, Clone, Copy, PartialEq, Eq)]
pub struct Version {
    pub major: u32,
    pub minor: u32,
    pub patch: u32,
}

/// `struct timespec` of x86-64 Linux, where the library runs.
#[repr(C)]
pub struct Timespec {
    pub seconds: i64,
    pub nanoseconds: i64,
}

/// `CLOCK_MONOTONIC`.
pub const MONOTONIC: i32 = 1;

extern "C" {
    pub fn clock_gettime(clock: i32, time: *mut Timespec) -> i32;
    pub fn puffin_version() -> Version;
    pub fn puffin_interface() -> u32;
    pub fn puffin_fault_name(fault: u32, name: *mut u8, room: usize) -> usize;
    pub fn puffin_check_file(file: *const u8, size: usize, frames: *mut u64, offset: *mut u64, read: *mut u64) -> u32;
    pub fn puffin_ids_open(ids: *mut Handle) -> u32;
    pub fn puffin_ids_close(ids: *mut Handle) -> u32;
    pub fn puffin_thread_open(thread: *mut Handle, ids: *mut Handle, name: *const u8, size: usize, long_texts: bool) -> u32;
    pub fn puffin_thread_close(thread: *mut Handle) -> u32;
    pub fn puffin_register(profiler: *mut Handle, place: *const RawPlace, id: *mut u32) -> u32;
    pub fn puffin_begin(thread: *mut Handle, now_ns: i64, id: u32, text: *const u8, size: usize, scope: *mut u64) -> u32;
    pub fn puffin_end(thread: *mut Handle, now_ns: i64, scope: u64) -> u32;
    pub fn puffin_set_scopes_on(thread: *mut Handle, is_on: bool) -> u32;
    pub fn puffin_set_max_bytes(thread: *mut Handle, bytes: u64) -> u32;
    pub fn puffin_thread_discard(thread: *mut Handle, scopes: *mut u64) -> u32;
    pub fn puffin_scopes(bytes: *const u8, size: usize, long_texts: bool, list: *mut List<RawScope>) -> u32;
    pub fn puffin_frame_streams(file: *const u8, size: usize, offset: u64, list: *mut StreamList) -> u32;
    pub fn puffin_file_threads(file: *const u8, size: usize, list: *mut List<RawFileThread>) -> u32;
    pub fn puffin_merge_file(file: *const u8, size: usize, thread: *const ThreadName, list: *mut List<RawMerged>) -> u32;
    pub fn puffin_merge_view(profiler: *mut Handle, frames: usize, thread: *const ThreadName, list: *mut List<RawMerged>) -> u32;
    pub fn puffin_profiler_open(profiler: *mut Handle, ids: *mut Handle) -> u32;
    pub fn puffin_profiler_close(profiler: *mut Handle) -> u32;
    pub fn puffin_report(thread: *mut Handle, profiler: *mut Handle) -> u32;
    pub fn puffin_new_frame(profiler: *mut Handle, frame: *mut RawFrame) -> u32;
    pub fn puffin_snapshot(profiler: *mut Handle) -> u32;
    pub fn puffin_set_limits(profiler: *mut Handle, recent: usize, slow: usize) -> u32;
    pub fn puffin_set_max_pending(profiler: *mut Handle, bytes: u64) -> u32;
    pub fn puffin_view_clear(profiler: *mut Handle) -> u32;
    pub fn puffin_file_begin(profiler: *mut Handle, size: *mut u64) -> u32;
    pub fn puffin_file_next(profiler: *mut Handle, out: *mut u8, room: usize, size: *mut u64) -> u32;
    pub fn puffin_frame_begin(profiler: *mut Handle, size: *mut u64) -> u32;
    pub fn puffin_frame_next(profiler: *mut Handle, out: *mut u8, room: usize, size: *mut u64) -> u32;
}
