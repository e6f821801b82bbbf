//! Safe Rust over `libpuffin_c.a`, the C library of `puffin`. The macros profile a program in two lines:
//!
//! ```no_run
//! fn work() {
//!     puffin_c::profile_function!();
//! }
//!
//! fn main() -> Result<(), Box<dyn std::error::Error>> {
//!     work();
//!     puffin_c::new_frame()?;
//!     std::fs::write("work.puffin", puffin_c::file()?)?;
//!     Ok(())
//! }
//! ```
//!
//! [`Ids`], [`Thread`] and [`Profiler`] are the library's handles, for programs that don't want one profiler for the process.
//! Each may be sent to another thread; none is `Sync`, as the library takes a handle in one call at a time.

mod fault;
mod global;
mod raw;
mod view;

pub use fault::{EndFault, Fault, FileFault};
pub use global::{
    are_scopes_on, file, new_frame, refused, set_limits, set_max_pending, set_scopes_on, snapshot, Place, ScopeGuard,
};
pub use raw::Version;
pub use view::{file_threads, merge_file, FileFrames, FileScope, FileStream, FileThread, MergedScope};

use fault::told;
use raw::{Handle, RawFrame, RawPlace};

/// The version of the library that is linked.
pub fn version() -> Version {
    unsafe { raw::puffin_version() }
}

/// Whether the library that is linked has the interface that this crate was written for.
pub fn is_interface_known() -> bool {
    unsafe { raw::puffin_interface() == raw::INTERFACE }
}

/// The time in nanoseconds by the system's monotonic clock, which `puffin_now_ns` of `puffin.h` reads too: one clock for all
/// threads of a process, whatever their language is.
pub fn now_ns() -> i64 {
    let mut now = raw::Timespec { seconds: 0, nanoseconds: 0 };
    unsafe { raw::clock_gettime(raw::MONOTONIC, &mut now) };
    now.seconds * 1_000_000_000 + now.nanoseconds
}

/// Returns the number of a file's frames.
pub fn check_file(file: &[u8]) -> Result<u64, FileFault> {
    let (mut frames, mut offset, mut read) = (0, 0, 0);
    told(unsafe { raw::puffin_check_file(file.as_ptr(), file.len(), &mut frames, &mut offset, &mut read) })
        .map(|()| frames)
        .map_err(|fault| FileFault { fault, frames, offset, read })
}

/// A set of ids, which threads and profilers share.
#[derive(Debug)]
pub struct Ids(Handle);

// The library proves that what a handle holds can be sent to another thread.
unsafe impl Send for Ids {}

impl Ids {
    pub fn new() -> Result<Ids, Fault> {
        let mut handle = Handle::new();
        told(unsafe { raw::puffin_ids_open(&mut handle) })?;
        Ok(Ids(handle))
    }
}

impl Drop for Ids {
    fn drop(&mut self) {
        unsafe { raw::puffin_ids_close(&mut self.0) };
    }
}

/// Identifies an open scope. [`Thread::end`] takes it.
#[must_use]
#[derive(Debug)]
pub struct Scope(u64);

/// Records the scopes of one thread.
#[derive(Debug)]
pub struct Thread(Handle);

unsafe impl Send for Thread {}

impl Thread {
    /// Makes a recorder for a thread with this name. Texts are cut to 127 bytes, or to 16,383 if `long_texts` is set.
    pub fn new(ids: &mut Ids, name: &str, long_texts: bool) -> Result<Thread, Fault> {
        let mut handle = Handle::new();
        told(unsafe { raw::puffin_thread_open(&mut handle, &mut ids.0, name.as_ptr(), name.len(), long_texts) })?;
        Ok(Thread(handle))
    }

    /// Begins a scope. While scopes are off, none begins, and this returns at once.
    #[inline]
    pub fn begin(&mut self, now_ns: i64, id: u32, text: &str) -> Result<Scope, Fault> {
        let mut scope = raw::NO_SCOPE;
        if !self.0.is_on() {
            return Ok(Scope(scope));
        }
        told(unsafe { raw::puffin_begin(&mut self.0, now_ns, id, text.as_ptr(), text.len(), &mut scope) })?;
        Ok(Scope(scope))
    }

    /// Ends the innermost open scope, which must be this one. A failure gives the scope back, which is still open.
    #[inline]
    pub fn end(&mut self, now_ns: i64, scope: Scope) -> Result<(), EndFault> {
        if scope.0 == raw::NO_SCOPE {
            return Ok(());
        }
        told(unsafe { raw::puffin_end(&mut self.0, now_ns, scope.0) }).map_err(|fault| EndFault { fault, scope })
    }

    /// Limits the bytes of the scopes that are open or wait for a report. [`Thread::begin`] fails with [`Fault::MEMORY`] if its scope
    /// would need more.
    pub fn set_max_bytes(&mut self, bytes: u64) -> Result<(), Fault> {
        told(unsafe { raw::puffin_set_max_bytes(&mut self.0, bytes) })
    }

    /// Turns scopes on or off. They are on at first. A scope that is open already is ended as usual.
    pub fn set_scopes_on(&mut self, is_on: bool) -> Result<(), Fault> {
        told(unsafe { raw::puffin_set_scopes_on(&mut self.0, is_on) })
    }

    /// Returns whether a scope would begin now.
    pub fn are_scopes_on(&self) -> bool {
        self.0.is_on()
    }

    /// Gives up the closed scopes that weren't reported, for example because a report is refused again and again, and returns
    /// how many there were. Fails while a scope is open.
    pub fn discard(&mut self) -> Result<u64, Fault> {
        let mut scopes = 0;
        told(unsafe { raw::puffin_thread_discard(&mut self.0, &mut scopes) })?;
        Ok(scopes)
    }
}

impl Drop for Thread {
    fn drop(&mut self) {
        unsafe { raw::puffin_thread_close(&mut self.0) };
    }
}

/// Describes a frame.
#[derive(Debug, Clone, Copy, PartialEq, Eq)]
pub struct Frame {
    pub index: u64,
    pub scopes: u64,
    pub bytes: u64,
    pub start_ns: i64,
    pub stop_ns: i64,
}

/// Collects what threads report into frames, and keeps a view of them.
#[derive(Debug)]
pub struct Profiler(Handle);

unsafe impl Send for Profiler {}

type Begin = unsafe extern "C" fn(*mut Handle, *mut u64) -> u32;
type Next = unsafe extern "C" fn(*mut Handle, *mut u8, usize, *mut u64) -> u32;

impl Profiler {
    pub fn new(ids: &mut Ids) -> Result<Profiler, Fault> {
        let mut handle = Handle::new();
        told(unsafe { raw::puffin_profiler_open(&mut handle, &mut ids.0) })?;
        Ok(Profiler(handle))
    }

    /// Registers a function, and returns its id; the next frame lists its name. Pass 0 if the line is unknown.
    pub fn register_function(&mut self, function: &str, file: &str, line: u32) -> Result<u32, Fault> {
        self.register_scope("", function, file, line)
    }

    /// Registers a scope within a function, under a name of its own, and returns its id.
    pub fn register_scope(&mut self, name: &str, function: &str, file: &str, line: u32) -> Result<u32, Fault> {
        let place = RawPlace { name: name.into(), function: function.into(), file: file.into(), line };
        let mut id = 0;
        told(unsafe { raw::puffin_register(&mut self.0, &place, &mut id) })?;
        Ok(id)
    }

    /// Sets how many recent and how many slow frames the view keeps at most, from the next frame on.
    pub fn set_limits(&mut self, recent: usize, slow: usize) -> Result<(), Fault> {
        told(unsafe { raw::puffin_set_limits(&mut self.0, recent, slow) })
    }

    /// Limits the bytes that wait for the next frame. A report that would make them more fails with [`Fault::MEMORY`].
    pub fn set_max_pending(&mut self, bytes: u64) -> Result<(), Fault> {
        told(unsafe { raw::puffin_set_max_pending(&mut self.0, bytes) })
    }

    /// Reports a thread's closed scopes. If the call fails, they keep waiting.
    pub fn report(&mut self, thread: &mut Thread) -> Result<(), Fault> {
        told(unsafe { raw::puffin_report(&mut thread.0, &mut self.0) })
    }

    /// Makes a frame of everything that was reported since the last one, or none if no scope was reported.
    pub fn new_frame(&mut self) -> Result<Option<Frame>, Fault> {
        let mut frame = RawFrame::default();
        told(unsafe { raw::puffin_new_frame(&mut self.0, &mut frame) })?;
        Ok(frame.told())
    }

    /// Makes the next frame list every known scope, for a file that begins with it.
    pub fn snapshot(&mut self) -> Result<(), Fault> {
        told(unsafe { raw::puffin_snapshot(&mut self.0) })
    }

    /// Drops the view's frames, and keeps its limits.
    pub fn clear_view(&mut self) -> Result<(), Fault> {
        told(unsafe { raw::puffin_view_clear(&mut self.0) })
    }

    /// Returns the `.puffin` file of the view's frames.
    pub fn file(&mut self) -> Result<Vec<u8>, Fault> {
        self.read(raw::puffin_file_begin, raw::puffin_file_next)
    }

    /// Returns the packet of the view's newest frame. A file consists of [`FILE_START`] and of packets.
    pub fn packet(&mut self) -> Result<Vec<u8>, Fault> {
        self.read(raw::puffin_frame_begin, raw::puffin_frame_next)
    }

    fn read(&mut self, begin: Begin, next: Next) -> Result<Vec<u8>, Fault> {
        let mut size = 0;
        told(unsafe { begin(&mut self.0, &mut size) })?;
        let mut bytes = vec![0; size as usize];
        told(unsafe { next(&mut self.0, bytes.as_mut_ptr(), bytes.len(), &mut size) })?;
        bytes.truncate(size as usize);
        Ok(bytes)
    }
}

impl Drop for Profiler {
    fn drop(&mut self) {
        unsafe { raw::puffin_profiler_close(&mut self.0) };
    }
}

/// The letters that a file begins with.
pub const FILE_START: &[u8; 4] = b"PUF0";

#[cfg(test)]
mod tests {
    use super::*;

    #[test]
    fn the_library_has_the_interface_that_is_declared() {
        assert!(is_interface_known());
    }

    #[test]
    fn structs_have_the_library_s_sizes() {
        use std::mem::size_of;
        let given = [size_of::<Handle>(), size_of::<RawPlace>(), size_of::<raw::ThreadName>()];
        let of_file = [size_of::<RawFrame>(), size_of::<raw::RawStream>(), size_of::<raw::RawScope>()];
        let of_threads = [size_of::<raw::RawFileThread>(), size_of::<raw::RawMerged>()];
        let of_lists = [size_of::<raw::List<u8>>(), size_of::<raw::StreamList>()];
        assert_eq!((given, of_file, of_threads, of_lists), ([16, 56, 32], [48, 64, 48], [48, 72], [48, 104]));
    }

    #[test]
    fn handles_can_be_sent() {
        fn is_send<T: Send>() {}
        is_send::<Ids>();
        is_send::<Thread>();
        is_send::<Profiler>();
    }
}
