//! One profiler for the process, and a recorder for each thread, which the macros use.

use crate::{now_ns, Fault, Frame, Ids, Profiler, Scope, Thread};
use std::cell::RefCell;
use std::marker::PhantomData;
use std::sync::atomic::{AtomicBool, AtomicU32, AtomicU64, Ordering};
use std::sync::{Mutex, MutexGuard, PoisonError};

struct Shared {
    ids: Ids,
    profiler: Profiler,
}

struct Local {
    thread: Thread,
    /// How many scopes are open.
    depth: usize,
}

static SHARED: Mutex<Option<Shared>> = Mutex::new(None);
static REFUSED: AtomicU64 = AtomicU64::new(0);
static IS_ON: AtomicBool = AtomicBool::new(true);

thread_local! {
    static LOCAL: RefCell<Option<Local>> = const { RefCell::new(None) };
}

fn lock() -> MutexGuard<'static, Option<Shared>> {
    SHARED.lock().unwrap_or_else(PoisonError::into_inner)
}

fn with_shared<T>(call: impl FnOnce(&mut Shared) -> Result<T, Fault>) -> Result<T, Fault> {
    let mut shared = lock();
    if shared.is_none() {
        let mut ids = Ids::new()?;
        let profiler = Profiler::new(&mut ids)?;
        *shared = Some(Shared { ids, profiler });
    }
    call(shared.as_mut().expect("it was just made"))
}

/// Makes a call with the thread's recorder, and counts a fault: the macros have nowhere to return it. A thread that is ending may
/// have no recorder any more.
fn with_local<T>(call: impl FnOnce(&mut Local) -> Result<T, Fault>) -> Option<T> {
    let called = LOCAL.try_with(|local| {
        let local = &mut *local.borrow_mut();
        if local.is_none() {
            let current = std::thread::current();
            let name = current.name().unwrap_or("unnamed");
            let thread = with_shared(|shared| Thread::new(&mut shared.ids, name, false))?;
            *local = Some(Local { thread, depth: 0 });
        }
        call(local.as_mut().expect("it was just made"))
    });
    let result = called.ok().and_then(Result::ok);
    if result.is_none() {
        REFUSED.fetch_add(1, Ordering::Relaxed);
    }
    result
}

/// Returns how many beginnings, ends and reports of the macros' scopes were refused.
pub fn refused() -> u64 {
    REFUSED.load(Ordering::Relaxed)
}

/// Turns the macros' scopes on or off, on all threads. They are on at first. A scope that is open already is ended as usual.
pub fn set_scopes_on(is_on: bool) {
    IS_ON.store(is_on, Ordering::Relaxed);
}

/// Returns whether the macros' scopes are on.
#[inline]
pub fn are_scopes_on() -> bool {
    IS_ON.load(Ordering::Relaxed)
}

/// Makes a frame of everything that was reported since the last one, or none if no scope was reported. A thread reports its
/// scopes whenever its outermost one ends.
pub fn new_frame() -> Result<Option<Frame>, Fault> {
    with_shared(|shared| shared.profiler.new_frame())
}

/// Makes the next frame list every known scope.
pub fn snapshot() -> Result<(), Fault> {
    with_shared(|shared| shared.profiler.snapshot())
}

/// Sets how many recent and how many slow frames the view keeps at most, from the next frame on.
pub fn set_limits(recent: usize, slow: usize) -> Result<(), Fault> {
    with_shared(|shared| shared.profiler.set_limits(recent, slow))
}

/// Limits the bytes that wait for the next frame. What a report would add beyond them keeps waiting on its thread.
pub fn set_max_pending(bytes: u64) -> Result<(), Fault> {
    with_shared(|shared| shared.profiler.set_max_pending(bytes))
}

/// Returns the `.puffin` file of the view's frames.
pub fn file() -> Result<Vec<u8>, Fault> {
    with_shared(|shared| shared.profiler.file())
}

/// A place in the code, registered when it is first reached. The macros make one for each call.
#[derive(Debug)]
pub struct Place {
    id: AtomicU32,
}

impl Place {
    #[allow(clippy::new_without_default)]
    pub const fn new() -> Place {
        Place { id: AtomicU32::new(0) }
    }

    /// The place's id, which is drawn by the first thread that comes here. `name` is `None` for a whole function, and `function`
    /// returns the function's path.
    fn id(&self, name: Option<&str>, function: fn() -> &'static str, file: &str, line: u32) -> Result<u32, Fault> {
        let known = self.id.load(Ordering::Relaxed);
        if known != 0 {
            return Ok(known);
        }
        with_shared(|shared| {
            let mut id = self.id.load(Ordering::Relaxed);
            if id == 0 {
                id = match name {
                    Some(name) => shared.profiler.register_scope(name, function(), file, line)?,
                    None => shared.profiler.register_function(function(), file, line)?,
                };
                self.id.store(id, Ordering::Relaxed);
            }
            Ok(id)
        })
    }

    /// Begins a scope here, whether scopes are on or off.
    pub fn begin(&self, name: Option<&str>, function: fn() -> &'static str, file: &str, line: u32, text: &str) -> ScopeGuard {
        let begun = with_local(|local| {
            let id = self.id(name, function, file, line)?;
            let scope = local.thread.begin(now_ns(), id, text)?;
            local.depth += 1;
            Ok(scope)
        });
        ScopeGuard { scope: begun, here: PhantomData }
    }
}

/// A scope that ends when this is dropped.
#[must_use]
#[derive(Debug)]
pub struct ScopeGuard {
    scope: Option<Scope>,
    // It has to end on its own thread.
    here: PhantomData<*const ()>,
}

impl ScopeGuard {
    /// No scope, where scopes are off.
    #[inline]
    pub const fn off() -> ScopeGuard {
        ScopeGuard { scope: None, here: PhantomData }
    }
}

impl Drop for ScopeGuard {
    #[inline]
    fn drop(&mut self) {
        if let Some(scope) = self.scope.take() {
            end(scope);
        }
    }
}

/// Ends a scope, and reports those of the thread if it was the outermost one.
fn end(scope: Scope) {
    with_local(|local| {
        local.thread.end(now_ns(), scope)?;
        local.depth -= 1;
        if local.depth == 0 {
            with_shared(|shared| shared.profiler.report(&mut local.thread))?;
        }
        Ok(())
    });
}

/// The path of the function that this is called in.
#[doc(hidden)]
#[macro_export]
macro_rules! function_path {
    () => {{
        struct Here;
        std::any::type_name::<Here>().trim_end_matches("::{{closure}}::Here").trim_end_matches("::Here")
    }};
}

/// A guard for the rest of the block. Nothing but a switch is looked at while scopes are off.
#[doc(hidden)]
#[macro_export]
macro_rules! guard {
    ($name:expr, $text:expr) => {
        if $crate::are_scopes_on() {
            static PLACE: $crate::Place = $crate::Place::new();
            PLACE.begin($name, || $crate::function_path!(), file!(), line!(), $text)
        } else {
            $crate::ScopeGuard::off()
        }
    };
}

/// Profiles the rest of the block under the name of the function. `profile_function!("a text")` adds a text, which is evaluated only
/// while scopes are on.
#[macro_export]
macro_rules! profile_function {
    () => {
        $crate::profile_function!("")
    };
    ($text:expr) => {
        let _scope = $crate::guard!(None, $text);
    };
}

/// Profiles the rest of the block under a name. `profile_scope!("name", "a text")` adds a text, which is evaluated only while scopes
/// are on.
#[macro_export]
macro_rules! profile_scope {
    ($name:expr) => {
        $crate::profile_scope!($name, "")
    };
    ($name:expr, $text:expr) => {
        let _scope = $crate::guard!(Some($name), $text);
    };
}
