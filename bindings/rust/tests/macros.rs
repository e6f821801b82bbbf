//! The macros, on threads that end, that come to a place at once, and while scopes are off.

use puffin_c::{profile_function, profile_scope, Fault, FileFrames, Place};
use std::cell::Cell;
use std::collections::BTreeSet;
use std::sync::{Barrier, Mutex, MutexGuard};

/// One profiler is for the whole process, so one test runs at a time.
fn alone() -> MutexGuard<'static, ()> {
    static LOCK: Mutex<()> = Mutex::new(());
    LOCK.lock().unwrap_or_else(|fault| fault.into_inner())
}

/// The number of scopes in the next frame.
fn scopes_of_frame() -> u64 {
    puffin_c::new_frame().unwrap().map_or(0, |frame| frame.scopes)
}

struct AtTheEnd(Cell<bool>);

impl Drop for AtTheEnd {
    fn drop(&mut self) {
        profile_scope!("at the thread's end");
        self.0.set(false);
    }
}

thread_local! {
    static FIRST: AtTheEnd = const { AtTheEnd(Cell::new(false)) };
    static LAST: AtTheEnd = const { AtTheEnd(Cell::new(false)) };
}

#[test]
fn a_scope_in_the_drop_of_a_thread_local_is_recorded_or_counted() {
    let _alone = alone();
    scopes_of_frame();
    let refused = puffin_c::refused();
    let thread = std::thread::spawn(|| {
        FIRST.with(|it| it.0.set(true));
        {
            profile_function!();
        }
        LAST.with(|it| it.0.set(true));
    });
    thread.join().unwrap();
    // which of them outlives the recorder is the system's
    assert_eq!(scopes_of_frame() + puffin_c::refused() - refused, 3);
}

#[test]
fn a_place_that_many_threads_reach_at_once_has_one_id() {
    let _alone = alone();
    scopes_of_frame();
    let places: Vec<Place> = (0..200).map(|_| Place::new()).collect();
    let barrier = Barrier::new(4);
    std::thread::scope(|scope| {
        for _ in 0..4 {
            scope.spawn(|| {
                for place in &places {
                    barrier.wait();
                    drop(place.begin(Some("shared"), || "function", file!(), 1, ""));
                }
            });
        }
    });
    assert_eq!(scopes_of_frame(), 800);
    let file = puffin_c::file().unwrap();
    let (_, streams) = FileFrames::new(&file).map(Result::unwrap).last().unwrap();
    let ids: BTreeSet<u32> = streams.iter().flat_map(|stream| stream.scopes.iter().map(|scope| scope.id)).collect();
    assert_eq!(ids.len(), 200);
}

#[test]
fn a_scope_that_is_off_evaluates_nothing() {
    let _alone = alone();
    scopes_of_frame();
    let evaluated = Cell::new(0);
    let text = || {
        evaluated.set(evaluated.get() + 1);
        "a text"
    };
    puffin_c::set_scopes_on(false);
    {
        profile_function!(text());
        profile_scope!("off", text());
    }
    puffin_c::set_scopes_on(true);
    assert_eq!((scopes_of_frame(), evaluated.get()), (0, 0));
    {
        profile_scope!("on", text());
    }
    assert_eq!((scopes_of_frame(), evaluated.get()), (1, 1));
}

#[test]
fn a_report_over_the_limit_waits() {
    let _alone = alone();
    scopes_of_frame();
    let refused = puffin_c::refused();
    puffin_c::set_max_pending(0).unwrap();
    for _ in 0..2 {
        profile_function!();
    }
    assert_eq!((scopes_of_frame(), puffin_c::refused() - refused), (1, 1));
    puffin_c::set_max_pending(1_000_000).unwrap();
    {
        profile_function!();
    }
    assert_eq!((scopes_of_frame(), puffin_c::refused() - refused), (2, 1));
}

#[test]
fn a_function_is_named_by_its_path() {
    let _alone = alone();
    {
        profile_function!();
    }
    scopes_of_frame();
    let file = puffin_c::file().unwrap();
    let has = |name: &str| file.windows(name.len()).any(|bytes| bytes == name.as_bytes());
    assert!(has("macros::a_function_is_named_by_its_path"));
    assert!(!has("a_function_is_named_by_its_path::{{closure}}"));
    assert_eq!(Fault::MEMORY.to_string(), "PUFFIN_MEMORY");
}
