//! The library's handles, on two threads.

use puffin_c::{check_file, file_threads, merge_file, now_ns, Fault, FileFrames, Ids, Profiler, Thread, FILE_START};
use std::error::Error;
use std::sync::Mutex;

/// A function with two scopes in it.
fn work(thread: &mut Thread, id: u32, start: i64) {
    let whole = thread.begin(start, id, "").unwrap();
    for step in 0..2 {
        let part = thread.begin(start + 10 * step, id, "step").unwrap();
        thread.end(start + 10 * step + 5, part).unwrap();
    }
    thread.end(start + 100, whole).unwrap();
}

#[test]
fn two_threads_report_to_one_profiler() {
    let mut ids = Ids::new().unwrap();
    let profiler = Mutex::new(Profiler::new(&mut ids).unwrap());
    let threads = ["main", "worker"].map(|name| Thread::new(&mut ids, name, false).unwrap());
    std::thread::scope(|scope| {
        for mut thread in threads {
            let profiler = &profiler;
            scope.spawn(move || {
                let id = profiler.lock().unwrap().register_function("work", "handles.rs", 7).unwrap();
                work(&mut thread, id, 1000);
                profiler.lock().unwrap().report(&mut thread).unwrap();
            });
        }
    });
    let mut profiler = profiler.into_inner().unwrap();
    let frame = profiler.new_frame().unwrap().unwrap();
    assert_eq!((frame.scopes, frame.start_ns, frame.stop_ns), (6, 1000, 1100));
    assert_eq!(profiler.new_frame().unwrap(), None);
    let file = profiler.file().unwrap();
    assert_eq!(check_file(&file), Ok(1));
    assert_eq!([&FILE_START[..], &profiler.packet().unwrap()].concat(), file);
    let fault = check_file(&file[..file.len() - 1]).unwrap_err();
    assert_eq!((fault.fault.to_string().as_str(), fault.frames, fault.offset), ("PUFFIN_FILE_TRUNCATED", 0, 4));
    assert_eq!(fault.read, file.len() as u64 - 1);
}

#[test]
fn a_file_is_seen_frame_by_frame() {
    let mut ids = Ids::new().unwrap();
    let mut profiler = Profiler::new(&mut ids).unwrap();
    let mut thread = Thread::new(&mut ids, "main", true).unwrap();
    let id = profiler.register_function("work", "handles.rs", 7).unwrap();
    for start in [1000, 2000] {
        work(&mut thread, id, start);
        profiler.report(&mut thread).unwrap();
        profiler.new_frame().unwrap().unwrap();
    }
    let file = profiler.file().unwrap();
    let threads = file_threads(&file).unwrap();
    assert_eq!(threads.len(), 1);
    assert_eq!((threads[0].name.as_str(), threads[0].start_ns), ("main", Some(1000)));
    assert_eq!((threads[0].frames, threads[0].scopes), (2, 6));
    let frames: Vec<_> = FileFrames::new(&file).map(Result::unwrap).collect();
    assert_eq!(frames.len(), 2);
    let (frame, streams) = &frames[1];
    assert_eq!((frame.index, frame.scopes, streams.len()), (1, 3, 1));
    let scopes: Vec<_> = streams[0].scopes.iter().map(|scope| (scope.depth, scope.start_ns, scope.text.as_str())).collect();
    assert_eq!(scopes, [(0, 2000, ""), (1, 2000, "step"), (1, 2010, "step")]);
    let merged = merge_file(&file, Some(1000), "main").unwrap();
    assert_eq!(profiler.merge_view(2, Some(1000), "main"), Ok(merged.clone()));
    let numbers: Vec<_> = merged.iter().map(|it| (it.depth, it.pieces, it.total_ns, it.per_frame_ns, it.max_ns)).collect();
    assert_eq!(numbers, [(0, 2, 200, 100, 100), (1, 4, 20, 10, 5)]);
    let places: Vec<_> = merged.iter().map(|it| (it.id, it.start_ns, it.text.as_str())).collect();
    assert_eq!(places, [(id, 1000, ""), (id, 0, "step")]);
    assert_eq!(profiler.merge_view(1, Some(1000), "main").unwrap()[1].pieces, 2);
    assert_eq!(profiler.merge_view(2, None, "main"), Ok(Vec::new()));
    let cut: Vec<_> = FileFrames::new(&file[..file.len() - 1]).collect();
    assert_eq!(cut.len(), 2);
    assert_eq!(cut[1].as_ref().unwrap_err().to_string(), "PUFFIN_FILE_TRUNCATED");
}

#[test]
fn scopes_that_are_off_begin_nothing() {
    let mut ids = Ids::new().unwrap();
    let mut thread = Thread::new(&mut ids, "main", false).unwrap();
    let outer = thread.begin(1, 1, "").unwrap();
    thread.set_scopes_on(false).unwrap();
    assert!(!thread.are_scopes_on());
    let none = thread.begin(2, 0, "").unwrap();
    thread.end(3, none).unwrap();
    assert_eq!(thread.discard().unwrap_err().to_string(), "PUFFIN_SCOPES_OPEN");
    thread.end(4, outer).unwrap();
    assert_eq!(thread.discard(), Ok(1));
    assert_eq!(thread.discard(), Ok(0));
    thread.set_scopes_on(true).unwrap();
    assert_eq!(thread.begin(2, 0, "").unwrap_err().to_string(), "PUFFIN_NO_ID");
}

#[test]
fn all_threads_read_one_clock() {
    let latest = Mutex::new(now_ns());
    std::thread::scope(|scope| {
        for _ in 0..2 {
            scope.spawn(|| {
                for _ in 0..10_000 {
                    let mut latest = latest.lock().unwrap();
                    let now = now_ns();
                    assert!(now >= *latest);
                    *latest = now;
                }
            });
        }
    });
}

#[test]
fn faults_have_names() {
    let mut ids = Ids::new().unwrap();
    let mut thread = Thread::new(&mut ids, "main", false).unwrap();
    let fault = thread.begin(0, 0, "").unwrap_err();
    assert_eq!(fault.to_string(), "PUFFIN_NO_ID");
    let outer = thread.begin(0, 1, "").unwrap();
    let inner = thread.begin(1, 1, "").unwrap();
    let refused = thread.end(2, outer).unwrap_err();
    assert_eq!((refused.to_string().as_str(), refused.fault), ("PUFFIN_MISMATCHED_END", Fault::MISMATCHED_END));
    let mut profiler = Profiler::new(&mut ids).unwrap();
    assert_eq!(profiler.report(&mut thread), Err(Fault::SCOPES_OPEN));
    // the refused end gave its scope back, so all can be ended
    thread.end(2, inner).unwrap();
    thread.end(2, refused.scope).unwrap();
    profiler.report(&mut thread).unwrap();
    assert_eq!(profiler.new_frame().unwrap().unwrap().scopes, 2);
}

#[test]
fn faults_are_errors_and_handles_can_be_shown() {
    let file = check_file(b"PUF0PFD4").unwrap_err();
    let errors: [Box<dyn Error>; 2] = [Box::new(file), Box::new(file.fault)];
    assert_eq!(errors.map(|it| it.to_string()), ["PUFFIN_FILE_TRUNCATED in the frame at 4, before 8", "PUFFIN_FILE_TRUNCATED"]);
    let mut ids = Ids::new().unwrap();
    let thread = Thread::new(&mut ids, "main", false).unwrap();
    assert_eq!(format!("{ids:?} {thread:?}"), "Ids(..) Thread(..)");
}

#[test]
fn what_is_over_a_limit_is_refused_for_memory() {
    let mut ids = Ids::new().unwrap();
    let mut thread = Thread::new(&mut ids, "main", false).unwrap();
    let mut profiler = Profiler::new(&mut ids).unwrap();
    thread.set_max_bytes(100).unwrap();
    assert_eq!(thread.begin(1, 1, "").unwrap_err(), Fault::MEMORY);
    thread.set_max_bytes(1000).unwrap();
    profiler.set_max_pending(61).unwrap();
    for (start, answer) in [(1, Ok(())), (3, Err(Fault::MEMORY))] {
        let scope = thread.begin(start, 1, "").unwrap();
        thread.end(start + 1, scope).unwrap();
        assert_eq!(profiler.report(&mut thread), answer);
    }
    profiler.set_max_pending(62).unwrap();
    profiler.report(&mut thread).unwrap();
}

/// The clock of `puffin.h`.
#[test]
fn the_clock_is_the_system_s() {
    extern "C" {
        fn clock_gettime(clock: i32, time: *mut [i64; 2]) -> i32;
    }
    let mut time = [0; 2];
    let before = now_ns();
    assert_eq!(unsafe { clock_gettime(1, &mut time) }, 0);
    let between = time[0] * 1_000_000_000 + time[1];
    assert!(before <= between && between <= now_ns());
}

#[test]
fn the_version_is_the_package_s() {
    let version = puffin_c::version();
    let said = format!("{}.{}.{}", version.major, version.minor, version.patch);
    assert_eq!(said, env!("CARGO_PKG_VERSION"));
}
