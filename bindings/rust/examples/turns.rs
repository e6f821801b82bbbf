//! Two threads' scopes and three frames, and the file of them.

use puffin_c::{Fault, Ids, Profiler, Thread};
use std::error::Error;

/// A round of work, at times that the caller hands in. Returns the time after it.
fn round(thread: &mut Thread, id: u32, mut now: i64) -> Result<i64, Fault> {
    let whole = thread.begin(now, id, "")?;
    for _ in 0..4 {
        now += 100;
        let part = thread.begin(now, id, "step")?;
        now += 50;
        thread.end(now, part)?;
    }
    now += 100;
    thread.end(now, whole)?;
    Ok(now)
}

fn main() -> Result<(), Box<dyn Error>> {
    let mut ids = Ids::new()?;
    let mut main_loop = Thread::new(&mut ids, "main-loop", false)?;
    let mut worker = Thread::new(&mut ids, "worker", false)?;
    let mut profiler = Profiler::new(&mut ids)?;
    let (main_id, worker_id) = (
        profiler.register_function("turn", "turns.rs", 7)?,
        profiler.register_function("work", "turns.rs", 7)?,
    );
    let (mut now, mut later) = (1000, 1500);
    for _ in 0..3 {
        now = round(&mut main_loop, main_id, now)?;
        later = round(&mut worker, worker_id, later)?;
        profiler.report(&mut main_loop)?;
        profiler.report(&mut worker)?;
        let frame = profiler.new_frame()?.ok_or("a turn is a frame")?;
        println!("frame {} scopes {} range {} {}", frame.index, frame.scopes, frame.start_ns, frame.stop_ns);
    }
    let path = std::env::args().nth(1).ok_or("a path")?;
    std::fs::write(path, profiler.file()?)?;
    Ok(())
}
