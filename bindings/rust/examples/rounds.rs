//! Profiles itself: rounds of work on two threads, written to the file that the first argument names.

// listing: rounds
use puffin_c::{profile_function, profile_scope};

fn step(number: u32) {
    profile_function!();
    assert!(number < 4);
}

fn round() {
    profile_function!("a round");
    for number in 0..4 {
        profile_scope!("part", "of a round");
        step(number);
    }
}
// end of listing

fn main() -> Result<(), Box<dyn std::error::Error>> {
    for _ in 0..3 {
        std::thread::scope(|threads| {
            std::thread::Builder::new().name("worker".into()).spawn_scoped(threads, round).map(drop)
        })?;
        round();
        let frame = puffin_c::new_frame()?.ok_or("a round is a frame")?;
        println!("frame {} scopes {}", frame.index, frame.scopes);
    }
    println!("refused {}", puffin_c::refused());
    let path = std::env::args().nth(1).ok_or("a path")?;
    std::fs::write(path, puffin_c::file()?)?;
    Ok(())
}
