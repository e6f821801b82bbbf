//! Reaches a place so many times (the first argument) while scopes are off.

use puffin_c::profile_scope;

fn main() {
    puffin_c::set_scopes_on(false);
    let turns = std::env::args().nth(1).and_then(|word| word.parse().ok()).unwrap_or(1);
    let mut number = 0_u64;
    while number < turns {
        profile_scope!("turn", &number.to_string());
        number += 1;
    }
    println!("turns {number}");
}
