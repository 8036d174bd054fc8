//! Where the tests are, so that a failure says which list, seed and command it was.

use std::cell::Cell;

thread_local! {
    static PLACE: Cell<(&'static str, u64, usize)> = const { Cell::new(("start", 0, 0)) };
}

/// A list, a file or a memory that is made from a seed.
pub fn list(name: &'static str, seed: u64) {
    PLACE.set((name, seed, 0));
}

/// The command of the list, by its number from 0.
pub fn command(index: usize) {
    let (name, seed, _) = PLACE.get();
    PLACE.set((name, seed, index));
}

/// From here on a failed assertion says where it was, and ends the program with status 1.
pub fn say_on_failure() {
    std::panic::set_hook(Box::new(|failure| {
        let (name, seed, index) = PLACE.get();
        println!("FAILED: {name}, seed {seed}, command {index}: {failure}");
        std::process::exit(1);
    }));
}
