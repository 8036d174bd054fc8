//! Tests of the board as users have it, the static library and the sheet program, against a second account of the board that shares no code with it: a ledger
//! (ledger.rs), a filter from scratch (filter.rs), a count of its slots and rules (summary.rs), a check of plans (plans.rs), a search for the first
//! full plan (first.rs) and a writer of sheets (sheet.rs). Seeds are fixed. They run in the repository's folder; tests/run builds what they need.
//!
//!     tests [samples | lists | sheets | broken]
//!
//! A word runs a part alone. With `broken` that is the lists, with a filter that stops after one pass: they have to fail.

mod altered;
mod around;
mod backtracking;
#[path = "../hosts/berth.rs"]
mod berth;
mod cancelled;
mod filter;
mod first;
mod gaps;
mod host;
mod ledger;
mod lists;
mod marks;
mod occurrences;
mod place;
mod plans;
mod questions;
mod random;
mod records;
mod replay;
mod samples;
mod session;
mod sheet;
mod summary;
mod tally;
mod touched;
mod writer;

fn main() {
    let word = std::env::args().nth(1).unwrap_or_default();
    if !["", "samples", "lists", "sheets", "broken"].contains(&&word[..]) {
        eprintln!("usage: tests [samples | lists | sheets | broken]");
        std::process::exit(2);
    }
    filter::STOPS_EARLY.store(word == "broken", std::sync::atomic::Ordering::Relaxed);
    place::say_on_failure();
    let mut tally = tally::Tally::default();
    if matches!(&word[..], "" | "samples") {
        samples::run(&mut tally);
    }
    if matches!(&word[..], "" | "lists" | "broken") {
        let left = lists::run(&mut tally);
        altered::run(&left);
        replay::run(&left);
        gaps::run(&left);
        cancelled::run();
        around::run();
        backtracking::run();
    }
    if matches!(&word[..], "" | "sheets") {
        sheet::run(&mut tally);
    }
    tally.print();
    if word.is_empty() {
        tally.check_complete();
    }
    println!("passed");
}
