//! Files of commands, each replayed by one call on memory with any contents, and its commands sent one by one to a fresh board: the same value, bytes, marks,
//! table, count and number. Where a length is wrong nothing changes.

use crate::altered::some_host;
use crate::berth::{Refusal, Replay, FILE};
use crate::filter::open_slots;
use crate::host::{number_of, Fenced, Host};
use crate::ledger::{body_length, read_refusal, Ledger, LAST_KIND, LAST_REFUSAL, LENGTHS};
use crate::random::Random;
use crate::sheet::some_file;
use crate::summary::table_of;

const FILES: u64 = 3000;

/// Commands that were accepted in files, by their kind.
type Accepted = [usize; LAST_KIND as usize + 1];

/// What the file's commands leave of a fresh board beside these marks' bytes, with a table that is recounted, and what is to be said of them.
fn one_by_one(file: &[u8], marks: &Fenced<u8>, accepted: &mut Accepted) -> (Host, Replay) {
    let (mut host, mut ledger, mut read) = (Host::fresh_beside(marks), Ledger::default(), 0);
    let mut replay = Replay { ran: 0, end: None };
    while read < file.len() && replay.end.is_none() {
        let rest = &file[read..];
        match read_refusal(rest) {
            0 => {
                let length = 1 + body_length(rest[0]).unwrap();
                let bytes = &rest[..length];
                let _ = host.command(bytes);
                if ledger.refusal(LENGTHS, bytes) == 0 {
                    ledger.obey(bytes);
                    accepted[bytes[0] as usize] += 1;
                }
                (read, replay.ran) = (read + length, replay.ran + 1);
            }
            number => replay.end = Some(Refusal::from_number(number)),
        }
    }
    host.table = Fenced::new(&table_of(&ledger, &open_slots(&ledger)));
    (host, replay)
}

/// Returns the number that was answered.
fn check(host: &mut Host, file: &[u8], accepted: &mut Accepted) -> u8 {
    let before = host.clone();
    let found = host.replay(file);
    let (left, due) = match before.lengths().refusal() {
        0 if file.len() > FILE => (before, Err(Refusal::FileLength)),
        0 => {
            let (left, due) = one_by_one(file, &before.marks, accepted);
            (left, Ok(due))
        }
        number => (before, Err(Refusal::from_number(number))),
    };
    assert_eq!(found, due, "the answer to a file of {} bytes", file.len());
    assert!(*host == left, "what a file of {} bytes leaves", file.len());
    found.map_or_else(Refusal::number, |replay| replay.end.map_or(0, Refusal::number))
}

/// The memory is a fresh board's beside the marks' bytes as they were, or is refused as it is.
fn clear(host: &mut Host) {
    let before = host.clone();
    let number = number_of(&host.fresh_board());
    let due = before.lengths().refusal();
    let left = if due == 0 { Host::fresh_beside(&before.marks) } else { before };
    assert_eq!(number, due, "the answer to a fresh board");
    assert!(*host == left, "what a fresh board leaves");
}

pub fn run(left: &[Host]) {
    let (mut seen, mut accepted) = ([0; LAST_REFUSAL + 1], Accepted::default());
    for seed in 0..FILES {
        crate::place::list("replayed file", seed);
        let random = &mut Random(seed);
        seen[check(&mut some_host(random, left), &some_file(seed), &mut accepted) as usize] += 1;
        clear(&mut some_host(random, left));
    }
    let ends = [0, 1, 22, 2, 3, 4].map(|number: usize| (number, seen[number]));
    assert!(ends.iter().all(|(_, seen)| *seen > 0), "a file never ended under a number: {ends:?}");
    let (ends, accepted) = (ends.map(|(number, seen)| format!(" {number}: {seen}")), &accepted[1..]);
    assert!(!accepted.contains(&0), "no file had a kind accepted: {accepted:?}");
    println!("replayed: {FILES} files, ended under{}; accepted by kind {accepted:?}", ends.concat());
}
