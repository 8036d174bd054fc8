//! Gap rules by themselves: on two calls of every two slot counts, each form with each gap; and on boards that lists left, cancelled calls among theirs, whole
//! and row by row.

use crate::berth::{Board, Report};
use crate::host::{number_of, value_of, Host};
use crate::ledger::{Ledger, GAP, HEAD, LENGTHS, LIFT, PUT, ROW};
use crate::random::Random;
use crate::writer::gap_rule_within;

const RULES: u64 = 3000;

/// Each form with each gap, and with one too large, on a board of two calls. It is refused or makes the draft that the ledger says; a refused one leaves the draft
/// of the one before it. Returns how many were accepted.
fn check_counts(counts: [u8; 2]) -> usize {
    let mut board = Board::new();
    board.start(&counts).unwrap();
    let mut ledger = Ledger { counts: counts.to_vec(), ..Ledger::default() };
    let mut accepted = 0;
    for (form, gap) in (1..=3).flat_map(|form| (0..=32).map(move |gap| (form, gap))) {
        let bytes = [GAP, form, 63, 0, 1, gap];
        let due = ledger.refusal(LENGTHS, &bytes);
        if due == 0 {
            ledger.obey(&bytes);
            accepted += 1;
        }
        let answer = board.command(&bytes);
        assert_eq!(number_of(&answer), due, "the refusal of {bytes:?} on {counts:?} slots");
        assert_eq!(answer.unwrap_or_default(), Report::default(), "the report of {bytes:?} on {counts:?} slots");
        assert_eq!(*board.value(), value_of(&ledger), "the value after {bytes:?} on {counts:?} slots");
    }
    accepted
}

/// The calls of a board that has this memory, in a ledger of their own.
fn calls_of(host: &Host) -> Ledger {
    let counts: Vec<u8> = host.value.value.heads.counts.into_iter().take_while(|count| *count > 0).collect();
    let is_cancelled = |call: &u8| host.memory().slots[32 * *call as usize] == 253;
    let cancelled = (0..counts.len() as u8).filter(is_cancelled).collect();
    Ledger { counts, cancelled, ..Ledger::default() }
}

/// Sends a command to two hosts. Both answer the same; returns the number.
fn send_both(hosts: [&mut Host; 2], bytes: &[u8]) -> u8 {
    let [one, other] = hosts.map(|host| host.command(bytes).0);
    assert_eq!(one, other, "two answers to {bytes:?}");
    number_of(&one)
}

/// A gap rule leaves the same value, bytes and table as its head and rows one by one, and so does the put. One of too many rows is refused, and of the rows one by
/// one the 65th. Returns how many rows there are; none where a call is cancelled, and then both are refused.
fn check_row_by_row(mut whole: Host, rule: &[u8]) -> Option<usize> {
    let (form, number, calls, gap) = (rule[1], rule[2], &rule[3..5], rule[5]);
    let mut by_row = whole.clone();
    let answer = number_of(&whole.command(rule).0);
    let head = number_of(&by_row.command(&[HEAD, number, 2, calls[0], calls[1], 255, 255]).0);
    if calls.iter().any(|call| calls_of(&whole).is_cancelled(*call)) {
        assert_eq!((answer, head), (29, 29), "{rule:?} on a cancelled call, and its head");
        return None;
    }
    assert_eq!(head, 0, "the head of {rule:?} is refused");
    let rows = calls_of(&whole).fitting_rows(form, calls, gap);
    for (w, row) in rows.iter().enumerate().take(65) {
        let due = if w < 64 { 0 } else { 13 };
        let sent = by_row.command(&[&[ROW], &row[..]].concat()).0;
        assert_eq!(number_of(&sent), due, "row {w} of {rule:?}");
    }
    assert_eq!(answer, if rows.len() > 64 { 25 } else { 0 }, "{rule:?} has {} rows", rows.len());
    if answer == 0 {
        assert!(whole == by_row, "{rule:?} leaves other than its rows one by one");
        send_both([&mut whole, &mut by_row], &[LIFT, number]);
        assert_eq!(send_both([&mut whole, &mut by_row], &[PUT]), 0, "the put of {rule:?}");
        assert!(whole == by_row, "the put of {rule:?} leaves other than with its rows one by one");
    }
    Some(rows.len())
}

pub fn run(left: &[Host]) {
    let (mut all, mut accepted) = (0, 0);
    for (n, m) in (1..=32).flat_map(|n| (1..=32).map(move |m| (n, m))) {
        crate::place::list("gap rules on two calls", all);
        accepted += check_counts([n, m]);
        all += 3 * 33;
    }
    let has_two = |calls: Ledger| calls.counts.len() > calls.cancelled.len() + 1;
    let boards: Vec<&Host> = left.iter().filter(|host| has_two(calls_of(host))).collect();
    let mut seen = [0; 4];
    for seed in 0..RULES {
        crate::place::list("gap rules row by row", seed);
        let random = &mut Random(seed);
        let host = *random.choose(&boards);
        let number = random.below(64) as u8;
        let rule = gap_rule_within(random, &calls_of(host), number);
        let rows = check_row_by_row(host.clone(), &rule);
        seen[rows.map_or(3, |rows| (rows > 0) as usize + (rows > 64) as usize)] += 1;
    }
    let [none, some, too_many, cancelled] = seen;
    let row_by_row =
        format!("{none} without rows, {some} with some, {too_many} with too many, {cancelled} on a cancelled call");
    assert!(!seen.contains(&0), "gap rules row by row: {row_by_row}");
    println!("gap rules: {accepted} of {all} accepted on two calls; row by row {row_by_row}");
}
