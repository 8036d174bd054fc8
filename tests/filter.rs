//! The open slots of a ledger, from scratch: all slots of the calls that are not cancelled at first, and rule after rule those without a support are taken
//! away, until nothing changes.

use crate::ledger::{self, Ledger, Rule};
use std::sync::atomic::{AtomicBool, Ordering::Relaxed};

/// A set of slots: a mask for each call.
pub type Slots = Vec<u32>;

/// One pass over the rules is made and no more, which is wrong: with it the tests have to fail.
pub static STOPS_EARLY: AtomicBool = AtomicBool::new(false);

pub fn has(set: &Slots, (call, slot): (u8, u8)) -> bool {
    set[call as usize] >> slot & 1 == 1
}

/// Whether a row's slots are open, in the columns that count: a cancelled call's does not.
pub fn is_alive(ledger: &Ledger, rule: &Rule, row: [u8; 4], open: &Slots) -> bool {
    let mut counting = rule.cells(row).filter(|(call, _)| !ledger.is_cancelled(*call));
    counting.all(|cell| has(open, cell))
}

/// The slots of each column that stand in one of the rows for which the test holds.
pub fn slots_in(rule: &Rule, test: impl Fn(usize, [u8; 4]) -> bool) -> [u32; 4] {
    let mut found = [0; 4];
    for (_, row) in rule.rows.iter().enumerate().filter(|(w, row)| test(*w, **row)) {
        for column in 0..rule.calls.len() {
            found[column] |= 1 << row[column];
        }
    }
    found
}

/// All that are open or struck: a cancelled call has none.
pub fn all_slots(ledger: &Ledger) -> Slots {
    let slots = |(call, count): (u8, &u8)| if ledger.is_cancelled(call) { 0 } else { u32::MAX >> (32 - count) };
    (0..).zip(&ledger.counts).map(slots).collect()
}

pub fn open_slots(ledger: &Ledger) -> Slots {
    let mut open = all_slots(ledger);
    loop {
        let before = open.clone();
        for rule in ledger.rules.values() {
            let supported = slots_in(rule, |_, row| is_alive(ledger, rule, row, &open));
            for (column, call) in rule.calls.iter().enumerate() {
                open[*call as usize] &= supported[column];
            }
        }
        if open == before || STOPS_EARLY.load(Relaxed) {
            return open;
        }
    }
}

/// The slots that are not open.
pub fn struck_slots(ledger: &Ledger, open: &Slots) -> Slots {
    all_slots(ledger).iter().zip(open).map(|(all, open)| all & !open).collect()
}

/// How many slots are in both.
pub fn common(first: &Slots, second: &Slots) -> usize {
    first.iter().zip(second).map(|(a, b)| (a & b).count_ones() as usize).sum()
}

/// S and R of an accepted command, by the open and the struck slots before and after it. A slot whose call is cancelled is neither, so it is in no count.
pub fn report_of(kind: u8, before: [&Slots; 2], after: [&Slots; 2]) -> (usize, usize) {
    let ([open_before, struck_before], [open, struck]) = (before, after);
    match kind {
        ledger::BOARD => (0, 0),
        _ => (common(open_before, struck), common(struck_before, open)),
    }
}
