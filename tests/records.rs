//! What the buffers hold after a command, byte by byte: rows, open slots, causes and killers; and that there is no ring (SCOPE 1.13).

use crate::berth::lent::Memory;
use crate::filter::{has, is_alive, slots_in, struck_slots, Slots};
use crate::ledger::{Ledger, Rule};

/// All of it, on a board whose open slots are these.
pub fn check(ledger: &Ledger, open: &Slots, memory: Memory) {
    check_rows(ledger, memory.rows);
    check_slots(ledger, open, memory.slots);
    check_killers(ledger, open, memory.killers);
    check_rings(ledger, &struck_slots(ledger, open), memory);
}

fn check_rows(ledger: &Ledger, bytes: &[u8]) {
    for (number, block) in bytes.chunks(256).enumerate() {
        let rows = ledger.rules.get(&(number as u8)).map_or(&[][..], |rule| rule.rows.as_flattened());
        let spare = &block[rows.len()..];
        let right = block.starts_with(rows) && spare.iter().all(|byte| *byte == 255);
        assert!(right, "the row bytes of rule {number} are {block:?}");
    }
}

/// 254 off the board, 253 for each slot of a cancelled call, 255 for an open one, and for a struck one its cause, which has to be in force and on that call.
fn check_slots(ledger: &Ledger, open: &Slots, bytes: &[u8]) {
    for (place, byte) in bytes.iter().enumerate() {
        let (call, slot) = ((place / 32) as u8, (place % 32) as u8);
        let right = match byte {
            254 => slot >= ledger.count(call),
            253 => slot < ledger.count(call) && ledger.is_cancelled(call),
            255 => slot < ledger.count(call) && has(open, (call, slot)),
            cause => {
                let on_call = ledger.rules.get(cause).is_some_and(|rule| rule.calls.contains(&call));
                let is_struck = !ledger.is_cancelled(call) && !has(open, (call, slot));
                slot < ledger.count(call) && is_struck && on_call
            }
        };
        assert!(right, "slot {slot} of call {call} has the byte {byte}; open are {open:x?}");
    }
}

/// The column of a struck slot for a dead row, so never that of a cancelled call; 255 for a living one and where there is none.
fn check_killers(ledger: &Ledger, open: &Slots, bytes: &[u8]) {
    let (none, struck) = (Rule::default(), struck_slots(ledger, open));
    for (number, block) in bytes.chunks(64).enumerate() {
        let rule = ledger.rules.get(&(number as u8)).unwrap_or(&none);
        for (w, killer) in block.iter().enumerate() {
            let right = match rule.rows.get(w) {
                Some(row) if !is_alive(ledger, rule, *row, open) => {
                    rule.cells(*row).nth(*killer as usize).is_some_and(|cell| has(&struck, cell))
                }
                _ => *killer == 255,
            };
            assert!(right, "row {w} of rule {number} has the killer {killer}; open are {open:x?}");
        }
    }
}

/// From no slot on, those join whose rows in their cause all have their killers among the slots that have joined. Slots that never join would be a ring.
fn check_rings(ledger: &Ledger, struck: &Slots, memory: Memory) {
    let mut joined: Slots = vec![0; struck.len()];
    loop {
        let before = joined.clone();
        for (number, rule) in &ledger.rules {
            let killers = &memory.killers[64 * *number as usize..][..64];
            let killer = |w: usize, row| rule.cells(row).nth(killers[w] as usize);
            let waiting = slots_in(rule, |w, row| !killer(w, row).is_some_and(|cell| has(&joined, cell)));
            for (column, call) in rule.calls.iter().enumerate() {
                joined[*call as usize] |= caused(memory.slots, *call, *number) & !waiting[column];
            }
        }
        if joined == before {
            break;
        }
    }
    assert!(joined == *struck, "a ring: of the struck slots {struck:x?} only {joined:x?} are in none");
}

/// The slots of a call that have this cause.
pub fn caused(slots: &[u8], call: u8, number: u8) -> u32 {
    let bytes = &slots[32 * call as usize..][..32];
    bytes.iter().rev().fold(0, |mask, byte| mask << 1 | (*byte == number) as u32)
}
