//! T of a command (SCOPE 3.9, 3.10, 3.15, 3.17). That of a lift and of a cancellation is the size of a set, which is grown here from the bytes before the command.

use crate::berth::lent::Memory;
use crate::filter::{has, slots_in, Slots};
use crate::ledger::{self, Ledger};
use crate::records::caused;

/// What T has to be; the ledger and the memory are those before the command, and these its S and R.
pub fn touched_by(bytes: &[u8], ledger: &Ledger, memory: Memory, struck: usize, reopened: usize) -> usize {
    match *bytes {
        [ledger::PUT] => struck,
        [ledger::LIFT, number] => size(&grown(ledger, memory, caused_by(ledger, memory, number))),
        [ledger::BACK, _] => struck + reopened,
        [ledger::CANCEL, call] => {
            let mut touched = grown(ledger, memory, struck_on(ledger, memory, call));
            touched[call as usize] = 0;
            size(&touched)
        }
        _ => 0,
    }
}

fn size(set: &Slots) -> usize {
    set.iter().map(|mask| mask.count_ones() as usize).sum()
}

/// The slots with this cause.
fn caused_by(ledger: &Ledger, memory: Memory, number: u8) -> Slots {
    (0..ledger.counts.len() as u8).map(|call| caused(memory.slots, call, number)).collect()
}

/// The struck slots of this call: those with a cause.
fn struck_on(ledger: &Ledger, memory: Memory, call: u8) -> Slots {
    let mut set = vec![0; ledger.counts.len()];
    set[call as usize] = (0..64).fold(0, |mask, number| mask | caused(memory.slots, call, number));
    set
}

/// The set, with every slot that stands in a row of its cause whose killer is in the set, until none joins.
fn grown(ledger: &Ledger, memory: Memory, mut set: Slots) -> Slots {
    loop {
        let before = set.clone();
        for (number, rule) in &ledger.rules {
            let killers = &memory.killers[64 * *number as usize..][..64];
            let holding =
                slots_in(rule, |w, row| rule.cells(row).nth(killers[w] as usize).is_some_and(|cell| has(&set, cell)));
            for (column, call) in rule.calls.iter().enumerate() {
                set[*call as usize] |= caused(memory.slots, *call, *number) & holding[column];
            }
        }
        if set == before {
            return set;
        }
    }
}
