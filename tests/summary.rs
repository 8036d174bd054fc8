//! The summary table, recounted from the ledger's rules and the filter's open slots.

use crate::berth::{Summary, RECORDS};
use crate::filter::Slots;
use crate::ledger::Ledger;
use crate::random::Random;

/// A call that is not on the board has no slots and no rules. A cancelled one has no open and no struck slot, and the rules on it count as ever.
fn record_of(ledger: &Ledger, open: &Slots, call: u8) -> Summary {
    let open = open.get(call as usize).map_or(0, |mask| mask.count_ones() as u8);
    let slots = if ledger.is_cancelled(call) { 0 } else { ledger.count(call) };
    let rules = ledger.rules.values().filter(|rule| rule.calls.contains(&call));
    Summary { open, struck: slots - open, rules: rules.count() as u8 }
}

/// The records of a board whose open slots are these.
pub fn table_of(ledger: &Ledger, open: &Slots) -> [Summary; RECORDS] {
    std::array::from_fn(|call| record_of(ledger, open, call as u8))
}

/// The open slots of all records.
pub fn open_sum(table: &[Summary]) -> usize {
    table.iter().map(|record| record.open as usize).sum()
}

/// Some figures become others.
pub fn alter(random: &mut Random, table: &mut [Summary]) {
    for _ in 0..random.between((1, 40)) {
        let record = &mut table[random.below(RECORDS)];
        let mut figure = |old: u8| match random.below(4) {
            0 => random.byte(),
            1 => old.wrapping_add(1),
            2 => 0,
            _ => old,
        };
        *record = Summary { open: figure(record.open), struck: figure(record.struck), rules: figure(record.rules) };
    }
}
