//! What is done with marks in lists, counted: each of it has to happen.

use crate::berth::{Answer, Report};
use crate::host::number_of;
use crate::ledger::{Kept, Ledger, Rules, BACK, BOARD, MARK};
use crate::occurrences::Occurrences;

const ALL: [&str; 15] = [
    "marks beside a draft",
    "marks in place of another",
    "backs that strike",
    "backs that reopen",
    "backs that do both",
    "backs that bring rules into force",
    "backs that take rules out of force",
    "backs that drop a draft",
    "backs from a mark used before",
    "backs to one of two boards",
    "backs to over 50 rules",
    "names just over 1",
    "new boards that forget a mark",
    "refused boards that leave a mark",
    "backs from a forgotten mark",
];

/// What became of a name.
#[derive(Clone, Copy, PartialEq)]
pub enum Past {
    Nothing,
    Kept,
    BroughtBack,
    Forgotten,
}

#[derive(Default)]
pub struct Marks {
    seen: Occurrences,
}

/// Whether the first has rules under numbers that the second has none under.
fn has_more(first: &Rules, second: &Rules) -> bool {
    first.keys().any(|number| !second.contains_key(number))
}

impl Marks {
    fn count(&mut self, what: &'static str, holds: bool) {
        self.seen.count(what, holds);
    }

    /// A command that was answered so. The ledger is that before it.
    pub fn command(&mut self, past: &mut [Past; 2], bytes: &[u8], answer: &Answer<Report>, ledger: &Ledger) {
        let kept = |name: u8| ledger.kept_under(name);
        match (bytes, number_of(answer)) {
            ([MARK, name], 0) => {
                self.count("marks beside a draft", ledger.draft.is_some());
                self.count("marks in place of another", kept(*name).is_some());
                past[*name as usize] = Past::Kept;
            }
            ([BACK, name], 0) => {
                self.back(kept(*name).unwrap(), answer.unwrap(), ledger);
                self.count("backs to one of two boards", kept(0).zip(kept(1)).is_some_and(|(one, two)| one != two));
                self.count("backs from a mark used before", past[*name as usize] == Past::BroughtBack);
                past[*name as usize] = Past::BroughtBack;
            }
            ([MARK | BACK, name], 26) => self.count("names just over 1", *name == 2),
            ([BACK, name], 27) => {
                self.count("backs from a forgotten mark", past[*name as usize] == Past::Forgotten);
            }
            ([BOARD, ..], 0) => {
                self.count("new boards that forget a mark", kept(0).or(kept(1)).is_some());
                for past in past.iter_mut().filter(|past| **past != Past::Nothing) {
                    *past = Past::Forgotten;
                }
            }
            ([BOARD, ..], 5) => {
                self.count("refused boards that leave a mark", kept(0).or(kept(1)).is_some());
            }
            _ => (),
        }
    }

    fn back(&mut self, kept: &Kept, report: Report, ledger: &Ledger) {
        self.count("backs that strike", report.struck > 0);
        self.count("backs that reopen", report.reopened > 0);
        self.count("backs that do both", report.struck > 0 && report.reopened > 0);
        self.count("backs that bring rules into force", has_more(&kept.rules, &ledger.rules));
        self.count("backs that take rules out of force", has_more(&ledger.rules, &kept.rules));
        self.count("backs that drop a draft", ledger.draft.is_some());
        self.count("backs to over 50 rules", kept.rules.len() > 50);
    }

    pub fn print(&self) {
        self.seen.print(&ALL);
    }

    pub fn check_complete(&self) {
        self.seen.check_complete(&ALL);
    }
}
