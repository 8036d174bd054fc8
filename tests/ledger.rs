//! The ledger (SCOPE 6.5), written for the tests and apart from the board: the calls' slot counts, the cancelled calls, the draft, the rules and the kept
//! boards, when a command or a question is refused, and what a command does. A new kind of command is added to the constants, to `body_length`, `kind_refusal`,
//! `obey` and `leaves_buffers` here, to `report_of` in filter.rs and `touched_by` in touched.rs, to what writer.rs writes, and to `REFUSALS_OF_KIND` in
//! tally.rs.

use std::collections::{BTreeMap, BTreeSet};

pub const BOARD: u8 = 1;
pub const HEAD: u8 = 2;
pub const ROW: u8 = 3;
pub const PUT: u8 = 4;
pub const LIFT: u8 = 5;
pub const GAP: u8 = 6;
pub const MARK: u8 = 7;
pub const BACK: u8 = 8;
pub const CANCEL: u8 = 9;
pub const LAST_KIND: u8 = CANCEL;

/// Refusals have the numbers up to this one, but for those that no refusal has yet.
pub const LAST_REFUSAL: usize = 33;
pub const NO_REFUSALS: [usize; 2] = [30, 31];

/// The lengths of what is lent with a command.
#[derive(Clone, Copy)]
pub struct Lengths {
    /// rows, killers, slots
    pub buffers: [usize; 3],
    /// of both marks together
    pub marks: usize,
    /// the summary table's, in records
    pub table: usize,
}

pub const LENGTHS: Lengths = Lengths { buffers: [64 * 64 * 4, 64 * 64, 32 * 32], marks: 43008, table: 32 };

impl Lengths {
    /// The refusal of a question, which is lent the three buffers and no marks: 1 or 0.
    pub fn question_refusal(self) -> u8 {
        first(&[(1, self.buffers != LENGTHS.buffers)])
    }

    /// The refusal of a command or a file that is lent all of it: 1, 22 or 0.
    pub fn refusal(self) -> u8 {
        let buffers = self.buffers != LENGTHS.buffers || self.marks != LENGTHS.marks;
        first(&[(1, buffers), (22, self.table != LENGTHS.table)])
    }
}

/// How many bytes follow the byte of a kind; none where there is no such kind.
pub fn body_length(kind: u8) -> Option<usize> {
    match kind {
        BOARD => Some(32),
        HEAD => Some(6),
        ROW => Some(4),
        PUT => Some(0),
        LIFT => Some(1),
        GAP => Some(5),
        MARK | BACK | CANCEL => Some(1),
        _ => None,
    }
}

/// An accepted command of this kind leaves rows, killers and slots as they were.
pub fn leaves_buffers(kind: u8) -> bool {
    matches!(kind, HEAD | ROW | GAP | MARK)
}

/// A row has a slot for each of the calls, and 255 in the columns past them.
#[derive(Clone, Debug, Default, PartialEq)]
pub struct Rule {
    pub calls: Vec<u8>,
    pub rows: Vec<[u8; 4]>,
}

impl Rule {
    /// The call and the slot in each column of a row.
    pub fn cells(&self, row: [u8; 4]) -> impl Iterator<Item = (u8, u8)> + '_ {
        self.calls.iter().copied().zip(row)
    }
}

/// The rules in force, by their numbers.
pub type Rules = BTreeMap<u8, Rule>;

/// The calls that are cancelled.
pub type Cancelled = BTreeSet<u8>;

/// A board that is kept under a name.
#[derive(Clone, Debug, PartialEq)]
pub struct Kept {
    pub counts: Vec<u8>,
    pub cancelled: Cancelled,
    pub rules: Rules,
}

#[derive(Clone, Debug, Default)]
pub struct Ledger {
    /// the slots of each call
    pub counts: Vec<u8>,
    pub cancelled: Cancelled,
    /// the draft, and the number that it is to come into force under
    pub draft: Option<(u8, Rule)>,
    pub rules: Rules,
    /// under the names 0 and 1
    pub kept: [Option<Kept>; 2],
}

/// The number of the first condition that holds, or 0.
fn first(conditions: &[(u8, bool)]) -> u8 {
    conditions.iter().find(|(_, holds)| *holds).map_or(0, |(number, _)| *number)
}

fn bad_counts(counts: &[u8]) -> bool {
    let calls = counts.iter().take_while(|count| **count != 0).count();
    calls == 0 || counts.iter().any(|count| *count > 32) || counts[calls..].iter().any(|count| *count != 0)
}

fn bad_spare(fields: &[u8]) -> bool {
    fields.iter().any(|field| *field != 255)
}

/// Whether a gap rule of this form admits two slots. The second lies so far ahead of the first; a slot behind it is less than 0 ahead.
fn fits(form: u8, gap: i32, ahead: i32) -> bool {
    match form {
        1 => ahead >= gap,
        2 => ahead.abs() >= gap,
        _ => ahead == 0,
    }
}

/// The refusal of what stands first in these bytes, whatever follows it: 3, 4, or 0.
pub fn read_refusal(bytes: &[u8]) -> u8 {
    let length = bytes.first().and_then(|kind| body_length(*kind));
    first(&[(3, length.is_none()), (4, length.is_some_and(|length| bytes.len() < 1 + length))])
}

impl Ledger {
    /// The slots of a call; 0 where there is no such call.
    pub fn count(&self, call: u8) -> u8 {
        self.counts.get(call as usize).copied().unwrap_or(0)
    }

    pub fn is_cancelled(&self, call: u8) -> bool {
        self.cancelled.contains(&call)
    }

    fn names_cancelled(&self, calls: &[u8]) -> bool {
        calls.iter().any(|call| self.is_cancelled(*call))
    }

    /// The refusal of a command by its bytes and the lengths lent, or 0. Bytes left over count as a body of another length.
    pub fn refusal(&self, lent: Lengths, bytes: &[u8]) -> u8 {
        let formal = first(&[(lent.refusal(), lent.refusal() != 0), (read_refusal(bytes), read_refusal(bytes) != 0)]);
        if formal != 0 {
            return formal;
        }
        let (kind, body) = (bytes[0], &bytes[1..]);
        first(&[(4, Some(body.len()) != body_length(kind)), (self.kind_refusal(kind, body), true)])
    }

    fn kind_refusal(&self, kind: u8, body: &[u8]) -> u8 {
        match kind {
            BOARD => first(&[(5, bad_counts(&body[..32]))]),
            HEAD => self.head_refusal(body[0], body[1] as usize, &body[2..6]),
            ROW => self.row_refusal(&body[..4]),
            PUT => self.put_refusal(),
            LIFT => self.rule_refusal(body[0]),
            GAP => self.gap_refusal(body[0], body[1], &body[2..4], body[4]),
            MARK => self.name_refusal(body[0]),
            BACK => self.back_refusal(body[0]),
            CANCEL => self.cancel_refusal(body[0]),
            _ => unreachable!(),
        }
    }

    fn no_board(&self) -> bool {
        self.counts.is_empty()
    }

    fn head_refusal(&self, number: u8, arity: usize, fields: &[u8]) -> u8 {
        let (calls, spare) = fields.split_at(arity.min(4));
        first(&[
            (6, self.no_board()),
            (7, number > 63),
            (8, !(1..=4).contains(&arity)),
            (9, calls.iter().any(|call| self.count(*call) == 0)),
            (29, self.names_cancelled(calls)),
            (10, (0..calls.len()).any(|k| calls[..k].contains(&calls[k]))),
            (11, bad_spare(spare)),
        ])
    }

    fn row_refusal(&self, row: &[u8]) -> u8 {
        let none = Rule::default();
        let Rule { calls, rows } = self.draft.as_ref().map_or(&none, |(_, rule)| rule);
        let (slots, spare) = row.split_at(calls.len());
        first(&[
            (6, self.no_board()),
            (12, self.draft.is_none()),
            (13, rows.len() == 64),
            (14, calls.iter().zip(slots).any(|(call, slot)| *slot >= self.count(*call))),
            (11, bad_spare(spare)),
            (15, rows.iter().any(|other| other == row)),
        ])
    }

    fn put_refusal(&self) -> u8 {
        let taken = self.draft.as_ref().is_some_and(|(number, _)| self.rules.contains_key(number));
        first(&[(6, self.no_board()), (12, self.draft.is_none()), (16, taken)])
    }

    /// Of a lift, and of a question about a rule.
    fn rule_refusal(&self, number: u8) -> u8 {
        first(&[(6, self.no_board()), (7, number > 63), (17, !self.rules.contains_key(&number))])
    }

    fn gap_refusal(&self, form: u8, number: u8, calls: &[u8], gap: u8) -> u8 {
        first(&[
            (6, self.no_board()),
            (7, number > 63),
            (23, !(1..=3).contains(&form)),
            (9, calls.iter().any(|call| self.count(*call) == 0)),
            (29, self.names_cancelled(calls)),
            (10, calls[0] == calls[1]),
            (24, gap > if form == 3 { 0 } else { 31 }),
            (25, self.fitting_rows(form, calls, gap).len() > 64),
        ])
    }

    fn name_refusal(&self, name: u8) -> u8 {
        first(&[(6, self.no_board()), (26, name > 1)])
    }

    fn back_refusal(&self, name: u8) -> u8 {
        let before = self.name_refusal(name);
        first(&[(before, before != 0), (27, self.kept_under(name).is_none())])
    }

    fn cancel_refusal(&self, call: u8) -> u8 {
        let before = self.call_refusal(call);
        first(&[(before, before != 0), (28, self.is_cancelled(call))])
    }

    /// The board that is kept under a name, where there is one.
    pub fn kept_under(&self, name: u8) -> Option<&Kept> {
        self.kept.get(name as usize)?.as_ref()
    }

    /// The rows of a gap rule on two calls, however many they are.
    pub fn fitting_rows(&self, form: u8, calls: &[u8], gap: u8) -> Vec<[u8; 4]> {
        let slots = |call: u8| 0..self.count(call) as i32;
        let pairs = slots(calls[0]).flat_map(|a| slots(calls[1]).map(move |b| (a, b)));
        let fitting = pairs.filter(|(a, b)| fits(form, gap as i32, b - a));
        fitting.map(|(a, b)| [a as u8, b as u8, 255, 255]).collect()
    }

    /// Of the question for the first full plan.
    pub fn first_plan_refusal(&self) -> u8 {
        first(&[(6, self.no_board())])
    }

    /// Of a cancellation, and of a question about a call.
    pub fn call_refusal(&self, call: u8) -> u8 {
        first(&[(6, self.no_board()), (18, self.count(call) == 0)])
    }

    pub fn slot_refusal(&self, call: u8, slot: u8) -> u8 {
        let before = self.call_refusal(call);
        first(&[(before, before != 0), (19, slot >= self.count(call))])
    }

    pub fn row_state_refusal(&self, number: u8, row: u8) -> u8 {
        let before = self.rule_refusal(number);
        let rows = self.rules.get(&number).map_or(0, |rule| rule.rows.len());
        first(&[(before, before != 0), (20, row as usize >= rows)])
    }

    pub fn support_refusal(&self, number: u8, column: u8, slot: u8) -> u8 {
        let before = self.rule_refusal(number);
        let call = self.rules.get(&number).and_then(|rule| rule.calls.get(column as usize));
        let slots = call.map_or(0, |call| self.count(*call));
        first(&[(before, before != 0), (21, call.is_none()), (19, slot >= slots)])
    }

    /// A call that a plan has a slot for: it is on the board and not cancelled.
    pub fn takes_part(&self, call: u8) -> bool {
        self.count(call) > 0 && !self.is_cancelled(call)
    }

    /// The byte is no slot of the call, struck or not, or is not 255 where the plan has no slot for the call.
    pub fn is_wrong_in_plan(&self, call: u8, byte: u8) -> bool {
        if self.takes_part(call) {
            byte >= self.count(call)
        } else {
            byte != 255
        }
    }

    pub fn plan_refusal(&self, plan: &[u8]) -> u8 {
        let wrong = (0..=255).zip(plan).any(|(call, byte)| self.is_wrong_in_plan(call, *byte));
        first(&[(32, plan.len() != 32), (6, self.no_board()), (33, wrong)])
    }

    /// Carries out a command that is not refused.
    pub fn obey(&mut self, bytes: &[u8]) {
        let body = &bytes[1..];
        match bytes[0] {
            BOARD => {
                let counts = body.iter().copied().take_while(|count| *count != 0).collect();
                *self = Ledger { counts, ..Ledger::default() };
            }
            HEAD => {
                let calls = body[2..][..body[1] as usize].to_vec();
                self.draft = Some((body[0], Rule { calls, rows: vec![] }));
            }
            ROW => self.draft.as_mut().unwrap().1.rows.push(body.try_into().unwrap()),
            PUT => self.rules.extend(self.draft.take()),
            LIFT => drop(self.rules.remove(&body[0])),
            GAP => {
                let calls = body[2..4].to_vec();
                let rows = self.fitting_rows(body[0], &calls, body[4]);
                self.draft = Some((body[1], Rule { calls, rows }));
            }
            MARK => {
                let (counts, cancelled) = (self.counts.clone(), self.cancelled.clone());
                self.kept[body[0] as usize] = Some(Kept { counts, cancelled, rules: self.rules.clone() });
            }
            BACK => {
                let Kept { counts, cancelled, rules } = self.kept_under(body[0]).unwrap().clone();
                (self.counts, self.cancelled, self.rules, self.draft) = (counts, cancelled, rules, None);
            }
            CANCEL => drop(self.cancelled.insert(body[0])),
            _ => unreachable!(),
        }
    }
}
