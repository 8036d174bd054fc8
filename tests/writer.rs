//! The writer of random commands: what a list is to do next is planned from the ledger, and some commands are damaged. Whether one is refused is not for the
//! writer to know.

use crate::ledger::{self, Ledger, BACK, BOARD, CANCEL, GAP, HEAD, LAST_KIND, LIFT, MARK, PUT, ROW};
use crate::random::Random;
use std::collections::VecDeque;

/// The limits of a list's boards and rules.
pub struct Sizes {
    pub name: &'static str,
    pub lists: u64,
    /// commands of a list
    pub commands: usize,
    pub calls: (usize, usize),
    pub slots: (usize, usize),
    /// rows of a rule whose rows are any
    pub rows: usize,
    /// rule numbers in use
    pub numbers: usize,
    /// in a hundred plans
    pub lifts: usize,
    /// commands from one mark or back to the next, on average
    pub marks: usize,
    /// and from one cancellation to the next, in lists that have them
    pub cancels: usize,
}

#[rustfmt::skip]
pub const SIZES: [Sizes; 4] = [
    Sizes { name: "small", lists: 4000, commands: 120, calls: (1, 5), slots: (1, 4), rows: 10, numbers: 9, lifts: 50, marks: 15, cancels: 25 },
    Sizes { name: "middle", lists: 500, commands: 400, calls: (3, 12), slots: (2, 12), rows: 40, numbers: 24, lifts: 40, marks: 30, cancels: 50 },
    Sizes { name: "large", lists: 70, commands: 1200, calls: (20, 32), slots: (16, 32), rows: 64, numbers: 64, lifts: 35, marks: 60, cancels: 80 },
    Sizes { name: "full", lists: 5, commands: 9000, calls: (32, 32), slots: (32, 32), rows: 64, numbers: 64, lifts: 8, marks: 300, cancels: 300 },
];

pub struct Writer {
    pub random: Random,
    sizes: &'static Sizes,
    /// commands to come
    plan: VecDeque<Vec<u8>>,
    /// one list in three cancels next to nothing, so that more rules strike
    cancels: bool,
}

/// A command's bytes, with 255 in the fields that are left out.
pub fn command(kind: u8, fields: &[u8]) -> Vec<u8> {
    let mut bytes = [&[kind], fields].concat();
    bytes.resize(1 + ledger::body_length(kind).unwrap_or(fields.len()), 255);
    bytes
}

impl Writer {
    pub fn new(seed: u64, sizes: &'static Sizes) -> Self {
        Writer { random: Random(seed), sizes, plan: VecDeque::new(), cancels: seed % 3 != 0 }
    }

    /// The next command. About one in eight is a damaged copy of what is planned, which then comes all the same; now and then a plan is given up. Marks, backs
    /// and cancellations come at any time.
    pub fn next(&mut self, ledger: &Ledger) -> Vec<u8> {
        if self.random.below(self.sizes.marks) == 0 {
            self.mark_or_back(ledger);
        }
        if self.cancels && self.random.below(self.sizes.cancels) == 0 {
            self.cancel(ledger);
        }
        if self.plan.is_empty() || self.random.below(200) == 0 {
            self.plan = self.new_plan(ledger).into();
        }
        if self.random.below(8) == 0 {
            return damaged(&mut self.random, &self.plan[0], ledger);
        }
        self.plan.pop_front().unwrap()
    }

    fn new_plan(&mut self, ledger: &Ledger) -> Vec<Vec<u8>> {
        let random = &mut self.random;
        let none_left = ledger.cancelled.len() == ledger.counts.len();
        let start = if ledger.counts.is_empty() { 75 } else { 10 };
        if random.below(self.sizes.commands) == 0 || none_left && random.percent(start) {
            return vec![board(random, self.sizes)];
        }
        if let Some((number, _)) = ledger.draft.as_ref().filter(|_| random.percent(50)) {
            let taken = ledger.rules.contains_key(number);
            return if taken { vec![vec![LIFT, *number], vec![PUT]] } else { vec![vec![PUT]] };
        }
        if random.percent(self.sizes.lifts) {
            return vec![vec![LIFT, in_force(random, ledger)]];
        }
        // a gap rule needs two calls
        if random.percent(if ledger.counts.len() <= ledger.cancelled.len() + 1 { 3 } else { 30 }) {
            return self.gap_rule(ledger);
        }
        self.rule(ledger)
    }

    /// A mark comes before what is planned. A back mostly comes in place of it, since it drops the draft.
    fn mark_or_back(&mut self, ledger: &Ledger) {
        let random = &mut self.random;
        if random.percent(65) {
            self.plan.push_front(vec![MARK, some_name(random)]);
            return;
        }
        if random.percent(80) {
            self.plan.clear();
        }
        self.plan.push_front(vec![BACK, kept_name(random, ledger)]);
    }

    /// A cancellation comes before what is planned, so that drafts on the call go on. Where half of the calls are cancelled it mostly does not come: a board
    /// has to have rules that strike.
    fn cancel(&mut self, ledger: &Ledger) {
        let random = &mut self.random;
        if 2 * ledger.cancelled.len() < ledger.counts.len() || random.percent(25) {
            self.plan.push_front(vec![CANCEL, some_call(random, ledger)]);
        }
    }

    /// A number for a rule, mostly a free one.
    fn number(&mut self, ledger: &Ledger) -> u8 {
        let mut numbers: Vec<u8> = (0..self.sizes.numbers as u8).collect();
        if self.random.below(8) != 0 && ledger.rules.len() < numbers.len() {
            numbers.retain(|number| !ledger.rules.contains_key(number));
        }
        *self.random.choose(&numbers)
    }

    /// A gap rule, now and then some rows more, which it may have already, and the put.
    fn gap_rule(&mut self, ledger: &Ledger) -> Vec<Vec<u8>> {
        let number = self.number(ledger);
        let random = &mut self.random;
        let bytes = some_gap_rule(random, ledger, number);
        let counts = [bytes[3], bytes[4]].map(|call| ledger.count(call).max(1) as usize);
        let more = if random.percent(40) { random.between((1, 4)) } else { 0 };
        let rows = (0..more).map(|_| command(ROW, &any_row(random, &counts)));
        [vec![bytes], rows.collect(), vec![vec![PUT]]].concat()
    }

    /// The head, the rows and the put of a rule.
    pub fn rule(&mut self, ledger: &Ledger) -> Vec<Vec<u8>> {
        let number = self.number(ledger);
        let random = &mut self.random;
        let arity = *random.choose(&[1, 2, 2, 2, 2, 3, 3, 4]);
        let among = calls_for_rule(random, ledger);
        let calls = some_calls(random, arity, &among);
        let head = command(HEAD, &[&[number, calls.len() as u8], &calls[..]].concat());
        let counts: Vec<usize> = calls.iter().map(|call| ledger.count(*call).max(1) as usize).collect();
        let rows = some_rows(random, &counts, self.sizes.rows);
        let rows = rows.iter().map(|row| command(ROW, row));
        [vec![head], rows.collect(), vec![vec![PUT]]].concat()
    }
}

pub fn board(random: &mut Random, sizes: &Sizes) -> Vec<u8> {
    let mut bytes = vec![0; 33];
    bytes[0] = BOARD;
    for place in 1..=random.between(sizes.calls) {
        bytes[place] = random.between(sizes.slots) as u8;
    }
    bytes
}

/// One of the numbers in force; any where there is none.
fn in_force(random: &mut Random, ledger: &Ledger) -> u8 {
    let numbers: Vec<u8> = ledger.rules.keys().copied().collect();
    if numbers.is_empty() {
        random.byte()
    } else {
        *random.choose(&numbers)
    }
}

/// A call to cancel: mostly one that can be, and often one of the draft or of the rules in force.
fn some_call(random: &mut Random, ledger: &Ledger) -> u8 {
    let of_draft = ledger.draft.iter().flat_map(|(_, rule)| rule.calls.iter().copied());
    let of_rules = ledger.rules.values().flat_map(|rule| rule.calls.iter().copied());
    let left = |call: &u8| !ledger.is_cancelled(*call);
    let calls: Vec<u8> = match random.below(10) {
        0..3 => of_draft.filter(left).collect(),
        3..7 => of_rules.filter(left).collect(),
        7 => ledger.cancelled.iter().copied().collect(),
        8 => vec![],
        _ => (0..ledger.counts.len() as u8).filter(left).collect(),
    };
    if calls.is_empty() {
        random.near(ledger.counts.len())
    } else {
        *random.choose(&calls)
    }
}

/// The calls that a new rule is to be on some of: mostly those that are not cancelled. On no board it is call 0.
fn calls_for_rule(random: &mut Random, ledger: &Ledger) -> Vec<u8> {
    let all = 0..ledger.counts.len().max(1) as u8;
    let left: Vec<u8> = all.clone().filter(|call| !ledger.is_cancelled(*call)).collect();
    if left.is_empty() || random.percent(8) {
        all.collect()
    } else {
        left
    }
}

/// The calls of a rule among these, fewer than the arity where there are no more: different ones, mostly neighbours in a circle, so that strikes come around.
fn some_calls(random: &mut Random, arity: usize, among: &[u8]) -> Vec<u8> {
    let n = among.len();
    let arity = arity.min(n);
    let first = random.below(n);
    if random.percent(75) {
        let step = if random.percent(60) { 1 } else { n - 1 };
        return (0..arity).map(|k| among[(first + k * step) % n]).collect();
    }
    let mut calls = among.to_vec();
    (0..arity).map(|_| calls.swap_remove(random.below(calls.len()))).collect()
}

/// The rows of a rule on calls with these slot counts: any, mostly equal slots, or one or two rows for each slot. The last sort, with some rows left out, makes
/// slots that lose their support through each other.
fn some_rows(random: &mut Random, counts: &[usize], most: usize) -> Vec<Vec<u8>> {
    let slots = *counts.iter().max().unwrap();
    let shift = random.below(3);
    let number = random.below(most + 2);
    let mut rows: Vec<Vec<u8>> = match random.below(20) {
        0 => vec![],
        1..=3 => (0..number).map(|_| any_row(random, counts)).collect(),
        4..=6 => (0..number).map(|_| equal_row(random, counts)).collect(),
        7..=13 => (0..slots).map(|slot| shifted_row(counts, slot, shift)).collect(),
        _ => (0..2 * slots).map(|place| shifted_row(counts, place / 2, shift + place % 2)).collect(),
    };
    if counts.len() == 1 || random.percent(40) {
        for _ in 0..random.between((1, 3)).min(rows.len()) {
            rows.swap_remove(random.below(rows.len()));
        }
    } else if random.percent(20) {
        rows.extend((0..3).map(|_| any_row(random, counts)));
    }
    rows
}

fn any_row(random: &mut Random, counts: &[usize]) -> Vec<u8> {
    counts.iter().map(|count| random.below(*count) as u8).collect()
}

/// In each column the slot that lies so much further on than in the one before.
fn shifted_row(counts: &[usize], slot: usize, shift: usize) -> Vec<u8> {
    (0..).zip(counts).map(|(column, count)| ((slot + column * shift) % count) as u8).collect()
}

fn equal_row(random: &mut Random, counts: &[usize]) -> Vec<u8> {
    if random.percent(25) {
        any_row(random, counts)
    } else {
        shifted_row(counts, random.below(32), 0)
    }
}

/// A gap rule on two calls of the board, with a gap below the larger of their counts. Where there is but one call to choose it is on that one twice.
pub fn gap_rule_within(random: &mut Random, ledger: &Ledger, number: u8) -> Vec<u8> {
    let among = calls_for_rule(random, ledger);
    let calls = some_calls(random, 2, &among);
    let (first, second) = (calls[0], calls[calls.len() - 1]);
    let slots = ledger.count(first).max(ledger.count(second)).max(1) as usize;
    let form = random.between((1, 3)) as u8;
    let gap = if form == 3 { 0 } else { random.below(slots) as u8 };
    vec![GAP, form, number, first, second, gap]
}

/// A gap rule, or of several the one whose rows are nearest to 64. One in four has some fields at their limits or past them.
fn some_gap_rule(random: &mut Random, ledger: &Ledger, number: u8) -> Vec<u8> {
    let tries = *random.choose(&[1, 1, 1, 4, 40]);
    let rules: Vec<Vec<u8>> = (0..tries).map(|_| gap_rule_within(random, ledger, number)).collect();
    let rows = |bytes: &[u8]| ledger.fitting_rows(bytes[1], &bytes[3..5], bytes[5]).len();
    let mut bytes = rules.into_iter().min_by_key(|bytes| rows(bytes).abs_diff(64)).unwrap();
    if random.percent(25) {
        for _ in 0..random.between((1, 3)) {
            to_limit(random, &mut bytes, ledger.counts.len() as u8);
        }
    }
    bytes
}

/// A field of a gap rule on a board of n calls becomes one at its limit, or past it.
fn to_limit(random: &mut Random, bytes: &mut [u8], n: u8) {
    match random.below(6) {
        0 => bytes[1] = *random.choose(&[0, 1, 3, 4, 255]),
        1 => bytes[2] = *random.choose(&[0, 63, 64, 255]),
        2 => bytes[5] = *random.choose(&[0, 1, 30, 31, 32, 255]),
        3 => bytes[4] = bytes[3],
        place => bytes[place - 1] = *random.choose(&[n.saturating_sub(1), n, 31, 32, 255]),
    }
}

/// A gap rule with any fields, most of them not far past their limits.
pub fn any_gap_rule(random: &mut Random) -> Vec<u8> {
    let fields = [4, 64, 32, 32, 32].map(|limit| random.near(limit));
    command(GAP, &fields)
}

/// A mark's name, mostly a right one.
pub fn some_name(random: &mut Random) -> u8 {
    if random.percent(90) {
        random.below(2) as u8
    } else {
        *random.choose(&[2, 3, 64, 128, 254, 255])
    }
}

/// Mostly a name that keeps a board, and of two the one with more rules, so that boards become full.
fn kept_name(random: &mut Random, ledger: &Ledger) -> u8 {
    let kept = (0..2).filter_map(|name| Some((ledger.kept_under(name)?.rules.len(), name)));
    match kept.max() {
        Some((_, name)) if random.percent(60) => name,
        _ => some_name(random),
    }
}

/// A command of any kind with any fields, many of them near what a board takes.
pub fn any_command(random: &mut Random) -> Vec<u8> {
    let kind = random.below(LAST_KIND as usize + 2) as u8;
    let limit = *random.choose(&[5, 8, 66, 256]);
    let columns = random.between((1, 4));
    let length = ledger::body_length(kind).unwrap_or(3);
    let mut bytes = vec![kind];
    bytes.extend((0..length).map(|_| if random.percent(15) { 255 } else { random.below(limit) as u8 }));
    match kind {
        HEAD if random.percent(70) => {
            bytes[2] = columns as u8;
            bytes[3 + columns..].fill(255);
        }
        ROW if random.percent(70) => bytes[1 + columns..].fill(255),
        GAP if random.percent(70) => bytes[1] = random.between((1, 3)) as u8,
        MARK | BACK if random.percent(70) => bytes[1] = some_name(random),
        CANCEL if random.percent(70) => bytes[1] = random.near(32),
        _ => (),
    }
    bytes
}

/// The command with one thing wrong, or another in its place; it may turn out to be a good one.
fn damaged(random: &mut Random, planned: &[u8], ledger: &Ledger) -> Vec<u8> {
    let mut bytes = planned.to_vec();
    let last = bytes.len() - 1;
    let place = random.below(last + 1);
    match random.below(8) {
        0 => bytes.truncate(place),
        1 => bytes.push(random.byte()),
        2 => bytes[place] = random.byte(),
        3 | 4 => bytes[place.max(last.min(1))] = random.below(6) as u8,
        5 => bytes = vec![LIFT, 60 + random.below(8) as u8],
        6 => {
            let rows = ledger.draft.iter().flat_map(|(_, rule)| &rule.rows);
            bytes = rows.last().map_or(vec![], |row| command(ROW, row));
        }
        _ => bytes = any_command(random),
    }
    bytes
}
