//! The other side of the search for the first full plan: a board that keeps its open slots and rules, and makes tables of them for a search. A rule is looked at
//! when the last of its calls is laid. Its table has a word for each combination of slots of its other calls: the slots of the last one that make a row with
//! them. Columns of cancelled calls are left out. A rule of two calls takes 128 bytes so, one of three 4 KB, and one of four 128 KB.
#![crate_type = "rlib"]

use std::ops::Range;

const CALLS: usize = 32;
const SLOTS: usize = 32;

/// How a search ended.
pub const NOTHING: u8 = 0;
pub const FOUND: u8 = 1;
pub const STOPPED: u8 = 2;

/// The ending, the trials, and the plan: 255 for calls without a slot, and throughout where none is found.
pub type Answer = (u8, u32, [u8; CALLS]);

/// The slots that are laid, and behind them that of `NOWHERE`, the call in place of one that a rule does not have.
type Laid = [u8; 2 * CALLS];

const NOWHERE: u8 = CALLS as u8;

/// The slots of the other calls, and that of the last one.
struct Row {
    others: [u8; 3],
    last: u8,
}

struct Rule {
    others: [u8; 3],
    last: u8,
    /// words in its table
    size: usize,
    rows: Vec<Row>,
}

pub struct Board {
    count: usize,
    open: [u32; CALLS],
    /// those that are not cancelled
    calls: Vec<u8>,
    /// by their last calls
    rules: Vec<Rule>,
}

/// The table of a rule with one other call at most.
struct Pair {
    other: u8,
    words: [u32; SLOTS],
}

/// The table of a rule with more: where its words start.
struct More {
    others: [u8; 3],
    start: usize,
}

/// A call to lay, its open slots, how many there are, and where the rules stand whose last call it is.
struct Call {
    number: u8,
    open: u32,
    ones: u32,
    pairs: Range<usize>,
    more: Range<usize>,
}

pub struct Tables {
    calls: Vec<Call>,
    pairs: Vec<Pair>,
    more: Vec<More>,
    words: Vec<u32>,
}

/// The place of a word, by the slots of the other calls.
fn place(slots: [u8; 3]) -> usize {
    slots.iter().rev().fold(0, |place, slot| SLOTS * place + *slot as usize)
}

fn none_laid() -> Laid {
    std::array::from_fn(|call| if call < CALLS { 255 } else { 0 })
}

fn plan(laid: &Laid) -> [u8; CALLS] {
    std::array::from_fn(|call| laid[call])
}

impl Board {
    pub fn new(count: usize, cancelled: &[u8], open: [u32; CALLS]) -> Self {
        let calls = (0..count as u8).filter(|call| !cancelled.contains(call)).collect();
        Board { count, open, calls, rules: vec![] }
    }

    pub fn put(&mut self, calls: &[u8], rows: &[[u8; 4]]) {
        let mut columns: Vec<usize> = (0..calls.len()).filter(|k| self.calls.contains(&calls[*k])).collect();
        columns.sort_by_key(|k| calls[*k]);
        let Some(last) = columns.pop() else { return };
        let of_others = |bytes: &[u8], spare: u8| std::array::from_fn(|k| columns.get(k).map_or(spare, |c| bytes[*c]));
        let rows = rows.iter().map(|row| Row { others: of_others(row, 0), last: row[last] }).collect();
        let size = SLOTS.pow(columns.len() as u32);
        self.rules.push(Rule { others: of_others(calls, NOWHERE), last: calls[last], size, rows });
        self.rules.sort_by_key(|rule| rule.last);
    }

    /// What a search looks up, or the number of a refusal.
    #[inline(never)]
    pub fn tables(&self) -> Result<Tables, u8> {
        if self.count == 0 {
            return Err(6);
        }
        let pairs = Vec::with_capacity(self.rules.len());
        let mut tables = Tables { calls: Vec::with_capacity(CALLS), pairs, more: vec![], words: vec![] };
        let mut rules = self.rules.iter().peekable();
        for number in &self.calls {
            let (pairs, more) = (tables.pairs.len(), tables.more.len());
            while let Some(rule) = rules.next_if(|rule| rule.last == *number) {
                tables.add(rule);
            }
            let (pairs, more) = (pairs..tables.pairs.len(), more..tables.more.len());
            let open = self.open[*number as usize];
            tables.calls.push(Call { number: *number, open, ones: open.count_ones(), pairs, more });
        }
        Ok(tables)
    }
}

impl Tables {
    fn add(&mut self, rule: &Rule) {
        if rule.size <= SLOTS {
            let mut words = [0; SLOTS];
            rule.rows.iter().for_each(|row| words[row.others[0] as usize % SLOTS] |= 1 << row.last);
            self.pairs.push(Pair { other: rule.others[0], words });
            return;
        }
        let start = self.words.len();
        self.words.resize(start + rule.size, 0);
        rule.rows.iter().for_each(|row| self.words[start + place(row.others)] |= 1 << row.last);
        self.more.push(More { others: rule.others, start });
    }

    /// Of each rule that is due with this call, the slots of the call that make a row with those laid.
    fn due<'a>(&'a self, call: &Call, laid: &'a Laid) -> impl Iterator<Item = u32> + 'a {
        let slot = |call: u8| laid[call as usize % laid.len()];
        let by_pair = move |rule: &Pair| rule.words[slot(rule.other) as usize % SLOTS];
        let by_more = move |rule: &More| self.words[rule.start + place(rule.others.map(slot))];
        self.pairs[call.pairs.clone()].iter().map(by_pair).chain(self.more[call.more.clone()].iter().map(by_more))
    }

    /// Lays slot by slot, and looks at the rules until one has no row that fits.
    #[inline(never)]
    pub fn slot_by_slot(&self, ceiling: u32) -> Answer {
        let (mut laid, mut left) = (none_laid(), [0; CALLS]);
        let (mut trials, mut k, mut entered) = (0, 0, true);
        while let Some(call) = self.calls.get(k) {
            if entered {
                left[k] = call.open;
            }
            entered = false;
            if left[k] == 0 {
                if k == 0 {
                    return (NOTHING, trials, plan(&none_laid()));
                }
                k -= 1;
                continue;
            }
            if trials == ceiling {
                return (STOPPED, ceiling, plan(&none_laid()));
            }
            trials += 1;
            let slot = left[k].trailing_zeros();
            left[k] &= left[k] - 1;
            if self.due(call, &laid).all(|slots| slots >> slot & 1 == 1) {
                laid[call.number as usize] = slot as u8;
                k += 1;
                entered = true;
            }
        }
        (FOUND, trials, plan(&laid))
    }

    /// Takes the slots of a call that stay all at once. The others are only counted: all open slots of a call where none is left, and in the end those up to the
    /// slot that is laid.
    #[inline(never)]
    pub fn at_once(&self, ceiling: u32) -> Answer {
        let (mut laid, mut left) = (none_laid(), [0; CALLS]);
        let (mut trials, mut k, mut entered) = (0, 0, true);
        while let Some(call) = self.calls.get(k) {
            if entered {
                left[k] = self.due(call, &laid).fold(call.open, |staying, slots| staying & slots);
            }
            entered = left[k] != 0;
            if entered {
                laid[call.number as usize] = left[k].trailing_zeros() as u8;
                left[k] &= left[k] - 1;
                k += 1;
                continue;
            }
            trials += call.ones as u64;
            if trials > ceiling as u64 {
                return (STOPPED, ceiling, plan(&none_laid()));
            }
            if k == 0 {
                return (NOTHING, trials as u32, plan(&none_laid()));
            }
            k -= 1;
        }
        let up_to_laid = |call: &Call| call.open << (31 - laid[call.number as usize]);
        trials += self.calls.iter().map(|call| up_to_laid(call).count_ones() as u64).sum::<u64>();
        if trials > ceiling as u64 {
            return (STOPPED, ceiling, plan(&none_laid()));
        }
        (FOUND, trials as u32, plan(&laid))
    }
}
