//! The other side of the benchmark: a board that filters afresh after each change. All slots are open at first and every rule in force is on the work list. A rule
//! is revised by its rows; a call that loses a slot puts the other rules on it back on the list. Rows are held column by column as masks of one slot, so that the
//! compiler can treat several at once.
#![crate_type = "rlib"]

const CALLS: usize = 32;
const RULES: usize = 64;

#[derive(Clone, Default)]
pub struct Rule {
    calls: Vec<usize>,
    /// a mask for each row, column by column
    columns: Vec<Vec<u32>>,
}

/// The slots of each column that stand in a row of open slots, of a rule with N columns.
fn supported<const N: usize>(rule: &Rule, open: &[u32; CALLS]) -> [u32; 4] {
    let rows = rule.columns[0].len();
    let columns: [&[u32]; N] = std::array::from_fn(|k| &rule.columns[k][..rows]);
    let open: [u32; N] = std::array::from_fn(|k| open[rule.calls[k]]);
    let mut found = [0; N];
    for w in 0..rows {
        let mut alive = true;
        for k in 0..N {
            alive &= columns[k][w] & open[k] != 0;
        }
        let keep = (alive as u32).wrapping_neg();
        for k in 0..N {
            found[k] |= columns[k][w] & keep;
        }
    }
    let mut supported = [0; 4];
    supported[..N].copy_from_slice(&found);
    supported
}

impl Rule {
    pub fn new(calls: &[u8], rows: &[[u8; 4]]) -> Self {
        let column = |k: usize| rows.iter().map(|row| 1 << row[k]).collect();
        Rule {
            calls: calls.iter().map(|call| *call as usize).collect(),
            columns: (0..calls.len()).map(column).collect(),
        }
    }

    fn supported(&self, open: &[u32; CALLS]) -> [u32; 4] {
        match self.calls.len() {
            1 => supported::<1>(self, open),
            2 => supported::<2>(self, open),
            3 => supported::<3>(self, open),
            _ => supported::<4>(self, open),
        }
    }
}

pub struct Board {
    full: [u32; CALLS],
    open: [u32; CALLS],
    rules: Vec<Rule>,
    in_force: u64,
    on_call: [u64; CALLS],
}

impl Board {
    pub fn new(counts: &[u8]) -> Self {
        let mut full = [0; CALLS];
        for (mask, count) in full.iter_mut().zip(counts) {
            *mask = !0 >> (32 - count);
        }
        Board { full, open: full, rules: vec![Rule::default(); RULES], in_force: 0, on_call: [0; CALLS] }
    }

    pub fn open(&self) -> &[u32; CALLS] {
        &self.open
    }

    #[inline(never)]
    pub fn put(&mut self, number: usize, rule: Rule) {
        for call in &rule.calls {
            self.on_call[*call] |= 1 << number;
        }
        self.rules[number] = rule;
        self.in_force |= 1 << number;
        self.filter();
    }

    #[inline(never)]
    pub fn lift(&mut self, number: usize) {
        for call in &self.rules[number].calls {
            self.on_call[*call] &= !(1 << number);
        }
        self.in_force &= !(1 << number);
        self.filter();
    }

    fn filter(&mut self) {
        self.open = self.full;
        let mut pending = self.in_force;
        while pending != 0 {
            let number = pending.trailing_zeros() as usize;
            pending &= !(1 << number);
            let rule = &self.rules[number];
            let supported = rule.supported(&self.open);
            for (call, slots) in rule.calls.iter().zip(supported) {
                if self.open[*call] & !slots != 0 {
                    self.open[*call] &= slots;
                    pending |= self.on_call[*call] & !(1 << number);
                }
            }
        }
    }
}
