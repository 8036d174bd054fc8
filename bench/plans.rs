//! The other side of the check of plans: a board in the form in which plans are checked fastest. A rule is a table with a bit for each combination of slots, set
//! where they are a row: a plan keeps the rule where the bit of its slots is set. Columns of cancelled calls are left out when the table is made. A rule of two
//! calls takes 128 bytes so, one of three 4 KB, and one of four 128 KB.
#![crate_type = "rlib"]

const CALLS: usize = 32;
const SLOTS: usize = 32;
const RULES: u8 = 64;

/// A rule of N columns that count. The first slot is the bit in a word, and the others are the word's place.
struct Rule<const N: usize, const WORDS: usize> {
    number: u8,
    calls: [u8; N],
    words: Box<[u32; WORDS]>,
}

/// The place of a word, by the slots of all columns but the first.
fn place(slots: impl Iterator<Item = u8>) -> usize {
    slots.fold(0, |place, slot| SLOTS * place + slot as usize % SLOTS)
}

impl<const N: usize, const WORDS: usize> Rule<N, WORDS> {
    fn new(number: u8, calls: &[u8], rows: &[Vec<u8>]) -> Self {
        let mut words = Box::new([0; WORDS]);
        for row in rows {
            words[place(row[1..].iter().copied())] |= 1 << row[0];
        }
        Rule { number, calls: calls.try_into().unwrap(), words }
    }

    fn keeps(&self, plan: &[u8; CALLS]) -> bool {
        let slot = |call: u8| plan[call as usize % CALLS];
        let word = self.words[place(self.calls[1..].iter().map(|call| slot(*call)))];
        word >> (slot(self.calls[0]) as usize % SLOTS) & 1 == 1
    }
}

/// The number of the first rule that the plan breaks, or 64.
fn first_broken<const N: usize, const WORDS: usize>(rules: &[Rule<N, WORDS>], plan: &[u8; CALLS]) -> u8 {
    for rule in rules {
        if !rule.keeps(plan) {
            return rule.number;
        }
    }
    RULES
}

pub struct Board {
    has_calls: bool,
    /// the lowest byte of a plan that is right for each call, and how many are: its slots, or 255 alone
    lowest: [u8; CALLS],
    right: [u8; CALLS],
    /// the rules in force by the columns that count, the lowest number first
    one: Vec<Rule<1, 1>>,
    two: Vec<Rule<2, SLOTS>>,
    three: Vec<Rule<3, { SLOTS * SLOTS }>>,
    four: Vec<Rule<4, { SLOTS * SLOTS * SLOTS }>>,
}

impl Board {
    pub fn new(counts: &[u8], cancelled: &[u8]) -> Self {
        let (mut lowest, mut right) = ([255; CALLS], [1; CALLS]);
        for call in (0..counts.len()).filter(|call| !cancelled.contains(&(*call as u8))) {
            lowest[call] = 0;
            right[call] = counts[call];
        }
        Board { has_calls: !counts.is_empty(), lowest, right, one: vec![], two: vec![], three: vec![], four: vec![] }
    }

    /// Takes in a rule of a higher number than all before it.
    pub fn put(&mut self, number: u8, calls: &[u8], rows: &[[u8; 4]]) {
        let columns: Vec<usize> = (0..calls.len()).filter(|k| self.lowest[calls[*k] as usize] == 0).collect();
        let of_columns = |bytes: &[u8]| columns.iter().map(|k| bytes[*k]).collect();
        let calls: Vec<u8> = of_columns(calls);
        let rows: Vec<Vec<u8>> = rows.iter().map(|row| of_columns(row)).collect();
        match columns.len() {
            0 => (),
            1 => self.one.push(Rule::new(number, &calls, &rows)),
            2 => self.two.push(Rule::new(number, &calls, &rows)),
            3 => self.three.push(Rule::new(number, &calls, &rows)),
            _ => self.four.push(Rule::new(number, &calls, &rows)),
        }
    }

    /// The lowest number of a rule that the plan breaks, none where it keeps all of them, or the number of a refusal.
    #[inline(never)]
    pub fn check(&self, plan: &[u8]) -> Result<Option<u8>, u8> {
        let plan: &[u8; CALLS] = plan.try_into().or(Err(32))?;
        if !self.has_calls {
            return Err(6);
        }
        let mut wrong = false;
        for call in 0..CALLS {
            wrong |= plan[call].wrapping_sub(self.lowest[call]) >= self.right[call];
        }
        if wrong {
            return Err(33);
        }
        let up_to_two = first_broken(&self.one, plan).min(first_broken(&self.two, plan));
        let more = first_broken(&self.three, plan).min(first_broken(&self.four, plan));
        let broken = up_to_two.min(more);
        Ok((broken < RULES).then_some(broken))
    }
}
