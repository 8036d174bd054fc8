//! The seven questions, five of them asked with numbers near what there is and with any: refused as the ledger says, and answered as the open slots and the
//! recorded bytes say. plans.rs asks the sixth and first.rs the seventh. None changes anything.

use crate::berth::{Answer, Row, Slot};
use crate::filter::{has, is_alive};
use crate::first;
use crate::host::{number_of, Fenced, Host};
use crate::ledger::Ledger;
use crate::plans;
use crate::random::Random;
use crate::session::Session;

/// The numbers that the questions are asked with.
#[derive(Debug)]
struct Numbers {
    call: u8,
    slot: u8,
    rule: u8,
    row: u8,
    column: u8,
}

fn some_numbers(random: &mut Random, ledger: &Ledger) -> Numbers {
    let in_force: Vec<u8> = ledger.rules.keys().copied().collect();
    let rule = if in_force.is_empty() || random.percent(20) { random.near(64) } else { *random.choose(&in_force) };
    let rows = ledger.rules.get(&rule).map_or(1, |rule| rule.rows.len());
    let call = random.near(ledger.counts.len());
    let slots = if random.percent(50) { 32 } else { ledger.count(call) as usize };
    Numbers { call, slot: random.near(slots), rule, row: random.near(rows), column: random.near(4) }
}

/// All seven; now and then a buffer of another length is lent. The plans are made of random numbers of their own, and so are the ceilings.
pub fn ask(random: &mut Random, plan_random: &mut Random, session: &mut Session) {
    let numbers = &some_numbers(random, &session.ledger);
    let right = random.percent(2).then(|| session.host.clone());
    if right.is_some() {
        lend_other_length(random, &mut session.host);
    }
    let before = session.host.clone();
    session.ask_open_slots(numbers);
    session.ask_slot_state(numbers);
    session.ask_row_state(numbers);
    session.ask_row_bytes(numbers);
    session.ask_support(numbers);
    plans::ask(plan_random, session);
    first::ask(&mut Random(!plan_random.0), session);
    assert!(session.host == before, "a question changes something");
    session.host = right.unwrap_or(before);
}

/// One of the buffers gets another length.
pub fn lend_other_length(random: &mut Random, host: &mut Host) {
    let buffer = random.below(host.buffers.len());
    to_other_length(random, &mut host.buffers[buffer]);
}

pub fn to_other_length(random: &mut Random, buffer: &mut Fenced<u8>) {
    let mut contents = buffer.inside().to_vec();
    let length = *random.choose(&[0, 1, contents.len() / 2, contents.len() - 1, contents.len() + 1]);
    contents.resize(length, random.byte());
    *buffer = Fenced::new(&contents);
}

impl Session<'_> {
    /// The refusal of a question that the ledger refuses so, where the buffers are of their lengths.
    pub fn due(&self, refusal: u8) -> u8 {
        match self.host.lengths().question_refusal() {
            0 => refusal,
            other => other,
        }
    }

    /// What is answered, where this refusal of the ledger's is none.
    fn answered<T>(&mut self, n: &Numbers, refusal: u8, answer: Answer<T>) -> Option<T> {
        let due = self.due(refusal);
        assert_eq!(number_of(&answer), due, "a question's refusal: {n:?}");
        self.tally.questions += 1;
        self.tally.refusals[due as usize] += 1;
        answer.ok()
    }

    fn ask_open_slots(&mut self, n: &Numbers) {
        let answer = self.host.memory().open_slots(n.call);
        let Some(given) = self.answered(n, self.ledger.call_refusal(n.call), answer) else { return };
        let mask = self.open[n.call as usize];
        assert_eq!((given.mask, given.ones), (mask, mask.count_ones()), "the mask: {n:?}");
    }

    fn ask_slot_state(&mut self, n: &Numbers) {
        let answer = self.host.memory().slot_state(n.call, n.slot);
        let Some(given) = self.answered(n, self.ledger.slot_refusal(n.call, n.slot), answer) else { return };
        let cause = self.host.memory().slots[32 * n.call as usize + n.slot as usize];
        let due = match self.ledger.is_cancelled(n.call) {
            true => Slot::Cancelled,
            false if has(&self.open, (n.call, n.slot)) => Slot::Open,
            false => Slot::Struck { cause },
        };
        assert_eq!(given, due, "a slot's state: {n:?}");
        self.tally.cancelled.count("states of a cancelled slot", due == Slot::Cancelled);
    }

    fn ask_row_state(&mut self, n: &Numbers) {
        let answer = self.host.memory().row_state(n.rule, n.row);
        let Some(given) = self.answered(n, self.ledger.row_state_refusal(n.rule, n.row), answer) else { return };
        let rule = &self.ledger.rules[&n.rule];
        let killer = self.host.memory().killers[64 * n.rule as usize + n.row as usize];
        let alive = is_alive(&self.ledger, rule, rule.rows[n.row as usize], &self.open);
        let due = if alive { Row::Alive } else { Row::Dead { killer } };
        assert_eq!(given, due, "a row's state: {n:?}");
        let on_cancelled = rule.calls.iter().any(|call| self.ledger.is_cancelled(*call));
        self.tally.cancelled.count("living rows with a cancelled column", on_cancelled && alive);
        self.tally.cancelled.count("dead rows with a cancelled column", on_cancelled && !alive);
    }

    /// The row's bytes are a part of the lent rows; where the row's state is refused they are the empty part.
    fn ask_row_bytes(&mut self, n: &Numbers) {
        self.tally.questions += 1;
        let memory = self.host.memory();
        let bytes = memory.row_bytes(n.rule, n.row);
        if self.due(self.ledger.row_state_refusal(n.rule, n.row)) != 0 {
            assert!(bytes.is_empty(), "bytes of no row: {n:?}");
            return;
        }
        let place = &memory.rows[256 * n.rule as usize + 4 * n.row as usize..][..4];
        assert_eq!(bytes.as_ptr_range(), place.as_ptr_range(), "where a row's bytes are: {n:?}");
        assert_eq!(bytes, self.ledger.rules[&n.rule].rows[n.row as usize], "a row's bytes: {n:?}");
    }

    /// In the column of a cancelled call there is none, whatever lives.
    fn ask_support(&mut self, n: &Numbers) {
        let answer = self.host.memory().support(n.rule, n.column, n.slot);
        let refusal = self.ledger.support_refusal(n.rule, n.column, n.slot);
        let Some(given) = self.answered(n, refusal, answer) else { return };
        let rule = &self.ledger.rules[&n.rule];
        let lives = |row: [u8; 4]| is_alive(&self.ledger, rule, row, &self.open);
        let supports = |row: &[u8; 4]| row[n.column as usize] == n.slot && lives(*row);
        let lowest = rule.rows.iter().position(supports).map(|row| row as u8);
        let cancelled = self.ledger.is_cancelled(rule.calls[n.column as usize]);
        assert_eq!(given, lowest.filter(|_| !cancelled), "the support: {n:?}");
        let withheld = cancelled && lowest.is_some();
        self.tally.cancelled.count("living rows that support nothing in a cancelled column", withheld);
    }
}
