//! Boards made around a plan: every rule has the plan's row at some place among its rows, so that the plan is kept however many rules there are. In random lists
//! few boards with many rules have a full plan.

use crate::berth::{Board, PlanCheck};
use crate::filter::open_slots;
use crate::first::{search_board, End};
use crate::ledger::{Ledger, CANCEL, LENGTHS, ROW};
use crate::plans::{broken_rules, filled, Plan};
use crate::random::Random;
use crate::writer::{self, Writer, SIZES};

const BOARDS: u64 = 400;

/// The trials that a search makes before it is given up.
const MOST: u32 = 3000;

/// The board, and the ledger of the same commands.
pub struct Both {
    pub board: Board,
    pub ledger: Ledger,
}

/// What was seen of plans; each of it has to be.
#[derive(Debug, Default)]
struct Seen {
    kept: usize,
    kept_of_64_rules: usize,
    kept_with_cancelled: usize,
    broken: usize,
    last_rule_broken: usize,
    first: usize,
    first_of_64_rules: usize,
    first_with_cancelled: usize,
    given_up: usize,
}

impl Both {
    pub fn new() -> Self {
        Both { board: Board::new(), ledger: Ledger::default() }
    }

    /// Refused commands are left out.
    pub fn send(&mut self, bytes: &[u8]) {
        if self.ledger.refusal(LENGTHS, bytes) == 0 {
            self.ledger.obey(bytes);
            self.board.command(bytes).unwrap();
        }
    }

    /// A rule whose rows are any 63 or fewer, and the plan's among them.
    fn put_rule(&mut self, writer: &mut Writer, plan: Plan) {
        let commands = writer.rule(&self.ledger);
        let (head, rows, put) = (&commands[0], &commands[1..commands.len() - 1], &commands[commands.len() - 1]);
        let (arity, mut rows) = (head[2] as usize, rows[..rows.len().min(63)].to_vec());
        let row: Vec<u8> = head[3..][..arity].iter().map(|call| plan[*call as usize]).collect();
        let place = *writer.random.choose(&[0, rows.len() / 2, rows.len()]);
        rows.insert(place, writer::command(ROW, &row));
        [vec![head.clone()], rows, vec![put.clone()]].concat().iter().for_each(|bytes| self.send(bytes));
    }

    /// The plan is kept. With another slot for a call it is kept or breaks what the ledger says.
    fn check(&self, random: &mut Random, plan: Plan, seen: &mut Seen) {
        assert_eq!(
            self.board.check_plan(&plan),
            Ok(PlanCheck::Kept),
            "the plan {plan:?} that the board is made around"
        );
        seen.kept += 1;
        seen.kept_of_64_rules += (self.ledger.rules.len() == 64) as usize;
        seen.kept_with_cancelled += !self.ledger.cancelled.is_empty() as usize;
        for call in (0..32).filter(|call| self.ledger.takes_part(*call)) {
            let mut other = plan;
            other[call as usize] = random.below(self.ledger.count(call) as usize) as u8;
            let broken = broken_rules(&self.ledger, &other).first().copied();
            let due = broken.map_or(PlanCheck::Kept, |rule| PlanCheck::Broken { rule });
            assert_eq!(self.board.check_plan(&other), Ok(due), "the plan {other:?}");
            seen.broken += broken.is_some() as usize;
            seen.last_rule_broken += (broken == Some(63)) as usize;
        }
        self.check_first(&mut Random(!random.0), plan, seen);
    }

    /// The first full plan is the one that the board is made around, or comes before it.
    fn check_first(&self, random: &mut Random, plan: Plan, seen: &mut Seen) {
        let search = search_board(&self.ledger, &open_slots(&self.ledger), MOST);
        let ceilings = search.ceilings(random);
        search.check(self.board.memory(), &ceilings);
        let found = search.plan();
        assert!(search.end != End::Nothing, "there is the full plan {plan:?}");
        assert!(found.is_none_or(|found| found <= plan), "the plan {plan:?} comes before the first plan {found:?}");
        seen.first += found.is_some() as usize;
        seen.first_of_64_rules += (found.is_some() && self.ledger.rules.len() == 64) as usize;
        seen.first_with_cancelled += (found.is_some() && !self.ledger.cancelled.is_empty()) as usize;
        seen.given_up += found.is_none() as usize;
    }
}

/// A board is asked about its plan, and for the first one, when it has all its rules, and again when calls are cancelled.
fn check_board(seed: u64, seen: &mut Seen) {
    let sizes = &SIZES[seed as usize % SIZES.len()];
    let mut writer = Writer::new(seed, sizes);
    let mut both = Both::new();
    both.send(&writer::board(&mut writer.random, sizes));
    let mut plan = filled(&mut writer.random, &both.ledger, [255; 32]);
    for _ in 0..writer.random.between((1, 2 * sizes.numbers)) {
        both.put_rule(&mut writer, plan);
    }
    both.check(&mut writer.random, plan, seen);
    let calls = both.ledger.counts.len();
    for _ in 0..=writer.random.below(calls) {
        let call = writer.random.below(calls);
        both.send(&[CANCEL, call as u8]);
        plan[call] = 255;
    }
    both.check(&mut writer.random, plan, seen);
}

pub fn run() {
    let mut seen = Seen::default();
    for seed in 0..BOARDS {
        crate::place::list("boards around a plan", seed);
        check_board(seed, &mut seen);
    }
    let Seen { kept, kept_of_64_rules, kept_with_cancelled, broken, last_rule_broken, .. } = seen;
    let Seen { first, first_of_64_rules, first_with_cancelled, given_up, .. } = seen;
    let all = [kept, kept_of_64_rules, kept_with_cancelled, broken, last_rule_broken];
    let all_of_first = [first, first_of_64_rules, first_with_cancelled, given_up];
    assert!(!all.contains(&0) && !all_of_first.contains(&0), "boards around a plan: {seen:?}");
    print!("boards around a plan: {kept} plans kept, {kept_of_64_rules} with 64 rules, {kept_with_cancelled} with ");
    println!("cancelled calls; {broken} broken, {last_rule_broken} by rule 63 alone");
    print!("first plans on such boards: {first}, {first_of_64_rules} with 64 rules, {first_with_cancelled} with ");
    println!("cancelled calls; {given_up} searches given up");
}
