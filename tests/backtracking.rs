//! Boards on which the search for the first full plan has to go back: calls that all need different slots, with and without enough of them, chains of rules over
//! 32 calls of 32 slots, and the longest way down to a plan. Their trials are counted by hand, too.

use crate::around::Both;
use crate::berth::PlanCheck;
use crate::filter::open_slots;
use crate::first::{search_board, End, FirstSearch};
use crate::host::{first_plan, FirstReply};
use crate::ledger::{BOARD, CANCEL, GAP, HEAD, PUT, ROW};
use crate::plans::{broken_rules, Plan};
use crate::random::Random;
use crate::writer::command;

const BOARDS: u64 = 400;

/// No search here lays as many slots.
const MOST: u32 = 200_000;

/// What was seen on random boards; each of it has to be.
#[derive(Debug, Default)]
struct Seen {
    first: usize,
    after_back: usize,
    /// over three calls or more at once
    after_long_back: usize,
    with_cancelled: usize,
    nothing: usize,
}

fn start(counts: &[u8]) -> Both {
    let mut both = Both::new();
    let mut bytes = [&[BOARD], counts].concat();
    bytes.resize(33, 0);
    both.send(&bytes);
    both
}

impl Both {
    fn put(&mut self, number: u8, calls: &[u8], rows: impl IntoIterator<Item = Vec<u8>>) {
        self.send(&command(HEAD, &[&[number, calls.len() as u8], calls].concat()));
        rows.into_iter().for_each(|row| self.send(&command(ROW, &row)));
        self.send(&[PUT]);
        assert!(self.ledger.rules.contains_key(&number), "rule {number} is not in force");
    }

    /// Each two of these calls need different slots.
    fn put_apart(&mut self, calls: &[u8]) {
        for (k, second) in calls.iter().enumerate() {
            for first in &calls[..k] {
                self.send(&[GAP, 2, self.ledger.rules.len() as u8, *first, *second, 1]);
                self.send(&[PUT]);
            }
        }
        assert_eq!(self.ledger.rules.len(), calls.len() * (calls.len() - 1) / 2);
    }

    fn all_slots_are_open(&self) -> bool {
        self.board.summaries().iter().all(|record| record.struck == 0)
    }

    /// The library replies as the search says, and keeps the plan that is found.
    fn check_search(&self, random: &mut Random) -> FirstSearch {
        let search = search_board(&self.ledger, &open_slots(&self.ledger), MOST);
        assert!(search.end != End::GivenUp, "a search of over {MOST} trials");
        let ceilings = search.ceilings(random);
        search.check(self.board.memory(), &ceilings);
        if let Some(plan) = search.plan() {
            assert!(broken_rules(&self.ledger, &plan).is_empty(), "the first plan {plan:?}");
            assert_eq!(self.board.check_plan(&plan), Ok(PlanCheck::Kept), "the first plan {plan:?}");
        }
        search
    }

    /// It comes to this after so many trials.
    fn check_end(&self, end: End, trials: u32, what: &str) {
        let search = self.check_search(&mut Random(trials as u64));
        assert_eq!((search.end, search.trials), (end, trials), "{what}");
    }
}

/// A plan with these slots for the first calls.
fn found(first: impl IntoIterator<Item = u8>) -> End {
    let mut plan: Plan = [255; 32];
    plan.iter_mut().zip(first).for_each(|(byte, slot)| *byte = slot);
    End::Found(plan)
}

fn calls_apart(calls: u8, slots: u8) -> Both {
    let mut both = start(&vec![slots; calls as usize]);
    both.put_apart(&(0..calls).collect::<Vec<u8>>());
    both
}

/// The trials that find that one call more than there are slots cannot all have different ones: every slot is laid after each choice of different slots, from that
/// of none to that of all.
fn trials_for_nothing(slots: u32) -> u32 {
    let choices = (0..=slots).map(|laid| (0..laid).map(|k| slots - k).product::<u32>());
    slots * choices.sum::<u32>()
}

/// Of calls that are all apart each tries the slots of those before it in vain. With one more than there are slots all slots are open and there is no plan, until
/// one is cancelled.
fn check_calls_apart() {
    for slots in 2..=6 {
        for calls in 1..=slots {
            let trials = (1..=calls as u32).sum();
            calls_apart(calls, slots).check_end(found(0..calls), trials, "calls that are apart");
        }
        let mut both = calls_apart(slots + 1, slots);
        assert!(both.all_slots_are_open(), "a slot of {} calls is struck", slots + 1);
        both.check_end(End::Nothing, trials_for_nothing(slots as u32), "a call more than there are slots");
        both.send(&[CANCEL, 1]);
        let plan = [vec![0, 255], (1..slots).collect()].concat();
        both.check_end(found(plan), (1..=slots as u32).sum(), "one of them is cancelled");
    }
}

/// Nine calls of eight slots are left to the library: the trials are those of the formula.
fn check_nine_calls_apart() {
    let (memory, trials) = (&calls_apart(9, 8).board, trials_for_nothing(8));
    let ask = |ceiling: u32| first_plan(memory.memory(), ceiling);
    assert_eq!(ask(trials - 1), FirstReply { trials: trials - 1, ..FirstReply::STOPPED }, "one trial short");
    assert_eq!(ask(trials), FirstReply { trials, ..FirstReply::NOTHING }, "nine calls of eight slots");
}

/// Each call takes the slot after that of the call before, in a circle.
fn chain() -> Both {
    let mut both = start(&[32; 32]);
    for call in 0..31 {
        both.put(call, &[call, call + 1], (0..32).map(|slot| vec![slot, (slot + 1) % 32]));
    }
    both
}

/// Without rules each call has slot 0. In the chain call c has slot c after c others in vain. Where the last call is to be 30 slots ahead of the first there is no
/// plan, and each slot of the first call is in vain after all slots of the 31 others. With one row more there is one for the last slot of the first call.
fn check_chains() {
    start(&[32; 32]).check_end(found([0; 32]), 32, "without rules");
    chain().check_end(found(0..32), (1..=32).sum(), "the chain");
    let in_vain = 1 + 31 * 32;
    let ahead = || (0..32).map(|slot| vec![slot, (slot + 30) % 32]);
    let mut both = chain();
    both.put(63, &[0, 31], ahead());
    assert!(both.all_slots_are_open(), "a slot of the chain is struck");
    both.check_end(End::Nothing, 32 * in_vain, "the chain that does not close");
    let mut both = chain();
    both.put(63, &[0, 31], ahead().chain([vec![31, 30]]));
    let last = [vec![31], (0..31).collect()].concat();
    both.check_end(found(last), 31 * in_vain + 1 + (1..=31).sum::<u32>(), "the chain that closes in the end");
}

/// S7 with 29 calls of one slot between the first and the last two: the search goes back over all of them at once.
fn check_long_way_back() {
    let mut both = start(&[vec![2], vec![1; 29], vec![2, 3]].concat());
    let apart = [vec![0, 1], vec![1, 0]];
    both.put(0, &[0, 30], apart.clone());
    both.put(1, &[30, 31], [&apart[..], &[vec![0, 2]]].concat());
    both.put(2, &[0, 31], [&apart[..], &[vec![1, 2]]].concat());
    let plan = [vec![1], vec![0; 30], vec![2]].concat();
    both.check_end(found(plan), 11 + 2 * 29, "the long way back");
    assert_eq!(both.check_search(&mut Random(0)).back, 31, "the calls that it goes back over");
}

/// Two rules on each two neighbours: after any slot but 31 they ask for two different slots of the next call. So each call but the last lays its 32 slots, and after
/// each of these but slot 31 the next call all of its own in vain.
fn check_long_way_down() {
    let mut both = start(&[32; 32]);
    for call in 0..31 {
        for slot in 0..2 {
            let rows = (0..32).map(|next| vec![31, next]).chain((0..31).map(|other| vec![other, slot]));
            both.put(2 * call + slot, &[call, call + 1], rows);
        }
    }
    let plan = [vec![31; 31], vec![0]].concat();
    both.check_end(found(plan), 31 * (31 * 33 + 1) + 1, "the long way down");
}

/// Calls that are all apart and as many slots, and rules whose rows are any, those of one plan among them; some calls are cancelled then. On some boards the plan's row
/// is left out of one rule.
fn check_random(random: &mut Random, seen: &mut Seen) {
    let calls = random.between((3, 6)) as u8;
    let mut both = calls_apart(calls, calls);
    let mut left: Vec<u8> = (0..calls).collect();
    let plan: Vec<u8> = (0..calls).map(|_| left.swap_remove(random.below(left.len()))).collect();
    let without = random.percent(20);
    for number in 0..random.between((1, 4)) as u8 {
        let arity = random.between((2, 4)).min(calls as usize);
        let mut left: Vec<u8> = (0..calls).collect();
        let on: Vec<u8> = (0..arity).map(|_| left.swap_remove(random.below(left.len()))).collect();
        let some = |random: &mut Random| on.iter().map(|_| random.below(calls as usize) as u8).collect::<Vec<u8>>();
        let mut rows: Vec<Vec<u8>> = (0..random.between((5, 40))).map(|_| some(random)).collect();
        let own: Vec<u8> = on.iter().map(|call| plan[*call as usize]).collect();
        rows.retain(|row| *row != own);
        if number > 0 || !without {
            rows.push(own);
        }
        both.put(40 + number, &on, rows);
    }
    for _ in 0..*random.choose(&[0, 0, 1, 2]) {
        both.send(&[CANCEL, random.below(calls as usize) as u8]);
    }
    let search = both.check_search(random);
    let found = search.plan().is_some();
    assert!(found || without, "there is the full plan {plan:?}");
    seen.first += found as usize;
    seen.after_back += (found && search.back > 0) as usize;
    seen.after_long_back += (found && search.back > 2) as usize;
    seen.with_cancelled += (found && search.back > 0 && !both.ledger.cancelled.is_empty()) as usize;
    seen.nothing += (!found && search.trials > 0) as usize;
}

pub fn run() {
    crate::place::list("boards to go back on", 0);
    check_calls_apart();
    check_nine_calls_apart();
    check_chains();
    check_long_way_back();
    check_long_way_down();
    let mut seen = Seen::default();
    for seed in 0..BOARDS {
        crate::place::list("random boards to go back on", seed);
        check_random(&mut Random(seed), &mut seen);
    }
    let Seen { first, after_back, after_long_back, with_cancelled, nothing } = seen;
    let all = [first, after_back, after_long_back, with_cancelled, nothing];
    assert!(!all.contains(&0), "boards to go back on: {seen:?}");
    print!("boards to go back on: {first} first plans, {after_back} after going back, {after_long_back} over three ");
    println!("calls or more, {with_cancelled} with cancelled calls; {nothing} searches for nothing that lay a slot");
}
