//! Cancelled calls: what is done with them in lists, counted, since each of it has to happen; and pairs of lists that cancel calls at other times, or more of
//! them. The library is asked about every plan of the boards that these pairs leave, and for the first full one.

use crate::berth::{Answer, Board, PlanCheck, Report};
use crate::filter::{has, open_slots, Slots};
use crate::first::{laid_calls, search_board, stays, End};
use crate::host::number_of;
use crate::ledger::{Cancelled, Ledger, Rule, BACK, BOARD, CANCEL, GAP, HEAD, LIFT, MARK, PUT, ROW};
use crate::occurrences::Occurrences;
use crate::random::Random;

const ALL: [&str; 28] = [
    "cancellations that reopen",
    "cancellations that strike some again",
    "cancellations of a call with nothing open",
    "cancellations of a call with nothing struck",
    "cancellations of a call of the draft",
    "cancellations of a call of a rule without rows",
    "cancellations of the last of several calls",
    "drafts left by a new rule on a cancelled call",
    "rows for a draft on a cancelled call",
    "rows with a slot that the cancelled call never had",
    "puts on a cancelled call",
    "puts on a cancelled call that strike",
    "puts on a cancelled call without rows that strike",
    "puts on cancelled calls alone",
    "puts on cancelled calls alone without rows",
    "lifts on a cancelled call",
    "lifts on a cancelled call that reopen",
    "marks with a cancelled call",
    "backs that cancel",
    "backs that uncancel",
    "backs that do both of these",
    "backs that uncancel, and strike or reopen",
    "new boards that end cancellations",
    "refused boards that leave a cancellation",
    "states of a cancelled slot",
    "living rows with a cancelled column",
    "dead rows with a cancelled column",
    "living rows that support nothing in a cancelled column",
];

#[derive(Default)]
pub struct Cancellations {
    seen: Occurrences,
}

impl Cancellations {
    pub fn count(&mut self, what: &'static str, holds: bool) {
        self.seen.count(what, holds);
    }

    /// A command that was answered so. The ledger is that before it, and so are the open slots.
    pub fn command(&mut self, bytes: &[u8], answer: &Answer<Report>, ledger: &Ledger, open: &Slots) {
        let report = answer.unwrap_or_default();
        match (bytes, number_of(answer)) {
            ([CANCEL, call], 0) => self.cancellation(*call, report, ledger, open),
            ([HEAD | GAP, ..], 29) => {
                self.count("drafts left by a new rule on a cancelled call", ledger.draft.is_some());
            }
            ([ROW, slots @ ..], number) => self.row(slots, number, ledger),
            ([PUT], 0) => self.put(report, ledger),
            ([LIFT, number], 0) => {
                let cancelled = ledger.rules[number].calls.iter().any(|call| ledger.is_cancelled(*call));
                self.count("lifts on a cancelled call", cancelled);
                self.count("lifts on a cancelled call that reopen", cancelled && report.reopened > 0);
            }
            ([MARK, _], 0) => self.count("marks with a cancelled call", !ledger.cancelled.is_empty()),
            ([BACK, name], 0) => {
                let (kept, now) = (&ledger.kept_under(*name).unwrap().cancelled, &ledger.cancelled);
                let (cancels, uncancels) = (!kept.is_subset(now), !now.is_subset(kept));
                self.count("backs that cancel", cancels);
                self.count("backs that uncancel", uncancels);
                self.count("backs that do both of these", cancels && uncancels);
                self.count("backs that uncancel, and strike or reopen", uncancels && report.touched > 0);
            }
            ([BOARD, ..], 0) => self.count("new boards that end cancellations", !ledger.cancelled.is_empty()),
            ([BOARD, ..], 5) => self.count("refused boards that leave a cancellation", !ledger.cancelled.is_empty()),
            _ => (),
        }
    }

    fn cancellation(&mut self, call: u8, report: Report, ledger: &Ledger, open: &Slots) {
        let ones = open[call as usize].count_ones();
        let bare = |rule: &Rule| rule.calls.len() > 1 && rule.calls.contains(&call) && rule.rows.is_empty();
        let of_draft = ledger.draft.as_ref().is_some_and(|(_, rule)| rule.calls.contains(&call));
        self.count("cancellations that reopen", report.reopened > 0);
        self.count("cancellations that strike some again", report.touched > report.reopened);
        self.count("cancellations of a call with nothing open", ones == 0);
        self.count("cancellations of a call with nothing struck", ones == ledger.count(call) as u32);
        self.count("cancellations of a call of the draft", of_draft);
        self.count("cancellations of a call of a rule without rows", ledger.rules.values().any(bare));
        let left = ledger.counts.len() - ledger.cancelled.len();
        self.count("cancellations of the last of several calls", left == 1 && ledger.counts.len() > 1);
    }

    fn row(&mut self, slots: &[u8], number: u8, ledger: &Ledger) {
        let Some((_, rule)) = &ledger.draft else { return };
        let mut cancelled = rule.calls.iter().zip(slots).filter(|(call, _)| ledger.is_cancelled(**call));
        match number {
            0 => self.count("rows for a draft on a cancelled call", cancelled.next().is_some()),
            14 => {
                let never = cancelled.any(|(call, slot)| *slot >= ledger.count(*call));
                self.count("rows with a slot that the cancelled call never had", never);
            }
            _ => (),
        }
    }

    fn put(&mut self, report: Report, ledger: &Ledger) {
        let (_, rule) = ledger.draft.as_ref().unwrap();
        let cancelled = rule.calls.iter().filter(|call| ledger.is_cancelled(**call)).count();
        let (some, all, bare) = (cancelled > 0, cancelled == rule.calls.len(), rule.rows.is_empty());
        self.count("puts on a cancelled call", some);
        self.count("puts on a cancelled call that strike", some && report.struck > 0);
        self.count("puts on a cancelled call without rows that strike", some && bare && report.struck > 0);
        self.count("puts on cancelled calls alone", all);
        self.count("puts on cancelled calls alone without rows", all && bare);
    }

    pub fn print(&self) {
        self.seen.print(&ALL);
    }

    pub fn check_complete(&self) {
        self.seen.check_complete(&ALL);
    }
}

const PAIRS: u64 = 4000;

/// Some of a number of things, each with a chance of so many in a hundred.
fn some_of(random: &mut Random, number: usize, percent: usize) -> Vec<bool> {
    (0..number).map(|_| random.percent(percent)).collect()
}

/// A rule on some calls with these slot counts. Each row that it could have is one of its rows by chance, mostly by a small one, so that slots are struck.
fn some_rule(random: &mut Random, counts: &[u8]) -> Rule {
    let mut left: Vec<u8> = (0..counts.len() as u8).collect();
    let arity = random.between((1, 4)).min(left.len());
    let calls: Vec<u8> = (0..arity).map(|_| left.swap_remove(random.below(left.len()))).collect();
    let mut rows = vec![[255; 4]];
    for (column, call) in calls.iter().enumerate() {
        let shorter = std::mem::take(&mut rows);
        for (mut row, slot) in
            shorter.into_iter().flat_map(|row| (0..counts[*call as usize]).map(move |slot| (row, slot)))
        {
            row[column] = slot;
            rows.push(row);
        }
    }
    let percent = *random.choose(&[0, 10, 20, 35, 50, 80]);
    rows.retain(|_| random.percent(percent));
    rows.truncate(64);
    Rule { calls, rows }
}

/// The rules that a list puts, by their numbers. Some of them stay in force, and some calls are cancelled.
struct Ending<'a> {
    counts: &'a [u8],
    rules: &'a [Rule],
    in_force: Vec<bool>,
    cancelled: Cancelled,
}

impl Ending<'_> {
    /// Commands that end so. A rule that does not stay is lifted at once or in the end. A call is cancelled at any time after the head of the last rule on it,
    /// so that rows and puts of its rules come before and after.
    fn list(&self, random: &mut Random) -> Vec<Vec<u8>> {
        let mut board = [&[BOARD], self.counts].concat();
        board.resize(33, 0);
        let (mut commands, mut lifts) = (vec![board], vec![]);
        let mut earliest = vec![1; self.counts.len()];
        for (number, rule) in (0..).zip(self.rules) {
            let mut head = [&[HEAD, number, rule.calls.len() as u8], &rule.calls[..]].concat();
            head.resize(7, 255);
            commands.push(head);
            rule.calls.iter().for_each(|call| earliest[*call as usize] = commands.len());
            commands.extend(rule.rows.iter().map(|row| [&[ROW], &row[..]].concat()));
            commands.push(vec![PUT]);
            if !self.in_force[number as usize] {
                let lifts = if random.percent(50) { &mut commands } else { &mut lifts };
                lifts.push(vec![LIFT, number]);
            }
        }
        commands.extend(lifts);
        let mut moment = |call: &u8| random.between((earliest[*call as usize], commands.len()));
        let mut moments: Vec<(usize, u8)> = self.cancelled.iter().map(|call| (moment(call), *call)).collect();
        // from the last on, so that no moment moves
        moments.sort();
        moments.iter().rev().for_each(|(moment, call)| commands.insert(*moment, vec![CANCEL, *call]));
        commands
    }

    fn board(&self, random: &mut Random) -> Board {
        let mut board = Board::new();
        for bytes in self.list(random) {
            assert_eq!(number_of(&board.command(&bytes)), 0, "{bytes:?} in a list that cancels {:?}", self.cancelled);
        }
        board
    }

    fn ledger(&self) -> Ledger {
        let in_force = (0..).zip(self.rules).zip(&self.in_force).filter(|(_, in_force)| **in_force);
        let rules = in_force.map(|((number, rule), _)| (number, rule.clone())).collect();
        Ledger { counts: self.counts.to_vec(), cancelled: self.cancelled.clone(), rules, ..Ledger::default() }
    }

    /// Every choice of a slot for each call, with none for a cancelled call. At the first call where two of them differ, the one with the lower slot comes first.
    fn plans(&self) -> Vec<Plan> {
        let mut plans: Vec<Plan> = vec![vec![]];
        for (call, count) in (0..).zip(self.counts) {
            let all = (0..*count).map(Some).collect();
            let choices: Plan = if self.cancelled.contains(&call) { vec![None] } else { all };
            let longer = |plan: &Plan| choices.iter().map(|slot| [&plan[..], &[*slot]].concat()).collect::<Vec<_>>();
            plans = plans.iter().flat_map(longer).collect();
        }
        plans
    }

    /// The lowest number of a rule in force that the plan does not keep. A full plan keeps all of them.
    fn broken(&self, plan: &Plan) -> Option<u8> {
        let in_force = (0..).zip(self.rules).zip(&self.in_force).filter(|(_, in_force)| **in_force);
        in_force.map(|(rule, _)| rule).find(|(_, rule)| !keeps(plan, rule)).map(|(number, _)| number)
    }
}

/// A slot for each call, or none.
type Plan = Vec<Option<u8>>;

/// The plan as the library takes it.
fn bytes_of(plan: &Plan) -> [u8; 32] {
    std::array::from_fn(|call| plan.get(call).copied().flatten().unwrap_or(255))
}

/// The rule has a row that agrees with the plan on the calls that are not cancelled, or has no such call.
fn keeps(plan: &Plan, rule: &Rule) -> bool {
    let agrees = |(call, slot): (u8, u8)| plan[call as usize].is_none_or(|chosen| chosen == slot);
    let unbound = rule.calls.iter().all(|call| plan[*call as usize].is_none());
    unbound || rule.rows.iter().any(|row| rule.cells(*row).all(agrees))
}

fn open(board: &Board, call: usize) -> u32 {
    board.open_slots(call as u8).unwrap().mask
}

/// The library says "kept" of the full plans, and of the others names the lowest rule that is broken. No full plan uses a struck slot.
fn check_plans(random: &mut Random, board: &Board, ending: &Ending, seen: &mut Seen) {
    let plans = ending.plans();
    check_first(random, board, ending, plans.iter().find(|plan| ending.broken(plan).is_none()), seen);
    for plan in &plans {
        let broken = ending.broken(plan);
        let due = broken.map_or(PlanCheck::Kept, |rule| PlanCheck::Broken { rule });
        assert_eq!(board.check_plan(&bytes_of(plan)), Ok(due), "the plan {plan:?}");
        seen.other_plans += broken.is_some() as usize;
        if broken.is_none() {
            check_open(board, plan);
            seen.plans += 1;
        }
    }
}

fn check_open(board: &Board, plan: &Plan) {
    for (call, slot) in plan.iter().enumerate().filter_map(|(call, slot)| Some((call, (*slot)?))) {
        let is_open = open(board, call) >> slot & 1 == 1;
        assert!(is_open, "the plan {plan:?} uses slot {slot} of call {call}, which is struck");
    }
}

/// How many plans are laid in part up to this full one, or in all where there is none: call after call, each that stays gets every open slot of the next call.
fn parts_up_to(ledger: &Ledger, open: &Slots, last: Option<[u8; 32]>) -> usize {
    let (mut parts, mut laid) = (vec![[255; 32]], 0);
    for call in laid_calls(ledger) {
        let slots = || (0..32).filter(|slot| has(open, (call, *slot)));
        let with = |part: &[u8; 32], slot: u8| {
            let mut longer = *part;
            longer[call as usize] = slot;
            longer
        };
        let longer: Vec<[u8; 32]> =
            parts.iter().flat_map(|part| slots().map(|slot| with(part, slot)).collect::<Vec<_>>()).collect();
        let is_up_to = |part: &&[u8; 32]| last.is_none_or(|last| part[..=call as usize] <= last[..=call as usize]);
        laid += longer.iter().filter(is_up_to).count();
        parts = longer.into_iter().filter(|part| stays(ledger, part)).collect();
    }
    laid
}

/// The search finds the first of all full plans, or that there is none, and its trials are the plans laid in part on the way. The library replies as it says.
fn check_first(random: &mut Random, board: &Board, ending: &Ending, first: Option<&Plan>, seen: &mut Seen) {
    let (ledger, first) = (ending.ledger(), first.map(bytes_of));
    let open = open_slots(&ledger);
    let search = search_board(&ledger, &open, u32::MAX - 1);
    assert_eq!(search.end, first.map_or(End::Nothing, End::Found), "the first of all full plans");
    assert_eq!(search.trials as usize, parts_up_to(&ledger, &open, first), "the trials up to {first:?}");
    let ceilings = search.ceilings(random);
    search.check(board.memory(), &ceilings);
    seen.first_plans += first.is_some() as usize;
    seen.first_after_back += (first.is_some() && search.back > 1) as usize;
    seen.searched_for_nothing += (first.is_none() && search.trials > 0) as usize;
}

/// What was seen of the pairs; each of it has to be.
#[derive(Debug, Default)]
struct Seen {
    /// full ones
    plans: usize,
    other_plans: usize,
    first_plans: usize,
    /// those behind which the search went back over several calls at once
    first_after_back: usize,
    /// searches that lay a slot, and find that there is no full plan
    searched_for_nothing: usize,
    /// with calls cancelled, and some struck
    struck: usize,
    /// slots open after the first list and struck after the second
    more_open: usize,
}

/// Two lists, and a third that ends as the second does. The first ends with fewer of the rules and more of the calls cancelled, so what is open after the
/// second is open after the first, on calls cancelled after neither. The third leaves the same open slots as the second, and the same table.
fn check_pair(random: &mut Random, seen: &mut Seen) {
    let counts: Vec<u8> = (0..random.between((1, 5))).map(|_| random.between((1, 4)) as u8).collect();
    let number = random.between((1, 7));
    let rules: Vec<Rule> = (0..number).map(|_| some_rule(random, &counts)).collect();
    let picked = |some: Vec<bool>| (0..).zip(some).filter(|(_, is)| *is).map(|(call, _)| call).collect::<Cancelled>();
    let (in_force, cancelled) = (some_of(random, number, 80), picked(some_of(random, counts.len(), 30)));
    let fewer = some_of(random, number, 75).iter().zip(&in_force).map(|(a, b)| *a && *b).collect();
    let more = &picked(some_of(random, counts.len(), 30)) | &cancelled;
    let first = Ending { counts: &counts, rules: &rules, in_force: fewer, cancelled: more };
    let second = Ending { in_force, cancelled, ..first };
    let [one, two, three] = [&first, &second, &second].map(|ending| ending.board(random));
    assert_eq!(two.summaries(), three.summaries(), "the tables of two lists that end alike");
    for call in 0..counts.len() {
        assert_eq!(open(&two, call), open(&three, call), "call {call} after two lists that end alike");
        let neither = !first.cancelled.contains(&(call as u8));
        let lost = open(&two, call) & !open(&one, call);
        assert!(!neither || lost == 0, "call {call}: with fewer rules and more calls cancelled, {lost:b} is struck");
        seen.more_open += (neither && open(&one, call) != open(&two, call)) as usize;
    }
    seen.struck += (!second.cancelled.is_empty() && two.summaries().iter().any(|record| record.struck > 0)) as usize;
    check_plans(random, &one, &first, seen);
    check_plans(random, &two, &second, seen);
}

pub fn run() {
    let mut seen = Seen::default();
    for seed in 0..PAIRS {
        crate::place::list("lists that cancel", seed);
        check_pair(&mut Random(seed), &mut seen);
    }
    let Seen { plans, other_plans, first_plans, first_after_back, searched_for_nothing, struck, more_open } = seen;
    let all = [plans, other_plans, first_plans, first_after_back, searched_for_nothing, struck, more_open];
    assert!(!all.contains(&0), "lists that cancel: {seen:?}");
    print!("lists that cancel: {PAIRS} pairs, {struck} with struck slots, {more_open} calls with more open after the first; ");
    println!("{plans} full plans, {other_plans} others");
    print!("first plans after such lists: {first_plans}, {first_after_back} after going back over several calls; ");
    println!("{searched_for_nothing} searches for nothing that lay a slot");
}
