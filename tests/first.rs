//! First full plans (order 8): the search by the order's words, over the ledger's calls and rules and the filter's open slots. It has no tables: at each trial
//! every rule in force is looked at. After the commands of lists the library is asked under many ceilings, and replies as this search says. What is seen is
//! counted, since each of it has to happen.

use crate::berth::lent::Memory;
use crate::filter::{has, Slots};
use crate::host::{first_plan, FirstReply, PlanReply};
use crate::ledger::{Ledger, Rule, LENGTHS};
use crate::occurrences::Occurrences;
use crate::plans::{broken_rules, Plan};
use crate::random::Random;
use crate::session::Session;

const ALL: [&str; 35] = [
    "first plans",
    "first plans without a trial",
    "first plans of lowest open slots",
    "first plans that pass over a struck slot",
    "first plans after slots in vain",
    "first plans after going back",
    "first plans after going back over several calls at once",
    "first plans with eight rules or more in force",
    "first plans with a cancelled call",
    "first plans with a cancelled call before and behind the others",
    "first plans with a cancelled column in a rule",
    "first plans with a rule without rows on cancelled calls alone",
    "first plans by the last row of a rule alone",
    "searches for nothing",
    "searches for nothing without a trial",
    "searches for nothing that lay a call and have nothing open for a later one",
    "searches for nothing with an open slot for every call",
    "searches for nothing with all slots open",
    "searches for nothing with a cancelled call",
    "searches given up",
    "ceilings of 0 for a plan without a trial",
    "ceilings of 0 for nothing without a trial",
    "ceilings of 0 that stop",
    "ceilings of just the trials of a plan",
    "ceilings of just the trials for nothing",
    "ceilings of one trial more",
    "ceilings one trial short of a plan",
    "ceilings one trial short of nothing",
    "ceilings far too low",
    "ceilings of all 32 bits",
    "first plans asked beside rows of another length",
    "first plans asked beside killers of another length",
    "first plans asked beside slots of another length",
    "first plans asked without a board",
    "first plans asked without a board and beside a buffer of another length",
];

/// The trials that a search in lists makes before it is given up.
const MOST: u32 = 1500;

/// What a search comes to.
#[derive(Clone, Copy, Debug, PartialEq)]
pub enum End {
    Found(Plan),
    Nothing,
    GivenUp,
}

/// A search without a ceiling.
#[derive(Debug)]
pub struct FirstSearch {
    pub end: End,
    /// slots laid; of a search that is given up, one more than it may lay
    pub trials: u32,
    /// slots that did not stay
    pub in_vain: u32,
    /// the most calls that it went back over with no slot laid between
    pub back: usize,
}

/// Lays these calls, the first one first, each with its open slots in rising order. A call whose last slot is done goes back to the call before.
pub fn search_first(
    calls: &[u8],
    is_open: impl Fn(u8, u8) -> bool,
    stays: impl Fn(&Plan) -> bool,
    most: u32,
) -> FirstSearch {
    let (mut plan, mut laid, mut back) = ([255; 32], 0, 0);
    let mut search = FirstSearch { end: End::GivenUp, trials: 0, in_vain: 0, back: 0 };
    while let Some(call) = calls.get(laid) {
        let place = *call as usize;
        let next = if plan[place] == 255 { 0 } else { plan[place] + 1 };
        let Some(slot) = (next..32).find(|slot| is_open(*call, *slot)) else {
            plan[place] = 255;
            if laid == 0 {
                search.end = End::Nothing;
                return search;
            }
            (laid, back) = (laid - 1, back + 1);
            search.back = search.back.max(back);
            continue;
        };
        (plan[place], back) = (slot, 0);
        search.trials += 1;
        if search.trials > most {
            return search;
        }
        let stays = stays(&plan);
        laid += stays as usize;
        search.in_vain += !stays as u32;
    }
    search.end = End::Found(plan);
    search
}

/// A row agrees with the plan in each column whose call is not cancelled.
fn fits(ledger: &Ledger, rule: &Rule, row: [u8; 4], plan: &Plan) -> bool {
    rule.cells(row).all(|(call, slot)| ledger.is_cancelled(call) || plan[call as usize] == slot)
}

/// Some call of the rule is laid, and each of the others is too, or is cancelled.
fn is_due(ledger: &Ledger, rule: &Rule, plan: &Plan) -> bool {
    let is_laid = |call: &u8| plan[*call as usize] != 255;
    rule.calls.iter().any(is_laid) && rule.calls.iter().all(|call| is_laid(call) || ledger.is_cancelled(*call))
}

/// Every rule that is due has a fitting row.
pub fn stays(ledger: &Ledger, plan: &Plan) -> bool {
    let fitted = |rule: &Rule| rule.rows.iter().any(|row| fits(ledger, rule, *row, plan));
    ledger.rules.values().all(|rule| !is_due(ledger, rule, plan) || fitted(rule))
}

/// The calls that are laid.
pub fn laid_calls(ledger: &Ledger) -> Vec<u8> {
    (0..32).filter(|call| ledger.takes_part(*call)).collect()
}

/// The search on a ledger's board, whose open slots are these.
pub fn search_board(ledger: &Ledger, open: &Slots, most: u32) -> FirstSearch {
    search_first(&laid_calls(ledger), |call, slot| has(open, (call, slot)), |plan| stays(ledger, plan), most)
}

impl FirstSearch {
    pub fn plan(&self) -> Option<Plan> {
        match self.end {
            End::Found(plan) => Some(plan),
            _ => None,
        }
    }

    /// What is due under a ceiling. One that is given up is known to need more than it may lay, so no ceiling may be over that.
    pub fn reply(&self, ceiling: u32) -> FirstReply {
        match self.end {
            _ if self.trials > ceiling => FirstReply { trials: ceiling, ..FirstReply::STOPPED },
            End::Found(plan) => FirstReply { trials: self.trials, plan, ..FirstReply::FOUND },
            End::Nothing => FirstReply { trials: self.trials, ..FirstReply::NOTHING },
            End::GivenUp => panic!("the ceiling {ceiling} is over what a search may lay"),
        }
    }

    /// About as many as the trials, and far from it. For a search that is given up, those that it may lay and fewer.
    pub fn ceilings(&self, random: &mut Random) -> Vec<u32> {
        let fewer = [0, self.trials.saturating_sub(1), random.below(self.trials.max(1) as usize) as u32];
        let as_many = [self.trials, self.trials + 1, u32::MAX, random.below(1 << 32) as u32];
        match self.end {
            End::GivenUp => fewer.to_vec(),
            _ => [&fewer[..], &as_many].concat(),
        }
    }

    /// The library replies so under each of these ceilings.
    pub fn check(&self, memory: Memory, ceilings: &[u32]) {
        for ceiling in ceilings {
            let due = self.reply(*ceiling);
            assert_eq!(first_plan(memory, *ceiling), due, "the first plan under the ceiling {ceiling}: {self:?}");
        }
    }
}

/// Asks under some ceilings. The plan that is found is kept, by the ledger and by the library.
pub fn ask(random: &mut Random, session: &mut Session) {
    let refusal = session.due(session.ledger.first_plan_refusal());
    if refusal != 0 {
        return session.refused_first(random, refusal);
    }
    let search = search_board(&session.ledger, &session.open, MOST);
    let ceilings = search.ceilings(random);
    search.check(session.host.memory(), &ceilings);
    session.tally.questions += ceilings.len();
    session.tally.refusals[0] += ceilings.len();
    ceilings.iter().for_each(|ceiling| session.tally.first.ceiling(&search, *ceiling));
    if let Some(plan) = search.plan() {
        let broken = broken_rules(&session.ledger, &plan);
        assert!(broken.is_empty(), "the first plan {plan:?} breaks {broken:?}");
        assert_eq!(session.host.check_plan(&plan), PlanReply::KEPT, "the first plan {plan:?}");
        session.tally.first.found(&session.ledger, &session.open, &search, &plan);
    } else {
        session.tally.first.not_found(&session.ledger, &session.open, &session.struck, &search);
    }
}

impl Session<'_> {
    fn refused_first(&mut self, random: &mut Random, number: u8) {
        let due = FirstReply { number, ..FirstReply::REFUSED };
        for ceiling in [0, u32::MAX, random.below(1 << 32) as u32] {
            assert_eq!(first_plan(self.host.memory(), ceiling), due, "the refusal under the ceiling {ceiling}");
            self.tally.questions += 1;
            self.tally.refusals[number as usize] += 1;
        }
        let (lengths, no_board) = (self.host.lengths().buffers, self.ledger.counts.is_empty());
        let [rows, killers, slots] = [0, 1, 2].map(|i| lengths[i] != LENGTHS.buffers[i]);
        self.tally.first.count("first plans asked beside rows of another length", rows);
        self.tally.first.count("first plans asked beside killers of another length", killers);
        self.tally.first.count("first plans asked beside slots of another length", slots);
        self.tally.first.count("first plans asked without a board", number == 6);
        let both = no_board && number == 1;
        self.tally.first.count("first plans asked without a board and beside a buffer of another length", both);
    }
}

/// What was seen of first plans in lists.
#[derive(Default)]
pub struct FirstPlans {
    seen: Occurrences,
}

impl FirstPlans {
    fn count(&mut self, what: &'static str, holds: bool) {
        self.seen.count(what, holds);
    }

    fn found(&mut self, ledger: &Ledger, open: &Slots, search: &FirstSearch, plan: &Plan) {
        let calls = laid_calls(ledger);
        let lowest = |call: &u8| open[*call as usize].trailing_zeros() == plan[*call as usize] as u32;
        let passes_struck = |call: &u8| !(0..plan[*call as usize]).all(|slot| has(open, (*call, slot)));
        let cancelled = |call: usize| ledger.is_cancelled(call as u8);
        let columns = |rule: &Rule| rule.calls.iter().filter(|call| !ledger.is_cancelled(**call)).count();
        let some_cancelled = |rule: &Rule| (1..rule.calls.len()).contains(&columns(rule));
        let last_alone = |rule: &Rule| {
            let first = rule.rows.iter().position(|row| fits(ledger, rule, *row, plan));
            rule.rows.len() > 1 && first == Some(rule.rows.len() - 1)
        };
        let around = !calls.is_empty() && cancelled(0) && cancelled(ledger.counts.len() - 1);
        let unbound = ledger.rules.values().any(|rule| columns(rule) == 0 && rule.rows.is_empty());
        let over = |calls: usize| search.back >= calls;
        self.count("first plans", true);
        self.count("first plans without a trial", search.trials == 0);
        self.count("first plans of lowest open slots", !calls.is_empty() && calls.iter().all(lowest));
        self.count("first plans that pass over a struck slot", calls.iter().any(passes_struck));
        self.count("first plans after slots in vain", search.in_vain > 0);
        self.count("first plans after going back", over(1));
        self.count("first plans after going back over several calls at once", over(2));
        self.count("first plans with eight rules or more in force", ledger.rules.len() >= 8);
        self.count("first plans with a cancelled call", !calls.is_empty() && !ledger.cancelled.is_empty());
        self.count("first plans with a cancelled call before and behind the others", around);
        self.count("first plans with a cancelled column in a rule", ledger.rules.values().any(some_cancelled));
        self.count("first plans with a rule without rows on cancelled calls alone", unbound);
        self.count("first plans by the last row of a rule alone", ledger.rules.values().any(last_alone));
    }

    fn not_found(&mut self, ledger: &Ledger, open: &Slots, struck: &Slots, search: &FirstSearch) {
        if search.end == End::GivenUp {
            return self.count("searches given up", true);
        }
        let every_call = laid_calls(ledger).iter().all(|call| open[*call as usize] != 0);
        self.count("searches for nothing", true);
        self.count("searches for nothing without a trial", search.trials == 0);
        let later = search.trials > 0 && !every_call;
        self.count("searches for nothing that lay a call and have nothing open for a later one", later);
        self.count("searches for nothing with an open slot for every call", every_call);
        self.count("searches for nothing with all slots open", struck.iter().all(|mask| *mask == 0));
        self.count("searches for nothing with a cancelled call", !ledger.cancelled.is_empty());
    }

    fn ceiling(&mut self, search: &FirstSearch, ceiling: u32) {
        let (trials, found, nothing) = (search.trials, search.plan().is_some(), search.end == End::Nothing);
        let one_short = trials.checked_sub(1) == Some(ceiling);
        if ceiling == 0 {
            self.count("ceilings of 0 for a plan without a trial", trials == 0 && found);
            self.count("ceilings of 0 for nothing without a trial", trials == 0 && nothing);
            self.count("ceilings of 0 that stop", trials > 0);
        } else {
            self.count("ceilings of just the trials of a plan", ceiling == trials && found);
            self.count("ceilings of just the trials for nothing", ceiling == trials && nothing);
            self.count("ceilings one trial short of a plan", one_short && found);
            self.count("ceilings one trial short of nothing", one_short && nothing);
            self.count("ceilings far too low", ceiling < trials / 2);
            self.count("ceilings of one trial more", ceiling == trials + 1);
            self.count("ceilings of all 32 bits", ceiling == u32::MAX);
        }
    }

    pub fn print(&self) {
        self.seen.print(&ALL);
    }

    pub fn check_complete(&self) {
        self.seen.check_complete(&ALL);
    }
}
