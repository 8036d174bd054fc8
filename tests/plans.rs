//! Plans from elsewhere (order 10): after the commands of lists the library is asked about plans of many sorts, and replies as the ledger says. Full plans are
//! found by a search over rows. What is seen is counted, since each of it has to happen.

use crate::filter::{has, Slots};
use crate::host::PlanReply;
use crate::ledger::{Ledger, Rule};
use crate::occurrences::Occurrences;
use crate::random::Random;
use crate::session::Session;

const ALL: [&str; 30] = [
    "searches that find a full plan",
    "searches that find that there is none",
    "kept plans",
    "kept plans with eight rules or more in force",
    "kept plans with a cancelled column in a rule",
    "kept plans with a rule on cancelled calls alone",
    "kept plans with a rule without rows on cancelled calls alone",
    "kept plans that fit the last of several rows alone",
    "kept plans for cancelled calls alone",
    "broken plans",
    "plans that break several rules",
    "plans that break a rule by its third or fourth column alone",
    "plans that break a rule without rows",
    "plans that break a rule with a cancelled column",
    "plans with struck slots that break a rule on none of their calls",
    "plans of open slots alone that break a rule",
    "plans that but for a struck slot are kept",
    "plans lent beside a buffer of another length",
    "plans of another length beside a buffer of another length",
    "plans of no byte",
    "plans of 31 bytes",
    "plans of 33 bytes",
    "plans of another length without a board",
    "plans without a board",
    "plans with a wrong byte without a board",
    "plans wrong by 255 for a call that takes part",
    "plans wrong by the slot count",
    "plans wrong by a byte over the slot count",
    "plans wrong by a slot for a cancelled call",
    "plans wrong by a slot for an absent call",
];

/// The rows that a search looks at before it is given up.
const MOST_ROWS: usize = 400;

/// A slot for each call that takes part, and 255 for the others.
pub type Plan = [u8; 32];

/// The columns of a rule whose calls are not cancelled.
fn active(ledger: &Ledger, rule: &Rule) -> Vec<usize> {
    (0..rule.calls.len()).filter(|column| !ledger.is_cancelled(rule.calls[*column])).collect()
}

/// Whether a row has the plan's slot in each of these columns.
fn fits(rule: &Rule, row: &[u8; 4], columns: &[usize], plan: &[u8]) -> bool {
    columns.iter().all(|column| row[*column] == plan[rule.calls[*column] as usize])
}

/// A rule is broken where a call of it is not cancelled, and no row has the plan's slots for all such calls.
fn is_broken(ledger: &Ledger, rule: &Rule, plan: &[u8]) -> bool {
    let columns = active(ledger, rule);
    !columns.is_empty() && !rule.rows.iter().any(|row| fits(rule, row, &columns, plan))
}

/// The rules in force that a plan of 32 bytes breaks, the lowest number first.
pub fn broken_rules(ledger: &Ledger, plan: &[u8]) -> Vec<u8> {
    let broken = ledger.rules.iter().filter(|(_, rule)| is_broken(ledger, rule, plan));
    broken.map(|(number, _)| *number).collect()
}

/// Some slot for each call that takes part and has none yet.
pub fn filled(random: &mut Random, ledger: &Ledger, mut plan: Plan) -> Plan {
    for call in (0..32).filter(|call| ledger.takes_part(*call)) {
        if plan[call as usize] == 255 {
            plan[call as usize] = random.below(ledger.count(call) as usize) as u8;
        }
    }
    plan
}

/// One of the slots of a mask; none where it is 0.
fn one_of(random: &mut Random, mask: u32) -> Option<u8> {
    let slots: Vec<u8> = (0..32).filter(|slot| mask >> slot & 1 == 1).collect();
    (!slots.is_empty()).then(|| *random.choose(&slots))
}

/// Open slots, and struck ones for calls that have no others.
fn open_plan(random: &mut Random, session: &Session) -> Plan {
    let mut plan = [255; 32];
    for (call, mask) in session.open.iter().enumerate() {
        plan[call] = one_of(random, *mask).unwrap_or(255);
    }
    filled(random, &session.ledger, plan)
}

/// The plan with a struck slot for one call; none where no slot is struck.
fn with_struck(random: &mut Random, struck: &Slots, mut plan: Plan) -> Option<Plan> {
    let calls: Vec<usize> = (0..struck.len()).filter(|call| struck[*call] != 0).collect();
    let call = *calls.get(random.below(calls.len().max(1)))?;
    plan[call] = one_of(random, struck[call])?;
    Some(plan)
}

/// The plan with any slot for one call.
fn with_other(random: &mut Random, ledger: &Ledger, mut plan: Plan) -> Plan {
    if !ledger.counts.is_empty() {
        plan[random.below(ledger.counts.len())] = 255;
    }
    filled(random, ledger, plan)
}

/// The plan with a byte for one call that is wrong there.
fn with_wrong(random: &mut Random, ledger: &Ledger, mut plan: Plan) -> Plan {
    let cancelled: Vec<u8> = ledger.cancelled.iter().copied().collect();
    let call = match random.below(4) {
        0 => random.below(32) as u8,
        1 if !cancelled.is_empty() => *random.choose(&cancelled),
        _ => random.below(ledger.counts.len() + 1).min(31) as u8,
    };
    let slots = ledger.count(call);
    plan[call as usize] = match ledger.takes_part(call) {
        true => *random.choose(&[255, 255, slots, slots, slots + 1, 254, 253]),
        false => *random.choose(&[0, 0, slots / 2, slots, 31, 254, 253]),
    };
    plan
}

/// A plan of one of many sorts, most of them near this one.
fn some_plan(random: &mut Random, session: &Session, near: Plan) -> Vec<u8> {
    let ledger = &session.ledger;
    let plan = match random.below(12) {
        0..3 => with_other(random, ledger, near),
        3..5 => filled(random, ledger, [255; 32]),
        5 => open_plan(random, session),
        6..8 => {
            let open = open_plan(random, session);
            with_struck(random, &session.struck, open).unwrap_or(open)
        }
        8..10 => with_wrong(random, ledger, near),
        10 => near.map(|slot| if random.percent(20) { random.near(32) } else { slot }),
        _ => {
            let mut bytes = near.to_vec();
            bytes.resize(*random.choose(&[0, 1, 31, 31, 33, 33, 64]), random.near(32));
            return bytes;
        }
    };
    plan.to_vec()
}

/// What a search came to.
enum Found {
    Full(Plan),
    Nothing,
    GivenUp,
}

/// A search for a full plan: of each rule that has a call left a row is chosen, and their slots have to agree.
struct Search<'a> {
    ledger: &'a Ledger,
    rules: Vec<&'a Rule>,
    /// the row that is looked at first
    start: usize,
    /// rows that may still be looked at
    left: usize,
}

impl Search<'_> {
    /// The plan with a row of each rule from the n-th on, where they agree with it.
    fn choose(&mut self, n: usize, plan: Plan) -> Option<Plan> {
        let Some(rule) = self.rules.get(n).copied() else { return Some(plan) };
        for w in 0..rule.rows.len() {
            self.left = self.left.checked_sub(1)?;
            let row = rule.rows[(self.start + w) % rule.rows.len()];
            let found = self.with_row(rule, row, plan).and_then(|plan| self.choose(n + 1, plan));
            if found.is_some() {
                return found;
            }
        }
        None
    }

    /// The plan with the row's slots; none where it has another slot for a call.
    fn with_row(&self, rule: &Rule, row: [u8; 4], mut plan: Plan) -> Option<Plan> {
        for (call, slot) in rule.cells(row).filter(|(call, _)| !self.ledger.is_cancelled(*call)) {
            if ![255, slot].contains(&plan[call as usize]) {
                return None;
            }
            plan[call as usize] = slot;
        }
        Some(plan)
    }
}

/// A slot for a call without rules is any.
fn search(random: &mut Random, ledger: &Ledger) -> Found {
    let has_call_left = |rule: &&Rule| rule.calls.iter().any(|call| !ledger.is_cancelled(*call));
    let rules = ledger.rules.values().filter(has_call_left).collect();
    let mut search = Search { ledger, rules, start: random.below(64), left: MOST_ROWS };
    match search.choose(0, [255; 32]) {
        Some(plan) => Found::Full(filled(random, ledger, plan)),
        None if search.left > 0 => Found::Nothing,
        None => Found::GivenUp,
    }
}

/// Asks about a full plan, where one is found, about the same with a struck slot, and about others. Where there is no full plan none is kept.
pub fn ask(random: &mut Random, session: &mut Session) {
    let found = search(random, &session.ledger);
    let near = match found {
        Found::Full(plan) => plan,
        _ => open_plan(random, session),
    };
    let (is_full, is_none) = (matches!(found, Found::Full(_)), matches!(found, Found::Nothing));
    session.tally.plans.count("searches that find a full plan", is_full);
    session.tally.plans.count("searches that find that there is none", is_none);
    if is_full {
        let reply = session.ask_plan(&near);
        assert!(reply == PlanReply::KEPT || [1, 6].contains(&reply.number), "the full plan {near:?} is broken");
        if let Some(plan) = with_struck(random, &session.struck, near) {
            let reply = session.ask_plan(&plan);
            assert!(reply != PlanReply::KEPT, "the plan {plan:?} is kept with a struck slot");
            session.tally.plans.count("plans that but for a struck slot are kept", reply.number == 0);
        }
    }
    for _ in 0..2 {
        let plan = some_plan(random, session, near);
        let reply = session.ask_plan(&plan);
        assert!(!is_none || reply != PlanReply::KEPT, "the plan {plan:?} is kept, and there is no full one");
    }
}

/// The calls for which a plan has a struck slot.
fn calls_with_struck(ledger: &Ledger, struck: &Slots, plan: &[u8]) -> Vec<u8> {
    let calls = (0..32).filter(|call| ledger.takes_part(*call));
    calls.filter(|call| has(struck, (*call, plan[*call as usize]))).collect()
}

impl Session<'_> {
    /// A plan that is kept uses no struck slot.
    fn ask_plan(&mut self, plan: &[u8]) -> PlanReply {
        let refusal = self.due(self.ledger.plan_refusal(plan));
        let broken = if refusal == 0 { broken_rules(&self.ledger, plan) } else { vec![] };
        let due = match (refusal, broken.first()) {
            (0, None) => PlanReply::KEPT,
            (0, Some(lowest)) => PlanReply { number: 0, broken: *lowest },
            (number, _) => PlanReply { number, broken: 254 },
        };
        assert_eq!(self.host.check_plan(plan), due, "the reply to the plan {plan:?}");
        self.tally.questions += 1;
        self.tally.refusals[refusal as usize] += 1;
        if refusal != 0 {
            self.tally.plans.refused(&self.ledger, plan, refusal);
            return due;
        }
        let struck = calls_with_struck(&self.ledger, &self.struck, plan);
        if broken.is_empty() {
            assert!(struck.is_empty(), "the plan {plan:?} is kept, with struck slots for {struck:?}");
            self.tally.plans.kept(&self.ledger, plan);
        } else {
            self.tally.plans.broken(&self.ledger, plan, &broken, &struck);
        }
        due
    }
}

/// What was seen of plans in lists.
#[derive(Default)]
pub struct Plans {
    seen: Occurrences,
}

impl Plans {
    fn count(&mut self, what: &'static str, holds: bool) {
        self.seen.count(what, holds);
    }

    fn refused(&mut self, ledger: &Ledger, plan: &[u8], number: u8) {
        let bytes = (0..32).zip(plan.iter().copied());
        let wrong: Vec<(u8, u8)> = bytes.filter(|(call, byte)| ledger.is_wrong_in_plan(*call, *byte)).collect();
        match number {
            1 => {
                self.count("plans lent beside a buffer of another length", true);
                self.count("plans of another length beside a buffer of another length", plan.len() != 32);
            }
            32 => {
                self.count("plans of no byte", plan.is_empty());
                self.count("plans of 31 bytes", plan.len() == 31);
                self.count("plans of 33 bytes", plan.len() == 33);
                self.count("plans of another length without a board", ledger.counts.is_empty());
            }
            6 => {
                self.count("plans without a board", true);
                self.count("plans with a wrong byte without a board", !wrong.is_empty());
            }
            _ => {
                if let [(call, byte)] = wrong[..] {
                    self.wrong_byte(ledger, call, byte);
                }
            }
        }
    }

    /// The byte for this call is the only one of the plan that is wrong.
    fn wrong_byte(&mut self, ledger: &Ledger, call: u8, byte: u8) {
        let slots = ledger.count(call);
        if ledger.takes_part(call) {
            self.count("plans wrong by 255 for a call that takes part", byte == 255);
            self.count("plans wrong by the slot count", byte == slots);
            self.count("plans wrong by a byte over the slot count", slots < byte && byte < 255);
        } else {
            self.count("plans wrong by a slot for a cancelled call", byte < slots);
            self.count("plans wrong by a slot for an absent call", slots == 0 && byte < 32);
        }
    }

    fn kept(&mut self, ledger: &Ledger, plan: &[u8]) {
        let rules = || ledger.rules.values().map(|rule| (rule, active(ledger, rule)));
        let has_cancelled =
            |(rule, columns): (&Rule, Vec<usize>)| !columns.is_empty() && columns.len() < rule.calls.len();
        let last_alone = |(rule, columns): (&Rule, Vec<usize>)| {
            let first = rule.rows.iter().position(|row| fits(rule, row, &columns, plan));
            rule.rows.len() > 1 && first == Some(rule.rows.len() - 1)
        };
        let unbound = || rules().filter(|(_, columns)| columns.is_empty());
        self.count("kept plans", true);
        self.count("kept plans with eight rules or more in force", ledger.rules.len() >= 8);
        self.count("kept plans with a cancelled column in a rule", rules().any(has_cancelled));
        self.count("kept plans with a rule on cancelled calls alone", unbound().next().is_some());
        let without_rows = unbound().any(|(rule, _)| rule.rows.is_empty());
        self.count("kept plans with a rule without rows on cancelled calls alone", without_rows);
        self.count("kept plans that fit the last of several rows alone", rules().any(last_alone));
        self.count("kept plans for cancelled calls alone", ledger.cancelled.len() == ledger.counts.len());
    }

    /// These rules are broken, and the plan has a struck slot for these calls.
    fn broken(&mut self, ledger: &Ledger, plan: &[u8], broken: &[u8], struck: &[u8]) {
        let rule = &ledger.rules[&broken[0]];
        let columns = active(ledger, rule);
        let first_two: Vec<usize> = columns.iter().copied().filter(|column| *column < 2).collect();
        let fits_first_two = !first_two.is_empty() && rule.rows.iter().any(|row| fits(rule, row, &first_two, plan));
        let elsewhere = !struck.is_empty() && !rule.calls.iter().any(|call| struck.contains(call));
        self.count("broken plans", true);
        self.count("plans that break several rules", broken.len() > 1);
        self.count("plans that break a rule by its third or fourth column alone", fits_first_two);
        self.count("plans that break a rule without rows", rule.rows.is_empty());
        self.count("plans that break a rule with a cancelled column", columns.len() < rule.calls.len());
        self.count("plans with struck slots that break a rule on none of their calls", elsewhere);
        self.count("plans of open slots alone that break a rule", struck.is_empty());
    }

    pub fn print(&self) {
        self.seen.print(&ALL);
    }

    pub fn check_complete(&self) {
        self.seen.check_complete(&ALL);
    }
}
