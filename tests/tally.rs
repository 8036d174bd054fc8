//! How often each thing was seen, so that the tests can say that they were not idle.

use crate::berth::Report;
use crate::cancelled::Cancellations;
use crate::first::FirstPlans;
use crate::ledger::{
    Ledger, BACK, BOARD, CANCEL, GAP, HEAD, LAST_KIND, LAST_REFUSAL, LIFT, MARK, NO_REFUSALS, PUT, ROW,
};
use crate::marks::Marks;
use crate::plans::Plans;
use std::collections::BTreeMap;
use std::ops::{Index, IndexMut};

/// How often each refusal was seen; at 0, none.
pub struct Refusals([usize; LAST_REFUSAL + 1]);

impl Default for Refusals {
    fn default() -> Self {
        Refusals([0; LAST_REFUSAL + 1])
    }
}

impl Index<usize> for Refusals {
    type Output = usize;

    fn index(&self, number: usize) -> &usize {
        &self.0[number]
    }
}

impl IndexMut<usize> for Refusals {
    fn index_mut(&mut self, number: usize) -> &mut usize {
        &mut self.0[number]
    }
}

/// The refusals of each kind (SCOPE 4.3). 3 is left out, since it is of no kind.
const REFUSALS_OF_KIND: [(u8, &[usize]); LAST_KIND as usize] = [
    (BOARD, &[1, 22, 4, 5]),
    (HEAD, &[1, 22, 4, 6, 7, 8, 9, 29, 10, 11]),
    (ROW, &[1, 22, 4, 6, 12, 13, 14, 11, 15]),
    (PUT, &[1, 22, 4, 6, 12, 16]),
    (LIFT, &[1, 22, 4, 6, 7, 17]),
    (GAP, &[1, 22, 4, 6, 7, 23, 9, 29, 10, 24, 25]),
    (MARK, &[1, 22, 4, 6, 26]),
    (BACK, &[1, 22, 4, 6, 26, 27]),
    (CANCEL, &[1, 22, 4, 6, 18, 28]),
];

/// Gap rules in lists, and the drafts that they begin.
#[derive(Default)]
pub struct Gaps {
    /// accepted ones, and those with too many rows, by their rows
    lengths: BTreeMap<usize, usize>,
    /// refused ones that left a draft
    drafts_left: usize,
    /// rows sent to a draft that a gap rule began
    pub rows: Refusals,
    /// puts of such a draft
    pub puts: Refusals,
}

#[derive(Default)]
pub struct Tally {
    pub lists: usize,
    pub commands: usize,
    pub questions: usize,
    pub files: usize,
    /// summary tables that were recounted, and commands that were sent with an altered one
    pub tables: usize,
    pub altered_tables: usize,
    /// sheets whose total was compared with a table and with the slot bytes
    pub totals: usize,
    /// cancelled calls on sheets
    pub dashes: usize,
    /// commands that sheets show as accepted, by their kind
    pub sheet_lines: [usize; LAST_KIND as usize + 1],
    /// of commands, questions and lines of sheets
    pub refusals: Refusals,
    /// of the commands of lists, by their kind
    pub kinds: [Refusals; LAST_KIND as usize + 1],
    pub gaps: Gaps,
    pub marks: Marks,
    pub cancelled: Cancellations,
    pub plans: Plans,
    pub first: FirstPlans,
    pub struck: usize,
    pub reopened: usize,
    /// lifts that touched more slots than they reopened
    pub struck_again: usize,
    pub most_rules: usize,
    pub most_rows: usize,
}

impl Tally {
    pub fn command(&mut self, bytes: &[u8], refusal: u8, ledger: &Ledger) {
        self.commands += 1;
        self.refusals[refusal as usize] += 1;
        if let Some(seen) = bytes.first().and_then(|kind| self.kinds.get_mut(*kind as usize)) {
            seen[refusal as usize] += 1;
        }
        self.most_rules = self.most_rules.max(ledger.rules.len());
        self.most_rows = self.most_rows.max(ledger.draft.as_ref().map_or(0, |(_, rule)| rule.rows.len()));
    }

    pub fn report(&mut self, kind: u8, report: Report) {
        self.struck += report.struck;
        self.reopened += report.reopened;
        self.struck_again += (kind == LIFT && report.touched > report.reopened) as usize;
    }

    pub fn print(&self) {
        let Tally { lists, commands, questions, files, struck, reopened, struck_again, .. } = self;
        println!("{lists} lists, {commands} commands, {questions} questions, {files} files");
        println!(
            "{} summary tables, {} of them altered before; {} totals, {} cancelled calls on sheets",
            self.tables, self.altered_tables, self.totals, self.dashes
        );
        println!("{struck} slots struck, {reopened} reopened; {struck_again} lifts struck some again");
        println!("at most {} rules in force, {} rows in a draft", self.most_rules, self.most_rows);
        println!("{}", decisions(&self.refusals));
        println!("accepted on sheets by kind {:?}", &self.sheet_lines[1..]);
        if self.lists > 0 {
            self.print_lists();
        }
    }

    fn print_lists(&self) {
        for (kind, _) in REFUSALS_OF_KIND {
            println!("kind {kind} in lists: {}", decisions(&self.kinds[kind as usize]));
        }
        self.gaps.print();
        self.marks.print();
        self.cancelled.print();
        self.plans.print();
        self.first.print();
    }

    /// Every refusal was seen, lifts reopened slots and struck some again, a board and a draft were full, and tables were altered.
    pub fn check_complete(&self) {
        let never = |number: &usize| self.refusals[*number] == 0 && !NO_REFUSALS.contains(number);
        let never: Vec<usize> = (0..=LAST_REFUSAL).filter(never).collect();
        assert!(never.is_empty(), "these refusals were never seen: {never:?}");
        assert!(!self.sheet_lines[1..].contains(&0), "no sheet shows a kind as accepted");
        self.check_kinds();
        self.gaps.check_complete();
        self.marks.check_complete();
        self.cancelled.check_complete();
        self.plans.check_complete();
        self.first.check_complete();
        assert!(self.reopened > 0 && self.struck_again > 0, "no lift did anything");
        assert!((self.most_rules, self.most_rows) == (64, 64), "no board was full");
        assert!(self.altered_tables > 0 && self.totals > 0, "no table was altered, or no sheet had a total");
        assert!(self.dashes > 0, "no sheet shows a cancelled call");
    }

    /// Each kind was accepted in lists, and refused under each of its numbers.
    fn check_kinds(&self) {
        for (kind, refusals) in REFUSALS_OF_KIND {
            let seen = &self.kinds[kind as usize];
            assert!(seen[0] > 0, "kind {kind} was never accepted in a list");
            let missed: Vec<_> = refusals.iter().filter(|number| seen[**number] == 0).collect();
            assert!(missed.is_empty(), "kind {kind} was never refused in a list under {missed:?}");
        }
    }
}

fn decisions(seen: &Refusals) -> String {
    let refused = (1..=LAST_REFUSAL).filter(|number| seen[*number] > 0);
    let refused: String = refused.map(|number| format!(" {number}: {}", seen[number])).collect();
    format!("accepted {}; refused under{refused}", seen[0])
}

impl Gaps {
    /// A gap rule that was sent. A refused one leaves the ledger, and its draft, as it was.
    pub fn rule(&mut self, bytes: &[u8], refusal: u8, ledger: &Ledger) {
        if matches!(refusal, 0 | 25) {
            let rows = ledger.fitting_rows(bytes[1], &bytes[3..5], bytes[5]);
            *self.lengths.entry(rows.len()).or_default() += 1;
        }
        self.drafts_left += (refusal != 0 && ledger.draft.is_some()) as usize;
    }

    fn of_length(&self, rows: usize) -> usize {
        self.lengths.get(&rows).copied().unwrap_or(0)
    }

    fn print(&self) {
        let [none, below, full, over] = [0, 63, 64, 65].map(|rows| self.of_length(rows));
        println!("gap rules in lists: {none} without rows, {below} of 63 rows, {full} of 64, {over} of 65");
        println!("drafts left by refused gap rules: {}", self.drafts_left);
        println!("rows sent to drafts of gap rules: {}", decisions(&self.rows));
        println!("puts of drafts of gap rules: {}", decisions(&self.puts));
    }

    /// Gap rules had no rows, or about as many as there may be; refused ones left a draft; and their own drafts were put, and took rows but none twice.
    fn check_complete(&self) {
        for rows in [0, 63, 64, 65] {
            assert!(self.of_length(rows) > 0, "no gap rule in a list had {rows} rows");
        }
        assert!(self.drafts_left > 0, "no refused gap rule left a draft");
        for number in [0, 13, 15] {
            assert!(self.rows[number] > 0, "no row for the draft of a gap rule was answered {number}");
        }
        for number in [0, 16] {
            assert!(self.puts[number] > 0, "no put of the draft of a gap rule was answered {number}");
        }
    }
}
