//! A host's board beside a ledger and a filter from scratch: each answer, report, field, byte and record is held to theirs.

use crate::berth::{Board, Report};
use crate::filter::{self, Slots};
use crate::host::{number_of, part_under, value_of, Fenced, Host};
use crate::ledger::{self, Ledger};
use crate::marks::Past;
use crate::summary::table_of;
use crate::tally::Tally;
use crate::touched::touched_by;

pub struct Session<'a> {
    pub host: Host,
    /// the same commands on the wrapper's own board
    pub board: Board,
    pub ledger: Ledger,
    pub open: Slots,
    pub struck: Slots,
    /// whether a gap rule began the draft
    gap_draft: bool,
    /// the buffers at the last mark of each name
    kept: [Option<[Fenced<u8>; 3]>; 2],
    /// what became of each name
    past: [Past; 2],
    pub tally: &'a mut Tally,
}

impl<'a> Session<'a> {
    /// A fresh board beside these marks' bytes.
    pub fn new(tally: &'a mut Tally, marks: &[u8]) -> Self {
        let (host, board, ledger) = (Host::fresh_beside(&Fenced::new(marks)), Board::new(), Ledger::default());
        assert_eq!(host.value, value_of(&ledger), "the value before the first command");
        let (kept, past) = ([None, None], [Past::Nothing; 2]);
        let (open, struck) = (vec![], vec![]);
        let session = Session { host, board, ledger, open, struck, gap_draft: false, kept, past, tally };
        session.check_board();
        session
    }

    pub fn command(&mut self, bytes: &[u8]) {
        let refusal = self.ledger.refusal(self.host.lengths(), bytes);
        let (answer, before) = self.host.command(bytes);
        assert_eq!(answer, self.board.command(bytes), "two answers to {bytes:?}");
        assert_eq!(number_of(&answer), refusal, "the refusal of {bytes:?}");
        self.tally.command(bytes, refusal, &self.ledger);
        self.tally.marks.command(&mut self.past, bytes, &answer, &self.ledger);
        self.tally.cancelled.command(bytes, &answer, &self.ledger, &self.open);
        if let Ok(report) = answer {
            self.accepted(bytes, report, &before);
        }
        self.count_gaps(bytes, refusal);
        self.check_tables(bytes, answer.is_ok());
    }

    /// Counts gap rules, and rows and puts of the drafts that they begin.
    fn count_gaps(&mut self, bytes: &[u8], refusal: u8) {
        let gaps = &mut self.tally.gaps;
        match bytes.first() {
            Some(&ledger::GAP) => gaps.rule(bytes, refusal, &self.ledger),
            Some(&ledger::ROW) if self.gap_draft => gaps.rows[refusal as usize] += 1,
            Some(&ledger::PUT) if self.gap_draft => gaps.puts[refusal as usize] += 1,
            _ => (),
        }
        if refusal == 0 {
            let stays = matches!(bytes[0], ledger::ROW | ledger::LIFT | ledger::MARK | ledger::CANCEL);
            self.gap_draft = self.gap_draft && stays || bytes[0] == ledger::GAP;
        }
    }

    /// The wrapper's table is current after every command, and the host's, which may have been altered, after an accepted one. (host.rs asserts that a refused one
    /// leaves it.)
    fn check_tables(&mut self, bytes: &[u8], accepted: bool) {
        let current = table_of(&self.ledger, &self.open);
        assert_eq!(self.board.summaries(), &current, "the wrapper's summary table after {bytes:?}");
        assert!(!accepted || self.host.table.inside() == current, "the summary table after {bytes:?}");
        self.tally.tables += 1;
    }

    /// The ledger follows, and the value, every byte and the report are as it says.
    fn accepted(&mut self, bytes: &[u8], report: Report, before: &Host) {
        let touched = touched_by(bytes, &self.ledger, before.memory(), report.struck, report.reopened);
        self.ledger.obey(bytes);
        assert_eq!(self.host.value, value_of(&self.ledger), "the value after {bytes:?}");
        let before_it = [self.open.clone(), self.struck.clone()];
        if ledger::leaves_buffers(bytes[0]) {
            assert!(self.host.buffers == before.buffers, "{bytes:?} writes to the buffers");
        } else {
            self.open = filter::open_slots(&self.ledger);
            self.struck = filter::struck_slots(&self.ledger, &self.open);
            crate::records::check(&self.ledger, &self.open, self.host.memory());
        }
        self.check_kept(bytes);
        self.check_report(bytes, report, before_it.each_ref());
        assert_eq!(report.touched, touched, "T of {bytes:?}");
    }

    /// Every byte that a back leaves is what it was at the mark. (host.rs asserts what the marks are after each command.)
    fn check_kept(&mut self, bytes: &[u8]) {
        match bytes {
            [ledger::MARK, name] => self.kept[*name as usize] = Some(self.host.buffers.clone()),
            [ledger::BACK, name] => {
                let kept = self.kept[*name as usize].as_ref();
                assert!(kept == Some(&self.host.buffers), "{bytes:?} leaves other bytes than were kept");
            }
            _ => (),
        }
    }

    /// The open and the struck slots before the command are these. Of a cancellation S is 0, and the call's own slots are in no count.
    fn check_report(&mut self, bytes: &[u8], report: Report, before: [&Slots; 2]) {
        let (struck, reopened) = filter::report_of(bytes[0], before, [&self.open, &self.struck]);
        assert_eq!((report.struck, report.reopened), (struck, reopened), "S and R of {bytes:?}");
        assert!(bytes[0] != ledger::CANCEL || struck == 0, "{bytes:?} strikes something");
        self.tally.report(bytes[0], report);
    }

    /// The wrapper's own board has come to hold the same, marks among it where a board is kept, and a current table.
    pub fn check_board(&self) {
        let (board, host) = (self.board.memory(), self.host.memory());
        assert!(*self.board.value() == self.host.value, "the wrapper's board has another value");
        let same = (board.rows, board.killers, board.slots) == (host.rows, host.killers, host.slots);
        assert!(same, "the wrapper's board has other bytes");
        for name in (0..2).filter(|name| self.ledger.kept_under(*name).is_some()) {
            let [board, host] = [self.board.marks(), self.host.marks.inside()].map(|marks| &marks[part_under(name)]);
            assert!(board == host, "the wrapper's board keeps other bytes under the name {name}");
        }
        assert_eq!(self.board.summaries(), &table_of(&self.ledger, &self.open), "the wrapper's summary table");
    }
}
