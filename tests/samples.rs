//! Samples whose values are written out: the texts in samples/, whose sheets stand beside them, the sample boards (SCOPE 8), gap rules, marks, cancelled calls,
//! plans and first plans.

use crate::berth::lent::Memory;
use crate::berth::{Board, PlanCheck, Row, Slot, Summary};
use crate::host::{first_plan, number_of, FirstReply};
use crate::ledger::{BACK, CANCEL, GAP, HEAD, LAST_KIND, MARK};
use crate::sheet::{check_total, program_writes, sheet_of};
use crate::tally::Tally;
use std::path::Path;
use std::process::Command;

/// The bytes of a text of commands, by the tool that users have.
fn bytes_of(text: &Path) -> Vec<u8> {
    let output = Command::new("tools/commands").arg("bytes").arg(text).output().expect("tools/commands");
    assert!(output.status.success(), "tools/commands refuses {}", text.display());
    output.stdout
}

/// Every text has its sheet, from the program and from the tests' own writer.
fn check_texts(tally: &mut Tally) {
    let mut seen = vec![];
    for entry in std::fs::read_dir("samples").unwrap() {
        let text = entry.unwrap().path();
        if text.extension().is_none_or(|extension| extension != "txt") {
            continue;
        }
        let sheet = std::fs::read_to_string(text.with_extension("sheet"));
        let sheet = sheet.unwrap_or_else(|why| panic!("the sheet beside {}: {why}", text.display()));
        let bytes = bytes_of(&text);
        assert_eq!(program_writes(&bytes), sheet, "the program's sheet of {}", text.display());
        assert_eq!(sheet_of(&bytes, tally), sheet, "the tests' sheet of {}", text.display());
        check_total(&bytes, &sheet, tally);
        seen.push(text.file_stem().unwrap().to_str().unwrap().to_owned());
    }
    for name in ["ac3-example", "fog", "harbour", "pilot", "session", "storm"] {
        assert!(seen.iter().any(|other| other == name), "there is no sample {name}");
    }
    tally.files += seen.len();
}

fn open(board: &Board, call: u8) -> Vec<u32> {
    let mask = board.open_slots(call).unwrap().mask;
    (0..32).filter(|slot| mask >> slot & 1 == 1).collect()
}

/// The first records of the table, by open slots, struck slots and rules; the others are zeros.
fn figures<const CALLS: usize>(board: &Board) -> [(u8, u8, u8); CALLS] {
    let (first, others) = board.summaries().split_at(CALLS);
    assert!(others.iter().all(|record| *record == Summary::default()), "records of no call: {others:?}");
    std::array::from_fn(|call| (first[call].open, first[call].struck, first[call].rules))
}

/// Puts a rule. S is to be this.
fn put(board: &mut Board, number: u8, calls: &[u8], rows: &[&[u8]], struck: usize) {
    board.head(number, calls).unwrap();
    for row in rows {
        board.row(row).unwrap();
    }
    assert_eq!(board.put().unwrap().struck, struck, "S of rule {number} on {calls:?}");
}

/// P1 to P3: two rules come into force, and the first leaves.
fn check_put_and_lift() {
    let mut board = Board::new();
    board.start(&[3, 3, 2]).unwrap();
    put(&mut board, 0, &[0, 1], &[&[0, 1], &[0, 2], &[1, 2]], 2);
    assert_eq!([0, 1, 2].map(|call| open(&board, call)), [vec![0, 1], vec![1, 2], vec![0, 1]], "P1");
    assert_eq!(figures(&board), [(2, 1, 1), (2, 1, 1), (2, 0, 0)], "P1");
    put(&mut board, 1, &[1, 2], &[&[1, 0], &[0, 1]], 3);
    assert_eq!([0, 1, 2].map(|call| open(&board, call)), [[0], [1], [0]], "P2");
    assert_eq!(figures(&board), [(1, 2, 1), (1, 2, 2), (1, 1, 1)], "P2");
    assert_eq!(board.lift(0).unwrap().reopened, 4, "P3");
    assert_eq!([0, 1, 2].map(|call| open(&board, call)), [vec![0, 1, 2], vec![0, 1], vec![0, 1]], "P3");
    assert_eq!(figures(&board), [(3, 0, 0), (2, 1, 1), (2, 0, 1)], "P3");
}

/// P5 and P6: a rule without rows closes its call alone, until it is lifted.
fn check_closed_call() {
    let mut board = Board::new();
    board.start(&[2, 3]).unwrap();
    put(&mut board, 9, &[0], &[], 2);
    assert_eq!([0, 1].map(|call| open(&board, call)), [vec![], vec![0, 1, 2]], "P5");
    assert_eq!(figures(&board), [(0, 2, 1), (3, 0, 0)], "P5");
    assert_eq!(board.lift(9).unwrap().reopened, 2, "P6");
    assert_eq!([0, 1].map(|call| open(&board, call)), [vec![0, 1], vec![0, 1, 2]], "P6");
    assert_eq!(figures(&board), [(2, 0, 0), (3, 0, 0)], "P6");
}

/// P7 to P12: the largest count, rule number and number of rows, and one more of each.
fn check_limits() {
    let mut board = Board::new();
    assert_eq!(number_of(&board.start(&[32, 32])), 0, "P7");
    assert_eq!(number_of(&board.start(&[33])), 5, "P8");
    assert_eq!(number_of(&board.head(64, &[0])), 7, "P10");
    assert_eq!(number_of(&board.head(63, &[0, 1])), 0, "P9");
    for row in 0..64 {
        assert_eq!(number_of(&board.row(&[row / 2, row % 2])), 0, "P11, row {row}");
    }
    assert_eq!(number_of(&board.row(&[0, 2])), 13, "P12");
    assert_eq!(board.put().unwrap().struck, 30, "the slots of call 1 that no row has");
    assert_eq!(figures(&board), [(32, 0, 1), (2, 30, 1)]);
}

/// A put under a number in force keeps the draft, which can be put once the number is free; and a number not in force cannot be lifted.
fn check_numbers() {
    let mut board = Board::new();
    board.start(&[2, 2]).unwrap();
    put(&mut board, 0, &[0], &[&[0]], 1);
    board.head(0, &[1]).unwrap();
    board.row(&[1]).unwrap();
    assert_eq!(number_of(&board.put()), 16);
    assert_eq!(number_of(&board.lift(5)), 17);
    assert_eq!(board.lift(0).unwrap().reopened, 1);
    assert_eq!(board.put().unwrap().struck, 1);
    assert_eq!([0, 1].map(|call| open(&board, call)), [vec![0, 1], vec![1]]);
}

/// The number that a gap rule is refused under; 0 where it is accepted.
fn gap_refusal(board: &mut Board, form: u8, number: u8, calls: [u8; 2], gap: u8) -> u8 {
    number_of(&board.command(&[GAP, form, number, calls[0], calls[1], gap]))
}

/// Puts a gap rule, and returns the slots in its rows.
fn put_gap_rule(board: &mut Board, form: u8, number: u8, calls: [u8; 2], gap: u8) -> Vec<[u8; 2]> {
    assert_eq!(gap_refusal(board, form, number, calls, gap), 0, "form {form} with gap {gap} on {calls:?}");
    board.put().unwrap();
    let rows = (0..64).map(|row| board.row_bytes(number, row)).take_while(|bytes| !bytes.is_empty());
    rows.map(|bytes| {
        assert_eq!(bytes[2..], [255, 255], "the columns past the second");
        [bytes[0], bytes[1]]
    })
    .collect()
}

/// The three forms, each with its rows in their order.
fn check_gap_forms() {
    let mut board = Board::new();
    board.start(&[3, 4]).unwrap();
    let rows = put_gap_rule(&mut board, 1, 0, [0, 1], 1);
    assert_eq!(rows, [[0, 1], [0, 2], [0, 3], [1, 2], [1, 3], [2, 3]], "form 1");
    assert_eq!([0, 1].map(|call| open(&board, call)), [vec![0, 1, 2], vec![1, 2, 3]], "form 1");
    assert_eq!(board.lift(0).unwrap().reopened, 1, "form 1");
    assert_eq!(put_gap_rule(&mut board, 1, 1, [1, 0], 1), [[0, 1], [0, 2], [1, 2]], "form 1, the calls exchanged");
    assert_eq!(board.lift(1).unwrap().reopened, 3, "form 1, the calls exchanged");
    assert_eq!(put_gap_rule(&mut board, 2, 2, [0, 1], 2), [[0, 2], [0, 3], [1, 3], [2, 0]], "form 2");
    assert_eq!([0, 1].map(|call| open(&board, call)), [vec![0, 1, 2], vec![0, 2, 3]], "form 2");
    assert_eq!(put_gap_rule(&mut board, 3, 3, [0, 1], 0), [[0, 0], [1, 1], [2, 2]], "form 3");
    assert_eq!([0, 1].map(|call| open(&board, call)), [[0, 2], [0, 2]], "forms 2 and 3");
    assert_eq!(figures(&board), [(2, 1, 2), (2, 2, 2)], "forms 2 and 3");
}

/// As many rows as there may be, one less and one more; none; and the largest gap.
fn check_gap_limits() {
    let mut board = Board::new();
    board.start(&[8, 8, 5, 13, 2, 32, 10, 11, 32]).unwrap();
    assert_eq!(gap_refusal(&mut board, 2, 63, [0, 1], 0), 0, "64 rows");
    assert_eq!(number_of(&board.row(&[0, 0])), 13, "a row more than 64");
    assert_eq!(gap_refusal(&mut board, 2, 63, [2, 3], 0), 25, "65 rows");
    assert_eq!(gap_refusal(&mut board, 2, 63, [5, 8], 0), 25, "1,024 rows");
    assert_eq!(gap_refusal(&mut board, 1, 63, [6, 7], 0), 25, "65 rows in form 1");
    assert_eq!(gap_refusal(&mut board, 1, 63, [4, 5], 0), 0, "63 rows in form 1");
    assert_eq!(put_gap_rule(&mut board, 2, 63, [4, 5], 0).len(), 64);
    assert_eq!(put_gap_rule(&mut board, 1, 0, [5, 8], 31), [[0, 31]]);
    assert_eq!(put_gap_rule(&mut board, 2, 1, [8, 5], 31), [[0, 31], [31, 0]]);
    assert_eq!(gap_refusal(&mut board, 1, 2, [5, 8], 32), 24);
    assert_eq!(put_gap_rule(&mut board, 1, 3, [2, 1], 8), [[0; 2]; 0], "no rows");
    assert_eq!([2, 1, 0].map(|call| open(&board, call).len()), [0, 0, 8], "no rows");
}

/// Gap rules with several things wrong, and fewer from one to the next. The last two have too many rows.
fn check_gap_refusals() {
    let mut board = Board::new();
    assert_eq!(number_of(&board.command(&[LAST_KIND + 1, 4, 64, 2, 2, 32])), 3);
    assert_eq!(number_of(&board.command(&[GAP, 4, 64, 2, 2])), 4);
    assert_eq!(number_of(&board.command(&[GAP, 4, 64, 2, 2, 32, 0])), 4);
    assert_eq!(gap_refusal(&mut board, 4, 64, [2, 2], 32), 6);
    board.start(&[32, 32]).unwrap();
    assert_eq!(gap_refusal(&mut board, 4, 64, [2, 2], 32), 7);
    assert_eq!(gap_refusal(&mut board, 4, 63, [2, 2], 32), 23);
    assert_eq!(gap_refusal(&mut board, 0, 63, [2, 2], 32), 23);
    assert_eq!(gap_refusal(&mut board, 3, 63, [2, 2], 32), 9);
    assert_eq!(gap_refusal(&mut board, 3, 63, [0, 2], 1), 9);
    assert_eq!(gap_refusal(&mut board, 3, 63, [32, 1], 1), 9);
    assert_eq!(gap_refusal(&mut board, 3, 63, [1, 1], 1), 10);
    assert_eq!(gap_refusal(&mut board, 3, 63, [0, 1], 1), 24);
    assert_eq!(gap_refusal(&mut board, 2, 63, [0, 1], 32), 24);
    assert_eq!(gap_refusal(&mut board, 2, 63, [1, 1], 0), 10);
    assert_eq!(gap_refusal(&mut board, 2, 63, [0, 1], 0), 25);
}

/// A refused gap rule leaves the draft that there is, an accepted one takes its place, and its own can get more rows.
fn check_gap_drafts() {
    let mut board = Board::new();
    board.start(&[9, 9]).unwrap();
    board.head(7, &[0]).unwrap();
    board.row(&[4]).unwrap();
    assert_eq!(gap_refusal(&mut board, 0, 8, [0, 1], 0), 23);
    assert_eq!(gap_refusal(&mut board, 1, 8, [0, 2], 0), 9);
    assert_eq!(gap_refusal(&mut board, 1, 8, [1, 1], 0), 10);
    assert_eq!(gap_refusal(&mut board, 3, 8, [0, 1], 1), 24);
    assert_eq!(gap_refusal(&mut board, 2, 8, [0, 1], 0), 25);
    assert_eq!(board.put().unwrap().struck, 8, "the draft that refused gap rules left");
    assert_eq!((board.row_bytes(7, 0), board.row_bytes(8, 0)), (&[4, 255, 255, 255][..], &[][..]));
    board.head(7, &[0]).unwrap();
    assert_eq!(gap_refusal(&mut board, 3, 9, [0, 1], 0), 0);
    assert_eq!(number_of(&board.row(&[8, 8])), 15);
    assert_eq!(number_of(&board.row(&[4, 9])), 14);
    assert_eq!(number_of(&board.row(&[4, 6])), 0);
    assert_eq!(board.put().unwrap().struck, 7, "equal slots and a row more");
    assert_eq!([0, 1].map(|call| open(&board, call)), [vec![4], vec![4, 6]]);
    assert_eq!(board.row_bytes(9, 9), [4, 6, 255, 255]);
}

/// The board is brought back from the name. S, R and T are to be these.
fn back(board: &mut Board, name: u8, [struck, reopened, touched]: [usize; 3]) {
    let report = board.back(name).unwrap();
    let found = [report.struck, report.reopened, report.touched];
    assert_eq!(found, [struck, reopened, touched], "S, R and T of a back of {name}");
}

/// P1 and P2 are kept, and brought back from P3 and from each other, with their rules, causes and killers. Either stays kept.
fn check_marks() {
    let mut board = Board::new();
    board.start(&[3, 3, 2]).unwrap();
    put(&mut board, 0, &[0, 1], &[&[0, 1], &[0, 2], &[1, 2]], 2);
    board.mark(0).unwrap();
    put(&mut board, 1, &[1, 2], &[&[1, 0], &[0, 1]], 3);
    board.mark(1).unwrap();
    board.lift(0).unwrap();
    back(&mut board, 0, [2, 1, 3]);
    assert_eq!([0, 1, 2].map(|call| open(&board, call)), [vec![0, 1], vec![1, 2], vec![0, 1]], "P1 from P3");
    assert_eq!(figures(&board), [(2, 1, 1), (2, 1, 1), (2, 0, 0)], "P1 from P3");
    assert_eq!(board.slot_state(1, 0), Ok(Slot::Struck { cause: 0 }), "P1 from P3");
    assert_eq!(number_of(&board.row_state(1, 0)), 17, "P1 from P3");
    back(&mut board, 1, [3, 0, 3]);
    assert_eq!([0, 1, 2].map(|call| open(&board, call)), [[0], [1], [0]], "P2 from P1");
    assert_eq!(figures(&board), [(1, 2, 1), (1, 2, 2), (1, 1, 1)], "P2 from P1");
    assert_eq!(board.slot_state(2, 1), Ok(Slot::Struck { cause: 1 }), "P2 from P1");
    assert_eq!([0, 1].map(|row| board.row_state(1, row)), [Ok(Row::Alive), Ok(Row::Dead { killer: 0 })], "P2 from P1");
    back(&mut board, 1, [0, 0, 0]);
    back(&mut board, 0, [0, 3, 3]);
    assert_eq!(board.lift(0).unwrap().reopened, 2, "P1 from P2");
    back(&mut board, 1, [5, 0, 5]);
    assert_eq!(board.lift(0).unwrap().reopened, 4, "P3 from P2");
}

/// A mark leaves the draft and so does a refused back; an accepted one drops it.
fn check_mark_drafts() {
    let mut board = Board::new();
    board.start(&[2, 2]).unwrap();
    board.head(7, &[0]).unwrap();
    board.row(&[1]).unwrap();
    let report = board.mark(0).unwrap();
    assert_eq!([report.struck, report.reopened, report.touched], [0; 3]);
    assert_eq!(number_of(&board.back(1)), 27);
    assert_eq!(board.put().unwrap().struck, 1, "the draft that a mark left");
    board.head(8, &[1]).unwrap();
    back(&mut board, 0, [0, 1, 1]);
    assert_eq!(number_of(&board.put()), 12);
    assert_eq!(number_of(&board.row(&[0])), 12);
    assert_eq!(figures(&board), [(2, 0, 0), (2, 0, 0)]);
}

/// Marks and backs with several things wrong, and fewer from one to the next. A new board forgets the marks, and a refused one leaves them.
fn check_mark_refusals() {
    let mut board = Board::new();
    assert_eq!(number_of(&board.command(&[LAST_KIND + 1, 2])), 3);
    for kind in [MARK, BACK] {
        assert_eq!(number_of(&board.command(&[kind])), 4);
        assert_eq!(number_of(&board.command(&[kind, 2, 0])), 4);
        assert_eq!(number_of(&board.command(&[kind, 2])), 6);
        assert_eq!(number_of(&board.command(&[kind, 0])), 6);
    }
    board.start(&[3]).unwrap();
    assert_eq!([2, 255].map(|name| number_of(&board.mark(name))), [26; 2]);
    assert_eq!([2, 255].map(|name| number_of(&board.back(name))), [26; 2]);
    assert_eq!([0, 1].map(|name| number_of(&board.back(name))), [27; 2]);
    assert_eq!(number_of(&board.mark(1)), 0);
    assert_eq!([0, 1, 2].map(|name| number_of(&board.back(name))), [27, 0, 26]);
    assert_eq!(number_of(&board.start(&[33])), 5);
    assert_eq!([0, 1].map(|name| number_of(&board.back(name))), [27, 0]);
    assert_eq!(number_of(&board.start(&[3])), 0);
    assert_eq!([0, 1].map(|name| number_of(&board.back(name))), [27; 2]);
}

/// The call is cancelled. S is 0, and R and T are to be these.
fn cancel(board: &mut Board, call: u8, [reopened, touched]: [usize; 2]) {
    let report = board.cancel(call).unwrap();
    let found = [report.struck, report.reopened, report.touched];
    assert_eq!(found, [0, reopened, touched], "S, R and T of the cancellation of call {call}");
}

/// Call 1 of P2 is cancelled. Slot 1 of call 0 and slot 1 of call 2 leaned on its struck slots, and are open again. Slot 2 of call 0, which is in no row, stays
/// struck.
fn check_cancel() {
    let mut board = Board::new();
    board.start(&[3, 3, 2]).unwrap();
    put(&mut board, 0, &[0, 1], &[&[0, 1], &[0, 2], &[1, 2]], 2);
    put(&mut board, 1, &[1, 2], &[&[1, 0], &[0, 1]], 3);
    cancel(&mut board, 1, [2, 2]);
    assert_eq!([0, 1, 2].map(|call| open(&board, call)), [vec![0, 1], vec![], vec![0, 1]]);
    assert_eq!(figures(&board), [(2, 1, 1), (0, 0, 2), (2, 0, 1)]);
    assert_eq!([0, 1, 2].map(|slot| board.slot_state(1, slot)), [Ok(Slot::Cancelled); 3]);
    assert_eq!(number_of(&board.slot_state(1, 3)), 19);
    assert_eq!(board.slot_state(0, 2), Ok(Slot::Struck { cause: 0 }));
    assert_eq!([0, 1, 2].map(|row| board.row_state(0, row)), [Ok(Row::Alive); 3]);
    assert_eq!([0, 1].map(|row| board.row_state(1, row)), [Ok(Row::Alive); 2]);
    assert_eq!([0, 1, 2].map(|slot| board.support(0, 1, slot)), [Ok(None); 3], "in the cancelled column");
    assert_eq!([0, 1, 2].map(|slot| board.support(0, 0, slot)), [Ok(Some(0)), Ok(Some(2)), Ok(None)]);
    assert_eq!(board.support(1, 1, 1), Ok(Some(1)));
    assert_eq!((number_of(&board.support(0, 1, 3)), number_of(&board.support(0, 2, 0))), (19, 21));
    assert_eq!(board.lift(0).unwrap().reopened, 1);
    assert_eq!(figures(&board), [(3, 0, 0), (0, 0, 1), (2, 0, 1)]);
}

/// A row has a struck slot in both columns. Its killer was in the column of the call that is cancelled, and is in the other then: the row stays dead.
fn check_other_killer() {
    let mut board = Board::new();
    board.start(&[2, 2]).unwrap();
    put(&mut board, 5, &[0], &[&[1]], 1);
    put(&mut board, 6, &[1], &[&[1]], 1);
    put(&mut board, 7, &[0, 1], &[&[0, 0], &[1, 1]], 0);
    assert_eq!(board.row_state(7, 0), Ok(Row::Dead { killer: 0 }));
    cancel(&mut board, 0, [0, 0]);
    assert_eq!([0, 1].map(|row| board.row_state(7, row)), [Ok(Row::Dead { killer: 1 }), Ok(Row::Alive)]);
    assert_eq!(figures(&board), [(0, 0, 2), (1, 1, 2)]);
    assert_eq!(board.lift(6).unwrap().reopened, 1);
    assert_eq!([0, 1].map(|row| board.row_state(7, row)), [Ok(Row::Alive); 2]);
}

/// A touched slot is struck again: slot 1 of call 0 leaned on call 1, and has no row in rule 2 either.
fn check_struck_again() {
    let mut board = Board::new();
    board.start(&[2, 2]).unwrap();
    put(&mut board, 0, &[0, 1], &[&[0, 0], &[1, 1]], 0);
    put(&mut board, 1, &[1], &[&[0]], 2);
    put(&mut board, 2, &[0], &[&[0]], 0);
    assert_eq!(board.slot_state(0, 1), Ok(Slot::Struck { cause: 0 }));
    cancel(&mut board, 1, [0, 1]);
    assert_eq!(board.slot_state(0, 1), Ok(Slot::Struck { cause: 2 }));
    assert_eq!(figures(&board), [(1, 1, 2), (0, 0, 2)]);
}

/// A rule without rows goes on striking its other call, and nothing where all its calls are cancelled. A rule put on a cancelled call does the same.
fn check_cancelled_without_rows() {
    let mut board = Board::new();
    board.start(&[2, 3]).unwrap();
    put(&mut board, 9, &[0, 1], &[], 5);
    cancel(&mut board, 0, [0, 0]);
    assert_eq!(figures(&board), [(0, 0, 1), (0, 3, 1)]);
    assert_eq!(board.lift(9).unwrap().reopened, 3);
    board.start(&[2, 3]).unwrap();
    board.head(9, &[0, 1]).unwrap();
    cancel(&mut board, 0, [0, 0]);
    assert_eq!(board.put().unwrap().struck, 3, "a rule without rows on a cancelled call");
    board.head(8, &[1]).unwrap();
    cancel(&mut board, 1, [0, 0]);
    assert_eq!(board.put().unwrap().struck, 0, "a rule on cancelled calls alone");
    assert_eq!(figures(&board), [(0, 0, 1), (0, 0, 2)]);
}

/// A draft from before the cancellation can get rows, with any slot that the call had, and is put: it binds its other call alone.
fn check_cancelled_draft() {
    let mut board = Board::new();
    board.start(&[3, 4]).unwrap();
    board.head(3, &[0, 1]).unwrap();
    board.row(&[0, 1]).unwrap();
    cancel(&mut board, 0, [0, 0]);
    assert_eq!([[2, 3], [2, 3], [3, 2], [0, 4]].map(|row| number_of(&board.row(&row))), [0, 15, 14, 14]);
    assert_eq!(board.put().unwrap().struck, 2);
    assert_eq!([0, 1].map(|call| open(&board, call)), [vec![], vec![1, 3]]);
    assert_eq!([1, 3].map(|slot| board.support(3, 1, slot)), [Ok(Some(0)), Ok(Some(1))]);
    assert_eq!(board.lift(3).unwrap().reopened, 2);
}

/// A back brings back the cancellations of its mark and no others. A slot of a call that is cancelled before or after it is in no count.
fn check_cancelled_marks() {
    let mut board = Board::new();
    board.start(&[3, 3, 2]).unwrap();
    put(&mut board, 0, &[0, 1], &[&[0, 1], &[0, 2], &[1, 2]], 2);
    put(&mut board, 1, &[1, 2], &[&[1, 0], &[0, 1]], 3);
    board.mark(0).unwrap();
    cancel(&mut board, 1, [2, 2]);
    board.mark(1).unwrap();
    cancel(&mut board, 0, [0, 0]);
    back(&mut board, 0, [1, 0, 1]);
    assert_eq!([0, 1, 2].map(|call| open(&board, call)), [[0], [1], [0]], "P2");
    assert_eq!(board.slot_state(1, 0), Ok(Slot::Struck { cause: 0 }), "P2");
    cancel(&mut board, 2, [0, 0]);
    back(&mut board, 1, [0, 1, 1]);
    assert_eq!(figures(&board), [(2, 1, 1), (0, 0, 2), (2, 0, 1)]);
    assert_eq!(number_of(&board.cancel(1)), 28);
    assert_eq!(number_of(&board.start(&[33])), 5);
    assert_eq!(number_of(&board.cancel(1)), 28);
    board.start(&[3, 3, 2]).unwrap();
    assert_eq!(figures(&board), [(3, 0, 0), (3, 0, 0), (2, 0, 0)]);
    cancel(&mut board, 1, [0, 0]);
}

/// Cancellations, and new rules on a cancelled call, with several things wrong, and fewer from one to the next. The draft that there is stays.
fn check_cancel_refusals() {
    let mut board = Board::new();
    assert_eq!(number_of(&board.command(&[LAST_KIND + 1, 0])), 3);
    assert_eq!(number_of(&board.command(&[CANCEL])), 4);
    assert_eq!(number_of(&board.command(&[CANCEL, 2, 0])), 4);
    assert_eq!([0, 255].map(|call| number_of(&board.cancel(call))), [6; 2]);
    board.start(&[9, 9]).unwrap();
    assert_eq!([2, 31, 32, 255].map(|call| number_of(&board.cancel(call))), [18; 4]);
    board.head(7, &[1]).unwrap();
    board.row(&[4]).unwrap();
    cancel(&mut board, 0, [0, 0]);
    assert_eq!([0, 2].map(|call| number_of(&board.cancel(call))), [28, 18]);
    let mut head = |fields: [u8; 6]| number_of(&board.command(&[&[HEAD], &fields[..]].concat()));
    assert_eq!(head([64, 5, 0, 0, 2, 0]), 7);
    assert_eq!(head([63, 5, 0, 0, 2, 0]), 8);
    assert_eq!(head([63, 3, 0, 0, 2, 0]), 9);
    assert_eq!(head([63, 2, 0, 0, 2, 0]), 29);
    assert_eq!(head([63, 2, 1, 0, 2, 0]), 29);
    assert_eq!(head([63, 2, 1, 1, 0, 0]), 10);
    assert_eq!(head([63, 1, 1, 0, 0, 0]), 11, "the cancelled call stands past the arity");
    assert_eq!(gap_refusal(&mut board, 4, 63, [0, 0], 32), 23);
    assert_eq!(gap_refusal(&mut board, 2, 63, [0, 2], 32), 9);
    assert_eq!(gap_refusal(&mut board, 2, 63, [0, 0], 32), 29);
    assert_eq!(gap_refusal(&mut board, 2, 63, [0, 1], 32), 29);
    assert_eq!(gap_refusal(&mut board, 2, 63, [1, 0], 0), 29);
    assert_eq!(gap_refusal(&mut board, 2, 63, [1, 1], 32), 10);
    assert_eq!(board.put().unwrap().struck, 8, "the draft that they left");
}

/// A plan with these bytes for the first calls, and 255 for the others.
fn plan_of(first: &[u8]) -> Vec<u8> {
    let mut plan = first.to_vec();
    plan.resize(32, 255);
    plan
}

/// The lowest rule that the plan breaks; none where it is kept.
fn broken(board: &Board, first: &[u8]) -> Option<u8> {
    match board.check_plan(&plan_of(first)).unwrap() {
        PlanCheck::Kept => None,
        PlanCheck::Broken { rule } => Some(rule),
    }
}

/// P2 has one full plan. Of two broken rules the lower one is named. Slot 1 of call 0 is struck, and with slot 2 of call 1 it is a row of rule 0: the rule that
/// is broken is not on call 0. With call 1 cancelled its column does not count in either rule.
fn check_plans() {
    let mut board = Board::new();
    board.start(&[3, 3, 2]).unwrap();
    assert_eq!(broken(&board, &[2, 2, 1]), None, "without rules");
    put(&mut board, 0, &[0, 1], &[&[0, 1], &[0, 2], &[1, 2]], 2);
    put(&mut board, 1, &[1, 2], &[&[1, 0], &[0, 1]], 3);
    assert_eq!(broken(&board, &[0, 1, 0]), None);
    assert_eq!([[0, 1, 1], [0, 2, 0], [1, 2, 0]].map(|plan| broken(&board, &plan)), [Some(1); 3]);
    assert_eq!([[1, 1, 0], [0, 0, 1], [2, 2, 1]].map(|plan| broken(&board, &plan)), [Some(0); 3]);
    cancel(&mut board, 1, [2, 2]);
    assert_eq!([[0, 255, 0], [0, 255, 1], [1, 255, 1]].map(|plan| broken(&board, &plan)), [None; 3]);
    assert_eq!(broken(&board, &[2, 255, 1]), Some(0));
}

/// A rule without rows is broken by every plan, until all its calls are cancelled. With all calls cancelled there is one plan, and it is kept.
fn check_plans_without_rows() {
    let mut board = Board::new();
    board.start(&[2, 3]).unwrap();
    put(&mut board, 9, &[0, 1], &[], 5);
    assert_eq!(broken(&board, &[0, 0]), Some(9));
    cancel(&mut board, 0, [0, 0]);
    assert_eq!(broken(&board, &[255, 2]), Some(9));
    cancel(&mut board, 1, [0, 0]);
    assert_eq!(broken(&board, &[]), None);
}

/// Plans with several things wrong, and fewer from one to the next.
fn check_plan_refusals() {
    let mut board = Board::new();
    let refusal = |board: &Board, plan: &[u8]| number_of(&board.check_plan(plan));
    let short = Memory { killers: &[255; 4095], ..board.memory() };
    assert_eq!([0, 31, 32, 33].map(|length| number_of(&short.check_plan(&vec![0; length]))), [1; 4]);
    assert_eq!([0, 31, 33].map(|length| refusal(&board, &vec![0; length])), [32; 3]);
    assert_eq!([0, 255].map(|byte| refusal(&board, &[byte; 32])), [6; 2]);
    board.start(&[4, 1, 32]).unwrap();
    put(&mut board, 63, &[0], &[&[3]], 3);
    cancel(&mut board, 1, [0, 0]);
    assert_eq!([31, 33].map(|length| refusal(&board, &vec![255; length])), [32; 2]);
    assert_eq!(
        [[4, 255, 31], [255, 255, 31], [3, 255, 32], [3, 255, 255]].map(|plan| refusal(&board, &plan_of(&plan))),
        [33; 4]
    );
    assert_eq!([[3, 0, 31], [3, 1, 31]].map(|plan| refusal(&board, &plan_of(&plan))), [33; 2], "for a cancelled call");
    let last = [&plan_of(&[3, 255, 31])[..31], &[0]].concat();
    assert_eq!([plan_of(&[3, 255, 31, 0]), last].map(|plan| refusal(&board, &plan)), [33; 2], "for an absent call");
    assert_eq!([0, 1, 2].map(|slot| broken(&board, &[slot, 255, 31])), [Some(63); 3], "struck slots");
    assert_eq!(broken(&board, &[3, 255, 31]), None);
}

/// The rows that keep two calls of two slots apart.
const APART: [&[u8]; 2] = [&[0, 1], &[1, 0]];

/// Three calls of two slots, each two of them apart: every slot is open.
fn triangle() -> Board {
    let mut board = Board::new();
    board.start(&[2, 2, 2]).unwrap();
    put(&mut board, 0, &[0, 1], &APART, 0);
    put(&mut board, 1, &[1, 2], &APART, 0);
    put(&mut board, 2, &[0, 2], &APART, 0);
    board
}

/// The plan with these slots for the first calls is the first, after so many trials.
fn found(first: &[u8], trials: u32) -> FirstReply {
    FirstReply { trials, plan: plan_of(first).try_into().unwrap(), ..FirstReply::FOUND }
}

fn nothing(trials: u32) -> FirstReply {
    FirstReply { trials, ..FirstReply::NOTHING }
}

fn stopped(trials: u32) -> FirstReply {
    FirstReply { trials, ..FirstReply::STOPPED }
}

/// The reply under a ceiling. The board is the same after it, to the byte.
fn ask_first(board: &Board, ceiling: u32) -> FirstReply {
    let Memory { value, rows, killers, slots } = board.memory();
    let before = (*value, rows.to_vec(), killers.to_vec(), slots.to_vec());
    let reply = first_plan(board.memory(), ceiling);
    assert_eq!((*value, rows.to_vec(), killers.to_vec(), slots.to_vec()), before, "the question writes something");
    reply
}

/// S1 to S7.
fn check_first_plans() {
    let mut board = Board::new();
    board.start(&[3, 3, 2]).unwrap();
    put(&mut board, 0, &[0, 1], &[&[0, 1], &[0, 2], &[1, 2]], 2);
    assert_eq!(ask_first(&board, 3), found(&[0, 1, 0], 3), "S1");
    assert_eq!([2, 1, 0].map(|ceiling| ask_first(&board, ceiling)), [2, 1, 0].map(stopped), "S2");
    let mut board = triangle();
    assert_eq!([10, 11, u32::MAX].map(|ceiling| ask_first(&board, ceiling)), [nothing(10); 3], "S3");
    assert_eq!([9, 5, 0].map(|ceiling| ask_first(&board, ceiling)), [9, 5, 0].map(stopped), "S3 with fewer trials");
    cancel(&mut board, 1, [0, 0]);
    assert_eq!(ask_first(&board, 100), found(&[0, 255, 1], 3), "S4");
    cancel(&mut board, 0, [0, 0]);
    assert_eq!(ask_first(&board, 1), found(&[255, 255, 0], 1), "S4 with one call left");
    cancel(&mut board, 2, [0, 0]);
    assert_eq!([0, 1, u32::MAX].map(|ceiling| ask_first(&board, ceiling)), [found(&[], 0); 3], "S5");
    let mut board = Board::new();
    board.start(&[2, 2]).unwrap();
    put(&mut board, 0, &[1], &[], 2);
    assert_eq!(ask_first(&board, 100), nothing(2), "S6");
    assert_eq!([2, 1, 0].map(|ceiling| ask_first(&board, ceiling)), [nothing(2), stopped(1), stopped(0)], "S6");
    let mut board = Board::new();
    board.start(&[2, 2, 3]).unwrap();
    put(&mut board, 0, &[0, 1], &APART, 0);
    put(&mut board, 1, &[1, 2], &[APART[0], APART[1], &[0, 2]], 0);
    put(&mut board, 2, &[0, 2], &[APART[0], APART[1], &[1, 2]], 0);
    assert_eq!(ask_first(&board, u32::MAX), found(&[1, 0, 2], 11), "S7");
    assert_eq!([11, 10].map(|ceiling| ask_first(&board, ceiling)), [found(&[1, 0, 2], 11), stopped(10)], "S7");
}

/// A call with nothing open in front: nothing is laid, and no ceiling is too low.
fn check_first_without_trials() {
    let mut board = Board::new();
    board.start(&[2, 3]).unwrap();
    put(&mut board, 9, &[0], &[], 2);
    assert_eq!([0, u32::MAX].map(|ceiling| ask_first(&board, ceiling)), [nothing(0); 2]);
}

/// S8, and each buffer with a byte too few or too many, or none at all, with a board and without: 1 comes before 6. A refusal has no trials and no plan.
fn check_first_refusals() {
    let refused = |number: u8| FirstReply { number, ..FirstReply::REFUSED };
    let other_lengths = |board: &Board| {
        let long = [255; 16385];
        let Memory { rows, killers, slots, .. } = board.memory();
        let lengths = |right: usize| [0, right - 1, right + 1];
        let all =
            |right: usize, with: &dyn Fn(usize) -> FirstReply| assert_eq!(lengths(right).map(with), [refused(1); 3]);
        for ceiling in [0, 100, u32::MAX] {
            let ask = |memory: Memory| first_plan(memory, ceiling);
            all(rows.len(), &|n| ask(Memory { rows: &long[..n], ..board.memory() }));
            all(killers.len(), &|n| ask(Memory { killers: &long[..n], ..board.memory() }));
            all(slots.len(), &|n| ask(Memory { slots: &long[..n], ..board.memory() }));
        }
    };
    let board = Board::new();
    assert_eq!([0, 100, u32::MAX].map(|ceiling| ask_first(&board, ceiling)), [refused(6); 3], "S8");
    other_lengths(&board);
    other_lengths(&triangle());
}

pub fn run(tally: &mut Tally) {
    crate::place::list("samples", 0);
    check_put_and_lift();
    check_closed_call();
    check_limits();
    check_numbers();
    check_gap_forms();
    check_gap_limits();
    check_gap_refusals();
    check_gap_drafts();
    check_marks();
    check_mark_drafts();
    check_mark_refusals();
    check_cancel();
    check_other_killer();
    check_struck_again();
    check_cancelled_without_rows();
    check_cancelled_draft();
    check_cancelled_marks();
    check_cancel_refusals();
    check_plans();
    check_plans_without_rows();
    check_plan_refusals();
    check_first_plans();
    check_first_without_trials();
    check_first_refusals();
    check_texts(tally);
    println!(
        "samples: the sample boards, gap rules, marks, cancelled calls, plans, first plans, the texts of samples/"
    );
}
