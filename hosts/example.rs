//! The worked session of docs/SCOPE.md on a board of a Rust host, behind it a gap rule that is tried between a mark and a back, and a call that is cancelled: a
//! line for each command, as the sheet program writes it, and after puts, lifts, the back and the cancellation the open slots of every call and its figures from
//! the summary table. Plans are checked on the way, and the first plan is searched. What was refused, and why, goes to standard error.
mod berth;

use berth::{Answer, Board, FirstPlan, Form, PlanCheck, Report, Slot, NONE, PLAN};

fn print_answer(kind: u8, answer: Answer<Report>) {
    match answer {
        Ok(report) => println!("a {} {} {}", kind, report.struck, report.reopened),
        Err(refusal) => {
            println!("r {} {}", kind, refusal.number());
            eprintln!("refused: {}", refusal.text());
        }
    }
}

fn print_calls(board: &Board) {
    for call in 0..32 {
        let Ok(open) = board.open_slots(call) else {
            return;
        };
        print!("c {}", call);
        if board.slot_state(call, 0) == Ok(Slot::Cancelled) {
            print!(" -");
        }
        for slot in (0..32).filter(|slot| open.mask >> slot & 1 == 1) {
            print!(" {}", slot);
        }
        println!();
        let figures = board.summary(call);
        println!("call {}: open {}, struck {}, rules {}", call, figures.open, figures.struck, figures.rules);
    }
}

/// A plan from elsewhere: a slot for each of the two calls, `NONE` for a cancelled one, and for those that are not on the board.
fn print_plan(board: &Board, first: u8, second: u8) {
    let mut plan = [NONE; PLAN];
    plan[..2].copy_from_slice(&[first, second]);
    print!("plan {} {}: ", first, second);
    match board.check_plan(&plan) {
        Ok(PlanCheck::Kept) => println!("kept"),
        Ok(PlanCheck::Broken { rule }) => println!("breaks rule {}", rule),
        Err(refusal) => {
            println!("refused {}", refusal.number());
            eprintln!("refused: {}", refusal.text());
        }
    }
}

/// The first full plan within so many trials. It is then checked, and kept.
fn print_first_plan(board: &Board, ceiling: u32) {
    print!("first plan within {}: ", ceiling);
    match board.first_plan(ceiling) {
        Ok(FirstPlan::Found { plan, trials }) => {
            println!("found, trials {}", trials);
            print_plan(board, plan[0], plan[1]);
        }
        Ok(FirstPlan::None { trials }) => println!("none, trials {}", trials),
        Ok(FirstPlan::Stopped { trials }) => println!("stopped, trials {}", trials),
        Err(refusal) => {
            println!("refused {}", refusal.number());
            eprintln!("refused: {}", refusal.text());
        }
    }
}

fn main() {
    let mut board = Board::new();
    print_answer(1, board.start(&[2, 2]));
    print_answer(2, board.head(0, &[0, 1]));
    print_answer(3, board.row(&[0, 0]));
    print_answer(3, board.row(&[1, 1]));
    print_answer(4, board.put());
    print_calls(&board);
    print_answer(2, board.head(5, &[0]));
    print_answer(3, board.row(&[0]));
    print_answer(4, board.put());
    print_calls(&board);
    print_plan(&board, 0, 0);
    print_plan(&board, 1, 1);
    print_first_plan(&board, 100);
    print_answer(5, board.lift(5));
    print_calls(&board);
    print_answer(5, board.lift(5));
    print_answer(7, board.mark(0));
    print_answer(5, board.lift(0));
    print_answer(6, board.gap(Form::Before, 0, 0, 1, 1));
    print_answer(4, board.put());
    print_calls(&board);
    print_first_plan(&board, 2);
    print_first_plan(&board, 1);
    print_answer(8, board.back(0));
    print_calls(&board);
    print_answer(9, board.cancel(1));
    print_calls(&board);
    print_plan(&board, 1, NONE);
    print_first_plan(&board, 100);
    println!("end");
}
