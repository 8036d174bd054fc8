//! Tests of the wrapper: its refusals, its builders of commands and its check of the library. What the library answers in general is tested in tests/ at the
//! top. With the word `texts` it prints the refusals and their texts; berth.h has to say the same. With the words `command` and `question` it does nothing but
//! call the library on lent memory: hosts/run has it do so with a library of another version.
mod berth;

use berth::{
    lent, Answer, Board, Draft, FirstPlan, Form, Heads, MarkedValue, Name, OpenSlots, PlanCheck, Refusal, Replay,
    Report, Row, Rule, Slot, Summary, Value,
};
use berth::{KILLERS, MARKS, NONE, PLAN, RECORDS, ROWS, SLOTS};

fn record(open: u8, struck: u8, rules: u8) -> Summary {
    Summary { open, struck, rules }
}

/// A table with these records first, and zeros behind them.
fn table(first: &[Summary]) -> [Summary; RECORDS] {
    std::array::from_fn(|call| first.get(call).copied().unwrap_or_default())
}

/// Two calls of two slots. Rule 0 joins equal slots, and rule 5 leaves slot 0 of call 0.
fn board() -> Board {
    let mut board = Board::new();
    assert_eq!(board.open_slots(0), Err(Refusal::NoBoard));
    assert_eq!(*board.summaries(), table(&[]));
    board.start(&[2, 2]).unwrap();
    assert_eq!(*board.summaries(), table(&[record(2, 0, 0); 2]));
    board.head(0, &[0, 1]).unwrap();
    board.row(&[0, 0]).unwrap();
    board.row(&[1, 1]).unwrap();
    board.put().unwrap();
    assert_eq!(*board.summaries(), table(&[record(2, 0, 1); 2]));
    board.head(5, &[0]).unwrap();
    board.row(&[0]).unwrap();
    let report = board.put().unwrap();
    assert_eq!((report.struck, report.reopened, report.touched), (2, 0, 2));
    board
}

/// The records of that board, by number and all of them.
fn summarise(board: &Board) {
    assert_eq!(*board.summaries(), table(&[record(1, 1, 2), record(1, 1, 1)]));
    assert_eq!(
        [0, 1, 2, 31].map(|call| board.summary(call)),
        [record(1, 1, 2), record(1, 1, 1), record(0, 0, 0), record(0, 0, 0)]
    );
    assert_eq!([32, 255].map(|call| board.summary(call)), [Summary::default(); 2]);
}

/// A plan with these slots, and none for the calls past them.
fn plan(slots: &[u8]) -> [u8; PLAN] {
    std::array::from_fn(|call| slots.get(call).copied().unwrap_or(NONE))
}

/// The answer to that plan, from the board and from a copy of it that is lent, which is the same. Nothing changes.
fn check(board: &Board, slots: &[u8]) -> Answer<PlanCheck> {
    let parts = Parts::of(board, board.summaries());
    let answer = board.check_plan(&plan(slots));
    assert!(parts.same(board) && parts.table() == board.summaries(), "a plan changes the board");
    assert_eq!(parts.memory().check_plan(&plan(slots)), answer);
    assert!(parts.same(board) && parts.table() == board.summaries(), "a plan changes what is lent");
    search_board(board);
    answer
}

const KEPT: Answer<PlanCheck> = Ok(PlanCheck::Kept);
const BAD_BYTE: Answer<PlanCheck> = Err(Refusal::BadPlanByte);

const fn broken(rule: u8) -> Answer<PlanCheck> {
    Ok(PlanCheck::Broken { rule })
}

/// A search by the words of the order, off memory of any contents: every rule is looked at with each slot that is laid.
struct Literal<'a> {
    memory: lent::Memory<'a>,
    ceiling: u32,
    trials: u32,
    plan: [u8; PLAN],
}

impl Literal<'_> {
    fn is_off(&self, call: usize) -> bool {
        self.memory.slots[32 * call] == 253
    }

    /// Unless the rule has a laid call, and its calls are all laid or cancelled, it asks nothing. It has at most four columns and 64 rows, and calls below 32.
    fn rule_stays(&self, rule: usize) -> bool {
        let heads = &self.memory.value.heads;
        let columns = || {
            let all = (0..heads.arity[rule].min(4) as usize).map(|k| (k, heads.scope[4 * rule + k] as usize % 32));
            all.filter(|&(_, call)| !self.is_off(call))
        };
        let due = columns().next().is_some() && columns().all(|(_, call)| self.plan[call] != NONE);
        let fits = |w| columns().all(|(k, call)| self.memory.rows[256 * rule + 4 * w + k] == self.plan[call]);
        !due || (0..heads.lengths[rule].min(64) as usize).any(fits)
    }

    /// Lays the calls from one on: whether there is a full plan, unless the ceiling is too low.
    fn lay(&mut self, call: usize) -> Option<bool> {
        if call == PLAN {
            return Some(true);
        }
        if self.memory.value.heads.counts[call] == 0 || self.is_off(call) {
            return self.lay(call + 1);
        }
        for slot in (0..32).filter(|slot| self.memory.slots[32 * call + slot] == 255) {
            if self.trials == self.ceiling {
                return None;
            }
            self.trials += 1;
            self.plan[call] = slot as u8;
            let stays = (0..64).all(|rule| self.rule_stays(rule));
            match if stays { self.lay(call + 1) } else { Some(false) } {
                Some(false) => (),
                ending => return ending,
            }
        }
        self.plan[call] = NONE;
        Some(false)
    }
}

fn search_literally(memory: lent::Memory, ceiling: u32) -> Answer<FirstPlan> {
    if memory.value.heads.counts[0] == 0 {
        return Err(Refusal::NoBoard);
    }
    let mut search = Literal { memory, ceiling, trials: 0, plan: [NONE; PLAN] };
    let ending = search.lay(0);
    let Literal { plan, trials, .. } = search;
    Ok(match ending {
        Some(true) => FirstPlan::Found { plan, trials },
        Some(false) => FirstPlan::None { trials },
        None => FirstPlan::Stopped { trials },
    })
}

/// The answer to a search within the ceiling, from the board and from a copy of it that is lent, which is the same. A plan that is found is kept. Nothing changes.
fn search(board: &Board, ceiling: u32) -> Answer<FirstPlan> {
    let parts = Parts::of(board, board.summaries());
    let answer = board.first_plan(ceiling);
    assert!(parts.same(board) && parts.table() == board.summaries(), "a search changes the board");
    assert_eq!(parts.memory().first_plan(ceiling), answer);
    assert!(parts.same(board) && parts.table() == board.summaries(), "a search changes what is lent");
    if let Ok(FirstPlan::Found { plan, .. }) = answer {
        assert_eq!(board.check_plan(&plan), KEPT);
    }
    answer
}

/// On a board that only commands wrote it is the literal one.
fn search_board(board: &Board) {
    assert_eq!(search(board, 200), search_literally(board.memory(), 200));
}

fn found(slots: &[u8], trials: u32) -> Answer<FirstPlan> {
    Ok(FirstPlan::Found { plan: plan(slots), trials })
}

const fn no_plan(trials: u32) -> Answer<FirstPlan> {
    Ok(FirstPlan::None { trials })
}

const fn stopped(trials: u32) -> Answer<FirstPlan> {
    Ok(FirstPlan::Stopped { trials })
}

fn trials(answer: Answer<FirstPlan>) -> u32 {
    match answer {
        Ok(FirstPlan::Found { trials, .. } | FirstPlan::None { trials } | FirstPlan::Stopped { trials }) => trials,
        Err(_) => 0,
    }
}

/// The search ends so with ceilings from its trials on, and is stopped at those below: at each where they are few.
fn ends(board: &Board, due: Answer<FirstPlan>) {
    let trials = trials(due);
    assert_eq!([trials, trials + 1, u32::MAX].map(|ceiling| search(board, ceiling)), [due; 3]);
    let step = if trials < 100 { 1 } else { trials - 1 };
    (0..trials).step_by(step as usize).for_each(|ceiling| assert_eq!(search(board, ceiling), stopped(ceiling)));
}

fn ask(board: &Board) {
    let open = board.open_slots(1).unwrap();
    assert_eq!((open.mask, open.ones), (1, 1));
    assert_eq!(board.open_slots(2), Err(Refusal::NoSuchCall));
    assert_eq!(board.slot_state(0, 0), Ok(Slot::Open));
    assert_eq!(board.slot_state(0, 1), Ok(Slot::Struck { cause: 5 }));
    assert_eq!(board.slot_state(1, 2), Err(Refusal::NoSuchSlot));
    assert_eq!(board.row_state(0, 0), Ok(Row::Alive));
    assert_eq!(board.row_state(0, 1), Ok(Row::Dead { killer: 0 }));
    assert_eq!(board.row_state(0, 2), Err(Refusal::NoSuchRow));
    assert_eq!(board.row_bytes(0, 1), [1, 1, 255, 255]);
    assert_eq!(board.row_bytes(1, 0), []);
    assert_eq!(board.support(0, 1, 0), Ok(Some(0)));
    assert_eq!(board.support(0, 1, 1), Ok(None));
    assert_eq!(board.support(5, 1, 0), Err(Refusal::NoSuchColumn));
    let plans = [[0, 0], [1, 1], [0, 1], [1, 0], [0, NONE]];
    assert_eq!(plans.map(|slots| check(board, &slots)), [KEPT, broken(5), broken(0), broken(0), BAD_BYTE]);
    ends(board, found(&[0, 0], 2));
}

/// Of rows with the slot in the column, the lowest that lives is given: row 1 where all three live, row 2 while row 1 is dead.
fn support_lowest() {
    let mut board = Board::new();
    board.start(&[2, 3]).unwrap();
    board.head(4, &[0, 1]).unwrap();
    [[1, 2], [0, 1], [0, 0]].iter().for_each(|row| assert!(board.row(row).is_ok()));
    board.put().unwrap();
    assert_eq!(board.support(4, 0, 0), Ok(Some(1)));
    board.head(6, &[1]).unwrap();
    board.row(&[0]).unwrap();
    assert_eq!(board.put().unwrap().struck, 3);
    assert_eq!(board.support(4, 0, 0), Ok(Some(2)));
    assert_eq!(board.lift(6).unwrap().reopened, 3);
    assert_eq!(board.support(4, 0, 0), Ok(Some(1)));
}

/// More fields than a kind has room for are refused, and so is a command by its bytes.
fn refuse(board: &mut Board) {
    assert_eq!(board.start(&[1; 33]), Err(Refusal::BodyLength));
    assert_eq!(board.start(&[]), Err(Refusal::BadCounts));
    assert_eq!([5, 257].map(|calls| board.head(1, &vec![0; calls])), [Err(Refusal::BadArity); 2]);
    assert_eq!(board.row(&[0; 5]), Err(Refusal::BodyLength));
    assert_eq!(board.put(), Err(Refusal::NoDraft));
    assert_eq!(board.lift(9), Err(Refusal::NotInForce));
    assert_eq!(board.command(&[]), Err(Refusal::UnknownKind));
    let MarkedValue { mut value, mut names } = *board.value();
    let answer = lent::command(&mut value, &mut names, &[5, 5], &mut [], &mut [], &mut [], &mut [], &mut []);
    assert_eq!((answer, MarkedValue { value, names }), (Err(Refusal::BufferLength), *board.value()));
    assert_eq!(*board.summaries(), table(&[record(1, 1, 2), record(1, 1, 1)]));
}

/// Puts rule 7 by its gap, on call 0 of four slots and call 1 of three, and lifts it: its rows are these pairs, and the open slots these.
fn put_gap(board: &mut Board, form: Form, gap: u8, pairs: &[[u8; 2]], open: [u32; 2]) {
    let before = board.clone();
    assert_eq!(board.gap(form, 7, 0, 1, gap), Ok(Report::default()));
    let draft = board.memory().value.draft;
    assert_eq!(*board.memory().value, Value { draft, ..*before.memory().value });
    let (now, then) = (board.memory(), before.memory());
    assert!(now.rows == then.rows && now.killers == then.killers && now.slots == then.slots);
    assert!(board.value().names == before.value().names && board.marks() == before.marks());
    assert_eq!(board.summaries(), before.summaries());
    let struck = board.put().unwrap().struck;
    for (w, &[a, b]) in (0..).zip(pairs) {
        assert_eq!((board.row_bytes(7, w), board.row_state(7, w)), (&[a, b, 255, 255][..], Ok(Row::Alive)));
    }
    assert_eq!(board.row_state(7, pairs.len() as u8), Err(Refusal::NoSuchRow));
    assert_eq!([0, 1].map(|call| board.open_slots(call).unwrap().mask), open);
    assert_eq!(struck as u32, 7 - open[0].count_ones() - open[1].count_ones());
    // the first pair's slot of call 0, and those of call 1 up to its other
    let tried = |pair: &[u8; 2]| 1 + (open[1] << (31 - pair[1])).count_ones();
    ends(board, pairs.first().map_or(no_plan(0), |pair| found(pair, tried(pair))));
    assert_eq!(board.lift(7).unwrap().reopened, struck);
}

/// Each form, and forms that no pair fits: they leave nothing open. A gap rule's draft takes the place of another, and takes more rows, but none that it has.
fn draft_gaps() {
    let mut board = Board::new();
    board.start(&[4, 3]).unwrap();
    put_gap(&mut board, Form::Before, 1, &[[0, 1], [0, 2], [1, 2]], [3, 6]);
    put_gap(&mut board, Form::Apart, 2, &[[0, 2], [2, 0], [3, 0], [3, 1]], [13, 7]);
    put_gap(&mut board, Form::Same, 0, &[[0, 0], [1, 1], [2, 2]], [7, 7]);
    put_gap(&mut board, Form::Before, 3, &[], [0, 0]);
    put_gap(&mut board, Form::Apart, 31, &[], [0, 0]);
    board.head(9, &[0]).unwrap();
    board.gap(Form::Before, 7, 1, 0, 3).unwrap();
    assert_eq!(board.row(&[0, 3]), Err(Refusal::RowTwice));
    board.row(&[2, 0]).unwrap();
    assert_eq!(board.put().unwrap().struck, 3);
    assert_eq!([3, 0].map(|slot| board.support(7, 1, slot)), [Ok(Some(0)), Ok(Some(1))]);
    assert_eq!(board.lift(9), Err(Refusal::NotInForce));
}

/// Each refusal of kind 6 comes before the next, and all stays as it was: the draft, too, which can be put then. 64 pairs are taken, and 72 and 65 are not.
fn refuse_gaps() {
    let mut board = Board::new();
    assert_eq!(board.command(&[6, 0, 64, 5, 5, 32]), Err(Refusal::NoBoard));
    board.start(&[8, 8, 9, 5, 15]).unwrap();
    board.head(9, &[2]).unwrap();
    board.row(&[5]).unwrap();
    let before = Parts::of(&board, board.summaries());
    let wrong: [(Refusal, &[[u8; 5]]); 6] = [
        (Refusal::NumberOver63, &[[0, 64, 5, 5, 32], [3, 255, 0, 1, 0]]),
        (Refusal::BadForm, &[[0, 63, 5, 5, 32], [4, 63, 0, 1, 0], [255, 63, 0, 1, 0]]),
        (Refusal::CallOffBoard, &[[1, 63, 5, 5, 32], [1, 63, 5, 0, 32], [3, 63, 0, 255, 0]]),
        (Refusal::CallTwice, &[[2, 63, 2, 2, 32], [3, 63, 0, 0, 0]]),
        (Refusal::BadGap, &[[1, 63, 0, 2, 32], [2, 63, 0, 2, 255], [3, 63, 0, 2, 1]]),
        (Refusal::TooManyPairs, &[[2, 63, 0, 2, 0], [1, 63, 3, 4, 0]]),
    ];
    for (refusal, bodies) in wrong {
        for body in bodies {
            assert_eq!(board.command(&[&[6], &body[..]].concat()), Err(refusal), "{body:?}");
            assert!(before.same(&board) && before.table() == board.summaries());
        }
    }
    assert_eq!(board.gap(Form::Same, 63, 0, 2, 1), Err(Refusal::BadGap));
    assert_eq!(board.gap(Form::Apart, 63, 0, 2, 0), Err(Refusal::TooManyPairs));
    assert_eq!(board.command(&[6, 1, 7, 0, 1]), Err(Refusal::BodyLength));
    assert_eq!(board.command(&[6, 1, 7, 0, 1, 0, 0]), Err(Refusal::BodyLength));
    assert!(before.same(&board) && before.table() == board.summaries());
    assert_eq!(board.put().unwrap().struck, 8);
    assert_eq!(board.open_slots(2).unwrap().mask, 1 << 5);
    board.gap(Form::Apart, 63, 0, 1, 0).unwrap();
    assert_eq!(board.row(&[0, 0]), Err(Refusal::DraftFull));
    assert_eq!(board.put(), Ok(Report::default()));
    assert_eq!(board.row_bytes(63, 63), [7, 7, 255, 255]);
}

/// A board's memory, lent part by part, with marks and a table of its own, each between two that nobody may write.
#[derive(Clone, PartialEq)]
struct Parts {
    value: MarkedValue,
    rows: Vec<u8>,
    killers: Vec<u8>,
    slots: Vec<u8>,
    fenced_marks: Vec<u8>,
    fenced: Vec<Summary>,
}

const FENCE: Summary = Summary { open: 0xa5, struck: 0xa5, rules: 0xa5 };

impl Parts {
    fn of(board: &Board, table: &[Summary]) -> Self {
        let memory = board.memory();
        Parts {
            value: *board.value(),
            rows: memory.rows.to_vec(),
            killers: memory.killers.to_vec(),
            slots: memory.slots.to_vec(),
            fenced_marks: [&[0xa5], board.marks(), &[0xa5]].concat(),
            fenced: [&[FENCE], table, &[FENCE]].concat(),
        }
    }

    /// The lent table; the fence around it stands.
    fn table(&self) -> &[Summary] {
        let [FENCE, table @ .., FENCE] = &self.fenced[..] else { panic!("something is written beside the table") };
        table
    }

    /// And the lent marks.
    fn marks(&self) -> &[u8] {
        let [0xa5, marks @ .., 0xa5] = &self.fenced_marks[..] else { panic!("something is written beside the marks") };
        marks
    }

    fn marks_mut(&mut self) -> &mut [u8] {
        let [_, marks @ .., _] = &mut self.fenced_marks[..] else { unreachable!() };
        marks
    }

    fn command(&mut self, bytes: &[u8]) -> u8 {
        let Parts { value: MarkedValue { value, names }, rows, killers, slots, fenced_marks, fenced } = self;
        let [_, marks @ .., _] = &mut fenced_marks[..] else { unreachable!() };
        let [_, table @ .., _] = &mut fenced[..] else { unreachable!() };
        lent::command(value, names, bytes, rows, killers, slots, marks, table).map_or_else(Refusal::number, |_| 0)
    }

    fn replay(&mut self, file: &[u8]) -> u8 {
        let Parts { value: MarkedValue { value, names }, rows, killers, slots, fenced_marks, fenced } = self;
        let [_, marks @ .., _] = &mut fenced_marks[..] else { unreachable!() };
        let [_, table @ .., _] = &mut fenced[..] else { unreachable!() };
        lent::replay(value, names, file, rows, killers, slots, marks, table).map_or_else(Refusal::number, |_| 0)
    }

    fn fresh_board(&mut self) -> u8 {
        let Parts { value: MarkedValue { value, names }, rows, killers, slots, fenced_marks, fenced } = self;
        let [_, marks @ .., _] = &mut fenced_marks[..] else { unreachable!() };
        let [_, table @ .., _] = &mut fenced[..] else { unreachable!() };
        lent::fresh_board(value, names, rows, killers, slots, marks, table).map_or_else(Refusal::number, |_| 0)
    }

    /// What questions are asked of.
    fn memory(&self) -> lent::Memory<'_> {
        lent::Memory { value: &self.value.value, rows: &self.rows, killers: &self.killers, slots: &self.slots }
    }

    /// The value, the names and the buffers are the board's.
    fn same(&self, board: &Board) -> bool {
        let memory = board.memory();
        self.value == *board.value()
            && self.rows == memory.rows
            && self.killers == memory.killers
            && self.slots == memory.slots
            && self.marks() == board.marks()
    }

    /// What an accepted mark leaves, whatever the memory holds.
    fn keep_under(&mut self, name: usize) {
        self.value.names[name] = Name { kept: 1, heads: self.value.value.heads };
        let kept = [&self.rows[..], &self.killers, &self.slots].concat();
        self.marks_mut()[MARKS / 2 * name..][..MARKS / 2].copy_from_slice(&kept);
    }

    /// And what a back leaves.
    fn bring_back(&mut self, name: usize) {
        self.value.value = Value { heads: self.value.names[name].heads, draft: lent::fresh().value.draft };
        let half = self.marks()[MARKS / 2 * name..][..MARKS / 2].to_vec();
        self.rows = half[..ROWS].to_vec();
        self.killers = half[ROWS..][..KILLERS].to_vec();
        self.slots = half[ROWS + KILLERS..].to_vec();
    }
}

/// A table of another length is refused just after a buffer of one, and before the command or the file is looked at. Nothing changes then.
fn refuse_table(board: &Board) {
    for length in [31, 33, 0] {
        let lent = vec![record(7, 8, 9); length];
        let mut parts = Parts::of(board, &lent);
        assert_eq!([&[5, 5][..], &[], &[5], &[9, 0], &[10]].map(|bytes| parts.command(bytes)), [22; 5]);
        assert_eq!([&[5, 5][..], &[4; berth::FILE + 1]].map(|file| parts.replay(file)), [22; 2]);
        assert_eq!(parts.fresh_board(), 22);
        assert!(parts.same(board) && parts.table() == lent);
        parts.slots.push(255);
        assert_eq!((parts.command(&[5, 5]), parts.replay(&[]), parts.fresh_board()), (1, 1, 1));
        parts.slots.pop();
        assert!(parts.same(board) && parts.table() == lent);
    }
}

/// Marks of another length are refused as any buffer is, with every kind, and before the table, the command or the file is looked at. Nothing changes then.
fn refuse_marks(board: &Board) {
    let start = [&[1, 2, 2][..], &[0; 30]].concat();
    let commands: [&[u8]; 11] = [
        &[],
        &start,
        &[2, 9, 1, 1, 255, 255, 255],
        &[3, 1, 255, 255, 255],
        &[4],
        &[5, 5],
        &[6, 3, 9, 0, 1, 0],
        &[7, 0],
        &[8, 0],
        &[9, 0],
        &[10],
    ];
    for length in [0, MARKS / 2, MARKS - 1, MARKS + 1] {
        for records in [RECORDS, 31] {
            let mut parts = Parts::of(board, &vec![record(7, 8, 9); records]);
            parts.fenced_marks = vec![0xa5; length + 2];
            let before = parts.clone();
            assert_eq!(commands.map(|bytes| parts.command(bytes)), [1; 11]);
            assert_eq!([&start[..], &[4; berth::FILE + 1]].map(|file| parts.replay(file)), [1; 2]);
            assert_eq!(parts.fresh_board(), 1);
            assert!(parts == before);
        }
    }
}

/// A command that is refused leaves all as it was.
fn refuse_bytes(board: &mut Board, bytes: &[u8], refusal: Refusal) {
    let before = Parts::of(board, board.summaries());
    assert_eq!(board.command(bytes), Err(refusal), "{bytes:?}");
    assert!(before.same(board) && before.table() == board.summaries());
    search_board(board);
}

/// Without a board, with every name that is over 1, and where nothing is kept: each refusal comes before the next.
fn refuse_names() {
    let mut no_board = Board::new();
    for name in 0..=255 {
        refuse_bytes(&mut no_board, &[7, name], Refusal::NoBoard);
        refuse_bytes(&mut no_board, &[8, name], Refusal::NoBoard);
    }
    let mut board = board();
    board.gap(Form::Same, 9, 0, 1, 0).unwrap();
    assert_eq!([0, 1].map(|name| board.back(name)), [Err(Refusal::NothingKept); 2]);
    assert_eq!((board.mark(2), board.back(2)), (Err(Refusal::NameOver1), Err(Refusal::NameOver1)));
    refuse_bytes(&mut board, &[8, 0], Refusal::NothingKept);
    refuse_bytes(&mut board, &[8, 1], Refusal::NothingKept);
    for name in 2..=255 {
        refuse_bytes(&mut board, &[7, name], Refusal::NameOver1);
        refuse_bytes(&mut board, &[8, name], Refusal::NameOver1);
    }
    for bytes in [&[7][..], &[7, 0, 0], &[8], &[8, 0, 0]] {
        refuse_bytes(&mut board, bytes, Refusal::BodyLength);
    }
}

/// A mark: the board under the name, and nothing else, is new.
fn mark(board: &mut Board, name: u8) {
    let mut due = Parts::of(board, board.summaries());
    due.keep_under(name as usize);
    assert_eq!(board.mark(name), Ok(Report::default()));
    assert!(due.same(board) && due.table() == board.summaries(), "another board after a mark under {name}");
    search_board(board);
}

/// A back strikes and reopens so many slots. What was kept is there again, with this table and without a draft, and stays kept.
fn back(board: &mut Board, name: u8, struck: usize, reopened: usize, table: &[Summary]) {
    let mut due = Parts::of(board, board.summaries());
    due.bring_back(name as usize);
    assert_eq!(board.back(name), Ok(Report { struck, reopened, touched: struck + reopened }));
    assert!(due.same(board) && table == board.summaries(), "another board after a back of {name}");
    assert_eq!(board.put(), Err(Refusal::NoDraft));
    search_board(board);
}

/// Two boards are kept and brought back by turns; on the second it is slot 0 of each call that is struck. A new board forgets both, unless it is refused, and so
/// does a file's.
fn keep_boards() {
    let mut board = board();
    board.head(9, &[1]).unwrap();
    board.row(&[1]).unwrap();
    let first = *board.summaries();
    mark(&mut board, 0);
    refuse_bytes(&mut board, &[8, 1], Refusal::NothingKept);
    assert_eq!(board.put().unwrap().struck, 2);
    assert_eq!(board.lift(5).unwrap().reopened, 2);
    board.gap(Form::Same, 7, 0, 1, 0).unwrap();
    let second = *board.summaries();
    mark(&mut board, 1);
    back(&mut board, 0, 2, 2, &first);
    ask(&board);
    back(&mut board, 0, 0, 0, &first);
    back(&mut board, 1, 2, 2, &second);
    assert_eq!(board.lift(5), Err(Refusal::NotInForce));
    assert_eq!(board.lift(9).unwrap().reopened, 2);
    back(&mut board, 0, 2, 0, &first);
    assert_eq!(board.lift(5).unwrap().reopened, 2);
    back(&mut board, 1, 2, 0, &second);
    back(&mut board, 0, 2, 2, &first);
    mark(&mut board, 1);
    assert!(board.marks()[..MARKS / 2] == board.marks()[MARKS / 2..]);
    assert_eq!(board.start(&[]), Err(Refusal::BadCounts));
    back(&mut board, 0, 0, 0, &first);
    back(&mut board, 1, 0, 0, &first);
    let bytes = board.marks().to_vec();
    board.start(&[2, 2]).unwrap();
    assert!(board.value().names == lent::fresh().names && board.marks() == bytes);
    refuse_bytes(&mut board, &[8, 0], Refusal::NothingKept);
    refuse_bytes(&mut board, &[8, 1], Refusal::NothingKept);
    mark(&mut board, 1);
    let bytes = board.marks().to_vec();
    board.replay(&[&[1, 2, 2][..], &[0; 30]].concat()).unwrap();
    assert!(board.value().names == lent::fresh().names && board.marks() == bytes);
    refuse_bytes(&mut board, &[8, 1], Refusal::NothingKept);
}

fn report(struck: usize, reopened: usize, touched: usize) -> Report {
    Report { struck, reopened, touched }
}

/// Every slot of a cancelled call is so, and there is none beyond; no row supports one, and its record has its rules alone.
fn check_cancelled(board: &Board, call: u8, count: u8, rules: u8) {
    for slot in 0..32 {
        let due = if slot < count { Ok(Slot::Cancelled) } else { Err(Refusal::NoSuchSlot) };
        let byte = board.memory().slots[32 * call as usize + slot as usize];
        assert_eq!((board.slot_state(call, slot), byte), (due, if slot < count { 253 } else { 254 }));
    }
    assert_eq!(board.open_slots(call), Ok(OpenSlots { mask: 0, ones: 0 }));
    assert_eq!(board.summary(call), record(0, 0, rules));
}

/// Call 0 is cancelled: slot 1 of call 1, which only its column struck, is open again, and the row with it lives. One mark keeps the cancellation, and the
/// other none: backs cancel and uncancel, and the call's own slots are in no count. A new board ends it.
fn cancel_call() {
    let mut board = board();
    mark(&mut board, 0);
    let before = Parts::of(&board, board.summaries());
    assert_eq!(board.cancel(0), Ok(report(0, 1, 1)));
    check_cancelled(&board, 0, 2, 2);
    let mut after = Parts::of(&board, board.summaries());
    (after.killers, after.slots, after.fenced) = (before.killers.clone(), before.slots.clone(), before.fenced.clone());
    assert!(after == before, "a cancellation writes to more than killers, slots and table");
    assert_eq!(board.open_slots(1).unwrap().mask, 3);
    for slot in 0..2 {
        assert_eq!(board.row_state(0, slot), Ok(Row::Alive));
        assert_eq!([0, 1].map(|column| board.support(0, column, slot)), [Ok(None), Ok(Some(slot))]);
    }
    assert_eq!(board.support(0, 0, 2), Err(Refusal::NoSuchSlot));
    assert_eq!(*board.summaries(), table(&[record(0, 0, 2), record(2, 0, 1)]));
    let second = *board.summaries();
    mark(&mut board, 1);
    back(&mut board, 0, 1, 0, before.table());
    ask(&board);
    back(&mut board, 1, 0, 1, &second);
    check_cancelled(&board, 0, 2, 2);
    assert_eq!(board.cancel(1), Ok(Report::default()));
    check_cancelled(&board, 1, 2, 1);
    back(&mut board, 0, 0, 0, before.table());
    board.cancel(1).unwrap();
    board.start(&[2, 2]).unwrap();
    assert_eq!([0, 1].map(|call| board.open_slots(call).unwrap().mask), [3; 2]);
}

/// Each refusal of a cancellation comes before the next, and 29 just after 9; all stays as it was, and a draft among it. It can get rows, with any slot that
/// the call had, and be put: it strikes on its other call alone.
fn refuse_cancelled() {
    let mut board = Board::new();
    (0..=255).for_each(|call| refuse_bytes(&mut board, &[9, call], Refusal::NoBoard));
    board.start(&[3, 3, 2]).unwrap();
    (3..=255).for_each(|call| refuse_bytes(&mut board, &[9, call], Refusal::NoSuchCall));
    refuse_bytes(&mut board, &[9], Refusal::BodyLength);
    refuse_bytes(&mut board, &[9, 0, 0], Refusal::BodyLength);
    refuse_bytes(&mut board, &[10, 0], Refusal::UnknownKind);
    board.head(4, &[0, 2]).unwrap();
    board.row(&[0, 1]).unwrap();
    assert_eq!(board.cancel(0), Ok(Report::default()));
    assert_eq!(board.cancel(0), Err(Refusal::AlreadyCancelled));
    let wrong: [(Refusal, &[&[u8]]); 6] = [
        (Refusal::AlreadyCancelled, &[&[9, 0]]),
        (Refusal::CallOffBoard, &[&[2, 5, 2, 0, 3, 255, 255], &[6, 3, 5, 0, 3, 0]]),
        (Refusal::CancelledCall, &[&[2, 5, 1, 0, 255, 255, 255], &[2, 5, 3, 1, 2, 0, 255], &[2, 5, 2, 0, 0, 0, 0]]),
        (Refusal::CancelledCall, &[&[6, 3, 5, 0, 1, 1], &[6, 3, 5, 1, 0, 0], &[6, 3, 5, 0, 0, 32]]),
        // the cancelled call stands past the arity
        (Refusal::SpareField, &[&[2, 5, 1, 1, 0, 255, 255]]),
        (Refusal::SlotOffCall, &[&[3, 3, 1, 255, 255]]),
    ];
    for (refusal, commands) in wrong {
        commands.iter().for_each(|bytes| refuse_bytes(&mut board, bytes, refusal));
    }
    board.row(&[2, 1]).unwrap();
    assert_eq!(board.put(), Ok(report(1, 0, 1)));
    assert_eq!(board.open_slots(2).unwrap().mask, 2);
    assert_eq!([0, 1].map(|row| board.row_state(4, row)), [Ok(Row::Alive); 2]);
    check_cancelled(&board, 0, 3, 1);
    assert_eq!(board.lift(4), Ok(report(0, 1, 1)));
}

/// A rule without rows goes on striking its other call when one is cancelled, and nothing when both are.
fn cancel_without_rows() {
    let mut board = Board::new();
    board.start(&[2, 3]).unwrap();
    board.head(0, &[0, 1]).unwrap();
    assert_eq!(board.put(), Ok(report(5, 0, 5)));
    assert_eq!(board.cancel(0), Ok(Report::default()));
    assert_eq!(*board.summaries(), table(&[record(0, 0, 1), record(0, 3, 1)]));
    assert_eq!(board.lift(0), Ok(report(0, 3, 3)));
    board.head(0, &[1]).unwrap();
    assert_eq!(board.cancel(1), Ok(Report::default()));
    assert_eq!(board.put(), Ok(Report::default()));
    check_cancelled(&board, 1, 3, 1);
    assert_eq!(board.lift(0), Ok(Report::default()));
}

/// A rule comes into force, and strikes so many slots.
fn put(board: &mut Board, number: u8, calls: &[u8], rows: &[&[u8]], struck: usize) {
    board.head(number, calls).unwrap();
    rows.iter().for_each(|row| assert_eq!(board.row(row), Ok(Report::default())));
    assert_eq!(board.put(), Ok(report(struck, 0, struck)));
    search_board(board);
}

/// Three slots are struck: this rule leaves call 0 its slot 0, and rule 1 passes slot 1 on to call 1. Rule 2 strikes that slot too, but comes too late to be its
/// cause.
fn touched_board(number: u8) -> Board {
    let mut board = Board::new();
    board.start(&[3, 2]).unwrap();
    put(&mut board, number, &[0], &[&[0]], 2);
    put(&mut board, 1, &[0, 1], &[&[0, 0], &[1, 1], &[2, 0]], 1);
    put(&mut board, 2, &[1], &[&[0]], 0);
    let causes = [0, 1].map(|call| board.slot_state(call, 1));
    assert_eq!(causes, [number, 1].map(|cause| Ok(Slot::Struck { cause })));
    board
}

/// T is the size of the whole touched set, also of what is struck again at once. It goes by the recorded causes: rule 3 says what rule 0 says, and the one put
/// first is the cause. Of the other a lift touches nothing, though the same slots are struck.
fn touch_to_the_slot() {
    let masks = |board: &Board| [0, 1].map(|call| board.open_slots(call).unwrap().mask);
    let mut board = touched_board(0);
    assert_eq!((board.lift(0), masks(&board)), (Ok(report(0, 1, 3)), [5, 1]));
    let mut board = touched_board(0);
    put(&mut board, 3, &[0], &[&[0]], 0);
    assert_eq!((board.lift(0), masks(&board)), (Ok(report(0, 0, 3)), [1, 1]));
    let mut board = touched_board(3);
    put(&mut board, 0, &[0], &[&[0]], 0);
    assert_eq!((board.lift(0), masks(&board)), (Ok(report(0, 0, 0)), [1, 1]));
    assert_eq!((board.cancel(0), masks(&board)), (Ok(report(0, 0, 1)), [0, 1]));
}

/// Two rules on three calls, put by falling number, and a draft, which is not in force. Where a plan breaks both rules the lower number is named, whichever was
/// put first. A plan with a struck slot breaks a rule; the one that is named may be on other calls.
fn check_plans() {
    let mut board = Board::new();
    board.start(&[3, 2, 4]).unwrap();
    assert_eq!(check(&board, &[2, 1, 0]), KEPT);
    put(&mut board, 7, &[0, 1], &[&[0, 0], &[1, 1]], 1);
    put(&mut board, 3, &[1, 2], &[&[0, 1], &[1, 2], &[1, 3]], 1);
    board.head(0, &[0]).unwrap();
    assert_eq!([[0, 0, 1], [1, 1, 3]].map(|slots| check(&board, &slots)), [KEPT; 2]);
    let plans = [[0, 1, 2], [0, 0, 2], [0, 1, 1]];
    assert_eq!(plans.map(|slots| check(&board, &slots)), [7, 3, 3].map(broken));
    assert_eq!(board.slot_state(0, 2), Ok(Slot::Struck { cause: 7 }));
    assert_eq!([[2, 0, 1], [2, 0, 2]].map(|slots| check(&board, &slots)), [7, 3].map(broken));
    assert_eq!((board.lift(3), check(&board, &[2, 0, 2])), (Ok(report(0, 1, 1)), broken(7)));
    assert_eq!((board.lift(7), check(&board, &[2, 0, 2])), (Ok(report(0, 1, 1)), KEPT));
}

/// 64 rules that want the same slot of two neighbours. Of those in force that a plan breaks the lowest is named, whichever number that is.
fn check_all_rules() {
    let mut board = Board::new();
    board.start(&[2; 32]).unwrap();
    for number in 0..64 {
        board.gap(Form::Same, number, number % 32, (number + 1) % 32, 0).unwrap();
        assert_eq!(board.put(), Ok(Report::default()));
    }
    assert_eq!([0, 1].map(|slot| check(&board, &[slot; 32])), [KEPT; 2]);
    for call in 0..32 {
        let mut slots = [1; 32];
        slots[call] = 0;
        assert_eq!(check(&board, &slots), broken(call.saturating_sub(1) as u8));
    }
    let slots: [u8; 32] = std::array::from_fn(|call| call as u8 % 2);
    for number in 0..64 {
        assert_eq!(check(&board, &slots), broken(number));
        board.lift(number).unwrap();
    }
    assert_eq!(check(&board, &slots), KEPT);
}

/// A rule wants the same slot of four calls, and any of them are cancelled: their columns are not compared, and a plan has no slot for them. Where all four are,
/// the rule asks nothing.
fn check_cancelled_columns() {
    for cancelled in 0..16 {
        let gone = |call: &u8| cancelled >> call & 1 == 1;
        let mut board = Board::new();
        board.start(&[2; 4]).unwrap();
        put(&mut board, 9, &[0, 1, 2, 3], &[&[0; 4], &[1; 4]], 0);
        (0..4).filter(gone).for_each(|call| assert_eq!(board.cancel(call), Ok(Report::default())));
        for bits in 0..16 {
            let slots = [0, 1, 2, 3].map(|call| bits >> call & 1);
            assert!(cancelled == 0 || check(&board, &slots) == BAD_BYTE);
            let rest: Vec<u8> = (0..4).filter(|call| !gone(call)).map(|call| slots[call as usize]).collect();
            let slots = [0, 1, 2, 3].map(|call| if gone(&call) { NONE } else { slots[call as usize] });
            let due = if rest.windows(2).all(|two| two[0] == two[1]) { KEPT } else { broken(9) };
            assert_eq!(check(&board, &slots), due, "{slots:?}");
        }
        let first = [0, 1, 2, 3].map(|call| if gone(&call) { NONE } else { 0 });
        ends(&board, found(&first, 4 - (cancelled as u32).count_ones()));
    }
}

/// A rule without rows is broken by every plan as long as one of its calls is not cancelled, and by none when both are.
fn check_without_rows() {
    let mut board = Board::new();
    board.start(&[2, 3]).unwrap();
    put(&mut board, 4, &[0, 1], &[], 5);
    for second in 0..3 {
        assert_eq!([0, 1].map(|first| check(&board, &[first, second])), [broken(4); 2]);
    }
    board.cancel(0).unwrap();
    assert_eq!([0, 1, 2].map(|second| check(&board, &[NONE, second])), [broken(4); 3]);
    board.cancel(1).unwrap();
    assert_eq!(check(&board, &[]), KEPT);
}

/// Any byte for any call: of a call that is not cancelled its slots are taken, struck or not, and of all others 255 alone.
fn check_bytes() {
    let mut board = Board::new();
    board.start(&[3, 2, 32, 1]).unwrap();
    put(&mut board, 8, &[0], &[&[1]], 2);
    board.cancel(1).unwrap();
    let before = Parts::of(&board, board.summaries());
    for (call, byte) in (0..PLAN).flat_map(|call| (0..=255).map(move |byte| (call, byte))) {
        let mut bytes = plan(&[1, NONE, 0, 0]);
        bytes[call] = byte;
        let due = match (call, byte) {
            (0, 0 | 2) => broken(8),
            (0, 1) | (2, 0..=31) | (3, 0) => KEPT,
            (1 | 4.., NONE) => KEPT,
            _ => BAD_BYTE,
        };
        assert_eq!(board.check_plan(&bytes), due, "byte {byte} for call {call}");
    }
    assert!(before.same(&board) && before.table() == board.summaries());
}

/// Each refusal of a plan comes before the next, on a board and without one. Every plan of one byte alone is wrong on the board; one that is kept there is
/// refused for its length.
fn refuse_plans() {
    let sizes = [ROWS, KILLERS, SLOTS];
    let wrong = [0, 1, 2].map(|part| [0, sizes[part] - 1, sizes[part] + 1].map(|wrong| (part, wrong))).concat();
    let board = board();
    for (asked, due) in [(&Board::new(), Refusal::NoBoard), (&board, Refusal::BadPlanByte)] {
        for (length, byte) in
            [0, 1, 31, 32, 33, 64, 288].map(|length| [0, 32, 254, 255].map(|byte| (length, byte))).concat()
        {
            let plan = vec![byte; length];
            let due = if length == PLAN { due } else { Refusal::PlanLength };
            let parts = Parts::of(asked, asked.summaries());
            assert_eq!(asked.check_plan(&plan), Err(due), "{length} bytes {byte}");
            assert_eq!(parts.memory().check_plan(&plan), Err(due), "{length} bytes {byte}");
            for &(part, wrong) in &wrong {
                let [rows, killers, slots] =
                    [0, 1, 2].map(|other| vec![255; if other == part { wrong } else { sizes[other] }]);
                let memory = lent::Memory { rows: &rows, killers: &killers, slots: &slots, ..asked.memory() };
                assert_eq!(memory.check_plan(&plan), Err(Refusal::BufferLength), "{length} bytes {byte}");
            }
            assert!(parts.same(asked) && parts.table() == asked.summaries() && plan == vec![byte; length]);
        }
    }
    let long = [&plan(&[0, 0])[..], &[NONE; 256]].concat();
    assert_eq!([0, 31, 33, 288].map(|length| board.check_plan(&long[..length])), [Err(Refusal::PlanLength); 4]);
    assert_eq!(board.check_plan(&long[..PLAN]), KEPT);
}

/// A plan that is kept at a mark is broken by a rule that is put then, and wrong when a call is cancelled; after a back it is kept again.
fn check_after_back() {
    let mut board = board();
    board.mark(0).unwrap();
    put(&mut board, 9, &[1], &[&[1]], 2);
    assert_eq!(check(&board, &[0, 0]), broken(9));
    board.back(0).unwrap();
    assert_eq!(check(&board, &[0, 0]), KEPT);
    board.cancel(1).unwrap();
    assert_eq!([[0, 0], [0, NONE]].map(|slots| check(&board, &slots)), [BAD_BYTE, KEPT]);
    board.back(0).unwrap();
    assert_eq!([[0, 0], [0, NONE]].map(|slots| check(&board, &slots)), [KEPT, BAD_BYTE]);
}

/// Two calls of two slots are kept apart.
fn put_apart(board: &mut Board, number: u8, calls: [u8; 2]) {
    put(board, number, &calls, &[&[0, 1], &[1, 0]], 0);
}

/// Three calls of two slots, each two of them apart: every slot is open, and there is no full plan.
fn triangle() -> Board {
    let mut board = Board::new();
    board.start(&[2; 3]).unwrap();
    put_apart(&mut board, 0, [0, 1]);
    put_apart(&mut board, 1, [1, 2]);
    put_apart(&mut board, 2, [0, 2]);
    board
}

/// The sample searches S1 to S8 of docs/SCOPE.md, with their ceilings and with others: S1 and S2 are one board.
fn search_samples() {
    let mut board = Board::new();
    assert_eq!(search(&board, 100), Err(Refusal::NoBoard));
    board.start(&[3, 3, 2]).unwrap();
    put(&mut board, 0, &[0, 1], &[&[0, 1], &[0, 2], &[1, 2]], 2);
    assert_eq!([3, 2].map(|ceiling| search(&board, ceiling)), [found(&[0, 1, 0], 3), stopped(2)]);
    ends(&board, found(&[0, 1, 0], 3));
    let mut board = triangle();
    assert_eq!(search(&board, 10), no_plan(10));
    ends(&board, no_plan(10));
    board.cancel(1).unwrap();
    assert_eq!(search(&board, 100), found(&[0, NONE, 1], 3));
    ends(&board, found(&[0, NONE, 1], 3));
    board.cancel(0).unwrap();
    board.cancel(2).unwrap();
    assert_eq!(search(&board, 0), found(&[], 0));
    ends(&board, found(&[], 0));
    board.start(&[2, 2]).unwrap();
    put(&mut board, 0, &[1], &[], 2);
    assert_eq!(search(&board, 100), no_plan(2));
    ends(&board, no_plan(2));
    board.start(&[2, 2, 3]).unwrap();
    put_apart(&mut board, 0, [0, 1]);
    put(&mut board, 1, &[1, 2], &[&[0, 1], &[1, 0], &[0, 2]], 0);
    put(&mut board, 2, &[0, 2], &[&[0, 1], &[1, 0], &[1, 2]], 0);
    assert_eq!(search(&board, u32::MAX), found(&[1, 0, 2], 11));
    ends(&board, found(&[1, 0, 2], 11));
}

/// Rules without rows. On call 0 one leaves nothing to lay: there is no plan, with 0 trials and with ceiling 0. Where all its calls are cancelled it asks nothing
/// of the calls that are laid, and nothing where none is. A draft asks nothing either.
fn search_without_rows() {
    let mut board = Board::new();
    board.start(&[2, 3, 2]).unwrap();
    board.head(63, &[0]).unwrap();
    ends(&board, found(&[0, 0, 0], 3));
    put(&mut board, 4, &[0, 1], &[], 5);
    ends(&board, no_plan(0));
    board.cancel(0).unwrap();
    ends(&board, no_plan(0));
    board.cancel(1).unwrap();
    ends(&board, found(&[NONE, NONE, 0], 1));
    board.cancel(2).unwrap();
    ends(&board, found(&[], 0));
}

/// The triangle on three of 32 calls, the others with one slot, and under any three neighbouring numbers: a rule is looked at with the last of its calls,
/// whichever number it has, and wherever its calls are.
fn search_all_rules() {
    for number in 0..64 {
        for ([a, b, c], trials) in [([0, 1, 2], 10), ([29, 30, 31], 39), ([0, 15, 31], 68)] {
            let mut board = Board::new();
            board.start(&std::array::from_fn::<u8, 32, _>(|call| 1 + [a, b, c].contains(&(call as u8)) as u8)).unwrap();
            put_apart(&mut board, number, [c, a]);
            put_apart(&mut board, (number + 1) % 64, [b, c]);
            put_apart(&mut board, (number + 2) % 64, [a, b]);
            ends(&board, no_plan(trials));
        }
    }
}

/// Nine calls of eight slots, each two of them apart: 876,808 trials, which are the ways to lay up to eight different slots, times the eight of the next call.
fn search_long() {
    let mut board = Board::new();
    board.start(&[8; 9]).unwrap();
    for (number, (first, second)) in (0..9).flat_map(|second| (0..second).map(move |first| (first, second))).enumerate()
    {
        board.gap(Form::Apart, number as u8, first, second, 1).unwrap();
        assert_eq!(board.put(), Ok(Report::default()));
    }
    let ways = (0..8).scan(1, |ways, laid| {
        *ways *= 8 - laid;
        Some(*ways)
    });
    assert_eq!(8 * (1 + ways.sum::<u32>()), 876808);
    ends(&board, no_plan(876808));
    board.cancel(3).unwrap();
    ends(&board, found(&[0, 1, 2, NONE, 3, 4, 5, 6, 7], 36));
}

/// A buffer of another length is refused before it is seen that there is no board, whatever the ceiling.
fn refuse_search() {
    let sizes = [ROWS, KILLERS, SLOTS];
    let wrong = [0, 1, 2].map(|part| [0, sizes[part] - 1, sizes[part] + 1].map(|wrong| (part, wrong))).concat();
    for (asked, due) in [(Board::new(), Err(Refusal::NoBoard)), (board(), found(&[0, 0], 2))] {
        for ceiling in [0, 1, 2, 1000, u32::MAX] {
            let due = if ceiling < trials(due) { stopped(ceiling) } else { due };
            assert_eq!(search(&asked, ceiling), due);
            for &(part, wrong) in &wrong {
                let [rows, killers, slots] =
                    [0, 1, 2].map(|other| vec![255; if other == part { wrong } else { sizes[other] }]);
                let memory = lent::Memory { rows: &rows, killers: &killers, slots: &slots, ..asked.memory() };
                assert_eq!(memory.first_plan(ceiling), Err(Refusal::BufferLength));
            }
        }
    }
}

/// The plan of a mark is found again after a back, and others between: where a rule is put, and where a call is cancelled.
fn search_after_back() {
    let mut board = triangle();
    board.lift(2).unwrap();
    mark(&mut board, 1);
    ends(&board, found(&[0, 1, 0], 4));
    put(&mut board, 9, &[2], &[&[1]], 3);
    ends(&board, found(&[1, 0, 1], 3));
    board.back(1).unwrap();
    ends(&board, found(&[0, 1, 0], 4));
    board.cancel(1).unwrap();
    ends(&board, found(&[0, NONE, 0], 2));
    board.back(1).unwrap();
    ends(&board, found(&[0, 1, 0], 4));
}

/// A sequence of numbers that is the same in each run.
struct Random(u32);

impl Random {
    fn below(&mut self, count: u32) -> u32 {
        self.0 ^= self.0 << 13;
        self.0 ^= self.0 >> 17;
        self.0 ^= self.0 << 5;
        self.0 % count
    }

    fn byte(&mut self, count: u8) -> u8 {
        self.below(count as u32) as u8
    }
}

/// Up to five calls of up to three slots, rules with any rows, gap rules, and now and then a call that is cancelled. What is refused is left out.
fn random_board(random: &mut Random) -> Board {
    let mut board = Board::new();
    let count = 1 + random.byte(5);
    let counts: Vec<u8> = (0..count).map(|_| if random.below(4) > 0 { 2 } else { 1 + random.byte(3) }).collect();
    let mut calls: Vec<u8> = (0..count).collect();
    board.start(&counts).unwrap();
    for _ in 0..random.below(5) {
        let arity = 1 + random.byte(count.min(4));
        (0..arity).for_each(|k| calls.swap(k as usize, (k + random.byte(count - k)) as usize));
        let scope = &calls[..arity as usize];
        let _ = board.head(random.byte(64), scope);
        for _ in 0..2 + random.below(20) {
            let row: Vec<u8> = scope.iter().map(|&call| random.byte(counts[call as usize])).collect();
            let _ = board.row(&row);
        }
        let _ = board.put();
        if random.below(12) == 0 {
            let _ = board.cancel(random.byte(count));
        }
    }
    for _ in 0..random.below(6) {
        let _ = board.gap(Form::Apart, random.byte(64), random.byte(count), random.byte(count), 1);
        let _ = board.put();
    }
    board
}

/// The first plan that is kept of all that the slots of the calls from one on make, in rising order.
fn first_kept(board: &Board, plan: &mut [u8; PLAN], call: usize) -> bool {
    if call == PLAN {
        return board.check_plan(plan) == KEPT;
    }
    plan[call] = NONE;
    if matches!(board.slot_state(call as u8, 0), Ok(Slot::Cancelled) | Err(_)) {
        return first_kept(board, plan, call + 1);
    }
    (0..board.memory().value.heads.counts[call]).any(|slot| {
        plan[call] = slot;
        first_kept(board, plan, call + 1)
    })
}

/// On random boards the search is the literal one, at its count, one below and anywhere, and its plan the first that is kept of all. Some of them have no plan
/// though every slot that is left is supported, and some have one behind slots in vain.
fn search_random() {
    let mut random = Random(2);
    let (mut none, mut behind) = (0, 0);
    for _ in 0..2000 {
        let board = random_board(&mut random);
        let due = search_literally(board.memory(), u32::MAX);
        let trials = trials(due);
        for ceiling in [u32::MAX, trials, trials.saturating_sub(1), random.below(trials + 1)] {
            assert_eq!(search(&board, ceiling), if ceiling < trials { stopped(ceiling) } else { due });
        }
        let mut kept = [NONE; PLAN];
        match (first_kept(&board, &mut kept, 0), due) {
            (true, Ok(FirstPlan::Found { plan, .. })) => {
                assert_eq!(plan, kept);
                behind += (trials as usize > plan.iter().filter(|slot| **slot != NONE).count()) as u32;
            }
            (kept, due) => {
                assert_eq!((kept, due), (false, no_plan(trials)));
                none += (trials > 0) as u32;
            }
        }
    }
    assert!(none > 50 && behind > 50, "{none} boards without a plan, {behind} with one behind slots in vain");
}

/// Any bytes in the value and the buffers, or such as lead far into a search; half of the slots are open, or few. The search ends, and is the literal one.
fn strew_bytes(board: &Board) {
    let some = [0, 1, 3, 4, 31, 32, 63, 64, 200, 253, 254, 255];
    let mut random = Random(3);
    let mut endings = [0; 3];
    for round in 0..1000 {
        let mut byte = || match round % 2 {
            1 => random.below(256) as u8,
            _ if random.below(8) > 0 => random.byte(3),
            _ => some[random.below(12) as usize],
        };
        let mut parts = Parts::of(board, board.summaries());
        let heads = &mut parts.value.value.heads;
        heads.counts.fill_with(&mut byte);
        heads.arity.fill_with(&mut byte);
        heads.scope.fill_with(&mut byte);
        heads.lengths.fill_with(&mut byte);
        parts.rows.fill_with(&mut byte);
        parts.killers.fill_with(&mut byte);
        parts.slots.fill_with(&mut byte);
        if round % 3 > 0 {
            parts.slots.iter_mut().filter(|_| random.below(2) == 0).for_each(|slot| *slot = 255);
        }
        if round % 4 > 0 {
            heads.arity.iter_mut().filter(|_| random.below(40) > 0).for_each(|arity| *arity = 0);
        }
        let before = parts.clone();
        let ceiling = random.below(200);
        let answer = parts.memory().first_plan(ceiling);
        assert_eq!(answer, search_literally(before.memory(), ceiling));
        assert!(parts == before, "a search changes any bytes");
        match answer {
            Ok(FirstPlan::None { .. }) => endings[0] += 1,
            Ok(FirstPlan::Found { .. }) => endings[1] += 1,
            Ok(FirstPlan::Stopped { .. }) => endings[2] += 1,
            Err(refusal) => assert_eq!(refusal, Refusal::NoBoard),
        }
    }
    assert!(endings.iter().all(|&times| times > 50), "{endings:?}");
}

/// Heads that hold nothing but this byte, and a whole value.
fn heads_of(byte: u8) -> Heads {
    Heads { counts: [byte; 32], arity: [byte; 64], scope: [byte; 256], lengths: [byte; 64] }
}

fn value_of(byte: u8) -> MarkedValue {
    let rule = Rule { arity: byte, scope: [byte; 4], length: byte, rows: [byte; 256] };
    let value = Value { heads: heads_of(byte), draft: Draft { number: byte, rule } };
    MarkedValue { value, names: [Name { kept: byte, heads: heads_of(byte) }; 2] }
}

/// The memory after a host has filled a part of it: the board's buffers, the marks' bytes, their names, both of these, or all that there is.
fn filled(kept: &Parts, byte: u8) -> [Parts; 5] {
    let (rows, killers, slots) = (vec![byte; ROWS], vec![byte; KILLERS], vec![byte; SLOTS]);
    let buffers = Parts { rows, killers, slots, ..kept.clone() };
    let mut marks = kept.clone();
    marks.marks_mut().fill(byte);
    let named = MarkedValue { value: kept.value.value, ..value_of(byte) };
    let mut all = Parts { value: value_of(byte), ..buffers.clone() };
    all.marks_mut().fill(byte);
    [Parts { value: named, ..kept.clone() }, Parts { value: named, ..marks.clone() }, buffers, marks, all]
}

/// On altered memory a plan is kept, breaks a rule, or is refused for no board or a wrong byte, and nothing is written. The second plan has no wrong byte,
/// whatever the memory holds: this slot of each call, or its last. A search is the literal one.
fn check_altered(parts: &Parts) {
    let (before, memory) = (parts.clone(), parts.memory());
    for slot in [0, 1, 31, 63, 255] {
        let slots: [u8; PLAN] = std::array::from_fn(|call| match memory.value.heads.counts[call] {
            0 => NONE,
            _ if memory.slot_state(call as u8, 0) == Ok(Slot::Cancelled) => NONE,
            count => slot.min(count - 1),
        });
        let answers = [[slot; PLAN], slots].map(|plan| memory.check_plan(&plan));
        for answer in answers {
            let possible = match answer {
                Ok(PlanCheck::Broken { rule }) => rule < 64,
                _ => [KEPT, BAD_BYTE, Err(Refusal::NoBoard)].contains(&answer),
            };
            assert!(possible, "{answer:?}");
        }
        assert_ne!(answers[1], BAD_BYTE, "{slots:?}");
        let ceiling = slot as u32 / 4;
        assert_eq!(memory.first_plan(ceiling), search_literally(memory, ceiling));
    }
    assert!(*parts == before, "a plan or a search changes altered memory");
}

/// On altered memory commands return and leave the fences, and only a mark writes names and marks; a cancellation leaves the value and the rows; one that is
/// refused changes nothing.
fn obey_altered(parts: &mut Parts) {
    let commands: [&[u8]; 21] = [
        &[4],
        &[2, 9, 1, 1, 255, 255, 255],
        &[5, 5],
        &[9, 1],
        &[8, 1],
        &[7, 0],
        &[6, 1, 63, 0, 31, 22],
        &[6, 2, 0, 1, 0, 0],
        &[6, 255, 255, 255, 255, 255],
        &[6, 3, 0, 1, 0, 0],
        &[3, 1, 0, 255, 255],
        &[8, 255],
        &[7, 2],
        &[9, 255],
        &[9, 31],
        &[8, 0],
        &[9, 0],
        &[5, 0],
        &[7, 1],
        &[8, 1],
        &[4],
    ];
    for bytes in commands {
        let mut due = parts.clone();
        let number = parts.command(bytes);
        parts.table();
        check_altered(parts);
        assert!(number == 0 || *parts == due, "{bytes:?} is refused {number}, and changes something");
        match (number, bytes) {
            (0, [7, name]) => due.keep_under(*name as usize),
            (0, [8, name]) => due.bring_back(*name as usize),
            _ => {
                let cancels = number == 0 && bytes[0] == 9;
                let same = parts.value == due.value && parts.rows == due.rows;
                assert!(!cancels || same, "{bytes:?} writes to the value or the rows");
                assert!(
                    parts.marks() == due.marks() && parts.value.names == due.value.names,
                    "{bytes:?} writes names or marks"
                );
                continue;
            }
        }
        due.fenced = parts.fenced.clone();
        assert!(*parts == due, "{bytes:?} leaves another board");
    }
}

/// What the table held has no effect: a refused command leaves it, and an accepted one makes it current, on altered memory a new board's too.
fn alter(board: &Board) {
    let lent = [record(255, 254, 7); RECORDS];
    let mut parts = Parts::of(board, &lent);
    assert_eq!(parts.command(&[4]), 12);
    assert!(parts.same(board) && parts.table() == lent);
    assert_eq!(parts.command(&[2, 9, 1, 1, 255, 255, 255]), 0);
    assert_eq!(parts.table(), board.summaries());
    parts.fenced[1..=RECORDS].copy_from_slice(&lent);
    assert_eq!(parts.command(&[3, 1, 255, 255, 255]), 0);
    assert_eq!(parts.table(), board.summaries());
    assert_eq!(parts.command(&[4]), 0);
    assert_eq!(parts.table(), table(&[record(0, 2, 2); 2]));
    assert_eq!(parts.command(&[5, 9]), 0);
    assert_eq!(parts.table(), board.summaries());
    parts.fenced[1..=RECORDS].copy_from_slice(&lent);
    assert_eq!(parts.command(&[6, 3, 9, 0, 1, 0]), 0);
    assert_eq!(parts.table(), board.summaries());
    parts.fenced[1..=RECORDS].copy_from_slice(&lent);
    assert_eq!(parts.command(&[7, 0]), 0);
    assert_eq!(parts.table(), board.summaries());
    parts.fenced[1..=RECORDS].copy_from_slice(&lent);
    assert_eq!((parts.command(&[8, 1]), parts.table()), (27, &lent[..]));
    assert_eq!(parts.command(&[8, 0]), 0);
    assert_eq!(parts.table(), board.summaries());
    let file = [&[1, 3, 1][..], &[0; 30], &[2, 9, 1, 0, 255, 255, 255, 4]].concat();
    let mut parts = Parts::of(board, &lent);
    assert_eq!(parts.replay(&file), 0);
    assert_eq!(parts.table(), table(&[record(0, 3, 1), record(1, 0, 0)]));
    assert_eq!(parts.fresh_board(), 0);
    assert!(parts.value == lent::fresh() && parts.table() == table(&[]));
    assert!(parts.rows == [255; ROWS] && parts.killers == [255; KILLERS] && parts.slots == [254; SLOTS]);
    assert_eq!(parts.marks(), board.marks());
    for byte in [0, 1, 3, 31, 63, 64, 200, 253, 254, 255] {
        let mut kept = Parts::of(board, &lent);
        assert_eq!([0, 1].map(|name| kept.command(&[7, name])), [0; 2]);
        for mut parts in filled(&kept, byte) {
            obey_altered(&mut parts);
            let mut anew = parts.clone();
            assert_eq!(anew.fresh_board(), 0);
            assert!(anew.value == lent::fresh() && anew.marks() == parts.marks());
            assert_eq!(parts.command(&file[..33]), 0);
            assert_eq!(parts.table(), table(&[record(3, 0, 0), record(1, 0, 0)]));
            assert!(parts.value.names == lent::fresh().names);
        }
    }
}

/// A host writes 253 where no call was cancelled: on a call's first slot alone, on others, past the slots, and on a call that is not there.
fn strew_cancelled(board: &Board) {
    let places = [0, 1, 2, 31, 32, 33, 34, 64, SLOTS - 1];
    for (one, other) in places.iter().flat_map(|one| places.map(|other| (*one, other))) {
        let mut parts = Parts::of(board, board.summaries());
        (parts.slots[one], parts.slots[other]) = (253, 253);
        obey_altered(&mut parts);
    }
}

/// A host writes counts, arities, calls and lengths that do not go together, and any rows and killers; every third call is cancelled.
fn mix_heads(board: &Board) {
    let bytes = [0, 31, 200, 255];
    let mut parts = Parts::of(board, board.summaries());
    parts.slots = (0..SLOTS).map(|place| if place / 32 % 3 == 0 { 253 } else { 255 }).collect();
    for mix in 0..1024 {
        let part = |place: usize| bytes[mix >> (2 * place) & 3];
        let heads = &mut parts.value.value.heads;
        *heads = Heads { counts: [part(0); 32], arity: [part(1); 64], scope: [part(2); 256], lengths: [part(3); 64] };
        parts.rows.fill(part(4));
        parts.killers.fill(part(4));
        check_altered(&parts);
    }
}

/// A file leaves what its commands leave one by one, up to one that cannot be read; one that is too long changes nothing.
fn replay(board: &mut Board) {
    let start = [&[1, 2, 2][..], &[0; 30]].concat();
    let commands: [&[u8]; 12] = [
        &[5, 9],
        &start,
        &[2, 0, 1, 0, 255, 255, 255],
        &[3, 1, 255, 255, 255],
        &[4],
        &[7, 0],
        &[9, 1],
        &[5, 0],
        &[7, 1],
        &[8, 0],
        &[6, 3, 1, 0, 1, 0],
        &[9, 1],
    ];
    let mut other = Board::new();
    for bytes in commands {
        let _ = other.command(bytes);
    }
    let file = commands.concat();
    assert_eq!(board.replay(&file), Ok(Replay { ran: 12, end: None }));
    let same = |a: &Board, b: &Board| Parts::of(a, a.summaries()) == Parts::of(b, b.summaries());
    assert!(same(board, &other));
    assert_eq!(*board.summaries(), table(&[record(1, 1, 1), record(0, 0, 0)]));
    assert_eq!(board.replay(&[4; berth::FILE + 1]), Err(Refusal::FileLength));
    assert!(same(board, &other));
    assert_eq!(board.replay(&[&file[..], &[5]].concat()), Ok(Replay { ran: 12, end: Some(Refusal::BodyLength) }));
    assert!(same(board, &other));
    let MarkedValue { mut value, mut names } = *board.value();
    assert_eq!(
        lent::replay(&mut value, &mut names, &file, &mut [], &mut [], &mut [], &mut [], &mut []),
        Err(Refusal::BufferLength)
    );
    assert_eq!(
        lent::fresh_board(&mut value, &mut names, &mut [], &mut [], &mut [], &mut [], &mut []),
        Err(Refusal::BufferLength)
    );
    assert!(MarkedValue { value, names } == *board.value());
}

fn name() {
    for number in 0..=255 {
        let refusal = Refusal::from_number(number);
        assert_eq!(refusal.number(), number);
        assert_eq!(matches!(refusal, Refusal::Other(_)), !matches!(number, 1..=29 | 32 | 33), "{refusal:?}");
    }
    assert_eq!(Refusal::NotInForce.to_string(), "refused 17: no rule of this number is in force");
    assert_eq!(Refusal::Other(99).to_string(), "refused 99: no refusal has this number");
}

/// The first call of a host that lends its own memory.
fn lend(word: &str) {
    let MarkedValue { mut value, mut names } = value_of(0);
    let refused = match word {
        "command" => lent::command(&mut value, &mut names, &[4], &mut [], &mut [], &mut [], &mut [], &mut []).err(),
        _ => lent::Memory { value: &value, rows: &[], killers: &[], slots: &[] }.open_slots(0).err(),
    };
    assert_eq!(refused, Some(Refusal::BufferLength));
}

fn main() {
    match std::env::args().nth(1).as_deref() {
        None => (),
        Some("texts") => {
            return (0..=255).for_each(|number| println!("{} {}", number, Refusal::from_number(number).text()))
        }
        Some(word) => return lend(word),
    }
    assert_eq!((lent::library_version(), lent::library_fits()), (berth::VERSION, true));
    let mut board = board();
    summarise(&board);
    ask(&board);
    refuse(&mut board);
    refuse_table(&board);
    refuse_marks(&board);
    alter(&board);
    strew_cancelled(&board);
    mix_heads(&board);
    strew_bytes(&board);
    replay(&mut board);
    support_lowest();
    draft_gaps();
    refuse_gaps();
    refuse_names();
    keep_boards();
    cancel_call();
    refuse_cancelled();
    cancel_without_rows();
    touch_to_the_slot();
    check_plans();
    check_all_rules();
    check_cancelled_columns();
    check_without_rows();
    check_bytes();
    refuse_plans();
    check_after_back();
    search_samples();
    search_without_rows();
    search_all_rules();
    search_long();
    refuse_search();
    search_after_back();
    search_random();
    name();
    println!("wrapper: every function answers from Rust as it should");
}
