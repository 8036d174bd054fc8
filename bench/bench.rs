//! The benchmark: lifts and puts through the static library, against a board that filters afresh (afresh.rs), compiled once as it is and once for the machine
//! that it runs on. Only kinds 4 and 5 are timed; heads and rows are sent outside the clock. After each command all sides have to show the same open slots. A
//! command of the library leaves the summary table current, too, in the time that is measured; the others have no such table.
//!
//! Gap rules are measured apart from these: each is one command of the library, against the head and the rows of the same draft. So are marks and backs of order
//! 13's board, cancellations, and commands that have next to nothing to do, of the library alone; and checks of plans and searches for the first full plan, each
//! against a board that is made for them (plans.rs, search.rs), compiled twice like afresh.rs. The library is handed a copy of its value with each of both.
#[path = "../hosts/berth.rs"]
mod berth;

use std::time::Instant;

/// A rule to lift and put: its number, calls and rows.
#[derive(Clone)]
struct Rule {
    number: u8,
    calls: Vec<u8>,
    rows: Vec<[u8; 4]>,
}

impl Rule {
    fn new(number: usize, calls: &[usize], rows: Vec<Vec<usize>>) -> Self {
        let filled = |row: &Vec<usize>| {
            let slot = |k: usize| row.get(k).map_or(255, |slot| *slot as u8);
            [slot(0), slot(1), slot(2), slot(3)]
        };
        let mut rows: Vec<[u8; 4]> = rows.iter().map(filled).collect();
        let mut seen = vec![];
        rows.retain(|row| !seen.contains(row) && (seen.push(*row), true).1);
        rows.truncate(64);
        Rule { number: number as u8, calls: calls.iter().map(|call| *call as u8).collect(), rows }
    }
}

/// A board to measure: all rules are in force, and some of them are lifted and put again in turn.
struct Case {
    name: &'static str,
    counts: Vec<u8>,
    rules: Vec<Rule>,
    /// places in `rules`
    measured: Vec<usize>,
    rounds: usize,
}

/// Order 13's board.
fn busiest() -> Case {
    let rule = |r: usize| {
        let m = if r >= 32 && r % 2 == 0 { 31 } else { 32 };
        let rows = (0..64).map(|w| vec![w % m, (w + w / m) % m]);
        Rule::new(r, &[r % 32, (r + 1) % 32], rows.collect())
    };
    Case {
        name: "order 13",
        counts: vec![32; 32],
        rules: (0..64).map(rule).collect(),
        measured: (0..64).collect(),
        rounds: 400,
    }
}

/// Numbers below n, the same in every run.
struct Random(u64);

impl Random {
    fn below(&mut self, n: usize) -> usize {
        self.0 = self.0.wrapping_mul(6364136223846793005).wrapping_add(1442695040888963407);
        (self.0 >> 33) as usize % n
    }
}

/// The three calls of rule r, where rules join all calls.
fn three_calls(r: usize) -> [usize; 3] {
    [r % 32, (r + 1 + r / 32) % 32, (r + 5 + 2 * (r / 32)) % 32]
}

/// Rules of three calls. Eight full plans keep some slots open whatever happens; the other rows are arbitrary, and most of their slots are struck. With 24 rules
/// each of them strikes something of its own; with 64 nearly every slot is struck by several, so that a lift touches many and reopens few.
fn dense(name: &'static str, number_of_rules: usize, rounds: usize) -> Case {
    around_plans(name, (0..number_of_rules).map(|r| three_calls(r).to_vec()), rounds)
}

/// Rules on these calls, each with the rows of the same eight plans and 56 that are arbitrary.
fn around_plans(name: &'static str, calls_of_rules: impl Iterator<Item = Vec<usize>>, rounds: usize) -> Case {
    let mut random = Random(13);
    let plans: Vec<Vec<usize>> = (0..8).map(|_| (0..32).map(|_| random.below(32)).collect()).collect();
    let mut rules = vec![];
    for (r, calls) in calls_of_rules.enumerate() {
        let of_plan = |plan: &Vec<usize>| calls.iter().map(|call| plan[*call]).collect();
        let mut rows: Vec<Vec<usize>> = plans.iter().map(of_plan).collect();
        rows.extend((8..64).map(|_| calls.iter().map(|_| random.below(32)).collect()));
        rules.push(Rule::new(r, &calls, rows));
    }
    Case { name, counts: vec![32; 32], measured: (0..rules.len()).collect(), rules, rounds }
}

/// The overfull board with a fourth call in each rule.
fn four_calls() -> Case {
    let with_fourth = |r: usize| [&three_calls(r)[..], &[(r + 12) % 32]].concat();
    around_plans("four calls", (0..64).map(with_fourth), 20)
}

/// 64 rules of three calls with equal slots and as many arbitrary rows. Six of the rules leave out five equal slots each, which strikes them on nearly every call:
/// these six are lifted and put, so that each put strikes many slots through many rules, and each lift reopens them.
fn many_strikes() -> Case {
    let mut random = Random(13);
    let mut rules = vec![];
    for r in 0..64 {
        let left_out = |s: usize| r % 11 == 0 && s / 5 == r / 11;
        let mut rows: Vec<Vec<usize>> = (0..32).filter(|s| !left_out(*s)).map(|s| vec![s, s, s]).collect();
        let arbitrary = (0..32).map(|_| vec![random.below(32), random.below(32), random.below(32)]);
        rows.extend(arbitrary.filter(|row| !row.iter().any(|s| left_out(*s))));
        rules.push(Rule::new(r, &three_calls(r), rows));
    }
    let measured = (0..64).filter(|r| r % 11 == 0).collect();
    Case { name: "many strikes", counts: vec![32; 32], rules, measured, rounds: 60 }
}

/// Equal slots from call to call, and one rule at the end of the chain that leaves a single slot: putting it strikes 992 slots, and lifting it reopens them.
fn long_chain() -> Case {
    let link = |c: usize| Rule::new(c, &[c, c + 1], (0..32).map(|s| vec![s, s]).collect());
    let mut rules: Vec<Rule> = (0..31).map(link).collect();
    rules.push(Rule::new(63, &[0], vec![vec![0]]));
    Case { name: "long chain", counts: vec![32; 32], rules, measured: vec![31], rounds: 2000 }
}

/// Twelve calls of 32 slots, each one or two slots after the one before: every link is lifted and put.
fn chain() -> Case {
    let link = |c: usize| {
        Rule::new(
            c,
            &[c, c + 1],
            (0..31).flat_map(|s| [vec![s, s + 1], vec![s, s + 2]]).filter(|row| row[1] < 32).collect(),
        )
    };
    Case {
        name: "chain",
        counts: vec![32; 12],
        rules: (0..11).map(link).collect(),
        measured: (0..11).collect(),
        rounds: 1000,
    }
}

/// The pairs of slots below n that pass.
fn pairs(n: usize, holds: fn(usize, usize) -> bool) -> Vec<Vec<usize>> {
    let all = (0..n).flat_map(|a| (0..n).map(move |b| (a, b)));
    all.filter(|(a, b)| holds(*a, *b)).map(|(a, b)| vec![a, b]).collect()
}

/// Six calls of eight slots: each goes before the next, two have slots of their own, and three lie apart from each other.
fn everyday() -> Case {
    let mut rules: Vec<Rule> = (0..5).map(|c| Rule::new(c, &[c, c + 1], pairs(8, |a, b| a < b))).collect();
    rules.push(Rule::new(5, &[0], vec![vec![0], vec![1]]));
    rules.push(Rule::new(6, &[3], vec![vec![3], vec![5]]));
    let apart = (0..8).flat_map(|a| [vec![a, (a + 2) % 8, (a + 4) % 8], vec![a, (a + 3) % 8, (a + 5) % 8]]);
    rules.push(Rule::new(7, &[1, 3, 5], apart.collect()));
    Case { name: "everyday", counts: vec![8; 6], measured: (0..rules.len()).collect(), rules, rounds: 2000 }
}

/// Twelve calls of ten slots: each goes before the next but one, neighbours lie apart, and each third call has slots of its own.
fn busy_day() -> Case {
    let mut rules: Vec<Rule> = (0..10).map(|c| Rule::new(c, &[c, c + 2], pairs(10, |a, b| a < b))).collect();
    rules.extend(
        (0..11).map(|c| Rule::new(10 + c, &[c, c + 1], pairs(10, |a, b| a + 2 <= b || (b + 2 <= a && b + 5 > a)))),
    );
    rules.extend((0..4).map(|k| Rule::new(21 + k, &[3 * k], (k..k + 5).map(|s| vec![s]).collect())));
    Case { name: "busy day", counts: vec![10; 12], measured: (0..rules.len()).collect(), rules, rounds: 1000 }
}

/// Nanoseconds that reading the clock takes by itself.
fn clock_cost() -> u64 {
    let mut times = vec![];
    (0..10001).for_each(|_| timed(&mut times, || ()));
    median(&times)
}

/// Nanoseconds of each timed command: by kind, and for each measured rule those of all rounds.
struct Times {
    lifts: Vec<Vec<u64>>,
    puts: Vec<Vec<u64>>,
}

impl Times {
    fn of(case: &Case) -> Self {
        let none = vec![vec![]; case.measured.len()];
        Times { lifts: none.clone(), puts: none }
    }
}

fn median(times: &[u64]) -> u64 {
    let mut times = times.to_vec();
    times.sort();
    times[times.len() / 2]
}

/// The mean over the measured rules of each one's median, less what reading the clock takes.
fn mean(rules: &[Vec<u64>], clock: u64) -> f64 {
    let sum: u64 = rules.iter().map(|times| median(times)).sum();
    sum as f64 / rules.len() as f64 - clock as f64
}

/// The open slots after each lift and put of one round.
type Shown = Vec<[u32; 32]>;

/// A side of the benchmark.
trait Side {
    fn start(case: &Case) -> Self;
    /// Gets ready to put the rule; not timed.
    fn prepare(&mut self, rule: &Rule);
    fn put(&mut self);
    fn lift(&mut self, number: u8);
    fn shown(&self) -> [u32; 32];
}

/// Slots struck by puts, and reopened and touched by lifts, of one round.
#[derive(Clone, Copy, Default)]
struct Changes {
    struck: usize,
    reopened: usize,
    touched: usize,
}

struct Ours {
    board: berth::Board,
    changes: Changes,
}

impl Side for Ours {
    fn start(case: &Case) -> Self {
        let mut board = berth::Board::new();
        board.start(&case.counts).unwrap();
        let changes = Changes::default();
        Ours { board, changes }
    }

    fn prepare(&mut self, rule: &Rule) {
        self.board.head(rule.number, &rule.calls).unwrap();
        for row in &rule.rows {
            self.board.command(&[3, row[0], row[1], row[2], row[3]]).unwrap();
        }
    }

    // a function of its own, so that a profile can tell its work from that of heads and rows
    #[inline(never)]
    fn put(&mut self) {
        let report = self.board.put().unwrap();
        self.changes.struck += report.struck;
    }

    #[inline(never)]
    fn lift(&mut self, number: u8) {
        let report = self.board.lift(number).unwrap();
        self.changes.reopened += report.reopened;
        self.changes.touched += report.touched;
    }

    fn shown(&self) -> [u32; 32] {
        let shown: [u32; 32] =
            std::array::from_fn(|call| self.board.open_slots(call as u8).map_or(0, |open| open.mask));
        let counted = self.board.summaries().map(|figures| figures.open as u32);
        assert!(counted == shown.map(u32::count_ones), "the summary table has other open slots");
        shown
    }
}

/// The board that filters afresh, of the crate of this name.
macro_rules! afresh_side {
    ($side:ident, $library:ident) => {
        struct $side {
            board: $library::Board,
            draft: Option<(usize, $library::Rule)>,
        }

        impl Side for $side {
            fn start(case: &Case) -> Self {
                let board = $library::Board::new(&case.counts);
                $side { board, draft: None }
            }

            fn prepare(&mut self, rule: &Rule) {
                let draft = $library::Rule::new(&rule.calls, &rule.rows);
                self.draft = Some((rule.number as usize, draft));
            }

            fn put(&mut self) {
                let (number, rule) = self.draft.take().unwrap();
                self.board.put(number, rule);
            }

            fn lift(&mut self, number: u8) {
                self.board.lift(number as usize);
            }

            fn shown(&self) -> [u32; 32] {
                *self.board.open()
            }
        }
    };
}

afresh_side!(Afresh, afresh);
afresh_side!(AfreshNative, afresh_native);

fn timed(times: &mut Vec<u64>, work: impl FnOnce()) {
    let start = Instant::now();
    work();
    times.push(start.elapsed().as_nanos() as u64);
}

/// One round: each measured rule is lifted and put again.
fn round<S: Side>(side: &mut S, case: &Case, times: &mut Times, mut shown: Option<&mut Shown>) {
    for (k, place) in case.measured.iter().enumerate() {
        let rule = &case.rules[*place];
        timed(&mut times.lifts[k], || side.lift(rule.number));
        if let Some(shown) = &mut shown {
            shown.push(side.shown());
        }
        side.prepare(rule);
        timed(&mut times.puts[k], || side.put());
        if let Some(shown) = &mut shown {
            shown.push(side.shown());
        }
    }
}

/// The side with every rule in force, and the open slots after each command of a first round, which also warms it up.
fn ready<S: Side>(case: &Case) -> (S, Shown) {
    let mut side = S::start(case);
    let mut shown = vec![];
    for rule in &case.rules {
        side.prepare(rule);
        side.put();
        shown.push(side.shown());
    }
    round(&mut side, case, &mut Times::of(case), Some(&mut shown));
    (side, shown)
}

fn put_all(side: &mut Ours, case: &Case) {
    for rule in &case.rules {
        side.prepare(rule);
        side.put();
    }
}

fn measure(case: &Case, clock: u64) {
    let (mut ours, ours_shown) = ready::<Ours>(case);
    let (mut afresh, afresh_shown) = ready::<Afresh>(case);
    let (mut native, native_shown) = ready::<AfreshNative>(case);
    assert!(ours_shown == afresh_shown && ours_shown == native_shown, "{}: other open slots", case.name);
    ours.changes = Changes::default();
    let mut times = [Times::of(case), Times::of(case), Times::of(case)];
    for _ in 0..case.rounds {
        round(&mut ours, case, &mut times[0], None);
        round(&mut afresh, case, &mut times[1], None);
        round(&mut native, case, &mut times[2], None);
    }
    let last = (ours.shown(), afresh.shown(), native.shown());
    assert!(last.0 == last.1 && last.0 == last.2, "{}: other open slots at the end", case.name);
    let commands = (case.measured.len() * case.rounds) as f64;
    let each = |n: usize| n as f64 / commands;
    let changes = ours.changes;
    let (struck, reopened, touched) = (each(changes.struck), each(changes.reopened), each(changes.touched));
    line(case.name, "put", format!("{:.1} struck", struck), times.each_ref().map(|t| mean(&t.puts, clock)));
    let lifted = format!("{:.1} reopened of {:.1} touched", reopened, touched);
    line(case.name, "lift", lifted, times.each_ref().map(|t| mean(&t.lifts, clock)));
    let both = times.each_ref().map(|t| (mean(&t.puts, clock) + mean(&t.lifts, clock)) / 2.0);
    line(case.name, "both", String::new(), both);
}

fn line(name: &str, command: &str, changes: String, [ours, afresh, native]: [f64; 3]) {
    println!(
        "| {:12} | {:4} | {:31} | {:9.0} | {:9.0} | {:5.2} | {:9.0} | {:5.2} |",
        name,
        command,
        changes,
        ours,
        afresh,
        afresh / ours,
        native,
        native / ours
    );
}

/// A gap rule on two calls of 32 slots, with the pairs that fit it.
struct GapRule {
    form: u8,
    gap: u8,
    pairs: Vec<Vec<usize>>,
}

/// Two that nearly fill a draft, and one that is refused since every pair fits.
fn gap_rules() -> [GapRule; 3] {
    [
        GapRule { form: 1, gap: 22, pairs: pairs(32, |a, b| a + 22 <= b) },
        GapRule { form: 2, gap: 25, pairs: pairs(32, |a, b| a.abs_diff(b) >= 25) },
        GapRule { form: 2, gap: 0, pairs: pairs(32, |_, _| true) },
    ]
}

fn two_calls() -> Ours {
    let mut board = berth::Board::new();
    board.start(&[32, 32]).unwrap();
    Ours { board, changes: Changes::default() }
}

/// An accepted gap rule leaves the same value as its head and rows, each time. A refused one has no draft to compare with.
fn measure_gap_rule(rule: &GapRule, clock: u64) {
    let (mut whole, mut by_row) = (two_calls(), two_calls());
    let bytes = [6, rule.form, 0, 0, 1, rule.gap];
    let rows = Rule::new(0, &[0, 1], rule.pairs.clone());
    let due = if rule.pairs.len() > 64 { 25 } else { 0 };
    let mut times = [vec![], vec![]];
    for _ in 0..4001 {
        let mut answer = Ok(berth::Report::default());
        timed(&mut times[0], || answer = whole.board.command(&bytes));
        assert!(answer.map_or_else(berth::Refusal::number, |_| 0) == due, "{bytes:?}: another answer");
        if due == 0 {
            timed(&mut times[1], || by_row.prepare(&rows));
            assert!(whole.board.memory().value == by_row.board.memory().value, "{bytes:?}: another draft");
        }
    }
    let name = format!("form {}, gap {}", rule.form, rule.gap);
    let start = format!("| {name:14} | {:5}", rule.pairs.len());
    let whole = median(&times[0]) - clock;
    if due != 0 {
        println!("{start} | refused {due} | {whole:9} | {:13} | {:5} |", "", "");
        return;
    }
    let by_row = median(&times[1]) - clock;
    println!("{start} | {:10} | {whole:9} | {by_row:13} | {:5.2} |", "accepted", by_row as f64 / whole as f64);
}

fn measure_gap_rules(clock: u64) {
    println!("Nanoseconds per draft of a gap rule on two calls of 32 slots, medians; reading the clock, {clock} ns, is taken off.\nA ratio above 1: the gap rule is faster.\n");
    println!(
        "| {:14} | {:5} | {:10} | {:>9} | {:>13} | {:5} |",
        "rule", "pairs", "answer", "gap rule", "head and rows", "ratio"
    );
    println!("|----------------|-------|------------|-----------|---------------|-------|");
    gap_rules().iter().for_each(|rule| measure_gap_rule(rule, clock));
}

/// Order 13's board is kept with all rules in force, and without any; each is brought back from the other, and has to show its open slots.
fn measure_marks(clock: u64) {
    println!("Nanoseconds per command on order 13's board, medians; reading the clock, {clock} ns, is taken off.\n");
    println!("| {:4} | {:22} | {:31} | {:>9} |", "kind", "rules in force", "slots, per command", "library");
    println!("|------|------------------------|---------------------------------|-----------|");
    let case = busiest();
    let mut side = Ours::start(&case);
    // before any rule
    side.board.mark(1).unwrap();
    let bare = side.shown();
    put_all(&mut side, &case);
    let full = side.shown();
    let commands = [
        ("mark", "64, each with 64 rows", [7, 0], full),
        ("back", "none after 64", [8, 1], bare),
        ("back", "64 after none", [8, 0], full),
    ];
    let mut times = [vec![], vec![], vec![]];
    let mut reports = [berth::Report::default(); 3];
    for _ in 0..4001 {
        for (k, (_, rules, bytes, due)) in commands.iter().enumerate() {
            timed(&mut times[k], || reports[k] = side.board.command(bytes).unwrap());
            assert!(side.shown() == *due, "{rules}: other open slots");
        }
    }
    for (k, (kind, rules, ..)) in commands.iter().enumerate() {
        let slots = format!("{} struck, {} reopened", reports[k].struck, reports[k].reopened);
        println!("| {kind:4} | {rules:22} | {slots:31} | {:9} |", median(&times[k]) - clock);
    }
}

/// Each call of a board is cancelled by itself, with all rules in force. A back, which is not timed, undoes it, and has to show the open slots from before.
fn measure_cancellation(case: &Case, clock: u64) {
    let mut side = Ours::start(case);
    put_all(&mut side, case);
    side.board.mark(0).unwrap();
    let full = side.shown();
    let ones = |shown: [u32; 32]| shown.iter().map(|open| open.count_ones() as usize).sum::<usize>();
    let mut times = vec![vec![]; case.counts.len()];
    let mut changes = Changes::default();
    for _ in 0..case.rounds {
        for (call, times) in times.iter_mut().enumerate() {
            let mut report = berth::Report::default();
            timed(times, || report = side.board.cancel(call as u8).unwrap());
            changes.reopened += report.reopened;
            changes.touched += report.touched;
            let due = ones(full) - full[call].count_ones() as usize + report.reopened;
            assert!(ones(side.shown()) == due, "{}: other open slots without call {call}", case.name);
            side.board.back(0).unwrap();
            assert!(side.shown() == full, "{}: other open slots after a back", case.name);
        }
    }
    let each = |n: usize| n as f64 / (case.counts.len() * case.rounds) as f64;
    let slots = format!("{:.1} reopened of {:.1} touched", each(changes.reopened), each(changes.touched));
    println!("| {:12} | {slots:31} | {:9.0} |", case.name, mean(&times, clock));
}

fn measure_cancellations(clock: u64) {
    println!("Nanoseconds per cancellation, the mean over the board's calls of each one's median; reading the clock, {clock} ns, is taken off.\n");
    println!("| {:12} | {:31} | {:>9} |", "board", "slots, per command", "library");
    println!("|--------------|---------------------------------|-----------|");
    [busiest(), dense("dense", 24, 60), long_chain(), busy_day()]
        .iter()
        .for_each(|case| measure_cancellation(case, clock));
}

/// So many are timed in a row, since one of them takes about as long as reading the clock.
const IN_A_ROW: u64 = 1000;

/// Commands on the everyday board, with the number that each is refused under; 0 where it is accepted.
fn measure_small_commands(clock: u64) {
    println!("Nanoseconds per command on the board everyday, medians of {IN_A_ROW} in a row; reading the clock, {clock} ns, is taken off.\n");
    println!("| {:4} | {:10} | {:>9} |", "kind", "answer", "library");
    println!("|------|------------|-----------|");
    let commands: [(&str, &[u8], u8); 3] =
        [("lift", &[5, 63], 17), ("row", &[3, 0, 255, 255, 255], 12), ("head", &[2, 63, 1, 0, 255, 255, 255], 0)];
    for (kind, bytes, due) in commands {
        let case = everyday();
        let mut side = Ours::start(&case);
        put_all(&mut side, &case);
        let mut times = vec![];
        for _ in 0..401 {
            let mut others = 0;
            timed(&mut times, || {
                for _ in 0..IN_A_ROW {
                    let answer = side.board.command(bytes);
                    others += (answer.map_or_else(berth::Refusal::number, |_| 0) != due) as usize;
                }
            });
            assert!(others == 0, "{kind}: another answer");
        }
        let answer = if due == 0 { "accepted".to_string() } else { format!("refused {due}") };
        println!("| {kind:4} | {answer:10} | {:9.1} |", (median(&times) - clock) as f64 / IN_A_ROW as f64);
    }
}

/// The library's board with all rules in force, and these calls cancelled.
fn with_cancelled(case: &Case, cancelled: &[u8]) -> Ours {
    let mut side = Ours::start(case);
    put_all(&mut side, case);
    for call in cancelled {
        side.board.cancel(*call).unwrap();
    }
    side
}

/// The lowest number of a rule that a plan breaks, none where it keeps all, or the number of a refusal.
type Checked = Result<Option<u8>, u8>;

/// A plan, and the answer that is due.
#[derive(Clone, Copy)]
struct Plan {
    bytes: [u8; berth::PLAN],
    due: Checked,
}

/// A board, its cancelled calls, and some of its full plans: a byte for each call on it, 255 for those that are cancelled.
struct Planned {
    name: &'static str,
    case: Case,
    cancelled: Vec<u8>,
    full_plans: Vec<Vec<u8>>,
}

/// The plan's byte for a call; 255 past its end.
fn byte_for(plan: &[u8], call: usize) -> u8 {
    plan.get(call).copied().unwrap_or(berth::NONE)
}

fn with_byte(plan: &[u8], call: usize, byte: u8) -> Vec<u8> {
    let mut changed = plan.to_vec();
    changed[call] = byte;
    changed
}

/// A row of the rule has the plan's slots, in the columns of the calls that have one.
fn fits(plan: &[u8], rule: &Rule) -> bool {
    let in_column = |(call, slot): (&u8, &u8)| [*slot, berth::NONE].contains(&byte_for(plan, *call as usize));
    rule.rows.iter().any(|row| rule.calls.iter().zip(row).all(in_column))
}

impl Planned {
    /// On order 13's board equal slots fit every rule, but for slot 31.
    fn busiest() -> Self {
        let full_plans = (0..31).map(|slot| vec![slot; 32]).collect();
        Planned { name: "order 13", case: busiest(), cancelled: vec![], full_plans }
    }

    /// All full plans, found call by call: those so far with each slot of the next call, as long as every rule has a row that fits.
    fn searched(name: &'static str, case: Case, cancelled: Vec<u8>) -> Self {
        let mut plans = vec![vec![]];
        for (call, count) in case.counts.iter().enumerate() {
            let bytes = if cancelled.contains(&(call as u8)) { vec![berth::NONE] } else { (0..*count).collect() };
            let longer = |plan: &Vec<u8>| bytes.iter().map(|byte| [&plan[..], &[*byte]].concat()).collect::<Vec<_>>();
            plans = plans.iter().flat_map(longer).collect();
            plans.retain(|plan| case.rules.iter().all(|rule| fits(plan, rule)));
        }
        Planned { name, case, cancelled, full_plans: plans }
    }

    /// The whole plan, with 255 for the calls that are not on the board. The rules of a case are in rising order.
    fn plan(&self, plan: &[u8]) -> Plan {
        let broken = self.case.rules.iter().find(|rule| !fits(plan, rule));
        Plan { bytes: std::array::from_fn(|call| byte_for(plan, call)), due: Ok(broken.map(|rule| rule.number)) }
    }

    fn kept(&self) -> Vec<Plan> {
        let plans: Vec<Plan> = self.full_plans.iter().map(|plan| self.plan(plan)).collect();
        assert!(plans.iter().all(|plan| plan.due == Ok(None)), "{}: a full plan that is not one", self.name);
        plans
    }

    /// The full plans with one slot changed, where that breaks a rule.
    fn broken(&self) -> Vec<Plan> {
        let mut plans = vec![];
        for plan in &self.full_plans {
            for call in (0..plan.len()).filter(|call| plan[*call] != berth::NONE) {
                plans.extend((0..self.case.counts[call]).map(|slot| self.plan(&with_byte(plan, call, slot))));
            }
        }
        plans.retain(|plan| plan.due != Ok(None));
        plans
    }

    fn ours(&self) -> Ours {
        with_cancelled(&self.case, &self.cancelled)
    }
}

impl Ours {
    fn check(&self, plan: &[u8]) -> Checked {
        match self.board.check_plan(plan) {
            Ok(berth::PlanCheck::Kept) => Ok(None),
            Ok(berth::PlanCheck::Broken { rule }) => Ok(Some(rule)),
            Err(refusal) => Err(refusal.number()),
        }
    }
}

/// The board of the crate of this name.
macro_rules! plans_board {
    ($library:ident, $board:expr) => {{
        let mut board = $library::Board::new(&$board.case.counts, &$board.cancelled);
        for rule in &$board.case.rules {
            board.put(rule.number, &rule.calls, &rule.rows);
        }
        board
    }};
}

/// Checks plans in a row. Each answer has to be the one that is due.
fn pass(times: &mut Vec<u64>, plans: &[Plan], check: impl Fn(&[u8]) -> Checked) {
    let mut others = 0;
    timed(times, || others = plans.iter().filter(|plan| check(&plan.bytes) != plan.due).count());
    assert!(others == 0, "{others} other answers");
}

/// The plans stand in another order in each round, so that the processor cannot learn them by heart.
fn measure_plans_of(board: &Planned, clock: u64) {
    let (ours, tables, native) = (board.ours(), plans_board!(plans, board), plans_board!(plans_native, board));
    let mut random = Random(10);
    for (answer, plans) in [("kept", board.kept()), ("broken", board.broken())] {
        let mut times = [vec![], vec![], vec![]];
        for _ in 0..401 {
            let row: Vec<Plan> = (0..IN_A_ROW).map(|_| plans[random.below(plans.len())]).collect();
            pass(&mut times[0], &row, |plan| ours.check(plan));
            pass(&mut times[1], &row, |plan| tables.check(plan));
            pass(&mut times[2], &row, |plan| native.check(plan));
        }
        let times = times.map(|times| (median(&times) - clock) as f64 / IN_A_ROW as f64);
        plans_line(board.name, answer, plans.len(), times);
    }
}

fn plans_line(name: &str, answer: &str, number: usize, [ours, tables, native]: [f64; 3]) {
    let a_second = |time: f64| 1000.0 / time;
    println!(
        "| {:13} | {:6} | {:6} | {:7.1} | {:6.1} | {:5.2} | {:6.1} | {:5.2} | {:7.2} | {:6.1} | {:6.1} |",
        name,
        answer,
        number,
        ours,
        tables,
        tables / ours,
        native,
        native / ours,
        a_second(ours),
        a_second(tables),
        a_second(native)
    );
}

/// All sides refuse alike: a plan with a wrong byte, one that is too short or too long, and any where there is no board.
fn compare_refusals() {
    let board = Planned::searched("everyday", everyday(), vec![]);
    let fresh = Ours { board: berth::Board::new(), changes: Changes::default() };
    let (ours, tables, no_tables) = (board.ours(), plans_board!(plans, board), plans::Board::new(&[], &[]));
    let plan = &board.kept()[0].bytes;
    let mut refused: Vec<Vec<u8>> = (0..plan.len()).map(|call| with_byte(plan, call, 8)).collect();
    refused.extend([plan[1..].to_vec(), [&plan[..], &[berth::NONE]].concat()]);
    for plan in refused {
        let answers = [ours.check(&plan), tables.check(&plan), fresh.check(&plan), no_tables.check(&plan)];
        assert!(answers[0].is_err() && answers[0] == answers[1], "{plan:?}: another answer");
        assert!(answers[2].is_err() && answers[2] == answers[3], "{plan:?}: another answer without a board");
    }
}

fn measure_checks(clock: u64) {
    compare_refusals();
    println!("Nanoseconds per check, medians of {IN_A_ROW} plans in a row; reading the clock, {clock} ns, is taken off.\nA ratio above 1: the library is faster. The last three columns are millions of checks a second.\n");
    println!(
        "| {:13} | {:6} | {:6} | {:>7} | {:>6} | {:5} | {:>6} | {:5} | {:>7} | {:>6} | {:>6} |",
        "board", "answer", "plans", "library", "tables", "ratio", "native", "ratio", "library", "tables", "native"
    );
    println!(
        "|---------------|--------|--------|---------|--------|-------|--------|-------|---------|--------|--------|"
    );
    let boards = [
        Planned::busiest(),
        Planned::searched("overfull", dense("overfull", 64, 20), vec![]),
        Planned::searched("four calls", four_calls(), vec![]),
        Planned::searched("everyday", everyday(), vec![]),
        Planned::searched("busy day", busy_day(), vec![]),
        Planned::searched("one cancelled", busy_day(), vec![2]),
    ];
    boards.iter().for_each(|board| measure_plans_of(board, clock));
}

/// All calls need different slots: each two have the rows of a gap rule of form 2 and gap 1.
fn all_differ(name: &'static str, counts: Vec<u8>) -> Case {
    let mut rules = vec![];
    for b in 0..counts.len() {
        for a in 0..b {
            let of_call = |call: usize| 0..counts[call] as usize;
            let rows = of_call(a).flat_map(|s| of_call(b).filter(move |t| s != *t).map(move |t| vec![s, t]));
            rules.push(Rule::new(rules.len(), &[a, b], rows.collect()));
        }
    }
    Case { name, counts, rules, measured: vec![], rounds: 0 }
}

/// The longest way down: with any slot but its last, two rules want different slots of the next call. So each call goes through all of its slots.
fn deep() -> Case {
    let rows = |k: usize| (0..32).map(|t| vec![31, t]).chain((0..31).map(move |s| vec![s, k])).collect();
    let rules = (0..62).map(|r| Rule::new(r, &[r / 2, r / 2 + 1], rows(r % 2))).collect();
    Case { name: "deep", counts: vec![32; 32], rules, measured: vec![], rounds: 0 }
}

/// The ending of a search, its trials and the plan, or the number of a refusal.
type Searched = Result<search::Answer, u8>;

impl Ours {
    fn first_plan(&self, ceiling: u32) -> Searched {
        let blank = [berth::NONE; berth::PLAN];
        match self.board.first_plan(ceiling) {
            Ok(berth::FirstPlan::Found { plan, trials }) => Ok((search::FOUND, trials, plan)),
            Ok(berth::FirstPlan::None { trials }) => Ok((search::NOTHING, trials, blank)),
            Ok(berth::FirstPlan::Stopped { trials }) => Ok((search::STOPPED, trials, blank)),
            Err(refusal) => Err(refusal.number()),
        }
    }
}

/// The board of the crate of this name, with the open slots that the library shows.
macro_rules! search_board {
    ($library:ident, $case:expr, $cancelled:expr, $ours:expr) => {{
        let mut board = $library::Board::new($case.counts.len(), $cancelled, $ours.shown());
        for rule in &$case.rules {
            board.put(&rule.calls, &rule.rows);
        }
        board
    }};
}

/// Asks so many times in a row. Each answer has to be the one that is due.
fn ask(times: &mut Vec<u64>, in_a_row: u64, due: Searched, first_plan: impl Fn() -> Searched) {
    let mut others = 0;
    timed(times, || others = (0..in_a_row).filter(|_| first_plan() != due).count());
    assert!(others == 0, "{others} other answers");
}

/// Both ways to search give the library's answer: with any ceiling around the trials that are needed, and where there is no board.
fn compare_searches(case: &Case, cancelled: &[u8]) {
    let ours = with_cancelled(case, cancelled);
    let tables = search_board!(search, case, cancelled, ours).tables().unwrap();
    let (_, trials, _) = ours.first_plan(u32::MAX).unwrap();
    for ceiling in [0, 1, trials / 2, trials.saturating_sub(1), trials, trials + 1, u32::MAX] {
        let answer = ours.first_plan(ceiling).unwrap();
        let others = [tables.slot_by_slot(ceiling), tables.at_once(ceiling)];
        assert!(others == [answer; 2], "{}: another answer, ceiling {ceiling}", case.name);
    }
    let fresh = Ours { board: berth::Board::new(), changes: Changes::default() };
    let refusals = (fresh.first_plan(1).err(), search::Board::new(0, &[], [0; 32]).tables().err());
    assert!(refusals.0.is_some() && refusals.0 == refusals.1, "another answer without a board");
}

/// The tables of the other side are made in the time of a question; only "kept" has them from before. It and "native" search at once.
fn measure_search(case: &Case, clock: u64) {
    let ours = with_cancelled(case, &[]);
    let (board, native) = (search_board!(search, case, &[], ours), search_board!(search_native, case, &[], ours));
    let kept = board.tables().unwrap();
    let due = ours.first_plan(u32::MAX);
    let (ending, trials, _) = due.unwrap();
    let in_a_row = if trials < 1000 { IN_A_ROW } else { 1 };
    let mut times = [vec![], vec![], vec![], vec![], vec![]];
    for _ in 0..51 {
        ask(&mut times[0], in_a_row, due, || ours.first_plan(u32::MAX));
        ask(&mut times[1], in_a_row, due, || Ok(board.tables()?.slot_by_slot(u32::MAX)));
        ask(&mut times[2], in_a_row, due, || Ok(board.tables()?.at_once(u32::MAX)));
        ask(&mut times[3], in_a_row, due, || Ok(native.tables()?.at_once(u32::MAX)));
        ask(&mut times[4], in_a_row, due, || Ok(kept.at_once(u32::MAX)));
    }
    let times = times.map(|times| (median(&times) - clock) as f64 / in_a_row as f64);
    let ending = if ending == search::FOUND { "found" } else { "none" };
    let nanoseconds = times.map(|time| format!("{time:8.0}"));
    let a_second = times.map(|time| format!("{:7.1}", 1000.0 * trials as f64 / time));
    println!("| {:12} | {ending:6} | {trials:6} | {} | {} |", case.name, nanoseconds.join(" | "), a_second.join(" | "));
}

/// Before anything is timed all answers are compared, also on boards with rules of three and four calls, and with cancelled calls.
fn measure_searches(clock: u64) {
    println!("Nanoseconds per question, medians; reading the clock, {clock} ns, is taken off. Searches of less than 1000 trials are asked {IN_A_ROW} in a row.\nThe last five columns are millions of trials a second.\n");
    let sides = ["library", "by slot", "at once", "native", "kept"];
    println!(
        "| {:12} | {:6} | {:6} | {} | {} |",
        "board",
        "ending",
        "trials",
        sides.map(|side| format!("{side:>8}")).join(" | "),
        sides.map(|side| format!("{side:>7}")).join(" | ")
    );
    println!(
        "|--------------|--------|--------|{}{}",
        "----------|".repeat(sides.len()),
        "---------|".repeat(sides.len())
    );
    let boards = [
        all_differ("9 calls on 8", vec![8; 9]),
        // two calls of nine slots would have a rule of 72 rows, so only the first has nine
        all_differ("9 calls on 9", vec![9, 8, 8, 8, 8, 8, 8, 8, 8]),
        deep(),
        busiest(),
        everyday(),
        all_differ("4 calls on 4", vec![4; 4]),
    ];
    boards.iter().for_each(|case| compare_searches(case, &[]));
    compare_searches(&dense("overfull", 64, 20), &[]);
    compare_searches(&four_calls(), &[3, 17]);
    compare_searches(&busy_day(), &[2]);
    compare_searches(&everyday(), &[0, 1, 2, 3, 4, 5]);
    boards.iter().for_each(|case| measure_search(case, clock));
}

/// Plans that are checked, and plans that are searched for.
fn measure_plans(clock: u64) {
    measure_checks(clock);
    println!();
    measure_searches(clock);
}

/// What is measured besides the boards, by its name among theirs.
const OTHERS: [(&str, fn(u64)); 5] = [
    ("gap rules", measure_gap_rules),
    ("marks", measure_marks),
    ("cancellations", measure_cancellations),
    ("small commands", measure_small_commands),
    ("plans", measure_plans),
];

/// The boards of this name, or all where it is empty. A name that nothing has ends the program with the list of them.
fn chosen(name: &str) -> Vec<Case> {
    let mut cases = vec![
        busiest(),
        dense("dense", 24, 60),
        dense("overfull", 64, 20),
        many_strikes(),
        long_chain(),
        chain(),
        everyday(),
        busy_day(),
    ];
    let names: Vec<&str> = cases.iter().map(|case| case.name).chain(OTHERS.map(|(name, _)| name)).collect();
    if !name.is_empty() && !names.contains(&name) {
        eprintln!("there is no board '{}'; there are: {}", name, names.join(", "));
        std::process::exit(2);
    }
    cases.retain(|case| name.is_empty() || case.name == name);
    cases
}

fn measure_boards(cases: &[Case], clock: u64) {
    println!("Nanoseconds per command, the mean over the measured rules of each one's median; reading the clock, {} ns, is taken off.\nA ratio above 1: the library is faster.\n", clock);
    println!(
        "| {:12} | {:4} | {:31} | {:>9} | {:>9} | {:5} | {:>9} | {:5} |",
        "board", "kind", "slots, per command", "library", "afresh", "ratio", "native", "ratio"
    );
    println!(
        "|--------------|------|---------------------------------|-----------|-----------|-------|-----------|-------|"
    );
    cases.iter().for_each(|case| measure(case, clock));
}

fn main() {
    let name = std::env::args().nth(1).unwrap_or_default();
    let cases = chosen(&name);
    let clock = clock_cost();
    if !cases.is_empty() {
        measure_boards(&cases, clock);
    }
    for (_, measure) in OTHERS.iter().filter(|(other, _)| name.is_empty() || name == *other) {
        if name.is_empty() {
            println!();
        }
        measure(clock);
    }
}
