//! A host's value, names, lent buffers, marks and summary table, each between bytes that nobody may write. What the library promises of any contents is asserted
//! of every command: that a refused one changes nothing, what an accepted one leaves of the names and the marks, and what a cancellation leaves.

use crate::berth::lent::{self, Memory};
use crate::berth::{Answer, Draft, Heads, MarkedValue, Name, Refusal, Replay, Report, Rule, Summary, Value, PLAN};
use crate::ledger::{Kept, Ledger, Lengths, Rules, BACK, BOARD, CANCEL, LENGTHS, MARK};
use std::ops::Range;

const FENCE: usize = 1024;
const FENCE_BYTE: u8 = 0xa5;

/// What buffers and tables are made of.
pub trait Item: Copy + PartialEq {
    const FENCE_ITEM: Self;
}

impl Item for u8 {
    const FENCE_ITEM: u8 = FENCE_BYTE;
}

impl Item for Summary {
    const FENCE_ITEM: Summary = Summary { open: FENCE_BYTE, struck: FENCE_BYTE, rules: FENCE_BYTE };
}

#[derive(Clone, PartialEq)]
pub struct Fenced<T> {
    all: Vec<T>,
}

impl<T: Item> Fenced<T> {
    pub fn new(contents: &[T]) -> Self {
        let fence = [T::FENCE_ITEM; FENCE];
        Fenced { all: [&fence, contents, &fence].concat() }
    }

    fn end(&self) -> usize {
        self.all.len() - FENCE
    }

    pub fn inside(&self) -> &[T] {
        &self.all[FENCE..self.end()]
    }

    pub fn inside_mut(&mut self) -> &mut [T] {
        let end = self.end();
        &mut self.all[FENCE..end]
    }

    fn stands(&self) -> bool {
        let outside = [&self.all[..FENCE], &self.all[self.end()..]];
        outside.iter().all(|part| **part == [T::FENCE_ITEM; FENCE])
    }
}

// The value, or both names, as the library is lent them: each between bytes of its own.
#[repr(C)]
struct FencedStruct<T> {
    before: [u8; FENCE],
    inside: T,
    behind: [u8; FENCE],
}

impl<T: Copy> FencedStruct<T> {
    fn new(inside: &T) -> Self {
        let fence = [FENCE_BYTE; FENCE];
        FencedStruct { before: fence, inside: *inside, behind: fence }
    }

    fn stands(&self) -> bool {
        [self.before, self.behind] == [[FENCE_BYTE; FENCE]; 2]
    }
}

fn lend_value<T>(whole: &mut MarkedValue, call: impl FnOnce(&mut Value, &mut [Name; 2]) -> T) -> T {
    let (mut value, mut names) = (FencedStruct::new(&whole.value), FencedStruct::new(&whole.names));
    let answer = call(&mut value.inside, &mut names.inside);
    assert!(value.stands(), "something is written outside the value");
    assert!(names.stands(), "something is written outside the names");
    *whole = MarkedValue { value: value.inside, names: names.inside };
    answer
}

#[derive(Clone, PartialEq)]
pub struct Host {
    pub value: MarkedValue,
    /// rows, killers, slots
    pub buffers: [Fenced<u8>; 3],
    pub marks: Fenced<u8>,
    pub table: Fenced<Summary>,
}

/// The library's reply to a plan, with what a refused one has beside its number, which berth.rs does not hand on.
#[repr(C)]
#[derive(Clone, Copy, Debug, PartialEq)]
pub struct PlanReply {
    pub number: u8,
    pub broken: u8,
}

impl PlanReply {
    pub const KEPT: PlanReply = PlanReply { number: 0, broken: 255 };
}

/// The library's reply to the question for the first full plan, with all that a refused one has.
#[repr(C)]
#[derive(Clone, Copy, Debug, PartialEq)]
pub struct FirstReply {
    pub trials: u32,
    pub number: u8,
    pub ending: u8,
    pub plan: [u8; PLAN],
}

impl FirstReply {
    pub const NOTHING: FirstReply = FirstReply { trials: 0, number: 0, ending: 0, plan: [255; 32] };
    pub const FOUND: FirstReply = FirstReply { ending: 1, ..FirstReply::NOTHING };
    pub const STOPPED: FirstReply = FirstReply { ending: 2, ..FirstReply::NOTHING };
    pub const REFUSED: FirstReply = FirstReply { ending: 254, ..FirstReply::NOTHING };
}

// berth.rs declares both with structs of its own, of the same layout
#[allow(clashing_extern_declarations)]
#[rustfmt::skip]
extern "C" {
    fn berth_first_plan(value: Value, rows: *const u8, r: usize, killers: *const u8, k: usize, slots: *const u8, s: usize, ceiling: u32) -> FirstReply;
    fn berth_check_plan(value: Value, rows: *const u8, r: usize, killers: *const u8, k: usize, slots: *const u8, s: usize, plan: *const u8, p: usize) -> PlanReply;
}

/// The reply to the question for the first full plan, under a ceiling.
pub fn first_plan(memory: Memory, ceiling: u32) -> FirstReply {
    let Memory { value, rows, killers, slots } = memory;
    // SAFETY: each pointer is a slice's, with that slice's length.
    unsafe {
        berth_first_plan(
            *value,
            rows.as_ptr(),
            rows.len(),
            killers.as_ptr(),
            killers.len(),
            slots.as_ptr(),
            slots.len(),
            ceiling,
        )
    }
}

/// The number in the refusal table; 0 of an answer.
pub fn number_of<T>(answer: &Answer<T>) -> u8 {
    let number = |refusal: &Refusal| refusal.number();
    answer.as_ref().err().map_or(0, number)
}

const NO_HEADS: Heads = Heads { counts: [0; 32], arity: [0; 64], scope: [255; 256], lengths: [0; 64] };
const UNUSED_NAME: Name = Name { kept: 0, heads: NO_HEADS };
const NO_DRAFT: Draft = Draft { number: 255, rule: Rule { arity: 0, scope: [255; 4], length: 0, rows: [255; 256] } };

/// The value and the names that belong to a ledger: where it has nothing to say, what a fresh board has.
pub fn value_of(ledger: &Ledger) -> MarkedValue {
    let value = Value { heads: heads_of(&ledger.counts, &ledger.rules), draft: draft_of(ledger) };
    let names = ledger.kept.each_ref().map(|kept| kept.as_ref().map_or(UNUSED_NAME, name_of));
    MarkedValue { value, names }
}

fn name_of(kept: &Kept) -> Name {
    Name { kept: 1, heads: heads_of(&kept.counts, &kept.rules) }
}

fn heads_of(counts: &[u8], rules: &Rules) -> Heads {
    let mut heads = NO_HEADS;
    heads.counts[..counts.len()].copy_from_slice(counts);
    for (number, rule) in rules {
        let number = *number as usize;
        heads.arity[number] = rule.calls.len() as u8;
        heads.scope[4 * number..][..rule.calls.len()].copy_from_slice(&rule.calls);
        heads.lengths[number] = rule.rows.len() as u8;
    }
    heads
}

fn draft_of(ledger: &Ledger) -> Draft {
    let mut draft = NO_DRAFT;
    if let Some((number, rule)) = &ledger.draft {
        let rows = rule.rows.as_flattened();
        draft.number = *number;
        draft.rule.arity = rule.calls.len() as u8;
        draft.rule.scope[..rule.calls.len()].copy_from_slice(&rule.calls);
        draft.rule.length = rule.rows.len() as u8;
        draft.rule.rows[..rows.len()].copy_from_slice(rows);
    }
    draft
}

/// Where the bytes under a name stand among the marks'.
pub fn part_under(name: u8) -> Range<usize> {
    let half = LENGTHS.marks / 2;
    half * name as usize..half * (name as usize + 1)
}

impl Host {
    pub fn fresh() -> Self {
        let fill = [255, 255, 254];
        let buffer = |i: usize| Fenced::new(&vec![fill[i]; LENGTHS.buffers[i]]);
        let marks = Fenced::new(&vec![0; LENGTHS.marks]);
        let table = Fenced::new(&vec![Summary::default(); LENGTHS.table]);
        Host { value: lent::fresh(), buffers: std::array::from_fn(buffer), marks, table }
    }

    /// The same, with these marks' bytes: nothing is kept, so they may be any.
    pub fn fresh_beside(marks: &Fenced<u8>) -> Self {
        Host { marks: marks.clone(), ..Host::fresh() }
    }

    pub fn lengths(&self) -> Lengths {
        let buffers = self.buffers.each_ref().map(|buffer| buffer.inside().len());
        Lengths { buffers, marks: self.marks.inside().len(), table: self.table.inside().len() }
    }

    /// What a call answers that is lent all of it: the value, the names, rows, killers, slots and marks, and the table. Nothing outside changes.
    fn lend<T>(&mut self, call: impl FnOnce(&mut Value, &mut [Name; 2], [&mut [u8]; 4], &mut [Summary]) -> T) -> T {
        let [rows, killers, slots] = self.buffers.each_mut().map(Fenced::inside_mut);
        let buffers = [rows, killers, slots, self.marks.inside_mut()];
        let table = self.table.inside_mut();
        let answer = lend_value(&mut self.value, |value, names| call(value, names, buffers, table));
        assert!(self.buffers.iter().all(Fenced::stands), "something is written outside the buffers");
        assert!(self.marks.stands(), "something is written outside the marks");
        assert!(self.table.stands(), "something is written outside the summary table");
        answer
    }

    /// The answer, and all as it was before. Where the command is refused nothing changes.
    pub fn command(&mut self, bytes: &[u8]) -> (Answer<Report>, Host) {
        let before = self.clone();
        let given = Fenced::new(bytes);
        let answer = self.lend(|value, names, [rows, killers, slots, marks], table| {
            lent::command(value, names, given.inside(), rows, killers, slots, marks, table)
        });
        assert!(given == Fenced::new(bytes), "{bytes:?} is written to");
        match answer {
            Ok(_) => {
                self.check_marks(bytes, &before);
                self.check_cancelled(bytes, &before);
            }
            Err(_) => assert!(*self == before, "{bytes:?} is refused, and changes something"),
        }
        (answer, before)
    }

    /// What an accepted command leaves of the names and the marks. Kind 7 writes its name and that name's part of the marks and nothing else, kind 8 brings these
    /// back and leaves them, kind 1 forgets both names, and the others leave all of it.
    fn check_marks(&self, bytes: &[u8], before: &Host) {
        match bytes[0] {
            MARK => self.check_left(bytes, &before.marked(bytes[1])),
            BACK => self.check_left(bytes, &before.brought_back(bytes[1])),
            kind => {
                let names = if kind == BOARD { [UNUSED_NAME; 2] } else { before.value.names };
                assert!(self.value.names == names, "the names after {bytes:?}");
                assert!(self.marks == before.marks, "{bytes:?} writes to the marks");
            }
        }
    }

    /// A cancellation leaves the value, with its draft, and the rows, and gives each slot of its call the byte 253. A call to which an altered value gives more
    /// than 32 slots has 32.
    fn check_cancelled(&self, bytes: &[u8], before: &Host) {
        let [CANCEL, call] = bytes else { return };
        assert!(self.value.value == before.value.value, "the value after {bytes:?}");
        assert!(self.buffers[0] == before.buffers[0], "{bytes:?} writes to the rows");
        let count = before.value.value.heads.counts[*call as usize].min(32) as usize;
        let slots = &self.buffers[2].inside()[32 * *call as usize..][..count];
        assert!(slots.iter().all(|byte| *byte == 253), "the slots of the call after {bytes:?}: {slots:?}");
    }

    /// All but the table is as it is due.
    fn check_left(&self, bytes: &[u8], due: &Host) {
        assert!(self.value.names == due.value.names, "the names after {bytes:?}");
        assert!(self.value.value == due.value.value, "the value after {bytes:?}");
        assert!(self.buffers == due.buffers, "the buffers after {bytes:?}");
        assert!(self.marks == due.marks, "the marks after {bytes:?}");
    }

    /// The same with the board kept under a name.
    fn marked(&self, name: u8) -> Host {
        let mut host = self.clone();
        host.value.names[name as usize] = Name { kept: 1, heads: self.value.value.heads };
        let bytes = self.buffers.each_ref().map(Fenced::inside).concat();
        host.marks.inside_mut()[part_under(name)].copy_from_slice(&bytes);
        host
    }

    /// The same with the board that is kept under a name, and no draft.
    fn brought_back(&self, name: u8) -> Host {
        let mut host = self.clone();
        host.value.value = Value { heads: self.value.names[name as usize].heads, draft: NO_DRAFT };
        let mut part = &self.marks.inside()[part_under(name)];
        for buffer in &mut host.buffers {
            let (bytes, behind) = part.split_at(buffer.inside().len());
            buffer.inside_mut().copy_from_slice(bytes);
            part = behind;
        }
        host
    }

    /// What became of a file of commands. The file does not change.
    pub fn replay(&mut self, file: &[u8]) -> Answer<Replay> {
        let given = Fenced::new(file);
        let answer = self.lend(|value, names, [rows, killers, slots, marks], table| {
            lent::replay(value, names, given.inside(), rows, killers, slots, marks, table)
        });
        assert!(given == Fenced::new(file), "a file of {} bytes is written to", file.len());
        answer
    }

    pub fn fresh_board(&mut self) -> Answer<()> {
        self.lend(|value, names, [rows, killers, slots, marks], table| {
            lent::fresh_board(value, names, rows, killers, slots, marks, table)
        })
    }

    pub fn memory(&self) -> Memory<'_> {
        let [rows, killers, slots] = &self.buffers;
        Memory { value: &self.value.value, rows: rows.inside(), killers: killers.inside(), slots: slots.inside() }
    }

    /// The reply to a plan of any length. The plan does not change.
    pub fn check_plan(&self, plan: &[u8]) -> PlanReply {
        let given = Fenced::new(plan);
        let [rows, killers, slots, lent] =
            [self.memory().rows, self.memory().killers, self.memory().slots, given.inside()];
        // SAFETY: each pointer is a slice's, with that slice's length.
        let reply = unsafe {
            berth_check_plan(
                self.value.value,
                rows.as_ptr(),
                rows.len(),
                killers.as_ptr(),
                killers.len(),
                slots.as_ptr(),
                slots.len(),
                lent.as_ptr(),
                lent.len(),
            )
        };
        assert!(given == Fenced::new(plan), "the plan {plan:?} is written to");
        reply
    }
}
