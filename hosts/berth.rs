//! The berth board for a host in Rust: one file, and the static library libberth.a. `Board` owns the value, the names of the marks, the four buffers and the
//! summary table, and only commands change them; what a board is, and what the bytes of a command are, is said in berth.h.
//!
//! The functions of the module `lent` work on memory that the caller lends, of any length and with any contents: the library is proved to return and to stay
//! inside it, so they are safe with a library of this file's version. They look at the library's version before their first call, and panic where it is another.
//! `Board` hands its own memory to them.
#![allow(dead_code)]

use std::fmt;
use std::mem::size_of;
use std::sync::OnceLock;

pub const ROWS: usize = 16384;
pub const KILLERS: usize = 4096;
pub const SLOTS: usize = 1024;
pub const MARKS: usize = 43008;

/// The bytes of slots that have no cause: open, not on the board, and of a cancelled call.
pub const SLOT_OPEN: u8 = 255;
pub const SLOT_ABSENT: u8 = 254;
pub const SLOT_CANCELLED: u8 = 253;

/// A row's killer where it lives, the row where there is no support, a field past the arity, and a plan's byte for a call without a slot.
pub const NONE: u8 = 255;

/// The summary table's length, in records.
pub const RECORDS: usize = 32;

/// The longest file of commands that is read.
pub const FILE: usize = 32768;

/// The bytes of a plan: a slot for each call, and `NONE` for a call that is cancelled or not on the board.
pub const PLAN: usize = 32;

/// The version that this file is of; the library has its own.
pub const VERSION: u32 = 11;

/// The calls and the heads of the rules in force.
#[repr(C)]
#[derive(Clone, Copy, Debug, PartialEq, Eq)]
pub struct Heads {
    /// slots of each call; 0 after the last call
    pub counts: [u8; 32],
    /// columns of each rule; 0 where the number is not in force
    pub arity: [u8; 64],
    /// calls of rule r from 4 * r on; 255 past its columns
    pub scope: [u8; 256],
    /// rows of each rule
    pub lengths: [u8; 64],
}

/// A rule. An arity of 0 means that there is none.
#[repr(C)]
#[derive(Clone, Copy, Debug, PartialEq, Eq)]
pub struct Rule {
    pub arity: u8,
    /// its calls; 255 past its columns
    pub scope: [u8; 4],
    /// number of rows
    pub length: u8,
    /// row w from 4 * w on; 255 past its columns and rows
    pub rows: [u8; 256],
}

/// The rule that is being written, and the number that it is to come into force under.
#[repr(C)]
#[derive(Clone, Copy, Debug, PartialEq, Eq)]
pub struct Draft {
    pub number: u8,
    pub rule: Rule,
}

/// The board's value: what commands are lent, and questions are handed.
#[repr(C)]
#[derive(Clone, Copy, Debug, PartialEq, Eq)]
pub struct Value {
    pub heads: Heads,
    pub draft: Draft,
}

/// The name of a mark: what is held of the mark beside its bytes.
#[repr(C)]
#[derive(Clone, Copy, Debug, PartialEq, Eq)]
pub struct Name {
    /// 1 where a board is kept, 0 where none is
    pub kept: u8,
    /// its calls and the heads of its rules; a fresh board's where none is
    pub heads: Heads,
}

/// All that is held beside the buffers.
#[repr(C)]
#[derive(Clone, Copy, Debug, PartialEq, Eq)]
pub struct MarkedValue {
    pub value: Value,
    pub names: [Name; 2],
}

/// The figures of a call: a record of the summary table. A call that is not on the board has zeros; a cancelled one has no slots, and the rules on it are
/// counted.
#[repr(C)]
#[derive(Clone, Copy, Debug, Default, PartialEq, Eq)]
pub struct Summary {
    /// its open slots
    pub open: u8,
    /// its struck slots
    pub struck: u8,
    /// the rules in force on it
    pub rules: u8,
}

/// Declares `Refusal` from a table of numbers, names and words. The header's `enum berth_refusal` and `berth_refusal_text` say the same.
macro_rules! refusals {
    ($($number:literal $name:ident $text:literal)+) => {
        /// Why a command or a question was refused.
        #[derive(Clone, Copy, Debug, PartialEq, Eq, Hash)]
        pub enum Refusal {
            $(#[doc = $text] $name,)+
            /// a number that has no name here
            Other(u8),
        }

        impl Refusal {
            /// The refusal that has this number.
            pub const fn from_number(number: u8) -> Self {
                match number {
                    $($number => Refusal::$name,)+
                    other => Refusal::Other(other),
                }
            }

            pub const fn number(self) -> u8 {
                match self {
                    $(Refusal::$name => $number,)+
                    Refusal::Other(other) => other,
                }
            }

            /// The condition that held; of the number 0, that there was none.
            pub const fn text(self) -> &'static str {
                match self {
                    $(Refusal::$name => $text,)+
                    Refusal::Other(0) => "accepted",
                    Refusal::Other(_) => "no refusal has this number",
                }
            }
        }
    };
}

refusals! {
    1 BufferLength "a buffer is not of its length"
    2 FileLength "the input is over 32,768 bytes"
    3 UnknownKind "no kind has this number, or there is no byte at all"
    4 BodyLength "the body is cut short, or bytes are left over behind it"
    5 BadCounts "the first count is 0, one is over 32, or one is not 0 after a 0"
    6 NoBoard "there is no board"
    7 NumberOver63 "the rule's number is over 63"
    8 BadArity "the arity is not 1 to 4"
    9 CallOffBoard "a call of the rule is not on the board"
    10 CallTwice "a call stands twice in the rule"
    11 SpareField "a field past the arity is not 255"
    12 NoDraft "there is no draft"
    13 DraftFull "the draft has 64 rows"
    14 SlotOffCall "a slot of the row is not on its call"
    15 RowTwice "the row is in the draft already"
    16 NumberInForce "the draft's number is in force already"
    17 NotInForce "no rule of this number is in force"
    18 NoSuchCall "there is no such call"
    19 NoSuchSlot "there is no such slot"
    20 NoSuchRow "the rule has no such row"
    21 NoSuchColumn "the rule has no such column"
    22 TableLength "the summary table is not 32 records"
    23 BadForm "the form is not 1 to 3"
    24 BadGap "the gap is over 31, or not 0 in form 3"
    25 TooManyPairs "more than 64 pairs of slots fit"
    26 NameOver1 "the mark's name is over 1"
    27 NothingKept "nothing is kept under the name"
    28 AlreadyCancelled "the call is cancelled already"
    29 CancelledCall "a call of the new rule is cancelled"
    32 PlanLength "the plan is not 32 bytes"
    33 BadPlanByte "a byte of the plan is no slot of its call, or is not 255 where the call gets none"
}

impl fmt::Display for Refusal {
    fn fmt(&self, f: &mut fmt::Formatter) -> fmt::Result {
        write!(f, "refused {}: {}", self.number(), self.text())
    }
}

impl std::error::Error for Refusal {}

/// The form of a gap rule: which slots, a of its first call and b of its second, go together.
#[derive(Clone, Copy, Debug, PartialEq, Eq)]
pub enum Form {
    /// a and the gap together are at most b
    Before = 1,
    /// a and b are the gap or more apart, whichever is lower
    Apart = 2,
    /// a is b, and the gap is 0
    Same = 3,
}

/// What an accepted command changed. A slot of a cancelled call is neither open nor struck, so it is in no count.
#[derive(Clone, Copy, Debug, Default, PartialEq, Eq)]
pub struct Report {
    /// slots open before and struck after
    pub struck: usize,
    /// slots struck before and open after
    pub reopened: usize,
    /// of a put the slots struck; of a back those struck and those reopened. Of a lift the size of the smallest set that has the slots whose cause is the rule, and
    /// each slot that stands in a row of its cause with the row's killer in the set; so those reopened, and those struck again. Of a cancellation the same from
    /// the struck slots of the call, which are not counted
    pub touched: usize,
}

/// What became of a file of commands.
#[derive(Clone, Copy, Debug, PartialEq, Eq)]
pub struct Replay {
    /// commands that were run, also those that were refused
    pub ran: usize,
    /// why the file was not read to its end
    pub end: Option<Refusal>,
}

/// The open slots of a call: a bit for each, and the number of ones.
#[derive(Clone, Copy, Debug, PartialEq, Eq)]
pub struct OpenSlots {
    pub mask: u32,
    pub ones: u32,
}

/// The state of a slot. It is cancelled with its call, and then neither open nor struck.
#[derive(Clone, Copy, Debug, PartialEq, Eq)]
pub enum Slot {
    Open,
    Struck { cause: u8 },
    Cancelled,
}

#[derive(Clone, Copy, Debug, PartialEq, Eq)]
pub enum Row {
    Alive,
    Dead { killer: u8 },
}

/// What a plan does with the rules in force.
#[derive(Clone, Copy, Debug, PartialEq, Eq)]
pub enum PlanCheck {
    /// it keeps them all
    Kept,
    /// the lowest number of one that it breaks
    Broken { rule: u8 },
}

/// How the search for the first full plan ended, with its trials: the slots that it laid.
#[derive(Clone, Copy, Debug, PartialEq, Eq)]
pub enum FirstPlan {
    /// the plan, as `check_plan` takes it
    Found { plan: [u8; PLAN], trials: u32 },
    /// there is no full plan
    None { trials: u32 },
    /// more trials are needed than the ceiling, which is their count here
    Stopped { trials: u32 },
}

pub type Answer<T> = Result<T, Refusal>;

/// The library's functions on lent memory.
pub mod lent {
    use super::*;

    #[repr(C)]
    struct CommandReply {
        struck: usize,
        reopened: usize,
        touched: usize,
        number: u8,
    }

    #[repr(C)]
    struct ReplayReply {
        ran: usize,
        number: u8,
    }

    #[repr(C)]
    struct SlotsReply {
        mask: u32,
        ones: u32,
        number: u8,
    }

    // The replies of two bytes, to the questions on a slot, a row, a support and a plan, have one layout.
    #[repr(C)]
    struct ByteReply {
        number: u8,
        byte: u8,
    }

    #[repr(C)]
    struct PlaceReply {
        place: usize,
        length: usize,
    }

    #[repr(C)]
    struct FirstReply {
        trials: u32,
        number: u8,
        ending: u8,
        plan: [u8; PLAN],
    }

    // A slice passes as a pointer and its length.
    type Lent = *const u8;
    type LentMut = *mut u8;

    #[rustfmt::skip]
    extern "C" {
        fn berth_version() -> u32;
        fn berth_value_size() -> usize;
        fn berth_fresh() -> MarkedValue;
        fn berth_command(value: *mut Value, names: *mut [Name; 2], bytes: Lent, b: usize, rows: LentMut, r: usize, killers: LentMut, k: usize, slots: LentMut, s: usize, marks: LentMut, m: usize, table: *mut Summary, t: usize) -> CommandReply;
        fn berth_replay(value: *mut Value, names: *mut [Name; 2], file: Lent, f: usize, rows: LentMut, r: usize, killers: LentMut, k: usize, slots: LentMut, s: usize, marks: LentMut, m: usize, table: *mut Summary, t: usize) -> ReplayReply;
        fn berth_open_slots(value: Value, rows: Lent, r: usize, killers: Lent, k: usize, slots: Lent, s: usize, call: u8) -> SlotsReply;
        fn berth_slot_state(value: Value, rows: Lent, r: usize, killers: Lent, k: usize, slots: Lent, s: usize, call: u8, slot: u8) -> ByteReply;
        fn berth_row_state(value: Value, rows: Lent, r: usize, killers: Lent, k: usize, slots: Lent, s: usize, rule: u8, row: u8) -> ByteReply;
        fn berth_row_place(value: Value, rows: Lent, r: usize, killers: Lent, k: usize, slots: Lent, s: usize, rule: u8, row: u8) -> PlaceReply;
        fn berth_support(value: Value, rows: Lent, r: usize, killers: Lent, k: usize, slots: Lent, s: usize, rule: u8, column: u8, slot: u8) -> ByteReply;
        fn berth_check_plan(value: Value, rows: Lent, r: usize, killers: Lent, k: usize, slots: Lent, s: usize, plan: Lent, p: usize) -> ByteReply;
        fn berth_first_plan(value: Value, rows: Lent, r: usize, killers: Lent, k: usize, slots: Lent, s: usize, ceiling: u32) -> FirstReply;
    }

    fn answer<T>(number: u8, given: T) -> Answer<T> {
        if number == 0 {
            Ok(given)
        } else {
            Err(Refusal::from_number(number))
        }
    }

    /// The version of the linked library.
    pub fn library_version() -> u32 {
        // SAFETY: it takes nothing and returns a number, in every version.
        unsafe { berth_version() }
    }

    /// Whether the linked library is the one that this file describes. If not, nothing else may be called.
    pub fn library_fits() -> bool {
        // SAFETY: it takes nothing and returns a number, in every version.
        let size = unsafe { berth_value_size() };
        library_version() == VERSION && size == size_of::<MarkedValue>()
    }

    // Panics where the library is not this file's. It is looked at once, since it cannot change.
    fn look() {
        static FITS: OnceLock<()> = OnceLock::new();
        FITS.get_or_init(|| {
            let found = library_version();
            assert!(library_fits(), "libberth.a is not the library of this berth.rs (versions {found} and {VERSION})");
        });
    }

    /// The value and the names before the first command.
    pub fn fresh() -> MarkedValue {
        look();
        // SAFETY: it takes nothing, and the library's `MarkedValue` is laid out like this file's.
        unsafe { berth_fresh() }
    }

    /// A command. Value, names, buffers and table are written in place; a refusal leaves all of them as they were.
    pub fn command(
        value: &mut Value,
        names: &mut [Name; 2],
        bytes: &[u8],
        rows: &mut [u8],
        killers: &mut [u8],
        slots: &mut [u8],
        marks: &mut [u8],
        table: &mut [Summary],
    ) -> Answer<Report> {
        look();
        // SAFETY: each pointer is a slice's, with that slice's length, so it reaches as far, or that of the value or of both names; the seven that are written
        // are unique borrows, which overlap nothing. Whatever they hold, the function returns and writes only inside them.
        let reply = unsafe {
            berth_command(
                value,
                names,
                bytes.as_ptr(),
                bytes.len(),
                rows.as_mut_ptr(),
                rows.len(),
                killers.as_mut_ptr(),
                killers.len(),
                slots.as_mut_ptr(),
                slots.len(),
                marks.as_mut_ptr(),
                marks.len(),
                table.as_mut_ptr(),
                table.len(),
            )
        };
        let report = Report { struck: reply.struck, reopened: reply.reopened, touched: reply.touched };
        answer(reply.number, report)
    }

    /// A fresh board, and the commands of a file run on it, up to the first that cannot be read. Where a length is refused, all is as it was.
    pub fn replay(
        value: &mut Value,
        names: &mut [Name; 2],
        file: &[u8],
        rows: &mut [u8],
        killers: &mut [u8],
        slots: &mut [u8],
        marks: &mut [u8],
        table: &mut [Summary],
    ) -> Answer<Replay> {
        look();
        // SAFETY: as in `command`.
        let reply = unsafe {
            berth_replay(
                value,
                names,
                file.as_ptr(),
                file.len(),
                rows.as_mut_ptr(),
                rows.len(),
                killers.as_mut_ptr(),
                killers.len(),
                slots.as_mut_ptr(),
                slots.len(),
                marks.as_mut_ptr(),
                marks.len(),
                table.as_mut_ptr(),
                table.len(),
            )
        };
        match answer(reply.number, ()).err() {
            Some(refusal @ (Refusal::BufferLength | Refusal::TableLength | Refusal::FileLength)) => Err(refusal),
            end => Ok(Replay { ran: reply.ran, end }),
        }
    }

    /// A fresh board, whatever the memory held: a file without commands is replayed. Where a length is refused, all is as it was.
    pub fn fresh_board(
        value: &mut Value,
        names: &mut [Name; 2],
        rows: &mut [u8],
        killers: &mut [u8],
        slots: &mut [u8],
        marks: &mut [u8],
        table: &mut [Summary],
    ) -> Answer<()> {
        replay(value, names, &[], rows, killers, slots, marks, table).map(|_| ())
    }

    /// What the questions are asked of. The names, the marks and the table have no part in it.
    #[derive(Clone, Copy)]
    pub struct Memory<'a> {
        pub value: &'a Value,
        pub rows: &'a [u8],
        pub killers: &'a [u8],
        pub slots: &'a [u8],
    }

    // The value and the three slices, as the questions take them, before the question's own numbers or its plan.
    macro_rules! ask {
        ($question:ident, $memory:expr, $($number:expr),+) => {{
            look();
            // SAFETY: each pointer is a slice's, with that slice's length, so it reaches as far. Whatever the slices, the value and the numbers hold, a question
            // returns, reads only inside them and writes nothing.
            unsafe {
                $question(
                    *$memory.value,
                    $memory.rows.as_ptr(),
                    $memory.rows.len(),
                    $memory.killers.as_ptr(),
                    $memory.killers.len(),
                    $memory.slots.as_ptr(),
                    $memory.slots.len(),
                    $($number),+
                )
            }
        }};
    }

    impl<'a> Memory<'a> {
        pub fn open_slots(self, call: u8) -> Answer<OpenSlots> {
            let reply = ask!(berth_open_slots, self, call);
            let given = OpenSlots { mask: reply.mask, ones: reply.ones };
            answer(reply.number, given)
        }

        pub fn slot_state(self, call: u8, slot: u8) -> Answer<Slot> {
            let reply = ask!(berth_slot_state, self, call, slot);
            let given = match reply.byte {
                SLOT_OPEN => Slot::Open,
                SLOT_CANCELLED => Slot::Cancelled,
                cause => Slot::Struck { cause },
            };
            answer(reply.number, given)
        }

        pub fn row_state(self, rule: u8, row: u8) -> Answer<Row> {
            let reply = ask!(berth_row_state, self, rule, row);
            let given = match reply.byte {
                NONE => Row::Alive,
                killer => Row::Dead { killer },
            };
            answer(reply.number, given)
        }

        /// The row's four bytes, a part of the lent rows; the empty part where `row_state` refuses.
        pub fn row_bytes(self, rule: u8, row: u8) -> &'a [u8] {
            let reply = ask!(berth_row_place, self, rule, row);
            &self.rows[reply.place..reply.place + reply.length]
        }

        /// The lowest-numbered living row with the slot in the rule's column; none in the column of a cancelled call.
        pub fn support(self, rule: u8, column: u8, slot: u8) -> Answer<Option<u8>> {
            let reply = ask!(berth_support, self, rule, column, slot);
            let given = match reply.byte {
                NONE => None,
                row => Some(row),
            };
            answer(reply.number, given)
        }

        /// Whether the plan, `PLAN` bytes, keeps every rule in force. A struck slot is not refused, since it is one of its call's; a plan with one breaks a rule.
        pub fn check_plan(self, plan: &[u8]) -> Answer<PlanCheck> {
            let reply = ask!(berth_check_plan, self, plan.as_ptr(), plan.len());
            let given = match reply.byte {
                NONE => PlanCheck::Kept,
                rule => PlanCheck::Broken { rule },
            };
            answer(reply.number, given)
        }

        /// The first full plan: calls are laid in rising order, open slots rising, and each slot that is laid is one trial. No more than the ceiling are made,
        /// and a search that needs more is stopped.
        pub fn first_plan(self, ceiling: u32) -> Answer<FirstPlan> {
            let FirstReply { trials, number, ending, plan } = ask!(berth_first_plan, self, ceiling);
            let given = match ending {
                0 => FirstPlan::None { trials },
                1 => FirstPlan::Found { plan, trials },
                _ => FirstPlan::Stopped { trials },
            };
            answer(number, given)
        }
    }
}

/// A board with its memory.
#[derive(Clone)]
pub struct Board {
    value: MarkedValue,
    rows: Box<[u8]>,
    killers: Box<[u8]>,
    slots: Box<[u8]>,
    marks: Box<[u8]>,
    table: [Summary; RECORDS],
}

impl Default for Board {
    fn default() -> Self {
        Self::new()
    }
}

// A command's bytes, filled up to its length. More fields than it has room for make it too long, and the board refuses it (4).
fn filled(start: &[u8], fields: &[u8], length: usize, spare: u8) -> Vec<u8> {
    let mut bytes = [start, fields].concat();
    bytes.resize(bytes.len().max(length), spare);
    bytes
}

impl Board {
    /// A fresh board, before any command. Panics where the library is not this file's.
    pub fn new() -> Self {
        let zeros = |length: usize| vec![0; length].into_boxed_slice();
        let mut board = Board {
            value: lent::fresh(),
            rows: zeros(ROWS),
            killers: zeros(KILLERS),
            slots: zeros(SLOTS),
            marks: zeros(MARKS),
            table: [Summary::default(); RECORDS],
        };
        board.replay(&[]).expect("a board's memory is of its lengths");
        board
    }

    /// A command by its bytes.
    pub fn command(&mut self, bytes: &[u8]) -> Answer<Report> {
        let Board { value: MarkedValue { value, names }, rows, killers, slots, marks, table } = self;
        lent::command(value, names, bytes, rows, killers, slots, marks, table)
    }

    /// Becomes a fresh board and runs a file of commands, up to the first that cannot be read. A file of over 32,768 bytes is refused, and changes nothing.
    pub fn replay(&mut self, file: &[u8]) -> Answer<Replay> {
        let Board { value: MarkedValue { value, names }, rows, killers, slots, marks, table } = self;
        lent::replay(value, names, file, rows, killers, slots, marks, table)
    }

    /// Kind 1: a new board with these slot counts, of at most 32 calls; rules, draft, cancellations and both marks are gone.
    pub fn start(&mut self, counts: &[u8]) -> Answer<Report> {
        self.command(&filled(&[1], counts, 33, 0))
    }

    /// Kind 2: starts a draft, in place of any other. More than four calls are refused for the arity.
    pub fn head(&mut self, number: u8, calls: &[u8]) -> Answer<Report> {
        let arity = calls.len().min(255) as u8;
        self.command(&filled(&[2, number, arity], &calls[..calls.len().min(4)], 7, NONE))
    }

    /// Kind 3: adds a row to the draft.
    pub fn row(&mut self, slots: &[u8]) -> Answer<Report> {
        self.command(&filled(&[3], slots, 5, NONE))
    }

    /// Kind 4: the draft comes into force, then there is none.
    pub fn put(&mut self) -> Answer<Report> {
        self.command(&[4])
    }

    /// Kind 5: the rule leaves force.
    pub fn lift(&mut self, number: u8) -> Answer<Report> {
        self.command(&[5, number])
    }

    /// Kind 6: starts a draft, in place of any other, with all pairs of slots that fit the form as its rows.
    pub fn gap(&mut self, form: Form, number: u8, first: u8, second: u8, gap: u8) -> Answer<Report> {
        self.command(&[6, form as u8, number, first, second, gap])
    }

    /// Kind 7: the board is kept under the name, 0 or 1, in place of any other; the draft stays.
    pub fn mark(&mut self, name: u8) -> Answer<Report> {
        self.command(&[7, name])
    }

    /// Kind 8: the board that is kept under the name is brought back, with the cancellations of its mark and without a draft. It stays kept.
    pub fn back(&mut self, name: u8) -> Answer<Report> {
        self.command(&[8, name])
    }

    /// Kind 9: the call is cancelled, until a new board or a back to a mark where it was not. Its column counts in no row any more; the draft stays, and can be
    /// put.
    pub fn cancel(&mut self, call: u8) -> Answer<Report> {
        self.command(&[9, call])
    }

    /// The figures of a call; zeros where it is not on the board.
    pub fn summary(&self, call: u8) -> Summary {
        self.table.get(call as usize).copied().unwrap_or_default()
    }

    /// The figures of all calls.
    pub fn summaries(&self) -> &[Summary; RECORDS] {
        &self.table
    }

    /// The board's value and the three buffers that questions are asked of, to look at.
    pub fn memory(&self) -> lent::Memory<'_> {
        lent::Memory { value: &self.value.value, rows: &self.rows, killers: &self.killers, slots: &self.slots }
    }

    /// All that is held beside the buffers, to look at.
    pub fn value(&self) -> &MarkedValue {
        &self.value
    }

    /// The bytes of both marks, to look at.
    pub fn marks(&self) -> &[u8] {
        &self.marks
    }

    /// The open slots of a call; of a cancelled one none.
    pub fn open_slots(&self, call: u8) -> Answer<OpenSlots> {
        self.memory().open_slots(call)
    }

    pub fn slot_state(&self, call: u8, slot: u8) -> Answer<Slot> {
        self.memory().slot_state(call, slot)
    }

    pub fn row_state(&self, rule: u8, row: u8) -> Answer<Row> {
        self.memory().row_state(rule, row)
    }

    /// The row's four bytes; the empty part where `row_state` refuses.
    pub fn row_bytes(&self, rule: u8, row: u8) -> &[u8] {
        self.memory().row_bytes(rule, row)
    }

    /// The lowest-numbered living row with the slot in the rule's column; none in the column of a cancelled call.
    pub fn support(&self, rule: u8, column: u8, slot: u8) -> Answer<Option<u8>> {
        self.memory().support(rule, column, slot)
    }

    /// Whether the plan, `PLAN` bytes, keeps every rule in force; where it does not, the lowest of the broken rules. A plan that uses a struck slot breaks one.
    pub fn check_plan(&self, plan: &[u8]) -> Answer<PlanCheck> {
        self.memory().check_plan(plan)
    }

    /// The first full plan within so many trials, if there is one: of all plans with a slot for each call that is not cancelled, and that `check_plan` keeps,
    /// the one with the lowest slot for call 0, then for call 1, and so on. The ceiling bounds the time.
    pub fn first_plan(&self, ceiling: u32) -> Answer<FirstPlan> {
        self.memory().first_plan(ceiling)
    }
}
