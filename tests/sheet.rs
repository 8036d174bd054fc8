//! The sheet of a file, written once more from the ledger and the filter, and what the sheet program writes. The total of the sheet is held to the library's
//! summary table and slot bytes, too.

use crate::berth::Board;
use crate::filter::{has, open_slots, report_of, struck_slots, Slots};
use crate::ledger::{body_length, leaves_buffers, read_refusal, Ledger, LAST_KIND, LENGTHS, PUT};
use crate::random::Random;
use crate::summary::open_sum;
use crate::tally::Tally;
use crate::writer::{any_command, Writer, SIZES};
use std::io::Write;
use std::process::{Command, Stdio};

const PROGRAM: &str = "target/bin/berthsheet";
const LONGEST: usize = 32768;
const FILES: u64 = 3000;

/// A sheet on its way.
#[derive(Default)]
struct Sheet {
    text: String,
    ledger: Ledger,
    open: Slots,
    struck: Slots,
}

impl Sheet {
    /// The command with which the rest of a file starts. Returns how many bytes of it are read: none where no more is.
    fn command(&mut self, rest: &[u8], tally: &mut Tally) -> usize {
        let (kind, unread) = (rest[0], read_refusal(rest));
        let length = if unread == 0 { 1 + body_length(kind).unwrap() } else { 0 };
        let bytes = &rest[..length];
        let refusal = if unread == 0 { self.ledger.refusal(LENGTHS, bytes) } else { unread };
        tally.refusals[refusal as usize] += 1;
        if refusal != 0 {
            self.text += &format!("r {kind} {refusal}\n");
            return length;
        }
        tally.sheet_lines[kind as usize] += 1;
        self.ledger.obey(bytes);
        let before = [self.open.clone(), self.struck.clone()];
        if !leaves_buffers(kind) {
            self.open = open_slots(&self.ledger);
            self.struck = struck_slots(&self.ledger, &self.open);
        }
        let (struck, reopened) = report_of(kind, before.each_ref(), [&self.open, &self.struck]);
        self.text += &format!("a {kind} {struck} {reopened}\n");
        length
    }

    /// A cancelled call has a dash; one with nothing open has its number alone.
    fn call(&mut self, call: u8, tally: &mut Tally) {
        self.text += &format!("c {call}");
        if self.ledger.is_cancelled(call) {
            self.text += " -";
            tally.dashes += 1;
        }
        for slot in (0..32).filter(|slot| has(&self.open, (call, *slot))) {
            self.text += &format!(" {slot}");
        }
        self.text += "\n";
    }
}

pub fn sheet_of(file: &[u8], tally: &mut Tally) -> String {
    if file.len() > LONGEST {
        tally.refusals[2] += 1;
        return "r 0 2\nend\n".into();
    }
    let mut sheet = Sheet::default();
    let mut read = 0;
    while read < file.len() {
        match sheet.command(&file[read..], tally) {
            0 => break,
            length => read += length,
        }
    }
    for call in 0..sheet.ledger.counts.len() {
        sheet.call(call as u8, tally);
    }
    if !sheet.ledger.counts.is_empty() {
        let open: u32 = sheet.open.iter().map(|mask| mask.count_ones()).sum();
        sheet.text += &format!("t {open}\n");
    }
    sheet.text + "end\n"
}

/// The total in the line before the last; none where there is no such line.
fn total(sheet: &str) -> Option<usize> {
    let line = sheet.lines().rev().nth(1)?;
    line.strip_prefix("t ").map(|number| number.parse().unwrap())
}

/// The sheet's total is the sum over the records that the library leaves of the file, and the number of slot bytes of 255. Without a board all are none.
pub fn check_total(file: &[u8], sheet: &str, tally: &mut Tally) {
    let mut board = Board::new();
    let _ = board.replay(file);
    let counted = (open_sum(board.summaries()), board.memory().slots.iter().filter(|byte| **byte == 255).count());
    let total = total(sheet);
    assert_eq!(counted, (total.unwrap_or(0), total.unwrap_or(0)), "the open slots of the table and of the slot bytes");
    assert_eq!(total.is_some(), board.memory().value.heads.counts[0] != 0, "a total where there is a board");
    tally.totals += total.is_some() as usize;
}

/// What the program writes. It may stop reading early, so that not all can be handed to it.
pub fn program_writes(file: &[u8]) -> String {
    let mut command = Command::new(PROGRAM);
    let mut program = command.stdin(Stdio::piped()).stdout(Stdio::piped()).spawn().expect(PROGRAM);
    let _ = program.stdin.take().unwrap().write_all(file);
    let output = program.wait_with_output().unwrap();
    assert!(output.status.success(), "{PROGRAM} ended with {}", output.status);
    String::from_utf8(output.stdout).unwrap()
}

fn check(file: &[u8], tally: &mut Tally) {
    let (found, due) = (program_writes(file), sheet_of(file, tally));
    if found != due {
        let line = |text: &str, n: usize| text.split('\n').nth(n).map(str::to_owned);
        let n = (0..).find(|n| line(&found, *n) != line(&due, *n)).unwrap();
        let (found, due) = (line(&found, n), line(&due, n));
        panic!("line {n} of the sheet of {} bytes is {found:?}, and due is {due:?}", file.len());
    }
    check_total(file, &found, tally);
    tally.files += 1;
}

/// The commands of a random list that a file can hold.
fn some_commands(seed: u64) -> Vec<Vec<u8>> {
    let sizes = &SIZES[[0, 0, 0, 1, 1, 2][seed as usize % 6]];
    let mut writer = Writer::new(seed + 1_000_000, sizes);
    let (mut ledger, mut commands) = (Ledger::default(), vec![]);
    for _ in 0..writer.random.below(sizes.commands) {
        let bytes = writer.next(&ledger);
        if read_refusal(&bytes) == 0 && body_length(bytes[0]) == Some(bytes.len() - 1) {
            if ledger.refusal(LENGTHS, &bytes) == 0 {
                ledger.obey(&bytes);
            }
            commands.push(bytes);
        }
    }
    commands
}

/// A file of commands, as it is or damaged: empty, cut, with other bytes, with an unknown kind or any command between two, or made long.
pub fn some_file(seed: u64) -> Vec<u8> {
    let random = &mut Random(seed);
    let mut commands = some_commands(seed);
    let between = random.below(commands.len() + 1);
    match random.below(12) {
        0 => commands.insert(between, vec![random.byte()]),
        1 => commands.insert(between, any_command(random)),
        _ => (),
    }
    let mut file = commands.concat();
    match random.below(12) {
        0 => file.truncate(random.below(file.len() + 1)),
        1 | 2 => {
            for _ in 0..random.below(8).min(file.len()) {
                let place = random.below(file.len());
                file[place] = random.byte();
            }
        }
        3 => file = file.iter().copied().cycle().take(LONGEST - 20 + random.below(40)).collect(),
        4 => file.clear(),
        5 => file = (0..random.below(300)).map(|_| random.near(LAST_KIND as usize + 1)).collect(),
        _ => (),
    }
    file
}

pub fn run(tally: &mut Tally) {
    for length in [0, 1, LONGEST - 1, LONGEST, LONGEST + 1, LONGEST + 2, 5 * LONGEST] {
        crate::place::list("file of puts", length as u64);
        check(&vec![PUT; length], tally);
    }
    for seed in 0..FILES {
        crate::place::list("file", seed);
        check(&some_file(seed), tally);
    }
}
