//! Random lists of commands, each on a board of its own.

use crate::berth::Summary;
use crate::host::{number_of, Fenced, Host};
use crate::ledger::{self, LENGTHS};
use crate::questions;
use crate::random::Random;
use crate::session::Session;
use crate::summary;
use crate::tally::Tally;
use crate::writer::{Sizes, Writer, SIZES};

/// A summary table of another length is lent.
fn lend_other_table(writer: &mut Writer, host: &mut Host) {
    let mut records = host.table.inside().to_vec();
    let length = *writer.random.choose(&[0, 1, LENGTHS.table - 1, LENGTHS.table + 1, 2 * LENGTHS.table]);
    records.resize(length, Summary { open: writer.random.byte(), struck: 0, rules: 255 });
    host.table = Fenced::new(&records);
}

/// A buffer, the marks, the table or several of these are lent too short or too long. What stands after it is all as it was.
fn other_length(writer: &mut Writer, session: &mut Session, bytes: &[u8]) {
    let mut host = session.host.clone();
    let which = *writer.random.choose(&[1, 2, 3, 4, 4, 4, 5, 6]);
    if which & 1 != 0 {
        questions::lend_other_length(&mut writer.random, &mut host);
    }
    if which & 2 != 0 {
        questions::to_other_length(&mut writer.random, &mut host.marks);
    }
    if which & 4 != 0 {
        lend_other_table(writer, &mut host);
    }
    let refusal = session.ledger.refusal(host.lengths(), bytes);
    let (answer, _) = host.command(bytes);
    assert_eq!(number_of(&answer), refusal, "the refusal of {bytes:?} with other lengths");
    session.tally.command(bytes, refusal, &session.ledger);
}

/// One list. Returns what it leaves.
fn list(seed: u64, sizes: &'static Sizes, tally: &mut Tally) -> Host {
    let (mut writer, mut plan_random) = (Writer::new(seed, sizes), Random(!seed));
    let marks: Vec<u8> = (0..LENGTHS.marks).map(|_| writer.random.byte()).collect();
    let mut session = Session::new(tally, &marks);
    for index in 0..sizes.commands {
        crate::place::command(index);
        let bytes = writer.next(&session.ledger);
        if writer.random.below(64) == 0 {
            other_length(&mut writer, &mut session, &bytes);
        }
        if writer.random.percent(25) {
            summary::alter(&mut writer.random, session.host.table.inside_mut());
            session.tally.altered_tables += 1;
        }
        session.command(&bytes);
        let changed = bytes.first().is_some_and(|kind| !ledger::leaves_buffers(*kind));
        if changed || writer.random.below(10) == 0 {
            questions::ask(&mut writer.random, &mut plan_random, &mut session);
        }
    }
    session.check_board();
    session.host
}

/// All lists. Returns what some of them leave.
pub fn run(tally: &mut Tally) -> Vec<Host> {
    let mut left = vec![];
    for sizes in &SIZES {
        for seed in 0..sizes.lists {
            crate::place::list(sizes.name, seed);
            let host = list(seed, sizes, tally);
            tally.lists += 1;
            if seed < 15 {
                left.push(host);
            }
        }
    }
    left
}
