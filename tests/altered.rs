//! Commands and questions on memory with any contents and of any lengths: every call returns, nothing outside of it changes, a refusal changes nothing, and
//! marks are written and brought back as ever; a cancellation leaves what it always leaves. (host.rs asserts it of each command.) A new board has its table
//! then, too. A plan gets the reply that the bytes give it, and so does the question for the first full plan, which is asked under low ceilings.

use crate::berth::lent::Memory;
use crate::berth::{MarkedValue, Slot, Summary};
use crate::filter::all_slots;
use crate::first::{search_first, End, FirstSearch};
use crate::host::{first_plan, number_of, Fenced, FirstReply, Host, PlanReply};
use crate::ledger::{Ledger, BACK, BOARD, CANCEL, LAST_KIND, LENGTHS, LIFT, MARK, PUT};
use crate::random::Random;
use crate::summary::{self, table_of};
use crate::writer::{any_command, any_gap_rule, board, some_name, SIZES};
use std::collections::BTreeMap;

const HOSTS: u64 = 6000;
const COMMANDS: usize = 6;

/// The trials that a search for the first full plan makes before it is given up, and no ceiling is over it.
const MOST: u32 = 150;

/// Bytes of one sort: any, small ones, limits, all the same, or few among 255 or 0.
fn some_bytes(random: &mut Random, length: usize) -> Vec<u8> {
    let limits = [0, 1, 3, 4, 5, 31, 32, 33, 63, 64, 65, 127, 128, 253, 254, 255];
    let (same, sort) = (random.byte(), random.below(6));
    let mut byte = || match sort {
        0 => random.byte(),
        1 => random.below(5) as u8,
        2 => *random.choose(&limits),
        3 => same,
        4 if random.percent(90) => 255,
        5 if random.percent(90) => 0,
        _ => random.byte(),
    };
    (0..length).map(|_| byte()).collect()
}

/// The value and the names as bytes: their fields are bytes throughout, so any bytes are one and none lies between them.
fn value_bytes(value: &mut MarkedValue) -> &mut [u8] {
    const { assert!(align_of::<MarkedValue>() == 1) };
    unsafe { std::slice::from_raw_parts_mut((value as *mut MarkedValue).cast(), size_of::<MarkedValue>()) }
}

/// Parts of the value and the names, each with bytes of another sort.
fn fill_value(random: &mut Random, value: &mut MarkedValue) {
    for part in value_bytes(value).chunks_mut(32) {
        part.copy_from_slice(&some_bytes(random, part.len()));
    }
}

/// Mostly the right one.
fn some_length(random: &mut Random, right: usize) -> usize {
    match random.below(20) {
        0 => 0,
        1 => right - 1,
        2 => right + 1,
        3 => random.below(2 * right),
        _ => right,
    }
}

fn some_buffer(random: &mut Random, right: usize) -> Fenced<u8> {
    let length = some_length(random, right);
    Fenced::new(&some_bytes(random, length))
}

fn some_table(random: &mut Random) -> Fenced<Summary> {
    let length = some_length(random, LENGTHS.table);
    let bytes = some_bytes(random, 3 * length);
    let record = |part: &[u8]| Summary { open: part[0], struck: part[1], rules: part[2] };
    Fenced::new(&bytes.chunks(3).map(record).collect::<Vec<_>>())
}

/// The byte of a cancelled call at any places of the slots: on a call's first slot alone, amid the others, and past the last.
fn strew_cancelled(random: &mut Random, slots: &mut [u8]) {
    for _ in 0..random.between((1, 12)) {
        let slot = if random.percent(50) { 0 } else { random.below(32) };
        let place = 32 * random.below(32) + slot;
        slots[place.min(slots.len() - 1)] = 253;
    }
}

/// Any contents, or what a list left, with some bytes altered.
pub fn some_host(random: &mut Random, left: &[Host]) -> Host {
    let mut host = random.choose(left).clone();
    if random.percent(50) {
        fill_value(random, &mut host.value);
        host.buffers = std::array::from_fn(|i| some_buffer(random, LENGTHS.buffers[i]));
        host.marks = some_buffer(random, LENGTHS.marks);
        host.table = some_table(random);
        return host;
    }
    summary::alter(random, host.table.inside_mut());
    for _ in 0..random.between((1, 40)) {
        let part = match random.below(6) {
            i @ 0..3 => host.buffers[i].inside_mut(),
            3 => host.marks.inside_mut(),
            _ => value_bytes(&mut host.value),
        };
        part[random.below(part.len())] = some_bytes(random, 1)[0];
    }
    if random.percent(40) {
        strew_cancelled(random, host.buffers[2].inside_mut());
    }
    for name in &mut host.value.names {
        if random.percent(30) {
            name.kept = some_bytes(random, 1)[0];
        }
    }
    host
}

/// Mostly puts, lifts, marks, backs and cancellations, which do most there.
fn some_command(random: &mut Random) -> Vec<u8> {
    match random.below(92) {
        0 => board(random, &SIZES[0]),
        1..=13 => vec![PUT],
        14..=26 => vec![LIFT, random.below(65) as u8],
        27..=32 => any_gap_rule(random),
        33..=50 => any_command(random),
        51..=70 => vec![*random.choose(&[MARK, BACK]), some_name(random)],
        71..=82 => vec![CANCEL, random.near(32)],
        _ => {
            let length = random.below(40);
            some_bytes(random, length)
        }
    }
}

/// How many slots a call has in a plan: none where the byte of its first slot says that it is cancelled.
fn slots_for(memory: Memory, call: usize) -> u8 {
    match memory.slots.get(32 * call) {
        Some(253) => 0,
        _ => memory.value.heads.counts[call],
    }
}

/// The columns of rule p that count, each with its call: those up to its arity whose calls are not cancelled.
fn columns_of(memory: Memory, p: usize) -> Vec<(usize, usize)> {
    let heads = &memory.value.heads;
    let columns = (0..heads.arity[p].min(4) as usize).map(|k| (k, heads.scope[4 * p + k] as usize % 32));
    columns.filter(|(_, call)| memory.slots[32 * call] != 253).collect()
}

fn rows_of<'a>(memory: Memory<'a>, p: usize) -> impl Iterator<Item = &'a [u8]> {
    let length = memory.value.heads.lengths[p].min(64) as usize;
    memory.rows[256 * p..][..4 * length].chunks(4)
}

/// Some row of rule p has the plan's slots in these columns.
fn is_fitted(memory: Memory, p: usize, columns: &[(usize, usize)], plan: &[u8]) -> bool {
    rows_of(memory, p).any(|row| columns.iter().all(|(k, call)| row[*k] == plan[*call]))
}

/// Some column of rule p counts, and no row has the plan's slots in all that do.
fn is_broken(memory: Memory, p: usize, plan: &[u8]) -> bool {
    let columns = columns_of(memory, p);
    !columns.is_empty() && !is_fitted(memory, p, &columns, plan)
}

/// The reply to a plan, by nothing but the bytes.
fn plan_reply(host: &Host, plan: &[u8]) -> PlanReply {
    let memory = host.memory();
    let wrong = |(call, byte): (usize, &u8)| match slots_for(memory, call) {
        0 => *byte != 255,
        slots => *byte >= slots,
    };
    let refused = |number: u8| PlanReply { number, broken: 254 };
    if host.lengths().question_refusal() != 0 {
        return refused(1);
    }
    if plan.len() != 32 {
        return refused(32);
    }
    if memory.value.heads.counts[0] == 0 {
        return refused(6);
    }
    if plan.iter().enumerate().any(wrong) {
        return refused(33);
    }
    let broken = (0..64).find(|p| is_broken(memory, *p, plan));
    broken.map_or(PlanReply::KEPT, |p| PlanReply { number: 0, broken: p as u8 })
}

/// A slot for each call, as the altered counts and slots have it. Mostly some rows are laid over it, those of low rules last, so that these are kept.
fn some_plan(random: &mut Random, memory: Memory) -> Vec<u8> {
    if random.percent(10) {
        let length = some_length(random, 32);
        return some_bytes(random, length);
    }
    let slots: Vec<u8> = (0..32).map(|call| slots_for(memory, call)).collect();
    let mut plan: Vec<u8> = slots.iter().map(|n| if *n == 0 { 255 } else { random.below(*n as usize) as u8 }).collect();
    let has_lengths = memory.rows.len() == LENGTHS.buffers[0] && memory.slots.len() == LENGTHS.buffers[2];
    if has_lengths && random.percent(80) {
        for p in (0..random.between((1, 64))).rev() {
            let rows: Vec<&[u8]> = rows_of(memory, p).collect();
            let Some(row) = rows.get(random.below(rows.len().max(1))) else { continue };
            for (k, call) in columns_of(memory, p) {
                plan[call] = if row[k] < slots[call] { row[k] } else { plan[call] };
            }
        }
    }
    plan
}

/// The search for the first full plan, by nothing but the bytes: a call is laid where it has slots, and any of its 32 slots is open whose byte says so.
fn search_bytes(memory: Memory) -> FirstSearch {
    let calls: Vec<u8> = (0..32).filter(|call| slots_for(memory, *call as usize) != 0).collect();
    let columns: Vec<Vec<(usize, usize)>> = (0..64).map(|p| columns_of(memory, p)).collect();
    let is_open = |call: u8, slot: u8| memory.slots[32 * call as usize + slot as usize] == 255;
    let stays = |plan: &[u8; 32]| {
        let is_laid = |(_, call): &(usize, usize)| plan[*call] != 255;
        let is_due = |p: usize| columns[p].iter().any(is_laid) && columns[p].iter().all(is_laid);
        (0..64).all(|p| !is_due(p) || is_fitted(memory, p, &columns[p], plan))
    };
    search_first(&calls, is_open, stays, MOST)
}

/// The first full plan under some ceilings. Returns a reply: where it is not refused, that under the highest of them.
fn ask_first(random: &mut Random, host: &Host) -> FirstReply {
    let memory = host.memory();
    let refusal = match host.lengths().question_refusal() {
        0 if memory.value.heads.counts[0] == 0 => 6,
        number => number,
    };
    if refusal != 0 {
        let ceiling = *random.choose(&[0, MOST, u32::MAX]);
        let due = FirstReply { number: refusal, ..FirstReply::REFUSED };
        assert_eq!(first_plan(memory, ceiling), due, "the refusal of the first plan under the ceiling {ceiling}");
        return due;
    }
    let search = search_bytes(memory);
    let ceilings = search.ceilings(random);
    search.check(memory, &ceilings);
    search.reply(if search.end == End::GivenUp { MOST } else { u32::MAX })
}

/// All questions with any numbers. None changes anything; the row's bytes are a part of the buffer, and the empty part where the row's state is refused; a slot
/// is cancelled where its byte says so. Returns the reply to a plan, and that for the first full one.
fn ask(random: &mut Random, plan_random: &mut Random, host: &Host) -> (PlanReply, FirstReply) {
    let before = host.clone();
    let n = some_bytes(random, 7);
    let memory = host.memory();
    let _ = memory.open_slots(n[0]);
    if let Ok(state) = memory.slot_state(n[0], n[1]) {
        let byte = memory.slots.get(32 * n[0] as usize + n[1] as usize);
        assert_eq!(state == Slot::Cancelled, byte == Some(&253), "the state of slot {} of call {}", n[1], n[0]);
    }
    let refusal = number_of(&memory.row_state(n[2], n[3]));
    assert_eq!(memory.row_bytes(n[2], n[3]).len(), if refusal == 0 { 4 } else { 0 }, "the row's bytes");
    let _ = memory.support(n[4], n[5], n[6]);
    let plan = some_plan(plan_random, memory);
    let reply = host.check_plan(&plan);
    assert_eq!(reply, plan_reply(host, &plan), "the reply to the plan {plan:?}");
    let first = ask_first(&mut Random(!plan_random.0), host);
    assert!(*host == before, "a question changes something");
    (reply, first)
}

/// A new board is the same on any memory, so its table is current.
fn check_new_board(host: &Host, bytes: &[u8]) {
    let mut ledger = Ledger::default();
    if bytes[0] == BOARD {
        ledger.obey(bytes);
        assert_eq!(host.table.inside(), table_of(&ledger, &all_slots(&ledger)), "the summary table of a new board");
    }
}

/// Plans were kept, broke rules of many numbers, and were refused under each number.
fn check_replies(replies: &BTreeMap<(u8, u8), usize>) {
    let of = |number: u8, broken: u8| replies.get(&(number, broken)).copied().unwrap_or(0);
    let refused = [1, 32, 6, 33].map(|number| of(number, 254));
    let broken: Vec<usize> = (0..64).map(|p| of(0, p)).collect();
    let numbers = broken.iter().filter(|seen| **seen > 0).count();
    let (kept, broken) = (of(0, 255), broken.iter().sum::<usize>());
    assert!(kept > 0 && numbers > 32 && !refused.contains(&0), "plans on altered memory: {replies:?}");
    println!("plans on altered memory: {kept} kept, {broken} that break {numbers} rules, {refused:?} refused");
}

/// First full plans on altered memory, by what the search came to.
#[derive(Debug, Default)]
struct FirstSeen {
    found: usize,
    /// found after more than 32 trials
    long: usize,
    /// found with a slot for a call that has more than 32
    over_32_slots: usize,
    /// found with a slot that is not below the call's count
    past_count: usize,
    nothing: usize,
    /// nothing, with a slot laid
    laid: usize,
    stopped: usize,
    /// under 1 and under 6
    refused: [usize; 2],
}

impl FirstSeen {
    fn count(&mut self, reply: &FirstReply, counts: &[u8; 32]) {
        let laid = || counts.iter().zip(&reply.plan).filter(|(_, slot)| **slot != 255);
        match (reply.number, reply.ending) {
            (0, 0) => {
                self.nothing += 1;
                self.laid += (reply.trials > 0) as usize;
            }
            (0, 1) => {
                self.found += 1;
                self.long += (reply.trials > 32) as usize;
                self.over_32_slots += laid().any(|(count, _)| *count > 32) as usize;
                self.past_count += laid().any(|(count, slot)| slot >= count) as usize;
            }
            (0, _) => self.stopped += 1,
            (number, _) => self.refused[(number == 6) as usize] += 1,
        }
    }

    fn check(&self) {
        let FirstSeen { found, long, over_32_slots, past_count, nothing, laid, stopped, refused } = self;
        let all = [*found, *long, *over_32_slots, *past_count, *nothing, *laid, *stopped];
        assert!(!all.contains(&0) && !refused.contains(&0), "first plans on altered memory: {self:?}");
        print!(
            "first plans on altered memory: {found} found, {long} after over 32 trials, {over_32_slots} with a count "
        );
        print!("over 32, {past_count} with a slot past the count; {nothing} searches for nothing, {laid} that lay a ");
        println!("slot; {stopped} stopped, {refused:?} refused");
    }
}

pub fn run(left: &[Host]) {
    let mut accepted = [0; LAST_KIND as usize + 1];
    let (mut replies, mut first) = (BTreeMap::new(), FirstSeen::default());
    for seed in 0..HOSTS {
        crate::place::list("altered memory", seed);
        let (random, plan_random) = (&mut Random(seed), &mut Random(!seed));
        let mut host = some_host(random, left);
        for index in 0..COMMANDS {
            crate::place::command(index);
            let bytes = some_command(random);
            if host.command(&bytes).0.is_ok() {
                accepted[bytes[0] as usize] += 1;
                check_new_board(&host, &bytes);
            }
            let (PlanReply { number, broken }, reply) = ask(random, plan_random, &host);
            *replies.entry((number, broken)).or_insert(0) += 1;
            first.count(&reply, &host.value.value.heads.counts);
        }
    }
    let accepted = &accepted[1..];
    assert!(!accepted.contains(&0), "a kind was never accepted: {accepted:?}");
    let commands = HOSTS as usize * COMMANDS;
    println!("altered memory: {commands} commands, accepted by kind {accepted:?}; {} questions", 7 * commands);
    check_replies(&replies);
    first.check();
}
