//! Random streams, whole ones and damaged ones: document 01, refusal numbers 1 to 11.

use crate::case::{Case, MOST_STREAM};
use crate::make::{anything, plans, requirements};
use crate::plan::Plan;
use crate::random::Random;
use crate::stream::stream_of;

/// A case for op 1, 10 or 11.
pub fn case(random: &mut Random, op: u8) -> Case {
    let mut plan = plans::plan(random);
    if op == 10 {
        requirements::near_table(random, &mut plan);
    }
    let whole = if op == 1 { 35 } else { 60 };
    let mut stream = stream_of(&plan);
    if !random.percent(whole) {
        stream = damaged(random, &plan, &stream);
    }
    stream.truncate(MOST_STREAM);
    let mut case = Case::of_stream(op, &stream);
    if random.percent(25) {
        junk_after(random, &mut case, stream.len());
    }
    case.put_k(anything(random));
    case
}

/// Puts anything after the stream, where it is not handed in; sometimes x is beyond all of it.
fn junk_after(random: &mut Random, case: &mut Case, length: usize) {
    for place in 5 + length..case.bytes.len() {
        case.bytes[place] = random.pick(&[0, 1, 2, 3, 9, 255]);
    }
    if random.percent(20) {
        case.put_x(random.pick(&[251, 252, 256, 256 + length as u16, 65_535]));
    }
}

/// A stream that is probably refused.
fn damaged(random: &mut Random, plan: &Plan, stream: &[u8]) -> Vec<u8> {
    let mut damaged = stream.to_vec();
    match random.between(1, 20) {
        1..=4 => damaged.truncate(random.below(stream.len())),
        5..=7 => change_byte(random, &mut damaged),
        8..=9 => {
            change_byte(random, &mut damaged);
            change_byte(random, &mut damaged);
        }
        10..=11 => change_kind(random, plan, &mut damaged),
        12..=14 => change_field(random, plan, &mut damaged),
        15..=16 => {
            let count = random.between(1, 20);
            add_bytes(random, &mut damaged, count);
        }
        17 => {
            damaged.clear();
            let count = random.between(0, 40);
            add_bytes(random, &mut damaged, count);
        }
        18 => {
            damaged.truncate(random.below(stream.len()));
            let count = random.between(1, 20);
            add_bytes(random, &mut damaged, count);
        }
        _ => damaged = move_record(random, plan, stream),
    }
    damaged
}

/// The offsets of the kind bytes of a whole stream.
fn kind_offsets(plan: &Plan) -> Vec<usize> {
    let n = usize::from(plan.n);
    let rows = usize::from(plan.f).div_ceil(8);
    let mut offsets = vec![0];
    offsets.extend((0..n).map(|client| 3 + 10 * client));
    offsets.extend((0..=rows).map(|row| 3 + 10 * n + 9 * row));
    offsets
}

/// Changes any one byte.
fn change_byte(random: &mut Random, stream: &mut [u8]) {
    let place = random.below(stream.len());
    let old = stream[place];
    let any = random.byte();
    let beside = [old.wrapping_add(1), old.wrapping_sub(1)];
    stream[place] = random.pick(&[0, 255, beside[0], beside[1], any, any]);
}

/// Changes one kind byte.
fn change_kind(random: &mut Random, plan: &Plan, stream: &mut [u8]) {
    let place = random.pick(&kind_offsets(plan));
    let any = random.byte();
    stream[place] = random.pick(&[0, 1, 2, 3, 4, 8, 9, 10, 15, 16, any]);
}

/// Changes one field so that it is probably refused, or two fields of one client.
fn change_field(random: &mut Random, plan: &Plan, stream: &mut [u8]) {
    let n = usize::from(plan.n);
    let client = 3 + 10 * random.below(n);
    let owners = 3 + 10 * n;
    let slot = random.below(stream.len() - 1 - owners);
    match random.between(1, 8) {
        1 => stream[1] = random.pick(&[0, 65, 66, 255]),
        2 => stream[2] = random.pick(&[0, 9, 10, 255]),
        3 => stream[client + 1] = random.pick(&[0, 1, 2, 9, 255]),
        4 => stream[client + 2..client + 4].fill(0),
        5 => stream[client + 4..client + 6].fill(0),
        6 => stream[client + 8..client + 10].fill(0),
        7 => {
            stream[client + 1] ^= random.pick(&[0, 0, 3]);
            stream[client + 4..client + 6].fill(random.pick(&[0, 1]));
            stream[client + 8..client + 10].fill(0);
        }
        _ => stream[owners + slot] = random.pick(&[n as u8, n as u8 + 1, 9, 254, 255]),
    }
}

/// Adds bytes at the end, often those that a record might begin with.
fn add_bytes(random: &mut Random, stream: &mut Vec<u8>, count: u16) {
    for _ in 0..count {
        let any = random.byte();
        stream.push(random.pick(&[0, 1, 1, 2, 3, 9, 9, any]));
    }
}

/// Leaves a record out, or has it twice.
fn move_record(random: &mut Random, plan: &Plan, stream: &[u8]) -> Vec<u8> {
    let mut offsets = kind_offsets(plan);
    offsets.push(stream.len());
    let record = random.below(offsets.len() - 1);
    let (first, after) = (offsets[record], offsets[record + 1]);
    let mut moved = stream[..first].to_vec();
    if random.percent(50) {
        moved.extend(&stream[first..after]);
        moved.extend(&stream[first..after]);
    }
    moved.extend(&stream[after..]);
    moved
}
