//! Stored cases: document 01, refusal numbers 1 to 11 of reading, at every place and at the
//! boundary values, and which of two comes first. All start from one stream that is whole.

use super::build::*;
use crate::case::Case;

/// f 11, n 2, with a second row that has five places past f.
#[rustfmt::skip]
const WHOLE: [u8; 42] = [
    1, 11, 2, // f, n
    2, 1, 0, 1, 0, 3, 0, 7, 0, 2, // client 1: rate 1/3, latency 7/2
    2, 2, 1, 0, 4, 0, 255, 255, 1, 0, // client 2: rate 256/1024, latency 65535/256
    3, 1, 2, 0, 1, 0, 2, 1, 0, // slots 0 to 7
    3, 0, 2, 1, 255, 255, 255, 255, 255, // slots 8 to 10
    9,
];

/// The offset of each record's kind byte.
const HEAD: usize = 0;
const CLIENT_1: usize = 3;
const CLIENT_2: usize = 13;
const ROW_1: usize = 23;
const ROW_2: usize = 32;
const END: usize = 41;
const RECORDS: [usize; 6] = [HEAD, CLIENT_1, CLIENT_2, ROW_1, ROW_2, END];

/// The place of each field after its record's offset.
const NUMBER: usize = 1;
const P: usize = 2;
const Q: usize = 4;
const A: usize = 6;
const B: usize = 8;

/// What it shows, where the stream is changed, the bytes put there, refusal number, offset.
type Fault = (&'static str, usize, &'static [u8], u8, usize);

const HEAD_FAULTS: &[Fault] = &[
    ("5: f 0", 1, &[0], 5, HEAD),
    ("5: f 65", 1, &[65], 5, HEAD),
    ("5: f 255", 1, &[255], 5, HEAD),
    ("6: n 0", 2, &[0], 6, HEAD),
    ("6: n 9", 2, &[9], 6, HEAD),
    ("6: n 255", 2, &[255], 6, HEAD),
    ("5 before 6, both too low", 1, &[0, 0], 5, HEAD),
    ("5 before 6, both too high", 1, &[65, 9], 5, HEAD),
    ("n one lower: the second client is not due", 2, &[1], 3, CLIENT_2),
    ("n one higher: the first row is not due", 2, &[3], 3, ROW_1),
    ("f with a row fewer: the second row is not due", 1, &[8], 3, ROW_2),
    ("f with a row more: an owner of 255 comes first", 1, &[17], 10, ROW_2),
];

const CLIENT_FAULTS: &[Fault] = &[
    ("7: client 1 has number 0", CLIENT_1 + NUMBER, &[0], 7, CLIENT_1),
    ("7: client 1 has number 2", CLIENT_1 + NUMBER, &[2], 7, CLIENT_1),
    ("7: client 1 has number 255", CLIENT_1 + NUMBER, &[255], 7, CLIENT_1),
    ("7: client 2 has number 0", CLIENT_2 + NUMBER, &[0], 7, CLIENT_2),
    ("7: client 2 has number 1", CLIENT_2 + NUMBER, &[1], 7, CLIENT_2),
    ("7: client 2 has number 3", CLIENT_2 + NUMBER, &[3], 7, CLIENT_2),
    ("8: client 1 has p 0", CLIENT_1 + P, &[0, 0], 8, CLIENT_1),
    ("8: client 1 has q 0", CLIENT_1 + Q, &[0, 0], 8, CLIENT_1),
    ("8: client 1 has p 4 and q 3", CLIENT_1 + P, &[0, 4], 8, CLIENT_1),
    ("8: client 1 has p 257 and q 3", CLIENT_1 + P, &[1, 1], 8, CLIENT_1),
    ("8: client 1 has p 65535 and q 65534", CLIENT_1 + P, &[255, 255, 255, 254], 8, CLIENT_1),
    ("8: client 1 has p 0 and q 0", CLIENT_1 + P, &[0, 0, 0, 0], 8, CLIENT_1),
    ("8: client 2 has p 0", CLIENT_2 + P, &[0, 0], 8, CLIENT_2),
    ("8: client 2 has q 0", CLIENT_2 + Q, &[0, 0], 8, CLIENT_2),
    ("8: client 2 has p 256 and q 255", CLIENT_2 + Q, &[0, 255], 8, CLIENT_2),
    ("8: client 2 has p 1025 and q 1024", CLIENT_2 + P, &[4, 1], 8, CLIENT_2),
    ("9: client 1 has b 0", CLIENT_1 + B, &[0, 0], 9, CLIENT_1),
    ("9: client 1 has a 0 and b 0", CLIENT_1 + A, &[0, 0, 0, 0], 9, CLIENT_1),
    ("9: client 2 has b 0", CLIENT_2 + B, &[0, 0], 9, CLIENT_2),
    ("7 before 8", CLIENT_1 + NUMBER, &[0, 0, 0], 7, CLIENT_1),
    ("7 before 8 and 9", CLIENT_2 + NUMBER, &[1, 0, 0, 0, 0, 0, 0, 0, 0], 7, CLIENT_2),
    ("8 before 9", CLIENT_1 + Q, &[0, 0, 0, 0, 0, 0], 8, CLIENT_1),
    ("8 before 9 in client 2", CLIENT_2 + P, &[0, 0, 4, 0, 0, 0, 0, 0], 8, CLIENT_2),
    ("client 1's 9 before client 2's 7", CLIENT_1 + B, &[0, 0, 2, 9], 9, CLIENT_1),
    ("client 1's 9 before client 2's kind", CLIENT_1 + B, &[0, 0, 255], 9, CLIENT_1),
    ("client 2's 9 before an owner's 10", CLIENT_2 + B, &[0, 0, 3, 3], 9, CLIENT_2),
];

const OWNER_FAULTS: &[Fault] = &[
    ("10: slot 0 has n + 1", ROW_1 + 1, &[3], 10, ROW_1),
    ("10: slot 0 has 255", ROW_1 + 1, &[255], 10, ROW_1),
    ("10: slot 4 has n + 1", ROW_1 + 5, &[3], 10, ROW_1),
    ("10: slot 4 has 255", ROW_1 + 5, &[255], 10, ROW_1),
    ("10: slot 7 has n + 1", ROW_1 + 8, &[3], 10, ROW_1),
    ("10: slot 7 has 255", ROW_1 + 8, &[255], 10, ROW_1),
    ("10: slot 8 has n + 1", ROW_2 + 1, &[3], 10, ROW_2),
    ("10: slot 8 has 255", ROW_2 + 1, &[255], 10, ROW_2),
    ("10: slot 10, the last used, has n + 1", ROW_2 + 3, &[3], 10, ROW_2),
    ("10: slot 10, the last used, has 255", ROW_2 + 3, &[255], 10, ROW_2),
    ("11: the first place past f is 0", ROW_2 + 4, &[0], 11, ROW_2),
    ("11: the first place past f is 1", ROW_2 + 4, &[1], 11, ROW_2),
    ("11: the first place past f is 254", ROW_2 + 4, &[254], 11, ROW_2),
    ("11: a place between is 0", ROW_2 + 6, &[0], 11, ROW_2),
    ("11: the last place past f is 0", ROW_2 + 8, &[0], 11, ROW_2),
    ("11: the last place past f is 9", ROW_2 + 8, &[9], 11, ROW_2),
    ("11: the last place past f is 254", ROW_2 + 8, &[254], 11, ROW_2),
    ("10 before 11 in one record", ROW_2 + 3, &[3, 0], 10, ROW_2),
    ("10 in the first row before 11", ROW_1 + 8, &[3, 3, 0, 2, 1, 0], 10, ROW_1),
    ("10 before the next record's kind", ROW_1 + 8, &[3, 255], 10, ROW_1),
    ("11 before a missing end", ROW_2 + 8, &[0, 3], 11, ROW_2),
];

/// What it shows, the stream up to where it is cut, the bytes put after, refusal number, offset.
const ENDINGS: &[Fault] = &[
    ("4: one byte too many, 0", 42, &[0], 4, 42),
    ("4: one byte too many, 9", 42, &[9], 4, 42),
    ("4: one byte too many, 1", 42, &[1], 4, 42),
    ("4: one byte too many, 255", 42, &[255], 4, 42),
    ("4: a whole row too many", 42, &[3, 1, 1, 1, 1, 1, 1, 1, 1], 4, 42),
    ("1 for a missing end, not 4", END, &[], 1, END),
    ("2 before 1: a reserved kind with nothing after it", HEAD, &[0], 2, HEAD),
    ("2 before 1: kind 4 where client 1 is due", CLIENT_1, &[4], 2, CLIENT_1),
    ("2 before 1: kind 255 where a row is due", ROW_1, &[255], 2, ROW_1),
    ("2 before 1: kind 8 where the end is due", END, &[8], 2, END),
    ("3 before 1: the end first", HEAD, &[9], 3, HEAD),
    ("3 before 1: a client first, body short", HEAD, &[2], 3, HEAD),
    ("3 before 1: a head again, body short", CLIENT_1, &[1, 11], 3, CLIENT_1),
    ("3 before 1: a row for client 2", CLIENT_2, &[3], 3, CLIENT_2),
    ("3 before 1: a third client", ROW_1, &[2, 3], 3, ROW_1),
    ("3 before 1: the end after one row", ROW_2, &[9], 3, ROW_2),
    ("3: a third row", END, &[3, 255, 255, 255, 255, 255, 255, 255, 255, 9], 3, END),
    ("3: a head where the end is due", END, &[1, 11, 2], 3, END),
    ("1 before 5: a head with f 0, body short", HEAD, &[1, 0], 1, HEAD),
    ("1 before 7: number 9, body short", CLIENT_1, &[2, 9, 0, 1, 0, 3, 0, 7, 0], 1, CLIENT_1),
    ("1 before 8: p 0, body short", CLIENT_2, &[2, 2, 0, 0], 1, CLIENT_2),
    ("1 before 10: owner 3, body short", ROW_1, &[3, 3, 3, 3], 1, ROW_1),
    ("1 before 11: place 0, body short", ROW_2, &[3, 0, 2, 1, 0, 0, 0, 0], 1, ROW_2),
    ("only an end", HEAD, &[9, 9], 3, HEAD),
];

pub fn rows() -> Vec<Row> {
    let mut rows = whole_and_cut();
    rows.extend(kinds());
    for (what, place, bytes, number, offset) in HEAD_FAULTS.iter().chain(CLIENT_FAULTS) {
        rows.extend(refused(what, &changed(*place, bytes), *number, *offset));
    }
    for (what, place, bytes, number, offset) in OWNER_FAULTS {
        rows.extend(refused(what, &changed(*place, bytes), *number, *offset));
    }
    for (what, place, bytes, number, offset) in ENDINGS {
        let stream = [&WHOLE[..*place], bytes].concat();
        rows.extend(refused(what, &stream, *number, *offset));
    }
    rows.extend(each_byte_damaged());
    rows.extend(passes());
    rows.extend(lengths());
    rows
}

/// The whole stream with some bytes changed.
fn changed(place: usize, bytes: &[u8]) -> Vec<u8> {
    let mut stream = WHOLE.to_vec();
    stream[place..place + bytes.len()].copy_from_slice(bytes);
    stream
}

/// A refused read through ops 1, 10 and 11.
fn refused(what: &str, stream: &[u8], number: u8, offset: usize) -> Vec<Row> {
    let reply = format!("refusal {number} at {offset}");
    let calls = [read(stream), report(stream), homing(stream)];
    calls.into_iter().map(|case| row(what, case, &reply)).collect()
}

/// 1: the stream cut after every count of bytes; a missing kind byte is at the stream length, a
/// short body at its record.
fn whole_and_cut() -> Vec<Row> {
    let plan = "plan 11 2 1 3 7 2 256 1024 65535 256 1 2 0 1 0 2 1 0 0 2 1";
    let mut rows = vec![row("a whole stream", read(&WHOLE), plan)];
    for length in 0..WHOLE.len() {
        let before = |record: &&usize| **record <= length;
        let record = RECORDS.iter().rev().find(before).unwrap_or(&HEAD);
        let what = format!("1: cut after {length} bytes");
        let reply = format!("refusal 1 at {record}");
        rows.push(row(&what, read(&WHOLE[..length]), &reply));
    }
    rows
}

/// Each byte of the stream changed to the next below and above it, to 0 and to 255.
fn each_byte_damaged() -> Vec<Row> {
    let mut rows = Vec::new();
    for (place, old) in WHOLE.iter().enumerate() {
        for byte in [old.wrapping_sub(1), old.wrapping_add(1), 0, 255] {
            let what = format!("byte {place} changed from {old} to {byte}");
            rows.push(unstated(&what, read(&changed(place, &[byte]))));
        }
    }
    rows
}

/// 2 and 3: each reserved kind, and each known kind that is not due, in each record's place.
fn kinds() -> Vec<Row> {
    let mut rows = Vec::new();
    for record in RECORDS {
        for kind in [0, 4, 5, 6, 7, 8, 10, 15, 16, 17, 127, 128, 254, 255] {
            let what = format!("2: kind {kind} at {record}");
            let reply = format!("refusal 2 at {record}");
            rows.push(row(&what, read(&changed(record, &[kind])), &reply));
        }
        for kind in [1, 2, 3, 9] {
            if kind != WHOLE[record] {
                let what = format!("3: kind {kind} at {record}");
                let reply = format!("refusal 3 at {record}");
                rows.push(row(&what, read(&changed(record, &[kind])), &reply));
            }
        }
    }
    rows
}

/// Boundary values that are read.
fn passes() -> Vec<Row> {
    let one = |place, bytes| read(&changed(place, bytes));
    let rest = "256 1024 65535 256 1 2 0 1 0 2 1 0 0 2 1";
    let least = format!("plan 11 2 1 1 0 1 {rest}");
    let most = format!("plan 11 2 65535 65535 65535 65535 {rest}");
    let unequal = format!("plan 11 2 2 4 7 2 {rest}");
    let high = format!("plan 11 2 256 256 0 256 {rest}");
    let idle = "plan 11 2 1 3 7 2 256 1024 65535 256 0 0 0 0 0 0 0 0 0 2 1";
    vec![
        row("the least numbers", one(CLIENT_1 + P, &[0, 1, 0, 1, 0, 0, 0, 1]), &least),
        row("the largest numbers", one(CLIENT_1 + P, &[255; 8]), &most),
        row("2/4 stays 2/4", one(CLIENT_1 + P, &[0, 2, 0, 4]), &unequal),
        row("low bytes of 0", one(CLIENT_1 + P, &[1, 0, 1, 0, 0, 0, 1, 0]), &high),
        row("a row of idle slots", one(ROW_1 + 1, &[0; 8]), idle),
    ]
}

/// The stream handed in is x bytes, 251 at most, whatever follows.
fn lengths() -> Vec<Row> {
    let handed_in = |x, mut case: Case| {
        case.put_x(x);
        case
    };
    let whole = || read(&WHOLE);
    let zeros = || read(&[]);
    let plan = "plan 11 2 1 3 7 2 256 1024 65535 256 1 2 0 1 0 2 1 0 0 2 1";
    vec![
        row("x 42 is the whole stream", handed_in(42, whole()), plan),
        row("x 0 is no stream", handed_in(0, whole()), "refusal 1 at 0"),
        row("x 41 is without the end", handed_in(41, whole()), "refusal 1 at 41"),
        row("x 43 has a byte too many", handed_in(43, whole()), "refusal 4 at 42"),
        row("x 65535 has bytes too many", handed_in(65_535, whole()), "refusal 4 at 42"),
        row("x 298, which is 256 + 42", handed_in(298, whole()), "refusal 4 at 42"),
        row("only zeros, as many as there can be", handed_in(251, zeros()), "refusal 2 at 0"),
    ]
}
