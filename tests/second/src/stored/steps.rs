//! Stored cases: document 01, "The arbiter", rule by rule, on the report's plan: owners
//! 1 1 1 2 0 1 0 2. Each goes by value and in place.

use super::build::*;

/// What it shows, position, pending, arrivals, reply.
type Line = (&'static str, u16, &'static [u8], &'static [u8], &'static str);

const STEPS: &[Line] = &[
    (
        "a request is served in the slot in which it arrives",
        0,
        &[0, 0],
        &[1, 0],
        "1 0 0 0 0 0 0 0 0 : 1 0 0 0 0 0 0 0 0",
    ),
    (
        "room is reckoned before the slot's service",
        1,
        &[254, 0],
        &[2, 0],
        "1 1 0 0 0 0 0 0 0 : 2 254 0 0 0 0 0 0 0",
    ),
    (
        "a queue that is just filled turns nobody away",
        1,
        &[254, 0],
        &[1, 0],
        "1 0 0 0 0 0 0 0 0 : 2 254 0 0 0 0 0 0 0",
    ),
    (
        "room freed by service is used again",
        2,
        &[254, 7],
        &[1, 0],
        "1 0 0 0 0 0 0 0 0 : 3 254 7 0 0 0 0 0 0",
    ),
    (
        "a full queue in another's slot stays full",
        3,
        &[255, 1],
        &[0, 0],
        "2 0 0 0 0 0 0 0 0 : 4 255 0 0 0 0 0 0 0",
    ),
    ("an idle slot passes unused", 4, &[5, 5], &[1, 1], "0 0 0 0 0 0 0 0 0 : 5 6 6 0 0 0 0 0 0"),
    (
        "the most that can be turned away",
        5,
        &[255, 255],
        &[255, 255],
        "1 255 255 0 0 0 0 0 0 : 6 254 255 0 0 0 0 0 0",
    ),
    (
        "an empty queue takes 255",
        6,
        &[0, 1],
        &[255, 255],
        "0 0 1 0 0 0 0 0 0 : 7 255 255 0 0 0 0 0 0",
    ),
    (
        "the position goes on from f - 1 to 0",
        7,
        &[3, 3],
        &[0, 0],
        "2 0 0 0 0 0 0 0 0 : 0 3 2 0 0 0 0 0 0",
    ),
    (
        "nothing pending, nobody served",
        7,
        &[0, 0],
        &[0, 0],
        "0 0 0 0 0 0 0 0 0 : 0 0 0 0 0 0 0 0 0",
    ),
    (
        "counts past n are not read and are kept",
        0,
        &[2, 0, 255, 1, 2, 3, 4, 255],
        &[0, 0],
        "1 0 0 0 0 0 0 0 0 : 1 1 0 255 1 2 3 4 255",
    ),
];

pub fn rows() -> Vec<Row> {
    let mut rows = Vec::new();
    for (what, position, pending, arrivals, reply) in STEPS {
        for op in [8, 9] {
            let case = step(op, &reports_plan(), *position, pending, arrivals);
            rows.push(row(what, case, reply));
        }
    }
    rows.extend(short_and_long_frames());
    rows
}

/// Frames of 1 and 64 slots, one client and eight.
fn short_and_long_frames() -> Vec<Row> {
    let one = slots(1, &[0]);
    let long = slots(64, &[63]);
    let eight = plan(&[client(1, 8, 7, 1); 8], &[1, 2, 3, 4, 5, 6, 7, 8]);
    let full = [255; 8];
    let all = "8 1 2 3 4 5 6 7 8 : 0 255 255 255 255 255 255 255 254";
    let mut rows = Vec::new();
    for op in [8, 9] {
        let alone = step(op, &one, 0, &[1], &[0]);
        let last = step(op, &long, 63, &[9], &[1]);
        let before = step(op, &long, 62, &[9], &[1]);
        let eighth = step(op, &eight, 7, &full, &[1, 2, 3, 4, 5, 6, 7, 8]);
        rows.push(row("f 1", alone, "1 0 0 0 0 0 0 0 0 : 0 0 0 0 0 0 0 0 0"));
        rows.push(row("f 64, last slot", last, "1 0 0 0 0 0 0 0 0 : 0 9 0 0 0 0 0 0 0"));
        rows.push(row("f 64, slot 62", before, "0 0 0 0 0 0 0 0 0 : 63 10 0 0 0 0 0 0 0"));
        rows.push(row("eight clients, each with its own count", eighth, all));
    }
    rows
}
