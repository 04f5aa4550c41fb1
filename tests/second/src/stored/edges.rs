//! Stored cases: document 01, "Plan" and "Plan stream" at their edges: frame lengths around whole
//! rows of eight slots, one client and eight.

use super::build::*;
use crate::plan::Plan;
use crate::stream::stream_of;

const FRAMES: [u16; 8] = [1, 7, 8, 9, 16, 17, 63, 64];

pub fn rows() -> Vec<Row> {
    let mut rows = Vec::new();
    for f in FRAMES {
        for n in [1, 8] {
            let length = 4 + 10 * n + 9 * f.div_ceil(8);
            rows.extend(calls("in turn", &in_turn(f, n), length));
            rows.extend(calls("bunched", &bunched(f, n), length));
        }
    }
    rows
}

/// Read, written into an output that just fits, figures of the first and the last client, judged.
fn calls(what: &str, plan: &Plan, length: u16) -> Vec<Row> {
    let what = format!("f {}, n {}, {what}", plan.f, plan.n);
    let cases = [
        read(&stream_of(plan)),
        write(plan, length),
        write(plan, length - 1),
        figures(plan, 1),
        figures(plan, plan.n),
        judge(plan),
    ];
    cases.into_iter().map(|case| unstated(&what, case)).collect()
}

/// The clients in turn, each next to nothing required.
fn in_turn(f: u16, n: u16) -> Plan {
    let owners: Vec<u8> = (0..f).map(|slot| (slot % n) as u8 + 1).collect();
    plan(&vec![client(1, 64, 64, 1); usize::from(n)], &owners)
}

/// The last client owns the second half, client 1 the first slot, each required at the rate and
/// the latency f - m of these consecutive slots; a client that has both gets more than it requires.
fn bunched(f: u16, n: u16) -> Plan {
    let half = f.div_ceil(2);
    let mut owners = vec![0; usize::from(f)];
    owners[0] = 1;
    owners[usize::from(f - half)..].fill(n as u8);
    let mut clients = vec![client(1, 64, 64, 1); usize::from(n)];
    clients[0] = client(1, f, f - 1, 1);
    clients[usize::from(n) - 1] = client(half, f, f - half, 1);
    plan(&clients, &owners)
}
