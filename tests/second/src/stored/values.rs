//! Stored cases: document 01, refusal numbers 5, 6, 8, 9 and 10 of a plan held as a value,
//! through every op that checks it, and faults past f and n that are ignored. Most start from
//! the report's plan: f 8, n 2.

use super::build::*;
use crate::case::Case;
use crate::plan::Plan;
use crate::reply::reply;

/// A change to a plan.
type Change = fn(&mut Plan);
/// What it shows, the change, the refusal number.
type Fault = (&'static str, Change, u8);

const FAULTS: &[Fault] = &[
    ("5: f 0", |plan| plan.f = 0, 5),
    ("5: f 65", |plan| plan.f = 65, 5),
    ("5: f 255", |plan| plan.f = 255, 5),
    ("5: f 256", |plan| plan.f = 256, 5),
    ("5: f 256 + 8", |plan| plan.f = 264, 5),
    ("5: f 65535", |plan| plan.f = 65_535, 5),
    ("6: n 0", |plan| plan.n = 0, 6),
    ("6: n 9", |plan| plan.n = 9, 6),
    ("6: n 255", |plan| plan.n = 255, 6),
    ("6: n 256 + 1", |plan| plan.n = 257, 6),
    ("6: n 256 + 2", |plan| plan.n = 258, 6),
    ("6: n 65535", |plan| plan.n = 65_535, 6),
    ("8: client 1 has p 0", |plan| plan.clients[0].p = 0, 8),
    ("8: client 1 has q 0", |plan| plan.clients[0].q = 0, 8),
    ("8: client 1 has p 3 and q 2", |plan| plan.clients[0].p = 3, 8),
    ("8: client 1 has p 65535", |plan| plan.clients[0].p = 65_535, 8),
    ("8: client 2, the last, has p 0", |plan| plan.clients[1].p = 0, 8),
    ("8: client 2, the last, has q 0", |plan| plan.clients[1].q = 0, 8),
    ("8: client 2, the last, has p 5 and q 4", |plan| plan.clients[1].p = 5, 8),
    ("8: client 2, the last, has p 256 and q 4", |plan| plan.clients[1].p = 256, 8),
    ("9: client 1 has b 0", |plan| plan.clients[0].b = 0, 9),
    ("9: client 2, the last, has b 0", |plan| plan.clients[1].b = 0, 9),
    ("5 before 6", |plan| (plan.f, plan.n) = (0, 0), 5),
    ("5 before 8", |plan| (plan.f, plan.clients[0].p) = (65, 0), 5),
    ("6 before 8", |plan| (plan.n, plan.clients[0].p) = (9, 0), 6),
    ("6 before 9", |plan| (plan.n, plan.clients[1].b) = (0, 0), 6),
    ("8 before 9 in one client", |plan| plan.clients[0] = client(0, 0, 0, 0), 8),
    ("client 1's 9 before client 2's 8", client_1_first, 9),
    ("client 1's 8 before client 2's 9", client_1_first_by_rate, 8),
    ("8 before 10", |plan| (plan.clients[1].q, plan.owners[0]) = (0, 3), 8),
    ("9 before 10", |plan| (plan.clients[1].b, plan.owners[0]) = (0, 3), 9),
];

/// The same for refusal number 10, which the search does not give.
const OWNER_FAULTS: &[Fault] = &[
    ("10: slot 0 has n + 1", |plan| plan.owners[0] = 3, 10),
    ("10: slot 0 has 255", |plan| plan.owners[0] = 255, 10),
    ("10: slot 4 has n + 1", |plan| plan.owners[4] = 3, 10),
    ("10: slot 4 has 8", |plan| plan.owners[4] = 8, 10),
    ("10: slot 7, the last used, has n + 1", |plan| plan.owners[7] = 3, 10),
    ("10: slot 7, the last used, has 255", |plan| plan.owners[7] = 255, 10),
    ("10: n 1, so that client 2 is too high", |plan| plan.n = 1, 10),
];

/// The same in the last places of the largest plan: f 64, n 8.
const LAST_FAULTS: &[Fault] = &[
    ("8: client 8 has p 0", |plan| plan.clients[7].p = 0, 8),
    ("8: client 8 has q 0", |plan| plan.clients[7].q = 0, 8),
    ("9: client 8 has b 0", |plan| plan.clients[7].b = 0, 9),
    ("10: slot 63 has 9", |plan| plan.owners[63] = 9, 10),
    ("10: slot 63 has 255", |plan| plan.owners[63] = 255, 10),
    ("client 8's 9 before slot 63's 10", client_8_first, 9),
];

/// Faults in places that are ignored; nothing is refused.
const IGNORED: &[(&str, Change)] = &[
    ("slot 8, the first past f, has 3", |plan| plan.owners[8] = 3),
    ("slot 8, the first past f, has 255", |plan| plan.owners[8] = 255),
    ("slot 63 has 255", |plan| plan.owners[63] = 255),
    ("all slots past f have client 1", |plan| plan.owners[8..].fill(1)),
    ("client 3, the first past n, has p 7 alone", |plan| plan.clients[2].p = 7),
    ("all clients past n are good", |plan| plan.clients[2..].fill(client(1, 1, 0, 1))),
    ("client 8 has p 2 and q 1", |plan| plan.clients[7] = client(2, 1, 0, 0)),
];

fn client_1_first(plan: &mut Plan) {
    plan.clients[0].b = 0;
    plan.clients[1].p = 0;
}

fn client_1_first_by_rate(plan: &mut Plan) {
    plan.clients[0].q = 0;
    plan.clients[1].b = 0;
}

fn client_8_first(plan: &mut Plan) {
    plan.clients[7].b = 0;
    plan.owners[63] = 9;
}

pub fn rows() -> Vec<Row> {
    let mut rows = Vec::new();
    for (what, change, number) in FAULTS {
        let faulty = with(&reports_plan(), change);
        rows.extend(refused(what, &faulty, *number));
        rows.push(row(what, search(&faulty), &format!("refusal {number}")));
    }
    for (what, change, number) in OWNER_FAULTS {
        let faulty = with(&reports_plan(), change);
        rows.extend(refused(what, &faulty, *number));
        let idle = with(&faulty, |plan| plan.owners.fill(0));
        let expected = reply(&search(&idle));
        let what = format!("{what}: not read by the search");
        rows.push(row(&what, search(&faulty), expected.trim_end()));
    }
    for (what, change, number) in LAST_FAULTS {
        let largest = plan(&[client(1, 64, 63, 1); 8], &[8; 64]);
        rows.extend(refused(what, &with(&largest, change), *number));
    }
    for (what, change) in IGNORED {
        rows.extend(ignored(what, &with(&reports_plan(), change)));
    }
    rows
}

/// Every call on a plan but the search, each of which would be answered for the report's plan.
fn calls(plan: &Plan) -> Vec<Case> {
    let pending = [1, 2, 3, 4, 5, 6, 7, 8];
    vec![
        write(plan, 34),
        figures(plan, 1),
        wait(plan, 2, 3),
        default_wait(plan, 2),
        judge(plan),
        step(8, plan, 3, &pending, &[1, 1]),
        step(9, plan, 3, &pending, &[1, 1]),
    ]
}

/// The refusal through every call; the lent output and the arbiter's record are unchanged.
fn refused(what: &str, faulty: &Plan, number: u8) -> Vec<Row> {
    let mut rows = Vec::new();
    for case in calls(faulty) {
        let after = match case.op() {
            2 => " 170".repeat(34),
            8 | 9 => String::from(" : 3 1 2 3 4 5 6 7 8"),
            _ => String::new(),
        };
        rows.push(row(what, case, &format!("refusal {number}{after}")));
    }
    rows
}

/// The same replies as for the report's plan itself.
fn ignored(what: &str, plan: &Plan) -> Vec<Row> {
    let mut changed = calls(plan);
    let mut unchanged = calls(&reports_plan());
    changed.push(search(plan));
    unchanged.push(search(&reports_plan()));
    let pairs = changed.into_iter().zip(unchanged);
    pairs
        .map(|(case, plain)| row(&format!("ignored: {what}"), case, reply(&plain).trim_end()))
        .collect()
}
