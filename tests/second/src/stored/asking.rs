//! Stored cases: document 01, refusal numbers 12 to 18, at the boundary values, and which comes
//! first where two apply.

use super::build::*;
use crate::case::Case;
use crate::plan::Plan;

pub fn rows() -> Vec<Row> {
    let mut rows = lent_outputs();
    rows.extend(clients_asked());
    rows.extend(waiting_numbers());
    rows.extend(searches());
    rows.extend(positions());
    rows.extend(arrivals());
    rows.extend(step_order());
    rows
}

/// The report's plan with the third client, who owns no slot.
fn three_clients() -> Plan {
    with(&reports_plan(), |plan| {
        plan.n = 3;
        plan.clients[2] = client(1, 8, 7, 1);
    })
}

/// 12: the lent output is shorter than the stream; one that fits is touched only so far.
fn lent_outputs() -> Vec<Row> {
    let least = slots(1, &[0]);
    let most = plan(&[client(1, 2, 3, 4); 8], &[8; 64]);
    let mut rows = Vec::new();
    for (plan, length) in [(&least, 23), (&reports_plan(), 33), (&most, 156)] {
        for short in [0, 1, length - 1] {
            let reply = format!("refusal 12{}", " 170".repeat(usize::from(short)));
            let what = format!("12: {short} bytes for a stream of {length}");
            rows.push(row(&what, write(plan, short), &reply));
        }
        for fits in [length, length + 1, 199, 200] {
            let what = format!("{fits} bytes for a stream of {length}");
            rows.push(unstated(&what, write(plan, fits)));
        }
        for large in [201, 256 + length, 65_535] {
            let what = format!("x {large}, that is 200 bytes, for a stream of {length}");
            rows.push(unstated(&what, write(plan, large)));
        }
    }
    let faulty = with(&least, |plan| plan.clients[0].b = 0);
    rows.push(row("9 before 12", write(&faulty, 0), "refusal 9"));
    let faulty = with(&least, |plan| plan.owners[0] = 2);
    rows.push(row("10 before 12", write(&faulty, 1), "refusal 10 170"));
    rows
}

/// Figures and both waits of a client.
fn asked(plan: &Plan, client: u16) -> [Case; 3] {
    [figures(plan, client), wait(plan, client, 1), default_wait(plan, client)]
}

/// 13 and 14, and the plan's own refusals before them.
fn clients_asked() -> Vec<Row> {
    let two = reports_plan();
    let three = three_clients();
    let unused = with(&two, |plan| plan.owners[8..].fill(3));
    let faulty = with(&three, |plan| plan.clients[2].b = 0);
    let owner = with(&three, |plan| plan.owners[0] = 4);
    let eight = plan(&[client(1, 8, 7, 1); 8], &[1, 2, 3, 4, 5, 6, 7, 8]);
    let mut rows = Vec::new();
    for (what, plan, client, number) in [
        ("13: client 0", &two, 0, 13),
        ("13: client n + 1", &two, 3, 13),
        ("13: client n + 1, who would own slots past f", &unused, 3, 13),
        ("13: client 9", &two, 9, 13),
        ("13: client 9 of eight", &eight, 9, 13),
        ("13: client 255", &two, 255, 13),
        ("13: client 256", &two, 256, 13),
        ("13: client 256 + 1", &two, 257, 13),
        ("13: client 65535", &two, 65_535, 13),
        ("14: client 3 owns no slot", &three, 3, 14),
        ("9 before 13", &faulty, 0, 9),
        ("9 before 14", &faulty, 3, 9),
        ("10 before 13", &owner, 4, 10),
        ("10 before 14", &owner, 3, 10),
    ] {
        for case in asked(plan, client) {
            rows.push(row(what, case, &format!("refusal {number}")));
        }
    }
    rows.push(row("client 8 of eight", figures(&eight, 8), "1 7"));
    rows
}

/// 15, and what comes before it.
fn waiting_numbers() -> Vec<Row> {
    let two = reports_plan();
    let three = three_clients();
    let faulty = with(&two, |plan| plan.clients[1].p = 0);
    let default = |k| Case::of_plan(5, 1, k, &two);
    vec![
        row("15: the waiting number 0", wait(&two, 1, 0), "refusal 15"),
        row("15: the waiting number 256", wait(&two, 1, 256), "refusal 15"),
        row("15: the waiting number 257", wait(&two, 1, 257), "refusal 15"),
        row("15: the waiting number 65535", wait(&two, 1, 65_535), "refusal 15"),
        row("255 passes: (12 + 2040)/4", wait(&two, 1, 255), "513"),
        row("255 passes: (6 + 2040)/2", wait(&two, 2, 255), "1023"),
        row("254 passes: (12 + 2032)/4", wait(&two, 1, 254), "511"),
        row("13 before 15: client 0", wait(&two, 0, 0), "refusal 13"),
        row("13 before 15: client n + 1", wait(&two, 3, 256), "refusal 13"),
        row("14 before 15", wait(&three, 3, 0), "refusal 14"),
        row("14 before 15, with 65535", wait(&three, 3, 65_535), "refusal 14"),
        row("8 before 13 and 15", wait(&faulty, 0, 0), "refusal 8"),
        row("8 before 15", wait(&faulty, 1, 0), "refusal 8"),
        row("without a number k is not read: 0", default(0), "5"),
        row("without a number k is not read: 2", default(2), "5"),
        row("without a number k is not read: 65535", default(65_535), "5"),
    ]
}

/// 16, and what comes before it.
fn searches() -> Vec<Row> {
    let good = client(1, 64, 65_535, 1);
    let of = |f, n| search(&alike(f, n, good));
    let rate = with(&alike(9, 1, good), |plan| plan.clients[0].q = 0);
    let last = with(&alike(8, 5, good), |plan| plan.clients[4].b = 0);
    let past = with(&alike(9, 5, good), |plan| plan.clients[5].p = 1);
    let owner = with(&alike(9, 1, good), |plan| plan.owners[0] = 255);
    vec![
        row("16: f 9", of(9, 1), "refusal 16"),
        row("16: f 9, n 4", of(9, 4), "refusal 16"),
        row("16: f 64", of(64, 1), "refusal 16"),
        row("16: n 5", of(8, 5), "refusal 16"),
        row("16: n 5, f 1", of(1, 5), "refusal 16"),
        row("16: n 8", of(1, 8), "refusal 16"),
        row("16: f 9 and n 5", of(9, 5), "refusal 16"),
        row("16: f 64 and n 8", of(64, 8), "refusal 16"),
        row("f 8 and n 4 pass", of(8, 4), "0 0 0 0 1 2 3 4"),
        row("5 before 16", of(65, 5), "refusal 5"),
        row("6 before 16", of(9, 9), "refusal 6"),
        row("8 before 16", search(&rate), "refusal 8"),
        row("9 of the last client before 16", search(&last), "refusal 9"),
        row("16, a fault past n being ignored", search(&past), "refusal 16"),
        row("16, owners not being read", search(&owner), "refusal 16"),
    ]
}

/// A step that is refused, by value and in place: the record is unchanged.
fn refused(what: &str, plan: &Plan, position: u16, arrivals: &[u8], number: u8) -> Vec<Row> {
    let pending = [9, 255, 3, 4, 5, 6, 7, 8];
    let reply = format!("refusal {number} : {position} 9 255 3 4 5 6 7 8");
    let call = |op| step(op, plan, position, &pending, arrivals);
    [8, 9].map(|op| row(what, call(op), &reply)).into()
}

/// 17.
fn positions() -> Vec<Row> {
    let two = reports_plan();
    let (one, long) = (slots(1, &[0]), slots(64, &[0]));
    let mut rows = refused("17: position f", &two, 8, &[1, 1], 17);
    rows.extend(refused("17: position f + 1", &two, 9, &[1, 1], 17));
    rows.extend(refused("17: position 63", &two, 63, &[1, 1], 17));
    rows.extend(refused("17: position 64", &two, 64, &[1, 1], 17));
    rows.extend(refused("17: position 255", &two, 255, &[1, 1], 17));
    rows.extend(refused("17: position 256", &two, 256, &[1, 1], 17));
    rows.extend(refused("17: position 65535", &two, 65_535, &[1, 1], 17));
    rows.extend(refused("17: position 1 of one slot", &one, 1, &[1], 17));
    rows.extend(refused("17: position 64 of 64 slots", &long, 64, &[1], 17));
    rows
}

/// 18.
fn arrivals() -> Vec<Row> {
    let two = reports_plan();
    let one = slots(8, &[0]);
    let eight = plan(&[client(1, 8, 7, 1); 8], &[1, 2, 3, 4, 5, 6, 7, 8]);
    let mut rows = refused("18: one too few", &two, 0, &[1], 18);
    rows.extend(refused("18: one too many", &two, 0, &[1, 1, 1], 18));
    rows.extend(refused("18: one too many, none arriving", &two, 0, &[0, 0, 0], 18));
    rows.extend(refused("18: none at all", &two, 0, &[], 18));
    rows.extend(refused("18: sixteen", &two, 0, &[1; 16], 18));
    rows.extend(refused("18: none at all for one client", &one, 0, &[], 18));
    rows.extend(refused("18: two for one client", &one, 0, &[1, 0], 18));
    rows.extend(refused("18: seven for eight clients", &eight, 0, &[1; 7], 18));
    rows.extend(refused("18: nine for eight clients", &eight, 0, &[1; 9], 18));
    rows.extend(refused("18: sixteen for eight clients", &eight, 0, &[1; 16], 18));
    for op in [8, 9] {
        for k in [17, 256, 258, 65_535] {
            let case = Case::of_plan(op, 7, k, &two);
            let what = format!("18: k {k}, that is sixteen arrivals");
            rows.push(row(&what, case, "refusal 18 : 7 0 0 0 0 0 0 0 0"));
        }
    }
    rows
}

/// 17 before 18, and the plan's own refusals before both.
fn step_order() -> Vec<Row> {
    let two = reports_plan();
    let frame = with(&two, |plan| plan.f = 0);
    let late = with(&two, |plan| plan.clients[1].b = 0);
    let owner = with(&two, |plan| plan.owners[7] = 3);
    let mut rows = refused("17 before 18: too few", &two, 8, &[1], 17);
    rows.extend(refused("17 before 18: too many", &two, 65_535, &[1; 16], 17));
    rows.extend(refused("5 before 17: f 0, position 0", &frame, 0, &[1, 1], 5));
    rows.extend(refused("9 before 17", &late, 8, &[1, 1], 9));
    rows.extend(refused("9 before 18", &late, 0, &[], 9));
    rows.extend(refused("10 before 17", &owner, 8, &[1, 1], 10));
    rows.extend(refused("10 before 18", &owner, 0, &[1], 10));
    rows.extend(refused("10 before 17 and 18", &owner, 65_535, &[1], 10));
    rows
}
