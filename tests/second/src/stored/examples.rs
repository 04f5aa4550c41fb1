//! Stored cases: document 01, "Bench examples", "Programs" and "Plausible slips", and the
//! schedules of source 000.

use super::build::*;
use crate::case::Case;
use crate::plan::Plan;
use crate::stream::stream_of;

pub fn rows() -> Vec<Row> {
    let mut rows = figures_examples();
    rows.extend(judging_examples());
    rows.extend(search_examples());
    rows.extend(step_examples());
    rows.extend(slips());
    rows.extend(source_figures());
    rows.extend(reports_plan_rows());
    rows.extend(listings());
    rows.extend(no_ops());
    rows
}

fn p4() -> Plan {
    slots(8, &[0, 1, 2, 5])
}

/// "Bench examples" P1 to P6.
fn figures_examples() -> Vec<Row> {
    let (p1, p2, p3) = (slots(6, &[0, 1]), slots(6, &[0, 3]), slots(1, &[0]));
    let p5 = slots(21, &[0, 1, 2, 3, 4, 5, 6, 7, 8, 9, 13, 17]);
    let p6 = slots(64, &[0]);
    vec![
        row("P1: f 6, slots 0, 1: m 2, L 8", figures(&p1, 1), "2 8"),
        row("P1: the wait for 1 is (8 + 6)/2", wait(&p1, 1, 1), "7"),
        row("P2: f 6, slots 0, 3: m 2, L 4", figures(&p2, 1), "2 4"),
        row("P2: the wait for 1 is (4 + 6)/2", wait(&p2, 1, 1), "5"),
        row("P3: f 1, slot 0: L 0", figures(&p3, 1), "1 0"),
        row("P3: the wait for 1 is 1", wait(&p3, 1, 1), "1"),
        row("P3: the wait without a number is 1", default_wait(&p3, 1), "1"),
        row("P4: f 8, slots 0, 1, 2, 5: L 12", figures(&p4(), 1), "4 12"),
        row("P4: the wait for 1 is (12 + 8)/4", wait(&p4(), 1, 1), "5"),
        row("P4: the wait for 2 is (12 + 16)/4", wait(&p4(), 1, 2), "7"),
        row("P5: f 21, slots 0 to 9, 13, 17: L 90", figures(&p5, 1), "12 90"),
        row("P5: the wait for 3 is 153/12 rounded up", wait(&p5, 1, 3), "13"),
        row("P6: f 64, slot 0: L 63", figures(&p6, 1), "1 63"),
        row("P6: the wait for 255 is 16,383", wait(&p6, 1, 255), "16383"),
    ]
}

/// "Bench examples" P7 and P8.
fn judging_examples() -> Vec<Row> {
    let p7 = requiring(&p4(), client(1, 2, 3, 1));
    let p8 = requiring(&p4(), client(1, 2, 299, 100));
    vec![
        row("P7: P4, rate 1/2, latency 3/1: ok", judge(&p7), "accepted"),
        row("P8: P4, rate 1/2, latency 299/100: late", judge(&p8), "1 late 3 5"),
    ]
}

/// "Bench examples" P9 to 12.
fn search_examples() -> Vec<Row> {
    let p9 = alike(3, 2, client(1, 3, 2, 1));
    let p10 = alike(3, 2, client(1, 3, 3, 2));
    let p11 = alike(3, 2, client(1, 2, 2, 1));
    let p12 = alike(4, 1, client(1, 2, 1, 1));
    vec![
        row("P9: search f 3, two clients, 1/3, latency 2/1", search(&p9), "0 1 2"),
        row("P10: search f 3, two clients, 1/3, latency 3/2", search(&p10), "none"),
        row("11: search f 3, two clients, 1/2, latency 2/1", search(&p11), "none"),
        row("12: search f 4, one client, 1/2, latency 1/1", search(&p12), "0 1 0 1"),
    ]
}

/// "Bench examples" 13, by value and in place.
fn step_examples() -> Vec<Row> {
    let reply = "1 1 0 0 0 0 0 0 0 : 1 254 0 0 0 0 0 0 0";
    let call = |op| step(op, &reports_plan(), 0, &[255, 0], &[1, 0]);
    vec![
        row("13: client 1 served, 1 turned away, pending 254", call(8), reply),
        row("13, in place", call(9), reply),
    ]
}

/// "Plausible slips", each where an input shows it.
fn slips() -> Vec<Row> {
    let gap = requiring(&p4(), client(1, 2, 2, 1));
    let p8 = requiring(&p4(), client(1, 2, 299, 100));
    let half = requiring(&p4(), client(1, 2, 5, 2));
    let round = slots(6, &[1, 2]);
    let plan = reports_plan();
    let full = |op| step(op, &plan, 3, &[255, 3], &[4, 2]);
    let unused = |op| step(op, &plan, 3, &[5, 0], &[0, 0]);
    let others = |op| step(op, &plan, 0, &[0, 5], &[0, 1]);
    let turned = "2 4 0 0 0 0 0 0 0 : 4 255 4 0 0 0 0 0 0";
    let passes = "0 0 0 0 0 0 0 0 0 : 4 5 0 0 0 0 0 0 0";
    let passed = "0 0 0 0 0 0 0 0 0 : 1 0 6 0 0 0 0 0 0";
    vec![
        row("the longest gap as latency: P4 gives L 12", figures(&p4(), 1), "4 12"),
        row("the longest gap as latency: 2/1 is late", judge(&gap), "1 late 3 5"),
        row("stretches go round: f 6, slots 1 and 2", figures(&round, 1), "2 8"),
        row("a/b rounded: P8 is late", judge(&p8), "1 late 3 5"),
        row("a/b rounded: 5/2 is late", judge(&half), "1 late 3 5"),
        row("a full queue stops no other client", full(8), turned),
        row("a full queue stops no other client, in place", full(9), turned),
        row("an unused slot is not handed on", unused(8), passes),
        row("an unused slot is not handed on, in place", unused(9), passes),
        row("client 1's unused slot is not handed to client 2", others(8), passed),
        row("client 1's unused slot is not handed on, in place", others(9), passed),
    ]
}

/// Source 000: Figure 2 (f 6, two slots, consecutive and equidistant), Figure 3 (f 10, five
/// slots: longest gap 3, latency 4) and the latency of the case study, 574/46.
fn source_figures() -> Vec<Row> {
    let consecutive = slots(6, &[0, 1]);
    let equidistant = slots(6, &[0, 3]);
    let figure_3 = slots(10, &[3, 6, 7, 8, 9]);
    let required = |plan, a, b| judge(&requiring(plan, client(2, 6, a, b)));
    let half = |a, b| judge(&requiring(&figure_3, client(5, 10, a, b)));
    let study = |f| judge(&requiring(&slots(f, &[0]), client(1, f, 574, 46)));
    vec![
        row("Figure 2a: latency 4, that is 8/2", figures(&consecutive, 1), "2 8"),
        row("Figure 2a: rate 2/6, latency 4/1", required(&consecutive, 4, 1), "accepted"),
        row("Figure 2a: below latency 4", required(&consecutive, 399, 100), "1 late 2 4"),
        row("Figure 2b: latency 2, that is 4/2", figures(&equidistant, 1), "2 4"),
        row("Figure 2b: rate 2/6, latency 2/1", required(&equidistant, 2, 1), "accepted"),
        row("Figure 2b: below latency 2", required(&equidistant, 199, 100), "1 late 1 2"),
        row("Figure 3: latency 4, that is 20/5", figures(&figure_3, 1), "5 20"),
        row("Figure 3: rate 5/10, latency 4/1", half(4, 1), "accepted"),
        row("Figure 3: the longest gap 3 is no latency", half(3, 1), "1 late 0 6"),
        row("case study, 574/46: latency 12 is in time", study(13), "accepted"),
        row("case study, 574/46: latency 13 is late", study(14), "1 late 1 13"),
    ]
}

/// "Programs": the report's plan through every op.
fn reports_plan_rows() -> Vec<Row> {
    let plan = reports_plan();
    let stream = stream_of(&plan);
    let read_back = "plan 8 2 1 2 2 1 1 4 3 1 1 1 1 2 0 1 0 2";
    let written = "ok 1 8 2 2 1 0 1 0 2 0 2 0 1 2 2 0 1 0 4 0 3 0 1 3 1 1 1 2 0 1 0 2 9";
    let text = "client slots scaled wait verdict\n1 4 12 5 late\n2 2 6 7 ok\nrefused 1 late";
    let best = "0 1 1 2 0 1 1 2";
    vec![
        row("the report's text", report(&stream), text),
        row("the homing listing's text of the report's plan", homing(&stream), "1 5\n2 7"),
        row("the report's plan read", read(&stream), read_back),
        row("the report's plan written", write(&plan, 33), written),
        row("the report's client 1: m 4, L 12", figures(&plan, 1), "4 12"),
        row("the report's client 2: m 2, L 6", figures(&plan, 2), "2 6"),
        row("the report's client 1: wait for 1", wait(&plan, 1, 1), "5"),
        row("the report's client 2: wait for 1", wait(&plan, 2, 1), "7"),
        row("the report's client 1: default wait", default_wait(&plan, 1), "5"),
        row("the report's client 2: default wait", default_wait(&plan, 2), "7"),
        row("the report's plan judged", judge(&plan), "1 late 3 5"),
        row("the report's requirements searched", search(&plan), best),
    ]
}

/// "Programs": clients without slots, accepted reports, the first client that is not ok, and
/// refused reads.
fn listings() -> Vec<Row> {
    let head = "client slots scaled wait verdict\n";
    let good = client(1, 2, 1, 1);
    let last_without = stream_of(&plan(&[good, good], &[1, 0]));
    let first_without = stream_of(&plan(&[good, good], &[2, 0]));
    let p7 = stream_of(&requiring(&p4(), client(1, 2, 3, 1)));
    let p3 = stream_of(&requiring(&slots(1, &[0]), client(1, 1, 0, 1)));
    let three = [client(1, 4, 3, 1), client(1, 2, 9, 1), client(1, 4, 2, 1)];
    let three = stream_of(&plan(&three, &[1, 2, 3, 0]));
    let rates = "1 1 1 3 ok\n2 0 - - rate\nrefused 2 rate";
    let rates_first = "1 0 - - rate\n2 1 1 3 ok\nrefused 1 rate";
    let second = "1 1 3 7 ok\n2 1 3 7 rate\n3 1 3 7 late\nrefused 2 rate";
    let told = |text: &str| format!("{head}{text}");
    let p7_text = told("1 4 12 5 ok\naccepted");
    vec![
        row("report: client 2 without slots", report(&last_without), &told(rates)),
        row("homing: client 2 without slots", homing(&last_without), "1 3\n2 -"),
        row("report: client 1 without slots", report(&first_without), &told(rates_first)),
        row("homing: client 1 without slots", homing(&first_without), "1 -\n2 3"),
        row("report: P7 is accepted", report(&p7), &p7_text),
        row("homing: P7", homing(&p7), "1 5"),
        row("report: L is 0", report(&p3), &told("1 1 0 1 ok\naccepted")),
        row("homing: L is 0", homing(&p3), "1 1"),
        row("report: the first client that is not ok", report(&three), &told(second)),
        row("homing: three clients", homing(&three), "1 7\n2 7\n3 7"),
        row("report: a refused read", report(&[1, 65, 2]), "refusal 5 at 0"),
        row("homing: a refused read", homing(&[1, 0, 2]), "refusal 5 at 0"),
        row("report: nothing to read", report(&[]), "refusal 1 at 0"),
        row("homing: nothing to read", homing(&[]), "refusal 1 at 0"),
    ]
}

/// The bench cases' own rule: any other op gets `op?`.
fn no_ops() -> Vec<Row> {
    let call = |op| Case::of_plan(op, 1, 2, &reports_plan());
    let rows = [0, 12, 13, 127, 128, 254, 255].map(|op| row("no op", call(op), "op?"));
    Vec::from(rows)
}
