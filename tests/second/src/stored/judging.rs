//! Stored cases: document 01, "Judging and searching", at equality, with large numbers, and
//! where one rule comes before another.

use super::build::*;
use crate::plan::Plan;

pub fn rows() -> Vec<Row> {
    let mut rows = rates();
    rows.extend(latencies());
    rows.extend(order());
    rows.extend(searches());
    rows
}

fn p4() -> Plan {
    slots(8, &[0, 1, 2, 5])
}

/// Enough rate: m q at least p f.
fn rates() -> Vec<Row> {
    let third = |p, q| judge(&requiring(&slots(3, &[0]), client(p, q, 2, 1)));
    let all = |p, q| judge(&requiring(&slots(1, &[0]), client(p, q, 0, 1)));
    let none = |a, b| judge(&requiring(&slots(8, &[]), client(1, 65_535, a, b)));
    vec![
        row("rate 1/3 of one slot in three", third(1, 3), "accepted"),
        row("rate 21845/65535, the same", third(21_845, 65_535), "accepted"),
        row("rate 21846/65535, more", third(21_846, 65_535), "1 rate 0 0"),
        row("rate 21844/65531, more", third(21_844, 65_531), "1 rate 0 0"),
        row("rate 1/65535, far less", third(1, 65_535), "accepted"),
        row("rate 65535/65535 of all slots", all(65_535, 65_535), "accepted"),
        row("rate 1/1 of one slot in three", third(1, 1), "1 rate 0 0"),
        row("a client without slots lacks rate", none(65_535, 1), "1 rate 0 0"),
        row("a client without slots lacks rate, latency 0", none(0, 1), "1 rate 0 0"),
    ]
}

/// In time: L b not above a m. The first failing stretch need not be one that reaches L.
fn latencies() -> Vec<Row> {
    let p4 = |a, b| judge(&requiring(&p4(), client(1, 2, a, b)));
    let half: Vec<usize> = (0..32).collect();
    let half = |a, b| judge(&requiring(&slots(64, &half), client(1, 2, a, b)));
    vec![
        row("latency 65535/21845, which is 3", p4(65_535, 21_845), "accepted"),
        row("latency 65534/21845, less", p4(65_534, 21_845), "1 late 3 5"),
        row("latency 65535/21846, less", p4(65_535, 21_846), "1 late 3 5"),
        row("latency 12/4, not made smaller", p4(12, 4), "accepted"),
        row("latency 0: a stretch before the one that reaches L", p4(0, 1), "1 late 1 7"),
        row("latency 0/65535", p4(0, 65_535), "1 late 1 7"),
        row("latency 1/1: the first stretch above 4", p4(1, 1), "1 late 2 6"),
        row("L 1024, latency 32/1", half(32, 1), "accepted"),
        row("L 1024, latency 65535/65535", half(65_535, 65_535), "1 late 2 62"),
        row("L 1024, latency 65535/2048, below 32", half(65_535, 2_048), "1 late 32 32"),
        row("L 1024, latency 65535/2047, above 32", half(65_535, 2_047), "accepted"),
    ]
}

/// `rate` before `late`, and the first client that fails.
fn order() -> Vec<Row> {
    let (ok, late) = (client(1, 4, 3, 1), client(1, 4, 2, 1));
    let (slow, both) = (client(1, 2, 3, 1), client(1, 2, 2, 1));
    let two = |first, second| judge(&plan(&[first, second], &[1, 2, 0, 0]));
    let eight = plan(&[ok; 8], &[1, 2, 3, 4, 5, 6, 7, 8]);
    let eight = with(&eight, |plan| plan.clients = [client(1, 8, 7, 1); 8]);
    let last = with(&eight, |plan| plan.clients[7] = client(1, 8, 6, 1));
    vec![
        row("both ok", two(ok, ok), "accepted"),
        row("lacks rate and is late", two(both, ok), "1 rate 0 0"),
        row("late before another's rate", two(late, slow), "1 late 1 3"),
        row("rate before another's late", two(slow, late), "1 rate 0 0"),
        row("the second lacks rate", two(ok, slow), "2 rate 0 0"),
        row("the second is late", two(ok, late), "2 late 2 3"),
        row("eight clients, all ok", judge(&eight), "accepted"),
        row("eight clients, the last late", judge(&last), "8 late 0 7"),
    ]
}

/// The search: fewest owned slots first, dictionary order second.
fn searches() -> Vec<Row> {
    let two = |f, first, second| search(&plan(&[first, second], &vec![0; f]));
    let any = client(1, 65_535, 65_535, 1);
    let quarter = alike(8, 4, client(1, 4, 3, 1));
    let tight = alike(8, 4, client(1, 4, 2, 1));
    // The least accepted table is 0 1 1 2 1 1 2, with one owned slot more.
    let seven = two(7, client(3, 7, 2, 1), client(1, 7, 3, 1));
    // The least accepted table is 0 0 1 1 2 1 1 2, with one owned slot more.
    let eight = two(8, client(3, 8, 3, 1), client(1, 8, 4, 1));
    // The least accepted table is 0 1 2 0 1 2 1 2, with one owned slot more.
    let other = two(8, client(1, 8, 3, 1), client(3, 8, 7, 3));
    vec![
        row("one slot, one client", search(&alike(1, 1, client(1, 1, 0, 1))), "1"),
        row("one slot, two clients", search(&alike(1, 2, any)), "none"),
        row("hardly anything required", search(&alike(8, 1, any)), "0 0 0 0 0 0 0 1"),
        row("hardly anything, four clients", search(&alike(8, 4, any)), "0 0 0 0 1 2 3 4"),
        row("eight slots, four clients", search(&quarter), "1 2 3 4 1 2 3 4"),
        row("eight slots, four clients, none", search(&tight), "none"),
        row("fewest before dictionary order, f 7", seven, "0 1 2 0 1 2 1"),
        row("fewest before dictionary order, f 8", eight, "0 0 1 2 0 1 2 1"),
        row("fewest before dictionary order, f 8 again", other, "0 1 2 0 2 1 0 2"),
    ]
}
