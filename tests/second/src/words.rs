//! A bench case in words, for the person who looks at a difference.

use crate::case::Case;
use crate::plan::Plan;
use crate::reply::spaced;

/// The op by its number and by what it calls.
fn op_in_words(op: u8) -> String {
    let call = match op {
        1 => "read the stream",
        2 => "write the plan into a lent output of x bytes, 200 at most",
        3 => "figures of client x",
        4 => "the wait of client x for k",
        5 => "the wait of client x without a number",
        6 => "judge",
        7 => "search with f, n and the clients",
        8 => "one step by value, position x, k arrivals, 16 at most",
        9 => "one step in place, position x, k arrivals, 16 at most",
        10 => "the report's text of the stream",
        11 => "the homing listing's text of the stream",
        _ => "no call",
    };
    format!("op {op}: {call}")
}

/// The whole case, several lines with a line feed each.
pub fn in_words(case: &Case) -> String {
    let op = op_in_words(case.op());
    let (x, k) = (case.x(), case.k());
    if case.takes_stream() {
        let stream = case.stream();
        let (length, bytes) = (stream.len(), spaced(stream));
        return format!("{op}\nx {x}\nstream of {length} bytes: {bytes}\n");
    }
    let plan = case.plan();
    let pending = spaced(&case.record().pending);
    let arrivals = spaced(case.arrivals());
    format!(
        "{op}\nx {x}, k {k}, f {}, n {}\n{}pending: {pending}\narrivals handed in: {arrivals}\n",
        plan.f,
        plan.n,
        clients_and_owners(&plan)
    )
}

/// Clients 1 to n and the owners of slots 0 to f - 1, but not more than there are places.
fn clients_and_owners(plan: &Plan) -> String {
    let mut used = plan.clone();
    used.f = plan.f.min(64);
    used.n = plan.n.min(8);
    let mut text = String::new();
    for (index, client) in used.used_clients().iter().enumerate() {
        let number = index + 1;
        text += &format!(
            "client {number}: rate {}/{}, latency {}/{}\n",
            client.p, client.q, client.a, client.b
        );
    }
    text + "owners: " + &spaced(used.used_owners()) + "\n"
}
