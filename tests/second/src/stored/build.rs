//! What the tables of stored cases are written with.

use crate::case::Case;
use crate::plan::{Client, Plan};

/// A fixed case: what it shows, the case, and the reply (without its last line feed) if stated.
pub struct Row {
    pub what: String,
    pub case: Case,
    pub reply: Option<String>,
}

/// A row with its reply.
pub fn row(what: &str, case: Case, reply: &str) -> Row {
    Row { what: what.to_string(), case, reply: Some(reply.to_string()) }
}

/// A row whose reply follows from the rules but is not written down beside it.
pub fn unstated(what: &str, case: Case) -> Row {
    Row { what: what.to_string(), case, reply: None }
}

/// The requirements p/q and a/b.
pub fn client(p: u16, q: u16, a: u16, b: u16) -> Client {
    Client { p, q, a, b }
}

/// A plan of these clients and these owners.
pub fn plan(clients: &[Client], owners: &[u8]) -> Plan {
    let mut plan = Plan::zero();
    plan.f = owners.len() as u16;
    plan.n = clients.len() as u16;
    plan.clients[..clients.len()].copy_from_slice(clients);
    plan.owners[..owners.len()].copy_from_slice(owners);
    plan
}

/// A plan of one client that owns these slots and requires next to nothing.
pub fn slots(f: u16, owned: &[usize]) -> Plan {
    let mut owners = vec![0; usize::from(f)];
    for slot in owned {
        owners[*slot] = 1;
    }
    plan(&[client(1, 64, 65_535, 1)], &owners)
}

/// The plan with a change.
pub fn with(plan: &Plan, change: impl FnOnce(&mut Plan)) -> Plan {
    let mut changed = plan.clone();
    change(&mut changed);
    changed
}

/// The plan with other requirements of client 1.
pub fn requiring(plan: &Plan, required: Client) -> Plan {
    with(plan, |plan| plan.clients[0] = required)
}

/// The plan in "Programs": the report's plan.
pub fn reports_plan() -> Plan {
    let clients = [client(1, 2, 2, 1), client(1, 4, 3, 1)];
    plan(&clients, &[1, 1, 1, 2, 0, 1, 0, 2])
}

/// A search's plan: any f and n, and every client up to n with the same requirements.
pub fn alike(f: u16, n: u16, required: Client) -> Plan {
    let mut plan = Plan::zero();
    plan.f = f;
    plan.n = n;
    for place in plan.clients.iter_mut().take(usize::from(n)) {
        *place = required;
    }
    plan
}

/// Op 1.
pub fn read(stream: &[u8]) -> Case {
    Case::of_stream(1, stream)
}

/// Op 2, with the length of the lent output.
pub fn write(plan: &Plan, length: u16) -> Case {
    Case::of_plan(2, length, 0, plan)
}

/// Op 3.
pub fn figures(plan: &Plan, client: u16) -> Case {
    Case::of_plan(3, client, 0, plan)
}

/// Op 4.
pub fn wait(plan: &Plan, client: u16, k: u16) -> Case {
    Case::of_plan(4, client, k, plan)
}

/// Op 5.
pub fn default_wait(plan: &Plan, client: u16) -> Case {
    Case::of_plan(5, client, 0, plan)
}

/// Op 6.
pub fn judge(plan: &Plan) -> Case {
    Case::of_plan(6, 0, 0, plan)
}

/// Op 7.
pub fn search(plan: &Plan) -> Case {
    Case::of_plan(7, 0, 0, plan)
}

/// Ops 8 and 9; all the arrivals, 16 at most, are handed in.
pub fn step(op: u8, plan: &Plan, position: u16, pending: &[u8], arrivals: &[u8]) -> Case {
    let mut case = Case::of_plan(op, position, arrivals.len() as u16, plan);
    case.put_pending(pending);
    case.put_arrivals(arrivals);
    case
}

/// Op 10.
pub fn report(stream: &[u8]) -> Case {
    Case::of_stream(10, stream)
}

/// Op 11.
pub fn homing(stream: &[u8]) -> Case {
    Case::of_stream(11, stream)
}
