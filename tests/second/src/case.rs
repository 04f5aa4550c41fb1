//! The bench cases: 256 bytes each, with an op and all that the op needs.

use crate::arbiter::Record;
use crate::plan::{Client, Plan, MOST_CLIENTS, MOST_SLOTS};

/// The length of a case in bytes.
pub const CASE_LENGTH: usize = 256;

const X: usize = 1;
const K: usize = 3;
const F: usize = 5;
const N: usize = 7;
const CLIENTS: usize = 9;
const OWNERS: usize = 73;
const PENDING: usize = 137;
const ARRIVALS: usize = 145;
const MOST_ARRIVALS: usize = 16;
const STREAM: usize = 5;
/// The most bytes that a case's stream may have.
pub const MOST_STREAM: usize = 251;

/// One case.
#[derive(Clone, Debug, PartialEq, Eq)]
pub struct Case {
    pub bytes: [u8; CASE_LENGTH],
}

/// The cases in an input; a last piece shorter than a case is ignored.
pub fn cases_in(input: &[u8]) -> Vec<Case> {
    let pieces = input.chunks_exact(CASE_LENGTH);
    pieces.map(Case::from_piece).collect()
}

/// What a case holds.
impl Case {
    fn from_piece(piece: &[u8]) -> Case {
        let mut bytes = [0; CASE_LENGTH];
        bytes.copy_from_slice(piece);
        Case { bytes }
    }

    /// The two-byte number at a place, the high byte first.
    fn number(&self, place: usize) -> u16 {
        u16::from(self.bytes[place]) * 256 + u16::from(self.bytes[place + 1])
    }

    pub fn op(&self) -> u8 {
        self.bytes[0]
    }

    pub fn x(&self) -> u16 {
        self.number(X)
    }

    pub fn k(&self) -> u16 {
        self.number(K)
    }

    /// The plan held as a value.
    pub fn plan(&self) -> Plan {
        let mut plan = Plan::zero();
        plan.f = self.number(F);
        plan.n = self.number(N);
        for (index, client) in plan.clients.iter_mut().enumerate() {
            let place = CLIENTS + 8 * index;
            *client = Client {
                p: self.number(place),
                q: self.number(place + 2),
                a: self.number(place + 4),
                b: self.number(place + 6),
            };
        }
        plan.owners.copy_from_slice(&self.bytes[OWNERS..OWNERS + MOST_SLOTS]);
        plan
    }

    /// The arbiter's record: position x and the pending counts.
    pub fn record(&self) -> Record {
        let mut pending = [0; MOST_CLIENTS];
        pending.copy_from_slice(&self.bytes[PENDING..PENDING + MOST_CLIENTS]);
        Record { position: self.x(), pending }
    }

    /// The arrivals handed in: the first k of them, 16 at most.
    pub fn arrivals(&self) -> &[u8] {
        let count = usize::from(self.k()).min(MOST_ARRIVALS);
        &self.bytes[ARRIVALS..ARRIVALS + count]
    }

    /// Whether the op is one that takes a stream.
    pub fn takes_stream(&self) -> bool {
        matches!(self.op(), 1 | 10 | 11)
    }

    /// The stream: the first x bytes from byte 5, 251 at most.
    pub fn stream(&self) -> &[u8] {
        let length = usize::from(self.x()).min(MOST_STREAM);
        &self.bytes[STREAM..STREAM + length]
    }
}

/// How a case is put together.
impl Case {
    /// A case with an op, x and k, and zeros.
    pub fn new(op: u8, x: u16, k: u16) -> Case {
        let mut case = Case { bytes: [0; CASE_LENGTH] };
        case.bytes[0] = op;
        case.put_x(x);
        case.put_k(k);
        case
    }

    /// A case with a stream, which must not be longer than 251 bytes.
    pub fn of_stream(op: u8, stream: &[u8]) -> Case {
        let mut case = Case::new(op, stream.len() as u16, 0);
        case.bytes[STREAM..STREAM + stream.len()].copy_from_slice(stream);
        case
    }

    /// A case with a plan held as a value, places past f and n included.
    pub fn of_plan(op: u8, x: u16, k: u16, plan: &Plan) -> Case {
        let mut case = Case::new(op, x, k);
        case.put(F, plan.f);
        case.put(N, plan.n);
        for (index, client) in plan.clients.iter().enumerate() {
            let place = CLIENTS + 8 * index;
            case.put(place, client.p);
            case.put(place + 2, client.q);
            case.put(place + 4, client.a);
            case.put(place + 6, client.b);
        }
        case.bytes[OWNERS..OWNERS + MOST_SLOTS].copy_from_slice(&plan.owners);
        case
    }

    pub fn put_x(&mut self, x: u16) {
        self.put(X, x);
    }

    pub fn put_k(&mut self, k: u16) {
        self.put(K, k);
    }

    /// Puts the pending counts of the first clients.
    pub fn put_pending(&mut self, pending: &[u8]) {
        self.bytes[PENDING..PENDING + pending.len()].copy_from_slice(pending);
    }

    /// Puts the first arrivals, without changing k.
    pub fn put_arrivals(&mut self, arrivals: &[u8]) {
        self.bytes[ARRIVALS..ARRIVALS + arrivals.len()].copy_from_slice(arrivals);
    }

    fn put(&mut self, place: usize, number: u16) {
        self.bytes[place] = (number / 256) as u8;
        self.bytes[place + 1] = (number % 256) as u8;
    }
}
