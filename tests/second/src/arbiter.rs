//! Document 01, "The arbiter": one step, by its three numbered rules.

use crate::plan::{Plan, Refusal, MOST_CLIENTS};

/// The arbiter's record.
#[derive(Clone, Copy, Debug, PartialEq, Eq)]
pub struct Record {
    pub position: u16,
    /// The pending counts of clients 1 to 8; those past n are not read and are kept.
    pub pending: [u8; MOST_CLIENTS],
}

/// The result of one step: the client served, or 0, and the turned-away counts, 0 past n.
#[derive(Clone, Copy, Debug, PartialEq, Eq)]
pub struct Step {
    pub served: u8,
    pub turned_away: [u8; MOST_CLIENTS],
}

/// One step, one slot. A refused step leaves the record unchanged.
pub fn step(plan: &Plan, record: &mut Record, arrivals: &[u8]) -> Result<Step, Refusal> {
    plan.check()?;
    if record.position >= plan.f {
        return Err(17);
    }
    if arrivals.len() != usize::from(plan.n) {
        return Err(18);
    }
    // 1. Arrivals join the pending count up to 255; the rest are turned away.
    let mut turned_away = [0; MOST_CLIENTS];
    for (index, count) in arrivals.iter().enumerate() {
        for _ in 0..*count {
            if record.pending[index] < 255 {
                record.pending[index] += 1;
            } else {
                turned_away[index] += 1;
            }
        }
    }
    // 2. The slot's owner, if it has one with a request pending, is served once.
    let mut served = 0;
    let owner = plan.owners[usize::from(record.position)];
    if owner > 0 && record.pending[usize::from(owner) - 1] > 0 {
        record.pending[usize::from(owner) - 1] -= 1;
        served = owner;
    }
    // 3. The position goes on by one, from f - 1 to 0.
    record.position += 1;
    if record.position == plan.f {
        record.position = 0;
    }
    Ok(Step { served, turned_away })
}

#[cfg(test)]
mod tests {
    use super::*;
    use crate::plan::Client;

    /// Example 13.
    #[test]
    fn example() {
        let mut plan = Plan::zero();
        plan.f = 8;
        plan.n = 2;
        plan.clients = [Client { p: 1, q: 4, a: 3, b: 1 }; 8];
        plan.owners[..8].copy_from_slice(&[1, 1, 1, 2, 0, 1, 0, 2]);
        let mut record = Record { position: 0, pending: [255, 0, 7, 7, 7, 7, 7, 7] };
        let result = step(&plan, &mut record, &[1, 0]).expect("a step that is not refused");
        assert_eq!(result.served, 1);
        assert_eq!(result.turned_away, [1, 0, 0, 0, 0, 0, 0, 0]);
        assert_eq!(record.position, 1);
        assert_eq!(record.pending, [254, 0, 7, 7, 7, 7, 7, 7]);
    }
}
