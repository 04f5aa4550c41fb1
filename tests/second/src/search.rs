//! Document 01, "Judging and searching": the search, by going through every table.

use crate::judge::{enough_rate, first_late_stretch};
use crate::plan::{Plan, Refusal};

/// The accepted table with the fewest owned slots, the least in dictionary order among those;
/// none when no table is accepted. The owners in the plan handed in are not read.
pub fn search(plan: &Plan) -> Result<Option<Vec<u8>>, Refusal> {
    plan.check_requirements()?;
    if plan.f > 8 || plan.n > 4 {
        return Err(16);
    }
    let mut best = None;
    let mut fewest = usize::from(plan.f) + 1;
    let mut table = vec![0; usize::from(plan.f)];
    loop {
        let owned = table.iter().filter(|owner| **owner > 0).count();
        if owned < fewest && accepted(plan, &table) {
            fewest = owned;
            best = Some(table.clone());
        }
        if !next_table(&mut table, plan.n as u8) {
            return Ok(best);
        }
    }
}

/// Goes on to the next table in dictionary order, slot 0 first, idle lowest; false after the
/// last one.
fn next_table(table: &mut [u8], n: u8) -> bool {
    for owner in table.iter_mut().rev() {
        if *owner < n {
            *owner += 1;
            return true;
        }
        *owner = 0;
    }
    false
}

/// Whether all clients are ok with this table: the rates of all first, as they cost little.
fn accepted(requirements: &Plan, table: &[u8]) -> bool {
    let mut plan = requirements.clone();
    plan.owners[..table.len()].copy_from_slice(table);
    let clients = 1..=plan.n as u8;
    clients.clone().all(|client| enough_rate(&plan, client))
        && clients.clone().all(|client| first_late_stretch(&plan, client).is_none())
}

#[cfg(test)]
mod tests {
    use super::*;
    use crate::plan::Client;

    fn found(f: u16, n: u16, client: Client) -> Option<Vec<u8>> {
        let mut plan = Plan::zero();
        plan.f = f;
        plan.n = n;
        plan.clients = [client; 8];
        plan.owners = [255; 64];
        search(&plan).expect("a plan that is not refused")
    }

    fn client(p: u16, q: u16, a: u16, b: u16) -> Client {
        Client { p, q, a, b }
    }

    /// P9, P10, 11 and 12.
    #[test]
    fn examples() {
        assert_eq!(found(3, 2, client(1, 3, 2, 1)), Some(vec![0, 1, 2]));
        assert_eq!(found(3, 2, client(1, 3, 3, 2)), None);
        assert_eq!(found(3, 2, client(1, 2, 2, 1)), None);
        assert_eq!(found(4, 1, client(1, 2, 1, 1)), Some(vec![0, 1, 0, 1]));
    }

    /// Every table once, in dictionary order.
    #[test]
    fn tables() {
        let mut table = vec![0, 0, 0];
        let mut seen = vec![table.clone()];
        while next_table(&mut table, 2) {
            seen.push(table.clone());
        }
        assert_eq!(seen.len(), 27);
        assert!(seen.windows(2).all(|pair| pair[0] < pair[1]));
    }
}
