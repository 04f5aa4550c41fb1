//! Document 01, "Figures": a client's slots m, its scaled latency L and its waits, each found
//! by counting slots one at a time.

use crate::plan::{Plan, Refusal};

/// A wait asked without a number is for this many requests.
pub const DEFAULT_WAITING: u16 = 1;

/// m: the client's slots in the frame.
pub fn owned(plan: &Plan, client: u8) -> i64 {
    owned_in_stretch(plan, client, 0, usize::from(plan.f))
}

/// w(s, j): the client's slots among the j slots that start at s, going round.
pub fn owned_in_stretch(plan: &Plan, client: u8, start: usize, length: usize) -> i64 {
    let f = usize::from(plan.f);
    let mut slots = 0;
    let mut slot = start;
    for _ in 0..length {
        if plan.owners[slot] == client {
            slots += 1;
        }
        slot += 1;
        if slot == f {
            slot = 0;
        }
    }
    slots
}

/// Every start s below f with every length j from 0 to 3 f: by start, then by length.
/// The document says that j below f suffices; three frames are tried all the same.
pub fn stretches(plan: &Plan) -> impl Iterator<Item = (usize, usize)> {
    let f = usize::from(plan.f);
    (0..f).flat_map(move |start| (0..=3 * f).map(move |length| (start, length)))
}

/// L: the largest m j - f w(s, j).
pub fn scaled(plan: &Plan, client: u8) -> i64 {
    let f = i64::from(plan.f);
    let m = owned(plan, client);
    let mut largest = 0;
    for (start, length) in stretches(plan) {
        let lag = m * length as i64 - f * owned_in_stretch(plan, client, start, length);
        if lag > largest {
            largest = lag;
        }
    }
    largest
}

/// (L + k f)/m rounded up: the least j with m j not below L + k f, found by counting up.
/// Only for a client that owns a slot.
pub fn wait(plan: &Plan, client: u8, k: u16) -> i64 {
    let m = owned(plan, client);
    let needed = scaled(plan, client) + i64::from(k) * i64::from(plan.f);
    let mut slots = 0;
    while m * slots < needed {
        slots += 1;
    }
    slots
}

/// The plan's own refusals, then 13 and 14; gives the client asked about.
fn asked(plan: &Plan, client: u16) -> Result<u8, Refusal> {
    plan.check()?;
    if client < 1 || client > plan.n {
        return Err(13);
    }
    let client = client as u8;
    if owned(plan, client) == 0 {
        return Err(14);
    }
    Ok(client)
}

/// The figures m and L of the client asked about.
pub fn figures_asked(plan: &Plan, client: u16) -> Result<(i64, i64), Refusal> {
    let client = asked(plan, client)?;
    Ok((owned(plan, client), scaled(plan, client)))
}

/// The wait of the client asked about, for k waiting requests.
pub fn wait_asked(plan: &Plan, client: u16, k: u16) -> Result<i64, Refusal> {
    let client = asked(plan, client)?;
    if !(1..=255).contains(&k) {
        return Err(15);
    }
    Ok(wait(plan, client, k))
}

/// The wait of the client asked about, without a number.
pub fn default_wait_asked(plan: &Plan, client: u16) -> Result<i64, Refusal> {
    wait_asked(plan, client, DEFAULT_WAITING)
}

#[cfg(test)]
mod tests {
    use super::*;

    fn slots(f: u16, slots: &[usize]) -> Plan {
        let mut plan = Plan::zero();
        plan.f = f;
        plan.n = 1;
        for slot in slots {
            plan.owners[*slot] = 1;
        }
        plan
    }

    /// P1 to P6, and the slip "stretches that don't go round the frame's end".
    #[test]
    fn examples() {
        let p5 = slots(21, &[0, 1, 2, 3, 4, 5, 6, 7, 8, 9, 13, 17]);
        let p6 = slots(64, &[0]);
        let figures = |plan: &Plan| (owned(plan, 1), scaled(plan, 1));
        assert_eq!(figures(&slots(6, &[0, 1])), (2, 8));
        assert_eq!(figures(&slots(6, &[0, 3])), (2, 4));
        assert_eq!(figures(&slots(1, &[0])), (1, 0));
        assert_eq!(wait(&slots(1, &[0]), 1, 1), 1);
        assert_eq!(figures(&slots(8, &[0, 1, 2, 5])), (4, 12));
        assert_eq!(figures(&p5), (12, 90));
        assert_eq!(wait(&p5, 1, 3), 13);
        assert_eq!(figures(&p6), (1, 63));
        assert_eq!(wait(&p6, 1, 255), 16_383);
        assert_eq!(figures(&slots(6, &[1, 2])), (2, 8));
    }

    /// f - m and m (f - m) as limits of L, over every table of one client with f up to 9.
    #[test]
    fn limits() {
        for f in 1..=9_u16 {
            for table in 1..1_usize << f {
                let own: Vec<usize> =
                    (0..usize::from(f)).filter(|slot| table >> slot & 1 == 1).collect();
                let (m, length) = (own.len() as i64, i64::from(f));
                let largest = scaled(&slots(f, &own), 1);
                assert!(length - m <= largest && largest <= m * (length - m));
            }
        }
    }
}
