//! Faults of a plan held as a value: document 01, refusal numbers 5, 6, 8, 9 and 10.

use crate::plan::Plan;
use crate::random::Random;

/// Puts one fault or two into about a tenth of the plans.
pub fn sometimes(random: &mut Random, plan: &mut Plan) {
    if !random.percent(11) {
        return;
    }
    let (f, n) = (plan.f, plan.n);
    one(random, plan, f, n);
    if random.percent(35) {
        one(random, plan, f, n);
    }
}

/// Puts one fault; f and n are the plan's before any.
fn one(random: &mut Random, plan: &mut Plan, f: u16, n: u16) {
    let client = &mut plan.clients[random.below(usize::from(n))];
    match random.between(1, 8) {
        1 => plan.f = random.pick(&[0, 65, 128, 255, 256, 256 + f, 65_535]),
        2 => plan.n = random.pick(&[0, 9, 16, 255, 256, 256 + n, 65_535]),
        3 => client.p = 0,
        4 => client.q = 0,
        5 => client.p = client.q.saturating_add(random.pick(&[1, 1, 255, 256, 65_535])),
        6 => client.b = 0,
        _ => {
            let last = usize::from(f) - 1;
            let some = random.below(usize::from(f));
            let slot = random.pick(&[0, some, some, last]);
            plan.owners[slot] = random.pick(&[n as u8 + 1, n as u8 + 1, 9, 128, 255]);
        }
    }
}
