//! Random plans without faults: document 01, "Plan".

use crate::make::requirements;
use crate::plan::{Plan, MOST_CLIENTS, MOST_SLOTS};
use crate::random::Random;

/// A plan with any f and n and with any requirements.
pub fn plan(random: &mut Random) -> Plan {
    let f = match random.between(1, 100) {
        1..=45 => random.between(1, 12),
        46..=70 => random.pick(&[1, 2, 7, 8, 9, 15, 16, 17, 31, 63, 64]),
        71..=94 => random.between(2, 24),
        _ => random.between(1, 64),
    };
    let mut n = random.pick(&[1, 1, 1, 2, 2, 2, 3, 3, 3, 4, 4, 5, 6, 7, 8, 8]);
    if n > f && random.percent(60) {
        n = random.between(1, f);
    }
    plan_of(random, f, n)
}

/// A plan with this f and this n and with any requirements.
pub fn plan_of(random: &mut Random, f: u16, n: u16) -> Plan {
    let mut plan = Plan::zero();
    plan.f = f;
    plan.n = n;
    for index in 0..usize::from(n) {
        plan.clients[index] = requirements::any(random);
    }
    match random.between(1, 5) {
        1 => scattered(random, &mut plan),
        2 => half_idle(random, &mut plan),
        3 => bunched(random, &mut plan),
        4 => two_bunches(random, &mut plan),
        _ => in_turn(random, &mut plan),
    }
    if random.percent(90) {
        give_each_a_slot(random, &mut plan);
    }
    if random.percent(8) {
        let client = random.between(1, n) as u8;
        take_slots(&mut plan, client);
    }
    plan
}

/// Each slot anybody's or idle.
fn scattered(random: &mut Random, plan: &mut Plan) {
    for slot in 0..usize::from(plan.f) {
        plan.owners[slot] = random.between(0, plan.n) as u8;
    }
}

/// About half the slots idle, the others anybody's.
fn half_idle(random: &mut Random, plan: &mut Plan) {
    for slot in 0..usize::from(plan.f) {
        let owner = random.between(1, plan.n) as u8;
        plan.owners[slot] = if random.percent(50) { owner } else { 0 };
    }
}

/// Consecutive slots for one after another, going round from some slot.
fn bunched(random: &mut Random, plan: &mut Plan) {
    let f = usize::from(plan.f);
    let first = random.below(f);
    let mut done = 0;
    while done < f {
        let owner = random.between(0, plan.n) as u8;
        let longest = (f / 2).max(1).min(f - done);
        let length = 1 + random.below(longest);
        put_bunch(plan, owner, first + done, length);
        done += length;
    }
}

/// Two bunches of one client in a table of the others.
fn two_bunches(random: &mut Random, plan: &mut Plan) {
    let f = usize::from(plan.f);
    if random.percent(50) {
        scattered(random, plan);
    }
    let client = random.between(1, plan.n) as u8;
    take_slots(plan, client);
    for _ in 0..2 {
        let first = random.below(f);
        let length = 1 + random.below((f / 3).max(1));
        put_bunch(plan, client, first, length);
    }
}

/// The clients in turn, with idle slots or without, and a slot or two changed.
fn in_turn(random: &mut Random, plan: &mut Plan) {
    let f = usize::from(plan.f);
    let least = random.between(0, 1);
    let turn = usize::from(plan.n - least + 1);
    for slot in 0..f {
        plan.owners[slot] = least as u8 + (slot % turn) as u8;
    }
    for _ in 0..random.between(0, 2) {
        plan.owners[random.below(f)] = random.between(0, plan.n) as u8;
    }
}

/// Consecutive slots for one owner, going round.
fn put_bunch(plan: &mut Plan, owner: u8, first: usize, length: usize) {
    for place in first..first + length {
        plan.owners[place % usize::from(plan.f)] = owner;
    }
}

/// Leaves a client without slots.
fn take_slots(plan: &mut Plan, client: u8) {
    for owner in plan.owners.iter_mut() {
        if *owner == client {
            *owner = 0;
        }
    }
}

/// Gives each client without slots one that is idle or whose owner has others, if there is one.
fn give_each_a_slot(random: &mut Random, plan: &mut Plan) {
    for client in 1..=plan.n as u8 {
        let owners = plan.used_owners();
        if owners.contains(&client) {
            continue;
        }
        let count = |owner: u8| owners.iter().filter(|other| **other == owner).count();
        let spare: Vec<usize> = (0..owners.len())
            .filter(|slot| owners[*slot] == 0 || count(owners[*slot]) > 1)
            .collect();
        if !spare.is_empty() {
            plan.owners[random.pick(&spare)] = client;
        }
    }
}

/// Gives every idle slot to some client.
pub fn fill_idle(random: &mut Random, plan: &mut Plan) {
    for slot in 0..usize::from(plan.f) {
        if plan.owners[slot] == 0 {
            plan.owners[slot] = random.between(1, plan.n) as u8;
        }
    }
}

/// In half the plans, puts anything past f and past n, where it is to be ignored.
pub fn junk_past(random: &mut Random, plan: &mut Plan) {
    if random.percent(50) {
        return;
    }
    for slot in usize::from(plan.f).min(MOST_SLOTS)..MOST_SLOTS {
        let any = random.byte();
        plan.owners[slot] = random.pick(&[0, 1, 8, 255, any]);
    }
    for index in usize::from(plan.n).min(MOST_CLIENTS)..MOST_CLIENTS {
        plan.clients[index] = requirements::junk(random);
    }
}
