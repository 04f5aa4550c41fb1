//! Random requirements, often exactly at a table's own figures or just beside them.

use crate::figures::{owned, scaled};
use crate::plan::{Client, Plan};
use crate::random::Random;

/// What a client's requirements are to lead to.
#[derive(Clone, Copy, PartialEq)]
enum Aim {
    Met,
    LacksRate,
    Late,
}

/// Requirements without faults, of any size.
pub fn any(random: &mut Random) -> Client {
    let most = random.pick(&[2, 4, 10, 300, 65_535]);
    let most_b = random.pick(&[1, 1, 2, most]);
    let q = random.between(1, most);
    Client { p: random.between(1, q), q, a: random.between(0, most), b: random.between(1, most_b) }
}

/// Numbers with or without faults, for the places past n.
pub fn junk(random: &mut Random) -> Client {
    let mut number = || random.pick(&[0, 0, 1, 2, 65_535]);
    Client { p: number(), q: number(), a: number(), b: number() }
}

/// Sets all requirements to a few slots of the frame and a latency of a few slots.
pub fn small(random: &mut Random, plan: &mut Plan) {
    for index in 0..usize::from(plan.n) {
        let p = random.between(1, (plan.f / plan.n).clamp(1, 3));
        let b = random.between(1, 5);
        let a = random.between(b, (plan.n + 3) * b);
        plan.clients[index] = Client { p, q: plan.f, a, b };
    }
}

/// Sets all requirements close to what the plan's table gives: often all met, often one not.
pub fn near_table(random: &mut Random, plan: &mut Plan) {
    let manner = random.between(1, 100);
    let chosen = random.between(1, plan.n) as u8;
    for client in 1..=plan.n as u8 {
        let missed = random.pick(&[Aim::LacksRate, Aim::Late, Aim::Late]);
        let aim = match manner {
            1..=40 => Aim::Met,
            41..=75 if client != chosen => Aim::Met,
            41..=75 => missed,
            76..=85 => random.pick(&[Aim::Met, Aim::Met, missed]),
            _ => {
                plan.clients[usize::from(client) - 1] = any(random);
                continue;
            }
        };
        plan.clients[usize::from(client) - 1] = aimed(random, plan, client, aim);
    }
}

/// The requirements of one client, close to its own figures.
fn aimed(random: &mut Random, plan: &Plan, client: u8, aim: Aim) -> Client {
    let m = owned(plan, client) as u16;
    if m == 0 {
        return any(random);
    }
    let largest = scaled(plan, client) as u16;
    let (p, q) = rate(random, m, plan.f, aim);
    let (a, b) = latency(random, largest, m, aim);
    Client { p, q, a, b }
}

/// A rate that is m/f, multiplied, or the next beside it on the side of the aim.
fn rate(random: &mut Random, m: u16, f: u16, aim: Aim) -> (u16, u16) {
    let times = factor(random, 65_535 / f);
    let (p, q) = (m * times, f * times);
    if aim == Aim::LacksRate {
        if m == f {
            return (p, q);
        }
        return random.pick(&[(p + 1, q), (p + 1, q), (p, q - 1), (q, q)]);
    }
    let below = (p - 1).max(1);
    let wider = q.saturating_add(1);
    random.pick(&[(p, q), (p, q), (p, q), (below, q), (p, wider), (1, 65_535)])
}

/// A latency that is L/m, multiplied, or the next beside it on the side of the aim.
fn latency(random: &mut Random, scaled: u16, m: u16, aim: Aim) -> (u16, u16) {
    let times = factor(random, 65_535 / scaled.max(m));
    let (a, b) = (scaled * times, m * times);
    if aim == Aim::Late && scaled > 0 {
        let wider = b.saturating_add(1);
        let less = a - 1;
        return random.pick(&[(less, b), (less, b), (a, wider), (a / 2, b), (0, b)]);
    }
    let narrower = (b - 1).max(1);
    let more = a.saturating_add(1);
    random.pick(&[(a, b), (a, b), (a, b), (more, b), (a, narrower), (65_535, b)])
}

/// A number to multiply both parts of a fraction with, from 1 to the most.
fn factor(random: &mut Random, most: u16) -> u16 {
    let small = random.between(1, most.min(12));
    let large = random.between(1, most);
    random.pick(&[1, 1, 1, small, large, most])
}
