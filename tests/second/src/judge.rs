//! Document 01, "Judging and searching": verdicts, and the first client and stretch that fail.

use crate::figures::{owned, owned_in_stretch, stretches};
use crate::plan::{Plan, Refusal};

/// A client's verdict; a late one with the first stretch that shows it.
#[derive(Clone, Copy, Debug, PartialEq, Eq)]
pub enum Verdict {
    Ok,
    Rate,
    Late { start: usize, length: usize },
}

impl Verdict {
    /// The verdict's word.
    pub fn word(&self) -> &'static str {
        match self {
            Verdict::Ok => "ok",
            Verdict::Rate => "rate",
            Verdict::Late { .. } => "late",
        }
    }
}

/// A client has enough rate when m q is at least p f.
pub fn enough_rate(plan: &Plan, client: u8) -> bool {
    let required = plan.client(client);
    owned(plan, client) * i64::from(required.q) >= i64::from(required.p) * i64::from(plan.f)
}

/// The first stretch, by start and then by length, with (m j - f w(s, j)) b above a m.
/// There is one exactly when the largest m j - f w(s, j), which is L, has L b above a m.
pub fn first_late_stretch(plan: &Plan, client: u8) -> Option<(usize, usize)> {
    let f = i64::from(plan.f);
    let m = owned(plan, client);
    let (a, b) = (i64::from(plan.client(client).a), i64::from(plan.client(client).b));
    for (start, length) in stretches(plan) {
        let lag = m * length as i64 - f * owned_in_stretch(plan, client, start, length);
        if lag * b > a * m {
            return Some((start, length));
        }
    }
    None
}

/// The verdict on one client of a plan that has been checked.
pub fn verdict(plan: &Plan, client: u8) -> Verdict {
    if !enough_rate(plan, client) {
        return Verdict::Rate;
    }
    match first_late_stretch(plan, client) {
        Some((start, length)) => Verdict::Late { start, length },
        None => Verdict::Ok,
    }
}

/// The first client that is not ok, with its verdict; none exactly when the plan is accepted.
pub fn judge(plan: &Plan) -> Result<Option<(u8, Verdict)>, Refusal> {
    plan.check()?;
    for client in 1..=plan.n as u8 {
        let verdict = verdict(plan, client);
        if verdict != Verdict::Ok {
            return Ok(Some((client, verdict)));
        }
    }
    Ok(None)
}

#[cfg(test)]
mod tests {
    use super::*;
    use crate::figures::scaled;
    use crate::plan::Client;

    /// P4's table with the rate 1/2 and a latency.
    fn p4(a: u16, b: u16) -> Plan {
        let mut plan = Plan::zero();
        plan.f = 8;
        plan.n = 1;
        plan.clients[0] = Client { p: 1, q: 2, a, b };
        for slot in [0, 1, 2, 5] {
            plan.owners[slot] = 1;
        }
        plan
    }

    /// P7 and P8.
    #[test]
    fn examples() {
        let late = Verdict::Late { start: 3, length: 5 };
        assert_eq!(judge(&p4(3, 1)), Ok(None));
        assert_eq!(judge(&p4(299, 100)), Ok(Some((1, late))));
    }

    /// A stretch is found exactly when L b is above a m.
    #[test]
    fn late_by_stretch_or_by_scaled_latency() {
        for a in 0..40 {
            for b in 1..12 {
                let plan = p4(a, b);
                let late = scaled(&plan, 1) * i64::from(b) > i64::from(a) * owned(&plan, 1);
                assert_eq!(first_late_stretch(&plan, 1).is_some(), late);
            }
        }
    }
}
