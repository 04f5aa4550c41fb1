//! Document 01, "Programs": the texts of the report and of the homing listing.

use crate::figures::{owned, scaled, wait, DEFAULT_WAITING};
use crate::judge::{verdict, Verdict};
use crate::plan::Plan;
use crate::stream::{read, RefusedRead};

/// The line of a refused read, without its line feed.
pub fn refused_read(refused: RefusedRead) -> String {
    format!("refusal {} at {}", refused.number, refused.offset)
}

/// The report's text of a stream.
pub fn report(stream: &[u8]) -> String {
    match read(stream) {
        Ok(plan) => report_of_plan(&plan),
        Err(refused) => refused_read(refused) + "\n",
    }
}

/// The homing listing's text of a stream.
pub fn homing(stream: &[u8]) -> String {
    match read(stream) {
        Ok(plan) => homing_of_plan(&plan),
        Err(refused) => refused_read(refused) + "\n",
    }
}

/// The header, a line for each client, and the last line with the first client not ok.
fn report_of_plan(plan: &Plan) -> String {
    let mut text = String::from("client slots scaled wait verdict\n");
    let mut last = None;
    for client in 1..=plan.n as u8 {
        let m = owned(plan, client);
        let scaled = or_dash(m, || scaled(plan, client));
        let wait = default_wait(plan, client);
        let verdict = verdict(plan, client);
        let word = verdict.word();
        text += &format!("{client} {m} {scaled} {wait} {word}\n");
        if last.is_none() && verdict != Verdict::Ok {
            last = Some(format!("refused {client} {word}\n"));
        }
    }
    text + &last.unwrap_or(String::from("accepted\n"))
}

/// A line for each client: its number and its default wait.
fn homing_of_plan(plan: &Plan) -> String {
    let mut text = String::new();
    for client in 1..=plan.n as u8 {
        text += &format!("{client} {}\n", default_wait(plan, client));
    }
    text
}

/// The default wait in digits, or `-` for a client without slots.
fn default_wait(plan: &Plan, client: u8) -> String {
    or_dash(owned(plan, client), || wait(plan, client, DEFAULT_WAITING))
}

/// A figure in digits, or `-` for a client without slots.
fn or_dash(m: i64, figure: impl Fn() -> i64) -> String {
    if m == 0 {
        String::from("-")
    } else {
        figure().to_string()
    }
}

#[cfg(test)]
mod tests {
    use super::*;

    /// The document's plan and the texts of it.
    #[test]
    fn example() {
        let stream = [
            [1, 8, 2].as_slice(),
            &[2, 1, 0, 1, 0, 2, 0, 2, 0, 1],
            &[2, 2, 0, 1, 0, 4, 0, 3, 0, 1],
            &[3, 1, 1, 1, 2, 0, 1, 0, 2],
            &[9],
        ]
        .concat();
        let text = "client slots scaled wait verdict\n1 4 12 5 late\n2 2 6 7 ok\nrefused 1 late\n";
        assert_eq!(report(&stream), text);
        assert_eq!(homing(&stream), "1 5\n2 7\n");
        assert_eq!(report(&[1, 65, 2]), "refusal 5 at 0\n");
        assert_eq!(homing(&[1, 65, 2]), "refusal 5 at 0\n");
    }
}
