//! The bench cases' replies: what each op's call gives, as text.

use crate::arbiter::step;
use crate::case::Case;
use crate::figures::{default_wait_asked, figures_asked, wait_asked};
use crate::judge::{judge, Verdict};
use crate::listing::{homing, refused_read, report};
use crate::plan::Refusal;
use crate::search::search;
use crate::stream::{read, write};

/// The reply to a case, with its line feeds.
pub fn reply(case: &Case) -> String {
    match case.op() {
        10 => report(case.stream()),
        11 => homing(case.stream()),
        _ => line(case) + "\n",
    }
}

/// The reply of an op that gives one line.
fn line(case: &Case) -> String {
    match case.op() {
        1 => read_line(case),
        2 => write_line(case),
        3 => {
            or_refusal(figures_asked(&case.plan(), case.x()), |(m, scaled)| format!("{m} {scaled}"))
        }
        4 => or_refusal(wait_asked(&case.plan(), case.x(), case.k()), |wait| wait.to_string()),
        5 => or_refusal(default_wait_asked(&case.plan(), case.x()), |wait| wait.to_string()),
        6 => or_refusal(judge(&case.plan()), judged),
        7 => or_refusal(search(&case.plan()), |table| match table {
            Some(owners) => spaced(&owners),
            None => String::from("none"),
        }),
        8 | 9 => step_line(case),
        _ => String::from("op?"),
    }
}

/// Op 1: the plan read, or the refused read.
fn read_line(case: &Case) -> String {
    let plan = match read(case.stream()) {
        Ok(plan) => plan,
        Err(refused) => return refused_read(refused),
    };
    let mut text = format!("plan {} {}", plan.f, plan.n);
    for client in plan.used_clients() {
        text += &format!(" {} {} {} {}", client.p, client.q, client.a, client.b);
    }
    text + " " + &spaced(plan.used_owners())
}

/// Op 2: `ok` or the refusal, then the lent output, of which each byte was 170 before.
fn write_line(case: &Case) -> String {
    let mut output = vec![170; usize::from(case.x()).min(200)];
    let result = write(&case.plan(), &mut output);
    let mut text = or_refusal(result, |()| String::from("ok"));
    for byte in output {
        text += &format!(" {byte}");
    }
    text
}

/// Op 6: `accepted`, or the client, its verdict, and the stretch's start and length.
fn judged(failing: Option<(u8, Verdict)>) -> String {
    let Some((client, verdict)) = failing else {
        return String::from("accepted");
    };
    let (start, length) = match verdict {
        Verdict::Late { start, length } => (start, length),
        _ => (0, 0),
    };
    format!("{client} {} {start} {length}", verdict.word())
}

/// Ops 8 and 9: the step's result or the refusal, then the record after the call.
fn step_line(case: &Case) -> String {
    let mut record = case.record();
    let result = step(&case.plan(), &mut record, case.arrivals());
    let text = or_refusal(result, |step| format!("{} {}", step.served, spaced(&step.turned_away)));
    format!("{text} : {} {}", record.position, spaced(&record.pending))
}

/// The text of a result, or `refusal` with its number.
fn or_refusal<T>(result: Result<T, Refusal>, text: impl Fn(T) -> String) -> String {
    match result {
        Ok(value) => text(value),
        Err(number) => format!("refusal {number}"),
    }
}

/// Numbers in digits, separated by single spaces.
pub fn spaced(numbers: &[u8]) -> String {
    let words: Vec<String> = numbers.iter().map(u8::to_string).collect();
    words.join(" ")
}
