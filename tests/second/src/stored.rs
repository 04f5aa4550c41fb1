//! The stored cases: first the fixed ones, each with words that say what of document 01 it shows
//! and mostly with the reply that the document asks for, then random ones from a fixed seed.

mod asking;
mod build;
mod edges;
mod examples;
mod judging;
mod reading;
mod steps;
mod values;

use crate::case::Case;
use crate::make::Maker;
use crate::reply::reply;
use build::Row;

/// The seed and the count of the random cases.
const SEED: u64 = 20_150_101;
const RANDOM_CASES: usize = 2_000;

/// All fixed cases, in the order in which they are written.
fn fixed() -> Vec<Row> {
    let mut rows = examples::rows();
    rows.extend(judging::rows());
    rows.extend(steps::rows());
    rows.extend(reading::rows());
    rows.extend(values::rows());
    rows.extend(asking::rows());
    rows.extend(edges::rows());
    rows
}

/// Says where a fixed case's reply is not the one stated beside it.
fn contradiction(row: &Row) -> Option<String> {
    let stated = row.reply.clone()? + "\n";
    let given = reply(&row.case);
    if given == stated {
        return None;
    }
    Some(format!("stored case: {}\nstated:\n{stated}given:\n{given}", row.what))
}

/// The stored cases, if the fixed ones get the replies stated beside them.
pub fn cases() -> Result<Vec<Case>, String> {
    let rows = fixed();
    if let Some(text) = rows.iter().find_map(contradiction) {
        return Err(text);
    }
    let mut cases: Vec<Case> = rows.into_iter().map(|row| row.case).collect();
    let mut maker = Maker::new(SEED);
    for _ in 0..RANDOM_CASES {
        cases.push(maker.case());
    }
    Ok(cases)
}

#[cfg(test)]
mod tests {
    use super::*;

    /// Every reply stated in the tables is the one given.
    #[test]
    fn stated_replies() {
        for row in fixed() {
            assert_eq!(contradiction(&row), None);
        }
    }

    /// Every refusal number occurs.
    #[test]
    fn every_refusal() {
        let replies: Vec<String> = fixed().iter().map(|row| reply(&row.case)).collect();
        for number in 1..=18 {
            let words = format!("refusal {number}");
            let begins = |reply: &String| {
                let rest = reply.strip_prefix(&words);
                rest.is_some_and(|rest| rest.starts_with([' ', '\n']))
            };
            assert!(replies.iter().any(begins), "{words}");
        }
    }
}
