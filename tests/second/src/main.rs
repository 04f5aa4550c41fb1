//! An independent second program for document 01: it makes bench cases, gives the replies that
//! the document asks for, and compares another program's replies with them.

mod arbiter;
mod case;
mod check;
mod figures;
mod judge;
mod listing;
mod make;
mod plan;
mod random;
mod reply;
mod search;
mod stored;
mod stream;
mod words;

use std::io::{self, BufWriter, Read, Write};
use std::process::ExitCode;

const USAGE: &str = "usage:
  second make SEED COUNT   writes COUNT cases of 256 bytes, made from the number SEED
  second stored            writes the stored cases
  second reply             reads cases from standard input, writes the expected replies
  second check CASES       compares the replies on standard input with the expected ones
                           for the cases in the file CASES
";

/// Why the program ends without having done what it was asked.
enum Failure {
    /// Words that are no command.
    Usage,
    /// Something could not be read or written.
    Trouble(String),
    /// The stored cases or another program's replies are not as expected.
    Difference(String),
}

impl From<io::Error> for Failure {
    fn from(error: io::Error) -> Failure {
        Failure::Trouble(error.to_string())
    }
}

fn main() -> ExitCode {
    let words = std::env::args_os().skip(1);
    let words: Vec<String> = words.map(|word| word.to_string_lossy().into_owned()).collect();
    let words: Vec<&str> = words.iter().map(String::as_str).collect();
    match run(&words) {
        Ok(()) => ExitCode::SUCCESS,
        Err(Failure::Usage) => {
            eprint!("{USAGE}");
            ExitCode::from(2)
        }
        Err(Failure::Trouble(text)) => {
            eprintln!("second: {text}");
            ExitCode::from(2)
        }
        Err(Failure::Difference(text)) => {
            eprint!("{text}");
            ExitCode::from(1)
        }
    }
}

/// Does what the command line says.
fn run(words: &[&str]) -> Result<(), Failure> {
    match words {
        ["make", seed, count] => match (seed.parse(), count.parse()) {
            (Ok(seed), Ok(count)) => make_cases(seed, count),
            _ => Err(Failure::Usage),
        },
        ["stored"] => stored_cases(),
        ["reply"] => replies(),
        ["check", path] => check_replies(path),
        _ => Err(Failure::Usage),
    }
}

fn make_cases(seed: u64, count: u64) -> Result<(), Failure> {
    let mut output = BufWriter::new(io::stdout().lock());
    let mut maker = make::Maker::new(seed);
    for _ in 0..count {
        output.write_all(&maker.case().bytes)?;
    }
    output.flush()?;
    Ok(())
}

fn stored_cases() -> Result<(), Failure> {
    let cases = stored::cases().map_err(Failure::Difference)?;
    let mut output = BufWriter::new(io::stdout().lock());
    for case in cases {
        output.write_all(&case.bytes)?;
    }
    output.flush()?;
    Ok(())
}

fn replies() -> Result<(), Failure> {
    let input = standard_input()?;
    let mut output = BufWriter::new(io::stdout().lock());
    for case in case::cases_in(&input) {
        output.write_all(reply::reply(&case).as_bytes())?;
    }
    output.flush()?;
    Ok(())
}

fn check_replies(path: &str) -> Result<(), Failure> {
    let file = std::fs::read(path).map_err(|error| Failure::Trouble(format!("{path}: {error}")))?;
    let replies = standard_input()?;
    let line = check::check(&case::cases_in(&file), &replies).map_err(Failure::Difference)?;
    let mut output = io::stdout().lock();
    output.write_all(line.as_bytes())?;
    output.flush()?;
    Ok(())
}

fn standard_input() -> Result<Vec<u8>, Failure> {
    let mut input = Vec::new();
    io::stdin().lock().read_to_end(&mut input)?;
    Ok(input)
}
