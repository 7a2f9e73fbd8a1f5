//! The second program: the rules once more, by the plainest methods,
//! to compare the library and its programs with. It shares nothing with them.

mod compare;
mod grid;
mod grid_cases;
mod random;
mod refusal;
mod relation;
mod report;
mod search;
mod selftest;
mod sheet;
mod sheet_cases;
mod vectors;

use std::io::{self, Read, Write};
use std::process::ExitCode;
use vectors::Vectors;

const USAGE: &str = "usage:
second relation-vectors SEED COUNT CASES ANSWERS
second closing-vectors SEED COUNT CASES ANSWERS
second search-vectors SEED COUNT CASES ANSWERS
second check-vectors SEED COUNT CASES ANSWERS
second sheet-vectors SEED COUNT CASES ANSWERS
second sheets-agree SEED COUNT place|triage PROGRAM [ARGS..]
second place
second triage
second selftest
";

/// What a command prints, and whether all was well.
type Said = Result<String, String>;

fn main() -> ExitCode {
    let args: Vec<String> = std::env::args().skip(1).collect();
    let words: Vec<&str> = args.iter().map(String::as_str).collect();
    let said = match words[..] {
        ["relation-vectors", ref rest @ ..] => write_vectors(rest, vectors::relations),
        ["closing-vectors", ref rest @ ..] => write_vectors(rest, vectors::closings),
        ["search-vectors", ref rest @ ..] => write_vectors(rest, vectors::searches),
        ["check-vectors", ref rest @ ..] => write_vectors(rest, vectors::checks),
        ["sheet-vectors", ref rest @ ..] => write_vectors(rest, vectors::sheets),
        ["sheets-agree", seed, count, program, _, ..] => agree(seed, count, program, &args[4..]),
        ["place"] => print_report(report::place),
        ["triage"] => print_report(report::triage),
        ["selftest"] => selftest::run(),
        _ => Err(USAGE.to_string()),
    };
    let (said, code) = match said {
        Ok(said) => (said, ExitCode::SUCCESS),
        Err(said) => (said, ExitCode::FAILURE),
    };
    // If standard output is closed, there is nobody left to tell.
    let _ = io::stdout().write_all(said.as_bytes());
    code
}

fn number<T: std::str::FromStr>(word: &str) -> Result<T, String> {
    word.parse().map_err(|_| USAGE.to_string())
}

fn write_vectors(words: &[&str], make: fn(u64, usize) -> Vectors) -> Said {
    let [seed, count, cases, answers] = words else {
        return Err(USAGE.to_string());
    };
    let vectors = make(number(seed)?, number(count)?);
    for (path, bytes) in [(cases, &vectors.cases), (answers, &vectors.answers)] {
        std::fs::write(path, bytes).map_err(|error| format!("{path}: {error}\n"))?;
    }
    Ok(format!("{count} cases, the first {} of them by name\n", vectors.named))
}

fn agree(seed: &str, count: &str, name: &str, program: &[String]) -> Said {
    let expected = compare::expected_of(name).ok_or(USAGE.to_string())?;
    compare::sheets_agree(number(seed)?, number(count)?, expected, program)
}

fn print_report(report: fn(&[u8]) -> Vec<u8>) -> Said {
    let mut sheet = Vec::new();
    let read = io::stdin().read_to_end(&mut sheet);
    read.map_err(|error| format!("standard input: {error}\n"))?;
    let written = io::stdout().write_all(&report(&sheet));
    written.map_err(|error| format!("standard output: {error}\n"))?;
    Ok(String::new())
}
