//! Runs a built program on many sheets and compares what it prints with what is expected.

use crate::random::Random;
use crate::report;
use crate::sheet_cases;
use std::io::{self, Write};
use std::process::{Command, Stdio};

/// Says how the comparison went, or shows the first difference.
pub fn sheets_agree(
    seed: u64,
    count: usize,
    expected: fn(&[u8]) -> Vec<u8>,
    program: &[String],
) -> Result<String, String> {
    let mut random = Random::new(seed);
    let mut edges = sheet_cases::edge_sheets().into_iter();
    for number in 1..=count {
        let sheet = edges.next().unwrap_or_else(|| sheet_cases::mixed_sheet(&mut random));
        let expected = expected(&sheet);
        let came = run(program, &sheet).map_err(|error| format!("{program:?}: {error}\n"))?;
        if came != expected {
            return Err(format!(
                "sheet {number}, {} bytes:\n{}\nexpected:\n{}\ncame:\n{}\n",
                sheet.len(),
                shown(&sheet),
                shown(&expected),
                shown(&came)
            ));
        }
    }
    Ok(format!("{count} sheets, all equal\n"))
}

/// The standard output of the program for this standard input.
fn run(program: &[String], input: &[u8]) -> io::Result<Vec<u8>> {
    let mut child = Command::new(&program[0])
        .args(&program[1..])
        .stdin(Stdio::piped())
        .stdout(Stdio::piped())
        .spawn()?;
    let mut stdin = child.stdin.take().expect("standard input is piped");
    std::thread::scope(|scope| {
        // A program may stop reading a sheet that is too long, so a failed write is no difference.
        scope.spawn(move || drop(stdin.write_all(input)));
        child.wait_with_output().map(|output| output.stdout)
    })
}

/// Bytes for a reader: lines as lines, everything else that is not plain text by its number.
fn shown(bytes: &[u8]) -> String {
    let mut text = String::new();
    for &byte in bytes {
        if byte == b'\n' {
            text.push('\n');
        } else {
            text += &byte.escape_ascii().to_string();
        }
    }
    text
}

pub fn expected_of(name: &str) -> Option<fn(&[u8]) -> Vec<u8>> {
    match name {
        "place" => Some(report::place),
        "triage" => Some(report::triage),
        _ => None,
    }
}

#[cfg(test)]
mod tests {
    use super::*;

    #[test]
    fn a_program_that_copies_its_input_differs() {
        let copies = ["cat".to_string()];
        let answer = sheets_agree(1, 5, report::place, &copies);
        assert!(answer.is_err_and(|shown| shown.contains("placed 3")));
    }

    #[test]
    fn a_program_that_prints_the_expected_agrees() {
        let copies = ["cat".to_string()];
        let answer = sheets_agree(1, 100, |sheet| sheet.to_vec(), &copies);
        assert_eq!(answer, Ok("100 sheets, all equal\n".to_string()));
    }

    #[test]
    fn bytes_are_shown_readably() {
        assert_eq!(shown(b"a 0\n\xff"), "a 0\n\\xff");
    }
}
