//! What the programs `place` and `triage` print.

use crate::search::{by_quick_closing, search_grid, Answer};
use crate::sheet;

/// The allowance of both programs.
pub const ALLOWANCE: u32 = 5_000;

pub fn triage(bytes: &[u8]) -> Vec<u8> {
    let whole = place(bytes);
    let first = whole.split_inclusive(|&byte| byte == b'\n').next();
    first.expect("a report has a first line").to_vec()
}

pub fn place(bytes: &[u8]) -> Vec<u8> {
    let sheet = match sheet::parse(bytes) {
        Ok(sheet) => sheet,
        Err(refusal) => {
            return format!("refused {} {}\n", refusal.number, refusal.line).into_bytes();
        }
    };
    let (answer, placing) = search_grid(&sheet.grid, ALLOWANCE, by_quick_closing);
    let first = match answer {
        Answer::Placed { tries } => format!("placed {tries}\n"),
        Answer::None { tries } => format!("none {tries}\n"),
        Answer::GaveUp { allowance } => format!("gave-up {allowance}\n"),
    };
    let mut printed = first.into_bytes();
    for (i, ends) in placing.unwrap_or_default().chunks(2).enumerate() {
        printed.extend(sheet.names[i].of(bytes));
        printed.extend(format!(" {} {}\n", ends[0], ends[1]).bytes());
    }
    printed
}

#[cfg(test)]
mod tests {
    use super::*;
    use crate::sheet_cases::EXAMPLE;

    #[test]
    fn the_example_is_printed_whole() {
        let printed = "placed 3\nmill 2 5\nflood 3 4\nwedding 0 1\n";
        assert_eq!(place(EXAMPLE.as_bytes()), printed.as_bytes());
        assert_eq!(triage(EXAMPLE.as_bytes()), b"placed 3\n");
    }

    #[test]
    fn no_event_is_placed_without_a_try() {
        assert_eq!(place(b"0\n"), b"placed 0\n");
    }

    #[test]
    fn a_refusal_has_its_number_and_line() {
        assert_eq!(place(b""), b"refused 9 1\n");
        assert_eq!(triage(b"33\n"), b"refused 1 1\n");
        assert_eq!(triage(&vec![b'\n'; 65_537]), b"refused 8 0\n");
    }

    #[test]
    fn a_contradiction_is_none() {
        assert_eq!(place(b"2\na 2\nx 0\nb x\nm x\n"), b"none 0\n");
    }
}
