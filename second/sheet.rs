//! The reader of sheets, and the names in them.

use crate::grid::{Grid, MOST_EVENTS};
use crate::refusal;
use crate::relation::{mark, ANY, NAMES};

pub const MOST_BYTES: usize = 65_536;
pub const ROOM_CELLS: usize = 1_024;
pub const LONGEST_NAME: usize = 16;
pub const MOST_STATEMENTS: u32 = 999;

/// The words that are no relation's name, and their sets.
pub const FURTHER_WORDS: [(&str, u16); 4] =
    [("any", ANY), ("meanwhile", 0b1_1111_1111_0000), ("within", 1 << 8), ("until", 1 << 2)];

/// A refusal's number and line.
#[derive(Clone, Copy, Debug, PartialEq)]
pub struct Refusal {
    pub number: u32,
    pub line: u32,
}

/// A part of the sheet.
#[derive(Clone, Copy, Debug, PartialEq)]
pub struct Part {
    pub start: usize,
    pub length: usize,
}

impl Part {
    pub const EMPTY: Part = Part { start: 0, length: 0 };

    pub fn of<'a>(&self, bytes: &'a [u8]) -> &'a [u8] {
        &bytes[self.start..self.start + self.length]
    }
}

/// What a sheet says.
pub struct Sheet {
    pub names: Vec<Part>,
    pub grid: Grid,
}

/// The lines of a sheet, one after the other.
struct Lines<'a> {
    bytes: &'a [u8],
    place: usize,
    /// The number of the line last asked for.
    number: u32,
}

impl<'a> Lines<'a> {
    /// The next line without its LF. A missing line and one without LF are refused alike.
    fn next(&mut self) -> Result<&'a [u8], Refusal> {
        self.number += 1;
        let rest = &self.bytes[self.place..];
        let Some(length) = rest.iter().position(|&byte| byte == b'\n') else {
            return Err(self.refusal(refusal::FORM));
        };
        self.place += length + 1;
        Ok(&rest[..length])
    }

    /// Nothing may follow the last line.
    fn end(&mut self) -> Result<(), Refusal> {
        self.number += 1;
        if self.place < self.bytes.len() {
            return Err(self.refusal(refusal::FORM));
        }
        Ok(())
    }

    fn refusal(&self, number: u32) -> Refusal {
        Refusal { number, line: self.number }
    }

    fn form<T>(&self, read: Option<T>) -> Result<T, Refusal> {
        read.ok_or(self.refusal(refusal::FORM))
    }
}

/// A decimal number without leading zeros. Numbers of a thousand and more come back as a thousand,
/// which is above everything that a sheet allows.
fn decimal(field: &[u8]) -> Option<u32> {
    let digits_only = field.iter().all(|byte| byte.is_ascii_digit());
    if field.is_empty() || !digits_only || (field[0] == b'0' && field.len() > 1) {
        return None;
    }
    let mut value = 0;
    for byte in field {
        value = (value * 10 + u32::from(byte - b'0')).min(1_000);
    }
    Some(value)
}

fn is_name(field: &[u8]) -> bool {
    let letter_or_digit = |byte: &u8| byte.is_ascii_lowercase() || byte.is_ascii_digit();
    (1..=LONGEST_NAME).contains(&field.len()) && field.iter().all(letter_or_digit)
}

fn word(bytes: &[u8]) -> Option<u16> {
    if let Some(r) = NAMES.iter().position(|name| name.as_bytes() == bytes) {
        return Some(mark(r));
    }
    let further = FURTHER_WORDS.iter().find(|(word, _)| word.as_bytes() == bytes)?;
    Some(further.1)
}

/// The union of words joined by commas.
fn words(field: &[u8]) -> Option<u16> {
    let mut set = 0;
    for bytes in field.split(|&byte| byte == b',') {
        set |= word(bytes)?;
    }
    Some(set)
}

/// The two fields of a line, parted by one space. With two spaces there would be a third field.
fn two_fields(line: &[u8]) -> Option<(&[u8], &[u8])> {
    let fields: Vec<&[u8]> = line.split(|&byte| byte == b' ').collect();
    match fields[..] {
        [first, second] => Some((first, second)),
        _ => None,
    }
}

/// A line of the contents: a name and its number of statements.
fn contents_line(line: &[u8]) -> Option<(&[u8], u32)> {
    let (name, count) = two_fields(line)?;
    let count = decimal(count)?;
    (is_name(name) && count <= MOST_STATEMENTS).then_some((name, count))
}

/// A statement: its set and the other event's name.
fn statement_line(line: &[u8]) -> Option<(u16, &[u8])> {
    let (joined, name) = two_fields(line)?;
    let set = words(joined)?;
    is_name(name).then_some((set, name))
}

/// Reads a whole sheet, up to its first faulty line.
pub fn parse(bytes: &[u8]) -> Result<Sheet, Refusal> {
    if bytes.len() > MOST_BYTES {
        return Err(Refusal { number: refusal::SHEET_TOO_LONG, line: 0 });
    }
    let mut lines = Lines { bytes, place: 0, number: 0 };

    let line = lines.next()?;
    let n = lines.form(decimal(line))?;
    if n > MOST_EVENTS {
        return Err(lines.refusal(refusal::TOO_MANY_EVENTS));
    }
    let n = n as usize;

    let mut names: Vec<Part> = Vec::new();
    let mut counts: Vec<u32> = Vec::new();
    for _ in 0..n {
        let start = lines.place;
        let line = lines.next()?;
        let (name, count) = lines.form(contents_line(line))?;
        if names.iter().any(|listed| listed.of(bytes) == name) {
            return Err(lines.refusal(refusal::LISTED_TWICE));
        }
        names.push(Part { start, length: name.len() });
        counts.push(count);
    }

    let mut grid = Grid::any(n);
    for i in 0..n {
        for _ in 0..counts[i] {
            let line = lines.next()?;
            let (set, name) = lines.form(statement_line(line))?;
            let Some(j) = names.iter().position(|listed| listed.of(bytes) == name) else {
                return Err(lines.refusal(refusal::NOT_LISTED));
            };
            if i == j {
                return Err(lines.refusal(refusal::ABOUT_ITSELF));
            }
            grid.cut(i, j, set);
        }
    }
    lines.end()?;
    Ok(Sheet { names, grid })
}

/// Reads a sheet into a lent room and gives back n.
pub fn read(bytes: &[u8], room: &mut [u16]) -> Result<u32, Refusal> {
    if room.len() != ROOM_CELLS {
        return Err(Refusal { number: refusal::GRID_LENGTH, line: 0 });
    }
    let sheet = parse(bytes)?;
    let cells = &sheet.grid.cells;
    room[..cells.len()].copy_from_slice(cells);
    Ok(sheet.grid.n as u32)
}

/// The part of the sheet that is the name of event i, or the empty part at the beginning.
pub fn name(bytes: &[u8], i: u32) -> Part {
    match parse(bytes) {
        Ok(sheet) => sheet.names.get(i as usize).copied().unwrap_or(Part::EMPTY),
        Err(_) => Part::EMPTY,
    }
}

#[cfg(test)]
mod tests {
    use super::*;

    fn refused(sheet: &str) -> (u32, u32) {
        match parse(sheet.as_bytes()) {
            Ok(_) => (0, 0),
            Err(refusal) => (refusal.number, refusal.line),
        }
    }

    #[test]
    fn line_one() {
        assert_eq!(refused(""), (9, 1));
        assert_eq!(refused("\n"), (9, 1));
        assert_eq!(refused("0"), (9, 1));
        assert_eq!(refused("00\n"), (9, 1));
        assert_eq!(refused("033\n"), (9, 1));
        assert_eq!(refused("33"), (9, 1));
        assert_eq!(refused("33\n"), (1, 1));
        assert_eq!(refused("18446744073709551616\nwrong"), (1, 1));
        assert_eq!(refused("0\n"), (0, 0));
        assert_eq!(refused("0\n\n"), (9, 2));
        assert_eq!(refused("0\nx"), (9, 2));
    }

    #[test]
    fn contents() {
        assert_eq!(refused("1\n"), (9, 2));
        assert_eq!(refused("1\na 0"), (9, 2));
        assert_eq!(refused("1\na 0\n"), (0, 0));
        assert_eq!(refused("1\na  0\n"), (9, 2));
        assert_eq!(refused("1\nabcdefghijklmnop 0\n"), (0, 0));
        assert_eq!(refused("1\nabcdefghijklmnopq 0\n"), (9, 2));
        assert_eq!(refused("1\na 00\n"), (9, 2));
        assert_eq!(refused("1\na 999\n"), (9, 3));
        assert_eq!(refused("1\na 1000\n"), (9, 2));
        assert_eq!(refused("2\na 0\na 1\n"), (10, 3));
        assert_eq!(refused("2\na 0\na 1000\n"), (9, 3));
    }

    #[test]
    fn statements() {
        assert_eq!(refused("2\na 1\nx 0\nb x\n"), (0, 0));
        assert_eq!(refused("2\na 1\nx 0\nb a\n"), (12, 4));
        assert_eq!(refused("2\na 1\nx 0\nb y\n"), (11, 4));
        assert_eq!(refused("2\na 1\nx 0\nno y\n"), (9, 4));
        assert_eq!(refused("2\na 1\nx 0\nb,,m x\n"), (9, 4));
        assert_eq!(refused("2\na 1\nx 0\nb, x\n"), (9, 4));
        assert_eq!(refused("2\na 1\nx 0\n x\n"), (9, 4));
        assert_eq!(refused("2\na 1\nx 0\n"), (9, 4));
        assert_eq!(refused("2\na 1\nx 0\nb x\nb x\n"), (9, 5));
    }

    #[test]
    fn statements_cut_from_either_side() {
        let sheet = "2\na 1\nx 1\nb,o,b x\noi,d a\n";
        assert_eq!(parse(sheet.as_bytes()).ok().map(|sheet| sheet.grid.at(0, 1)), Some(16));
    }

    #[test]
    fn the_further_words_are_the_named_sets() {
        let of = |joined: &str| words(joined.as_bytes());
        assert_eq!(of("any"), of("b,bi,m,mi,o,oi,s,si,d,di,f,fi,eq"));
        assert_eq!(of("meanwhile"), of("o,oi,s,si,d,di,f,fi,eq"));
        assert_eq!(of("within"), of("d"));
        assert_eq!(of("until"), of("m"));
    }

    #[test]
    fn the_room_keeps_its_further_cells() {
        let mut room = [7; ROOM_CELLS];
        assert_eq!(read(b"2\na 1\nx 0\nb x\n", &mut room), Ok(2));
        assert_eq!(room[..4], [4096, 1, 2, 4096]);
        assert!(room[4..].iter().all(|&cell| cell == 7));
    }

    #[test]
    fn room_before_bytes() {
        let long = vec![b'0'; MOST_BYTES + 1];
        let mut room = [7; ROOM_CELLS];
        assert_eq!(read(&long, &mut room[1..]), Err(Refusal { number: 2, line: 0 }));
        assert_eq!(read(&long, &mut room), Err(Refusal { number: 8, line: 0 }));
        assert_eq!(read(&long[1..], &mut room), Err(Refusal { number: 9, line: 1 }));
    }

    #[test]
    fn names_are_parts_of_the_sheet() {
        let sheet = b"2\nab 0\nx 0\n";
        assert_eq!(name(sheet, 0), Part { start: 2, length: 2 });
        assert_eq!(name(sheet, 1), Part { start: 7, length: 1 });
        assert_eq!(name(sheet, 2), Part::EMPTY);
        assert_eq!(name(&sheet[..10], 0), Part::EMPTY);
    }
}
