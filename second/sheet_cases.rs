//! The sheets that the stored cases and the comparisons are made of.

use crate::grid::Grid;
use crate::grid_cases::{
    hard_grid, hidden_contradiction, late_contradiction, random_placing, random_size,
};
use crate::random::Random;
use crate::relation::{between, mark, members, ANY, NAMES, RELATIONS};
use crate::sheet::{FURTHER_WORDS, LONGEST_NAME, MOST_BYTES};

/// The example sheet.
pub const EXAMPLE: &str = "3\nmill 0\nflood 1\nwedding 1\nd mill\nb,m flood\n";

fn random_name(random: &mut Random) -> String {
    let most = random.pick(&[1, 3, 8, LONGEST_NAME]);
    let length = 1 + random.below(most);
    let letters = b"abcdefghijklmnopqrstuvwxyz0123456789";
    (0..length).map(|_| random.pick(letters) as char).collect()
}

fn random_names(random: &mut Random, n: usize) -> Vec<String> {
    let mut names: Vec<String> = Vec::new();
    while names.len() < n {
        let name = random_name(random);
        if !names.contains(&name) {
            names.push(name);
        }
    }
    names
}

fn all_words() -> Vec<(&'static str, u16)> {
    let mut words: Vec<(&str, u16)> = (0..RELATIONS).map(|r| (NAMES[r], mark(r))).collect();
    words.extend(FURTHER_WORDS);
    words
}

/// Words joined by commas. Where a relation is given, one of the words holds it.
fn random_words(random: &mut Random, relation: Option<usize>, most: usize) -> String {
    let words = all_words();
    let mut chosen: Vec<&str> =
        (0..random.below(most + 1)).map(|_| random.pick(&words).0).collect();
    let fitting: Vec<&str> = words
        .iter()
        .filter(|(_, set)| relation.is_none_or(|r| set & mark(r) != 0))
        .map(|(word, _)| *word)
        .collect();
    let place = random.below(chosen.len() + 1);
    chosen.insert(place, random.pick(&fitting));
    chosen.join(",")
}

/// A sheet of the right form. Some have a placing behind them, the others are made by chance alone.
pub fn random_sheet(random: &mut Random, n: usize) -> Vec<u8> {
    let names = random_names(random, n);
    let span = random.pick(&[3, 6, 2 * n + 2]);
    let placing = random_placing(random, n, span);
    let placed = random.chance(65);
    let most_statements = random.pick(&[0, 1, 2, 4, 8, n]);
    let most_words = random.pick(&[0, 1, 3, 6]);
    let mut contents = format!("{n}\n");
    let mut bodies = String::new();
    for i in 0..n {
        let count = if n > 1 { random.below(most_statements + 1) } else { 0 };
        contents += &format!("{} {count}\n", names[i]);
        for _ in 0..count {
            let j = (i + 1 + random.below(n - 1)) % n;
            let event = |i: usize| (placing[2 * i], placing[2 * i + 1]);
            let relation = placed.then(|| between(event(i), event(j)));
            bodies += &format!("{} {}\n", random_words(random, relation, most_words), names[j]);
        }
    }
    (contents + &bodies).into_bytes()
}

/// A sheet that states every set of a grid that is not `any`. No cell is empty.
pub fn sheet_of(grid: &Grid) -> Vec<u8> {
    let mut contents = format!("{}\n", grid.n);
    let mut bodies = String::new();
    for i in 0..grid.n {
        let stated: Vec<usize> = (i + 1..grid.n).filter(|&j| grid.at(i, j) != ANY).collect();
        contents += &format!("e{i} {}\n", stated.len());
        for j in stated {
            let words: Vec<&str> = members(grid.at(i, j)).map(|r| NAMES[r]).collect();
            bodies += &format!("{} e{j}\n", words.join(","));
        }
    }
    (contents + &bodies).into_bytes()
}

/// Bytes that a damaged sheet may hold where they do not belong.
pub const DAMAGE: &[u8] = b" \n,019abmxzAZ-+_\r\t\0\x7f\x80\xff";

/// One change somewhere in a sheet.
pub fn damage(random: &mut Random, sheet: &mut Vec<u8>) {
    if sheet.is_empty() {
        sheet.push(random.pick(DAMAGE));
        return;
    }
    let place = random.below(sheet.len());
    match random.below(8) {
        0 => sheet[place] = random.pick(DAMAGE),
        1 => sheet.insert(place, random.pick(DAMAGE)),
        2 => sheet.insert(place, sheet[place]),
        3 => drop(sheet.remove(place)),
        4 => sheet.truncate(place),
        5 => sheet.push(random.pick(DAMAGE)),
        _ => damage_lines(random, sheet),
    }
}

/// Swaps, doubles or removes a line.
fn damage_lines(random: &mut Random, sheet: &mut Vec<u8>) {
    let mut lines: Vec<Vec<u8>> =
        sheet.split_inclusive(|&byte| byte == b'\n').map(|line| line.to_vec()).collect();
    let one = random.below(lines.len());
    let other = random.below(lines.len());
    match random.below(3) {
        0 => lines.swap(one, other),
        1 => lines.insert(other, lines[one].clone()),
        _ => drop(lines.remove(one)),
    }
    *sheet = lines.concat();
}

/// A good sheet of exactly `length` bytes: one statement with a word repeated very often.
pub fn sheet_of_length(length: usize) -> Vec<u8> {
    let front = "2\nx 1\ny 0\n";
    let back = " y\n";
    let words = length - front.len() - back.len();
    // One word "m" takes a byte, each further one two, and "eq" in its place one more.
    let first = if words % 2 == 1 { "m" } else { "eq" };
    let further = ",m".repeat((words - first.len()) / 2);
    format!("{front}{first}{further}{back}").into_bytes()
}

/// A good sheet of n events. A statement is given as event, words, other event.
fn written_sheet(n: usize, statements: &[(usize, String, usize)]) -> Vec<u8> {
    let mut contents = format!("{n}\n");
    let mut bodies = String::new();
    for i in 0..n {
        let own: Vec<_> = statements.iter().filter(|statement| statement.0 == i).collect();
        contents += &format!("e{i} {}\n", own.len());
        for (_, words, j) in own {
            bodies += &format!("{words} e{j}\n");
        }
    }
    (contents + &bodies).into_bytes()
}

/// Sheets at the edge of every rule, good and bad.
pub fn edge_sheets() -> Vec<Vec<u8>> {
    let mut sheets = short_sheets();
    sheets.extend(large_sheets());
    // Closed without a placing: none after some tries, and gave up.
    for n in [4, 5, 6, 10] {
        sheets.push(sheet_of(&late_contradiction(n)));
    }
    sheets.extend(long_sheets());
    sheets
}

/// Sheets of at most two events, written out.
fn short_sheets() -> Vec<Vec<u8>> {
    let short = [
        EXAMPLE, "", "\n", " ", "0\n", "0", "00\n", "01\n", "1", "1\n", "2\n", "32\n", "32",
        "33\n", "33", "033\n", "33 \n", "34\n", "99\n", "100\n", "320\n", "3200\n", "256\n",
        "257\n", "65536\n", "65537\n", "4294967295\n", "4294967296\n", "4294967297\n",
        "18446744073709551616\n", "18446744073709551617\n", "18446744073709551648\n", " 0\n",
        "0 \n", "+0\n", "-0\n", "-1\n", "1a\n", "a\n", "0x1\n", "0\n\n", "0\nx", "0\n0\n", "0\n ",
        "0\r\n", "\r\n", "\n0\n", "33\n\n", "33\nwrong", "40\na 0\n", "0\0\n", "\u{feff}0\n",
    ];
    let contents = [
        "a 0\n", "a 0", "a", "a\n", "a \n", " 0\n", "a  0\n", " a 0\n", "a 0 \n", "a\t0\n",
        "a,0\n", "a 00\n", "a 01\n", "a +0\n", "a -0\n", "a x\n", "a 1\n", "a 999\n", "a 1000\n",
        "a 0999\n", "a 9999\n", "a 4294967296\n", "a 4294967297\n", "a 18446744073709551616\n",
        "a 0 0\n", "\n", "A 0\n", "a-b 0\n", "a_b 0\n", "0 0\n", "9 0\n", "any 0\n", "b 0\n",
        "eq 0\n", "\u{e4} 0\n", "`a 0\n", "a{ 0\n", "/ 0\n", ": 0\n", "abcdefghijklmnop 0\n",
        "0123456789abcdef 0\n", "abcdefghijklmnopq 0\n", "abcdefghijklmnopqrstuvwxyz 0\n",
        "a 0\r\n", "a 0\n\n", "a 0\nb 0\n", "a 1\nb a\n", "a 1\nb b\n", "a 1\nx a\n", "a 1\nb A\n",
        "a 2\nb a\nb a\n", "a 1\nany a",
    ];
    let pair = [
        "a 0\nx 0\n", "a 0\nx 0", "a 0\n", "a 0\na 0\n", "a 0\na 5\n", "a 0\na 1000\n", "a 0\na\n",
        "a 0\na 0", "a 1000\na 0\n", "a 999\na 0\n", "a 0\nab 0\n", "ab 0\na 0\n", "a 0\naa 0\n",
        "1 0\n01 0\n", "a 1\nx 0\n", "a 0\nx 1\n", "a 0\nx 1\nb a\n", "a 0\nx 1\nb x\n",
        "a 1\nx 1\nb x\nb a\n", "a 1\nx 1\nb x\nbi a\n", "a 1\nx 1\nb x\n", "a 1\nx 1\nb x\nm x\n",
        "a 1\nx 1\nb a\nb a\n", "a 2\nx 0\nb x\nbi x\n", "a 1\nx 1\nb,m x\nbi,f a\n",
        "a 0\nx 0\n\n", "a 0\nx 0\nb x\n", "a 1\nx 0\nb x\nb x\n", "a 1\nx 0\nb x\n\n",
        "a 1\nx 0\nb x\nq", "b 1\neq 0\nb eq\n", "b 1\neq 0\neq b\n",
    ];
    let statements = [
        "b x", "bi x", "m x", "mi x", "o x", "oi x", "s x", "si x", "d x", "di x", "f x", "fi x",
        "eq x", "any x", "meanwhile x", "within x", "until x", "b,b x", "b,b,b x", "any,b x",
        "within,until x", "meanwhile,b,m x", "b,bi,m,mi,o,oi,s,si,d,di,f,fi,eq x", "d,within x",
        "x", "b", " x", "b ", "b  x", " b x", "b x ", "b x y", "b\tx", "b,x", ",b x", "b, x",
        "b,,m x", ", x", ",", "B x", "be x", "e x", "eqq x", "eq,eq x", "an x", "anyy x", "ANY x",
        "within,untill x", "meanwhil x", "ii x", "i x", "ei x", "ebi x", "b;m x", "b m x",
        "b, m x", "b,m ,o x", "b X", "b a", "b y", "b xx", "b 0", "no y", "no a", "b,no a",
        "b a y", "b -", "b abcdefghijklmnop", "b abcdefghijklmnopq", "b x\r", "", "\0 x", "b \0",
        "7 x", "b,7 x",
    ];
    let mut sheets: Vec<Vec<u8>> = Vec::new();
    sheets.extend(short.map(|sheet| sheet.into()));
    sheets.extend(contents.map(|rest| format!("1\n{rest}").into()));
    sheets.extend(pair.map(|rest| format!("2\n{rest}").into()));
    sheets.extend(statements.map(|line| format!("2\na 1\nx 0\n{line}\n").into()));
    sheets.extend(statements.map(|line| format!("2\na 0\nx 2\nany a\n{line}\n").into()));
    sheets
}

/// Sheets of as many events and statements as there may be, and of more.
fn large_sheets() -> Vec<Vec<u8>> {
    let mut sheets = Vec::new();
    // n = 31, 32 and 33, whole, with a line too many, and with the last LF missing.
    for n in [31, 32, 33] {
        let bare = written_sheet(n, &[]);
        sheets.push(bare.clone());
        sheets.push([&bare[..], b"x 0\n"].concat());
        sheets.push(bare[..bare.len() - 1].to_vec());
        let ring: Vec<_> = (0..n).map(|i| (i, "b,m".to_string(), (i + 1) % n)).collect();
        sheets.push(written_sheet(n, &ring[1..]));
        sheets.push(written_sheet(n, &ring));
    }
    // Every pair stated, from both sides.
    let mut all = Vec::new();
    for i in 0..32 {
        for j in 0..32 {
            if i != j {
                let words = if i < j { "o,b,m" } else { "any,until" };
                all.push((i, words.to_string(), j));
            }
        }
    }
    sheets.push(written_sheet(32, &all));
    // The last of the names listed twice, and 999 statements of one event.
    let mut twice = written_sheet(32, &[]);
    let end = twice.len() - "e31 0\n".len();
    twice.truncate(end);
    twice.extend(b"e0 0\n");
    sheets.push(twice);
    let many: Vec<_> = (0..999).map(|_| (1, "meanwhile,b".to_string(), 0)).collect();
    let many = written_sheet(2, &many);
    sheets.push(many.clone());
    sheets.push([&many[..], b"b e0\n"].concat());
    sheets.push(many[..many.len() - 2].to_vec());
    sheets
}

/// Sheets around 65,536 bytes.
fn long_sheets() -> Vec<Vec<u8>> {
    let mut sheets = Vec::new();
    for length in [1_000, 1_001, MOST_BYTES - 1, MOST_BYTES, MOST_BYTES + 1, 70_000, 200_000] {
        sheets.push(sheet_of_length(length));
    }
    for byte in [b'0', b'1', b'a', b' ', b'\n', 0xff] {
        sheets.push(vec![byte; MOST_BYTES]);
        sheets.push(vec![byte; MOST_BYTES + 1]);
    }
    // A number of 65,535 digits is above 32. Without its LF, or with a leading zero,
    // it breaks the form.
    let digits = [vec![b'3'; MOST_BYTES - 1], b"\n".to_vec()].concat();
    sheets.push(digits.clone());
    sheets.push(digits[..MOST_BYTES - 1].to_vec());
    sheets.push([&b"0"[..], &digits[1..]].concat());
    sheets.push([&b"0\n"[..], &digits[2..]].concat());
    // The last allowed byte too many, or the last one missing.
    let whole = sheet_of_length(MOST_BYTES - 1);
    sheets.push([&whole[..], b"x"].concat());
    sheets.push([&whole[..], b"\n"].concat());
    sheets.push(sheet_of_length(MOST_BYTES + 1)[..MOST_BYTES].to_vec());
    sheets
}

/// Each byte of a sheet changed, doubled and removed, and the sheet cut short at every length.
pub fn damaged_everywhere(sheet: &[u8]) -> Vec<Vec<u8>> {
    let mut sheets: Vec<Vec<u8>> =
        (0..sheet.len()).map(|length| sheet[..length].to_vec()).collect();
    for place in 0..sheet.len() {
        let (front, rest) = sheet.split_at(place);
        sheets.push([front, &rest[..1], rest].concat());
        sheets.push([front, &rest[1..]].concat());
        for &byte in DAMAGE {
            if byte != rest[0] {
                sheets.push([front, &[byte], &rest[1..]].concat());
            }
        }
    }
    sheets
}

/// The next sheet after the edge cases: good, damaged, hard to search, or bytes by chance.
pub fn mixed_sheet(random: &mut Random) -> Vec<u8> {
    match random.below(20) {
        0 => (0..random.below(40)).map(|_| random.next() as u8).collect(),
        1 => (0..random.below(60)).map(|_| random.pick(b"0123 \n\n  ,,abmdox")).collect(),
        2 => sheet_of(&hard_grid(random)),
        3 => sheet_of(&hidden_contradiction(random)),
        4..=10 => {
            let n = random_size(random);
            random_sheet(random, n)
        }
        11 => random_sheet(random, 33),
        _ => {
            let n = random_size(random);
            let mut sheet = random_sheet(random, n);
            for _ in 0..1 + random.below(2) {
                damage(random, &mut sheet);
            }
            sheet
        }
    }
}

#[cfg(test)]
mod tests {
    use super::*;
    use crate::sheet::parse;

    #[test]
    fn random_sheets_have_the_right_form() {
        let mut random = Random::new(3);
        for _ in 0..300 {
            let n = random_size(&mut random);
            let sheet = random_sheet(&mut random, n);
            assert!(parse(&sheet).is_ok_and(|sheet| sheet.grid.n == n));
        }
    }

    #[test]
    fn the_sheet_of_a_grid_states_the_grid() {
        let mut random = Random::new(4);
        for _ in 0..50 {
            let grid = hard_grid(&mut random);
            assert!(parse(&sheet_of(&grid)).is_ok_and(|sheet| sheet.grid == grid));
        }
    }

    #[test]
    fn long_sheets_have_their_length() {
        for length in [1_000, 1_001, 65_536] {
            let sheet = sheet_of_length(length);
            assert_eq!(sheet.len(), length);
            assert!(parse(&sheet).is_ok());
        }
    }
}
