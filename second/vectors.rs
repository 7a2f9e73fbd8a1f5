//! Stored cases and their expected answers, as files. All numbers are little-endian.
//! The README says what each record holds.

use crate::grid::{plain_closing, quick_closing, Grid, PlainAnswer, QuickAnswer};
use crate::grid_cases;
use crate::random::Random;
use crate::relation::{composition_of, converse_of, mark, ANY, RELATIONS};
use crate::search::{by_quick_closing, check, search, search_grid, Answer, Placing};
use crate::sheet::{self, MOST_BYTES, ROOM_CELLS};
use crate::sheet_cases;
use std::collections::HashSet;

const REFUSED: u8 = 3;

/// The two files, the records they hold, and how many are wanted.
pub struct Vectors {
    pub cases: Vec<u8>,
    pub answers: Vec<u8>,
    /// The first records are chosen by name, the others by chance.
    pub named: usize,
    held: usize,
    wanted: usize,
}

impl Vectors {
    fn new(wanted: usize) -> Vectors {
        Vectors { cases: Vec::new(), answers: Vec::new(), named: 0, held: 0, wanted }
    }

    /// Counts a record, or says that there are enough.
    fn begin(&mut self) -> bool {
        let more = self.held < self.wanted;
        self.held += usize::from(more);
        more
    }

    fn end_of_named(&mut self) {
        self.named = self.held;
    }

    fn is_full(&self) -> bool {
        self.held == self.wanted
    }
}

fn put_u16s(file: &mut Vec<u8>, numbers: &[u16]) {
    file.extend(numbers.iter().flat_map(|number| number.to_le_bytes()));
}

fn put_u32(file: &mut Vec<u8>, number: u32) {
    file.extend(number.to_le_bytes());
}

fn put_i32s(file: &mut Vec<u8>, numbers: &[i32]) {
    file.extend(numbers.iter().flat_map(|number| number.to_le_bytes()));
}

// Relations

pub fn relations(seed: u64, count: usize) -> Vectors {
    let mut vectors = Vectors::new(count);
    for r in 0..RELATIONS {
        for s in 0..RELATIONS {
            add_relations(&mut vectors, mark(r), mark(s));
        }
    }
    let named = [0, ANY, ANY + 1, ANY + 2, 65_535, 84];
    for a in named {
        for b in named {
            add_relations(&mut vectors, a, b);
        }
        for r in 0..RELATIONS {
            add_relations(&mut vectors, a, mark(r));
            add_relations(&mut vectors, mark(r), a);
        }
    }
    let mut random = Random::new(seed);
    vectors.end_of_named();
    while !vectors.is_full() {
        let a = random_set(&mut random);
        let b = random_set(&mut random);
        add_relations(&mut vectors, a, b);
    }
    vectors
}

/// Dense, sparse, single, or sometimes too large.
fn random_set(random: &mut Random) -> u16 {
    let any = |random: &mut Random| random.below(8192) as u16;
    match random.below(10) {
        0..=2 => any(random),
        3 => any(random) | any(random) | any(random),
        4..=6 => any(random) & any(random) & any(random),
        7..=8 => mark(random.below(RELATIONS)),
        _ => random.below(65_536) as u16,
    }
}

fn add_relations(vectors: &mut Vectors, a: u16, b: u16) {
    if !vectors.begin() {
        return;
    }
    put_u16s(&mut vectors.cases, &[a, b]);
    for answer in [converse_of(a), composition_of(a, b)] {
        vectors.answers.push(answer.err().unwrap_or(0) as u8);
        put_u16s(&mut vectors.answers, &[answer.unwrap_or(0)]);
    }
}

// Closing

/// Limits that every grid is closed with.
const LIMITS: [u32; 7] = [0, 1, 2, 3, 5, 6_448, u32::MAX];

pub fn closings(seed: u64, count: usize) -> Vectors {
    let mut vectors = Vectors::new(count);
    let mut random = Random::new(seed);
    for (n, cells) in grid_cases::refused_grids() {
        let limit = random.pick(&LIMITS);
        add_closing(&mut vectors, n, limit, &cells);
    }
    for grid in grid_cases::named_grids() {
        add_closings(&mut vectors, &mut random, &grid);
    }
    vectors.end_of_named();
    while !vectors.is_full() {
        let n = grid_cases::random_size(&mut random);
        let grid = grid_cases::random_grid(&mut random, n);
        add_closings(&mut vectors, &mut random, &grid);
        if random.chance(20) {
            add_spoiled_closing(&mut vectors, &mut random, grid);
        }
    }
    vectors
}

/// One grid at the limits of the list, around its takes, and at one below them.
fn add_closings(vectors: &mut Vectors, random: &mut Random, grid: &Grid) {
    let n = grid.n as u32;
    let mut limits = LIMITS.to_vec();
    let takes = match quick_closing(n, u32::MAX, &mut grid.cells.clone()) {
        Ok(QuickAnswer::Closed { takes } | QuickAnswer::Contradiction { takes }) => takes,
        other => panic!("an accepted grid is closed without a pause: {other:?}"),
    };
    limits.push(takes);
    if takes > 0 {
        limits.push(takes - 1);
        limits.push(random.below(takes as usize) as u32);
    }
    for limit in each_once(limits) {
        add_closing(vectors, n, limit, &grid.cells);
    }
}

fn each_once(mut numbers: Vec<u32>) -> Vec<u32> {
    numbers.sort();
    numbers.dedup();
    numbers
}

/// A grid with one cell changed by chance, which mostly is refused.
fn add_spoiled_closing(vectors: &mut Vectors, random: &mut Random, grid: Grid) {
    let mut cells = grid.cells;
    spoil(random, &mut cells);
    let limit = random.pick(&LIMITS);
    add_closing(vectors, grid.n as u32, limit, &cells);
}

fn spoil(random: &mut Random, cells: &mut Vec<u16>) {
    if cells.is_empty() || random.chance(10) {
        cells.push(random.below(65_536) as u16);
        return;
    }
    let place = random.below(cells.len());
    let bound = random.pick(&[8_192, 65_536]);
    cells[place] = random.below(bound) as u16;
}

fn add_closing(vectors: &mut Vectors, n: u32, limit: u32, cells: &[u16]) {
    if !vectors.begin() {
        return;
    }
    put_u32(&mut vectors.cases, n);
    put_u32(&mut vectors.cases, limit);
    put_u32(&mut vectors.cases, cells.len() as u32);
    put_u16s(&mut vectors.cases, cells);

    let mut closed = cells.to_vec();
    let (kind, value) = match quick_closing(n, limit, &mut closed) {
        Ok(QuickAnswer::Closed { takes }) => (0, takes),
        Ok(QuickAnswer::Contradiction { takes }) => (1, takes),
        Ok(QuickAnswer::Paused { takes }) => (2, takes),
        Err(number) => (REFUSED, number),
    };
    vectors.answers.push(kind);
    put_u32(&mut vectors.answers, value);
    put_u16s(&mut vectors.answers, &closed);

    let mut closed = cells.to_vec();
    let (kind, value) = match plain_closing(n, &mut closed) {
        Ok(PlainAnswer::Closed) => (0, 0),
        Ok(PlainAnswer::Contradiction) => (1, 0),
        Err(number) => (REFUSED, number),
    };
    vectors.answers.push(kind);
    put_u32(&mut vectors.answers, value);
    put_u16s(&mut vectors.answers, &closed);
}

// Searching

/// Searches that need more tries than this are not run to their end.
const LONG_SEARCH: u32 = 6_000;

/// Lengths of a placing or its room, the right one first where there is one.
fn room_lengths(n: u32) -> Vec<usize> {
    if n > 34 {
        return vec![0, 1, 64, 80];
    }
    let right = 2 * n as usize;
    vec![right, right.saturating_sub(1), right + 1, n as usize, 0, 80]
}

pub fn searches(seed: u64, count: usize) -> Vectors {
    let mut vectors = Vectors::new(count);
    let mut random = Random::new(seed);
    for (n, cells) in grid_cases::refused_grids() {
        let lengths = room_lengths(n);
        let allowance = random.pick(&[0, 1, 5_000]);
        for numbers in [lengths[0], random.pick(&lengths)] {
            add_search(&mut vectors, n, allowance, &cells, numbers);
        }
    }
    for n in [0, 1, 2, 3, 20, 31, 32] {
        for numbers in room_lengths(n) {
            add_search(&mut vectors, n, 5_000, &Grid::any(n as usize).cells, numbers);
        }
    }
    for grid in grid_cases::named_grids() {
        add_searches(&mut vectors, &grid);
    }
    vectors.end_of_named();
    while !vectors.is_full() {
        let grid = random_searched_grid(&mut random);
        add_searches(&mut vectors, &grid);
        if random.chance(20) {
            let mut cells = grid.cells;
            spoil(&mut random, &mut cells);
            let numbers = random.pick(&room_lengths(grid.n as u32));
            add_search(&mut vectors, grid.n as u32, 1, &cells, numbers);
        }
    }
    vectors
}

/// Mostly of few events, because a search with many takes long.
fn random_searched_grid(random: &mut Random) -> Grid {
    if random.chance(35) {
        return grid_cases::hard_grid(random);
    }
    if random.chance(10) {
        return grid_cases::hidden_contradiction(random);
    }
    let bound = if random.chance(6) { 33 } else { 11 };
    let n = random.below(bound);
    grid_cases::random_grid(random, n)
}

/// One grid with the allowances of the list and those around its tries.
fn add_searches(vectors: &mut Vectors, grid: &Grid) {
    let mut allowances = vec![0, 1, 2, 5_000];
    match search_grid(grid, LONG_SEARCH, by_quick_closing).0 {
        Answer::Placed { tries } | Answer::None { tries } => {
            allowances.extend([tries, u32::MAX]);
            allowances.extend(tries.checked_sub(1));
        }
        Answer::GaveUp { .. } => {}
    }
    for allowance in each_once(allowances) {
        add_search(vectors, grid.n as u32, allowance, &grid.cells, 2 * grid.n);
    }
}

fn add_search(vectors: &mut Vectors, n: u32, allowance: u32, cells: &[u16], numbers: usize) {
    if !vectors.begin() {
        return;
    }
    put_u32(&mut vectors.cases, n);
    put_u32(&mut vectors.cases, allowance);
    put_u32(&mut vectors.cases, cells.len() as u32);
    put_u32(&mut vectors.cases, numbers as u32);
    put_u16s(&mut vectors.cases, cells);

    let mut room: Placing = vec![-7; numbers];
    let (kind, value) = match search(n, allowance, cells, &mut room) {
        Ok(Answer::Placed { tries }) => (0, tries),
        Ok(Answer::None { tries }) => (1, tries),
        Ok(Answer::GaveUp { allowance }) => (2, allowance),
        Err(number) => (REFUSED, number),
    };
    vectors.answers.push(kind);
    put_u32(&mut vectors.answers, value);
    put_i32s(&mut vectors.answers, &room);
}

// Checking

/// A check of more cells than this is long.
const LONG_CHECK: usize = 600;

/// The files stay short: no check is held twice, and of the long ones by name every fourth is held.
struct Checks {
    vectors: Vectors,
    seen: HashSet<Vec<u8>>,
    /// How many long ones by name came so far, held or not.
    long: usize,
}

impl Checks {
    fn is_held(&mut self, case: &[u8], cells: usize) -> bool {
        if !self.seen.insert(case.to_vec()) {
            return false;
        }
        let by_chance = self.vectors.named > 0;
        if by_chance || cells <= LONG_CHECK {
            return true;
        }
        self.long += 1;
        self.long % 4 == 1
    }
}

pub fn checks(seed: u64, count: usize) -> Vectors {
    let mut checks = Checks { vectors: Vectors::new(count), seen: HashSet::new(), long: 0 };
    let mut random = Random::new(seed);
    for (n, cells) in grid_cases::refused_grids() {
        let lengths = room_lengths(n);
        for numbers in [lengths[0], random.pick(&lengths)] {
            let rising: Placing = (0..numbers as i32).collect();
            add_check(&mut checks, n, &cells, &rising);
            add_check(&mut checks, n, &cells, &vec![5; numbers]);
        }
    }
    for n in [0, 1, 2, 3, 20, 32] {
        let cells = Grid::any(n as usize).cells;
        for numbers in room_lengths(n) {
            let rising: Placing = (0..numbers as i32).map(|i| i - 20).collect();
            add_check(&mut checks, n, &cells, &rising);
        }
    }
    for (start, end) in ends_of_one_event() {
        add_check(&mut checks, 1, &Grid::any(1).cells, &[start, end]);
    }
    add_extreme_pairs(&mut checks);
    checks.vectors.end_of_named();
    while !checks.vectors.is_full() {
        let n = grid_cases::random_size(&mut random);
        add_random_checks(&mut checks, &mut random, n);
    }
    checks.vectors
}

const EXTREMES: [i32; 6] = [i32::MIN, i32::MIN + 1, -1, 0, i32::MAX - 1, i32::MAX];

fn ends_of_one_event() -> Vec<(i32, i32)> {
    let mut ends = Vec::new();
    for start in EXTREMES {
        for end in EXTREMES {
            ends.push((start, end));
        }
    }
    ends
}

/// Two events with extreme ends, against each single relation.
fn add_extreme_pairs(checks: &mut Checks) {
    let rising = |ends: &(i32, i32)| ends.0 < ends.1;
    let events: Vec<(i32, i32)> = ends_of_one_event().into_iter().filter(rising).collect();
    for x in &events {
        for y in &events {
            let r = crate::relation::between(*x, *y);
            let mut grid = Grid::any(2);
            for set in [mark(r), ANY ^ mark(r)] {
                grid.put(0, 1, set);
                add_check(checks, 2, &grid.cells, &[x.0, x.1, y.0, y.1]);
            }
        }
    }
}

/// A right placing, the same spread far apart, and both with one number changed.
fn add_random_checks(checks: &mut Checks, random: &mut Random, n: usize) {
    let span = random.pick(&[3, 6, 2 * n + 2]);
    let near = grid_cases::random_placing(random, n, span);
    let loose = random.pick(&[60, 20, 0]);
    let wide = random.pick(&[0, 0, 20, 60]);
    let mut grid = grid_cases::grid_around(random, &near, loose, wide);
    let far = spread(random, &near);
    for placing in [&near, &far] {
        add_check(checks, n as u32, &grid.cells, placing);
        if n > 0 {
            for _ in 0..3 {
                let mut changed = placing.clone();
                let place = random.below(2 * n);
                changed[place] = changed_number(random, placing, place);
                add_check(checks, n as u32, &grid.cells, &changed);
            }
        }
    }
    if random.chance(20) {
        spoil(random, &mut grid.cells);
        add_check(checks, n as u32, &grid.cells, &near);
    }
}

fn changed_number(random: &mut Random, placing: &[i32], place: usize) -> i32 {
    match random.below(5) {
        0 => random.pick(&EXTREMES),
        1 => placing[place].wrapping_add(1),
        2 => placing[place].wrapping_sub(1),
        // The event's other number, so that start and end are equal.
        3 => placing[place ^ 1],
        _ => random.pick(placing),
    }
}

/// The same order of endpoints, with values over the whole range of 32 bits.
fn spread(random: &mut Random, placing: &[i32]) -> Placing {
    let mut values: Vec<i32> = (0..220).map(|_| random.next() as i32).collect();
    values.extend([i32::MIN, i32::MAX]);
    values.sort();
    values.dedup();
    let used: std::collections::BTreeSet<i32> = placing.iter().copied().collect();
    let spread: std::collections::BTreeMap<i32, i32> = if random.chance(50) {
        used.iter().copied().zip(values).collect()
    } else {
        used.iter().rev().copied().zip(values.into_iter().rev()).collect()
    };
    placing.iter().map(|value| spread[value]).collect()
}

fn add_check(checks: &mut Checks, n: u32, cells: &[u16], placing: &[i32]) {
    let mut case = Vec::new();
    put_u32(&mut case, n);
    put_u32(&mut case, cells.len() as u32);
    put_u32(&mut case, placing.len() as u32);
    put_u16s(&mut case, cells);
    put_i32s(&mut case, placing);
    if !checks.is_held(&case, cells.len()) || !checks.vectors.begin() {
        return;
    }
    checks.vectors.cases.extend(case);

    let (kind, value) = match check(n, cells, placing) {
        Ok(true) => (0, 0),
        Ok(false) => (1, 0),
        Err(number) => (REFUSED, number),
    };
    checks.vectors.answers.push(kind);
    put_u32(&mut checks.vectors.answers, value);
}

// Sheets

pub fn sheets(seed: u64, count: usize) -> Vectors {
    let mut vectors = Vectors::new(count);
    let mut random = Random::new(seed);
    let long = sheet_cases::sheet_of_length(MOST_BYTES + 1);
    for room in [0, 1, 9, 1_000, ROOM_CELLS - 1, ROOM_CELLS, ROOM_CELLS + 1, 2_048] {
        for sheet in [&long[..], sheet_cases::EXAMPLE.as_bytes(), b"", b"0\n", b"33\n"] {
            add_sheet(&mut vectors, room, 0, sheet);
        }
    }
    for ask in [0, 1, 2, 3, 4, 31, 32, 33, u32::MAX] {
        for sheet in [sheet_cases::EXAMPLE.as_bytes(), b"0\n", b"1\na 0\n"] {
            add_sheet(&mut vectors, ROOM_CELLS, ask, sheet);
        }
    }
    for sheet in full_sheets() {
        add_sheet(&mut vectors, ROOM_CELLS, 16, &sheet);
    }
    let edges = sheet_cases::edge_sheets();
    let damaged = sheet_cases::damaged_everywhere(sheet_cases::EXAMPLE.as_bytes());
    let named = edges.iter().chain(&damaged).filter(|sheet| sheet.len() <= MOST_BYTES + 1);
    for (i, sheet) in named.enumerate() {
        add_sheet(&mut vectors, ROOM_CELLS, i as u32 % 4, sheet);
    }
    vectors.end_of_named();
    while !vectors.is_full() {
        let sheet = sheet_cases::mixed_sheet(&mut random);
        let bound = random.pick(&[3, 10, 35]);
        let ask = random.below(bound) as u32;
        let room = if random.chance(4) { random.below(1_200) } else { ROOM_CELLS };
        add_sheet(&mut vectors, room, ask, &sheet);
    }
    vectors
}

/// 32 events with up to 999 statements each, as far as 65,536 bytes reach: a good sheet, and one whose
/// contents list more than it holds. Every event but the last says the same of the last.
fn full_sheets() -> [Vec<u8>; 2] {
    let names = b"abcdefghijklmnopqrstuvwxyz012345";
    let sheet = |counts: &dyn Fn(usize) -> usize| {
        let mut contents = String::from("32\n");
        for (i, &name) in names.iter().enumerate() {
            contents += &format!("{} {}\n", name as char, counts(i));
        }
        let most = (MOST_BYTES - contents.len()) / 4;
        let lines = (0..32).map(counts).sum::<usize>().min(most);
        (contents + &"b 5\n".repeat(lines)).into_bytes()
    };
    [sheet(&|i| [999, 358, 0][usize::from(i > 15) + usize::from(i > 16)]), sheet(&|_| 999)]
}

fn add_sheet(vectors: &mut Vectors, room: usize, ask: u32, bytes: &[u8]) {
    if !vectors.begin() {
        return;
    }
    put_u32(&mut vectors.cases, room as u32);
    put_u32(&mut vectors.cases, ask);
    let pieces = pieces_of(bytes);
    put_u32(&mut vectors.cases, pieces.front.len() as u32);
    put_u32(&mut vectors.cases, pieces.piece.len() as u32);
    put_u32(&mut vectors.cases, pieces.times as u32);
    put_u32(&mut vectors.cases, pieces.back.len() as u32);
    for part in [pieces.front, pieces.piece, pieces.back] {
        vectors.cases.extend(part);
    }

    let mut cells: Vec<u16> = (0..room).map(|place| 40_000 + (place % 1_000) as u16).collect();
    let (kind, value, line) = match sheet::read(bytes, &mut cells) {
        Ok(n) => (0, n, 0),
        Err(refusal) => (REFUSED, refusal.number, refusal.line),
    };
    let name = sheet::name(bytes, ask);
    vectors.answers.push(kind);
    put_u32(&mut vectors.answers, value);
    put_u32(&mut vectors.answers, line);
    put_u32(&mut vectors.answers, checksum(&cells));
    put_u32(&mut vectors.answers, name.start as u32);
    put_u32(&mut vectors.answers, name.length as u32);
    vectors.answers.extend(name.of(bytes));
}

/// A sheet as three pieces, of which the second is repeated.
struct Pieces<'a> {
    front: &'a [u8],
    piece: &'a [u8],
    times: usize,
    back: &'a [u8],
}

/// The pieces that spare most bytes, by the longest stretch that repeats a piece of at most 32.
fn pieces_of(bytes: &[u8]) -> Pieces<'_> {
    let mut best = Pieces { front: bytes, piece: &[], times: 0, back: &[] };
    let mut spared = 0;
    for length in 1..=32 {
        let mut start = 0;
        while start + length < bytes.len() {
            let shifted = bytes[start + length..].iter();
            let alike = shifted.zip(&bytes[start..]).take_while(|(one, other)| one == other).count();
            let times = 1 + alike / length;
            if (times - 1) * length > spared {
                spared = (times - 1) * length;
                let end = start + times * length;
                let piece = &bytes[start..start + length];
                best = Pieces { front: &bytes[..start], piece, times, back: &bytes[end..] };
            }
            start += alike + 1;
        }
    }
    best
}

/// A checksum of cells in their order.
fn checksum(cells: &[u16]) -> u32 {
    let sum = cells.iter().fold(0, |sum, &cell| (sum * 65_599 + u64::from(cell)) % 4_294_967_291);
    sum as u32
}

#[cfg(test)]
mod tests {
    use super::*;

    #[test]
    fn the_checksum_tells_cells_and_their_order_apart() {
        assert_eq!(checksum(&[]), 0);
        assert_eq!(checksum(&[1, 2]), 65_601);
        assert_ne!(checksum(&[2, 1]), 65_601);
        assert_eq!(checksum(&[1, 0, 0]), (65_599_u64 * 65_599 % 4_294_967_291) as u32);
    }

    #[test]
    fn full_sheets_are_full() {
        let [good, short] = full_sheets();
        assert!(good.len() > MOST_BYTES - 4 && good.len() <= MOST_BYTES);
        assert!(sheet::parse(&good).is_ok_and(|sheet| sheet.grid.at(16, 31) == 1));
        assert!(short.len() > MOST_BYTES - 4 && sheet::parse(&short).is_err());
    }

    #[test]
    fn pieces_make_up_the_sheet() {
        let long = sheet_cases::sheet_of_length(MOST_BYTES);
        for sheet in sheet_cases::edge_sheets() {
            let pieces = pieces_of(&sheet);
            let middle = pieces.piece.repeat(pieces.times);
            assert_eq!([pieces.front, &middle, pieces.back].concat(), sheet);
        }
        assert!(pieces_of(&long).front.len() < 100);
    }

    #[test]
    fn the_same_seed_gives_the_same_files() {
        for make in [relations, closings, searches, checks, sheets] {
            let one = make(3, 700);
            let other = make(3, 700);
            assert!(one.cases == other.cases && one.answers == other.answers);
        }
    }

    #[test]
    fn records_have_their_length() {
        let vectors = relations(1, 1_000);
        assert_eq!((vectors.cases.len(), vectors.answers.len()), (4_000, 6_000));
        let vectors = checks(1, 1_000);
        assert_eq!(vectors.answers.len(), 5_000);
    }

    #[test]
    fn no_check_comes_twice() {
        let vectors = checks(1, 1_900);
        let mut rest = &vectors.cases[..];
        let mut seen = HashSet::new();
        while !rest.is_empty() {
            let u32_at = |at: usize| u32::from_le_bytes(rest[at..at + 4].try_into().unwrap());
            let length = 12 + 2 * u32_at(4) + 4 * u32_at(8);
            let (case, further) = rest.split_at(length as usize);
            assert!(seen.insert(case));
            rest = further;
        }
        assert_eq!(seen.len(), 1_900);
    }

    #[test]
    fn a_spread_placing_meets_the_same_grid() {
        let mut random = Random::new(8);
        for _ in 0..100 {
            let near = grid_cases::random_placing(&mut random, 6, 10);
            let grid = grid_cases::grid_around(&mut random, &near, 0, 0);
            let far = spread(&mut random, &near);
            assert_eq!(check(6, &grid.cells, &far), Ok(true));
        }
    }
}
