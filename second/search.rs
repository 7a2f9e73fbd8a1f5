//! Looking for a placing, checking one, and judging small grids by trying every placing.

use crate::grid::{self, close_plainly, close_quickly, Grid, PlainAnswer, QuickAnswer};
use crate::refusal;
use crate::relation::{between, holds, intervals, mark, members, Interval};
use std::collections::BTreeMap;

/// A placing: start then end, event by event.
pub type Placing = Vec<i32>;

fn event(placing: &[i32], i: usize) -> Interval {
    (placing[2 * i], placing[2 * i + 1])
}

// Searching

#[derive(Clone, Copy, Debug, PartialEq)]
pub enum Answer {
    Placed { tries: u32 },
    None { tries: u32 },
    GaveUp { allowance: u32 },
}

/// How a grid is closed. The answer is false exactly if something is empty.
pub type Closing = fn(&mut Grid) -> bool;

pub fn by_quick_closing(grid: &mut Grid) -> bool {
    matches!(close_quickly(grid, u32::MAX), QuickAnswer::Closed { .. })
}

pub fn by_plain_closing(grid: &mut Grid) -> bool {
    close_plainly(grid) == PlainAnswer::Closed
}

/// What the cells from one on come to.
enum Decided {
    Scenario(Grid),
    None,
    GaveUp,
}

struct Search {
    pairs: Vec<(usize, usize)>,
    close: Closing,
    allowance: u32,
    tries: u32,
}

impl Search {
    /// Decides the pair numbered `next` and all after it. The grid is closed and has no empty cell.
    fn decide(&mut self, grid: &Grid, next: usize) -> Decided {
        if next == self.pairs.len() {
            return Decided::Scenario(grid.clone());
        }
        let (i, j) = self.pairs[next];
        for r in members(grid.at(i, j)) {
            if self.tries == self.allowance {
                return Decided::GaveUp;
            }
            self.tries += 1;
            let mut tried = grid.clone();
            tried.cut_to_relation(i, j, r);
            // Where the cut changes nothing, the grid is still closed.
            if tried != *grid && !(self.close)(&mut tried) {
                continue;
            }
            match self.decide(&tried, next + 1) {
                Decided::None => continue,
                decided => return decided,
            }
        }
        Decided::None
    }
}

/// Searches an accepted grid. A placing comes back exactly if the answer is placed.
pub fn search_grid(grid: &Grid, allowance: u32, close: Closing) -> (Answer, Option<Placing>) {
    let mut closed = grid.clone();
    if !close(&mut closed) {
        return (Answer::None { tries: 0 }, None);
    }
    let mut search = Search { pairs: grid.pairs(), close, allowance, tries: 0 };
    match search.decide(&closed, 0) {
        Decided::None => (Answer::None { tries: search.tries }, None),
        Decided::GaveUp => (Answer::GaveUp { allowance }, None),
        Decided::Scenario(scenario) => {
            let placing = without_gaps(&scenario);
            assert!(meets(grid, &placing), "the placing found meets the grid");
            (Answer::Placed { tries: search.tries }, Some(placing))
        }
    }
}

/// The search over lent cells and a lent room, or the refusal's number.
pub fn search(n: u32, allowance: u32, cells: &[u16], room: &mut [i32]) -> Result<Answer, u32> {
    grid::accept_size(n, cells)?;
    accept_placing_length(n, room)?;
    let grid = grid::accept_cells(n, cells)?;
    let (answer, placing) = search_grid(&grid, allowance, by_quick_closing);
    if let Some(placing) = placing {
        room.copy_from_slice(&placing);
    }
    Ok(answer)
}

fn accept_placing_length(n: u32, placing: &[i32]) -> Result<(), u32> {
    if placing.len() != (2 * n) as usize {
        return Err(refusal::PLACING_LENGTH);
    }
    Ok(())
}

// The placing without gaps

/// Two intervals with this relation. Two intervals have at most four different ends.
fn shown_by(r: usize) -> (Interval, Interval) {
    for x in intervals(3) {
        for y in intervals(3) {
            if holds(r, x, y) {
                return (x, y);
            }
        }
    }
    panic!("ends 0 to 3 show every relation");
}

/// Endpoint 2i is the start of event i, endpoint 2i + 1 its end.
/// In a scenario the relation of two events says which of their endpoints comes before which.
fn comes_before(scenario: &Grid, p: usize, q: usize) -> bool {
    let r = members(scenario.at(p / 2, q / 2)).next().expect("a scenario has no empty cell");
    let (x, y) = shown_by(r);
    let end_of = |interval: Interval, p: usize| if p % 2 == 0 { interval.0 } else { interval.1 };
    end_of(x, p) < end_of(y, q)
}

/// The placing of a scenario whose endpoint values are exactly 0, 1, .. up to the largest.
/// Each value in turn goes to the endpoints that no other endpoint still without one comes before.
pub fn without_gaps(scenario: &Grid) -> Placing {
    let endpoints = 2 * scenario.n;
    let mut placing = vec![0; endpoints];
    let mut left: Vec<usize> = (0..endpoints).collect();
    let mut value = 0;
    while !left.is_empty() {
        let is_first = |p: usize| !left.iter().any(|&q| comes_before(scenario, q, p));
        let (first, rest): (Vec<usize>, Vec<usize>) = left.iter().partition(|&&p| is_first(p));
        assert!(!first.is_empty(), "the scenario has a placing");
        for p in first {
            placing[p] = value;
        }
        left = rest;
        value += 1;
    }
    placing
}

pub fn is_without_gaps(placing: &[i32]) -> bool {
    let largest = placing.iter().copied().max().unwrap_or(0);
    placing.iter().all(|&value| value >= 0)
        && (placing.is_empty() || (0..=largest).all(|value| placing.contains(&value)))
}

// Checking

/// Does the placing meet every cell?
pub fn meets(grid: &Grid, placing: &[i32]) -> bool {
    for i in 0..grid.n {
        for j in 0..grid.n {
            let r = between(event(placing, i), event(placing, j));
            if grid.at(i, j) & mark(r) == 0 {
                return false;
            }
        }
    }
    true
}

/// The checker over lent cells and a lent placing, or the refusal's number.
pub fn check(n: u32, cells: &[u16], placing: &[i32]) -> Result<bool, u32> {
    grid::accept_size(n, cells)?;
    accept_placing_length(n, placing)?;
    let grid = grid::accept_cells(n, cells)?;
    if (0..grid.n).any(|i| event(placing, i).0 >= event(placing, i).1) {
        return Err(refusal::START_NOT_BEFORE_END);
    }
    Ok(meets(&grid, placing))
}

// Judging by every placing

/// Every scenario that a placing of n events meets, in the order of the search,
/// each with its one placing without gaps.
pub struct Scenarios {
    pairs: Vec<(usize, usize)>,
    all: BTreeMap<[u8; Scenarios::MOST_PAIRS], Placing>,
}

impl Scenarios {
    /// The pairs of four events. With five there are too many placings to try.
    const MOST_PAIRS: usize = 6;

    /// Tries every placing with ends 0 to 2n - 1. There are at most 2n different ends,
    /// so these show every scenario.
    pub fn of(n: usize) -> Scenarios {
        let mut scenarios = Scenarios { pairs: Grid::any(n).pairs(), all: BTreeMap::new() };
        let choices = intervals(2 * n as i32 - 1);
        scenarios.try_placings(&mut Vec::new(), 2 * n, &choices);
        for placing in scenarios.all.values() {
            assert!(is_without_gaps(placing), "each scenario has a placing without gaps");
        }
        scenarios
    }

    fn try_placings(&mut self, placing: &mut Placing, numbers: usize, choices: &[Interval]) {
        if placing.len() == numbers {
            self.add(placing);
            return;
        }
        for &(start, end) in choices {
            placing.extend([start, end]);
            self.try_placings(placing, numbers, choices);
            placing.truncate(placing.len() - 2);
        }
    }

    fn add(&mut self, placing: &Placing) {
        let mut scenario = [0; Scenarios::MOST_PAIRS];
        for (place, &(i, j)) in self.pairs.iter().enumerate() {
            scenario[place] = between(event(placing, i), event(placing, j)) as u8;
        }
        let kept = self.all.entry(scenario).or_insert_with(|| placing.clone());
        if is_without_gaps(placing) {
            let only = !is_without_gaps(kept) || kept == placing;
            assert!(only, "a scenario has one placing without gaps");
            kept.clone_from(placing);
        }
    }

    pub fn count(&self) -> usize {
        self.all.len()
    }

    /// The placing without gaps of the first scenario inside the grid, if there is one.
    pub fn first_in(&self, grid: &Grid) -> Option<&Placing> {
        let sets: Vec<u16> = self.pairs.iter().map(|&(i, j)| grid.at(i, j)).collect();
        let inside = |scenario: &[u8]| {
            sets.iter().zip(scenario).all(|(set, &r)| set & mark(r as usize) != 0)
        };
        self.all.iter().find(|(scenario, _)| inside(*scenario)).map(|(_, placing)| placing)
    }
}

#[cfg(test)]
mod tests {
    use super::*;
    use crate::relation::RELATIONS;

    /// The grid of the example sheet.
    fn mill_flood_wedding() -> Grid {
        let mut grid = Grid::any(3);
        grid.put(1, 0, mark(8));
        grid.put(2, 1, mark(0) | mark(2));
        grid
    }

    #[test]
    fn every_relation_has_two_intervals() {
        for r in 0..RELATIONS {
            let (x, y) = shown_by(r);
            assert_eq!(between(x, y), r);
        }
    }

    // Published counts of the ways in which n intervals can lie.
    #[test]
    fn scenarios_are_counted_right() {
        let counts: Vec<usize> = (0..4).map(|n| Scenarios::of(n).count()).collect();
        assert_eq!(counts, [1, 1, 13, 409]);
    }

    #[test]
    fn allowances_around_the_tries() {
        let grid = mill_flood_wedding();
        let mut room = [-1; 6];
        let answer = search(3, 2, &grid.cells, &mut room);
        assert_eq!(answer, Ok(Answer::GaveUp { allowance: 2 }));
        assert_eq!(room, [-1; 6]);
        let answer = search(3, 3, &grid.cells, &mut room);
        assert_eq!(answer, Ok(Answer::Placed { tries: 3 }));
        assert_eq!(room, [2, 5, 3, 4, 0, 1]);
    }

    #[test]
    fn few_events_need_no_try() {
        let mut room = [-1; 2];
        assert_eq!(search(0, 0, &[], &mut []), Ok(Answer::Placed { tries: 0 }));
        assert_eq!(search(1, 0, &[4096], &mut room), Ok(Answer::Placed { tries: 0 }));
        assert_eq!(room, [0, 1]);
    }

    #[test]
    fn an_empty_cell_is_none_without_a_try() {
        let cells = [4096, 0, 0, 4096];
        assert_eq!(search(2, 0, &cells, &mut [0; 4]), Ok(Answer::None { tries: 0 }));
    }

    #[test]
    fn refusals_come_in_their_order() {
        let search = |n, cells: &[u16], numbers| search(n, 0, cells, &mut vec![0; numbers]);
        assert_eq!(search(33, &[9000], 1), Err(1));
        assert_eq!(search(1, &[9000, 0], 1), Err(2));
        assert_eq!(search(1, &[9000], 1), Err(6));
        assert_eq!(search(1, &[9000], 2), Err(3));
        assert_eq!(search(1, &[0], 2), Err(4));
        assert_eq!(search(2, &[4096, 1, 1, 4096], 4), Err(5));
        assert_eq!(check(1, &[9000], &[5, 5, 5]), Err(6));
        assert_eq!(check(1, &[0], &[5, 5]), Err(4));
        assert_eq!(check(2, &[4096, 1, 1, 4096], &[5, 5, 5, 5]), Err(5));
        assert_eq!(check(1, &[4096], &[5, 5]), Err(7));
        assert_eq!(check(1, &[4096], &[5, 6]), Ok(true));
    }

    #[test]
    fn the_checker_takes_numbers_of_any_size() {
        let cells = [4096, mark(0), mark(1), 4096];
        assert_eq!(check(2, &cells, &[i32::MIN, -1, i32::MAX - 1, i32::MAX]), Ok(true));
        assert_eq!(check(2, &cells, &[i32::MIN, i32::MAX, 0, 1]), Ok(false));
        assert_eq!(check(2, &cells, &[i32::MAX, i32::MIN, 0, 1]), Err(7));
    }

    #[test]
    fn gaps_are_seen() {
        assert!(is_without_gaps(&[]));
        assert!(is_without_gaps(&[0, 2, 1, 2]));
        assert!(!is_without_gaps(&[0, 2]));
        assert!(!is_without_gaps(&[1, 2]));
        assert!(!is_without_gaps(&[-1, 0]));
    }
}
