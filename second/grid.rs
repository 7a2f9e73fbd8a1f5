//! Grids: which are accepted, plain closing and quick closing.

use crate::refusal;
use crate::relation::{compose, converse, mark, ANY, ONLY_EQ};
use std::collections::VecDeque;

pub const MOST_EVENTS: u32 = 32;

/// A square of cells. Cell (i, j) is at place i * n + j.
#[derive(Clone, Debug, PartialEq)]
pub struct Grid {
    pub n: usize,
    pub cells: Vec<u16>,
}

impl Grid {
    /// The grid that says nothing: every pair is `any`.
    pub fn any(n: usize) -> Grid {
        let mut grid = Grid { n, cells: vec![ANY; n * n] };
        for i in 0..n {
            grid.cells[i * n + i] = ONLY_EQ;
        }
        grid
    }

    pub fn at(&self, i: usize, j: usize) -> u16 {
        self.cells[i * self.n + j]
    }

    /// Writes a set into a cell, and its converse into the mirror.
    pub fn put(&mut self, i: usize, j: usize, set: u16) {
        self.cells[i * self.n + j] = set;
        self.cells[j * self.n + i] = converse(set);
    }

    /// Cuts a cell and its mirror to `allowed`, and says whether the cell shrank.
    pub fn cut(&mut self, i: usize, j: usize, allowed: u16) -> bool {
        let before = self.at(i, j);
        let after = before & allowed;
        if after != before {
            self.put(i, j, after);
        }
        after != before
    }

    pub fn cut_to_relation(&mut self, i: usize, j: usize, r: usize) {
        self.cut(i, j, mark(r));
    }

    pub fn has_empty_cell(&self) -> bool {
        self.cells.contains(&0)
    }

    /// All pairs (i, j), i < j, row by row.
    pub fn pairs(&self) -> Vec<(usize, usize)> {
        let mut pairs = Vec::new();
        for i in 0..self.n {
            for j in i + 1..self.n {
                pairs.push((i, j));
            }
        }
        pairs
    }
}

/// Refusals 1 and 2.
pub fn accept_size(n: u32, cells: &[u16]) -> Result<(), u32> {
    if n > MOST_EVENTS {
        return Err(refusal::TOO_MANY_EVENTS);
    }
    if cells.len() != (n * n) as usize {
        return Err(refusal::GRID_LENGTH);
    }
    Ok(())
}

/// Refusals 3, 4 and 5, for a grid of the right size.
pub fn accept_cells(n: u32, cells: &[u16]) -> Result<Grid, u32> {
    let n = n as usize;
    let grid = Grid { n, cells: cells.to_vec() };
    if cells.iter().any(|&set| set > ANY) {
        return Err(refusal::SET_TOO_LARGE);
    }
    if (0..n).any(|i| grid.at(i, i) != ONLY_EQ) {
        return Err(refusal::DIAGONAL);
    }
    for i in 0..n {
        for j in 0..n {
            if grid.at(j, i) != converse(grid.at(i, j)) {
                return Err(refusal::MIRROR);
            }
        }
    }
    Ok(grid)
}

fn accept(n: u32, cells: &[u16]) -> Result<Grid, u32> {
    accept_size(n, cells)?;
    accept_cells(n, cells)
}

#[derive(Clone, Copy, Debug, PartialEq)]
pub enum PlainAnswer {
    Closed,
    Contradiction,
}

/// Sweeps over all routes, equal numbers too, until a sweep changes nothing.
pub fn close_plainly(grid: &mut Grid) -> PlainAnswer {
    while sweep(grid) {}
    if grid.has_empty_cell() {
        PlainAnswer::Contradiction
    } else {
        PlainAnswer::Closed
    }
}

/// One sweep. The mirrored cells get their own routes, so no mirror is written here.
fn sweep(grid: &mut Grid) -> bool {
    let n = grid.n;
    let mut changed = false;
    for i in 0..n {
        for j in 0..n {
            for k in 0..n {
                let before = grid.at(i, j);
                let after = before & compose(grid.at(i, k), grid.at(k, j));
                grid.cells[i * n + j] = after;
                changed |= after != before;
            }
        }
    }
    changed
}

/// Plain closing of lent cells, or the refusal's number.
pub fn plain_closing(n: u32, cells: &mut [u16]) -> Result<PlainAnswer, u32> {
    let mut grid = accept(n, cells)?;
    let answer = close_plainly(&mut grid);
    cells.copy_from_slice(&grid.cells);
    Ok(answer)
}

#[derive(Clone, Copy, Debug, PartialEq)]
pub enum QuickAnswer {
    Closed { takes: u32 },
    Contradiction { takes: u32 },
    Paused { takes: u32 },
}

/// A cell has become empty.
struct Emptied;

/// The pairs still to be taken, first in first out.
struct Waiting {
    list: VecDeque<(usize, usize)>,
}

impl Waiting {
    /// The smaller number goes first in the pair. A waiting pair is not added again.
    fn join(&mut self, i: usize, j: usize) {
        let pair = (i.min(j), i.max(j));
        if !self.list.contains(&pair) {
            self.list.push_back(pair);
        }
    }
}

/// Quick closing with a limit of takes.
pub fn close_quickly(grid: &mut Grid, limit: u32) -> QuickAnswer {
    let mut takes = 0;
    if grid.has_empty_cell() {
        grid.cells.fill(0);
        return QuickAnswer::Contradiction { takes };
    }
    let mut waiting = Waiting { list: grid.pairs().into() };
    while !waiting.list.is_empty() {
        if takes == limit {
            return QuickAnswer::Paused { takes };
        }
        takes += 1;
        if let Err(Emptied) = take(grid, &mut waiting) {
            grid.cells.fill(0);
            return QuickAnswer::Contradiction { takes };
        }
    }
    QuickAnswer::Closed { takes }
}

fn take(grid: &mut Grid, waiting: &mut Waiting) -> Result<(), Emptied> {
    let Some((i, j)) = waiting.list.pop_front() else {
        return Ok(());
    };
    for k in 0..grid.n {
        if k == i || k == j {
            continue;
        }
        let allowed = compose(grid.at(i, j), grid.at(j, k));
        cut_and_join(grid, waiting, i, k, allowed)?;
        let allowed = compose(grid.at(k, i), grid.at(i, j));
        cut_and_join(grid, waiting, k, j, allowed)?;
    }
    Ok(())
}

fn cut_and_join(
    grid: &mut Grid,
    waiting: &mut Waiting,
    i: usize,
    j: usize,
    allowed: u16,
) -> Result<(), Emptied> {
    if !grid.cut(i, j, allowed) {
        return Ok(());
    }
    if grid.at(i, j) == 0 {
        return Err(Emptied);
    }
    waiting.join(i, j);
    Ok(())
}

/// Quick closing of lent cells, or the refusal's number.
pub fn quick_closing(n: u32, limit: u32, cells: &mut [u16]) -> Result<QuickAnswer, u32> {
    let mut grid = accept(n, cells)?;
    let answer = close_quickly(&mut grid, limit);
    cells.copy_from_slice(&grid.cells);
    Ok(answer)
}

#[cfg(test)]
mod tests {
    use super::*;
    use crate::grid_cases;
    use crate::random::Random;

    fn three_in_a_ring() -> Grid {
        let mut grid = Grid::any(3);
        grid.put(0, 1, 1);
        grid.put(1, 2, 1);
        grid.put(2, 0, 1);
        grid
    }

    #[test]
    fn refusals_come_in_their_order() {
        assert_eq!(accept(33, &[9000; 5]), Err(1));
        assert_eq!(accept(u32::MAX, &[0]), Err(1));
        assert_eq!(accept(2, &[9000; 5]), Err(2));
        assert_eq!(accept(2, &[0, 1, 1, 8192]), Err(3));
        assert_eq!(accept(2, &[4096, 1, 1, 0]), Err(4));
        assert_eq!(accept(2, &[4096, 1, 1, 4096]), Err(5));
        assert!(accept(2, &[4096, 1, 2, 4096]).is_ok());
        assert!(accept(2, &[4096, 0, 0, 4096]).is_ok());
        assert!(accept(0, &[]).is_ok());
    }

    #[test]
    fn a_ring_of_before_is_a_contradiction_in_one_take() {
        let mut grid = three_in_a_ring();
        let answer = close_quickly(&mut grid, 1);
        assert_eq!(answer, QuickAnswer::Contradiction { takes: 1 });
        assert_eq!(grid.cells, [0; 9]);
    }

    #[test]
    fn limit_zero_pauses_unless_a_cell_is_empty() {
        let mut grid = three_in_a_ring();
        assert_eq!(close_quickly(&mut grid, 0), QuickAnswer::Paused { takes: 0 });
        assert_eq!(grid, three_in_a_ring());
        grid.put(0, 2, 0);
        assert_eq!(close_quickly(&mut grid, 0), QuickAnswer::Contradiction { takes: 0 });
        assert_eq!(grid.cells, [0; 9]);
    }

    #[test]
    fn fewer_than_two_events_are_closed_at_once() {
        for n in 0..2 {
            assert_eq!(close_quickly(&mut Grid::any(n), 0), QuickAnswer::Closed { takes: 0 });
        }
    }

    #[test]
    fn an_empty_cell_empties_the_plainly_closed_grid() {
        let mut grid = Grid::any(4);
        grid.put(1, 3, 0);
        assert_eq!(close_plainly(&mut grid), PlainAnswer::Contradiction);
        assert_eq!(grid.cells, [0; 16]);
    }

    #[test]
    fn quick_closing_unpaused_is_plain_closing() {
        let mut random = Random::new(3);
        for _ in 0..500 {
            let n = random.below(10);
            let mut quick = grid_cases::random_grid(&mut random, n);
            let mut plain = quick.clone();
            close_quickly(&mut quick, u32::MAX);
            close_plainly(&mut plain);
            assert_eq!(quick, plain);
        }
    }

    #[test]
    fn a_refusal_leaves_the_cells() {
        let mut cells = [4096, 1, 1, 4096];
        assert_eq!(quick_closing(2, 9, &mut cells), Err(5));
        assert_eq!(plain_closing(2, &mut cells), Err(5));
        assert_eq!(cells, [4096, 1, 1, 4096]);
    }
}
