//! The grids and placings that the stored cases are made of.

use crate::grid::Grid;
use crate::random::Random;
use crate::relation::{between, mark, ANY, ONLY_EQ, RELATIONS};
use crate::search::Placing;

// By chance

/// How many events: often few, sometimes up to 32.
pub fn random_size(random: &mut Random) -> usize {
    let bound = random.pick(&[5, 9, 13, 21, 33]);
    random.below(bound)
}

/// Starts and ends below `span`, which is at least 2.
pub fn random_placing(random: &mut Random, n: usize, span: usize) -> Placing {
    let mut placing = Vec::new();
    for _ in 0..n {
        let start = random.below(span - 1);
        let end = start + 1 + random.below(span - 1 - start);
        placing.extend([start as i32, end as i32]);
    }
    placing
}

/// A relation, and each other one with a chance of `percent` in a hundred.
fn widened(random: &mut Random, r: usize, percent: usize) -> u16 {
    let mut set = mark(r);
    for other in 0..RELATIONS {
        if random.chance(percent) {
            set |= mark(other);
        }
    }
    set
}

/// The grid in which each pair holds the relation of the placing, each other relation with a chance
/// of `wide` in a hundred, and is left `any` with a chance of `loose` in a hundred.
/// The placing meets it.
pub fn grid_around(random: &mut Random, placing: &[i32], loose: usize, wide: usize) -> Grid {
    let mut grid = Grid::any(placing.len() / 2);
    let event = |i: usize| (placing[2 * i], placing[2 * i + 1]);
    for (i, j) in grid.pairs() {
        if !random.chance(loose) {
            let set = widened(random, between(event(i), event(j)), wide);
            grid.put(i, j, set);
        }
    }
    grid
}

/// The same without a placing behind it: with many events it is often a contradiction.
pub fn grid_of_sets(random: &mut Random, n: usize, loose: usize, wide: usize) -> Grid {
    let mut grid = Grid::any(n);
    for (i, j) in grid.pairs() {
        if !random.chance(loose) {
            let r = random.below(RELATIONS);
            let set = widened(random, r, wide);
            grid.put(i, j, set);
        }
    }
    grid
}

/// An accepted grid: sparse, middling or dense, its sets narrow or wide.
pub fn random_grid(random: &mut Random, n: usize) -> Grid {
    let loose = random.pick(&[90, 70, 40, 10, 0]);
    let wide = random.pick(&[0, 10, 25, 50, 80]);
    let mut grid = if random.chance(55) {
        let span = random.pick(&[3, 5, 2 * n + 2, 100]);
        let placing = random_placing(random, n, span);
        grid_around(random, &placing, loose, wide)
    } else {
        grid_of_sets(random, n, loose, wide)
    };
    if n > 1 && random.chance(3) {
        let i = random.below(n - 1);
        let j = i + 1 + random.below(n - 1 - i);
        grid.put(i, j, 0);
    }
    grid
}

/// A grid where a search often has to go back: each event is tied to seven to nine others,
/// by sets of about half the relations.
pub fn hard_grid(random: &mut Random) -> Grid {
    let n = if random.chance(4) { 16 + random.below(17) } else { 5 + random.below(10) };
    let tied = random.pick(&[7, 8, 9]);
    let loose = 100 - (100 * tied / (n - 1)).min(100);
    grid_of_sets(random, n, loose, 45)
}

// By name

/// 0 b 1, 1 b 2, .. and the last b 0.
pub fn ring(n: usize) -> Grid {
    let mut grid = Grid::any(n);
    for i in 0..n {
        grid.put(i, (i + 1) % n, mark(0));
    }
    grid
}

/// 0 m 1, 1 m 2, ..: the closing has to carry the news through the whole grid.
pub fn chain(n: usize) -> Grid {
    let mut grid = Grid::any(n);
    for i in 1..n {
        grid.put(i - 1, i, mark(2));
    }
    grid
}

/// A closed grid without empty cells that no placing meets.
/// Events 1 and 2 lie apart inside event 0, but whichever relation 0 has to 3,
/// both of them would have to hold the same end of 3.
pub fn closed_without_placing() -> Grid {
    let mut grid = Grid::any(4);
    grid.put(0, 1, mark(9));
    grid.put(0, 2, mark(9));
    grid.put(0, 3, mark(5) | mark(11));
    grid.put(1, 2, mark(0) | mark(1));
    grid.put(1, 3, mark(2) | mark(10));
    grid.put(2, 3, mark(2) | mark(5));
    grid
}

/// The same as the last four of n events. The search goes through very many scenarios of the
/// others before it can say none.
pub fn late_contradiction(n: usize) -> Grid {
    let last = closed_without_placing();
    let mut grid = Grid::any(n);
    for (i, j) in last.pairs() {
        grid.put(n - 4 + i, n - 4 + j, last.at(i, j));
    }
    grid
}

/// The same again, of four or five events in any order, sometimes with a relation more.
pub fn hidden_contradiction(random: &mut Random) -> Grid {
    let n = 4 + random.below(2);
    let grid = late_contradiction(n);
    let mut order: Vec<usize> = (0..n).collect();
    for i in 0..n {
        order.swap(i, random.below(n));
    }
    let mut mixed = Grid::any(n);
    for (i, j) in grid.pairs() {
        let further = if random.chance(8) { mark(random.below(RELATIONS)) } else { 0 };
        mixed.put(order[i], order[j], grid.at(i, j) | further);
    }
    mixed
}

/// Accepted grids that every list of cases should hold.
pub fn named_grids() -> Vec<Grid> {
    let mut grids: Vec<Grid> = (0..=32).map(Grid::any).collect();
    for r in 0..RELATIONS {
        let mut grid = Grid::any(2);
        grid.put(0, 1, mark(r));
        grids.push(grid);
    }
    let mut example = Grid::any(3);
    example.put(1, 0, mark(8));
    example.put(2, 1, mark(0) | mark(2));
    grids.push(example);
    for n in [3, 4, 8, 32] {
        grids.push(ring(n));
        grids.push(chain(n));
    }
    for n in [4, 5, 6, 10] {
        grids.push(late_contradiction(n));
    }
    for (n, i, j) in [(2, 0, 1), (3, 0, 1), (3, 1, 2), (4, 0, 3), (32, 30, 31), (32, 0, 31)] {
        let mut grid = Grid::any(n);
        grid.put(i, j, 0);
        grids.push(grid);
    }
    grids
}

/// Sizes and cells that are refused, with faults alone and together to show the order of refusals.
pub fn refused_grids() -> Vec<(u32, Vec<u16>)> {
    let mut refused = Vec::new();

    // Too many events, with no cells, with wrong cells, with n * n cells, and with as many cells
    // as n * n leaves in 32 bits.
    for n in [33, 34, 1_000, 65_536, 65_537, 1 << 31, u32::MAX] {
        for cells in [0, 1, 4, 1_024, 1_089] {
            refused.push((n, vec![ONLY_EQ; cells]));
        }
    }
    refused.push((33, Grid::any(33).cells));
    refused.push((33, vec![65_535; 1_089]));

    // Wrong lengths, with good cells and with cells above 8191.
    for n in [0u32, 1, 2, 5, 32] {
        let right = (n * n) as usize;
        for cells in [0, 1, right.saturating_sub(1), right + 1, 2 * n as usize, 1_024, 1_100] {
            if cells != right {
                refused.push((n, vec![ANY; cells]));
                refused.push((n, vec![ANY + 1; cells]));
            }
        }
    }

    for n in [1, 2, 3, 32] {
        refused_cells(n, &mut refused);
    }
    refused
}

/// Refusals 3, 4 and 5 at the first, a middle and the last cell, alone and together.
fn refused_cells(n: usize, refused: &mut Vec<(u32, Vec<u16>)>) {
    let mut add = |grid: &Grid| refused.push((n as u32, grid.cells.clone()));
    let last = n * n - 1;
    for place in [0, last / 2, last] {
        for above in [ANY + 1, ONLY_EQ | 8_192, 65_535] {
            let mut grid = Grid::any(n);
            grid.cells[place] = above;
            add(&grid);
        }
    }
    for i in [0, n / 2, n - 1] {
        for wrong in [0, ANY, ONLY_EQ | 1] {
            let mut grid = Grid::any(n);
            grid.cells[i * n + i] = wrong;
            add(&grid);
        }
    }
    if n == 1 {
        return;
    }
    for (i, j) in [(0, 1), (0, n - 1), (n - 2, n - 1)] {
        for (set, mirror) in [(1, 1), (1, 0), (0, 2), (84, 84)] {
            let mut grid = Grid::any(n);
            grid.cells[i * n + j] = set;
            grid.cells[j * n + i] = mirror;
            add(&grid);
            // The same with a diagonal fault after it, then with a cell too large after that.
            grid.cells[last] = ANY;
            add(&grid);
            grid.cells[last - 1] = ANY + 1;
            add(&grid);
        }
    }
    // A mirror that is right but for a mark above 8191.
    let mut grid = Grid::any(n);
    grid.put(0, 1, 1);
    grid.cells[n] |= 16_384;
    add(&grid);
}

#[cfg(test)]
mod tests {
    use super::*;
    use crate::grid;
    use crate::search::{by_plain_closing, meets, search_grid, Answer};

    #[test]
    fn random_grids_are_accepted() {
        let mut random = Random::new(1);
        for _ in 0..500 {
            let n = random_size(&mut random);
            let grid = random_grid(&mut random, n);
            assert!(grid::accept_size(n as u32, &grid.cells).is_ok());
            assert!(grid::accept_cells(n as u32, &grid.cells).is_ok());
        }
    }

    #[test]
    fn a_placing_meets_the_grid_around_it() {
        let mut random = Random::new(2);
        for _ in 0..200 {
            let placing = random_placing(&mut random, 7, 9);
            let grid = grid_around(&mut random, &placing, 20, 20);
            assert!(meets(&grid, &placing));
        }
    }

    #[test]
    fn a_closed_grid_may_have_no_placing() {
        let mut closed = closed_without_placing();
        assert!(by_plain_closing(&mut closed));
        assert_eq!(closed, closed_without_placing());
        assert_eq!(search_grid(&closed, 9, by_plain_closing).0, Answer::None { tries: 4 });
    }

    #[test]
    fn refused_grids_are_refused() {
        for (n, cells) in refused_grids() {
            let accepted =
                grid::accept_size(n, &cells).is_ok() && grid::accept_cells(n, &cells).is_ok();
            assert!(!accepted);
            assert!(cells.len() <= 1_100);
        }
    }
}
