//! Judges this program itself: by the worked examples, and small grids by every placing.

use crate::grid::{close_plainly, close_quickly, Grid, PlainAnswer, QuickAnswer};
use crate::grid_cases;
use crate::random::Random;
use crate::relation::{compose, converse, mark, ANY, NAMES, RELATIONS};
use crate::report;
use crate::search::{
    by_plain_closing, by_quick_closing, is_without_gaps, meets, search_grid, Answer, Scenarios,
};
use crate::sheet;
use crate::sheet_cases::{self, EXAMPLE};

const RANDOM_GRIDS_OF_THREE: usize = 20_000;
const RANDOM_GRIDS_OF_FOUR: usize = 5_000;
const RANDOM_LARGER_GRIDS: usize = 1_000;

/// What was judged, or the first difference.
pub fn run() -> Result<String, String> {
    let mut said = String::new();
    said += &format!("{} worked examples\n", worked_examples()?);
    said += &format!("{} sheets and their printed answers\n", printed_answers()?);
    for n in 0..=4 {
        said += &judge_grids(n)?;
    }
    said += &format!("{} larger grids: quick closing is plain closing\n", judge_closings()?);
    Ok(said)
}

fn equal<T: PartialEq + std::fmt::Debug>(what: &str, came: T, expected: T) -> Result<(), String> {
    if came == expected {
        return Ok(());
    }
    Err(format!("{what}: expected {expected:?}, came {came:?}\n"))
}

/// The set with one relation, by its name. No name gives the empty set.
fn only(name: &str) -> u16 {
    NAMES.iter().position(|&known| known == name).map_or(0, mark)
}

/// The twelve worked examples of the rules.
fn worked_examples() -> Result<usize, String> {
    let compositions = [
        ("b", "b", 1),
        ("b", "bi", 8191),
        ("m", "mi", 7168),
        ("s", "si", 4288),
        ("o", "o", 21),
        ("d", "o", 341),
        ("di", "d", 8176),
        ("eq", "di", 512),
    ];
    for (r, s, expected) in compositions {
        equal(&format!("{r} with {s}"), compose(only(r), only(s)), expected)?;
    }
    equal("empty with any", compose(0, ANY), 0)?;
    equal("converse of {m,o,s}", converse(84), 168)?;

    let mut grid = match sheet::parse(EXAMPLE.as_bytes()) {
        Ok(sheet) => sheet.grid,
        Err(refusal) => return Err(format!("the example sheet: {refusal:?}\n")),
    };
    let answer = close_quickly(&mut grid, u32::MAX);
    let expected = (QuickAnswer::Closed { takes: 3 }, 682);
    equal("the example sheet's closing", (answer, grid.at(0, 2)), expected)?;

    let mut ring = grid_cases::ring(3);
    let answer = close_quickly(&mut ring, u32::MAX);
    let expected = (QuickAnswer::Contradiction { takes: 1 }, vec![0; 9]);
    equal("a ring of three", (answer, ring.cells), expected)?;
    Ok(compositions.len() + 4)
}

/// Sheets with the answers that the rules state, and those at the limits.
fn printed_answers() -> Result<usize, String> {
    let contents = |n: usize| {
        let names: String = (0..n).map(|i| format!("e{i} 0\n")).collect();
        format!("{n}\n{names}").into_bytes()
    };
    let placed = "placed 3\nmill 2 5\nflood 3 4\nwedding 0 1\n";
    let places: [(Vec<u8>, &str); 4] = [
        (EXAMPLE.into(), placed),
        (contents(0), "placed 0\n"),
        (contents(1), "placed 0\ne0 0 1\n"),
        ("".into(), "refused 9 1\n"),
    ];
    let triages: [(Vec<u8>, &str); 5] = [
        (EXAMPLE.into(), "placed 3\n"),
        (contents(32), "placed 496\n"),
        (contents(33), "refused 1 1\n"),
        (sheet_cases::sheet_of_length(65_536), "placed 1\n"),
        (sheet_cases::sheet_of_length(65_537), "refused 8 0\n"),
    ];
    for (sheet, expected) in &places {
        equal("place", String::from_utf8_lossy(&report::place(sheet)), (*expected).into())?;
    }
    for (sheet, expected) in &triages {
        equal("triage", String::from_utf8_lossy(&report::triage(sheet)), (*expected).into())?;
    }
    Ok(places.len() + triages.len())
}

/// The grids of n events to judge: all of them where they are few enough.
fn grids_to_judge(n: usize) -> Vec<Grid> {
    let mut random = Random::new(n as u64);
    let grid_of = |sets: &[u16]| {
        let mut grid = Grid::any(n);
        for (&(i, j), &set) in grid.pairs().iter().zip(sets) {
            grid.put(i, j, set);
        }
        grid
    };
    match n {
        0 | 1 => vec![Grid::any(n)],
        2 => (0..=ANY).map(|set| grid_of(&[set])).collect(),
        3 => {
            let singles = 0..RELATIONS.pow(3);
            let relation =
                |number: usize, place: u32| mark(number / RELATIONS.pow(place) % RELATIONS);
            let mut grids: Vec<Grid> = singles
                .map(|number| grid_of(&[0, 1, 2].map(|place| relation(number, place))))
                .collect();
            grids.extend(
                (0..RANDOM_GRIDS_OF_THREE).map(|_| grid_cases::random_grid(&mut random, 3)),
            );
            grids
        }
        _ => {
            let mut grids = vec![grid_cases::closed_without_placing()];
            for _ in 0..RANDOM_GRIDS_OF_FOUR {
                grids.push(grid_cases::random_grid(&mut random, n));
                grids.push(grid_cases::hidden_contradiction(&mut random));
            }
            grids.retain(|grid| grid.n == n);
            grids
        }
    }
}

/// Judges the search and both closings on small grids, by every placing.
fn judge_grids(n: usize) -> Result<String, String> {
    let scenarios = Scenarios::of(n);
    let grids = grids_to_judge(n);
    let mut placed = 0;
    let mut none = 0;
    for grid in &grids {
        judge_closing(grid)?;
        match judge_search(grid, &scenarios)? {
            Answer::Placed { .. } => placed += 1,
            _ => none += 1,
        }
    }
    let possible = scenarios.count();
    let judged = grids.len();
    Ok(format!(
        "{judged} grids of {n} events against {possible} scenarios: {placed} placed, {none} none\n"
    ))
}

fn judge_search(grid: &Grid, scenarios: &Scenarios) -> Result<Answer, String> {
    let cells = &grid.cells;
    let (answer, placing) = search_grid(grid, u32::MAX, by_quick_closing);
    let first = scenarios.first_in(grid);
    equal(&format!("first placing of {cells:?}"), placing.as_ref(), first)?;
    if let Some(placing) = &placing {
        equal(&format!("{cells:?} met by {placing:?}"), meets(grid, placing), true)?;
        equal(&format!("{placing:?} without gaps"), is_without_gaps(placing), true)?;
    }

    let by_sweeps = search_grid(grid, u32::MAX, by_plain_closing);
    equal(&format!("search of {cells:?} by plain closing"), by_sweeps.0, answer)?;

    let (Answer::Placed { tries } | Answer::None { tries }) = answer else {
        return Err(format!("{cells:?}: gave up with the largest allowance\n"));
    };
    let exact = search_grid(grid, tries, by_quick_closing).0;
    equal(&format!("{cells:?} with its exact allowance"), exact, answer)?;
    if let Some(allowance) = tries.checked_sub(1) {
        let short = search_grid(grid, allowance, by_quick_closing).0;
        equal(&format!("{cells:?} with one less"), short, Answer::GaveUp { allowance })?;
    }
    Ok(answer)
}

fn judge_closing(grid: &Grid) -> Result<(), String> {
    let cells = &grid.cells;
    let mut quick = grid.clone();
    let mut plain = grid.clone();
    let quick_answer = close_quickly(&mut quick, u32::MAX);
    let plain_answer = close_plainly(&mut plain);
    equal(&format!("closing of {cells:?}"), &quick.cells, &plain.cells)?;
    let (takes, same) = match quick_answer {
        QuickAnswer::Closed { takes } => (takes, PlainAnswer::Closed),
        QuickAnswer::Contradiction { takes } => (takes, PlainAnswer::Contradiction),
        QuickAnswer::Paused { .. } => return Err(format!("{cells:?}: paused without a limit\n")),
    };
    equal(&format!("answer of closing {cells:?}"), same, plain_answer)?;
    let most = RELATIONS * grid.n * grid.n.saturating_sub(1) / 2;
    equal(&format!("{takes} takes for {cells:?} at most {most}"), takes as usize <= most, true)
}

fn judge_closings() -> Result<usize, String> {
    let mut random = Random::new(32);
    for _ in 0..RANDOM_LARGER_GRIDS {
        let n = 5 + random.below(28);
        judge_closing(&grid_cases::random_grid(&mut random, n))?;
    }
    Ok(RANDOM_LARGER_GRIDS)
}

#[cfg(test)]
mod tests {
    use super::*;

    #[test]
    fn the_twelve_examples_hold() {
        assert_eq!(worked_examples(), Ok(12));
    }

    #[test]
    fn the_printed_answers_hold() {
        assert!(printed_answers().is_ok());
    }

    #[test]
    fn all_grids_of_two_events_are_judged_right() {
        assert!(judge_grids(2).is_ok());
    }
}
