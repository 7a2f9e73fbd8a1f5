//! The thirteen relations, their converses and their composition.
//! Everything is worked out from the meaning of the relations between intervals.

use crate::refusal;
use std::sync::OnceLock;

pub const RELATIONS: usize = 13;
pub const NAMES: [&str; RELATIONS] =
    ["b", "bi", "m", "mi", "o", "oi", "s", "si", "d", "di", "f", "fi", "eq"];

/// The set of all thirteen.
pub const ANY: u16 = 8191;
/// The number of eq, which is its own converse.
pub const EQ: usize = 12;
/// The set that holds eq alone.
pub const ONLY_EQ: u16 = 4096;

/// A placed event: its start and its end.
pub type Interval = (i32, i32);

/// Does relation number r hold from x to y?
pub fn holds(r: usize, x: Interval, y: Interval) -> bool {
    match r {
        0 => x.1 < y.0,
        2 => x.1 == y.0,
        4 => x.0 < y.0 && y.0 < x.1 && x.1 < y.1,
        6 => x.0 == y.0 && x.1 < y.1,
        8 => y.0 < x.0 && x.1 < y.1,
        10 => y.0 < x.0 && x.1 == y.1,
        12 => x.0 == y.0 && x.1 == y.1,
        _ => holds(r - 1, y, x),
    }
}

/// The one relation that holds from x to y.
pub fn between(x: Interval, y: Interval) -> usize {
    (0..RELATIONS)
        .find(|&r| holds(r, x, y))
        .expect("one of the thirteen holds between two intervals")
}

/// All intervals with whole-number ends from 0 to `last`.
pub fn intervals(last: i32) -> Vec<Interval> {
    let mut all = Vec::new();
    for start in 0..=last {
        for end in start + 1..=last {
            all.push((start, end));
        }
    }
    all
}

pub fn mark(r: usize) -> u16 {
    1 << r
}

/// The relation numbers in a set, rising.
pub fn members(set: u16) -> impl Iterator<Item = usize> {
    let mut left = set;
    std::iter::from_fn(move || {
        if left == 0 {
            return None;
        }
        let r = left.trailing_zeros() as usize;
        left &= !mark(r);
        Some(r)
    })
}

fn exchanged(r: usize) -> usize {
    if r == EQ {
        EQ
    } else if r % 2 == 0 {
        r + 1
    } else {
        r - 1
    }
}

pub fn converse(set: u16) -> u16 {
    members(set).fold(0, |turned, r| turned | mark(exchanged(r)))
}

/// The composition of single relations, by trying every three intervals.
/// Three intervals have at most six different ends, so ends 0 to 5 show every case.
fn compose_singles() -> [[u16; RELATIONS]; RELATIONS] {
    let mut table = [[0; RELATIONS]; RELATIONS];
    let all = intervals(5);
    for &x in &all {
        for &y in &all {
            for &z in &all {
                table[between(x, y)][between(y, z)] |= mark(between(x, z));
            }
        }
    }
    table
}

/// Row r holds the composition of relation r with every set.
/// It is kept because closing asks for millions of compositions.
fn rows() -> &'static Vec<Vec<u16>> {
    static ROWS: OnceLock<Vec<Vec<u16>>> = OnceLock::new();
    ROWS.get_or_init(|| {
        let singles = compose_singles();
        let with = |r: usize, set: u16| members(set).fold(0, |union, s| union | singles[r][s]);
        (0..RELATIONS).map(|r| (0..=ANY).map(|set| with(r, set)).collect()).collect()
    })
}

/// The union of the compositions over all pairs of members.
pub fn compose(a: u16, b: u16) -> u16 {
    let rows = rows();
    let mut union = 0;
    for r in members(a) {
        union |= rows[r][b as usize];
        // Nothing can join all thirteen, and sparse grids come to that often.
        if union == ANY {
            break;
        }
    }
    union
}

/// The converse of a set handed in by itself, or the refusal's number.
pub fn converse_of(a: u16) -> Result<u16, u32> {
    if a > ANY {
        return Err(refusal::SET_TOO_LARGE);
    }
    Ok(converse(a))
}

/// The composition of sets handed in by themselves, or the refusal's number.
pub fn composition_of(a: u16, b: u16) -> Result<u16, u32> {
    if a > ANY || b > ANY {
        return Err(refusal::SET_TOO_LARGE);
    }
    Ok(compose(a, b))
}

#[cfg(test)]
mod tests {
    use super::*;

    #[test]
    fn exactly_one_relation_holds() {
        for x in intervals(5) {
            for y in intervals(5) {
                assert_eq!((0..RELATIONS).filter(|&r| holds(r, x, y)).count(), 1);
            }
        }
    }

    #[test]
    fn converse_is_the_relation_the_other_way_round() {
        for x in intervals(5) {
            for y in intervals(5) {
                assert_eq!(converse(mark(between(x, y))), mark(between(y, x)));
            }
        }
    }

    #[test]
    fn larger_ends_show_no_further_composition() {
        for x in intervals(7) {
            for y in intervals(7) {
                for z in intervals(7) {
                    let allowed = compose(mark(between(x, y)), mark(between(y, z)));
                    assert!(allowed & mark(between(x, z)) != 0);
                }
            }
        }
    }

    // Three intervals can lie to each other in 409 ways, a published count.
    #[test]
    fn the_table_holds_409_relations() {
        let ones: u32 = compose_singles().iter().flatten().map(|set| set.count_ones()).sum();
        assert_eq!(ones, 409);
    }

    #[test]
    fn composition_of_sets_is_the_union_over_members() {
        let singles = compose_singles();
        let mut random = crate::random::Random::new(1);
        for _ in 0..20_000 {
            let a = random.below(8192) as u16;
            let b = random.below(8192) as u16;
            let mut union = 0;
            for r in members(a) {
                for s in members(b) {
                    union |= singles[r][s];
                }
            }
            assert_eq!(compose(a, b), union);
        }
    }

    #[test]
    fn sets_above_8191_are_refused() {
        assert_eq!(converse_of(8191), Ok(8191));
        assert_eq!(converse_of(8192), Err(3));
        assert_eq!(composition_of(8192, 0), Err(3));
        assert_eq!(composition_of(0, 65535), Err(3));
    }
}
