//! The delays' model by itself: against tables worked out by hand; on every small table and on random ones against places that are tried
//! one by one; and each result against the rule, as it can be seen from the result alone. It runs before the program is asked anything.

use crate::delays::*;
use crate::model::*;
use crate::model_check::unit_of;
use crate::random::{seed_of, Random};
use crate::{routes, units};

type Checked = Result<(), String>;

/// The columns of each segment.
type Rows = &'static [&'static [u32]];

/// A table of one function with a latency, and its result by hand: the columns and their marks, or the number of the refusal.
pub struct Example {
    pub columns: u32,
    pub rows: Rows,
    pub latency: u32,
    result: Reply<(u32, Rows)>,
}

const fn example(columns: u32, rows: Rows, latency: u32, result: Reply<(u32, Rows)>) -> Example {
    Example { columns, rows, latency, result }
}

const EVERY_COLUMN: &[u32] =
    &[1, 2, 3, 4, 5, 6, 7, 8, 9, 10, 11, 12, 13, 14, 15, 16, 17, 18, 19, 20, 21, 22, 23, 24, 25, 26, 27, 28, 29, 30, 31, 32];

/// A task that goes twice through 16 segments, and leaves the last one out the second time; and with delays for 2. In segment 1 the
/// remainder of 17 is that of 1, so that column 17 moves on; from then on each column has the other remainder without that.
const TWICE: Rows = &[
    &[1, 17],
    &[2, 18],
    &[3, 19],
    &[4, 20],
    &[5, 21],
    &[6, 22],
    &[7, 23],
    &[8, 24],
    &[9, 25],
    &[10, 26],
    &[11, 27],
    &[12, 28],
    &[13, 29],
    &[14, 30],
    &[15, 31],
    &[16],
];
const TWICE_DELAYED: Rows = &[
    &[1, 18],
    &[2, 19],
    &[3, 20],
    &[4, 21],
    &[5, 22],
    &[6, 23],
    &[7, 24],
    &[8, 25],
    &[9, 26],
    &[10, 27],
    &[11, 28],
    &[12, 29],
    &[13, 30],
    &[14, 31],
    &[15, 32],
    &[16],
];
/// Marks in the last of 16 segments alone, and with delays for 2.
const IN_LAST: Rows = &[&[], &[], &[], &[], &[], &[], &[], &[], &[], &[], &[], &[], &[], &[], &[], &[1, 3]];
const IN_LAST_DELAYED: Rows = &[&[], &[], &[], &[], &[], &[], &[], &[], &[], &[], &[], &[], &[], &[], &[], &[1, 4]];
/// Two marks in column 7, in the last two of 16 segments.
const LAST_TWO: Rows = &[&[1], &[2], &[3], &[], &[], &[], &[], &[], &[], &[], &[], &[], &[], &[], &[7], &[7]];

pub const EXAMPLES: &[Example] = &[
    // "Marks 1 3 6 with m = 3 become 1 3 8": 6 has the remainder of 3, and 7 that of 1
    example(6, &[&[1, 3, 6]], 3, Ok((8, &[&[1, 3, 8]]))),
    example(6, &[&[1, 3, 6]], 4, Ok((6, &[&[1, 3, 6]]))),
    example(6, &[&[1, 3, 6]], 32, Ok((6, &[&[1, 3, 6]]))),
    example(6, &[&[1, 3, 6]], 2, Err(20)),
    example(6, &[&[1, 3, 6]], 0, Err(20)),
    example(6, &[&[1, 3, 6]], 33, Err(20)),
    example(6, &[&[1, 3, 6]], 259, Err(20)),
    example(1, &[&[1]], 1, Ok((1, &[&[1]]))),
    // one mark in each segment: the remainder of every place is 0
    example(4, &[&[2], &[1], &[4]], 1, Ok((4, &[&[2], &[1], &[4]]))),
    // no marks, and no remainder 0
    example(3, &[&[], &[]], 1, Ok((3, &[&[], &[]]))),
    example(32, &[&[], &[]], 32, Ok((32, &[&[], &[]]))),
    example(4, &[&[2, 4]], 2, Ok((5, &[&[2, 5]]))),
    // a delay moves what comes after it: 4 to 5, so that 7 would be at 8, which has the remainder of 5
    example(7, &[&[1, 4, 7]], 3, Ok((9, &[&[1, 5, 9]]))),
    example(7, &[&[1, 3, 5, 7]], 4, Ok((8, &[&[1, 3, 6, 8]]))),
    // the two functions of Fig. 2
    example(5, &[&[1, 4], &[2], &[3, 5]], 2, Ok((6, &[&[1, 4], &[2], &[3, 6]]))),
    example(5, &[&[1, 4], &[2], &[3, 5]], 3, Ok((7, &[&[1, 5], &[2], &[3, 7]]))),
    example(5, &[&[2, 5], &[4], &[1, 3]], 2, Ok((7, &[&[2, 7], &[5], &[1, 4]]))),
    // 1, 2 and 4 are forbidden, and 0 1 2 is a set of three: the bound is 3
    example(8, &[&[1, 2], &[3, 5], &[4, 8]], 2, Ok((9, &[&[1, 2], &[3, 6], &[4, 9]]))),
    // the first segment has the most marks, or the last one
    example(5, &[&[1, 2, 4], &[3], &[5]], 2, Err(20)),
    example(5, &[&[5], &[3], &[1, 2, 4]], 2, Err(20)),
    example(5, &[&[5], &[3], &[1, 2, 4]], 3, Ok((7, &[&[7], &[3], &[1, 2, 6]]))),
    example(32, &[EVERY_COLUMN], 31, Err(20)),
    example(32, &[EVERY_COLUMN], 32, Ok((32, &[EVERY_COLUMN]))),
    // the last column is at 32, and at 33: without a mark, and with one
    example(31, &[&[1, 3]], 2, Ok((32, &[&[1, 4]]))),
    example(32, &[&[1, 3]], 2, Err(21)),
    example(30, &[&[1, 3, 30]], 3, Ok((32, &[&[1, 3, 32]]))),
    example(31, &[&[1, 3, 31]], 3, Ok((32, &[&[1, 3, 32]]))),
    example(32, &[&[1, 2, 32]], 3, Err(21)),
    // two delays: column 3 at 4, and 9, which would be at 10 with the remainder of 6, at 11
    example(30, &[&[1, 3], &[5, 9]], 2, Ok((32, &[&[1, 4], &[6, 11]]))),
    example(31, &[&[1, 3], &[5, 9]], 2, Err(21)),
    // the last mark is at 32, and a column without one comes after it
    example(31, &[&[1, 3, 30]], 3, Err(21)),
    example(4, IN_LAST, 2, Ok((5, IN_LAST_DELAYED))),
    example(31, TWICE, 2, Ok((32, TWICE_DELAYED))),
    example(32, TWICE, 2, Err(21)),
    // two marks in a column: the first one, the last one; before 20, and in the last segments
    example(5, &[&[1], &[1]], 2, Err(19)),
    example(32, &[&[1, 32], &[32]], 2, Err(19)),
    example(32, &[&[1, 32], &[32]], 1, Err(19)),
    example(32, &[&[1, 32], &[32]], 0, Err(19)),
    example(20, LAST_TWO, 9, Err(19)),
    // Fig. 1: column 8
    example(9, &[&[1, 9], &[2, 3, 8], &[4], &[5, 6], &[7, 8]], 7, Err(19)),
];

fn by_hand(yard: &mut Yard) -> Checked {
    for Example { columns, rows, latency, result } in EXAMPLES {
        let unit = unit_of(rows.len() as u32, *columns, &[*rows]);
        let wanted = result.map(|(columns, rows)| unit_of(rows.len() as u32, columns, &[rows]));
        let found = ways_agree(&unit, 1, *latency, yard)?;
        if found != wanted {
            return Err(format!("delays of {rows:?} for {latency}\nwanted: {wanted:?}\nfound:  {found:?}"));
        }
    }
    // a function that is not there comes before everything else
    let unit = unit_of(2, 1, &[&[&[1], &[1]]]);
    for tag in [0, 2, 257] {
        if delayed(&unit, tag, 0) != Err(2) {
            return Err(format!("delays of function {tag} of 1"));
        }
    }
    Ok(())
}

// ---------------------------------------------------------------------------------------------------------------------------------
// Places that are tried one by one

/// A mark that has its place: its segment, the column that it had, and the place.
pub struct Placed {
    pub segment: u32,
    pub column: u32,
    pub place: u32,
}

/// The places of a function's columns. A column is tried from `first` on, which is told the column and its predecessor's place, up to a
/// place that is not `taken`, which is told the segment that the column is marked in, if it is, and the marks before it; and no further
/// than to places that are refused anyway.
pub fn tried_places(
    unit: &Unit,
    tag: u32,
    first: impl Fn(u32, u32) -> u32,
    taken: impl Fn(Option<u32>, &[Placed], u32) -> bool,
) -> Vec<u32> {
    let spots = unit.spots(tag);
    let mut earlier: Vec<Placed> = Vec::new();
    let mut places: Vec<u32> = Vec::new();
    for column in 1..=unit.columns {
        let segment = spots.iter().find(|spot| spot.1 == column).map(|spot| spot.0);
        let mut place = first(column, places.last().copied().unwrap_or(0));
        while place <= 2 * MOST_COLUMNS && taken(segment, &earlier, place) {
            place += 1;
        }
        earlier.extend(segment.map(|segment| Placed { segment, column, place }));
        places.push(place);
    }
    places
}

/// The place after its predecessor's.
pub fn after(_: u32, predecessor: u32) -> u32 {
    predecessor + 1
}

/// Two places of the same remainder are a multiple of the latency apart.
fn same_remainder(one: u32, two: u32, latency: u32) -> bool {
    (one.max(two) - one.min(two)) % latency == 0
}

/// Whether an earlier mark of the column's segment has the remainder of the place.
pub fn is_taken(segment: Option<u32>, earlier: &[Placed], place: u32, latency: u32) -> bool {
    earlier.iter().any(|mark| Some(mark.segment) == segment && same_remainder(mark.place, place, latency))
}

pub fn marks_in(spots: &[Spot], segment: u32) -> u32 {
    spots.iter().filter(|spot| spot.0 == segment).count() as u32
}

/// The unit with delays, from the places that are tried and from what is refused, each condition by itself.
pub fn by_trial(unit: &Unit, tag: u32, latency: u32) -> Reply<Unit> {
    if tag == 0 || tag > unit.functions {
        return Err(2);
    }
    let spots = unit.spots(tag);
    let is_beside = |one: &Spot, two: &Spot| one.1 == two.1 && one.0 < two.0;
    if spots.iter().any(|one| spots.iter().any(|two| is_beside(one, two))) {
        return Err(19);
    }
    if latency == 0 || latency > 32 || (1..=unit.segments).any(|segment| marks_in(&spots, segment) > latency) {
        return Err(20);
    }
    moved(unit, tag, &tried_places(unit, tag, after, |segment, earlier, place| is_taken(segment, earlier, place, latency)))
}

// ---------------------------------------------------------------------------------------------------------------------------------
// A result by itself

/// Whether a unit is by the rule the one with delays, as it can be seen from its marks: a column without a mark has the place after its
/// predecessor's; the marks are the old ones in their order, each after its predecessor, at a place that no earlier mark of its segment
/// keeps it from, and kept from all places before that; the last place is the last column; and tasks that start at 0, m, 2 × m and so on
/// never meet.
fn check_result(unit: &Unit, tag: u32, latency: u32, result: &Unit, yard: &mut Yard) -> Checked {
    let in_order = |unit: &Unit, tag: u32| {
        let mut spots = unit.spots(tag);
        spots.sort_by_key(|spot| spot.1);
        spots.into_iter().peekable()
    };
    if (result.functions, result.segments) != (1, unit.segments) {
        return Err(format!("{} functions and {} segments", result.functions, result.segments));
    }
    let (mut old, mut new) = (in_order(unit, tag), in_order(result, 1));
    let mut earlier: Vec<Spot> = Vec::new();
    let mut last = 0;
    for column in 1..=unit.columns {
        let Some((segment, _)) = old.next_if(|spot| spot.1 == column) else {
            last += 1;
            continue;
        };
        let (moved_in, place) = new.next().ok_or_else(|| format!("the mark of column {column} is not there"))?;
        if moved_in != segment || place <= last {
            return Err(format!("the mark of column {column} is at place {place} in segment {moved_in}"));
        }
        let is_kept = |place: u32| earlier.iter().any(|mark| mark.0 == segment && same_remainder(mark.1, place, latency));
        if is_kept(place) || !(last + 1..place).all(is_kept) {
            return Err(format!("column {column} is not at the first place that it may have: {place}"));
        }
        earlier.push((segment, place));
        last = place;
    }
    if new.next().is_some() || result.columns != last {
        return Err(format!("{} columns in place of {last}, or marks too many", result.columns));
    }
    if !never_collides(&result.spots(1), &[latency as u8], yard) {
        return Err(format!("tasks that start every {latency} units meet"));
    }
    Ok(())
}

/// The two ways agree, and the result is by the rule. Answers the result.
fn ways_agree(unit: &Unit, tag: u32, latency: u32, yard: &mut Yard) -> Result<Reply<Unit>, String> {
    let (found, tried) = (delayed(unit, tag, latency), by_trial(unit, tag, latency));
    let told = || format!("delays of function {tag} of {unit:?} for {latency}");
    if found != tried {
        return Err(format!("{}: the ways disagree\n{found:?}\n{tried:?}", told()));
    }
    if let Ok(result) = &found {
        check_result(unit, tag, latency, result, yard).map_err(|why| format!("{}: {why}", told()))?;
    }
    Ok(found)
}

/// A result that is not by the rule is told.
fn results_differ(unit: &Unit, latency: u32, result: &Unit, yard: &mut Yard) -> Checked {
    let with = |change: fn(&mut Unit)| {
        let mut other = result.clone();
        change(&mut other);
        other
    };
    let others = [
        with(|unit| unit.functions += 1),
        with(|unit| unit.segments += 1),
        with(|unit| unit.columns += 1),
        with(|unit| unit.columns -= 1),
        with(|unit| unit.marks.retain(|mark| mark.column < unit.columns)),
        with(|unit| unit.marks = unit.marks.iter().map(|mark| Mark { column: mark.column + 1, ..*mark }).collect()),
        with(|unit| unit.marks = unit.marks.iter().map(|mark| Mark { segment: mark.segment + 1, ..*mark }).collect()),
        with(|unit| unit.marks = unit.marks.iter().map(|mark| Mark { tag: 2, ..*mark }).collect()),
        with(|unit| unit.marks.extend([Mark { tag: 1, segment: 1, column: unit.columns - 1 }])),
        with(|unit| unit.marks.extend([Mark { tag: 1, segment: 1, column: unit.columns + 1 }])),
    ];
    match others.iter().find(|other| check_result(unit, 1, latency, other, yard).is_ok()) {
        Some(other) => Err(format!("taken for the unit with delays: {other:?}")),
        None => Ok(()),
    }
}

// ---------------------------------------------------------------------------------------------------------------------------------
// Many tables

/// How often each refusal was met, and results with marks that have moved and without.
#[derive(Default)]
struct Met {
    refused: [u64; 22],
    moved: u64,
    still: u64,
}

impl Met {
    fn meet(&mut self, unit: &Unit, tag: u32, latency: u32, yard: &mut Yard) -> Checked {
        match ways_agree(unit, tag, latency, yard)? {
            Ok(result) if result.columns == unit.columns => self.still += 1,
            Ok(_) => self.moved += 1,
            Err(number) => self.refused[number as usize] += 1,
        }
        Ok(())
    }
}

/// Every table of this size, as a number whose digits say which segments each column is marked in: `ways` of them for a column.
fn every_table(segments: u32, columns: u32, ways: &[&[u32]], met: &mut Met, yard: &mut Yard) -> Checked {
    for number in 0..ways.len().pow(columns) {
        let mut unit = Unit::fresh(1, segments, columns).expect("counts in their ranges");
        for column in 1..=columns {
            let digit = number / ways.len().pow(column - 1) % ways.len();
            unit.marks.extend(ways[digit].iter().map(|segment| Mark { tag: 1, segment: *segment, column }));
        }
        for latency in 0..=columns + 1 {
            met.meet(&unit, 1, latency, yard)?;
        }
    }
    Ok(())
}

/// Everything above.
pub fn run() -> Checked {
    let (random, yard) = (&mut Random::new(seed_of(16, 0)), &mut Yard::new());
    by_hand(yard)?;
    let paper = unit_of(1, 6, &[&[&[1, 3, 6]]]);
    results_differ(&paper, 3, &delayed(&paper, 1, 3).map_err(|number| format!("the paper's table is refused by {number}"))?, yard)?;
    let mut met = Met::default();
    every_table(1, 9, &[&[], &[1]], &mut met, yard)?;
    every_table(2, 6, &[&[], &[1], &[2]], &mut met, yard)?;
    every_table(3, 5, &[&[], &[1], &[2], &[3]], &mut met, yard)?;
    every_table(2, 4, &[&[], &[1], &[2], &[1, 2]], &mut met, yard)?;
    for place in 0..3_000 {
        let unit = if place % 4 == 0 { units::unit(random) } else { routes::unit(random) };
        for tag in 0..=unit.functions + 1 {
            let most = most_marks(&unit.spots(tag));
            for latency in [most.saturating_sub(1), most, most + 1, random.between(0, MOST_COLUMNS + 1)] {
                met.meet(&unit, tag, latency, yard)?;
            }
        }
    }
    let Met { refused, moved, still } = met;
    let least = refused[2].min(refused[19]).min(refused[20]).min(refused[21]).min(moved).min(still);
    if least < 1_000 {
        return Err(format!("refused {refused:?} times, moved {moved} times and {still} times not"));
    }
    Ok(())
}
