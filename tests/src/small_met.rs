//! The special cases that small tables and totals are one of, good ones and bad ones, so that a run can tell which it has met.

use crate::model::*;
use crate::small::*;

/// Each with whether it holds.
type Cases = Vec<(bool, &'static str)>;

/// A special case of each size, in the order of `sizes`.
macro_rules! of_sizes {
    ($what:literal) => {
        [
            concat!($what, " 1 segment and 1 column"),
            concat!($what, " 1 segment and 2 columns"),
            concat!($what, " 1 segment and 3 columns"),
            concat!($what, " 1 segment and 4 columns"),
            concat!($what, " 1 segment and 5 columns"),
            concat!($what, " 1 segment and 6 columns"),
            concat!($what, " 2 segments and 1 column"),
            concat!($what, " 2 segments and 2 columns"),
            concat!($what, " 2 segments and 3 columns"),
            concat!($what, " 2 segments and 4 columns"),
            concat!($what, " 2 segments and 5 columns"),
            concat!($what, " 2 segments and 6 columns"),
        ]
    };
}

const TOTALS_OF: [&str; 12] = of_sizes!("small: totals of");
const FIRST_OF: [&str; 12] = of_sizes!("small: table 0 of");
const LAST_OF: [&str; 12] = of_sizes!("small: the last table of");
const BEYOND: [&str; 12] = of_sizes!("small: the number after the last one of");

fn holding(cases: Cases) -> Vec<&'static str> {
    cases.into_iter().filter(|(holds, _)| *holds).map(|(_, what)| what).collect()
}

/// The special cases that the totals of a size, or the table of a number where there is one, are one of.
pub fn special(segments: u32, columns: u32, number: Option<u32>, has_unit: bool) -> Vec<&'static str> {
    match (size(segments, columns), number) {
        (Err(_), _) => holding(outside(segments, columns, number, has_unit)),
        (Ok(size), None) => [&[TOTALS_OF[place_of(size)]][..], &holding(vec![(!has_unit, "small: totals before the first unit")])].concat(),
        (Ok(size), Some(number)) => match table(size, number) {
            Err(_) => holding(no_table(size, number, has_unit)),
            Ok(unit) => holding(taken(size, number, &unit, has_unit)),
        },
    }
}

fn place_of(size: Size) -> usize {
    sizes().position(|other| other == size).expect("one of the sizes")
}

/// A size that is none of these.
fn outside(segments: u32, columns: u32, number: Option<u32>, has_unit: bool) -> Cases {
    let is_size = |segments: u32, columns: u32| size(segments, columns).is_ok();
    let (has_number, are_segments, are_columns) = (number.is_some(), is_size(segments, 1), is_size(1, columns));
    let is_below = |most: u32| number.is_some_and(|number| number < most);
    vec![
        (segments == 0 && are_columns, "small: no segment"),
        (segments == SMALL_SEGMENTS + 1 && are_columns, "small: 3 segments"),
        (columns == 0 && are_segments, "small: no column"),
        (columns == SMALL_COLUMNS + 1 && are_segments, "small: 7 columns"),
        (segments == u32::MAX || columns == u32::MAX, "small: a size of 4294967295"),
        (segments > 255 && is_size(segments % 256, columns), "small: segments that would do without their higher bytes"),
        (columns > 255 && is_size(segments, columns % 256), "small: columns that would do without their higher bytes"),
        (is_size(columns, segments), "small: a size that would do with segments and columns exchanged"),
        (!are_segments && !are_columns, "small: neither segments nor columns"),
        (!has_number && !has_unit, "small: a size outside before the first unit"),
        (!has_number && has_unit, "small: a size outside, for totals"),
        (has_number && is_below(2), "small: a size outside, though every size has the number"),
        (has_number && !is_below(4_096), "small: a size outside, and no size has the number"),
    ]
}

/// A number that no table of a size has.
fn no_table(size: Size, number: u32, has_unit: bool) -> Cases {
    let would_do = |number: u32| number < size.tables();
    let mut cases = vec![
        (number == u32::MAX, "small: a number 4294967295"),
        (would_do(number % 256), "small: a number that would do as a byte"),
        (number > 65_535 && would_do(number % 65_536), "small: a number that would do in 16 bits"),
        (number < 4_096, "small: a number that a larger size has"),
        (size.segments == 1 && number < size.tables().pow(2), "small: a number that two segments have"),
        (!has_unit, "small: a number outside before the first unit"),
    ];
    cases.push((number == size.tables(), BEYOND[place_of(size)]));
    cases
}

/// A table that is taken.
fn taken(size: Size, number: u32, unit: &Unit, has_unit: bool) -> Cases {
    let spots = unit.spots(1);
    let (is_in, yard) = (|segment: u32| spots.iter().any(|spot| spot.0 == segment), &mut Yard::new());
    let vector = collision_vector(&spots, yard);
    let (bound, (sum, count)) = (bound(&vector), least_average(&diagram(&vector, MOST_STATES).expect("few states").arcs));
    let mirrored = || spots.iter().map(|spot| (spot.0, size.columns + 1 - spot.1)).collect::<Vec<Spot>>();
    let is_mirrored = mirrored().iter().all(|spot| spots.contains(spot));
    let place = place_of(size);
    vec![
        (!has_unit, "small: a table before the first unit"),
        (number == 0, FIRST_OF[place]),
        (number + 1 == size.tables(), LAST_OF[place]),
        (number > 255, "small: a table with a number above 255"),
        (is_in(1) && !is_in(2) && size.segments == 2, "small: marks in the first of two segments alone"),
        (is_in(2) && !is_in(1), "small: marks in the second segment alone"),
        (is_in(1) && is_in(2), "small: marks in both segments"),
        (!is_mirrored, "small: a table that is another one from its other end"),
        (bound as i64 * count < sum, "small: a table that is not at the bound"),
        (bound as i64 * count == sum && bound > 1, "small: a table at a bound above 1"),
        (bound > most_marks(&spots) && !spots.is_empty(), "small: a table with a bound above the marks of a segment"),
    ]
}
