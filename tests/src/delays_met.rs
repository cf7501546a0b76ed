//! The special cases that delays are one of, good ones and bad ones, so that a run can tell which it has met.

use crate::delays::*;
use crate::delays_check::marks_in;
use crate::model::*;

/// Each with whether it holds.
type Cases = Vec<(bool, &'static str)>;

/// The special cases that the delays of a function for a latency are one of.
pub fn special(unit: &Unit, tag: u32, latency: u32) -> Vec<&'static str> {
    let would_do = |tag: u32, latency: u32| delayed(unit, tag, latency).is_ok();
    let mut cases = vec![
        (tag == 0, "delays: a tag 0"),
        (tag == unit.functions + 1, "delays: a tag after the last"),
        (tag > 255 && would_do(tag % 256, latency), "delays: a tag that would do without its higher bytes"),
        (latency > 255 && would_do(tag, latency % 256), "delays: M that would do without its higher bytes"),
    ];
    let spots = unit.spots(tag);
    cases.extend(match places(unit, tag, latency) {
        Err(TWO_MARKS) => two_marks(unit, &spots, latency),
        Err(NO_LATENCY) => no_latency(unit, &spots, latency),
        Err(_) => vec![(!is_latency(latency), "delays: refused by 2 and not by 20")],
        Ok(places) if places[places.len() - 1] > MOST_COLUMNS => beyond(&spots, &places),
        Ok(places) => [taken(unit, tag, latency), beside(unit, tag, latency), placed(&spots, latency, &places)].concat(),
    });
    cases.into_iter().filter(|(holds, _)| *holds).map(|(_, what)| what).collect()
}

fn two_marks(unit: &Unit, spots: &[Spot], latency: u32) -> Cases {
    let marks_of = |column: u32| spots.iter().filter(|spot| spot.1 == column).count();
    let crowded: Vec<u32> = (1..=unit.columns).filter(|column| marks_of(*column) > 1).collect();
    let is_of_two = |column: u32| marks_of(column) == 2 && spots.contains(&(MOST_SEGMENTS, column));
    vec![
        (!is_latency(latency) || latency < most_marks(spots), "delays: refused by 19 and not by 20"),
        (crowded == [1], "delays: 19 for column 1 alone"),
        (crowded == [unit.columns], "delays: 19 for the last column alone"),
        (crowded == [MOST_COLUMNS], "delays: 19 for column 32 alone"),
        (crowded.len() == 1 && is_of_two(crowded[0]), "delays: 19 for a mark of segment 16 alone"),
    ]
}

fn no_latency(unit: &Unit, spots: &[Spot], latency: u32) -> Cases {
    let full: Vec<u32> = (1..=unit.segments).filter(|segment| is_latency(latency) && marks_in(spots, *segment) > latency).collect();
    vec![
        (latency == 0, "delays: M of 0"),
        (latency == MOST_COLUMNS + 1, "delays: M of 33"),
        (latency == 256, "delays: M of 256"),
        (latency == u32::MAX, "delays: M of 4294967295"),
        (is_latency(latency) && latency + 1 == most_marks(spots), "delays: M one below the most marks of a segment"),
        (full == [1] && unit.segments > 1, "delays: 20 for the first of several segments alone"),
        (full == [unit.segments] && unit.segments > 1, "delays: 20 for the last of several segments alone"),
    ]
}

fn beyond(spots: &[Spot], places: &[u32]) -> Cases {
    let (columns, last) = (places.len() as u32, places[places.len() - 1]);
    let last_mark = spots.iter().map(|spot| places[spot.1 as usize - 1]).max().unwrap_or(0);
    let is_marked = spots.iter().any(|spot| spot.1 == columns);
    vec![
        (last_mark > MOST_COLUMNS, "delays: 21 for a mark"),
        (last_mark <= MOST_COLUMNS, "delays: 21 for columns without marks alone"),
        (last_mark == MOST_COLUMNS, "delays: 21 after a mark at place 32"),
        (last == MOST_COLUMNS + 1 && is_marked, "delays: place 33 for a mark"),
        (last == MOST_COLUMNS + 1 && !is_marked, "delays: place 33 for a column without a mark"),
    ]
}

/// A function and a latency that are taken.
fn taken(unit: &Unit, tag: u32, latency: u32) -> Cases {
    let spots = unit.spots(tag);
    let has_marks = !spots.is_empty();
    vec![
        (latency == 1, "delays: M of 1"),
        (latency == MOST_COLUMNS, "delays: M of 32"),
        (latency == most_marks(&spots), "delays: M just the most marks of a segment"),
        (latency < bound(&collision_vector(&spots, &mut Yard::new())), "delays: M below the bound"),
        (latency < spots.len() as u32, "delays: M below the number of all marks"),
        (!has_marks, "delays: no marks"),
        (has_marks && tag > 1, "delays: of a function that is not the first"),
        (has_marks && tag < unit.functions, "delays: of a function that is not the last"),
        (unit.columns == MOST_COLUMNS, "delays: of a unit of 32 columns"),
        (unit.segments == MOST_SEGMENTS, "delays: of a unit of 16 segments"),
    ]
}

/// What the functions beside the one that is asked for would have refused.
fn beside(unit: &Unit, tag: u32, latency: u32) -> Cases {
    let spots = unit.spots(tag);
    let others: Vec<Vec<Spot>> = (1..=unit.functions).filter(|other| *other != tag).map(|other| unit.spots(other)).collect();
    let meet = |one: &[Spot], two: &[Spot]| one.iter().any(|spot| two.iter().any(|other| spot.1 == other.1 && spot.0 != other.0));
    vec![
        (others.iter().any(|other| most_marks(other) > latency), "delays: M below another function's marks in a segment"),
        (others.iter().any(|other| meet(other, other)), "delays: two marks of another function in a column"),
        (others.iter().any(|other| meet(&spots, other)), "delays: a mark in a column where another function has one elsewhere"),
    ]
}

/// Columns that are placed: which of them move, and what keeps a mark from a place.
fn placed(spots: &[Spot], latency: u32, places: &[u32]) -> Cases {
    let (columns, last) = (places.len() as u32, places[places.len() - 1]);
    let is_same = |mark: &Spot, place: u32| mark.1 % latency == place % latency;
    let (mut by_another, mut at_zero, mut is_far, mut is_shared, mut is_idle) = (false, false, false, false, false);
    let (mut earlier, mut predecessor): (Vec<Spot>, u32) = (Vec::new(), 0);
    for (column, &place) in (1..).zip(places) {
        let has_remainder = earlier.iter().any(|mark| is_same(mark, place));
        match spots.iter().find(|spot| spot.1 == column) {
            None => is_idle |= has_remainder,
            Some(&(segment, _)) => {
                let last = earlier.iter().rev().find(|mark| mark.0 == segment);
                let mut kept_from = predecessor + 1..place;
                is_far |= kept_from.len() > 1;
                at_zero |= kept_from.clone().any(|place| place % latency == 0);
                by_another |= kept_from.any(|place| !last.is_some_and(|mark| is_same(mark, place)));
                is_shared |= has_remainder;
                earlier.push((segment, place));
            }
        }
        predecessor = place;
    }
    let is_marked = spots.iter().any(|spot| spot.1 == columns);
    let has_moved = last > columns;
    vec![
        (has_moved, "delays: columns that move"),
        (!has_moved && !spots.is_empty(), "delays: no column that moves"),
        (is_far, "delays: a mark that moves on by two places or more"),
        (by_another, "delays: a mark kept from a place by another than the last one"),
        (at_zero, "delays: a mark kept from a place of remainder 0"),
        (is_shared, "delays: a place whose remainder another segment's mark has"),
        (is_idle, "delays: a column without a mark where some mark could not be"),
        (has_moved && last == MOST_COLUMNS && is_marked, "delays: place 32 for a mark"),
        (has_moved && last == MOST_COLUMNS && !is_marked, "delays: place 32 for a column without a mark"),
        (has_moved && !is_marked, "delays: a column without a mark at the end"),
    ]
}
