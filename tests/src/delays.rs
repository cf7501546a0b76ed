//! Delay columns for a wanted constant latency: where each column of a function goes, and the unit whose marks have moved with their
//! columns. Sentences in quotation marks are the request's.
//!
//! A marked column takes one of the remainders that its segment still has free, the one whose next place is nearest, so that no place is
//! tried after another. `delays_check.rs` tries the places one by one, and compares.

use crate::model::*;
use std::collections::{BTreeMap, BTreeSet};

/// "19, two marks in a column; 20, m is 0, above 32 or below the largest number of marks in a segment; 21, a place beyond 32"
pub const TWO_MARKS: u32 = 19;
pub const NO_LATENCY: u32 = 20;
pub const BEYOND: u32 = 21;

/// Whether a number is one of the latencies that may be wanted.
pub fn is_latency(number: u32) -> bool {
    (1..=MOST_COLUMNS).contains(&number)
}

/// For each marked column its segment. "The function has at most one mark per column."
fn route(spots: &[Spot]) -> Reply<BTreeMap<u32, u32>> {
    let mut segments = BTreeMap::new();
    for &(segment, column) in spots {
        if segments.insert(column, segment).is_some() {
            return Err(TWO_MARKS);
        }
    }
    Ok(segments)
}

/// The place of each column, also where it is beyond 32: "Columns are placed in order from 1, each at the first place after its
/// predecessor; a marked column moves on to the first place whose remainder modulo m no earlier mark of its segment has." What is refused
/// is "tried after 2 in this order".
pub fn places(unit: &Unit, tag: u32, latency: u32) -> Reply<Vec<u32>> {
    unit.check_tag(tag)?;
    let spots = unit.spots(tag);
    let segments = route(&spots)?;
    if !is_latency(latency) || latency < most_marks(&spots) {
        return Err(NO_LATENCY);
    }
    let all_free: BTreeSet<u32> = (0..latency).collect();
    let mut free: BTreeMap<u32, BTreeSet<u32>> = BTreeMap::new();
    let mut last = 0;
    let place = |column: u32| {
        last += 1;
        if let Some(segment) = segments.get(&column) {
            let remainders = free.entry(*segment).or_insert_with(|| all_free.clone());
            let way_to = |remainder: u32| (remainder + latency - last % latency) % latency;
            let nearest = remainders.iter().copied().min_by_key(|remainder| way_to(*remainder)).expect("a remainder for each mark");
            remainders.remove(&nearest);
            last += way_to(nearest);
        }
        last
    };
    Ok((1..=unit.columns).map(place).collect())
}

/// "The result is a one-function unit of the width reached": the unit's segments, and the marks of the function, each moved to the place
/// of its column.
pub fn moved(unit: &Unit, tag: u32, places: &[u32]) -> Reply<Unit> {
    if places.iter().any(|place| *place > MOST_COLUMNS) {
        return Err(BEYOND);
    }
    let moved = |(segment, column): Spot| Mark { tag: 1, segment, column: places[column as usize - 1] };
    let marks = unit.spots(tag).into_iter().map(moved).collect();
    Ok(Unit { functions: 1, segments: unit.segments, columns: places[places.len() - 1], marks })
}

/// The unit of a function with the delays that a latency wants.
pub fn delayed(unit: &Unit, tag: u32, latency: u32) -> Reply<Unit> {
    moved(unit, tag, &places(unit, tag, latency)?)
}
