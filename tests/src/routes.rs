//! Random functions with at most one mark in a column.

use crate::model::*;
use crate::random::Random;
use crate::units;

/// A task that is in one segment at a time, if it is in any: in a few of the segments, so that some of them have many marks.
pub fn route(unit: &mut Unit, tag: u32, random: &mut Random) {
    let busy: Vec<u32> = (0..random.between(1, 4)).map(|_| random.between(1, unit.segments)).collect();
    let often = random.between(1, 5) as u64;
    for column in 1..=unit.columns {
        let segment = if random.chance(1, 10) { random.between(1, unit.segments) } else { random.pick(&busy) };
        if random.chance(often, 5) {
            unit.marks.insert(Mark { tag, segment, column });
        }
    }
}

/// A unit of such tasks. One of them is now and then in several segments at a time.
pub fn unit(random: &mut Random) -> Unit {
    let mut unit = units::unit(random);
    for tag in 1..=unit.functions {
        if random.chance(7, 8) {
            unit.marks.retain(|mark| mark.tag != tag);
            route(&mut unit, tag, random);
        }
    }
    unit
}
