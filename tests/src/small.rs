//! Every table of one function of a small size, by its number, and the totals over all tables of a size. Sentences in quotation marks are
//! the request's.
//!
//! A table is made by halving its number, place after place; its best average comes from Karp's theorem; and the totals are taken in one
//! pass over the tables. `small_check.rs` does all three in other ways, and compares.

use crate::model::*;
use std::collections::HashMap;

/// "22 is new: a size outside these, or a number that no table has, tried first"
pub const NO_TABLE: u32 = 22;
pub const SMALL_SEGMENTS: u32 = 2;
pub const SMALL_COLUMNS: u32 = 6;

#[derive(Clone, Copy, PartialEq, Eq, Hash, Debug)]
pub struct Size {
    pub segments: u32,
    pub columns: u32,
}

/// "For 1 or 2 segments and 1 to 6 columns"
pub fn size(segments: u32, columns: u32) -> Reply<Size> {
    if (1..=SMALL_SEGMENTS).contains(&segments) && (1..=SMALL_COLUMNS).contains(&columns) {
        Ok(Size { segments, columns })
    } else {
        Err(NO_TABLE)
    }
}

/// All sizes, those of one segment first.
pub fn sizes() -> impl Iterator<Item = Size> {
    (1..=SMALL_SEGMENTS).flat_map(|segments| (1..=SMALL_COLUMNS).map(move |columns| Size { segments, columns }))
}

impl Size {
    /// How many tables there are: each place is marked or not.
    pub fn tables(self) -> u32 {
        2u32.pow(self.segments * self.columns)
    }
}

/// "column c of segment r adds 2 to the power (r − 1) × columns + c − 1 if marked": the places of segment 1 come first, and each has the
/// next digit of the number in base two.
pub fn table(size: Size, number: u32) -> Reply<Unit> {
    if number >= size.tables() {
        return Err(NO_TABLE);
    }
    let mut unit = Unit::fresh(1, size.segments, size.columns).expect("counts in their ranges");
    let mut rest = number;
    for segment in 1..=size.segments {
        for column in 1..=size.columns {
            if rest % 2 == 1 {
                unit.marks.insert(Mark { tag: 1, segment, column });
            }
            rest /= 2;
        }
    }
    Ok(unit)
}

/// A sum and a count of latencies.
pub type Average = (i64, i64);

/// What is known of a table. The totals look at its bound and at its best average, and totals that are wrong may look at the others.
#[derive(Clone, Copy, PartialEq, Eq, Debug)]
pub struct Fact {
    pub most_marks: u32,
    pub bound: u32,
    pub upper: u32,
    pub constant: u32,
    pub greedy: Average,
    pub best: Average,
}

fn fact_of(spots: &[Spot], vector: &[bool]) -> Fact {
    let diagram = diagram(vector, MOST_STATES).expect("a small table has few states");
    let greedy = diagram.greedy();
    Fact {
        most_marks: most_marks(spots),
        bound: bound(vector),
        upper: upper(vector),
        constant: constant(vector),
        greedy: (sum_of(&greedy) as i64, greedy.len() as i64),
        best: diagram.least_average(),
    }
}

/// "every one-function table, each once, by rising number". Few vectors are behind many tables.
pub fn facts(size: Size, yard: &mut Yard) -> Vec<Fact> {
    let mut known: HashMap<Vec<bool>, Fact> = HashMap::new();
    let mut fact = |number: u32| {
        let spots = table(size, number).expect("a number of this size").spots(1);
        let vector = collision_vector(&spots, yard);
        let of_vector = *known.entry(vector).or_insert_with_key(|vector| fact_of(&spots, vector));
        Fact { most_marks: most_marks(&spots), ..of_vector }
    };
    (0..size.tables()).map(&mut fact).collect()
}

#[derive(Clone, Copy, PartialEq, Eq, Debug)]
pub struct Totals {
    pub tables: u32,
    pub at_bound: u32,
    /// "the largest S / K as a fraction in lowest terms"
    pub largest: Average,
    /// "with the first number that has it"
    pub first: u32,
}

impl Totals {
    pub fn text(&self) -> String {
        let Totals { tables, at_bound, largest: (sum, count), first } = self;
        format!("tables {tables} at bound {at_bound} largest {sum}/{count} first {first}")
    }
}

/// By Euclid's rule.
fn common_divisor(one: i64, two: i64) -> i64 {
    match two {
        0 => one,
        _ => common_divisor(two, one % two),
    }
}

/// "Report how many reach S = bound × K (g = 1, the bound of ticket (h)), and the largest S / K": an average takes the place of another
/// one only where it is above it, so that the first number is kept.
pub fn totals(_: Size, facts: &[Fact]) -> Totals {
    let mut totals = Totals { tables: 0, at_bound: 0, largest: (0, 1), first: 0 };
    for (number, Fact { bound, best: (sum, count), .. }) in (0..).zip(facts) {
        totals.tables += 1;
        totals.at_bound += (*sum == *bound as i64 * count) as u32;
        if sum * totals.largest.1 > totals.largest.0 * count {
            let divisor = common_divisor(*sum, *count);
            totals.largest = (sum / divisor, count / divisor);
            totals.first = number;
        }
    }
    totals
}

/// How sizes are taken, tables made and totals counted: rightly, or with a fault.
#[derive(Clone, Copy)]
pub struct Small {
    pub size: fn(u32, u32) -> Reply<Size>,
    pub table: fn(Size, u32) -> Reply<Unit>,
    pub totals: fn(Size, &[Fact]) -> Totals,
}

pub const SMALL: Small = Small { size, table, totals };
