//! The small tables by themselves: each table's number worked out again from its marks; each best average also from starts that are tried
//! time unit by time unit, and from short cycles whose tasks are laid down; each bound from every set of numbers; and the totals of each
//! size against those that were worked out elsewhere. It runs before the program is asked anything.

use crate::model::*;
use crate::model_check::unit_of;
use crate::small::*;
use std::collections::{BTreeSet, HashMap};

type Checked = Result<(), String>;

/// The totals of each size, worked out elsewhere from every cycle of every table: tables, tables at the bound, the largest average, which
/// is always a whole number, and the first number that has it.
const TOTALS: [(u32, u32, u32, u32, i64, u32); 12] = [
    // "One segment and one column: 2 tables, both at the bound, largest 1/1."
    (1, 1, 2, 2, 1, 0),
    (1, 2, 4, 4, 2, 3),
    (1, 3, 8, 8, 3, 7),
    // marks 1 2 4 forbid all of 1 to 3, as marks in all of four columns do
    (1, 4, 16, 16, 4, 11),
    // marks 1 2 5, and 1 4 5, forbid 1, 3 and 4: bound 3, best 2 5 sum 7
    (1, 5, 32, 30, 5, 23),
    (1, 6, 64, 58, 6, 39),
    (2, 1, 4, 4, 1, 0),
    (2, 2, 16, 16, 2, 3),
    (2, 3, 64, 64, 3, 7),
    // 2 and 3 are forbidden by marks 1 4 in a segment and two marks of the other one: bound 2, best 1 4 sum 5
    (2, 4, 256, 252, 4, 11),
    (2, 5, 1_024, 944, 5, 23),
    (2, 6, 4_096, 3_796, 6, 39),
];

/// A size, a number, and the columns that are marked in each segment, by hand.
type Example = (u32, u32, u32, &'static [&'static [u32]]);

const EXAMPLES: &[Example] = &[
    (1, 1, 0, &[&[]]),
    (1, 1, 1, &[&[1]]),
    // 37 = 1 + 4 + 32
    (1, 6, 37, &[&[1, 3, 6]]),
    (1, 6, 63, &[&[1, 2, 3, 4, 5, 6]]),
    (2, 1, 1, &[&[1], &[]]),
    (2, 1, 2, &[&[], &[1]]),
    (2, 2, 6, &[&[2], &[1]]),
    // 37 = 5 + 4 × 8, and 89 = 9 + 5 × 16
    (2, 3, 37, &[&[1, 3], &[3]]),
    (2, 4, 89, &[&[1, 4], &[1, 3]]),
    (2, 5, 992, &[&[], &[1, 2, 3, 4, 5]]),
    (2, 6, 39, &[&[1, 2, 3, 6], &[]]),
    (2, 6, 4_095, &[&[1, 2, 3, 4, 5, 6], &[1, 2, 3, 4, 5, 6]]),
];

/// What a marked place adds to the number.
pub fn power_of(size: Size, segment: u32, column: u32) -> u32 {
    2u32.pow((segment - 1) * size.columns + column - 1)
}

/// The number of a table, from its marks.
fn number_of(size: Size, unit: &Unit) -> u32 {
    unit.marks.iter().map(|mark| power_of(size, mark.segment, mark.column)).sum()
}

/// The table of a number: from the last place on, each is marked whose power the rest still has.
pub fn by_powers(size: Size, number: u32) -> Reply<Unit> {
    let mut unit = Unit::fresh(1, size.segments, size.columns)?;
    let mut rest = number;
    for segment in (1..=size.segments).rev() {
        for column in (1..=size.columns).rev() {
            let power = power_of(size, segment, column);
            if rest >= power {
                rest -= power;
                unit.mark(Mark { tag: 1, segment, column })?;
            }
        }
        // what is left is below the powers of this segment, unless the number is beyond the last one
        if rest >= power_of(size, segment, 1) {
            return Err(NO_TABLE);
        }
    }
    Ok(unit)
}

/// The totals, each from a list of its own.
pub fn from_lists(_: Size, facts: &[Fact]) -> Totals {
    let is_at_bound = |fact: &&Fact| fact.best.0 == fact.bound as i64 * fact.best.1;
    // over a common denominator, whole numbers can be compared
    let common: i64 = 2 * 2 * 3 * 5 * 7 * 11 * 13;
    let scaled: Vec<i64> = facts.iter().map(|fact| fact.best.0 * common / fact.best.1).collect();
    let largest = scaled.iter().copied().max().expect("a table");
    let count = (1..).find(|count| largest * count % common == 0).expect("a denominator");
    Totals {
        tables: facts.len() as u32,
        at_bound: facts.iter().filter(is_at_bound).count() as u32,
        largest: (largest * count / common, count),
        first: scaled.iter().position(|average| *average == largest).expect("the largest one") as u32,
    }
}

/// The other way, for a console that is right as well.
pub const OTHER_WAY: Small = Small { size: tried_size, table: by_powers, totals: from_lists };

/// A size, where it is one of all.
fn tried_size(segments: u32, columns: u32) -> Reply<Size> {
    sizes().find(|size| *size == Size { segments, columns }).ok_or(NO_TABLE)
}

// ---------------------------------------------------------------------------------------------------------------------------------
// Bound and average of a table by trial

/// Differences of two columns that are marked in one segment.
fn forbidden(spots: &[Spot]) -> BTreeSet<u32> {
    let later = |one: Spot| spots.iter().filter(move |two| two.0 == one.0 && two.1 > one.1).map(move |two| two.1 - one.1);
    spots.iter().flat_map(|one| later(*one)).collect()
}

/// The size of the largest set of numbers from 0 to the largest forbidden latency, every two of which differ by a forbidden one. A set that
/// does not begin with 0 can be moved, and one of two numbers or more ends no later.
fn bound_by_sets(forbidden: &BTreeSet<u32>) -> u32 {
    let last = forbidden.last().copied().unwrap_or(0);
    let set_of = |choice: u32| -> Vec<u32> { (0..=last).filter(|number| choice / 2u32.pow(*number) % 2 == 1).collect() };
    let is_mutual = |set: &Vec<u32>| set.iter().all(|one| set.iter().all(|two| one >= two || forbidden.contains(&(two - one))));
    (0..2u32.pow(last + 1)).map(set_of).filter(is_mutual).map(|set| set.len() as u32).max().unwrap_or(1).max(1)
}

/// The least average, from time units one by one. What may come next is decided by the starts in the last n time units, a window; with
/// each time unit the window moves on, with a start or without. A walk from a window back to itself can be repeated without end, and the
/// best of all walks goes through no window twice, so that no longer ones than there are windows have to be tried.
fn best_by_units(forbidden: &BTreeSet<u32>) -> Average {
    let last = forbidden.last().copied().unwrap_or(0);
    let windows = 2usize.pow(last);
    let may_start = |window: usize| forbidden.iter().all(|latency| window / 2usize.pow(latency - 1) % 2 == 0);
    let mut best: Option<Average> = None;
    for begin in 0..windows {
        // for each window the most starts on a walk to it
        let mut most: Vec<Option<i64>> = vec![None; windows];
        most[begin] = Some(0);
        for units in 1..=windows as i64 {
            let mut longer: Vec<Option<i64>> = vec![None; windows];
            for (window, starts) in most.iter().enumerate() {
                let Some(starts) = starts else { continue };
                let idle = 2 * window % windows;
                longer[idle] = longer[idle].max(Some(*starts));
                if may_start(window) {
                    let next = (2 * window + 1) % windows;
                    longer[next] = longer[next].max(Some(starts + 1));
                }
            }
            most = longer;
            if let Some(starts) = most[begin].filter(|starts| *starts > 0) {
                if best.is_none_or(|(sum, count)| units * count < sum * starts) {
                    best = Some((units, starts));
                }
            }
        }
    }
    best.expect("a start now and then")
}

/// The least average of the cycles of up to five latencies, none above 6, whose tasks never meet where they are laid down.
fn best_by_tasks(spots: &[Spot], yard: &mut Yard) -> Average {
    let mut lists: Vec<Vec<u8>> = vec![Vec::new()];
    let mut best: Option<Average> = None;
    for _ in 0..5 {
        lists = lists.iter().flat_map(|list| (1..=6).map(|latency| [&list[..], &[latency]].concat())).collect();
        for list in lists.iter().filter(|list| is_first_rotation(list)) {
            let (sum, count) = (sum_of(list) as i64, list.len() as i64);
            if best.is_none_or(|old| sum * old.1 < old.0 * count) && never_collides(spots, list, yard) {
                best = Some((sum, count));
            }
        }
    }
    best.expect("six units apart no tasks of six columns meet")
}

fn same(one: Average, two: Average) -> bool {
    one.0 * two.1 == two.0 * one.1
}

/// What is tried once for all tables that forbid the same latencies.
struct Tried {
    bound: u32,
    by_units: Average,
    by_tasks: Average,
}

/// What is known of a table, against what is tried.
fn check_fact(size: Size, number: u32, fact: &Fact, known: &mut HashMap<BTreeSet<u32>, Tried>, yard: &mut Yard) -> Checked {
    let told = || format!("table {number} of {size:?}: {fact:?}");
    let spots = table(size, number).map_err(|refusal| format!("{}: refused by {refusal}", told()))?.spots(1);
    let forbidden = forbidden(&spots);
    let Tried { bound, by_units, by_tasks } = known.entry(forbidden).or_insert_with_key(|forbidden| Tried {
        bound: bound_by_sets(forbidden),
        by_units: best_by_units(forbidden),
        by_tasks: best_by_tasks(&spots, yard),
    });
    let in_segment = |segment: u32| spots.iter().filter(|spot| spot.0 == segment).count() as u32;
    let most = (1..=size.segments).map(in_segment).max().unwrap_or(0);
    let (sum, count) = fact.best;
    if fact.bound != *bound || fact.most_marks != most || !same(fact.best, *by_units) || !same(fact.best, *by_tasks) {
        return Err(format!("{}: by trial {bound}, {most}, {by_units:?} and {by_tasks:?}", told()));
    }
    // the lower half of the bounds, and that the marks of a segment are such a set
    if sum < fact.bound as i64 * count || fact.bound < fact.most_marks {
        return Err(format!("{}: not within the bounds", told()));
    }
    Ok(())
}

// ---------------------------------------------------------------------------------------------------------------------------------
// Sizes

/// Every number has a table, no two have the same one, and the number can be read off its marks.
fn check_numbers(small: &Small, size: Size) -> Checked {
    let mut met: BTreeSet<Vec<Spot>> = BTreeSet::new();
    for number in 0..size.tables() {
        let told = |what: &str| format!("table {number} of {size:?}: {what}");
        let unit = (small.table)(size, number).map_err(|refusal| told(&format!("refused by {refusal}")))?;
        if (unit.functions, unit.segments, unit.columns) != (1, size.segments, size.columns) {
            return Err(told("other counts"));
        }
        if unit.marks.iter().any(|mark| unit.check_mark(*mark).is_err()) {
            return Err(told("a mark outside"));
        }
        if number_of(size, &unit) != number {
            return Err(told("another number"));
        }
        if !met.insert(unit.spots(1)) {
            return Err(told("a table again"));
        }
    }
    for number in [size.tables(), size.tables() + 1, 255, 256, 4_095, 4_096, 65_536, u32::MAX] {
        if number >= size.tables() && (small.table)(size, number) != Err(NO_TABLE) {
            return Err(format!("{size:?} has a table {number}"));
        }
    }
    Ok(())
}

fn check_sizes(small: &Small) -> Checked {
    let outside = [255, 256, 257, 258, 65_537, u32::MAX - 254, u32::MAX];
    for segments in (0..10).chain(outside) {
        for columns in (0..10).chain(outside) {
            let is_size = [1, 2].contains(&segments) && (1..7).contains(&columns);
            let wanted = if is_size { Ok(Size { segments, columns }) } else { Err(NO_TABLE) };
            if (small.size)(segments, columns) != wanted {
                return Err(format!("the size {segments} {columns}"));
            }
        }
    }
    Ok(())
}

/// What is known of the tables of each size.
pub type Known = Vec<(Size, Vec<Fact>)>;

pub fn all_facts() -> Known {
    let yard = &mut Yard::new();
    sizes().map(|size| (size, facts(size, yard))).collect()
}

/// Whether sizes, tables and totals are right.
pub fn judged(small: &Small, known: &Known) -> Checked {
    check_sizes(small)?;
    for &(segments, columns, number, rows) in EXAMPLES {
        let found = (small.table)(Size { segments, columns }, number);
        if found != Ok(unit_of(segments, columns, &[rows])) {
            return Err(format!("table {number} of {segments} {columns}: {found:?}"));
        }
    }
    for ((size, facts), (segments, columns, tables, at_bound, largest, first)) in known.iter().zip(TOTALS) {
        let wanted = Totals { tables, at_bound, largest: (largest, 1), first };
        let found = (small.totals)(*size, facts);
        if *size != (Size { segments, columns }) || found != wanted {
            return Err(format!("totals of {size:?}\nwanted: {wanted:?}\nfound:  {found:?}"));
        }
        check_numbers(small, *size)?;
    }
    Ok(())
}

/// Everything above.
pub fn run() -> Checked {
    let known = all_facts();
    if known.len() != TOTALS.len() {
        return Err(format!("{} sizes", known.len()));
    }
    let (mut tried, yard) = (HashMap::new(), &mut Yard::new());
    for (size, facts) in &known {
        for (number, fact) in (0..).zip(facts) {
            check_fact(*size, number, fact, &mut tried, yard)?;
        }
    }
    judged(&SMALL, &known)?;
    judged(&OTHER_WAY, &known)
}
