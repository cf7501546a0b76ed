//! Consoles with one fault each in small tables and totals, as those of `console_faults.rs`.

use crate::console_faults::*;
use crate::console_folder::Folder;
use crate::console_model::{number, words_of, Answer, Console, Part, Sort};
use crate::model::*;
use crate::queue_faults::{expected, tick};
use crate::small::*;

// ---------------------------------------------------------------------------------------------------------------------------------
// The sizes

type SizeOf = fn(u32, u32) -> Reply<Size>;

/// Refused, where it is so of a good size.
fn refused_if(segments: u32, columns: u32, holds: bool) -> Reply<Size> {
    size(segments, columns).and_then(|size| if holds { Err(NO_TABLE) } else { Ok(size) })
}

const SIZE_FAULTS: &[(&str, SizeOf)] = &[
    ("small: no segments are taken for 1", |segments, columns| size(segments.max(1), columns)),
    ("small: no columns are taken for 1", |segments, columns| size(segments, columns.max(1))),
    ("small: 3 segments are taken for 2", |segments, columns| size(if segments == 3 { 2 } else { segments }, columns)),
    ("small: segments above 2 are taken for 2", |segments, columns| size(segments.min(SMALL_SEGMENTS), columns)),
    ("small: 7 columns are taken for 6", |segments, columns| size(segments, if columns == 7 { 6 } else { columns })),
    ("small: columns above 6 are taken for 6", |segments, columns| size(segments, columns.min(SMALL_COLUMNS))),
    ("small: segments are taken modulo 256", |segments, columns| size(segments % 256, columns)),
    ("small: columns are taken modulo 256", |segments, columns| size(segments, columns % 256)),
    ("small: segments and columns are taken either way", |segments, columns| size(segments, columns).or(size(columns, segments))),
    ("small: 2 segments are refused", |segments, columns| refused_if(segments, columns, segments == 2)),
    ("small: 1 column is refused", |segments, columns| refused_if(segments, columns, columns == 1)),
    ("small: 6 columns are refused", |segments, columns| refused_if(segments, columns, columns == 6)),
    ("small: 2 segments of 6 columns are refused", |segments, columns| refused_if(segments, columns, segments * columns == 12)),
    ("small: a size outside is refused by 1", |segments, columns| size(segments, columns).map_err(|_| 1)),
    ("small: segments outside are refused by 3", |segments, columns| {
        size(segments, columns).map_err(|number| if size(segments, 1).is_err() { 3 } else { number })
    }),
    ("small: columns outside are refused by 4", |segments, columns| {
        size(segments, columns).map_err(|number| if size(1, columns).is_err() { 4 } else { number })
    }),
];

// ---------------------------------------------------------------------------------------------------------------------------------
// The tables

type TableOf = fn(Size, u32) -> Reply<Unit>;

/// The table of a number in which each place adds another power of 2 than it should.
fn by_places(size: Size, number: u32, exponent: impl Fn(u32, u32) -> u32) -> Reply<Unit> {
    let mut unit = table(size, number)?;
    let is_marked = |segment: u32, column: u32| number / 2u32.pow(exponent(segment, column)) % 2 == 1;
    let places = (1..=size.segments).flat_map(|segment| (1..=size.columns).map(move |column| (segment, column)));
    let marks = places.filter(|(segment, column)| is_marked(*segment, *column));
    unit.marks = marks.map(|(segment, column)| Mark { tag: 1, segment, column }).collect();
    Ok(unit)
}

/// The place that a number's power of 2 has where it is counted column by column.
fn across(size: Size, segment: u32, column: u32) -> u32 {
    (column - 1) * size.segments + segment - 1
}

/// With the right table changed.
fn reshaped(size: Size, number: u32, change: impl Fn(&mut Unit)) -> Reply<Unit> {
    let mut unit = table(size, number)?;
    change(&mut unit);
    Ok(unit)
}

/// Numbers below so many are taken, each for one of the size.
fn up_to(most: u32, size: Size, number: u32) -> Reply<Unit> {
    table(size, if number < most { number % size.tables() } else { number })
}

const TABLE_FAULTS: &[(&str, TableOf)] = &[
    // which numbers there are
    ("small: the number after the last one is taken for the last", |size, number| {
        table(size, if number == size.tables() { number - 1 } else { number })
    }),
    ("small: a number outside is taken for the last", |size, number| table(size, number.min(size.tables() - 1))),
    ("small: numbers are taken modulo the number of tables", |size, number| table(size, number % size.tables())),
    ("small: numbers are taken modulo 256", |size, number| table(size, number % 256)),
    ("small: numbers are taken modulo 65,536", |size, number| table(size, number % 65_536)),
    ("small: numbers begin with 1", |size, number| table(size, number.checked_sub(1).ok_or(NO_TABLE)?)),
    ("small: table 0 is refused", |size, number| table(size, if number == 0 { u32::MAX } else { number })),
    ("small: the last table is refused", |size, number| table(size, if number + 1 == size.tables() { u32::MAX } else { number })),
    ("small: a number above 255 is refused", |size, number| table(size, if number > 255 { u32::MAX } else { number })),
    ("small: the numbers of two segments are taken", |size, number| up_to(4u32.pow(size.columns), size, number)),
    ("small: the numbers of six columns are taken", |size, number| up_to(64u32.pow(size.segments), size, number)),
    ("small: all numbers below 4,096 are taken", |size, number| up_to(4_096, size, number)),
    ("small: a number outside is refused by 1", |size, number| table(size, number).map_err(|_| 1)),
    ("small: a number outside is refused by 13", |size, number| table(size, number).map_err(|_| 13)),
    // where the marks are
    ("small: segments and columns are exchanged in the number", |size, number| {
        by_places(size, number, |segment, column| across(size, segment, column))
    }),
    ("small: the columns are counted from the last one", |size, number| {
        by_places(size, number, |segment, column| segment * size.columns - column)
    }),
    ("small: the segments are counted from the last one", |size, number| {
        by_places(size, number, |segment, column| (size.segments - segment) * size.columns + column - 1)
    }),
    ("small: all places are counted from the last one", |size, number| {
        by_places(size, number, |segment, column| (size.segments - segment + 1) * size.columns - column)
    }),
    ("small: the second segment begins six places after the first", |size, number| {
        by_places(size, number, |segment, column| (segment - 1) * SMALL_COLUMNS + column - 1)
    }),
    ("small: the second segment is as the first", |size, number| by_places(size, number, |_, column| column - 1)),
    ("small: each place adds the power of the next one", |size, number| {
        by_places(size, number, |segment, column| (segment - 1) * size.columns + column)
    }),
    ("small: a place is marked where its digit is 0", |size, number| {
        table(size, number).and_then(|_| table(size, size.tables() - 1 - number))
    }),
    ("small: the first column has no marks", |size, number| reshaped(size, number, |unit| unit.marks.retain(|mark| mark.column > 1))),
    ("small: column 6 has no marks", |size, number| reshaped(size, number, |unit| unit.marks.retain(|mark| mark.column < 6))),
    ("small: segment 2 has no marks", |size, number| reshaped(size, number, |unit| unit.marks.retain(|mark| mark.segment < 2))),
    // the unit
    ("small: the marks of the table before are there too", |size, number| {
        reshaped(size, number, |unit| unit.marks.extend(number.checked_sub(1).into_iter().flat_map(|before| made(size, before).marks)))
    }),
    ("small: a table has always 2 segments", |size, number| reshaped(size, number, |unit| unit.segments = SMALL_SEGMENTS)),
    ("small: a table has always 6 columns", |size, number| reshaped(size, number, |unit| unit.columns = SMALL_COLUMNS)),
    ("small: the columns end with the last mark", |size, number| {
        reshaped(size, number, |unit| unit.columns = unit.marks.iter().map(|mark| mark.column).max().unwrap_or(1))
    }),
    ("small: the segments end with the last mark", |size, number| {
        reshaped(size, number, |unit| unit.segments = unit.marks.iter().map(|mark| mark.segment).max().unwrap_or(1))
    }),
    ("small: a table has as many functions as segments", |size, number| reshaped(size, number, |unit| unit.functions = size.segments)),
    ("small: each segment is a function", |size, number| {
        reshaped(size, number, |unit| {
            unit.functions = size.segments;
            unit.marks = unit.marks.iter().map(|mark| Mark { tag: mark.segment, ..*mark }).collect();
        })
    }),
];

/// A table of a number that there is.
fn made(size: Size, number: u32) -> Unit {
    table(size, number).expect("a number of this size")
}

// ---------------------------------------------------------------------------------------------------------------------------------
// The totals

type TotalsOf = fn(Size, &[Fact]) -> Totals;

/// The totals where each table has other facts.
fn with_facts(size: Size, facts: &[Fact], change: impl Fn(&mut Fact)) -> Totals {
    let mut others = facts.to_vec();
    others.iter_mut().for_each(change);
    totals(size, &others)
}

/// With other tables counted at the bound, by their bound, their sum and their count.
fn counting(size: Size, facts: &[Fact], is_counted: impl Fn(&Fact, i64, i64, i64) -> bool) -> Totals {
    let count = facts.iter().filter(|fact| is_counted(fact, fact.bound as i64, fact.best.0, fact.best.1)).count();
    Totals { at_bound: count as u32, ..totals(size, facts) }
}

/// With another first number, among those that have the largest average.
fn with_first(size: Size, facts: &[Fact], choose: fn(&[u32]) -> u32) -> Totals {
    let right = totals(size, facts);
    let (sum, count) = right.largest;
    let numbers: Vec<u32> =
        (0..).zip(facts).filter(|(_, fact)| fact.best.0 * count == sum * fact.best.1).map(|(number, _)| number).collect();
    Totals { first: choose(&numbers), ..right }
}

const TOTAL_FAULTS: &[(&str, TotalsOf)] = &[
    ("totals: the last number in place of the first", |size, facts| with_first(size, facts, |numbers| numbers[numbers.len() - 1])),
    ("totals: how many have the largest average in place of the first number", |size, facts| {
        with_first(size, facts, |numbers| numbers.len() as u32)
    }),
    ("totals: numbers begin with 1", |size, facts| with_first(size, facts, |numbers| numbers[0] + 1)),
    ("totals: table 0 is never the first", |size, facts| with_first(size, facts, |numbers| numbers[0].max(1))),
    ("totals: segments and columns are exchanged in the first number", |size, facts| {
        let right = totals(size, facts);
        let power = |mark: &Mark| 2u32.pow(across(size, mark.segment, mark.column));
        let (sum, count) = right.largest;
        let is_largest = |number: &u32| facts[*number as usize].best.0 * count == sum * facts[*number as usize].best.1;
        let numbers = (0..size.tables()).filter(is_largest).map(|number| made(size, number).marks.iter().map(power).sum());
        Totals { first: numbers.min().expect("the largest average"), ..right }
    }),
    ("totals: the fraction is that of two turns", |size, facts| {
        let right = totals(size, facts);
        Totals { largest: (2 * right.largest.0, 2 * right.largest.1), ..right }
    }),
    ("totals: the fraction is upside down", |size, facts| {
        let right = totals(size, facts);
        Totals { largest: (right.largest.1, right.largest.0), ..right }
    }),
    ("totals: the least average in place of the largest", |size, facts| Totals { largest: (1, 1), first: 0, ..totals(size, facts) }),
    ("totals: the most marks of a segment in place of the largest average", |size, facts| {
        let most = facts.iter().map(|fact| fact.most_marks).max().unwrap_or(0);
        let first = facts.iter().position(|fact| fact.most_marks == most).unwrap_or(0);
        Totals { largest: (most as i64, 1), first: first as u32, ..totals(size, facts) }
    }),
    ("totals: the bound is the marks in one segment", |size, facts| with_facts(size, facts, |fact| fact.bound = fact.most_marks)),
    ("totals: the bound is the marks in one segment, and 1 without marks", |size, facts| {
        with_facts(size, facts, |fact| fact.bound = fact.most_marks.max(1))
    }),
    ("totals: the bound is the upper one", |size, facts| with_facts(size, facts, |fact| fact.bound = fact.upper)),
    ("totals: the average is the greedy cycle's", |size, facts| with_facts(size, facts, |fact| fact.best = fact.greedy)),
    ("totals: the average is the constant latency", |size, facts| with_facts(size, facts, |fact| fact.best = (fact.constant as i64, 1))),
    ("totals: the last table is left out", |size, facts| totals(size, &facts[..facts.len() - 1])),
    ("totals: the last table is left out, and the number of tables is right", |size, facts| {
        let others = totals(size, &facts[..facts.len() - 1]);
        Totals { tables: facts.len() as u32, ..others }
    }),
    ("totals: table 0 is left out", |size, facts| {
        let others = totals(size, &facts[1..]);
        Totals { first: others.first + 1, ..others }
    }),
    ("totals: a table without marks is not at the bound", |size, facts| {
        counting(size, facts, |fact, bound, sum, count| fact.most_marks > 0 && sum == bound * count)
    }),
    ("totals: a table whose bound is 1 is not at the bound", |size, facts| {
        counting(size, facts, |_, bound, sum, count| bound > 1 && sum == bound * count)
    }),
    ("totals: those that are not at the bound are counted", |size, facts| {
        counting(size, facts, |_, bound, sum, count| sum != bound * count)
    }),
    ("totals: those that are not below the bound are counted", |size, facts| {
        counting(size, facts, |_, bound, sum, count| sum >= bound * count)
    }),
    ("totals: S / K without its remainder is compared with the bound", |size, facts| {
        counting(size, facts, |_, bound, sum, count| sum / count == bound)
    }),
    ("totals: S alone is compared with the bound", |size, facts| counting(size, facts, |fact, bound, _, _| fact.greedy.0 == bound)),
    ("totals: the tables of one segment are counted alone", |size, facts| totals(size, &facts[..2usize.pow(size.columns)])),
    ("totals: 256 tables are counted at most", |size, facts| totals(size, &facts[..facts.len().min(256)])),
    ("totals: tables of both segments marked are counted alone", |size, facts| {
        let is_in = |number: u32, segment: u32| made(size, number).marks.iter().any(|mark| mark.segment == segment);
        let is_whole = |number: u32| (1..=size.segments).all(|segment| is_in(number, segment));
        let others: Vec<Fact> = (0..).zip(facts).filter(|(number, _)| is_whole(*number)).map(|(_, fact)| *fact).collect();
        Totals { tables: others.len() as u32, at_bound: totals(size, &others).at_bound, ..totals(size, facts) }
    }),
];

/// Sizes, tables and totals with a fault each.
pub fn rule_faults() -> Vec<(&'static str, Small)> {
    let of_sizes = SIZE_FAULTS.iter().map(|(what, size)| (*what, Small { size: *size, ..SMALL }));
    let of_tables = TABLE_FAULTS.iter().map(|(what, table)| (*what, Small { table: *table, ..SMALL }));
    let of_totals = TOTAL_FAULTS.iter().map(|(what, totals)| (*what, Small { totals: *totals, ..SMALL }));
    of_sizes.chain(of_tables).chain(of_totals).collect()
}

// ---------------------------------------------------------------------------------------------------------------------------------
// The session

fn tables(told: &str) -> bool {
    told == "tables"
}

fn is_no_unit(console: &Console<Folder>) -> bool {
    console.unit.is_none()
}

impl Faulty {
    /// With `no unit` in place of such an answer before the first unit.
    fn wanting_unit(&mut self, line: &[u8], place: usize, said: fn(&str) -> bool) -> Answer {
        let is_first = is_no_unit(&self.console);
        let mut answer = self.answer(line, place);
        if matches!(&answer.sort, Sort::Of("small", told) if is_first && said(told)) {
            self.console.unit = None;
            answer.parts = vec![Part::Text("no unit\n".to_string())];
        }
        answer
    }

    /// With a table of its size made the unit, where there is a unit and such an answer: with the number that is said, or with another
    /// one.
    fn taking(&mut self, line: &[u8], place: usize, told: &str, choose: fn(Size, u32) -> u32) -> Answer {
        let answer = self.answer(line, place);
        if let (true, false) = (is(&answer, "small", told), is_no_unit(&self.console)) {
            let numbers: Vec<u32> = words_of(line)[1..].iter().filter_map(|word| number(word)).collect();
            if let Ok(size) = size(numbers[0], numbers[1]) {
                let number = choose(size, numbers.get(2).copied().unwrap_or(0));
                change_unit(&mut self.console, |unit| *unit = made(size, number));
            }
        }
        answer
    }

    /// With the unit from before it changed in place of a table that is taken.
    fn joining(&mut self, line: &[u8], place: usize, join: fn(&Unit, &mut Unit)) -> Answer {
        let before = self.console.unit.clone();
        let answer = self.answer(line, place);
        if let (true, Some(before), Some(unit)) = (is(&answer, "small", "ok"), before, &mut self.console.unit) {
            join(&before, unit);
        }
        answer
    }

    /// With another text in place of a table that is taken, from that table.
    fn telling_small(&mut self, line: &[u8], place: usize, text: fn(&Unit) -> String) -> Answer {
        let mut answer = self.answer(line, place);
        if let (true, Some(unit)) = (is(&answer, "small", "ok"), &self.console.unit) {
            answer.parts = vec![Part::Text(text(unit))];
        }
        answer
    }
}

pub const SMALL_FAULTS: &[(&str, Fault)] = &[
    // what is asked for
    ("small: totals want a unit", |it, line, place| it.wanting_unit(line, place, tables)),
    ("small: a table wants a unit", |it, line, place| it.wanting_unit(line, place, ok)),
    ("small: no unit comes before refused 22", |it, line, place| it.wanting_unit(line, place, refused)),
    ("small: S and C are exchanged", |it, line, place| it.with_words_of(line, place, "small", 2, |words| words.swap(1, 2))),
    ("small: S and C are exchanged where a number is said", |it, line, place| {
        it.with_words_of(line, place, "small", 3, |words| words.swap(1, 2))
    }),
    ("small: the number comes first", |it, line, place| it.with_words_of(line, place, "small", 3, |words| words[1..].rotate_left(1))),
    ("small: a number has to be said", |it, line, place| it.with_words_of(line, place, "small", 2, |words| words.truncate(2))),
    ("small: no number may be said", |it, line, place| it.with_words_of(line, place, "small", 3, |words| words.push(b"x".to_vec()))),
    ("small: a number that is said is passed over", |it, line, place| it.with_words_of(line, place, "small", 3, |words| words.truncate(3))),
    ("small: a word that is no number is passed over", |it, line, place| {
        it.with_words_of(line, place, "small", 3, |words| words.truncate(if number(&words[3]).is_some() { 4 } else { 3 }))
    }),
    ("small: a fourth number is passed over", |it, line, place| it.with_words_of(line, place, "small", 4, |words| words.truncate(4))),
    ("small: without columns there is one", |it, line, place| it.with_words_of(line, place, "small", 1, |words| words.push(b"1".to_vec()))),
    ("small: without a number it is table 0", |it, line, place| {
        it.with_words_of(line, place, "small", 2, |words| words.push(b"0".to_vec()))
    }),
    ("small: a table that is taken is shown", |it, line, place| it.telling_small(line, place, |unit| crate::console_model::table(unit, 1))),
    ("small: the totals are told where a table is taken", |it, line, place| {
        it.telling_small(line, place, |unit| {
            let size = Size { segments: unit.segments, columns: unit.columns };
            totals(size, &facts(size, &mut Yard::new())).text() + "\n"
        })
    }),
    // what becomes of a table
    ("small: a table that is taken is not the unit where there is one", |it, line, place| {
        it.joining(line, place, |before, unit| unit.clone_from(before))
    }),
    ("small: the unit keeps its marks beside those of a table", |it, line, place| {
        it.joining(line, place, |before, unit| {
            let is_inside = |mark: &&Mark| unit.check_mark(**mark).is_ok();
            let kept: Vec<Mark> = before.marks.iter().filter(is_inside).copied().collect();
            unit.marks.extend(kept);
        })
    }),
    ("small: the unit keeps its functions", |it, line, place| it.joining(line, place, |before, unit| unit.functions = before.functions)),
    ("small: the unit keeps its segments where there are more", |it, line, place| {
        it.joining(line, place, |before, unit| unit.segments = unit.segments.max(before.segments))
    }),
    ("small: the unit keeps its columns where there are more", |it, line, place| {
        it.joining(line, place, |before, unit| unit.columns = unit.columns.max(before.columns))
    }),
    ("small: a plan is read after a table is taken", |it, line, place| {
        it.instead(line, place, |answer, _| {
            answer.met.contains(&"no plan after a small table").then(|| "plan 1 cycle 1 sum 1\n".to_string())
        })
    }),
    ("small: a table that is the unit keeps the plan", |it, line, place| {
        it.keeping(line, place, &["small"], true, |_, answer| answer.met.contains(&"small: the table that is the unit"))
    }),
    ("small: a table that is the unit keeps the bank", |it, line, place| {
        it.keeping(line, place, &["small"], false, |_, answer| answer.met.contains(&"small: the table that is the unit"))
    }),
    ("a small table makes a plan", |it, line, place| {
        let answer = it.answer(line, place);
        if is(&answer, "small", "ok") {
            it.answer(b"search 1", place);
        }
        answer
    }),
    ("a small table keeps the bank", |it, line, place| it.keeping(line, place, &["small"], false, |_, _| true)),
    ("a small table keeps the bank while no caller waits", |it, line, place| {
        it.keeping(line, place, &["small"], false, |_, answer| !answer.met.contains(&"callers' tasks taken away by a new unit"))
    }),
    // what leaves the session as it is
    ("totals leave table 0 as the unit", |it, line, place| it.taking(line, place, "tables", |_, _| 0)),
    ("totals leave the last table as the unit", |it, line, place| it.taking(line, place, "tables", |size, _| size.tables() - 1)),
    ("a number outside leaves table 0 as the unit", |it, line, place| it.taking(line, place, "refused 22", |_, _| 0)),
    ("a number outside leaves one of the size as the unit", |it, line, place| {
        it.taking(line, place, "refused 22", |size, number| number % size.tables())
    }),
    ("totals drop the plan", |it, line, place| it.after(line, place, &["small"], tables, drop_plan)),
    ("a refused small table drops the plan", |it, line, place| it.after(line, place, &["small"], refused, drop_plan)),
    ("a small table that is not as expected drops the plan", |it, line, place| it.after(line, place, &["small"], expected, drop_plan)),
    ("totals empty the bank", |it, line, place| it.after(line, place, &["small"], tables, empty)),
    ("a refused small table empties the bank", |it, line, place| it.after(line, place, &["small"], refused, empty)),
    ("a small table that is not as expected empties the bank", |it, line, place| it.after(line, place, &["small"], expected, empty)),
    ("totals take a time unit", |it, line, place| it.after(line, place, &["small"], tables, tick)),
    ("a refused small table takes a time unit", |it, line, place| it.after(line, place, &["small"], refused, tick)),
    ("totals take a mark away", |it, line, place| it.after(line, place, &["small"], tables, take_mark)),
    ("a refused small table takes a mark away", |it, line, place| it.after(line, place, &["small"], refused, take_mark)),
];
