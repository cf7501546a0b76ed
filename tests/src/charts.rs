//! Charts: a plan's ring played beside an empty bank for some time units, and what is shown of it. Sentences in quotation marks are those of
//! the request.
//!
//! A chart is a grid, a row for each segment and a cell for each time unit, in which every task that starts is laid down mark by mark. The
//! starts come from the cycle; those that a bank grants beside the ring (`played`) are found in another way, and `charts_check.rs` compares
//! the two.

use crate::model::*;

/// A chart of more bytes than this is refused.
pub const NO_ROOM: u32 = 6;
pub const ROOM: u64 = 147_858;
/// Bytes of what stands in front of the cells.
pub const FIELD: usize = 8;
const BUSY: &str = " busy ";

/// The letter of a task, counted from 0: in turn A to Z, a to z, and then A again.
pub fn letter(task: usize) -> char {
    let mut letters = ('A'..='Z').chain('a'..='z');
    letters.nth(task % 52).expect("one of 52 letters")
}

/// The time units, from 1 on, in which tasks start: the plan's cycle repeated without end. Unit 1 is a start, then there is one after each
/// latency in turn.
pub fn starts_of(latencies: &[u8], units: u32) -> Vec<u32> {
    let mut starts = Vec::new();
    let mut unit = 1;
    for latency in latencies.iter().cycle() {
        if unit > units {
            break;
        }
        starts.push(unit);
        unit += *latency as u32;
    }
    starts
}

/// For each segment the task of each time unit.
pub type Grid = Vec<Vec<Option<usize>>>;

/// A task that starts in unit t occupies, in unit t + c − 1, each segment that is marked in column c. Two tasks in one cell are an error.
pub fn grid(spots: &[Spot], segments: u32, units: u32, starts: &[u32]) -> Result<Grid, String> {
    let mut grid = vec![vec![None; units as usize]; segments as usize];
    for (task, start) in starts.iter().enumerate() {
        for &(segment, column) in spots {
            let unit = start + column - 1;
            if unit > units {
                continue;
            }
            let cell = &mut grid[segment as usize - 1][unit as usize - 1];
            if let Some(other) = cell {
                return Err(format!("tasks {other} and {task} meet in segment {segment} in unit {unit}"));
            }
            *cell = Some(task);
        }
    }
    Ok(grid)
}

/// A row's name, with spaces after it up to 8 bytes, and its cells.
fn row(name: &str, cells: impl Iterator<Item = char>) -> String {
    format!("{name:<FIELD$}{}", cells.collect::<String>())
}

fn cell(task: &Option<usize>) -> char {
    task.map_or('.', letter)
}

/// The first line, and the second one up to its cells.
pub fn head(units: u32) -> String {
    let digits = (1..=units).map(|unit| char::from_digit(unit % 10, 10).expect("a digit"));
    format!("{}\n{}", row("unit", digits), row("starts", std::iter::empty()))
}

/// The chart of tasks that start in these units. Two tasks that meet are an error.
pub fn text(spots: &[Spot], segments: u32, units: u32, starts: &[u32]) -> Result<String, String> {
    let grid = grid(spots, segments, units, starts)?;
    let mut starting = vec![None; units as usize];
    for (task, start) in starts.iter().enumerate() {
        starting[*start as usize - 1] = Some(task);
    }
    let mut text = head(units);
    text.extend(starting.iter().map(cell));
    text += "\n";
    let width = units.to_string().len();
    for (segment, tasks) in (1..).zip(&grid) {
        let busy = tasks.iter().filter(|task| task.is_some()).count();
        text += &row(&format!("{segment}"), tasks.iter().map(cell));
        text += &format!("{BUSY}{busy:>width$}/{units}\n");
    }
    Ok(text)
}

/// How many bytes the chart has.
pub fn length(segments: u32, units: u32) -> u64 {
    let (cells, digits) = (FIELD as u64 + units as u64, units.to_string().len() as u64);
    let above = 2 * (cells + 1);
    above + segments as u64 * (cells + BUSY.len() as u64 + digits + 1 + digits + 1)
}

/// The most units whose chart has room.
pub fn most_units(segments: u32) -> u32 {
    // each unit has a cell in every row
    let above = ROOM as u32 / (segments + 2);
    (0..=above).rev().find(|units| length(segments, *units) <= ROOM).expect("a chart of no units has room")
}

/// The time units of the starts that the cells of the line `starts` show.
pub fn starts_in(cells: &[u8]) -> Result<Vec<u32>, String> {
    let mut starts = Vec::new();
    for (unit, cell) in (1..).zip(cells) {
        let task = starts.len();
        match *cell as char {
            '.' => {}
            shown if shown == letter(task) => starts.push(unit),
            _ => return Err(format!("unit {unit}: neither `.` nor {}", letter(task))),
        }
    }
    Ok(starts)
}

/// The time units of the starts where a ring is played: "From an empty bank and ring position 0, both handed on from step to step, for every
/// number of units, a unit with bit 0 is a start of the plan's tag that the bank grants, and a unit with bit 1 is a tick." `rows[R − 1]` is
/// row R of M_Q. A start that is not granted is refused.
pub fn played(tag: u32, rows: &[Vec<bool>], ring: &[bool], units: u32) -> Reply<Vec<u32>> {
    let mut bank = Bank::of_words(&[0; REGISTERS]);
    let mut position = 0;
    let mut starts = Vec::new();
    for unit in 1..=units {
        if ring[position] {
            bank.tick();
        } else {
            bank.start(tag, rows)?;
            starts.push(unit);
        }
        // "position (0 after S − 1)"
        position = if position == ring.len() - 1 { 0 } else { position + 1 };
    }
    Ok(starts)
}
