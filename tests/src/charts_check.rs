//! The charts' model by itself: against charts drawn by hand, and on random units a ring beside a bank against tasks laid down in the grid.
//! It runs before the program is asked anything.

use crate::charts::*;
use crate::model::*;
use crate::model_check::{figure_2, unit_of};
use crate::random::{seed_of, Random};
use crate::records::ring_of;
use crate::units;

type Checked = Result<(), String>;

/// Fig. 1 with its best cycle 3 4.
const FIGURE_1: &str = "\
unit    123456789012345678901
starts  A..B...C..D...E..F...
1       A..B...CA.DB..EC.FD.. busy 10/21
2       .AA.BB.ACCBDD.CEEDFF. busy 16/21
3       ...A..B...C..D...E..F busy  6/21
4       ....AA.BB..CC.DD..EE. busy 10/21
5       ......AA.BB..CC.DD..E busy  9/21
";

/// Fig. 1's greedy cycle, 2 2 7, for one turn and a unit.
const GREEDY: &str = "\
unit    123456789012
starts  A.B.C......D
1       A.B.C...A.BD busy  6/12
2       .AABBCCA.B.C busy  9/12
3       ...A.B.C.... busy  3/12
4       ....AABBCC.. busy  6/12
5       ......AABBCC busy  6/12
";

/// Fig. 2's second function with its best cycle 1 4.
const FIGURE_2: &str = "\
unit    123456789012
starts  AB...CD...EF
1       .AB.ABCD.CDE busy  9/12
2       ...AB...CD.. busy  4/12
3       ABAB.CDCD.EF busy 10/12
";

/// No units, one, and no marks.
const NONE: &str = "unit    \nstarts  \n1        busy 0/0\n2        busy 0/0\n3        busy 0/0\n";
const ONE: &str = "unit    1\nstarts  A\n1       . busy 0/1\n2       . busy 0/1\n3       A busy 1/1\n";
const IDLE: &str = "unit    12345678901\nstarts  ABCDEFGHIJK\n1       ........... busy  0/11\n";

fn figure_1() -> Unit {
    unit_of(5, 9, &[&[&[1, 9], &[2, 3, 8], &[4], &[5, 6], &[7, 8]]])
}

fn by_hand() -> Checked {
    let cases: [(Unit, u32, &[u8], u32, &str); 6] = [
        (figure_1(), 1, &[3, 4], 21, FIGURE_1),
        (figure_1(), 1, &[2, 2, 7], 12, GREEDY),
        (figure_2(), 2, &[1, 4], 12, FIGURE_2),
        (figure_2(), 2, &[1, 4], 0, NONE),
        (figure_2(), 2, &[1, 4], 1, ONE),
        (unit_of(1, 1, &[&[&[]]]), 1, &[1], 11, IDLE),
    ];
    for (unit, tag, latencies, units, wanted) in cases {
        let found = text(&unit.spots(tag), unit.segments, units, &starts_of(latencies, units))?;
        if found != wanted || length(unit.segments, units) != wanted.len() as u64 {
            return Err(format!("chart of {latencies:?}\nwanted:\n{wanted}found:\n{found}"));
        }
    }
    let letters: String = [0, 25, 26, 51, 52, 77, 78, 103, 104].map(letter).into_iter().collect();
    if letters != "AZazAZazA" {
        return Err(format!("letters: {letters}"));
    }
    // the room for 8,192 units of 16 segments
    if length(16, 8_192) != ROOM || most_units(16) != 8_192 {
        return Err(format!("8,192 units of 16 segments: {} bytes", length(16, 8_192)));
    }
    // three rows, of which one has 6 bytes for ` busy `, twice 5 digits and `/`
    if most_units(1) != 49_271 || length(1, 49_271) != 147_857 {
        return Err(format!("one segment: {} units", most_units(1)));
    }
    // in segment 2 column 3 of one task and column 2 of the next
    if grid(&figure_1().spots(1), 5, 9, &[1, 2]).is_ok() {
        return Err("two tasks of Fig. 1 never meet at latency 1".to_string());
    }
    if starts_in(b"A..B") != Ok(vec![1, 4]) || starts_in(b"A..A").is_ok() || starts_in(b"B").is_ok() {
        return Err("starts that are read from a chart".to_string());
    }
    Ok(())
}

/// A start that the bank refuses is that of a task which meets another one; where none is refused, the starts are the cycle's. Answers
/// whether none is.
fn ways_agree(unit: &Unit, tag: u32, latencies: &[u8], units: u32, yard: &mut Yard) -> Result<bool, String> {
    let spots = unit.spots(tag);
    let rows: Vec<Vec<bool>> = (1..=unit.functions).map(|later| meetings(&spots, &unit.spots(later), yard)).collect();
    let starts = starts_of(latencies, units);
    // all cells of these tasks, the last ones too
    let laid = grid(&spots, unit.segments, units + MOST_COLUMNS, &starts);
    let agree = match played(tag, &rows, &ring_of(latencies), units) {
        Ok(granted) => laid.is_ok() && granted == starts,
        Err(number) => laid.is_err() && number == 10,
    };
    if !agree {
        return Err(format!("{latencies:?} for {units} units of function {tag} of {unit:?}: the bank and the grid disagree"));
    }
    if let Ok(text) = text(&spots, unit.segments, units, &starts) {
        let cells = text.lines().nth(1).map(|line| line[FIELD..].as_bytes());
        if text.len() as u64 != length(unit.segments, units) || cells.map(starts_in) != Some(Ok(starts)) {
            return Err(format!("the chart of {latencies:?} for {units} units is not read back"));
        }
    }
    Ok(laid.is_ok())
}

/// Everything above.
pub fn run() -> Checked {
    by_hand()?;
    let (random, yard) = (&mut Random::new(seed_of(15, 0)), &mut Yard::new());
    let (mut granted, mut refused) = (0, 0);
    for _ in 0..400 {
        let unit = units::unit(random);
        for tag in 1..=unit.functions {
            let spots = unit.spots(tag);
            let vector = collision_vector(&spots, yard);
            let diagram = diagram(&vector, MOST_STATES);
            let mut cycles = vec![vec![vector.len() as u8 + 1], vec![constant(&vector) as u8]];
            cycles.extend(diagram.iter().map(|diagram| diagram.greedy()));
            cycles.extend((0..4).map(|_| units::cycle(diagram.as_ref(), random)).filter(|cycle| check_cycle(cycle).is_ok()));
            for latencies in cycles {
                let never = never_collides(&spots, &latencies, yard);
                // two turns and more
                let units = 2 * sum_of(&latencies) + random.between(MOST_COLUMNS, 70);
                if ways_agree(&unit, tag, &latencies, units, yard)? != never {
                    return Err(format!("{latencies:?} of function {tag} of {unit:?}: to collide is not to be refused"));
                }
                ways_agree(&unit, tag, &latencies, random.between(0, 40), yard)?;
                *(if never { &mut granted } else { &mut refused }) += 1;
            }
        }
    }
    if granted < 1_000 || refused < 500 {
        return Err(format!("{granted} rings that are granted and {refused} that are not"));
    }
    Ok(())
}
