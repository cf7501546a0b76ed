//! Lists of mark, unmark, search and read held against the paper's sheet (demand 3).
//!
//! "The sheet is fed the calls and their arguments only, never an answer or the unit." What plays the calls is a `Desk`. There are three:
//! the single calls of the interface for C, which have no stored plan, so that a search's cycle is checked where it is handed out and a
//! read answers `None`; the replies of a list that the interface for C played as a whole, reads among them (`lists.rs`); and the model
//! itself (`model_check.rs`).

use crate::facts::Facts;
use crate::model::*;
use crate::random::Random;
use crate::tally::Met;

/// A difference between a desk and the sheet, in words.
type Difference = String;
type Checked = Result<(), Difference>;

/// A plan as a read hands it out.
#[derive(Clone, PartialEq, Eq, Debug)]
pub struct Plan {
    pub tag: u32,
    pub cycle: Cycle,
}

/// Something that plays the four calls on one unit, each on the unit as the call before left it.
pub trait Desk {
    fn edit(&mut self, set: bool, mark: Mark) -> Result<Reply<()>, Difference>;
    /// The cycle is given where the call itself hands it out.
    fn search(&mut self, tag: u32, work_length: usize) -> Result<Reply<Option<Cycle>>, Difference>;
    /// None where there is no such call.
    fn read(&mut self) -> Result<Option<Reply<Plan>>, Difference>;
    /// The unit as a file, where the desk has one.
    fn file(&self) -> Option<&[u8]>;
}

/// "It has the three counts the unit was made with, a table of marks (each a tag, a segment and a column), and an owed tag."
pub struct Sheet {
    unit: Unit,
    owed: u32,
    /// What the model says of the table, until an edit is accepted.
    facts: Option<Facts>,
    case: u64,
}

impl Sheet {
    /// "At the start the table is empty and the owed tag is 0." `case` decides how a least average is worked out, as in `Facts`.
    pub fn new(fresh: Unit, case: u64) -> Sheet {
        Sheet { unit: fresh, owed: 0, facts: None, case }
    }

    pub fn unit(&self) -> &Unit {
        &self.unit
    }

    pub fn owed(&self) -> u32 {
        self.owed
    }

    /// What the model says of the table.
    pub fn facts(&mut self) -> &mut Facts {
        let (unit, case) = (&self.unit, self.case);
        self.facts.get_or_insert_with(|| Facts::of_file(encode(unit), case))
    }
}

#[derive(Clone, Copy, Debug)]
pub enum Call {
    Edit(bool, Mark),
    Search(u32, usize),
    Read,
}

fn some_call(unit: &Unit, random: &mut Random) -> Call {
    match random.below(16) {
        0..=10 => {
            let mut mark =
                Mark { tag: random.number(unit.functions), segment: random.number(unit.segments), column: random.number(unit.columns) };
            let set = random.chance(5, 8);
            if !set && !unit.marks.is_empty() && random.chance(3, 4) {
                let place = random.below(unit.marks.len() as u64) as usize;
                mark = *unit.marks.iter().nth(place).expect("a mark");
            }
            Call::Edit(set, mark)
        }
        11..=13 => Call::Search(random.number(unit.functions), WORKING_WORDS - if random.chance(1, 12) { 1 } else { 0 }),
        _ => Call::Read,
    }
}

/// Plays one list of so many calls from a fresh unit.
pub fn play(desk: &mut dyn Desk, fresh: Unit, count: u32, random: &mut Random, yard: &mut Yard, met: &mut Met) -> Checked {
    let mut sheet = Sheet::new(fresh, 0);
    let mut calls = Vec::new();
    for _ in 0..count {
        let call = some_call(&sheet.unit, random);
        calls.push(call);
        let _ = play_one(desk, &mut sheet, call, yard, met).map_err(|why| format!("{why}\nafter the calls {calls:?}"))?;
    }
    // at the end a search of every function, so that each list's table is searched
    for tag in 1..=sheet.unit.functions {
        for call in [Call::Search(tag, WORKING_WORDS), Call::Read] {
            calls.push(call);
            let _ = play_one(desk, &mut sheet, call, yard, met).map_err(|why| format!("{why}\nafter the calls {calls:?}"))?;
        }
    }
    Ok(())
}

fn agree(expected: Reply<()>, seen: Reply<()>) -> Checked {
    if expected == seen {
        return Ok(());
    }
    Err(format!("the desk says {seen:?}, the sheet {expected:?}"))
}

/// One call on the desk and on the sheet: what the sheet says of it, where the desk says the same.
pub fn play_one(desk: &mut dyn Desk, sheet: &mut Sheet, call: Call, yard: &mut Yard, met: &mut Met) -> Result<Reply<()>, Difference> {
    let told = |why: String| format!("{call:?}: {why}");
    let answer = match call {
        Call::Edit(set, mark) => {
            let expected = sheet.unit.check_mark(mark);
            // "An accepted mark adds its mark, an accepted unmark removes it, and either makes the owed tag 0"
            if expected.is_ok() {
                match set {
                    true => sheet.unit.marks.insert(mark),
                    false => sheet.unit.marks.remove(&mark),
                };
                sheet.owed = 0;
                sheet.facts = None;
            }
            agree(expected, desk.edit(set, mark).map_err(told)?).map_err(told)?;
            expected
        }
        Call::Search(tag, work_length) => {
            let expected = sheet.unit.check_tag(tag).and_then(|()| {
                if work_length < WORKING_WORDS {
                    return Err(5);
                }
                sheet.facts().diagram(tag, yard).map(|_| ()).ok_or(7)
            });
            // "An accepted search makes its own tag the owed one."
            if expected.is_ok() {
                sheet.owed = tag;
            }
            let seen = desk.search(tag, work_length).map_err(told)?;
            agree(expected, seen.as_ref().map(|_| ()).map_err(|number| *number)).map_err(told)?;
            if let Ok(Some(cycle)) = seen {
                sheet.facts().check_best(tag, &cycle, yard, met).map_err(told)?;
            }
            expected
        }
        Call::Read => match (desk.read().map_err(told)?, sheet.owed) {
            // "With 0 it gives 8."
            (None | Some(Err(8)), 0) => Err(8),
            (None, _) => Ok(()),
            (Some(seen), 0) => return Err(told(format!("the desk says {seen:?}, the sheet owes nothing"))),
            // "With an owed tag other than 0 a read hands out a plan of that tag"
            (Some(Ok(plan)), owed) if plan.tag == owed => {
                sheet.facts().check_best(owed, &plan.cycle, yard, met).map_err(told)?;
                Ok(())
            }
            (Some(seen), owed) => return Err(told(format!("the desk says {seen:?}, the sheet owes a plan of {owed}"))),
        },
    };
    match desk.file() {
        Some(file) if file != encode(&sheet.unit) => Err(told("the file is not that of the sheet's table".to_string())),
        _ => Ok(answer),
    }
}
