//! Each call of the library beside the model: the answer, and every byte of lent memory that the answer fixes.

use crate::facts::Facts;
use crate::ffi::{Kind, Lender};
use crate::model::*;
use crate::random::Random;
use crate::tally::Met;
use std::fmt::Debug;

/// "8,888 bytes always suffice" for a listing.
pub const LISTING_AREA: usize = 8_888;

/// A difference between the library and the model, in words.
pub type Difference = String;
pub type Checked = Result<(), Difference>;

pub struct Bench {
    pub lender: Lender,
    pub yard: Yard,
    pub met: Met,
    machine: Machine,
}

fn same<T: PartialEq + Debug>(question: impl FnOnce() -> String, expected: Reply<T>, seen: Result<Reply<T>, String>) -> Checked {
    match seen {
        Err(breach) => Err(format!("{}: {breach}", question())),
        Ok(seen) if seen == expected => Ok(()),
        Ok(seen) => Err(format!("{}: the library says {seen:?}, the paper {expected:?}", question())),
    }
}

/// A number that is refused though its low byte would be accepted.
fn low_byte_fits(number: u32, most: u32) -> bool {
    number > 255 && (1..=most).contains(&(number % 256))
}

impl Bench {
    pub fn new() -> Bench {
        Bench { lender: Lender::new(), yard: Yard::new(), met: Met::default(), machine: Machine::new() }
    }

    /// Which sort of file this is.
    pub fn meet_file(&mut self, facts: &Facts) {
        let file = &facts.file;
        let number = match facts.unit {
            Ok(_) => return,
            Err(number) => number,
        };
        if file.len() < 4 {
            return self.met.meet("file: fewer than 4 bytes");
        }
        let (functions, segments, columns) = (file[0] as u32, file[1] as u32, file[2] as u32);
        match number {
            1 => {
                self.met.meet_if(!(1..=4).contains(&functions), "file: functions outside 1 to 4");
                self.met.meet_if(!(1..=16).contains(&segments), "file: segments outside 1 to 16");
                self.met.meet_if(!(1..=32).contains(&columns), "file: columns outside 1 to 32");
            }
            11 => {
                let right = file_length(functions, segments);
                self.met.meet_if(file.len() < right, "file: too short");
                self.met.meet_if(file.len() > right, "file: too long");
                self.met.meet_if(file.len() > right && (file.len() - right) % 256 == 0, "file: longer by a multiple of 256");
                self.met.meet_if(file.len() == right + 65_536, "file: longer by 65,536");
            }
            12 if file[3] != 0 => self.met.meet("file: byte 3 not zero"),
            12 => self.met.meet("file: an offset wrong"),
            _ => self.met.meet("file: a mark beyond the columns"),
        }
    }

    pub fn fresh(&mut self, functions: u32, segments: u32, columns: u32, out_length: usize) -> Checked {
        let expected = Unit::fresh(functions, segments, columns).and_then(|unit| {
            let file = encode(&unit);
            // "6 output too short (.. the file's length for writing)"
            if out_length < file.len() {
                return Err(6);
            }
            Ok(file)
        });
        let need = file_length(functions.min(4), segments.min(16));
        self.met.meet_if(expected.is_ok() && out_length == need, "output exactly enough");
        self.met.meet_if(expected == Err(6) && out_length + 1 == need, "output too short by one");
        let fits = low_byte_fits(functions, 4) || low_byte_fits(segments, 16) || low_byte_fits(columns, 32);
        self.met.meet_if(fits, "number above 255, low byte in range");
        let seen = self.lender.fresh(functions, segments, columns, out_length);
        same(|| format!("fresh {functions} {segments} {columns} into {out_length} bytes"), expected, seen)
    }

    /// A mark or an unmark on a copy of the file; hands out the file afterwards where the edit was accepted.
    pub fn edit(&mut self, facts: &Facts, set: bool, mark: Mark) -> Result<Option<Vec<u8>>, Difference> {
        let expected = facts.unit.clone().and_then(|mut unit| {
            let stood = unit.marks.contains(&mark);
            match set {
                true => unit.mark(mark)?,
                false => unit.unmark(mark)?,
            }
            self.met.meet_if(set && stood, "mark already there");
            self.met.meet_if(!set && !stood, "unmark of no mark");
            Ok(encode(&unit))
        });
        if let Ok(unit) = &facts.unit {
            let fits = low_byte_fits(mark.tag, unit.functions)
                || low_byte_fits(mark.segment, unit.segments)
                || low_byte_fits(mark.column, unit.columns);
            self.met.meet_if(fits, "number above 255, low byte in range");
        }
        let seen = self.lender.edit(set, &facts.file, mark.tag, mark.segment, mark.column);
        let after = expected.clone().ok();
        same(|| format!("{} {mark:?}", if set { "mark" } else { "unmark" }), expected, seen)?;
        Ok(after)
    }

    pub fn vector(&mut self, facts: &mut Facts, tag: u32) -> Checked {
        let expected = facts.known(tag).map(|()| word_of(&facts.vector(tag, &mut self.yard)));
        let seen = self.lender.vector(&facts.file, tag);
        same(|| format!("vector of {tag}"), expected, seen)
    }

    pub fn matrix_row(&mut self, facts: &Facts, tag: u32, other: u32) -> Checked {
        let known = facts.known(tag).and(facts.known(other));
        let expected = known.map(|()| word_of(&facts.row(tag, other, &mut self.yard)));
        let seen = self.lender.matrix_row(&facts.file, tag, other);
        same(|| format!("row {tag} of the matrix of {other}"), expected, seen)
    }

    pub fn bound(&mut self, facts: &mut Facts, tag: u32) -> Checked {
        let expected = facts.known(tag).map(|()| {
            let (bound, marks) = (facts.bound(tag, &mut self.yard), most_marks(&facts.spots(tag)));
            self.met.meet_if(marks == 0, "bound of a function without marks");
            self.met.meet_if(marks > 0 && bound == marks, "bound: the marks of a segment");
            self.met.meet_if(marks > 0 && bound > marks, "bound: above the marks of every segment");
            bound
        });
        let seen = self.lender.bound(&facts.file, tag);
        same(|| format!("bound of {tag}"), expected, seen)
    }

    pub fn upper(&mut self, facts: &mut Facts, tag: u32) -> Checked {
        let expected = facts.known(tag).map(|()| upper(&facts.vector(tag, &mut self.yard)));
        let seen = self.lender.upper(&facts.file, tag);
        same(|| format!("upper of {tag}"), expected, seen)
    }

    pub fn constant(&mut self, facts: &mut Facts, tag: u32) -> Checked {
        let expected = facts.known(tag).map(|()| constant(&facts.vector(tag, &mut self.yard)));
        let seen = self.lender.constant(&facts.file, tag);
        same(|| format!("constant of {tag}"), expected, seen)
    }

    pub fn judge(&mut self, facts: &Facts, tag: u32, latencies: &[u8]) -> Checked {
        let expected = facts.known(tag).and_then(|()| {
            check_cycle(latencies)?;
            let spots = facts.spots(tag);
            let never = never_collides(&spots, latencies, &mut self.yard);
            let in_turn = !one_turn_never_collides(&spots, latencies, &mut self.yard);
            self.met.meet_if(never, "cycle: never collides");
            self.met.meet_if(in_turn, "cycle: collides in one turn");
            self.met.meet_if(!never && !in_turn, "cycle: collides only across turns");
            self.met.meet_if(latencies.len() == MOST_LATENCIES, "cycle: 256 latencies");
            Ok(never as u32)
        });
        if expected == Err(9) {
            self.met.meet_if(latencies.is_empty(), "cycle: empty");
            self.met.meet_if(latencies.len() > MOST_LATENCIES, "cycle: more than 256 latencies");
            self.met.meet_if(latencies.contains(&0), "cycle: a latency 0");
        }
        let seen = self.lender.judge(&facts.file, tag, latencies);
        same(|| format!("judge of {tag}, {} latencies {latencies:?}", latencies.len()), expected, seen)
    }

    fn meet_diagram(&mut self, facts: &mut Facts, tag: u32) {
        let largest = facts.vector(tag, &mut self.yard).len();
        let states = facts.diagram(tag, &mut self.yard).map_or(MOST_STATES + 1, |diagram| diagram.states.len());
        self.met.meet(match states {
            1 => "states: 1",
            2..=16 => "states: 2 to 16",
            17..=64 => "states: 17 to 64",
            65..=255 => "states: 65 to 255",
            256 => "states: 256",
            _ => "states: more than 256",
        });
        self.met.meet_if(largest == 0, "diagram with n = 0");
        self.met.meet_if(largest == 31 && states <= MOST_STATES, "diagram with n = 31");
    }

    pub fn states(&mut self, facts: &mut Facts, tag: u32, out_length: usize) -> Checked {
        let expected = facts.known(tag).and_then(|()| {
            self.met.meet_if(out_length == MOST_STATES, "output exactly enough");
            self.met.meet_if(out_length + 1 == MOST_STATES, "output too short by one");
            if out_length < MOST_STATES {
                return Err(6);
            }
            self.meet_diagram(facts, tag);
            let diagram = facts.diagram(tag, &mut self.yard).ok_or(7u32)?;
            Ok(diagram.states.iter().map(|state| word_of(state)).collect::<Vec<u32>>())
        });
        let seen = self.lender.states(&facts.file, tag, out_length);
        same(|| format!("states of {tag} into {out_length} words"), expected, seen)
    }

    /// The numbers that greedy and search share: 2, 5, 6, 7 after the file's.
    fn check_cycle_call(&mut self, facts: &mut Facts, tag: u32, work_length: usize, out_length: usize) -> Reply<()> {
        facts.known(tag)?;
        self.met.meet_if(work_length == WORKING_WORDS, "words exactly enough");
        self.met.meet_if(work_length + 1 == WORKING_WORDS, "words too few by one");
        if work_length < WORKING_WORDS {
            return Err(5);
        }
        self.met.meet_if(out_length == MOST_LATENCIES, "output exactly enough");
        self.met.meet_if(out_length + 1 == MOST_LATENCIES, "output too short by one");
        if out_length < MOST_LATENCIES {
            return Err(6);
        }
        match facts.diagram(tag, &mut self.yard) {
            Some(_) => Ok(()),
            None => Err(7),
        }
    }

    pub fn greedy(&mut self, facts: &mut Facts, tag: u32, work_length: usize, out_length: usize) -> Checked {
        let expected = self.check_cycle_call(facts, tag, work_length, out_length).map(|()| {
            let latencies = facts.diagram(tag, &mut self.yard).expect("a diagram").greedy();
            self.met.meet_if(sum_of(&latencies) > 255, "greedy cycle with a sum above 255");
            Cycle { sum: sum_of(&latencies), latencies }
        });
        let question = || format!("greedy of {tag} with {work_length} words into {out_length} bytes");
        let seen = self.lender.cycle(Kind::Greedy, &facts.file, tag, work_length, out_length);
        if let Ok(cycle) = &expected {
            facts.check_bounds(tag, cycle, &mut self.yard, &mut self.met).map_err(|why| format!("{}: {why}", question()))?;
        }
        same(question, expected, seen)
    }

    pub fn search(&mut self, facts: &mut Facts, tag: u32, work_length: usize, out_length: usize) -> Result<Option<Cycle>, Difference> {
        let expected = self.check_cycle_call(facts, tag, work_length, out_length);
        let question = || format!("search of {tag} with {work_length} words into {out_length} bytes");
        let seen = self.lender.cycle(Kind::Search, &facts.file, tag, work_length, out_length);
        match (expected, seen) {
            (Ok(()), Ok(Ok(cycle))) => {
                let checked = facts.check_best(tag, &cycle, &mut self.yard, &mut self.met);
                checked.map_err(|why| format!("{}: {why}", question()))?;
                facts.check_bounds(tag, &cycle, &mut self.yard, &mut self.met).map_err(|why| format!("{}: {why}", question()))?;
                let greedy = facts.diagram(tag, &mut self.yard).expect("a diagram").greedy();
                let ahead = cycle.sum as usize * greedy.len() < sum_of(&greedy) as usize * cycle.latencies.len();
                self.met.meet(if ahead { "best is better than greedy" } else { "best is greedy" });
                self.met.meet_if(facts.functions() >= 2, "best of two or more functions");
                self.met.meet_if(cycle.sum > 255, "best cycle with a sum above 255");
                Ok(Some(cycle))
            }
            (expected, seen) => {
                same(question, expected, seen.map(|reply| reply.map(|_| ())))?;
                Ok(None)
            }
        }
    }

    /// "6 (fewer than 4 words)" after 2 and before 10.
    fn expected_event(&mut self, facts: &Facts, bank: &[u32], start: Option<u32>) -> Reply<Vec<u32>> {
        match (&facts.unit, start) {
            (Err(number), _) => return Err(*number),
            (Ok(unit), Some(tag)) => unit.check_tag(tag)?,
            (Ok(_), None) => {}
        }
        if bank.len() < REGISTERS {
            return Err(6);
        }
        let mut registers = Bank::of_words(bank);
        match start {
            None => registers.tick(),
            Some(tag) => {
                let rows: Vec<Vec<bool>> = (1..=facts.functions()).map(|other| facts.row(other, tag, &mut self.yard)).collect();
                registers.start(tag, &rows)?;
            }
        }
        let mut after = registers.words();
        after.extend_from_slice(&bank[REGISTERS..]);
        Ok(after)
    }

    /// One event on any register values; hands out the registers afterwards where it was accepted.
    pub fn event(&mut self, facts: &Facts, bank: &[u32], start: Option<u32>) -> Result<Option<Vec<u32>>, Difference> {
        let expected = self.expected_event(facts, bank, start);
        self.met.meet_if(expected.is_ok() && start.is_some(), "start granted from any registers");
        let after = expected.clone().ok();
        let seen = self.lender.event(&facts.file, bank, start);
        same(|| format!("event {start:?} (a tag is a start) on registers {bank:x?}"), expected, seen)?;
        Ok(after)
    }

    /// A list of events from an empty bank beside the tasks themselves: "for one unchanged unit, from an empty bank, a start of one of its
    /// functions is granted exactly when no segment would serve two tasks in one time unit".
    pub fn events_from_empty(&mut self, facts: &Facts, count: u32, random: &mut Random) -> Checked {
        let functions = facts.functions();
        let mut bank = vec![0; REGISTERS];
        let mut played = Vec::new();
        self.machine.restart();
        for _ in 0..count {
            let start = if random.chance(1, 4) { None } else { Some(random.between(1, functions)) };
            played.push(start);
            let granted = match start {
                None => {
                    self.machine.tick();
                    Ok(())
                }
                Some(tag) => self.machine.start(&facts.spots(tag)),
            };
            self.met.meet_if(start.is_some(), "start by tasks from empty");
            let seen = self.lender.event(&facts.file, &bank, start);
            let told = || format!("events from an empty bank {played:?}");
            if let Ok(Ok(after)) = &seen {
                bank.clone_from(after);
            }
            same(told, granted, seen.map(|reply| reply.map(|_| ())))?;
        }
        // what the registers stand for: bit w of register R is 1 exactly when R, started after w more time units, would meet a task
        let expected: Vec<u32> = (1..=REGISTERS as u32)
            .map(|tag| {
                if tag > functions {
                    return 0;
                }
                let spots = facts.spots(tag);
                let bits: Vec<bool> = (0..REGISTER_BITS as u32).map(|wait| self.machine.would_clash(&spots, wait)).collect();
                word_of(&bits)
            })
            .collect();
        same(|| format!("registers after the events {played:?}"), Ok(expected), Ok(Ok(bank)))
    }

    /// The listing in an area of the given length, or in its own length and one byte less where none is given.
    pub fn listing(&mut self, facts: &mut Facts, out_length: Option<usize>) -> Checked {
        let room = out_length.unwrap_or(LISTING_AREA);
        let seen = self.lender.listing(&facts.file, room).map_err(|breach| format!("listing into {room} bytes: {breach}"))?;
        let text = match seen {
            Ok(text) => text,
            Err(6) if room < LISTING_AREA => {
                // refused: the text, had there been room for it, is longer
                let whole = self.lender.listing(&facts.file, LISTING_AREA)?;
                let length = whole.as_ref().map_or(0, |text| text.len());
                if room >= length {
                    return Err(format!("listing into {room} bytes: refused 6, its length is {length}"));
                }
                whole.map_err(|number| format!("listing into {LISTING_AREA} bytes: refused {number}"))?
            }
            Err(number) => return Err(format!("listing into {room} bytes: refused {number}")),
        };
        self.check_listing(facts, &text)?;
        if out_length.is_none() {
            let length = text.len();
            self.met.meet("listing in just its length");
            let seen = self.lender.listing(&facts.file, length);
            same(|| format!("listing into its own {length} bytes"), Ok(text), seen)?;
            let seen = self.lender.listing(&facts.file, length - 1);
            same(|| format!("listing into a byte less than its {length}"), Err(6), seen)?;
        }
        Ok(())
    }

    /// "every byte": the text is the model's, and where the model leaves the best cycle free, a best cycle stands.
    fn check_listing(&mut self, facts: &mut Facts, text: &[u8]) -> Checked {
        let mut greedy = Vec::new();
        for tag in 1..=facts.functions() {
            let told = facts.diagram(tag, &mut self.yard).map(|diagram| (diagram.states.len(), diagram.greedy()));
            self.met.meet_if(told.is_none(), "listing with refused 7");
            greedy.push(told);
        }
        self.met.meet_if(facts.unit.is_err(), "listing of a refused file");
        let pieces = listing(&facts.unit, &mut self.yard, |tag| greedy[tag as usize - 1].clone());
        let show = |why: String| format!("listing: {why}, in\n{}", String::from_utf8_lossy(text));
        let mut rest = text;
        for piece in &pieces {
            match piece {
                Piece::Text(expected) => {
                    rest = rest.strip_prefix(expected.as_bytes()).ok_or_else(|| show(format!("the paper has {expected:?}")))?;
                }
                Piece::Best(tag) => {
                    let end = rest.iter().position(|&byte| byte == b'\n').ok_or_else(|| show("a line has no end".to_string()))?;
                    let cycle = read_cycle(&rest[..end]).ok_or_else(|| show(format!("line best of function {tag} is no cycle")))?;
                    let checked = facts.check_best(*tag, &cycle, &mut self.yard, &mut self.met);
                    checked.map_err(|why| show(format!("best of function {tag}: {why}")))?;
                    rest = &rest[end..];
                }
            }
        }
        if !rest.is_empty() {
            return Err(show(format!("{} bytes more than the paper has", rest.len())));
        }
        Ok(())
    }
}

/// The cycle of a line `best`: latencies, `sum`, the sum; exactly as the model would write it.
fn read_cycle(line: &[u8]) -> Option<Cycle> {
    let line = std::str::from_utf8(line).ok()?;
    let (latencies, sum) = line.split_once(" sum ")?;
    let latencies: Vec<u8> = latencies.split(' ').map(|latency| latency.parse().ok()).collect::<Option<_>>()?;
    let sum = sum.parse().ok()?;
    if line != cycle_text(&latencies) {
        return None;
    }
    Some(Cycle { latencies, sum })
}
