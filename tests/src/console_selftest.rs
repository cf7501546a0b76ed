//! The test of the program tried by itself, without the program: an output that the model made, which has to be accepted; wrong outputs,
//! each of which has to be reported at its line; and consoles with a fault each, which the lines have to show.
//!
//!     console_selftest                   everything
//!     console_selftest stand-in          the model in the program's place: answers standard input
//!     console_selftest stand-in WRONG    the same with something wrong in how it handles files or its output

#![allow(dead_code)]

mod callers;
mod callers_check;
mod callers_faults;
mod callers_met;
mod charts;
mod charts_check;
mod console_check;
mod console_examples;
mod console_faults;
mod console_folder;
mod console_model;
mod console_outside;
mod console_program;
mod console_script;
mod console_watch;
mod console_words;
mod delays;
mod delays_check;
mod delays_met;
mod facts;
mod loops;
mod loops_check;
mod model;
mod model_check;
mod queue;
mod queue_check;
mod queue_faults;
mod queue_met;
mod random;
mod record_files;
mod records;
mod records_check;
mod routes;
mod sheet;
mod small;
mod small_check;
mod small_faults;
mod small_met;
mod tally;
mod units;

use callers::{Shared, SHARED};
use callers_faults::{shared_faults, CALLER_FAULTS, UNTOUCHED_FAULTS};
use console_check::{check, Counts, Difference, Run};
use console_faults::{file_of, sketched, Fault, Faulty, CHART_FAULTS, DELAY_FAULTS, FAULTS, RECORD_FAULTS};
use console_folder::{store, Content, File, Folder, OfWritten, Shelf, HEAD, PART};
use console_model::*;
use console_outside::{cases, Outcome, Program};
use console_program::{Ending, Place};
use console_script::{scripts, Feed, Line, Script, CALLERS, LINES, QUEUES, RECORDS, SMALL_TABLES};
use console_words::{one_turn, plan_drawing, Draw, Filler, Finder};
use delays_check::by_trial;
use loops::Loops;
use model::*;
use queue::{Port, PORT};
use queue_faults::{port_faults, QUEUE_FAULTS};
use random::{seed_of, Random};
use small::Small;
use small_check::OTHER_WAY;
use small_faults::{rule_faults, SMALL_FAULTS};
use std::cell::RefCell;
use std::collections::{BTreeMap, HashSet};
use std::ffi::{OsStr, OsString};
use std::fs::{self, OpenOptions};
use std::io::{self, BufRead, Read, Write};
use std::os::fd::AsFd;
use std::os::unix::ffi::OsStrExt;
use std::path::Path;
use std::process::{exit, Command};
use std::rc::Rc;
use std::time::Duration;

// ---------------------------------------------------------------------------------------------------------------------------------
// An output of the model's own

/// What a stand-in does where an answer can't be written.
#[derive(Clone, Copy, PartialEq, Eq)]
enum Unwritten {
    Stops,
    /// It carries out the commands that follow.
    GoesOn,
    /// It carries out none, but waits for the input's end.
    ReadsOn,
    /// It writes no answer before the input's end.
    HoldsBack,
}

/// Puts answers into words and records into bytes, by the same choice of best cycles.
struct Choice {
    filler: Filler,
    random: Random,
}

/// Writes a file, and answers whether it is written.
type Store = fn(&OsStr, &[u8]) -> bool;
/// The first bytes of a file, where there is one.
type Fetch = fn(&OsStr) -> Option<Vec<u8>>;

/// The files of the system, in the folder that the process is in, with a way of writing and a way of reading them.
struct Disk {
    store: Store,
    fetch: Fetch,
    choice: Rc<RefCell<Choice>>,
}

impl Shelf for Disk {
    fn load(&self, name: &[u8]) -> Option<Content> {
        (self.fetch)(OsStr::from_bytes(name)).map(Content::Bytes)
    }

    fn save(&mut self, name: &[u8], content: &Content) -> bool {
        let bytes = match content {
            Content::Bytes(bytes) => bytes.clone(),
            Content::Record(planned) => {
                let Choice { filler, random } = &mut *self.choice.borrow_mut();
                filler.record(planned, random)
            }
        };
        (self.store)(OsStr::from_bytes(name), &bytes)
    }

    fn length(&self, name: &[u8]) -> Option<u64> {
        fs::metadata(OsStr::from_bytes(name)).ok().map(|about| about.len())
    }

    fn special(&self, _: &[u8]) -> Vec<OfWritten> {
        Vec::new()
    }
}

fn fetch(name: &OsStr) -> Option<Vec<u8>> {
    let mut head = Vec::new();
    fs::File::open(name).ok()?.take(HEAD as u64).read_to_end(&mut head).ok()?;
    Some(head)
}

/// A stand-in for the program: the model's answers to the lines of standard input, with the files of the system. It shows that the test
/// takes the system's files for what they are, and that a right program passes.
fn stand_in(store: Store, fetch: Fetch, unwritten: Unwritten) -> io::Result<()> {
    let mut input = io::stdin().lock();
    // each answer is written by itself
    let mut output = fs::File::from(io::stdout().as_fd().try_clone_to_owned()?);
    let choice = Rc::new(RefCell::new(Choice { filler: Filler::new(sketched), random: Random::new(seed_of(208, 0)) }));
    let mut console = Console::new(Disk { store, fetch, choice: choice.clone() });
    (console.delay, console.small) = (by_trial, OTHER_WAY);
    let mut line = Vec::new();
    let mut held = Vec::new();
    for place in 1.. {
        line.clear();
        if input.read_until(b'\n', &mut line)? == 0 {
            break;
        }
        let answer = console.answer(line.strip_suffix(b"\n").unwrap_or(&line), place);
        let Choice { filler, random } = &mut *choice.borrow_mut();
        let text = filler.text(&answer, random);
        if unwritten == Unwritten::HoldsBack {
            held.extend_from_slice(text.as_bytes());
        } else if let Err(error) = output.write_all(text.as_bytes()) {
            match unwritten {
                Unwritten::GoesOn => {}
                Unwritten::ReadsOn => drop(io::copy(&mut input, &mut io::sink())?),
                _ => return Err(error),
            }
        }
    }
    output.write_all(&held)
}

/// What a right program could have done.
struct Fake {
    answers: Vec<String>,
    tail: String,
    ending: Ending,
    folder: Folder,
}

impl Fake {
    fn new(script: &Script, random: &mut Random) -> Fake {
        let mut filler = Filler::new(Chart::text);
        let answers = script.lines.iter().map(|line| filler.text(&line.answer, random)).collect();
        let folder = filler.folder(&script.after, random);
        Fake { answers, tail: String::new(), ending: Ending::Status(0), folder }
    }

    fn run(&self) -> Run {
        let output = [&self.answers.concat(), self.tail.as_str()].concat().into_bytes();
        Run { output, ending: self.ending, unanswered: None, folder: self.folder.clone() }
    }
}

// ---------------------------------------------------------------------------------------------------------------------------------
// Wrong outputs

/// Where the difference has to be reported.
type Placed = Option<usize>;

/// What a wrong output is made with.
struct Spoiler<'a> {
    script: &'a Script,
    fake: Fake,
    finder: Finder,
    random: Random,
}

impl Spoiler<'_> {
    /// Changes the answer of a line chosen at random among those whose answer `edit` can change.
    fn change(&mut self, mut edit: impl FnMut(&Line, &str, &mut Finder, &mut Random) -> Option<String>) -> Placed {
        let count = self.script.lines.len();
        let begin = self.random.below(count as u64) as usize;
        for place in (begin..count).chain(0..begin) {
            let (line, text) = (&self.script.lines[place], &self.fake.answers[place]);
            match edit(line, text, &mut self.finder, &mut self.random) {
                Some(other) if other != *text => {
                    self.fake.answers[place] = other;
                    return Some(place + 1);
                }
                _ => {}
            }
        }
        None
    }

    /// The same for the answers of one command that begin in one way.
    fn change_of(&mut self, name: &str, begin: &str, edit: impl Fn(&str) -> String) -> Placed {
        self.change(|line, text, _, _| match &line.answer.sort {
            Sort::Of(command, _) if *command == name && text.starts_with(begin) => Some(edit(text)),
            _ => None,
        })
    }

    /// The plan that a `read` shows in place of the right one, from its tag, its function and what was shown.
    fn change_plan(&mut self, edit: impl Fn(&Drawn, Vec<u8>, &mut Finder, &mut Random) -> Option<String>) -> Placed {
        self.change(|line, text, finder, random| {
            let [Part::Text(begin), Part::Plan(_, drawn), _] = &line.answer.parts[..] else { return None };
            Some(format!("{begin}{}\n", edit(drawn, latencies_in(text, begin)?, finder, random)?))
        })
    }

    /// The loop that is shown in place of the right one, from its list and what was shown.
    fn change_loop(&mut self, edit: impl Fn(&Loops, Vec<u8>) -> Option<String>) -> Placed {
        self.change(|line, text, _, _| {
            let [Part::Text(begin), Part::Loop(loops), _] = &line.answer.parts[..] else { return None };
            Some(format!("{begin}{}\n", edit(loops, latencies_in(text, begin)?)?))
        })
    }

    /// The same where the other loop is one that is not the best, though it never collides.
    fn change_best_loop(&mut self, other: impl Fn(&Loops, Vec<u8>) -> Option<Vec<u8>>) -> Placed {
        self.change_loop(|loops, latencies| {
            let latencies = other(loops, latencies)?;
            let is_worse = !loops.is_least(&latencies) && loops.kernel.never_collides(&latencies, &mut Yard::new());
            is_worse.then(|| cycle_text(&latencies))
        })
    }

    /// The same where the other loop collides, though its average is no worse.
    fn change_to_collide(&mut self, other: impl Fn(&Loops, Vec<u8>) -> Option<Vec<u8>>) -> Placed {
        self.change_loop(|loops, latencies| {
            let latencies = other(loops, latencies)?;
            (!loops.kernel.never_collides(&latencies, &mut Yard::new())).then(|| cycle_text(&latencies))
        })
    }

    /// Another line's answer in place of a drawing, whose plan was shown before or was not.
    fn change_drawing(
        &mut self,
        shown_before: bool,
        edit: impl Fn(u32, &Drawn, &str, &mut Finder, &mut Random) -> Option<String>,
    ) -> Placed {
        self.change(|line, text, finder, random| {
            let [Part::Drawing(_, tag, drawn)] = &line.answer.parts[..] else { return None };
            let first = line.answer.met.contains(&"a drawing of a plan that was not read before");
            if first == shown_before {
                return None;
            }
            edit(*tag, drawn, text, finder, random)
        })
    }

    /// A file that a save wrote.
    fn saved_file(&self) -> Option<Vec<u8>> {
        let Script { before, after, .. } = self.script;
        let new = |(name, file): &(&Vec<u8>, &File)| matches!(file, File::Bytes(_)) && before.files.get(*name) != Some(*file);
        after.files.iter().find(new).map(|(name, _)| name.clone())
    }

    fn change_file(&mut self, edit: impl Fn(&mut Vec<u8>)) -> Placed {
        let name = self.saved_file()?;
        self.change_file_of(&name, edit)
    }

    fn change_file_of(&mut self, name: &[u8], edit: impl Fn(&mut Vec<u8>)) -> Placed {
        let Some(File::Bytes(bytes)) = self.fake.folder.files.get_mut(name) else { return None };
        let old = bytes.clone();
        edit(bytes);
        if *bytes == old {
            return None;
        }
        self.end()
    }

    /// The names of the files that delays wrote last and that hold units, in any order.
    fn delayed_files(&mut self) -> Vec<Vec<u8>> {
        let mut files: BTreeMap<Vec<u8>, bool> = BTreeMap::new();
        for line in &self.script.lines {
            let Sort::Of(name, told) = &line.answer.sort else { continue };
            if let (Some(file), "ok") = (file_of(&line.bytes, name), told.as_str()) {
                files.insert(file.to_vec(), *name == "delays");
            }
        }
        // what a link leads to may have been written by another name
        let holds_unit = |name: &Vec<u8>| matches!(self.fake.folder.files.get(name), Some(File::Bytes(bytes)) if decode(bytes).is_ok());
        let mut names: Vec<Vec<u8>> =
            files.into_iter().filter(|(_, by_delays)| *by_delays).map(|(name, _)| name).filter(holds_unit).collect();
        let begin = self.random.below(names.len() as u64) as usize;
        names.rotate_left(begin);
        names
    }

    /// A file that delays wrote, any that the change makes another one.
    fn change_delayed(&mut self, edit: impl Fn(&mut Vec<u8>)) -> Placed {
        self.delayed_files().iter().find_map(|name| self.change_file_of(name, &edit))
    }

    /// The same from the unit that the file holds.
    fn change_delayed_unit(&mut self, edit: impl Fn(&mut Unit)) -> Placed {
        self.change_delayed(|bytes| {
            let mut unit = decode(bytes).expect("a unit file");
            edit(&mut unit);
            *bytes = encode(&unit);
        })
    }

    /// The tasks that a line of the queue shows, two words each, where there are so many.
    fn change_tasks(&mut self, least: usize, edit: impl Fn(&mut Vec<&str>)) -> Placed {
        self.change(|line, text, _, _| {
            let (begin, tasks) = text.trim_end().split_once(": ")?;
            let mut words: Vec<&str> = tasks.split(' ').collect();
            if !matches!(line.answer.sort, Sort::Of("queue", _)) || words.len() < 2 * least {
                return None;
            }
            edit(&mut words);
            Some(format!("{begin}: {}\n", words.join(" ")))
        })
    }

    /// The words of a time unit's answer that a caller's task was started: `started`, caller, tag and ticket.
    fn change_started(&mut self, edit: impl Fn(&mut Vec<&str>)) -> Placed {
        self.change(|line, text, _, _| {
            let mut words: Vec<&str> = text.trim_end().split(' ').collect();
            if !matches!(&line.answer.sort, Sort::Of("turn", told) if told == "started") {
                return None;
            }
            edit(&mut words);
            Some(format!("{}\n", words.join(" ")))
        })
    }

    fn end(&self) -> Placed {
        Some(self.script.lines.len() + 1)
    }

    /// What is shown of the record of a plan, in place of the right list or ring, from its function and the plan's latencies.
    fn change_view(&mut self, name: &str, edit: impl Fn(&Drawn, Vec<u8>) -> Option<String>) -> Placed {
        self.change(|line, text, _, _| {
            let [Part::Text(begin), Part::List(planned) | Part::Ring(planned), _] = &line.answer.parts[..] else { return None };
            if !matches!(&line.answer.sort, Sort::Of(command, _) if *command == name) {
                return None;
            }
            let shown = text.strip_prefix(begin.as_str())?.trim_end();
            let latencies = match shown.split_once(" ring ") {
                Some((_, ring)) => records::latencies_of(&ring.chars().map(|bit| bit == '1').collect::<Vec<bool>>())?,
                None => shown.split_once(" list ")?.1.split(' ').map(|word| word.parse().expect("a latency")).collect(),
            };
            Some(format!("{begin}{}\n", edit(&planned.drawn, latencies)?))
        })
    }

    /// Another chart, of a plan that was shown before or was not, from the chart and its text.
    fn change_chart(&mut self, shown_before: bool, edit: impl Fn(&Chart, &str, &mut Finder, &mut Random) -> Option<String>) -> Placed {
        self.change(|line, text, finder, random| {
            let [Part::Chart(chart)] = &line.answer.parts[..] else { return None };
            let is_known = line.answer.met.contains(&"a chart of a plan that was shown before");
            if is_known != shown_before {
                return None;
            }
            edit(chart, text, finder, random)
        })
    }

    /// The lines of the segments in a chart, of any plan, from where their cells begin.
    fn change_rows(&mut self, edit: impl Fn(&str) -> String) -> Placed {
        self.change_of("simulate", "unit", |text| {
            let cells: usize = text.split_inclusive('\n').take(2).map(|line| line.len()).sum();
            format!("{}{}", &text[..cells], edit(&text[cells..]))
        })
    }

    /// A record that was written, changed from its bytes: any whose change makes it another file.
    fn change_record(&mut self, edit: impl Fn(&Planned, &[u8], &mut Finder, &mut Random) -> Option<Vec<u8>>) -> Placed {
        let planned = |(name, file): (&Vec<u8>, &File)| match file {
            File::Record(planned) => Some((name.clone(), planned.clone())),
            _ => None,
        };
        let mut records: Vec<(Vec<u8>, Planned)> = self.script.after.files.iter().filter_map(planned).collect();
        let begin = self.random.below(records.len() as u64) as usize;
        records.rotate_left(begin);
        for (name, planned) in records {
            let Some(File::Bytes(bytes)) = self.fake.folder.files.get_mut(&name) else { continue };
            match edit(&planned, bytes, &mut self.finder, &mut self.random) {
                Some(other) if other != *bytes => {
                    *bytes = other;
                    return self.end();
                }
                _ => {}
            }
        }
        None
    }

    /// The same where the other file is the record of another cycle.
    fn change_recorded(&mut self, edit: impl Fn(&Drawn, Vec<u8>) -> Option<Vec<u8>>) -> Placed {
        self.change_record(|planned, bytes, _, _| {
            let list = records::written_again(bytes).expect("a record");
            Some(records::laid_out(&edit(&planned.drawn, list)?))
        })
    }

    /// The searches whose plans the answers show.
    fn shown(&self) -> HashSet<usize> {
        let parts = self.script.lines.iter().flat_map(|line| &line.answer.parts);
        parts
            .filter_map(|part| match part {
                Part::Plan(search, _) | Part::Drawing(search, _, _) => Some(*search),
                Part::List(planned) | Part::Ring(planned) => Some(planned.search),
                Part::Text(_) | Part::Best(_) | Part::Loop(_) | Part::Chart(_) => None,
            })
            .collect()
    }
}

/// What `report` shows of a cycle, and what `ring` does.
fn list_shown(latencies: &[u8]) -> String {
    records::list_text(latencies.len(), latencies)
}

fn ring_shown(latencies: &[u8]) -> String {
    records::ring_text(sum_of(latencies) as usize, &records::ring_of(latencies))
}

fn rotated(mut latencies: Vec<u8>) -> Vec<u8> {
    latencies.rotate_left(1);
    latencies
}

/// The text with another ring, of the same sum or of the one that goes with it.
fn with_ring(text: &str, change: impl Fn(&str) -> String) -> String {
    match text.split_once(" ring ") {
        Some((begin, ring)) => format!("{begin} ring {}\n", change(ring.trim_end())),
        None => text.to_string(),
    }
}

/// The latencies of an answer, which stand after this text.
fn latencies_in(text: &str, begin: &str) -> Option<Vec<u8>> {
    let shown = text.strip_prefix(begin)?.split_once(" sum ")?.0;
    Some(shown.split(' ').map(|word| word.parse().expect("a latency")).collect())
}

/// The last digit of a text changed to the next one.
fn next_digit(text: &str) -> String {
    let mut bytes = text.as_bytes().to_vec();
    if let Some(place) = bytes.iter().rposition(|byte| byte.is_ascii_digit()) {
        bytes[place] = if bytes[place] == b'9' { b'8' } else { bytes[place] + 1 };
    }
    String::from_utf8(bytes).expect("digits")
}

/// Two neighbours of the lines of a text exchanged, the first ones that differ.
fn lines_exchanged(text: &str) -> String {
    let mut lines: Vec<&str> = text.split_inclusive('\n').collect();
    if let Some(place) = (1..lines.len().saturating_sub(2)).find(|place| lines[*place] != lines[place + 1]) {
        lines.swap(place, place + 1);
    }
    lines.concat()
}

/// A line with another number in place of one of its words.
fn with_number(text: &str, place: usize, change: impl Fn(u32) -> u32) -> String {
    let mut words: Vec<String> = text.trim_end().split(' ').map(|word| word.to_string()).collect();
    words[place] = change(words[place].parse().expect("a number")).to_string();
    words.join(" ") + "\n"
}

fn worse(drawn: &Drawn, latencies: &[u8]) -> bool {
    let (least, of) = drawn.graph.least();
    sum_of(latencies) as i64 * of > least * latencies.len() as i64
}

type Wrong = (&'static str, fn(&mut Spoiler) -> Placed);

const WRONG: [Wrong; 336] = [
    ("mark: ok in place of refused 2", |it| it.change_of("mark", "refused 2", |_| "ok\n".to_string())),
    ("mark: refused 3 in place of refused 4", |it| it.change_of("mark", "refused 4", |_| "refused 3\n".to_string())),
    ("unmark: refused 2 in place of ok", |it| it.change_of("unmark", "ok", |_| "refused 2\n".to_string())),
    ("fresh: ok in place of refused 1", |it| it.change_of("fresh", "refused", |_| "ok\n".to_string())),
    ("search: ok in place of refused 7", |it| it.change_of("search", "refused 7", |_| "ok\n".to_string())),
    ("vector: a bit the other way", |it| {
        it.change_of("vector", "vector 1", |text| if text.contains('0') { text.replacen('0', "1", 1) } else { text.replacen('1', "0", 1) })
    }),
    ("vector: nothing in place of -", |it| it.change_of("vector", "vector -", |_| "vector \n".to_string())),
    ("vector: a zero in front", |it| it.change_of("vector", "vector 1", |text| text.replacen(' ', " 0", 1))),
    ("row: its own zeros in front left out", |it| it.change_of("row", "row 0", |text| text.replacen("row 0", "row ", 1))),
    ("row: a column more", |it| it.change_of("row", "row 1", |text| text.replacen("row ", "row 0", 1))),
    ("row: the row without its first column", |it| it.change_of("row", "row 1", |text| text.replacen("row 1", "row ", 1))),
    ("states: one more than there are", |it| it.change_of("states", "states 3:", |text| text.replacen('3', "4", 1))),
    ("states: two exchanged", |it| {
        it.change_of("states", "states", |text| {
            let mut words: Vec<&str> = text.trim_end().split(' ').collect();
            let last = words.len() - 1;
            words.swap(last, last - (last > 2) as usize);
            words.join(" ") + "\n"
        })
    }),
    ("states: no colon", |it| it.change_of("states", "states", |text| text.replacen(':', "", 1))),
    ("greedy: the sum is another", |it| it.change_of("greedy", "greedy", next_digit)),
    ("bound: another", |it| it.change_of("bound", "bound", next_digit)),
    ("upper: another", |it| it.change_of("upper", "upper", next_digit)),
    ("constant: another", |it| it.change_of("constant", "constant", next_digit)),
    ("judge: yes in place of no", |it| it.change_of("judge", "no\n", |_| "yes\n".to_string())),
    ("judge: no in place of yes", |it| it.change_of("judge", "yes", |_| "no\n".to_string())),
    ("judge: no in place of refused 9", |it| it.change_of("judge", "refused 9", |_| "no\n".to_string())),
    ("start: ok in place of refused 10", |it| it.change_of("start", "refused 10", |_| "ok\n".to_string())),
    ("start: refused 10 in place of ok", |it| it.change_of("start", "ok", |_| "refused 10\n".to_string())),
    ("bank: a register is another", |it| it.change_of("bank", "", next_digit)),
    ("bank: two registers exchanged", |it| {
        it.change(|line, text, _, _| {
            let words: Vec<&str> = text.trim_end().split(' ').collect();
            let is = line.bytes == b"bank" && words.len() == 4;
            is.then(|| format!("{} {} {} {}\n", words[1], words[0], words[2], words[3]))
        })
    }),
    ("load: ok in place of refused 13", |it| it.change_of("load", "refused 13", |_| "ok\n".to_string())),
    ("load: refused 11 in place of no file", |it| it.change_of("load", "no file", |_| "refused 11\n".to_string())),
    ("save: ok in place of not written", |it| it.change_of("save", "not written", |_| "ok\n".to_string())),
    ("read: the greedy cycle, which is not the best", |it| {
        it.change_plan(|drawn, _, _, _| worse(drawn, &drawn.graph.greedy).then(|| cycle_text(&drawn.graph.greedy)))
    }),
    ("read: (n + 1)", |it| {
        it.change_plan(|drawn, _, _, _| {
            let cycle = [drawn.graph.diagram.states[0].len() as u8 + 1];
            worse(drawn, &cycle).then(|| cycle_text(&cycle))
        })
    }),
    ("read: a cycle that collides", |it| it.change_plan(|_, latencies, _, _| (latencies.len() > 1).then(|| cycle_text(&[latencies[0]])))),
    ("read: another rotation", |it| {
        it.change_plan(|_, mut latencies, _, _| {
            latencies.rotate_left(1);
            Some(cycle_text(&latencies))
        })
    }),
    ("read: twice around", |it| it.change_plan(|_, latencies, _, _| Some(cycle_text(&latencies.repeat(2))))),
    ("read: no latency", |it| it.change_plan(|_, _, _, _| Some("sum 0".to_string()))),
    ("read: the sum is another", |it| it.change_plan(|_, latencies, _, _| Some(next_digit(&cycle_text(&latencies))))),
    ("read: a zero in front of a latency", |it| it.change_plan(|_, latencies, _, _| Some(format!("0{}", cycle_text(&latencies))))),
    ("read: two spaces", |it| it.change_plan(|_, latencies, _, _| Some(cycle_text(&latencies).replacen(' ', "  ", 1)))),
    ("read: another tag", |it| it.change_of("read", "plan 1", |text| text.replacen("plan 1", "plan 2", 1))),
    ("read: a plan that was dropped", |it| it.change_of("read", "refused 8", |_| "plan 1 cycle 1 sum 1\n".to_string())),
    ("read: refused 8 in place of a plan", |it| it.change_of("read", "plan", |_| "refused 8\n".to_string())),
    ("read: another best cycle than before", |it| {
        it.change(|line, _, finder, random| {
            let [Part::Text(begin), Part::Plan(_, drawn), _] = &line.answer.parts[..] else { return None };
            if !line.answer.met.contains(&"a plan shown again") {
                return None;
            }
            Some(format!("{begin}{}\n", cycle_text(&finder.best(&drawn.graph, random))))
        })
    }),
    ("list: the greedy cycle, which is not the best", |it| {
        it.change(|line, text, _, _| {
            let best = line.answer.parts.iter().find_map(|piece| match piece {
                Part::Best(drawn) if worse(drawn, &drawn.graph.greedy) => Some(cycle_text(&drawn.graph.greedy)),
                _ => None,
            })?;
            let mut lines: Vec<String> = text.lines().map(|line| line.to_string()).collect();
            let greedy = format!("greedy {best}");
            let place = lines.iter().position(|line| *line == greedy)?;
            lines[place + 1] = format!("best {best}");
            Some(lines.join("\n") + "\n")
        })
    }),
    ("list: constant is another", |it| it.change_of("list", "function", next_digit)),
    ("list: two lines exchanged", |it| it.change_of("list", "function", lines_exchanged)),
    ("list: no refused 7", |it| {
        it.change(|line, text, _, _| (line.bytes == b"list" && text.contains("refused 7\n")).then(|| text.replacen("refused 7\n", "", 1)))
    }),
    ("table: a mark left out", |it| it.change_of("table", " ", |text| text.replacen('x', ".", 1))),
    ("table: a mark too many", |it| it.change_of("table", " ", |text| text.replacen('.', "x", 1))),
    ("table: no column numbers", |it| it.change_of("table", " ", |text| text.split_once('\n').expect("two lines").1.to_string())),
    ("table: narrow cells", |it| it.change_of("table", " ", |text| text.replace("   ", "  "))),
    ("diagram: an arc of the plan that is not bold", |it| it.change_drawing(true, |_, _, text, _, _| Some(text.replacen(BOLD, "", 1)))),
    ("diagram: an arc too many that is bold", |it| {
        it.change_drawing(true, |_, _, text, _, _| {
            let mut lines: Vec<String> = text.split_inclusive('\n').map(|line| line.to_string()).collect();
            let line = lines.iter_mut().find(|line| line.contains("->") && !line.contains(BOLD))?;
            *line = line.replace("];", &format!("{BOLD}];"));
            Some(lines.concat())
        })
    }),
    ("diagram: another best cycle than the plan's is bold", |it| {
        it.change_drawing(true, |tag, drawn, _, finder, random| Some(plan_drawing(tag, drawn, &finder.best(&drawn.graph, random))))
    }),
    ("diagram: bold arcs that are no cycle, the plan not read yet", |it| {
        it.change_drawing(false, |_, _, text, _, _| Some(text.replacen(BOLD, "", 1)))
    }),
    ("diagram: nothing bold, the plan not read yet", |it| it.change_drawing(false, |_, _, text, _, _| Some(text.replace(BOLD, "")))),
    ("diagram: the greedy cycle is bold, which is not the best, the plan not read yet", |it| {
        it.change_drawing(false, |tag, drawn, _, _, _| {
            worse(drawn, &drawn.graph.greedy).then(|| plan_drawing(tag, drawn, &drawn.graph.greedy))
        })
    }),
    ("diagram: bold without a plan", |it| {
        it.change(|line, text, _, _| {
            let no_plan = line.answer.met.contains(&"a drawing without a plan");
            no_plan.then(|| text.replacen("];", &format!("{BOLD}];"), 1))
        })
    }),
    ("diagram: two arcs exchanged", |it| it.change_of("diagram", "digraph", lines_exchanged)),
    ("loop: the sum is another", |it| it.change_loop(|_, latencies| Some(next_digit(&cycle_text(&latencies))))),
    ("loop: a latency too many for the list", |it| {
        it.change_loop(|loops, mut latencies| {
            latencies.push(loops.kernel.longest as u8);
            (loops.kernel.tags.len() > 1).then(|| cycle_text(&latencies))
        })
    }),
    ("loop: a latency too few for the list", |it| {
        it.change_loop(|loops, mut latencies| {
            latencies.pop();
            (loops.kernel.tags.len() > 1).then(|| cycle_text(&latencies))
        })
    }),
    ("loop: half a turn of a list that is a shorter one again", |it| {
        it.change_loop(|loops, latencies| {
            let (half, list) = (latencies.len() / 2, loops.kernel.tags.len());
            let is_twice = latencies.len() == list && list % 2 == 0 && latencies[..half] == latencies[half..];
            is_twice.then(|| cycle_text(&latencies[..half]))
        })
    }),
    ("loop: begun at the second tag", |it| {
        it.change_to_collide(|_, mut latencies| {
            latencies.rotate_left(1);
            Some(latencies)
        })
    }),
    ("loop: a latency 1 each time, which collides", |it| it.change_to_collide(|_, latencies| Some(vec![1; latencies.len()]))),
    ("loop: two latencies exchanged, which collides", |it| {
        it.change_to_collide(|_, mut latencies| {
            let place = (1..latencies.len()).find(|place| latencies[place - 1] != latencies[*place])?;
            latencies.swap(place - 1, place);
            Some(latencies)
        })
    }),
    ("loop: the last latency is one more", |it| {
        it.change_best_loop(|_, mut latencies| {
            *latencies.last_mut()? += 1;
            Some(latencies)
        })
    }),
    ("loop: each start as soon as it can be, which is not the best", |it| it.change_best_loop(|loops, _| Some(loops.greedy()))),
    ("loop: the best of one turn, which is not the best", |it| it.change_best_loop(|loops, _| one_turn(loops))),
    ("loop: n + 1 each time, which is not the best", |it| {
        it.change_best_loop(|loops, _| Some(vec![loops.kernel.longest as u8; loops.kernel.tags.len()]))
    }),
    ("loop: the best loop and then n + 1 for a turn", |it| {
        it.change_best_loop(|loops, latencies| {
            let more = vec![loops.kernel.longest as u8; loops.kernel.tags.len()];
            Some([&latencies[..], &more].concat())
        })
    }),
    ("loop: twice around", |it| it.change_loop(|_, latencies| Some(cycle_text(&latencies.repeat(2))))),
    ("loop: no latency", |it| it.change_loop(|_, _| Some("sum 0".to_string()))),
    ("loop: latencies 0", |it| it.change_loop(|_, latencies| Some(cycle_text(&vec![0; latencies.len()])))),
    ("loop: a zero in front of a latency", |it| it.change_loop(|_, latencies| Some(format!("0{}", cycle_text(&latencies))))),
    ("loop: a plan's line", |it| it.change_of("loop", "loop cycle", |text| text.replacen("loop", "plan 0", 1))),
    ("loop: refused 2 in place of refused 17", |it| it.change_of("loop", "refused 17", |_| "refused 2\n".to_string())),
    ("loop: refused 17 in place of refused 2", |it| it.change_of("loop", "refused 2", |_| "refused 17\n".to_string())),
    ("loop: a loop in place of refused 7", |it| it.change_of("loop", "refused 7", |_| "loop cycle 1 sum 1\n".to_string())),
    ("loop: refused 7 in place of a loop over 256 states", |it| {
        it.change(|line, _, _, _| line.answer.met.contains(&"loop: 256 states").then(|| "refused 7\n".to_string()))
    }),
    ("loop: refused 7 in place of a loop", |it| it.change_of("loop", "loop", |_| "refused 7\n".to_string())),
    ("loop: what was expected in place of refused 17", |it| {
        it.change(|line, _, _, _| line.answer.met.contains(&"loop: no tag").then(|| "line 1: expected loop Q Q ..\n".to_string()))
    }),
    ("loop: refused 2 in place of what was expected", |it| it.change_of("loop", "line", |_| "refused 2\n".to_string())),
    ("loop: one tag alone was expected", |it| it.change_of("loop", "line", |text| text.replace("loop Q Q ..", "loop Q"))),
    ("record: ok in place of refused 8", |it| it.change_of("record", "refused 8", |_| "ok\n".to_string())),
    ("record: ok in place of refused 2", |it| it.change_of("record", "refused 2", |_| "ok\n".to_string())),
    ("record: refused 2 in place of refused 8", |it| it.change_of("record", "refused 8", |_| "refused 2\n".to_string())),
    ("record: refused 8 in place of refused 2", |it| it.change_of("record", "refused 2", |_| "refused 8\n".to_string())),
    ("record: refused 8 in place of ok", |it| it.change_of("record", "ok", |_| "refused 8\n".to_string())),
    ("record: refused 15 in place of ok", |it| it.change_of("record", "ok", |_| "refused 15\n".to_string())),
    ("record: not written in place of ok", |it| it.change_of("record", "ok", |_| "not written\n".to_string())),
    ("record: ok in place of not written", |it| it.change_of("record", "not written", |_| "ok\n".to_string())),
    ("record: no file in place of not written", |it| it.change_of("record", "not written", |_| "no file\n".to_string())),
    ("record: a file alone was expected", |it| it.change_of("record", "line", |text| text.replace("record Q FILE", "record FILE"))),
    ("record: ok in place of what was expected", |it| it.change_of("record", "line", |_| "ok\n".to_string())),
    ("report: a name alone was expected", |it| it.change_of("report", "line", |text| text.replace("report FILE", "report"))),
    ("ring: a number too was expected", |it| it.change_of("ring", "line", |text| text.replace("ring FILE", "ring Q FILE"))),
    ("report: refused 15 in place of no file", |it| it.change_of("report", "no file", |_| "refused 15\n".to_string())),
    ("ring: no file in place of refused 15", |it| it.change_of("ring", "refused 15", |_| "no file\n".to_string())),
    ("report: a list in place of refused 15", |it| it.change_of("report", "refused 15", |_| "count 2 list 3 4\n".to_string())),
    ("ring: a ring in place of refused 15", |it| it.change_of("ring", "refused 15", |_| "sum 7 ring 0110111\n".to_string())),
    ("report: refused 15 in place of a list", |it| it.change_of("report", "count", |_| "refused 15\n".to_string())),
    ("ring: refused 15 in place of a ring", |it| it.change_of("ring", "sum", |_| "refused 15\n".to_string())),
    ("report: the last latency is another", |it| it.change_of("report", "count", next_digit)),
    ("report: a sum at the end", |it| it.change_of("report", "count", |text| text.replace('\n', " sum 7\n"))),
    ("report: a plan's line", |it| it.change_of("report", "count", |text| text.replacen("count", "plan", 1))),
    ("report: commas", |it| {
        it.change(|line, text, _, _| {
            let (begin, list) = text.split_once(" list ")?;
            (line.bytes.starts_with(b"report") && list.contains(' ')).then(|| format!("{begin} list {}", list.replace(' ', ", ")))
        })
    }),
    ("report: K is one more", |it| it.change_view("report", |_, latencies| Some(records::list_text(latencies.len() + 1, &latencies)))),
    ("report: a latency is left out", |it| it.change_view("report", |_, latencies| Some(list_shown(&latencies[1..])))),
    ("report: latencies are one less", |it| {
        it.change_view("report", |_, latencies| Some(list_shown(&latencies.iter().map(|latency| latency - 1).collect::<Vec<u8>>())))
    }),
    ("report: a zero in front of K", |it| it.change_view("report", |_, latencies| Some(format!("0{}", list_shown(&latencies))))),
    ("report: two spaces", |it| it.change_view("report", |_, latencies| Some(list_shown(&latencies).replacen(' ', "  ", 1)))),
    ("report: another rotation", |it| it.change_view("report", |_, latencies| Some(list_shown(&rotated(latencies))))),
    ("report: twice around", |it| it.change_view("report", |_, latencies| Some(list_shown(&latencies.repeat(2))))),
    ("report: the greedy cycle, which is not the best", |it| {
        it.change_view("report", |drawn, _| worse(drawn, &drawn.graph.greedy).then(|| list_shown(&drawn.graph.greedy)))
    }),
    ("report: another best cycle than before", |it| {
        it.change(|line, _, finder, random| {
            let [Part::Text(begin), Part::List(planned), _] = &line.answer.parts[..] else { return None };
            let is_known = line.answer.met.contains(&"report: a record of a plan that was shown before");
            is_known.then(|| format!("{begin}{}\n", list_shown(&finder.best(&planned.drawn.graph, random))))
        })
    }),
    ("ring: the bits in reverse", |it| it.change_of("ring", "sum", |text| with_ring(text, |ring| ring.chars().rev().collect()))),
    ("ring: a 1 for a start", |it| {
        let other = |bit| if bit == '0' { '1' } else { '0' };
        it.change_of("ring", "sum", |text| with_ring(text, |ring| ring.chars().map(other).collect()))
    }),
    ("ring: a bit too many", |it| it.change_of("ring", "sum", |text| with_ring(text, |ring| format!("{ring}1")))),
    ("ring: a bit too few", |it| it.change_of("ring", "sum", |text| with_ring(text, |ring| ring[1..].to_string()))),
    ("ring: a bit the other way", |it| {
        it.change_of("ring", "sum", |text| {
            with_ring(text, |ring| if ring.contains('1') { ring.replacen('1', "0", 1) } else { "1".repeat(ring.len()) })
        })
    }),
    ("ring: spaces between the bits", |it| {
        it.change(|line, text, _, _| {
            let spaced = |ring: &str| ring.chars().map(|bit| bit.to_string()).collect::<Vec<_>>().join(" ");
            (line.bytes.starts_with(b"ring") && text.starts_with("sum")).then(|| with_ring(text, spaced))
        })
    }),
    ("ring: the sum is another", |it| it.change_view("ring", |_, latencies| Some(ring_shown(&latencies).replacen(" ring", "0 ring", 1)))),
    ("ring: the sum and the ring are one more", |it| {
        it.change_view("ring", |_, mut latencies| {
            *latencies.last_mut()? += 1;
            Some(ring_shown(&latencies))
        })
    }),
    ("ring: no bits", |it| it.change_view("ring", |_, _| Some("0 ring ".to_string()))),
    ("ring: another rotation", |it| it.change_view("ring", |_, latencies| Some(ring_shown(&rotated(latencies))))),
    ("ring: twice around", |it| it.change_view("ring", |_, latencies| Some(ring_shown(&latencies.repeat(2))))),
    ("ring: the greedy cycle, which is not the best", |it| {
        it.change_view("ring", |drawn, _| worse(drawn, &drawn.graph.greedy).then(|| ring_shown(&drawn.graph.greedy)))
    }),
    ("ring: another best cycle than before", |it| {
        it.change(|line, _, finder, random| {
            let [Part::Text(begin), Part::Ring(planned), _] = &line.answer.parts[..] else { return None };
            let is_known = line.answer.met.contains(&"ring: a record of a plan that was shown before");
            is_known.then(|| format!("{begin}{}\n", ring_shown(&finder.best(&planned.drawn.graph, random))))
        })
    }),
    ("a record that was written has its spare bits 0", |it| {
        it.change_record(|_, bytes, _, _| {
            let mut other = bytes.to_vec();
            *other.last_mut()? &= ((1u16 << (records::field(bytes, 1) % 8)) - 1) as u8;
            (records::field(bytes, 1) % 8 > 0).then_some(other)
        })
    }),
    ("a record that was written has its last spare bit 0", |it| {
        it.change_record(|_, bytes, _, _| {
            let mut other = bytes.to_vec();
            *other.last_mut()? &= 127;
            (records::field(bytes, 1) % 8 > 0).then_some(other)
        })
    }),
    ("a record that was written has a bit of its ring the other way", |it| {
        it.change_record(|_, bytes, _, _| {
            let mut other = bytes.to_vec();
            other[records::LIST + records::field(bytes, 0)] ^= 1;
            Some(other)
        })
    }),
    ("a record that was written has the bits of its ring in reverse", |it| {
        it.change_record(|_, bytes, _, _| {
            let (begin, ring) = bytes.split_at(records::LIST + records::field(bytes, 0));
            Some([begin, &ring.iter().map(|byte| byte.reverse_bits()).collect::<Vec<u8>>()].concat())
        })
    }),
    ("a record that was written has 1s for its starts", |it| {
        it.change_record(|_, bytes, _, _| {
            let (begin, ring) = bytes.split_at(records::LIST + records::field(bytes, 0));
            Some([begin, &ring.iter().map(|byte| !byte).collect::<Vec<u8>>()].concat())
        })
    }),
    ("a record that was written has its list off by one", |it| {
        it.change_record(|_, bytes, _, _| {
            let mut other = bytes.to_vec();
            other[records::LIST..records::LIST + records::field(bytes, 0)].iter_mut().for_each(|latency| *latency -= 1);
            Some(other)
        })
    }),
    ("a record that was written has the higher byte of its fields first", |it| {
        it.change_record(|_, bytes, _, _| {
            let mut other = bytes.to_vec();
            other[..records::LIST].chunks_mut(2).for_each(|pair| pair.swap(0, 1));
            Some(other)
        })
    }),
    ("a record that was written has another sum", |it| {
        it.change_record(|_, bytes, _, _| {
            let mut other = bytes.to_vec();
            other[2] ^= 1;
            Some(other)
        })
    }),
    ("a record that was written has another offset of its ring", |it| {
        it.change_record(|_, bytes, _, _| {
            let mut other = bytes.to_vec();
            other[6] = 8;
            Some(other)
        })
    }),
    ("a record that was written has a byte after its end", |it| it.change_record(|_, bytes, _, _| Some([bytes, &[255]].concat()))),
    ("a record that was written is cut off", |it| it.change_record(|_, bytes, _, _| Some(bytes[..bytes.len() - 1].to_vec()))),
    ("a record that was written is empty", |it| it.change_record(|_, _, _, _| Some(Vec::new()))),
    ("a record that was written is the cycle's list alone", |it| it.change_record(|_, bytes, _, _| records::written_again(bytes).ok())),
    ("a record that was written is another rotation's", |it| it.change_recorded(|_, latencies| Some(rotated(latencies)))),
    ("a record that was written goes twice around", |it| it.change_recorded(|_, latencies| Some(latencies.repeat(2)))),
    ("a record that was written is the greedy cycle's, which is not the best", |it| {
        it.change_recorded(|drawn, _| worse(drawn, &drawn.graph.greedy).then(|| drawn.graph.greedy.clone()))
    }),
    ("a record that was written is the one of (n + 1), which is not the best", |it| {
        it.change_recorded(|drawn, _| {
            let cycle = vec![drawn.graph.diagram.states[0].len() as u8 + 1];
            worse(drawn, &cycle).then_some(cycle)
        })
    }),
    ("a record that was written is of another best cycle than the plan's", |it| {
        let shown = it.shown();
        it.change_record(|planned, _, finder, random| {
            shown.contains(&planned.search).then(|| records::laid_out(&finder.best(&planned.drawn.graph, random)))
        })
    }),
    ("a record that was written is not there", |it| {
        let name = it.script.after.files.iter().find(|(_, file)| matches!(file, File::Record(_)))?.0.clone();
        it.fake.folder.files.remove(&name);
        it.end()
    }),
    ("a record that was written is a unit file", |it| {
        let unit = it.fake.folder.files.get(&b"unit30"[..])?.clone();
        let File::Bytes(unit) = unit else { return None };
        it.change_record(|_, _, _, _| Some(unit.clone()))
    }),
    ("simulate: refused 2 in place of refused 8", |it| it.change_of("simulate", "refused 8", |_| "refused 2\n".to_string())),
    ("simulate: refused 8 in place of refused 2", |it| it.change_of("simulate", "refused 2", |_| "refused 8\n".to_string())),
    ("simulate: refused 8 in place of refused 6", |it| it.change_of("simulate", "refused 6", |_| "refused 8\n".to_string())),
    ("simulate: refused 5 in place of refused 6", |it| it.change_of("simulate", "refused 6", |_| "refused 5\n".to_string())),
    ("simulate: refused 8 in place of a chart", |it| it.change_of("simulate", "unit", |_| "refused 8\n".to_string())),
    ("simulate: refused 15 in place of a chart", |it| it.change_of("simulate", "unit", |_| "refused 15\n".to_string())),
    ("simulate: a chart in place of refused 8", |it| it.change_of("simulate", "refused 8", |_| "unit    \nstarts  \n".to_string())),
    ("simulate: a chart in place of refused 6", |it| it.change_of("simulate", "refused 6", |_| "unit    \nstarts  \n".to_string())),
    ("simulate: refused 2 in place of no unit", |it| it.change_of("simulate", "no unit", |_| "refused 2\n".to_string())),
    ("simulate: refused 6 in place of what was expected", |it| it.change_of("simulate", "line", |_| "refused 6\n".to_string())),
    ("simulate: one number alone was expected", |it| {
        it.change_of("simulate", "line", |text| text.replace("simulate Q UNITS", "simulate Q"))
    }),
    ("simulate: the first digit is 0", |it| it.change_of("simulate", "unit    1", |text| text.replacen("unit    1", "unit    0", 1))),
    ("simulate: no line of units", |it| it.change_of("simulate", "unit", |text| text.split_once('\n').expect("two lines").1.to_string())),
    ("simulate: no line of starts", |it| {
        it.change_of("simulate", "unit", |text| text.split_inclusive('\n').filter(|line| !line.starts_with("starts")).collect())
    }),
    ("simulate: no field in front", |it| it.change_of("simulate", "unit", |text| text.replacen("starts  ", "", 1))),
    ("simulate: the field has a byte more", |it| it.change_of("simulate", "unit", |text| text.replacen("starts  ", "starts   ", 1))),
    ("simulate: two segments exchanged", |it| it.change_of("simulate", "unit", lines_exchanged)),
    ("simulate: the last segment is left out", |it| {
        it.change_of("simulate", "unit", |text| {
            let lines: Vec<&str> = text.split_inclusive('\n').collect();
            lines[..lines.len() - 1].concat() + "ok\n"
        })
    }),
    ("simulate: the first start is left out", |it| it.change_of("simulate", "unit", |text| text.replacen("starts  A", "starts  .", 1))),
    ("simulate: a start too many", |it| {
        it.change_of("simulate", "unit", |text| match text.split_once("starts  ") {
            Some((front, cells)) if cells.starts_with("A.") => format!("{front}starts  AB{}", &cells[2..]),
            _ => text.to_string(),
        })
    }),
    ("simulate: a mark left out", |it| it.change_rows(|rows| rows.replacen('A', ".", 1))),
    ("simulate: a mark too many", |it| it.change_rows(|rows| rows.replacen('.', "A", 1))),
    ("simulate: another letter", |it| it.change_rows(|rows| rows.replacen('B', "b", 1))),
    ("simulate: idle cells are dashes", |it| it.change_rows(|rows| rows.replace('.', "-"))),
    ("simulate: a busy unit too many", |it| {
        it.change_rows(|rows| match rows.split_once('/') {
            Some((front, rest)) => format!("{}/{rest}", next_digit(front)),
            None => rows.to_string(),
        })
    }),
    ("simulate: one unit more in all", |it| it.change_of("simulate", "unit", next_digit)),
    ("simulate: busy units are not right-aligned", |it| it.change_rows(|rows| rows.replacen("busy  ", "busy ", 1))),
    ("simulate: a space at the end", |it| it.change_of("simulate", "unit", |text| text.trim_end().to_string() + " \n")),
    ("simulate: another best cycle than before", |it| {
        it.change_chart(true, |chart, _, finder, random| Some(chart.text(&finder.best(&chart.planned.drawn.graph, random))))
    }),
    ("simulate: another rotation than before", |it| {
        it.change_chart(true, |chart, text, finder, random| {
            let other = chart.text(&rotated(finder.best(&chart.planned.drawn.graph, random)));
            (other != text).then_some(other)
        })
    }),
    ("simulate: the greedy cycle, which is not the best", |it| {
        it.change_chart(true, |chart, _, _, _| {
            let greedy = &chart.planned.drawn.graph.greedy;
            worse(&chart.planned.drawn, greedy).then(|| chart.text(greedy))
        })
    }),
    ("simulate: the greedy cycle, which is not the best, the plan not shown yet", |it| {
        it.change_chart(false, |chart, _, _, _| {
            let greedy = &chart.planned.drawn.graph.greedy;
            (chart.units > 2 * sum_of(greedy) && worse(&chart.planned.drawn, greedy)).then(|| chart.text(greedy))
        })
    }),
    ("simulate: (n + 1), which is not the best, the plan not shown yet", |it| {
        it.change_chart(false, |chart, _, _, _| {
            let cycle = [chart.planned.drawn.graph.diagram.states[0].len() as u8 + 1];
            (chart.units > 2 * sum_of(&cycle) && worse(&chart.planned.drawn, &cycle)).then(|| chart.text(&cycle))
        })
    }),
    ("simulate: starts that meet, the plan not shown yet", |it| {
        it.change_chart(false, |chart, _, _, _| {
            let all: Vec<u32> = (1..=chart.units).collect();
            (chart.units > 40 && chart.text_of(&all).is_err()).then(|| sketched(chart, &[1]))
        })
    }),
    ("delays: refused 20 in place of refused 2", |it| it.change_of("delays", "refused 2\n", |_| "refused 20\n".to_string())),
    ("delays: refused 20 in place of refused 19", |it| it.change_of("delays", "refused 19", |_| "refused 20\n".to_string())),
    ("delays: refused 19 in place of refused 20", |it| it.change_of("delays", "refused 20", |_| "refused 19\n".to_string())),
    ("delays: refused 21 in place of refused 20", |it| it.change_of("delays", "refused 20", |_| "refused 21\n".to_string())),
    ("delays: refused 20 in place of refused 21", |it| it.change_of("delays", "refused 21", |_| "refused 20\n".to_string())),
    ("delays: refused 4 in place of refused 21", |it| it.change_of("delays", "refused 21", |_| "refused 4\n".to_string())),
    ("delays: refused 20 in place of a table", |it| it.change_of("delays", " ", |_| "refused 20\n".to_string())),
    ("delays: refused 21 in place of ok", |it| it.change_of("delays", "ok", |_| "refused 21\n".to_string())),
    ("delays: a table in place of refused 19", |it| it.change_of("delays", "refused 19", |_| "     1\n  1  .\n".to_string())),
    ("delays: a table in place of refused 20", |it| it.change_of("delays", "refused 20", |_| "     1\n  1  .\n".to_string())),
    ("delays: a table in place of refused 21", |it| it.change_of("delays", "refused 21", |_| "     1\n  1  .\n".to_string())),
    ("delays: a table in place of ok", |it| it.change_of("delays", "ok", |_| "     1\n  1  .\n".to_string())),
    ("delays: ok in place of a table", |it| it.change_of("delays", " ", |_| "ok\n".to_string())),
    ("delays: ok in place of a refusal", |it| it.change_of("delays", "refused", |_| "ok\n".to_string())),
    ("delays: ok in place of not written", |it| it.change_of("delays", "not written", |_| "ok\n".to_string())),
    ("delays: not written in place of ok", |it| it.change_of("delays", "ok", |_| "not written\n".to_string())),
    ("delays: not written in place of a refusal", |it| it.change_of("delays", "refused", |_| "not written\n".to_string())),
    ("delays: refused 2 in place of no unit", |it| it.change_of("delays", "no unit", |_| "refused 2\n".to_string())),
    ("delays: refused 20 in place of what was expected", |it| it.change_of("delays", "line", |_| "refused 20\n".to_string())),
    ("delays: two numbers alone were expected", |it| it.change_of("delays", "line", |text| text.replace(" [FILE]", ""))),
    ("delays: a file too was expected", |it| it.change_of("delays", "line", |text| text.replace("[FILE]", "FILE"))),
    ("delays: a mark left out", |it| it.change_of("delays", " ", |text| text.replacen('x', ".", 1))),
    ("delays: a mark too many", |it| it.change_of("delays", " ", |text| text.replacen('.', "x", 1))),
    ("delays: a mark one place later", |it| it.change_of("delays", " ", |text| text.replacen("x  .", ".  x", 1))),
    ("delays: two segments exchanged", |it| it.change_of("delays", " ", lines_exchanged)),
    ("delays: no column numbers", |it| it.change_of("delays", " ", |text| text.split_once('\n').expect("two lines").1.to_string())),
    ("delays: the last column left out", |it| {
        it.change_of("delays", " ", |text| text.lines().map(|line| format!("{}\n", &line[..line.len() - 3])).collect())
    }),
    ("delays: a column too many", |it| {
        it.change_of("delays", " ", |text| {
            let ends =
                [format!("{:>3}\n", (text.find('\n').expect("a line") - 3) / 3 + 1)].into_iter().chain(std::iter::repeat("  .\n".into()));
            text.lines().zip(ends).map(|(line, end)| line.to_string() + &end).collect()
        })
    }),
    ("a unit with delays that was written has a column less", |it| it.change_delayed(|bytes| bytes[2] -= 1)),
    ("a unit with delays that was written has a mark less", |it| {
        it.change_delayed_unit(|unit| unit.marks = unit.marks.iter().skip(1).copied().collect())
    }),
    ("a unit with delays that was written has its marks one place later", |it| {
        it.change_delayed_unit(|unit| unit.marks = unit.marks.iter().map(|mark| Mark { column: mark.column % 32 + 1, ..*mark }).collect())
    }),
    ("a unit with delays that was written has a function more", |it| it.change_delayed_unit(|unit| unit.functions += 1)),
    ("a unit with delays that was written has segments with marks alone", |it| {
        it.change_delayed_unit(|unit| unit.segments = unit.marks.iter().map(|mark| mark.segment).max().unwrap_or(1))
    }),
    ("a unit with delays that was written has a byte after its end", |it| it.change_delayed(|bytes| bytes.push(0))),
    ("a unit with delays that was written is empty", |it| it.change_delayed(|bytes| bytes.clear())),
    ("a unit with delays that was written is its table", |it| {
        it.change_delayed(|bytes| *bytes = table(&decode(bytes).expect("a unit file"), 1).into_bytes())
    }),
    ("a unit with delays that was written is not there", |it| {
        let name = it.delayed_files().pop()?;
        it.fake.folder.files.remove(&name);
        it.end()
    }),
    ("small: ok in place of refused 22", |it| it.change_of("small", "refused 22", |_| "ok\n".to_string())),
    ("small: refused 22 in place of ok", |it| it.change_of("small", "ok", |_| "refused 22\n".to_string())),
    ("small: refused 1 in place of refused 22", |it| it.change_of("small", "refused 22", |_| "refused 1\n".to_string())),
    ("small: refused 22 in place of totals", |it| it.change_of("small", "tables", |_| "refused 22\n".to_string())),
    ("small: ok in place of totals", |it| it.change_of("small", "tables", |_| "ok\n".to_string())),
    ("small: no unit in place of totals", |it| it.change_of("small", "tables", |_| "no unit\n".to_string())),
    ("small: no unit in place of refused 22", |it| it.change_of("small", "refused 22", |_| "no unit\n".to_string())),
    ("small: totals in place of ok", |it| it.change_of("small", "ok", |_| "tables 2 at bound 2 largest 1/1 first 0\n".to_string())),
    ("small: totals in place of refused 22", |it| {
        it.change_of("small", "refused 22", |_| "tables 2 at bound 2 largest 1/1 first 0\n".to_string())
    }),
    ("small: refused 22 in place of what was expected", |it| it.change_of("small", "line", |_| "refused 22\n".to_string())),
    ("small: two numbers alone were expected", |it| it.change_of("small", "line", |text| text.replace(" [NUMBER]", ""))),
    ("small: a number too was expected", |it| it.change_of("small", "line", |text| text.replace("[NUMBER]", "NUMBER"))),
    ("small: one table less", |it| it.change_of("small", "tables", |text| with_number(text, 1, |number| number - 1))),
    ("small: one table less at the bound", |it| it.change_of("small", "tables", |text| with_number(text, 4, |number| number - 1))),
    ("small: one more as the first", |it| it.change_of("small", "tables", |text| with_number(text, 8, |number| number + 1))),
    ("small: a whole number in place of the fraction", |it| it.change_of("small", "tables", |text| text.replace("/1 ", " "))),
    ("small: a denominator of 2", |it| it.change_of("small", "tables", |text| text.replace("/1 ", "/2 "))),
    ("small: blanks around the stroke", |it| it.change_of("small", "tables", |text| text.replace("/1 ", " / 1 "))),
    ("small: the first number left out", |it| {
        it.change_of("small", "tables", |text| text.split_once(" first").expect("totals").0.to_string() + "\n")
    }),
    ("arrive: ok in place of refused 14", |it| it.change_of("arrive", "refused 14", |_| "ok\n".to_string())),
    ("arrive: refused 14 in place of ok", |it| it.change_of("arrive", "ok", |_| "refused 14\n".to_string())),
    ("arrive: refused 2 in place of refused 14", |it| it.change_of("arrive", "refused 14", |_| "refused 2\n".to_string())),
    ("arrive: refused 14 in place of refused 2", |it| it.change_of("arrive", "refused 2", |_| "refused 14\n".to_string())),
    ("arrive: refused 14 in place of refused 2, where no other has room", |it| {
        it.change(|line, _, _, _| line.answer.met.contains(&"arrive: refused by 2 and not by 14").then(|| "refused 14\n".to_string()))
    }),
    ("arrive: ok in place of refused 2", |it| it.change_of("arrive", "refused 2", |_| "ok\n".to_string())),
    ("arrive: refused 10 in place of ok", |it| it.change_of("arrive", "ok", |_| "refused 10\n".to_string())),
    ("arrive: refused 2 in place of no unit", |it| it.change_of("arrive", "no unit", |_| "refused 2\n".to_string())),
    ("arrive: ok in place of what was expected", |it| it.change_of("arrive", "line", |_| "ok\n".to_string())),
    ("arrive: one number alone was expected", |it| it.change_of("arrive", "line", |text| text.replace("arrive Q TICKET", "arrive Q"))),
    ("arrive: another word was expected", |it| it.change_of("arrive", "line", |text| text.replace("TICKET", "T"))),
    ("pass: none in place of a start", |it| it.change_of("pass", "started", |_| "none\n".to_string())),
    ("pass: a start in place of none", |it| it.change_of("pass", "none", |_| "started 1 1\n".to_string())),
    ("pass: a start in place of none, where one waits", |it| {
        it.change(|line, _, _, _| {
            line.answer.met.contains(&"pass: none of two or more would be granted").then(|| "started 1 1\n".to_string())
        })
    }),
    ("pass: another ticket", |it| it.change_of("pass", "started", next_digit)),
    ("pass: another tag", |it| {
        it.change_of("pass", "started", |text| {
            let other = if text.starts_with("started 1") { "started 2" } else { "started 1" };
            format!("{other}{}", &text[other.len()..])
        })
    }),
    ("pass: tag and ticket exchanged", |it| {
        it.change(|line, text, _, _| {
            let (tag, ticket) = text.strip_prefix("started ")?.trim_end().split_once(' ')?;
            (line.bytes == b"pass").then(|| format!("started {ticket} {tag}\n"))
        })
    }),
    ("pass: the tag alone", |it| {
        it.change_of("pass", "started", |text| text.rsplit_once(' ').map_or(String::new(), |(front, _)| format!("{front}\n")))
    }),
    ("pass: a zero in front of the ticket", |it| {
        it.change_of("pass", "started", |text| text.rsplit_once(' ').map_or(String::new(), |(front, ticket)| format!("{front} 0{ticket}")))
    }),
    ("pass: ok in place of a start", |it| it.change_of("pass", "started", |_| "ok\n".to_string())),
    ("pass: ok in place of none", |it| it.change_of("pass", "none", |_| "ok\n".to_string())),
    ("pass: refused 10 in place of none", |it| it.change_of("pass", "none", |_| "refused 10\n".to_string())),
    ("pass: none in place of no unit", |it| it.change_of("pass", "no unit", |_| "none\n".to_string())),
    ("pass: none in place of what was expected", |it| it.change_of("pass", "line", |_| "none\n".to_string())),
    ("pass: a number was expected", |it| it.change_of("pass", "line", |text| text.replace("pass", "pass N"))),
    ("queue: one more than wait", |it| {
        it.change(|_, text, _, _| {
            let (count, rest) = text.strip_prefix("queue ")?.split_once(':')?;
            Some(format!("queue {}:{rest}", count.parse::<u32>().ok()? + 1))
        })
    }),
    ("queue: no colon", |it| it.change_of("queue", "queue", |text| text.replace(':', ""))),
    ("queue: no colon where none waits", |it| it.change_of("queue", "queue 0", |text| text.replace(':', ""))),
    ("queue: a space at the end", |it| it.change_of("queue", "queue", |text| text.replace('\n', " \n"))),
    ("queue: the oldest left out", |it| {
        it.change_tasks(1, |words| {
            words.drain(..2);
        })
    }),
    ("queue: the youngest left out", |it| it.change_tasks(1, |words| words.truncate(words.len() - 2))),
    ("queue: two tasks exchanged", |it| it.change_tasks(2, |words| words[..4].rotate_left(2))),
    ("queue: the youngest first", |it| it.change_tasks(2, |words| words.rotate_right(2))),
    ("queue: tag and ticket exchanged", |it| it.change_tasks(1, |words| words.swap(0, 1))),
    ("queue: a task twice", |it| it.change_tasks(1, |words| words.extend_from_within(..2))),
    ("queue: another tag", |it| it.change_tasks(1, |words| words[0] = if words[0] == "1" { "2" } else { "1" })),
    ("queue: another ticket", |it| it.change_tasks(1, |words| words[1] = if words[1] == "1" { "2" } else { "1" })),
    ("queue: tasks that an edit took away", |it| {
        it.change(|line, _, _, _| line.answer.met.contains(&"queue: none after an edit").then(|| "queue 1: 1 1\n".to_string()))
    }),
    ("queue: tasks that a new unit took away", |it| {
        it.change(|line, _, _, _| line.answer.met.contains(&"queue: none after a new unit").then(|| "queue 1: 1 1\n".to_string()))
    }),
    ("queue: none in place of some", |it| it.change_of("queue", "queue", |_| "queue 0:\n".to_string())),
    ("queue: none waits in place of no unit", |it| it.change_of("queue", "no unit", |_| "queue 0:\n".to_string())),
    ("queue: a number was expected", |it| it.change_of("queue", "line", |text| text.replace("expected queue", "expected queue Q"))),
    ("callers: ok in place of refused 18", |it| it.change_of("callers", "refused 18", |_| "ok\n".to_string())),
    ("callers: refused 18 in place of ok", |it| it.change_of("callers", "ok", |_| "refused 18\n".to_string())),
    ("callers: refused 1 in place of refused 18", |it| it.change_of("callers", "refused 18", |_| "refused 1\n".to_string())),
    ("callers: ok in place of no unit", |it| it.change_of("callers", "no unit", |_| "ok\n".to_string())),
    ("callers: refused 18 in place of no unit", |it| it.change_of("callers", "no unit", |_| "refused 18\n".to_string())),
    ("callers: refused 18 in place of what was expected", |it| it.change_of("callers", "line", |_| "refused 18\n".to_string())),
    ("callers: nothing after it was expected", |it| it.change_of("callers", "line", |text| text.replace("callers C", "callers"))),
    ("call: ok in place of refused 18", |it| it.change_of("call", "refused 18", |_| "ok\n".to_string())),
    ("call: ok in place of refused 14", |it| it.change_of("call", "refused 14", |_| "ok\n".to_string())),
    ("call: ok in place of refused 2", |it| it.change_of("call", "refused 2", |_| "ok\n".to_string())),
    ("call: refused 14 in place of ok", |it| it.change_of("call", "ok", |_| "refused 14\n".to_string())),
    ("call: refused 18 in place of ok", |it| it.change_of("call", "ok", |_| "refused 18\n".to_string())),
    ("call: refused 10 in place of ok", |it| it.change_of("call", "ok", |_| "refused 10\n".to_string())),
    ("call: refused 2 in place of refused 14", |it| it.change_of("call", "refused 14", |_| "refused 2\n".to_string())),
    ("call: refused 18 in place of refused 2", |it| it.change_of("call", "refused 2", |_| "refused 18\n".to_string())),
    ("call: refused 14 in place of refused 2, where there is no room", |it| {
        it.change(|line, _, _, _| line.answer.met.contains(&"call: refused by 2 and not by 14").then(|| "refused 14\n".to_string()))
    }),
    ("call: refused 2 in place of refused 18, for both", |it| {
        it.change(|line, _, _, _| line.answer.met.contains(&"call: refused by 18 and not by 2").then(|| "refused 2\n".to_string()))
    }),
    ("call: refused 2 in place of refused 18, where there are no callers yet", |it| {
        it.change(|line, _, _, _| {
            line.answer.met.contains(&"call: no callers yet, and not refused by 2").then(|| "refused 2\n".to_string())
        })
    }),
    ("call: refused 14 in place of refused 18, where no other has room", |it| {
        it.change(|line, _, _, _| line.answer.met.contains(&"call: refused by 18 and not by 14").then(|| "refused 14\n".to_string()))
    }),
    ("call: refused 18 in place of no unit", |it| it.change_of("call", "no unit", |_| "refused 18\n".to_string())),
    ("call: ok in place of what was expected", |it| it.change_of("call", "line", |_| "ok\n".to_string())),
    ("call: no caller was expected", |it| it.change_of("call", "line", |text| text.replace("call I Q TICKET", "call Q TICKET"))),
    ("call: another word was expected", |it| it.change_of("call", "line", |text| text.replace("call I", "call C"))),
    ("turn: none in place of a start", |it| it.change_of("turn", "started", |_| "none\n".to_string())),
    ("turn: a start in place of none", |it| it.change_of("turn", "none", |_| "started 1 1 1\n".to_string())),
    ("turn: a start in place of none, where another caller's would be granted", |it| {
        it.change(|line, _, _, _| {
            let is_held = line.answer.met.contains(&"turn: none, though another caller's oldest would be granted");
            is_held.then(|| "started 1 1 1\n".to_string())
        })
    }),
    ("turn: none in place of refused 18", |it| it.change_of("turn", "refused 18", |_| "none\n".to_string())),
    ("turn: refused 18 in place of none", |it| it.change_of("turn", "none", |_| "refused 18\n".to_string())),
    ("turn: refused 18 in place of a start", |it| it.change_of("turn", "started", |_| "refused 18\n".to_string())),
    ("turn: another ticket", |it| it.change_of("turn", "started", next_digit)),
    ("turn: another caller", |it| it.change_started(|words| words[1] = if words[1] == "1" { "2" } else { "1" })),
    ("turn: another tag", |it| it.change_started(|words| words[2] = if words[2] == "1" { "2" } else { "1" })),
    ("turn: caller and tag exchanged", |it| it.change_started(|words| words.swap(1, 2))),
    ("turn: tag and ticket exchanged", |it| it.change_started(|words| words.swap(2, 3))),
    ("turn: no caller", |it| {
        it.change_started(|words| {
            words.remove(1);
        })
    }),
    ("turn: no ticket", |it| it.change_started(|words| words.truncate(3))),
    ("turn: two spaces", |it| it.change_of("turn", "started", |text| text.replacen(' ', "  ", 1))),
    ("turn: a zero in front of the caller", |it| it.change_of("turn", "started", |text| text.replacen(' ', " 0", 1))),
    ("turn: ok in place of a start", |it| it.change_of("turn", "started", |_| "ok\n".to_string())),
    ("turn: ok in place of none", |it| it.change_of("turn", "none", |_| "ok\n".to_string())),
    ("turn: refused 10 in place of none", |it| it.change_of("turn", "none", |_| "refused 10\n".to_string())),
    ("turn: none in place of no unit", |it| it.change_of("turn", "no unit", |_| "none\n".to_string())),
    ("turn: none in place of what was expected", |it| it.change_of("turn", "line", |_| "none\n".to_string())),
    ("turn: a number was expected", |it| it.change_of("turn", "line", |text| text.replace("turn", "turn I"))),
    ("line N: one more", |it| {
        it.change(|_, text, _, _| {
            let (number, rest) = text.strip_prefix("line ")?.split_once(':')?;
            Some(format!("line {}:{rest}", number.parse::<u32>().ok()? + 1))
        })
    }),
    ("expected: what another command wants", |it| it.change_of("row", "line", |text| text.replace("row Q R", "row Q"))),
    ("too long: expected a command", |it| it.change(|_, text, _, _| Some(text.replace("too long", "expected a command")))),
    ("no unit: refused 1", |it| it.change(|_, text, _, _| Some(text.replace("no unit", "refused 1")))),
    ("an answer with a space at its end", |it| it.change(|_, text, _, _| Some(text.replacen('\n', " \n", 1)))),
    ("an answer with a carriage return at its end", |it| it.change(|_, text, _, _| Some(text.replacen('\n', "\r\n", 1)))),
    ("a file that was saved has a byte changed", |it| it.change_file(|bytes| bytes[2] ^= 1)),
    ("a file that was saved has bytes of the one before it at its end", |it| it.change_file(|bytes| bytes.push(0))),
    ("a file that was saved is not there", |it| {
        let name = it.saved_file()?;
        it.fake.folder.files.remove(&name);
        it.end()
    }),
    ("a file is there that nobody saved", |it| {
        it.fake.folder.files.insert(b"missing".to_vec(), File::Bytes(Vec::new()));
        it.end()
    }),
    ("a `.part` of a file that was saved is left", |it| {
        let part = [&it.saved_file()?[..], PART.as_bytes()].concat();
        it.fake.folder.files.insert(part, File::Bytes(Vec::new()));
        it.end()
    }),
    ("a symbolic link is a file now", |it| {
        let is_link = |file: &File| matches!(file, File::Link(_));
        let link = it.fake.folder.files.values_mut().find(|file| is_link(file))?;
        *link = File::Bytes(Vec::new());
        it.end()
    }),
    ("a symbolic link leads elsewhere", |it| {
        let is_link = |file: &File| matches!(file, File::Link(_));
        let link = it.fake.folder.files.values_mut().find(|file| is_link(file))?;
        *link = File::Link(b"elsewhere".to_vec());
        it.end()
    }),
];

/// Wrong in how many lines there are, or at the end. A line too many or too few shows where the answers after it first differ. And charts of
/// another cycle, which show when the plan is shown.
const WRONG_AFTER: [Wrong; 11] = [
    ("simulate: another best cycle than the plan's, which is shown after it", |it| {
        let shown = it.shown();
        it.change_chart(false, |chart, _, finder, random| {
            let is_shown = shown.contains(&chart.planned.search);
            is_shown.then(|| chart.text(&finder.best(&chart.planned.drawn.graph, random)))
        })
    }),
    ("delays: ok after the table", |it| it.change_of("delays", " ", |text| format!("{text}ok\n"))),
    ("an answer to a comment", |it| it.change(|line, _, _, _| (line.answer.sort == Sort::Comment).then(|| "ok\n".to_string()))),
    ("an answer to blanks alone", |it| {
        it.change(|line, _, _, _| {
            (line.answer.sort == Sort::Empty && !line.bytes.is_empty()).then(|| "line 1: expected a command\n".to_string())
        })
    }),
    ("an answer left out", |it| it.change(|_, text, _, _| (text == "ok\n").then(String::new))),
    ("an answer twice", |it| it.change(|_, text, _, _| (text == "ok\n").then(|| text.repeat(2)))),
    ("cut off in the middle", |it| {
        let half = it.fake.answers.len() / 2;
        it.fake.answers.truncate(half);
        (half..it.script.lines.len()).find(|place| !it.script.lines[*place].answer.parts.is_empty()).map(|place| place + 1)
    }),
    ("no newline at the end", |it| {
        let last = it.fake.answers.last_mut()?;
        last.pop();
        Some(it.script.lines.len())
    }),
    ("a line more at the end", |it| {
        it.fake.tail = "ok\n".to_string();
        it.end()
    }),
    ("status 1", |it| {
        it.fake.ending = Ending::Status(1);
        it.end()
    }),
    ("ended by a signal", |it| {
        it.fake.ending = Ending::Signal(11);
        it.end()
    }),
];

/// How often each sort of wrong output is tried, each time at another line.
const TIMES: u64 = 5;

fn try_wrong(script: &Script, number: u64, wrong: &Wrong, exact: bool) -> Result<String, String> {
    let (what, make) = wrong;
    let mut first = None;
    for time in 0..TIMES {
        let mut random = Random::new(seed_of(210 + time, number));
        let fake = Fake::new(script, &mut random);
        let mut spoiler = Spoiler { script, fake, finder: Finder::default(), random };
        let place = make(&mut spoiler).ok_or(format!("selftest: no line for: {what}"))?;
        match check(script, &spoiler.fake.run(), &mut Counts::default()) {
            Ok(()) => return Err(format!("selftest: NOT REPORTED at line {place}: {what}")),
            Err(Difference { line, why }) => {
                // a difference that shifts all answers after it shows where they first differ
                if exact && line != place || line < place {
                    return Err(format!("selftest: made at line {place} and reported at line {line}: {what}\n{why}"));
                }
                first.get_or_insert(line);
            }
        }
    }
    Ok(format!("reported {TIMES} times, first at line {}: {what}", first.expect("tried at least once")))
}

/// Programs that are no console, run as the console is.
fn try_programs(script: &Script, right: &Run) -> Result<(), String> {
    let limit = Duration::from_secs(20);
    let short = Duration::from_millis(500);
    let place = Place::new().map_err(|error| error.to_string())?;
    let answers = place.path.join("answers");
    std::fs::write(&answers, &right.output).map_err(|error| error.to_string())?;
    let shell = |text: &str| {
        let mut command = Command::new("sh");
        command.arg("-c").arg(text).arg(&answers);
        command
    };
    let mut sleep = Command::new("sleep");
    sleep.arg("60");
    let programs: [(&str, Command, Duration, bool); 10] = [
        ("reads all, then writes the right answers", shell("cat >/dev/null; cat \"$0\""), limit, true),
        ("writes the right answers before it reads", shell("cat \"$0\"; cat >/dev/null"), limit, true),
        ("writes the right answers and ends with status 3", shell("cat >/dev/null; cat \"$0\"; exit 3"), limit, false),
        ("writes the right answers and is ended by a signal", shell("cat >/dev/null; cat \"$0\"; kill -9 $$"), limit, false),
        ("writes the right answers and leaves a file behind", shell("cat >/dev/null; cat \"$0\"; : >left"), limit, false),
        ("writes the right answers and leaves a `.part` behind", shell("cat >/dev/null; cat \"$0\"; : >out.part"), limit, false),
        ("writes its input", Command::new("cat"), limit, false),
        ("writes nothing", Command::new("true"), limit, false),
        ("ends with status 1", Command::new("false"), limit, false),
        ("never ends", sleep, short, false),
    ];
    for (what, mut command, limit, is_right) in programs {
        let run = console_program::run(&mut command, script, limit).map_err(|error| format!("selftest: {what}: {error}"))?;
        let found = check(script, &run, &mut Counts::default());
        let told = match &found {
            Ok(()) => "accepted".to_string(),
            Err(difference) => format!("reported at line {}", difference.line),
        };
        if found.is_ok() != is_right {
            return Err(format!("selftest: {told}, which is wrong: a program that {what}"));
        }
        println!("selftest: {told}: a program that {what}");
    }
    Ok(())
}

/// How a console answers lines, draws charts, gives delays, lets tasks wait, lets callers take turns and makes small tables.
#[derive(Clone, Copy)]
struct Manner {
    answer: Fault,
    draw: Draw,
    delay: Delay,
    port: Port,
    shared: Shared,
    small: Small,
}

const RIGHT: Manner = Manner { answer: Faulty::answer, draw: sketched, delay: by_trial, port: PORT, shared: SHARED, small: OTHER_WAY };

/// A console with a fault in one of these: on the first lines of the script, and on all of it where these don't show the fault.
fn try_fault(script: &Script, what: &str, manner: Manner, console: Console<Folder>) -> Result<(String, Console<Folder>), String> {
    let mut console = console;
    for count in [2_000, 5_000, 20_000, script.lines.len()] {
        let count = count.min(script.lines.len());
        let mut faulty = Faulty::new(console.again(script.before.clone()));
        (faulty.console.delay, faulty.console.port, faulty.console.shared) = (manner.delay, manner.port, manner.shared);
        faulty.console.small = manner.small;
        let (mut filler, mut random) = (Filler::new(manner.draw), Random::new(what.len() as u64));
        let mut output = Vec::new();
        for (place, line) in (1..).zip(&script.lines[..count]) {
            output.extend_from_slice(filler.text(&(manner.answer)(&mut faulty, &line.bytes, place), &mut random).as_bytes());
        }
        let folder = filler.folder(&faulty.console.shelf, &mut random);
        let run = Run { output, ending: Ending::Status(0), unanswered: None, folder };
        console = faulty.console;
        match check(script, &run, &mut Counts::default()) {
            // after so many lines the output has to end
            Err(difference) if difference.line <= count || count == script.lines.len() => {
                return Ok((format!("reported at line {} of {}: {what}", difference.line, script.name), console));
            }
            _ => {}
        }
    }
    Err(format!("selftest: NOT REPORTED in {} lines of {}: {what}", script.lines.len(), script.name))
}

/// A program whose answers come when its input has ended.
fn try_late(some: &[Script]) -> Result<(), String> {
    let script = some.iter().find(|script| script.feed == Feed::Turns).expect("a script that waits for each answer");
    let program = std::env::current_exe().map_err(|error| error.to_string())?;
    let mut command = Command::new("sh");
    command.arg("-c").arg("\"$0\" stand-in >answers; cat answers; rm answers").arg(program);
    let run = console_program::run(&mut command, script, Duration::from_secs(60)).map_err(|error| error.to_string())?;
    match check(script, &run, &mut Counts::default()) {
        Ok(()) => Err("selftest: NOT REPORTED: a program that answers when its input has ended".to_string()),
        Err(difference) => {
            println!("selftest: reported at line {}: a program that answers when its input has ended", difference.line);
            Ok(())
        }
    }
}

/// The stand-in, run as the program is.
fn try_stand_in(whole: &[Script]) -> Result<(), String> {
    let program = std::env::current_exe().map_err(|error| error.to_string())?;
    let mut counts = Counts::default();
    for script in whole {
        let run = console_program::run(Command::new(&program).arg("stand-in"), script, Duration::from_secs(60))
            .map_err(|error| error.to_string())?;
        check(script, &run, &mut counts).map_err(|difference| format!("selftest: the stand-in is not accepted\n{}", difference.why))?;
    }
    println!("selftest: a stand-in with files of the system is accepted, {} scripts of {} lines", whole.len(), counts.lines);
    Ok(())
}

// ---------------------------------------------------------------------------------------------------------------------------------
// Files and output from outside

fn part_of(name: &OsStr) -> OsString {
    let mut part = name.to_os_string();
    part.push(PART);
    part
}

/// Writes the `.part` and renames it, whatever the name is.
fn replace(name: &OsStr, bytes: &[u8]) -> bool {
    let part = part_of(name);
    let replaced = fs::write(&part, bytes).and_then(|_| fs::rename(&part, name)).is_ok();
    if !replaced {
        let _ = fs::remove_file(&part);
    }
    replaced
}

fn is_link(name: &OsStr) -> bool {
    fs::symlink_metadata(name).is_ok_and(|about| about.is_symlink())
}

/// A regular file, or none.
fn is_plain(name: &OsStr) -> bool {
    fs::symlink_metadata(name).map_or(true, |about| about.is_file())
}

fn may_be_written(name: &OsStr) -> bool {
    fs::symlink_metadata(name).is_err() || OpenOptions::new().write(true).open(name).is_ok()
}

/// Programs that write files in a wrong way.
const WRONG_STORES: [(&str, Store); 17] = [
    ("writes over the old file itself", |name, bytes| fs::write(name, bytes).is_ok()),
    ("takes the old file away before it writes the new one", |name, bytes| {
        if is_plain(name) && may_be_written(name) {
            let _ = fs::remove_file(name);
        }
        store(name, bytes)
    }),
    ("leaves the `.part`", |name, bytes| {
        let (is_plain, stored) = (is_plain(name), store(name, bytes));
        stored && (!is_plain || fs::write(part_of(name), bytes).is_ok())
    }),
    ("leaves the `.part` where it can't be written whole", |name, bytes| {
        if !is_plain(name) || !may_be_written(name) {
            return store(name, bytes);
        }
        fs::write(part_of(name), bytes).is_ok() && replace(name, bytes)
    }),
    ("leaves the `.part` where it can't be renamed", |name, bytes| {
        if is_link(name) || !may_be_written(name) && is_plain(name) {
            return store(name, bytes);
        }
        fs::write(part_of(name), bytes).and_then(|_| fs::rename(part_of(name), name)).is_ok()
    }),
    ("renames a `.part` that is not whole", |name, bytes| {
        if !is_plain(name) || !may_be_written(name) {
            return store(name, bytes);
        }
        let Ok(mut file) = fs::File::create(part_of(name)) else { return false };
        let _ = file.write_all(bytes);
        fs::rename(part_of(name), name).is_ok()
    }),
    ("does not empty a `.part` that stands", |name, bytes| {
        if !is_plain(name) || !Path::new(&part_of(name)).is_file() {
            return store(name, bytes);
        }
        let written = OpenOptions::new().write(true).open(part_of(name)).and_then(|mut file| file.write_all(bytes));
        written.and_then(|_| fs::rename(part_of(name), name)).is_ok()
    }),
    ("takes no `.part` that stands", |name, bytes| !(is_plain(name) && Path::new(&part_of(name)).is_file()) && store(name, bytes)),
    ("takes away a folder in the way of the `.part`", |name, bytes| {
        let _ = fs::remove_dir(part_of(name));
        store(name, bytes)
    }),
    ("writes over the old file itself where there can be no `.part`", |name, bytes| store(name, bytes) || fs::write(name, bytes).is_ok()),
    ("replaces a symbolic link", |name, bytes| if is_link(name) { replace(name, bytes) } else { store(name, bytes) }),
    ("replaces what a symbolic link leads to", |name, bytes| {
        // inside the folder alone
        let here = fs::canonicalize(".").unwrap_or_default();
        match fs::canonicalize(name) {
            Ok(path) if path.starts_with(&here) => replace(path.as_os_str(), bytes),
            _ => store(name, bytes),
        }
    }),
    ("replaces what is no regular file", |name, bytes| if is_link(name) { store(name, bytes) } else { replace(name, bytes) }),
    ("replaces a folder", |name, bytes| {
        let _ = fs::remove_dir(name);
        store(name, bytes)
    }),
    ("makes a folder that is not there", |name, bytes| {
        if let Some(folder) = Path::new(name).parent().filter(|_| is_plain(name)) {
            let _ = fs::create_dir_all(folder);
        }
        store(name, bytes)
    }),
    ("replaces a file that may not be written", |name, bytes| if is_plain(name) { replace(name, bytes) } else { store(name, bytes) }),
    ("says that a file is written, whatever became of it", |name, bytes| {
        store(name, bytes);
        true
    }),
];

/// Programs that read files in a wrong way.
const WRONG_FETCHES: [(&str, Fetch); 1] = [("takes a file that can't be read for an empty one", |name| {
    let is_file = fs::metadata(name).is_ok_and(|about| about.is_file());
    fetch(name).or(is_file.then(Vec::new))
})];

/// Programs that do something wrong where an answer can't be written.
const WRONG_OUTPUTS: [(&str, Unwritten); 3] = [
    ("goes on where an answer can't be written", Unwritten::GoesOn),
    ("reads on where an answer can't be written", Unwritten::ReadsOn),
    ("holds its answers back", Unwritten::HoldsBack),
];

/// The stand-in with what is wrong of this number.
fn wrong_stand_in(number: usize) -> io::Result<()> {
    if let Some((_, store)) = WRONG_STORES.get(number) {
        return stand_in(*store, fetch, Unwritten::Stops);
    }
    match WRONG_FETCHES.get(number - WRONG_STORES.len()) {
        Some((_, fetch)) => stand_in(store, *fetch, Unwritten::Stops),
        None => stand_in(store, fetch, WRONG_OUTPUTS[number - WRONG_STORES.len() - WRONG_FETCHES.len()].1),
    }
}

/// Every case accepts the stand-in, every wrong program is reported in some case, and every case reports some wrong program. Answers the
/// special cases that were met.
fn try_outside() -> Result<Vec<&'static str>, String> {
    let this = std::env::current_exe().map_err(|error| error.to_string())?;
    let files = WRONG_STORES.iter().map(|(what, _)| *what).chain(WRONG_FETCHES.iter().map(|(what, _)| *what));
    let names: Vec<&str> = files.chain(WRONG_OUTPUTS.iter().map(|(what, _)| *what)).collect();
    let mut programs: Vec<(&str, Program)> = vec![("is right", Program::new(&this, &["stand-in"]))];
    for (number, what) in names.into_iter().enumerate() {
        programs.push((what, Program::new(&this, &["stand-in", &number.to_string()])));
    }
    let mut reports: BTreeMap<&'static str, usize> = BTreeMap::new();
    for (number, (what, program)) in programs.iter().enumerate() {
        let is_right = number == 0;
        // a program that is wrong may wait for the end of an input that never ends
        let limit = Duration::from_secs(if is_right { 20 } else { 1 });
        let mut reported = Vec::new();
        for case in cases() {
            match case.run(program, limit).map_err(|error| format!("selftest: {}: {error}", case.what))? {
                Outcome::Right => *reports.entry(case.what).or_default() += 0,
                Outcome::Wrong(why) if is_right => return Err(format!("selftest: the stand-in is not accepted\n{why}")),
                Outcome::Wrong(_) => reported.push(case.what),
                Outcome::NotTried(why) if is_right => println!("selftest: not tried: {}: {why}", case.what),
                Outcome::NotTried(_) => {}
            }
        }
        match reported.first() {
            None if is_right => {
                println!("selftest: a stand-in with files of the system is accepted in {} runs of a few lines", reports.len())
            }
            None => return Err(format!("selftest: NOT REPORTED in any run of a few lines: a program that {what}")),
            Some(first) => println!("selftest: reported in {} of these runs, first in {first}: a program that {what}", reported.len()),
        }
        for what in reported {
            *reports.entry(what).or_default() += 1;
        }
    }
    let idle: Vec<&str> = reports.iter().filter(|(_, count)| **count == 0).map(|(what, _)| *what).collect();
    if !idle.is_empty() {
        return Err(format!("selftest: no wrong program was reported in: {}", idle.join("; ")));
    }
    let count = programs.len() - 1;
    println!("selftest: {count} programs wrong in how they handle files or output, and each of the {} runs reports one", reports.len());
    Ok(reports.into_keys().collect())
}

fn run(lines: usize) -> Result<(), String> {
    console_examples::check_model().map_err(|why| format!("model: {why}"))?;
    println!("selftest: the model answers as it is written by hand");
    let unseen: Vec<&str> = port_faults().iter().filter(|(_, port)| queue_check::judged(port).is_ok()).map(|(what, _)| *what).collect();
    if !unseen.is_empty() {
        return Err(format!("selftest: NOT REPORTED by tasks laid out in time: {}", unseen.join("; ")));
    }
    println!("selftest: {} ports with a fault, and tasks laid out in time report every one", port_faults().len());
    let unseen: Vec<&str> = shared_faults().iter().filter(|(_, port)| callers_check::judged(port).is_ok()).map(|(what, _)| *what).collect();
    if !unseen.is_empty() {
        return Err(format!("selftest: NOT REPORTED by callers' tasks laid out in time: {}", unseen.join("; ")));
    }
    println!("selftest: {} shared ports with a fault, and callers' tasks laid out in time report every one", shared_faults().len());

    let known = small_check::all_facts();
    let unseen: Vec<&str> =
        rule_faults().iter().filter(|(_, small)| small_check::judged(small, &known).is_ok()).map(|(what, _)| *what).collect();
    if !unseen.is_empty() {
        return Err(format!("selftest: NOT REPORTED by tables and totals worked out by other means: {}", unseen.join("; ")));
    }
    println!("selftest: {} rules for small tables with a fault, and other means report every one", rule_faults().len());

    let outside = try_outside()?;

    // the model's own output, three times with other best cycles
    let whole = scripts(lines);
    for time in 0..3 {
        let mut counts = Counts::default();
        for what in &outside {
            counts.meet(what);
        }
        let mut random = Random::new(seed_of(209, time));
        for script in &whole {
            let fake = Fake::new(script, &mut random);
            check(script, &fake.run(), &mut counts)
                .map_err(|difference| format!("selftest: a right output is not accepted\n{}", difference.why))?;
        }
        if !counts.gaps().is_empty() {
            return Err(format!("selftest: NEVER MET: {}", counts.gaps().join("; ")));
        }
        if time == 0 {
            println!("selftest: the model's own output is accepted: {}", counts.told());
        }
    }
    println!("selftest: so it is with other best cycles, twice");
    try_stand_in(&whole)?;

    let some = scripts(lines / 5);
    let mut tried = 0;
    for (wrongs, exact) in [(&WRONG[..], true), (&WRONG_AFTER[..], false)] {
        for wrong in wrongs {
            println!("selftest: {}", try_wrong(&some[0], tried, wrong, exact)?);
            tried += 1;
        }
    }
    let fake = Fake::new(&some[2], &mut Random::new(0));
    try_programs(&some[2], &fake.run())?;
    try_late(&some)?;
    println!("selftest: {tried} sorts of wrong outputs, each made {TIMES} times, and every one is reported");

    let mut console = Console::new(Folder::default());
    let named = |name: &str| whole.iter().find(|script| script.name == name).expect("a script of this name");
    let of_answers = |script, faults: &'static [(&'static str, Fault)]| {
        faults.iter().map(move |(what, answer)| (script, *what, Manner { answer: *answer, ..RIGHT }))
    };
    let of_charts = CHART_FAULTS.iter().map(|(what, draw)| (&whole[0], *what, Manner { draw: *draw, ..RIGHT }));
    let of_delays = DELAY_FAULTS.iter().map(|(what, delay)| (&whole[0], *what, Manner { delay: *delay, ..RIGHT }));
    let of_ports = port_faults().into_iter().map(|(what, port)| (named(QUEUES), what, Manner { port, ..RIGHT }));
    let faults = of_answers(&whole[0], FAULTS).chain(of_answers(named(RECORDS), RECORD_FAULTS)).chain(of_charts).chain(of_delays);
    let faults = faults.chain(of_answers(named(QUEUES), QUEUE_FAULTS)).chain(of_ports);
    let of_shared = shared_faults().into_iter().map(|(what, shared)| (named(CALLERS), what, Manner { shared, ..RIGHT }));
    let faults =
        faults.chain(of_answers(named(CALLERS), CALLER_FAULTS)).chain(of_answers(named(CALLERS), UNTOUCHED_FAULTS)).chain(of_shared);
    let of_small = rule_faults().into_iter().map(|(what, small)| (named(SMALL_TABLES), what, Manner { small, ..RIGHT }));
    let faults = faults.chain(of_answers(named(SMALL_TABLES), SMALL_FAULTS)).chain(of_small);
    let mut faulty = 0;
    for (script, what, manner) in faults {
        let (told, after) = try_fault(script, what, manner, console)?;
        println!("selftest: {told}");
        console = after;
        faulty += 1;
    }
    println!("selftest: {faulty} consoles with a fault, and every one is reported");
    Ok(())
}

fn main() {
    let arguments: Vec<String> = std::env::args().skip(1).collect();
    let done = match arguments.iter().map(|word| word.as_str()).collect::<Vec<_>>()[..] {
        [] => run(LINES),
        // where its output can't be written, nothing can be told there
        ["stand-in"] => stand_in(store, fetch, Unwritten::Stops).or_else(|_| exit(1)),
        ["stand-in", number] => wrong_stand_in(number.parse().expect("a number")).or_else(|_| exit(1)),
        _ => Err("console_selftest [stand-in [WRONG]]".to_string()),
    };
    if let Err(why) = done {
        println!("{why}");
        exit(1);
    }
}
