//! What the console answers to each line, worked out from its description and from the paper, before the program is run.
//!
//! A line is taken apart by the standard library's `split` and its answer is put together from `model.rs`. Of a plan only the number of
//! the search that made it is known here: which best cycle it holds is free, and is seen when the program first shows it.

use crate::callers::{self, Callers, Shared};
use crate::charts;
use crate::console_folder::{written, Content, Shelf, Written};
use crate::loops::*;
use crate::model::*;
use crate::queue::{self, Port, Queue, Task};
use crate::records::{self, Wrong, LONGEST_LATENCY, LONGEST_RECORD};
use crate::small::{self, Fact, Size, Small};
use crate::{callers_met, delays, delays_met, queue_met, small_met};
use std::cell::OnceCell;
use std::collections::{HashMap, HashSet};
use std::fmt;
use std::rc::Rc;

/// "over 4,096 bytes: `line N: too long`"
pub const LONGEST_LINE: usize = 4_096;

/// Each command with what it wants after its name: `FILE` is a file's name, which may be any word, `[FILE]` is one or nothing, `[NUMBER]` is
/// a number or nothing, `L L ..` and `Q Q ..` are any number of numbers, none too, and all else is a number.
pub const COMMANDS: [(&str, &str); 34] = [
    ("fresh", " P S C"),
    ("mark", " Q R C"),
    ("unmark", " Q R C"),
    ("search", " Q"),
    ("read", ""),
    ("vector", " Q"),
    ("row", " Q R"),
    ("states", " Q"),
    ("greedy", " Q"),
    ("bound", " Q"),
    ("upper", " Q"),
    ("constant", " Q"),
    ("judge", " Q L L .."),
    ("tick", ""),
    ("start", " Q"),
    ("bank", ""),
    ("load", " FILE"),
    ("save", " FILE"),
    ("list", ""),
    ("table", " Q"),
    ("diagram", " Q"),
    ("loop", " Q Q .."),
    ("record", " Q FILE"),
    ("report", " FILE"),
    ("ring", " FILE"),
    ("simulate", " Q UNITS"),
    ("delays", " Q M [FILE]"),
    ("arrive", " Q TICKET"),
    ("pass", ""),
    ("queue", ""),
    ("callers", " C"),
    ("call", " I Q TICKET"),
    ("turn", ""),
    ("small", " S C [NUMBER]"),
];

/// What is as it was before some line: a plan, a bank that is not empty, tasks that wait, and callers' tasks that do.
macro_rules! kept {
    ($by:literal) => {
        [
            concat!("a plan kept by ", $by),
            concat!("a bank kept by ", $by),
            concat!("a queue kept by ", $by),
            concat!("callers' tasks kept by ", $by),
        ]
    };
}

/// What an edit takes away.
macro_rules! taken {
    ($by:literal) => {
        [concat!("a bank in use emptied by ", $by), concat!("a queue emptied by ", $by), concat!("callers' tasks taken away by ", $by)]
    };
}

/// A special case of the two readers of a record, `report` and `ring`.
macro_rules! both {
    ($what:literal) => {
        [concat!("report: ", $what), concat!("ring: ", $what)]
    };
}

// ---------------------------------------------------------------------------------------------------------------------------------
// What is known of a function

/// A state diagram within the limit.
pub struct Graph {
    pub diagram: Diagram,
    pub greedy: Vec<u8>,
    least: OnceCell<(i64, i64)>,
    best_arcs: OnceCell<Arcs>,
}

impl Graph {
    /// The least average of a cycle, as a sum and a count.
    pub fn least(&self) -> (i64, i64) {
        *self.least.get_or_init(|| self.diagram.least_average())
    }

    /// The arcs that best cycles run along.
    pub fn best_arcs(&self) -> &Arcs {
        self.best_arcs.get_or_init(|| tight_arcs(&self.diagram.arcs, self.least()))
    }

    /// The arcs that a cycle runs along, each as a state and a latency. It is one cycle at most: the state after many turns is made by the
    /// starts of the last turns alone, so that no two states can lead by the same latencies back to themselves.
    pub fn course(&self, latencies: &[u8]) -> Option<Vec<(usize, u32)>> {
        (0..self.diagram.states.len()).find_map(|begin| {
            let mut state = begin;
            let mut course = Vec::new();
            for &latency in latencies {
                course.push((state, latency as u32));
                state = self.diagram.arcs[state].iter().find(|arc| arc.0 == latency as u32)?.1;
            }
            (state == begin).then_some(course)
        })
    }

    /// The drawing's lines, one for each arc, up to where `, style=bold` may stand; with the state and the latency of the arc.
    pub fn arc_lines(&self) -> impl Iterator<Item = (String, usize, u32)> + '_ {
        let name = |state: usize| vector_text(&self.diagram.states[state]);
        self.diagram.arcs.iter().enumerate().flat_map(move |(from, leading)| {
            leading.iter().map(move |&(latency, to)| {
                let line = format!("  \"{}\" -> \"{}\" [label={latency}", name(from), name(to));
                (line, from, latency)
            })
        })
    }
}

/// The arcs that best cycles run along, where the least average is this one, and every cycle of them is a best one: heights such that no arc
/// rises by more than what it costs above the least average, and of the arcs those that rise by just that.
pub fn tight_arcs(arcs: &Arcs, (sum, count): (i64, i64)) -> Arcs {
    let cost = |latency: u32| count * latency as i64 - sum;
    let mut heights = vec![0i64; arcs.len()];
    let mut settled = false;
    while !settled {
        settled = true;
        for (from, leading) in arcs.iter().enumerate() {
            for &(latency, to) in leading {
                if heights[from] + cost(latency) < heights[to] {
                    heights[to] = heights[from] + cost(latency);
                    settled = false;
                }
            }
        }
    }
    let is_tight = |from: usize, (latency, to): (u32, usize)| heights[from] + cost(latency) == heights[to];
    let on_tight = |(from, leading): (usize, &Vec<(u32, usize)>)| leading.iter().copied().filter(|arc| is_tight(from, *arc)).collect();
    let mut tight: Arcs = arcs.iter().enumerate().map(on_tight).collect();
    // arcs to states that lead no further are left out, until every walk can go on
    loop {
        let ends: Vec<bool> = tight.iter().map(|leading| leading.is_empty()).collect();
        let before: usize = tight.iter().map(|leading| leading.len()).sum();
        tight.iter_mut().for_each(|leading| leading.retain(|arc| !ends[arc.1]));
        if tight.iter().map(|leading| leading.len()).sum::<usize>() == before {
            return tight;
        }
    }
}

pub const BOLD: &str = ", style=bold";
pub const ARC_END: &str = "];\n";

pub fn drawing_begin(tag: u32) -> String {
    format!("digraph function_{tag} {{\n")
}

pub const DRAWING_END: &str = "}\n";

pub fn drawing(tag: u32, graph: &Graph, bold: &HashSet<(usize, u32)>) -> String {
    let mut text = drawing_begin(tag);
    for (line, state, latency) in graph.arc_lines() {
        text += &line;
        if bold.contains(&(state, latency)) {
            text += BOLD;
        }
        text += ARC_END;
    }
    text + DRAWING_END
}

/// A function of at most 256 states: its marks and its diagram.
#[derive(Clone)]
pub struct Drawn {
    pub spots: Rc<Vec<Spot>>,
    pub graph: Rc<Graph>,
}

impl Drawn {
    /// "It finds a cycle of the diagram in which no state occurs twice and whose S / K is least. The cycle is given in the rotation that
    /// comes first"; "K and S are the cycle's own".
    pub fn check_best(&self, cycle: &Cycle, yard: &mut Yard) -> Result<(), String> {
        let Cycle { latencies, sum } = cycle;
        if latencies.is_empty() || latencies.len() > MOST_LATENCIES {
            return Err(format!("a cycle of {} latencies", latencies.len()));
        }
        if *sum != sum_of(latencies) {
            return Err(format!("the sum is {}", sum_of(latencies)));
        }
        if !self.graph.diagram.has_cycle(latencies) {
            return Err("no cycle of the diagram with no state twice".to_string());
        }
        if !is_first_rotation(latencies) {
            return Err("another rotation comes before it".to_string());
        }
        if !never_collides(&self.spots, latencies, yard) {
            return Err("the cycle collides".to_string());
        }
        let (least, of) = self.graph.least();
        if least * latencies.len() as i64 != *sum as i64 * of {
            return Err(format!("not a best cycle: the least average is {least} / {of}"));
        }
        Ok(())
    }

    /// Whether a best cycle could have just these starts in the first so many time units. Of a cycle that is longer than that it is asked
    /// that the latencies seen run along best arcs, that others lead from there back to where they began without a state that occurs twice,
    /// and that no rotation seen to come before it does.
    pub fn may_start(&self, starts: &[u32], units: u32, yard: &mut Yard) -> bool {
        let seen: Option<Vec<u8>> = starts.windows(2).map(|pair| u8::try_from(pair[1] - pair[0]).ok()).collect();
        let (Some(seen), Some(last)) = (seen, starts.last()) else { return units == 0 };
        if starts[0] != 1 {
            return false;
        }
        let mut is_whole = |count: usize| {
            let cycle = Cycle { latencies: seen[..count].to_vec(), sum: sum_of(&seen[..count]) };
            charts::starts_of(&cycle.latencies, units) == starts && self.check_best(&cycle, yard).is_ok()
        };
        if (1..=seen.len().min(MOST_LATENCIES)).any(&mut is_whole) {
            return true;
        }
        let is_first = (1..seen.len()).all(|turn| seen[turn..] >= seen[..seen.len() - turn]);
        is_first && (0..self.graph.diagram.states.len()).any(|begin| self.leads_back(begin, &seen, units - last + 1))
    }

    /// Whether a cycle of best arcs with no state twice may begin at this state with these latencies, and then one that is not below `next`.
    fn leads_back(&self, begin: usize, latencies: &[u8], next: u32) -> bool {
        let arcs = self.graph.best_arcs();
        let mut met = vec![false; arcs.len()];
        let mut state = begin;
        for &latency in latencies {
            if std::mem::replace(&mut met[state], true) {
                return false;
            }
            match arcs[state].iter().find(|arc| arc.0 == latency as u32) {
                Some(arc) => state = arc.1,
                None => return false,
            }
        }
        if std::mem::replace(&mut met[state], true) {
            return false;
        }
        // no latency is below the first one
        let least = latencies.first().map_or(next, |first| *first as u32);
        let mut open: Vec<usize> = arcs[state].iter().filter(|arc| arc.0 >= least.max(next)).map(|arc| arc.1).collect();
        while let Some(state) = open.pop() {
            if state == begin {
                return true;
            }
            if !std::mem::replace(&mut met[state], true) {
                open.extend(arcs[state].iter().filter(|arc| arc.0 >= least).map(|arc| arc.1));
            }
        }
        false
    }
}

/// The plan that a search made, by the number of the search, and its function.
#[derive(Clone)]
pub struct Planned {
    pub search: usize,
    pub drawn: Drawn,
}

impl PartialEq for Planned {
    fn eq(&self, other: &Planned) -> bool {
        self.search == other.search
    }
}

impl Eq for Planned {}

impl fmt::Debug for Planned {
    fn fmt(&self, text: &mut fmt::Formatter) -> fmt::Result {
        write!(text, "the plan of search {}", self.search)
    }
}

impl Planned {
    /// The most bytes that its record can have. No state occurs twice in a plan's cycle, and no latency is above 32.
    fn longest_record(&self) -> usize {
        let states = self.drawn.graph.diagram.states.len();
        records::LIST + states + states * LONGEST_LATENCY as usize / 8
    }
}

/// A chart of a plan.
#[derive(Clone)]
pub struct Chart {
    pub planned: Planned,
    pub segments: u32,
    pub units: u32,
}

impl Chart {
    /// The chart of tasks that start in these units. Two tasks that meet are an error.
    pub fn text_of(&self, starts: &[u32]) -> Result<String, String> {
        charts::text(&self.planned.drawn.spots, self.segments, self.units, starts)
    }

    /// The chart where the plan has these latencies.
    pub fn text(&self, latencies: &[u8]) -> String {
        self.text_of(&charts::starts_of(latencies, self.units)).expect("a best cycle never collides")
    }
}

struct Function {
    spots: Rc<Vec<Spot>>,
    vector: Vec<bool>,
}

/// A list of tags that are in the unit.
struct List {
    /// None where there are more than 256 states.
    loops: Option<Rc<Loops>>,
    /// Special cases that it is one of.
    met: Vec<&'static str>,
}

/// Functions that were met before: many tables have the same collision vector, and so the same diagram. And lists of tags, each with the
/// marks of all functions; and what is known of all tables of a small size.
struct Book {
    functions: HashMap<Vec<Spot>, Rc<Function>>,
    graphs: HashMap<Vec<bool>, Option<Rc<Graph>>>,
    lists: HashMap<(Vec<Vec<Spot>>, Vec<u32>), Rc<List>>,
    sizes: HashMap<Size, Rc<Vec<Fact>>>,
    yard: Yard,
}

impl Book {
    fn function(&mut self, unit: &Unit, tag: u32) -> Rc<Function> {
        let spots = unit.spots(tag);
        let yard = &mut self.yard;
        let make = |spots: &Vec<Spot>| Rc::new(Function { spots: Rc::new(spots.clone()), vector: collision_vector(spots, yard) });
        self.functions.entry(spots).or_insert_with_key(make).clone()
    }

    /// None where there are more than 256 states.
    fn drawn(&mut self, unit: &Unit, tag: u32) -> Option<Drawn> {
        let function = self.function(unit, tag);
        let make = |vector: &Vec<bool>| {
            let diagram = diagram(vector, MOST_STATES)?;
            Some(Rc::new(Graph { greedy: diagram.greedy(), diagram, least: OnceCell::new(), best_arcs: OnceCell::new() }))
        };
        let graph = self.graphs.entry(function.vector.clone()).or_insert_with_key(make).clone()?;
        Some(Drawn { spots: function.spots.clone(), graph })
    }

    fn list(&mut self, unit: &Unit, tags: &[u32]) -> Rc<List> {
        let key = ((1..=unit.functions).map(|tag| unit.spots(tag)).collect(), tags.to_vec());
        let yard = &mut self.yard;
        self.lists.entry(key).or_insert_with(|| Rc::new(List::new(Kernel::new(unit, tags, yard)))).clone()
    }

    fn facts(&mut self, size: Size) -> Rc<Vec<Fact>> {
        let yard = &mut self.yard;
        self.sizes.entry(size).or_insert_with(|| Rc::new(small::facts(size, yard))).clone()
    }
}

impl List {
    fn new(kernel: Kernel) -> List {
        // one more than the limit, so that a list just above it is known
        let reached = kernel.reached(MOST_STATES + 1);
        let states = reached.as_ref().map(|reached| reached.arcs.len());
        let (several, names_all) = (kernel.tags.len() > 1, kernel.names_all());
        let within = |kernel: Kernel| kernel.reached(MOST_STATES).is_some();
        let refused = states.is_none_or(|states| states > MOST_STATES);
        let mut cases = vec![
            (kernel.tags.len() == MOST_TAGS, "loop: 8 tags"),
            (kernel.period() < kernel.tags.len(), "loop: a list that is a shorter one again"),
            (!names_all, "loop: a function that the list does not name"),
            (kernel.longest == 1, "loop: no latency collides"),
            (!refused && states >= Some(250), "loop: 250 states or more"),
            (states == Some(256), "loop: 256 states"),
            (states == Some(256) && several, "loop: 256 states of two or more tags"),
            (states == Some(256) && !names_all, "loop: 256 states, a function not named"),
            (states == Some(257), "loop: 257 states"),
            (states == Some(257) && several, "loop: 257 states of two or more tags"),
        ];
        if refused && !names_all {
            cases.push((within(kernel.without_others()), "loop: refused by 7 for registers of a function not named"));
            cases.push((within(kernel.with_own_latencies()), "loop: refused by 7 for latencies of a function not named"));
        }
        let loops = reached.filter(|_| !refused).map(|reached| Rc::new(Loops::new(kernel, reached)));
        cases.push((loops.as_ref().is_some_and(|loops| !loops.is_least(&loops.greedy())), "loop: better than greedy"));
        List { loops, met: cases.into_iter().filter(|(holds, _)| *holds).map(|(_, what)| what).collect() }
    }
}

// ---------------------------------------------------------------------------------------------------------------------------------
// Answers

/// An answer is text, but for what a best cycle decides.
pub enum Part {
    Text(String),
    /// Latencies and sum of the plan that this search made.
    Plan(usize, Drawn),
    /// Latencies and sum of any best cycle.
    Best(Drawn),
    /// The whole drawing for this tag, with the arcs of the plan that this search made.
    Drawing(usize, u32, Drawn),
    /// Latencies and sum of any best loop.
    Loop(Rc<Loops>),
    /// What `report` shows of the plan's record, after `count`.
    List(Planned),
    /// What `ring` shows of it, after `sum`.
    Ring(Planned),
    /// The whole chart.
    Chart(Chart),
}

/// What sort of answer a line got: a command's, which begins with its name, or that of a line that is none.
#[derive(Clone, PartialEq, Eq, PartialOrd, Ord, Debug)]
pub enum Sort {
    Of(&'static str, String),
    ExpectedCommand,
    TooLong,
    /// No words.
    Empty,
    Comment,
}

pub struct Answer {
    pub sort: Sort,
    pub parts: Vec<Part>,
    /// Special cases that the line is one of.
    pub met: Vec<&'static str>,
}

impl Answer {
    /// How many lines it has.
    pub fn height(&self) -> usize {
        let height = |part: &Part| match part {
            Part::Text(text) => text.matches('\n').count(),
            Part::Plan(..) | Part::Best(_) | Part::Loop(_) | Part::List(_) | Part::Ring(_) => 0,
            Part::Drawing(_, _, drawn) => drawn.graph.arc_lines().count() + 2,
            Part::Chart(chart) => chart.segments as usize + 2,
        };
        self.parts.iter().map(height).sum()
    }
}

fn said(text: String) -> Vec<Part> {
    vec![Part::Text(text + "\n")]
}

/// What is said of a file.
fn told_of(is_written: bool) -> Vec<Part> {
    said(if is_written { "ok" } else { "not written" }.to_string())
}

/// The sort of a command's answer: `refused N`, `yes`, `no`, `none`, `no unit`, `no file`, `not written`, `started`, `tables`, and else `ok`.
fn sort_of(name: &'static str, parts: &[Part]) -> Sort {
    let text = match &parts[0] {
        Part::Text(text) => text.trim_end(),
        _ => "",
    };
    let told = match text {
        "yes" | "no" | "none" | "no unit" | "no file" | "not written" => text,
        _ if text.starts_with("refused ") => text,
        _ if text.starts_with("started ") => "started",
        _ if text.starts_with("tables ") => "tables",
        _ => "ok",
    };
    Sort::Of(name, told.to_string())
}

/// "Blanks: spaces and tabs (bytes 32 and 9)"
pub fn is_blank(byte: u8) -> bool {
    byte == 32 || byte == 9
}

/// The line without the carriage return at its very end. "One carriage return (byte 13) at the very end of the line is passed over."
pub fn without_return(line: &[u8]) -> &[u8] {
    line.strip_suffix(b"\r").unwrap_or(line)
}

/// "Words of a line are separated by blanks, any number of them, also before the first word and after the last"; "a carriage return
/// anywhere else is an ordinary byte of a word".
pub fn words_of(line: &[u8]) -> Vec<&[u8]> {
    without_return(line).split(|byte| is_blank(*byte)).filter(|word| !word.is_empty()).collect()
}

fn is_name(word: &[u8]) -> bool {
    COMMANDS.iter().any(|(name, _)| name.as_bytes() == word)
}

/// "A number is one or more digits 0 to 9 that say at most 4294967295; zeros in front are allowed."
pub fn number(word: &[u8]) -> Option<u32> {
    if word.is_empty() || !word.iter().all(|byte| byte.is_ascii_digit()) {
        return None;
    }
    let digits = std::str::from_utf8(word).ok()?.trim_start_matches('0');
    if digits.is_empty() {
        return Some(0);
    }
    digits.parse().ok()
}

/// The words after a command's name, where they are what it wants.
struct Arguments<'a> {
    numbers: Vec<u32>,
    /// Empty where there is none, as no word is.
    file: &'a [u8],
}

fn arguments<'a>(wants: &str, words: &[&'a [u8]]) -> Option<Arguments<'a>> {
    if let Some(first) = wants.strip_suffix(" [FILE]") {
        return arguments(first, words).or_else(|| arguments(&format!("{first} FILE"), words));
    }
    if let Some(first) = wants.strip_suffix(" [NUMBER]") {
        return arguments(first, words).or_else(|| arguments(&format!("{first} NUMBER"), words));
    }
    if let Some(first) = wants.strip_suffix(" FILE") {
        let (file, others) = words.split_last()?;
        return arguments(first, others).map(|arguments| Arguments { file, ..arguments });
    }
    let numbers: Vec<u32> = words.iter().map(|word| number(word)).collect::<Option<_>>()?;
    let enough = match wants.strip_suffix(" L L ..").or(wants.strip_suffix(" Q Q ..")) {
        Some(first) => numbers.len() >= first.split_whitespace().count(),
        None => numbers.len() == wants.split_whitespace().count(),
    };
    enough.then_some(Arguments { numbers, file: b"" })
}

/// The plan: its tag and the number of the search that made it.
#[derive(Clone, Copy, PartialEq, Eq)]
pub struct Plan {
    pub tag: u32,
    search: usize,
}

/// How a function of a unit is given the delays that a latency wants.
pub type Delay = fn(&Unit, u32, u32) -> Reply<Unit>;

/// What the console holds between lines.
pub struct Console<S: Shelf> {
    book: Book,
    pub unit: Option<Unit>,
    pub plan: Option<Plan>,
    searches: usize,
    pub bank: Bank,
    pub queue: Queue,
    pub callers: Callers,
    pub shelf: S,
    /// Others than the right ones where the console is to have a fault.
    pub delay: Delay,
    pub port: Port,
    pub shared: Shared,
    pub small: Small,
    met: Vec<&'static str>,
    /// What the line before did, for the special cases.
    before: Before,
    /// The bank as the last accepted edit or new unit found it.
    found: Bank,
    /// Whether the last accepted edit or new unit took away tasks that waited.
    took_tasks: bool,
    /// The callers as the last accepted edit, new unit or number of callers found them, where none of them was served since then; with the
    /// special case that another's turn was set back.
    found_callers: Option<(Callers, &'static str)>,
    /// The most callers that there were.
    most_callers: u32,
    /// The searches whose plans were shown.
    shown: HashSet<usize>,
    /// The searches whose plans had a chart before they were shown.
    charted: HashSet<usize>,
    /// Whether the last edit dropped a plan and no search was accepted since then.
    dropped: bool,
    /// The names under which units with delays were written last.
    delayed: HashSet<Vec<u8>>,
}

#[derive(Clone, Copy, PartialEq, Eq)]
enum Before {
    RefusedFresh,
    RefusedLoad,
    NoFile,
    Emptied,
    Edited,
    RefusedEdit,
    Searched,
    RefusedSearch,
    Looped,
    RefusedLoop,
    Recorded,
    RefusedRecord,
    NotWritten,
    /// A record was shown by `report` or `ring`.
    Shown,
    /// A file was refused by them, or there was none.
    NotShown,
    Charted,
    RefusedChart,
    Delayed,
    RefusedDelays,
    DelaysNotWritten,
    Saved,
    NotSaved,
    Ticked,
    /// By hand.
    Started,
    RefusedStart,
    Arrived,
    RefusedArrival,
    /// A time unit in which a waiting task was started, or none.
    Passed,
    /// So many callers were said.
    Counted,
    RefusedCount,
    Called,
    RefusedCall,
    /// A time unit in which a caller's task was started, or none.
    Turned,
    RefusedTurn,
    /// The totals of a size were told.
    Totaled,
    /// A small table was taken by its number.
    Numbered,
    RefusedSmall,
    Bad,
    Other,
}

fn empty_bank() -> Bank {
    Bank::of_words(&[0; REGISTERS])
}

impl<S: Shelf> Console<S> {
    pub fn new(shelf: S) -> Console<S> {
        let book =
            Book { functions: HashMap::new(), graphs: HashMap::new(), lists: HashMap::new(), sizes: HashMap::new(), yard: Yard::new() };
        Console {
            book,
            unit: None,
            plan: None,
            searches: 0,
            bank: empty_bank(),
            queue: Queue::new(),
            callers: Callers::new(),
            shelf,
            delay: delays::delayed,
            port: queue::PORT,
            shared: callers::SHARED,
            small: small::SMALL,
            met: Vec::new(),
            before: Before::Other,
            found: empty_bank(),
            took_tasks: false,
            found_callers: None,
            most_callers: 0,
            shown: HashSet::new(),
            charted: HashSet::new(),
            dropped: false,
            delayed: HashSet::new(),
        }
    }

    /// A console as a new process has it, which knows of the same functions, lists and sizes.
    pub fn again(self, shelf: S) -> Console<S> {
        Console { book: self.book, ..Console::new(shelf) }
    }

    pub fn drawn(&mut self, tag: u32) -> Option<Drawn> {
        let unit = self.unit.as_ref()?;
        unit.check_tag(tag).ok()?;
        self.book.drawn(unit, tag)
    }

    /// The answer to a line, the newline left out, which is line `place` of the input, counted from 1.
    pub fn answer(&mut self, line: &[u8], place: usize) -> Answer {
        self.met.clear();
        self.meet_line(line);
        let (sort, parts) = self.sort_and_parts(line, place);
        let before = std::mem::replace(&mut self.before, Before::Other);
        self.before = match &sort {
            Sort::Of(name, said) => self.what_was_done(name, said, before),
            Sort::ExpectedCommand | Sort::TooLong => Before::Bad,
            Sort::Empty | Sort::Comment => before,
        };
        Answer { sort, parts, met: std::mem::take(&mut self.met) }
    }

    fn sort_and_parts(&mut self, line: &[u8], place: usize) -> (Sort, Vec<Part>) {
        let expected = |what: &str| said(format!("line {place}: {what}"));
        // "A line of more than 4,096 bytes is too long whatever it begins with."
        if line.len() > LONGEST_LINE {
            return (Sort::TooLong, expected("too long"));
        }
        // "A line without words is passed over, and so is a line whose first word begins with `#`."
        let words = words_of(line);
        let Some((first, others)) = words.split_first() else {
            return (Sort::Empty, Vec::new());
        };
        if first.starts_with(b"#") {
            return (Sort::Comment, Vec::new());
        }
        let Some((name, wants)) = COMMANDS.into_iter().find(|(name, _)| name.as_bytes() == *first) else {
            return (Sort::ExpectedCommand, expected("expected a command"));
        };
        let Some(arguments) = arguments(wants, others) else {
            return (Sort::Of(name, "expected".to_string()), expected(&format!("expected {name}{wants}")));
        };
        let parts = self.obey(name, &arguments.numbers, arguments.file);
        (sort_of(name, &parts), parts)
    }

    fn obey(&mut self, name: &str, numbers: &[u32], file: &[u8]) -> Vec<Part> {
        let reply = match name {
            "fresh" => Unit::fresh(numbers[0], numbers[1], numbers[2]).map(|unit| self.take_unit(unit)),
            "load" => match self.shelf.load(file) {
                None => return said("no file".to_string()),
                // K stands where a unit file has its functions and segments, one of which is then 0
                Some(Content::Record(_)) => {
                    self.met.push("a load of a record that was written");
                    Err(1)
                }
                Some(Content::Bytes(bytes)) => {
                    let read = decode(&bytes);
                    let length = self.shelf.length(file);
                    self.met_if(read == Err(11) && length.is_some_and(|length| length >= 1 << 32), "a file longer than 2^32 bytes");
                    self.met_if(bytes.len() <= LONGEST_RECORD && records::wrongs(&bytes).is_empty(), "a load of a record");
                    self.met_if(self.delayed.contains(file), "a load of delays that were written");
                    read.map(|unit| self.take_unit(unit))
                }
            },
            "report" | "ring" => match self.shelf.load(file) {
                None => {
                    self.met_view(name, self.unit.is_none(), both!("no file before the first unit"));
                    return said("no file".to_string());
                }
                Some(content) => self.view(name, content, self.shelf.length(file)),
            },
            "small" => self.small(numbers[0], numbers[1], numbers.get(2).copied()),
            // "before the first fresh every call but `load` and `fresh` answers `no unit`": and but `report`, `ring` and `small`
            _ => match self.unit.take() {
                None => {
                    self.met_if(name == "delays" && !file.is_empty(), "delays: no unit, with a file");
                    return said("no unit".to_string());
                }
                Some(mut unit) => {
                    let reply = self.ask(&mut unit, name, numbers, file);
                    self.unit = Some(unit);
                    reply
                }
            },
        };
        reply.unwrap_or_else(|number| said(format!("refused {number}")))
    }

    /// The totals of a size, which leave the session as it is; with a number its table, which becomes the unit as by `fresh`.
    fn small(&mut self, segments: u32, columns: u32, number: Option<u32>) -> Reply<Vec<Part>> {
        self.met.extend(small_met::special(segments, columns, number, self.unit.is_some()));
        let size = (self.small.size)(segments, columns)?;
        let Some(number) = number else {
            let facts = self.book.facts(size);
            return Ok(said((self.small.totals)(size, &facts).text()));
        };
        let unit = (self.small.table)(size, number)?;
        self.met_if(self.unit.as_ref() == Some(&unit), "small: the table that is the unit");
        self.met_if(self.plan.is_some(), "a plan dropped by a small table");
        Ok(self.take_unit(unit))
    }

    /// "the bank is emptied by `fresh` and `load`", so are the queue and the callers' queues, and "there is no plan".
    fn take_unit(&mut self, unit: Unit) -> Vec<Part> {
        let (in_use, waits, calls) = (self.bank != empty_bank(), !self.queue.is_empty(), self.callers.waiting() > 0);
        self.met_if(in_use, "a bank in use emptied by a new unit");
        self.met_if(waits, "a queue emptied by a new unit");
        self.met_if(waits && !in_use, "a queue emptied by a new unit beside an empty bank");
        self.met_if(calls, "callers' tasks taken away by a new unit");
        self.met_if(calls && !in_use && !waits, "callers' tasks taken away by a new unit beside an empty bank and queue");
        self.met_if(!calls && in_use && waits, "a bank in use and a queue emptied by a new unit while no caller waits");
        self.met_if(self.plan.is_some(), "a plan dropped by a new unit");
        self.unit = Some(unit);
        self.plan = None;
        self.dropped = false;
        self.empty_port("turn: caller 1's, where a new unit set another's back");
        said("ok".to_string())
    }

    /// Empties bank and queue and the callers' queues, and sets their turn back.
    fn empty_port(&mut self, set_back: &'static str) {
        self.found = std::mem::replace(&mut self.bank, empty_bank());
        self.took_tasks = !std::mem::take(&mut self.queue).is_empty();
        self.found_callers = Some((self.callers.clone(), set_back));
        self.callers.empty();
    }

    fn ask(&mut self, unit: &mut Unit, name: &str, numbers: &[u32], file: &[u8]) -> Reply<Vec<Part>> {
        let done = || Ok(said("ok".to_string()));
        match (name, numbers) {
            ("mark" | "unmark", &[tag, segment, column]) => {
                let mark = Mark { tag, segment, column };
                let stood = unit.marks.contains(&mark);
                if name == "mark" { unit.mark(mark) } else { unit.unmark(mark) }?;
                self.meet_edit(name, stood);
                // "An accepted one drops the plan, even where the mark already stood so", and "empties the console's bank": and its queues
                self.dropped |= self.plan.is_some();
                self.plan = None;
                self.empty_port("turn: caller 1's, where an edit set another's back");
                done()
            }
            ("read", []) => self.read(unit),
            ("tick", []) => {
                self.bank.tick();
                done()
            }
            ("bank", []) => {
                self.meet_bank();
                let words: Vec<String> = self.bank.words().iter().map(|word| word.to_string()).collect();
                Ok(said(words.join(" ")))
            }
            ("list", []) => Ok(self.list(unit)),
            ("loop", tags) => self.loop_over(unit, tags),
            ("save", []) => Ok(self.write_unit(Written::Unit, file, unit)),
            ("record", &[tag]) => self.record(unit, tag, file),
            ("simulate", &[tag, units]) => self.simulate(unit, tag, units),
            ("delays", &[tag, latency]) => self.delays(unit, tag, latency, file),
            ("arrive", &[tag, ticket]) => {
                let task = Task { tag, ticket };
                self.met.extend(queue_met::arrival(unit, &self.bank, &self.queue, task));
                (self.port.arrive)(unit, &mut self.queue, task)?;
                done()
            }
            ("pass", []) => {
                self.met.extend(queue_met::pass(unit, &self.bank, &self.queue));
                self.met_if(self.before == Before::Edited && self.took_tasks, "pass: none waits after an edit");
                self.met_if(self.before == Before::Emptied && self.took_tasks, "pass: none waits after a new unit");
                self.met_if(self.before == Before::Numbered && self.took_tasks, "pass: none waits after a small table");
                let started = (self.port.pass)(unit, &mut self.bank, &mut self.queue);
                Ok(said(started.map_or("none".to_string(), |Task { tag, ticket }| format!("started {tag} {ticket}"))))
            }
            ("queue", []) => {
                self.meet_queue();
                Ok(said((self.port.list)(&self.queue)))
            }
            ("callers", &[count]) => {
                self.met.extend(callers_met::count(&self.callers, count));
                let before = self.callers.clone();
                (self.shared.count)(&mut self.callers, count)?;
                self.found_callers = Some((before, "turn: caller 1's, where a number of callers set another's back"));
                self.most_callers = self.most_callers.max(count);
                done()
            }
            ("call", &[caller, tag, ticket]) => {
                let task = Task { tag, ticket };
                self.met.extend(callers_met::call(unit, &self.bank, &self.callers, self.most_callers, caller, task));
                (self.shared.call)(unit, &mut self.callers, caller, task)?;
                done()
            }
            ("turn", []) => {
                self.meet_turn(unit);
                let started = (self.shared.turn)(unit, &mut self.bank, &mut self.callers)?;
                let told = |(caller, Task { tag, ticket })| format!("started {caller} {tag} {ticket}");
                Ok(said(started.map_or("none".to_string(), told)))
            }
            // all others have a tag first
            (_, &[tag, ref others @ ..]) => {
                unit.check_tag(tag)?;
                self.ask_of(unit, tag, name, others)
            }
            _ => unreachable!("a command with the arguments that it wants"),
        }
    }

    fn read(&mut self, unit: &Unit) -> Reply<Vec<Part>> {
        self.met_if(self.plan.is_none() && self.before == Before::Looped, "no plan after a loop");
        self.met_if(self.plan.is_none() && self.before == Before::Numbered, "no plan after a small table");
        // "8 read without a plan"
        let Plan { tag, search } = self.plan.ok_or(8u32)?;
        let drawn = self.book.drawn(unit, tag).expect("a search that was accepted");
        self.meet_plan(search);
        let (least, of) = drawn.graph.least();
        let greedy = &drawn.graph.greedy;
        self.met_if(sum_of(greedy) as i64 * of > least * greedy.len() as i64, "a plan better than greedy");
        let begin = Part::Text(format!("plan {tag} cycle "));
        Ok(vec![begin, Part::Plan(search, drawn), Part::Text("\n".to_string())])
    }

    /// Writes what has at most so many bytes, and answers whether it is written.
    fn write(&mut self, written: Written, file: &[u8], content: Content, most: usize) -> bool {
        let of_written = written as usize;
        let length = self.shelf.length(file);
        self.met.extend(self.shelf.special(file).into_iter().map(|what| what[of_written]));
        let is_written = self.shelf.save(file, &content);
        if is_written {
            self.met_if(length.is_some(), written!("over another file")[of_written]);
            self.met_if(length.is_some_and(|length| length > most as u64), written!("over a longer file")[of_written]);
            match written {
                Written::Delays => self.delayed.insert(file.to_vec()),
                Written::Unit | Written::Record => self.delayed.remove(file),
            };
        }
        is_written
    }

    fn write_unit(&mut self, written: Written, file: &[u8], unit: &Unit) -> Vec<Part> {
        let bytes = encode(unit);
        let length = bytes.len();
        told_of(self.write(written, file, Content::Bytes(bytes), length))
    }

    /// `refused 2` where the unit has no function Q; `refused 8` where there is no plan, or the plan is another function's.
    fn record(&mut self, unit: &Unit, tag: u32, file: &[u8]) -> Reply<Vec<Part>> {
        self.meet_record(unit, tag);
        unit.check_tag(tag)?;
        let Plan { search, .. } = self.plan.filter(|plan| plan.tag == tag).ok_or(8u32)?;
        let drawn = self.book.drawn(unit, tag).expect("a search that was accepted");
        let planned = Planned { search, drawn };
        let most = planned.longest_record();
        let written = self.write(Written::Record, file, Content::Record(planned), most);
        self.met_if(written && !self.shown.contains(&search), "a record of a plan that was not read before");
        self.met_if(written && number(file).is_some(), "a record to a file whose name is a number");
        Ok(told_of(written))
    }

    /// The unit with delays: its table, or where a file is named its unit file. "The session stays as it is".
    fn delays(&mut self, unit: &Unit, tag: u32, latency: u32, file: &[u8]) -> Reply<Vec<Part>> {
        self.met.extend(delays_met::special(unit, tag, latency));
        let reply = (self.delay)(unit, tag, latency);
        if file.is_empty() {
            return Ok(vec![Part::Text(table(&reply?, 1))]);
        }
        self.meet_file_of_delays(&reply, file);
        Ok(self.write_unit(Written::Delays, file, &reply?))
    }

    /// `refused 2` and `refused 8` as for a record, then `refused 6` where the chart has no room. "The session stays as it is".
    fn simulate(&mut self, unit: &Unit, tag: u32, units: u32) -> Reply<Vec<Part>> {
        self.meet_chart(unit, tag, units);
        unit.check_tag(tag)?;
        let Plan { search, .. } = self.plan.filter(|plan| plan.tag == tag).ok_or(8u32)?;
        self.meet_length(unit.segments, units);
        if charts::length(unit.segments, units) > charts::ROOM {
            return Err(charts::NO_ROOM);
        }
        let is_known = self.shown.contains(&search);
        self.met.push(if is_known { "a chart of a plan that was shown before" } else { "a chart of a plan that was not shown before" });
        self.met_if(unit.segments > 9, "a chart of 10 segments or more");
        self.met_if(unit.columns == MOST_COLUMNS, "a chart of a unit of 32 columns");
        if !is_known && units > 0 {
            self.charted.insert(search);
        }
        let drawn = self.book.drawn(unit, tag).expect("a search that was accepted");
        Ok(vec![Part::Chart(Chart { planned: Planned { search, drawn }, segments: unit.segments, units })])
    }

    /// What a reader shows of a file: `report` K and the list, `ring` S and the ring.
    fn view(&mut self, name: &str, content: Content, length: Option<u64>) -> Reply<Vec<Part>> {
        let is_report = name == "report";
        self.met_view(name, self.unit.is_none(), both!("a file before the first unit"));
        match content {
            Content::Record(planned) => {
                self.met_view(name, true, both!("a record that was written"));
                let is_known = !self.shown.insert(planned.search);
                self.met_view(name, is_known, both!("a record of a plan that was shown before"));
                self.met_view(name, !is_known, both!("a record of a plan that was not shown before"));
                let is_of_plan = self.plan.is_some_and(|plan| plan.search == planned.search);
                self.met_view(name, !is_of_plan, both!("a record of a plan that is no longer the unit's"));
                let (begin, part) = if is_report { ("count ", Part::List(planned)) } else { ("sum ", Part::Ring(planned)) };
                Ok(vec![Part::Text(begin.to_string()), part, Part::Text("\n".to_string())])
            }
            Content::Bytes(bytes) => {
                self.meet_view(name, &bytes, length);
                Ok(said(if is_report { records::report(&bytes) } else { records::ring(&bytes) }?))
            }
        }
    }

    /// A question about a function of the unit.
    fn ask_of(&mut self, unit: &Unit, tag: u32, name: &str, others: &[u32]) -> Reply<Vec<Part>> {
        let function = self.book.function(unit, tag);
        let text = match name {
            "vector" => format!("vector {}", vector_text(&function.vector)),
            "bound" => format!("bound {}", bound(&function.vector)),
            "upper" => format!("upper {}", upper(&function.vector)),
            "constant" => format!("constant {}", constant(&function.vector)),
            "row" => self.row(unit, tag, others[0])?,
            "judge" => self.judge(&function.spots, others)?,
            "start" => {
                // `rows[R − 1]` is row R of M_Q
                let yard = &mut self.book.yard;
                let rows: Vec<Vec<bool>> = (1..=unit.functions).map(|later| meetings(&function.spots, &unit.spots(later), yard)).collect();
                self.bank.start(tag, &rows)?;
                let held = self.before == Before::Edited && self.found.words()[tag as usize - 1] % 2 == 1;
                self.met_if(held, "a start granted that the bank before an edit held back");
                "ok".to_string()
            }
            "table" => {
                self.met_if(unit.segments > 9 && unit.columns > 9, "a table of 10 or more rows and columns");
                self.met_if(self.before == Before::Delayed, "a table kept by delays");
                self.met_if(self.before == Before::Totaled, "a table kept by totals of a size");
                self.met_if(self.before == Before::RefusedSmall, "a table kept by a refused small table");
                self.met_if(self.before == Before::Numbered, "a table of a small table");
                return Ok(vec![Part::Text(table(unit, tag))]);
            }
            _ => return self.ask_diagram(unit, tag, name),
        };
        Ok(said(text))
    }

    /// A question about a function's diagram. "7 more than 256 states"
    fn ask_diagram(&mut self, unit: &Unit, tag: u32, name: &str) -> Reply<Vec<Part>> {
        let drawn = self.book.drawn(unit, tag).ok_or(7u32)?;
        let states = &drawn.graph.diagram.states;
        self.met_if(states.len() == 1 && states[0].is_empty(), "a diagram with n = 0");
        self.met_if(states.len() == MOST_STATES, "a diagram of 256 states");
        let text = match name {
            "states" => {
                let words: Vec<String> = states.iter().map(|state| word_of(state).to_string()).collect();
                format!("states {}: {}", states.len(), words.join(" "))
            }
            "greedy" => format!("greedy {}", cycle_text(&drawn.graph.greedy)),
            "search" => {
                self.searches += 1;
                self.met_if(self.plan.is_some_and(|plan| plan.tag != tag), "a plan in place of another function's");
                self.plan = Some(Plan { tag, search: self.searches });
                self.dropped = false;
                "ok".to_string()
            }
            "diagram" => match self.plan {
                Some(plan) if plan.tag == tag => {
                    self.met_if(!self.shown.contains(&plan.search), "a drawing of a plan that was not read before");
                    self.meet_plan(plan.search);
                    return Ok(vec![Part::Drawing(plan.search, tag, drawn)]);
                }
                plan => {
                    self.met.push(if plan.is_none() { "a drawing without a plan" } else { "a drawing beside another function's plan" });
                    return Ok(vec![Part::Text(drawing(tag, &drawn.graph, &HashSet::new()))]);
                }
            },
            _ => unreachable!("{name} is a command"),
        };
        Ok(said(text))
    }

    /// "columns n to 1, n the largest column with a 1 in any row of M_R; `-` where there is none"
    fn row(&mut self, unit: &Unit, tag: u32, other: u32) -> Reply<String> {
        unit.check_tag(other)?;
        let yard = &mut self.book.yard;
        let earlier = unit.spots(other);
        let rows: Vec<Vec<bool>> = (1..=unit.functions).map(|later| meetings(&earlier, &unit.spots(later), yard)).collect();
        let last = |row: &Vec<bool>| row.iter().rposition(|collides| *collides).map_or(0, |place| place + 1);
        let width = rows.iter().map(last).max().unwrap_or(0);
        let row = &rows[tag as usize - 1];
        self.met_if(width == 0, "a row of no columns");
        self.met_if(width > 0 && last(row) == 0, "a row of zeros");
        self.met_if(last(row) > 0 && width > last(row), "a row as wide as another");
        Ok(format!("row {}", vector_text(&row[..width])))
    }

    /// "9 an empty list, one above 256, or a latency 0": and "a latency above 255: refused 9".
    fn judge(&mut self, spots: &[Spot], numbers: &[u32]) -> Reply<String> {
        self.met_if(numbers.is_empty(), "judge: no latency");
        self.met_if(numbers.len() == MOST_LATENCIES, "judge: 256 latencies");
        self.met_if(numbers.len() == MOST_LATENCIES + 1, "judge: 257 latencies");
        self.met_if(numbers.len() >= 2_000, "judge: 2,000 latencies or more");
        self.met_if(numbers.contains(&0), "judge: a latency 0");
        self.met_if(numbers.contains(&256), "judge: a latency 256");
        self.met_if(numbers.iter().any(|latency| *latency > 256), "judge: a latency above 256");
        let latencies: Option<Vec<u8>> = numbers.iter().map(|latency| (*latency).try_into().ok()).collect();
        let latencies = latencies.ok_or(9u32)?;
        check_cycle(&latencies)?;
        let never = never_collides(spots, &latencies, &mut self.book.yard);
        self.met_if(never && latencies.len() == MOST_LATENCIES, "judge: yes to 256 latencies");
        let only_later = !never && one_turn_never_collides(spots, &latencies, &mut self.book.yard);
        self.met_if(only_later, "judge: collides only across turns");
        Ok(if never { "yes" } else { "no" }.to_string())
    }

    fn list(&mut self, unit: &Unit) -> Vec<Part> {
        let drawn: Vec<Option<Drawn>> = (1..=unit.functions).map(|tag| self.book.drawn(unit, tag)).collect();
        self.met_if(drawn.iter().any(|drawn| drawn.is_none()), "a listing with refused 7");
        self.met_if(drawn.len() == 4, "a listing of 4 functions");
        let greedy_of = |tag: u32| {
            let graph = &drawn[tag as usize - 1].as_ref()?.graph;
            Some((graph.diagram.states.len(), graph.greedy.clone()))
        };
        let pieces = listing(&Ok(unit.clone()), &mut self.book.yard, greedy_of).into_iter();
        let best = |tag: u32| Part::Best(drawn[tag as usize - 1].clone().expect("a diagram within the limit"));
        pieces
            .map(|piece| match piece {
                Piece::Text(text) => Part::Text(text),
                Piece::Best(tag) => best(tag),
            })
            .collect()
    }

    /// "more than 256 states reached by steps give 7"; "the unit's plans don't change", nor does the bank.
    fn loop_over(&mut self, unit: &Unit, tags: &[u32]) -> Reply<Vec<Part>> {
        self.meet_tags(unit, tags);
        check_list(unit, tags)?;
        let list = self.book.list(unit, tags);
        self.met.extend(&list.met);
        let loops = list.loops.clone().ok_or(7u32)?;
        Ok(vec![Part::Text("loop cycle ".to_string()), Part::Loop(loops), Part::Text("\n".to_string())])
    }

    // -----------------------------------------------------------------------------------------------------------------------------
    // Special cases

    fn met_if(&mut self, holds: bool, what: &'static str) {
        if holds {
            self.met.push(what);
        }
    }

    fn meet_line(&mut self, line: &[u8]) {
        let has = |byte: u8| line.contains(&byte);
        let whole = line.len();
        self.met_if(whole == 4_095, "a line of 4,095 bytes");
        self.met_if(whole == 4_096, "a line of 4,096 bytes");
        self.met_if(whole == 4_097, "a line of 4,097 bytes");
        self.met_if(whole == 4_098, "a line of 4,098 bytes");
        self.met_if(whole == 100_000, "a line of 100,000 bytes");
        self.met_if(has(0), "a line with a NUL");
        self.met_if(line.iter().any(|byte| *byte > 127), "a line with a byte above 127");
        self.met_if(has(11) || has(12), "a line with a vertical tab or a form feed");
        let returned = line.ends_with(b"\r");
        self.met_if(returned && whole == 4_095, "a line of 4,095 bytes, the last one a carriage return");
        self.met_if(returned && whole == 4_096, "a line of 4,096 bytes, the last one a carriage return");
        self.met_if(returned && whole == 4_097, "a line of 4,097 bytes, the last one a carriage return");
        self.met_if(returned && whole == 4_098, "a line of 4,098 bytes, the last one a carriage return");
        self.met_if(whole > 4_097 && line[4_096] == b'\r', "a longer line whose 4,097th byte is a carriage return");
        let words = words_of(line);
        let Some(first) = words.first() else { return self.meet_no_words(line) };
        let after_blanks = is_blank(line[0]);
        let is_comment = first.starts_with(b"#");
        if whole > LONGEST_LINE {
            self.met_if(is_comment && !after_blanks, "a comment that is too long");
            self.met_if(is_comment && after_blanks, "a comment after blanks that is too long");
        } else if is_comment {
            self.met_if(line[0] == b' ', "a comment after a space");
            self.met_if(line[0] == b'\t', "a comment after a tab");
            self.met_if(returned, "a comment with a carriage return at its end");
        } else {
            self.meet_returns(line, first);
        }
        if is_name(first) {
            self.meet_command(line, &words);
        } else {
            self.met_if(is_name(&first.to_ascii_lowercase()), "a command in upper case");
        }
    }

    fn meet_no_words(&mut self, line: &[u8]) {
        let blanks = without_return(line);
        self.met_if(line.len() > LONGEST_LINE, "blanks alone that are too long");
        self.met_if(line.len() == LONGEST_LINE, "blanks alone of 4,096 bytes");
        if line.len() < LONGEST_LINE {
            let (space, tab) = (line.contains(&b' '), line.contains(&b'\t'));
            self.met_if(blanks == line && space && !tab, "spaces alone");
            self.met_if(blanks == line && tab && !space, "tabs alone");
            self.met_if(blanks == line && space && tab, "spaces and tabs alone");
            self.met_if(blanks != line && blanks.is_empty(), "a carriage return alone");
            self.met_if(blanks != line && !blanks.is_empty(), "blanks and a carriage return alone");
        }
    }

    /// Carriage returns that are bytes of a word.
    fn meet_returns(&mut self, line: &[u8], first: &[u8]) {
        let inside = without_return(line);
        self.met_if(inside != line && inside.ends_with(b"\r"), "two carriage returns at the end");
        self.met_if(inside.windows(2).any(|pair| pair[0] == b'\r' && is_blank(pair[1])), "a carriage return with a blank after it");
        let within = |three: &[u8]| three[1] == b'\r' && !is_blank(three[0]) && !is_blank(three[2]);
        self.met_if(inside.windows(3).any(within), "a carriage return within a word");
        if let Some(rest) = first.strip_prefix(b"\r") {
            self.met_if(is_name(rest), "a command after a carriage return");
            self.met_if(rest.starts_with(b"#"), "a comment after a carriage return, which is none");
        }
    }

    /// A line whose first word is a command's name, with its words.
    fn meet_command(&mut self, line: &[u8], words: &[&[u8]]) {
        let whole = line.len();
        let blanks = line.iter().filter(|byte| is_blank(**byte)).count();
        let filled = 2 * blanks > whole;
        self.met_if(filled && whole == 4_095, "a command made 4,095 bytes long by blanks");
        self.met_if(filled && whole == 4_096, "a command made 4,096 bytes long by blanks");
        self.met_if(filled && whole == 4_097, "a command made 4,097 bytes long by blanks");
        self.met_if(filled && whole == 4_098, "a command made 4,098 bytes long by blanks");
        if whole > LONGEST_LINE {
            return;
        }
        let inside = without_return(line);
        let returned = inside != line;
        let last = inside.last().copied().unwrap_or(0);
        self.met_if(whole == 4_096 && words.len() > 1, "a command of 4,096 bytes");
        self.met_if(line[0] == b' ', "a command with a space in front");
        self.met_if(line[0] == b'\t', "a command with a tab in front");
        self.met_if(last == b' ', "a command with a space at its end");
        self.met_if(last == b'\t', "a command with a tab at its end");
        self.met_if(returned && !is_blank(last), "a command with a carriage return at its end");
        self.met_if(returned && is_blank(last), "a command with a blank and a carriage return at its end");
        // from the first word to the last
        let begin = inside.iter().position(|byte| !is_blank(*byte)).unwrap_or(0);
        let end = inside.iter().rposition(|byte| !is_blank(*byte)).unwrap_or(0) + 1;
        let between = &inside[begin..end];
        let beside = |one: u8, two: u8| between.windows(2).any(|pair| pair == [one, two]);
        self.met_if(between.contains(&b'\t'), "a command with a tab between words");
        self.met_if(beside(b' ', b' '), "a command with two spaces side by side");
        self.met_if(beside(b'\t', b'\t'), "a command with two tabs side by side");
        self.met_if(beside(b' ', b'\t') || beside(b'\t', b' '), "a command with a space and a tab side by side");
        let zeros = words[1..].iter().any(|word| word.len() > 1 && word[0] == b'0' && number(word).is_some_and(|number| number > 0));
        self.met_if(zeros, "a number with zeros in front");
        let large = |word: &&[u8]| word.len() > 9 && word.iter().all(|byte| byte.is_ascii_digit()) && number(word).is_none();
        self.met_if(words[1..].iter().any(large), "a number above 4294967295");
        self.met_if(words[1..].iter().any(|word| number(word) == Some(u32::MAX)), "a number 4294967295");
        let and_return = |word: &&[u8]| word.strip_suffix(b"\r").is_some_and(|digits| number(digits).is_some());
        self.met_if(words[1..].iter().any(and_return), "a number with a carriage return in its word");
        let later = words.get(257..).unwrap_or(&[]);
        self.met_if(words[0] == b"loop" && later.iter().any(|word| number(word).is_none()), "loop: no number after 256 tags");
        if let [b"load" | b"save" | b"report" | b"ring", file] | [b"record", _, file] | [b"delays", _, _, file] = words {
            let least = words.iter().map(|word| word.len() + 1).sum::<usize>() - 1;
            self.met_if(returned && !is_blank(last), "a file's name with a carriage return after it");
            self.met_if(file.contains(&b'\r'), "a file's name with a carriage return in it");
            self.met_if(between.len() > least && is_blank(last), "a file's name with blanks around it");
            self.met_if(number(file).is_some(), "a file's name that is a number");
        }
        if let [b"record", first, file] = words {
            self.met_if(number(first).is_none() && number(file).is_some(), "a record with its number after the file");
            self.met_if(number(first).is_some() && large(file), "a record to a file whose name is a number above 4294967295");
        }
        if let [b"simulate", tag, units] = words {
            self.met_if(number(tag).is_some() && large(units), "a chart of more than 4294967295 units");
        }
        let are_numbers = words[1..].iter().all(|word| number(word).is_some());
        match words {
            [b"arrive", _] => self.met_if(are_numbers, "arrive: no ticket"),
            [b"arrive", tag, ticket] => self.met_if(number(tag).is_some() && large(ticket), "arrive: a ticket above 4294967295"),
            [b"arrive", _, _, _] => self.met_if(are_numbers, "arrive: a number too many"),
            [b"pass", _] => self.met_if(are_numbers, "pass: a number after it"),
            [b"queue", _] => self.met_if(are_numbers, "queue: a number after it"),
            [b"callers"] => self.met.push("callers: no number"),
            [b"callers", count] => self.met_if(large(count), "callers: a number above 4294967295"),
            [b"callers", _, _] => self.met_if(are_numbers, "callers: a number too many"),
            [b"call", _, _] => self.met_if(are_numbers, "call: no ticket"),
            [b"call", caller, tag, ticket] => {
                let [caller_is, tag_is, ticket_is] = [caller, tag, ticket].map(|word| number(word).is_some());
                self.met_if(caller_is && tag_is && large(ticket), "call: a ticket above 4294967295");
                self.met_if(caller_is && ticket_is && large(tag), "call: a tag above 4294967295");
                self.met_if(tag_is && ticket_is && large(caller), "call: a caller above 4294967295");
            }
            [b"call", _, _, _, _] => self.met_if(are_numbers, "call: a number too many"),
            [b"turn", _] => self.met_if(are_numbers, "turn: a number after it"),
            [b"small"] => self.met.push("small: no number"),
            [b"small", _] => self.met_if(are_numbers, "small: one number"),
            [b"small", segments, columns, rest @ ..] => {
                let [segments_are, columns_are] = [segments, columns].map(|word| number(word).is_some());
                self.met_if(large(segments) && columns_are && rest.is_empty(), "small: segments above 4294967295");
                self.met_if(segments_are && large(columns) && rest.is_empty(), "small: columns above 4294967295");
                self.met_if(are_numbers && rest.len() > 1, "small: a number too many");
                if let (true, [last]) = (segments_are && columns_are, rest) {
                    self.met_if(large(last), "small: a number above 4294967295");
                    self.met_if(number(last).is_none() && !large(last), "small: two numbers, and a word that is none");
                }
            }
            _ => {}
        }
        if let [b"delays", tag, latency, rest @ ..] = words {
            let is_function = number(tag).is_some();
            self.met_if(is_function && large(latency), "delays: M above 4294967295");
            self.met_if(is_function && rest.is_empty() && number(latency).is_none(), "delays: a file in place of M");
            let is_asked = is_function && number(latency).is_some();
            self.met_if(is_asked && rest.len() > 1, "delays: words after the file");
            self.met_if(is_asked && rest.len() == 1 && large(&rest[0]), "delays: a file whose name is a number above 4294967295");
        }
    }

    fn meet_edit(&mut self, name: &str, stood: bool) {
        let (is_mark, in_use, waits) = (name == "mark", self.bank != empty_bank(), !self.queue.is_empty());
        let calls = self.callers.waiting() > 0;
        self.met_if(is_mark && stood, "a mark that stood");
        self.met_if(!is_mark && !stood, "an unmark of no mark");
        let [bank, queue, tasks] = match (is_mark, stood) {
            (true, false) => taken!("a mark"),
            (true, true) => taken!("a mark that stood"),
            (false, true) => taken!("an unmark"),
            (false, false) => taken!("an unmark of no mark"),
        };
        self.met_if(in_use, bank);
        self.met_if(waits, queue);
        self.met_if(calls, tasks);
        self.met_if(calls && !in_use && !waits, "callers' tasks taken away by an edit beside an empty bank and queue");
        self.met_if(!calls && in_use && waits, "a bank in use and a queue emptied by an edit while no caller waits");
        self.met_if(waits && !in_use, "a queue emptied by an edit beside an empty bank");
        self.met_if(!waits && in_use, "a bank in use emptied by an edit beside an empty queue");
    }

    /// The tags of a loop, good ones and bad ones.
    fn meet_tags(&mut self, unit: &Unit, tags: &[u32]) {
        let good = |tag: &u32| unit.check_tag(*tag).is_ok();
        let count = tags.len();
        self.met_if(count == 0, "loop: no tag");
        self.met_if(count == 9, "loop: 9 tags");
        self.met_if((257..=264).contains(&count), "loop: 257 to 264 tags");
        self.met_if(count >= 2_000, "loop: 2,000 tags or more");
        self.met_if(count > MOST_TAGS && !tags.iter().all(good), "loop: refused by 17 and not by 2");
        if (1..=MOST_TAGS).contains(&count) {
            self.met_if(tags.contains(&0), "loop: a tag 0");
            self.met_if(tags.contains(&(unit.functions + 1)), "loop: a tag after the last");
            self.met_if(tags.iter().any(|tag| *tag > 255 && good(&(tag % 256))), "loop: a tag that would do without its higher bytes");
            let first_bad = tags.iter().position(|tag| !good(tag));
            self.met_if(first_bad == Some(count - 1) && count > 1, "loop: a bad tag after good ones");
            self.met_if(first_bad == Some(0) && count > 1, "loop: a bad tag before others");
        }
    }

    /// A record that is asked for, good or bad.
    fn meet_record(&mut self, unit: &Unit, tag: u32) {
        let good = unit.check_tag(tag).is_ok();
        let plan = self.plan.map(|plan| plan.tag);
        self.met_if(good && plan.is_none(), "a record without a plan");
        self.met_if(good && plan.is_none() && self.dropped, "a record after an edit dropped the plan");
        self.met_if(good && plan.is_some_and(|other| other != tag), "a record of a function beside another one's plan");
        self.met_if(!good && plan.is_none(), "a record refused by 2 and not by 8");
        self.met_if(!good && plan.is_some(), "a record refused by 2 beside a plan");
        self.met_if(tag == 0, "a record of a tag 0");
        self.met_if(tag == unit.functions + 1, "a record of a tag after the last");
        self.met_if(tag > 255 && plan == Some(tag % 256), "a record of a tag that would do without its higher bytes");
    }

    /// A chart that is asked for, good or bad.
    fn meet_chart(&mut self, unit: &Unit, tag: u32, units: u32) {
        let good = unit.check_tag(tag).is_ok();
        let plan = self.plan.map(|plan| plan.tag);
        let no_room = charts::length(unit.segments, units) > charts::ROOM;
        self.met_if(good && plan.is_none(), "a chart without a plan");
        self.met_if(good && plan.is_none() && self.dropped, "a chart after an edit dropped the plan");
        self.met_if(good && plan.is_some_and(|other| other != tag), "a chart of a function beside another one's plan");
        self.met_if(good && plan != Some(tag) && no_room, "a chart refused by 8 and not by 6");
        self.met_if(!good && plan.is_none(), "a chart refused by 2 and not by 8");
        self.met_if(!good && plan.is_some(), "a chart refused by 2 beside a plan");
        self.met_if(!good && no_room, "a chart refused by 2 and not by 6");
        self.met_if(tag == 0, "a chart of a tag 0");
        self.met_if(tag == unit.functions + 1, "a chart of a tag after the last");
        self.met_if(tag > 255 && plan == Some(tag % 256), "a chart of a tag that would do without its higher bytes");
    }

    /// How long the chart of a plan is to be, with room or without.
    fn meet_length(&mut self, segments: u32, units: u32) {
        let length = charts::length(segments, units);
        let (has_room, most) = (length <= charts::ROOM, charts::most_units(segments));
        self.met_if(units == 0, "a chart of no units");
        self.met_if(units == 1, "a chart of one unit");
        self.met_if([9, 99, 999].contains(&units), "a chart whose units have a digit less than one unit more");
        self.met_if([10, 100, 1_000].contains(&units), "a chart whose units have a digit more than one unit less");
        self.met_if(units == 8_192 && has_room, "a chart of 8,192 units");
        self.met_if(units > 8_192 && has_room, "a chart of more than 8,192 units");
        self.met_if(length == charts::ROOM, "a chart of 147,858 bytes");
        self.met_if(units == most, "the longest chart with room");
        self.met_if(units == most + 1, "the shortest chart without room");
        self.met_if(units == u32::MAX, "a chart of 4294967295 units");
        self.met_if(units > 65_535 && charts::length(segments, units % 65_536) <= charts::ROOM, "a chart whose units have room in 16 bits");
        self.met_if(!has_room && length % (1 << 32) <= charts::ROOM, "a chart whose length has room in 32 bits");
    }

    /// A file that is named beside delays.
    fn meet_file_of_delays(&mut self, reply: &Reply<Unit>, file: &[u8]) {
        match reply {
            Ok(_) => self.met_if(number(file).is_some(), "delays: a file whose name is a number"),
            Err(2) => self.met.push("delays: refused by 2, with a file"),
            Err(delays::TWO_MARKS) => self.met.push("delays: refused by 19, with a file"),
            Err(delays::NO_LATENCY) => self.met.push("delays: refused by 20, with a file"),
            Err(_) => self.met.push("delays: refused by 21, with a file"),
        }
    }

    fn met_view(&mut self, name: &str, holds: bool, what: [&'static str; 2]) {
        self.met_if(holds, what[(name == "ring") as usize]);
    }

    /// The bytes that a reader finds, and how many there are where that is known.
    fn meet_view(&mut self, name: &str, bytes: &[u8], length: Option<u64>) {
        self.met_view(name, bytes.is_empty(), both!("an empty file"));
        self.met_view(name, length == Some(LONGEST_RECORD as u64 + 1), both!("a file of 1,289 bytes"));
        self.met_view(name, length == Some(4_096), both!("a file of 4,096 bytes"));
        self.met_view(name, length == Some(70_000), both!("a file of 70,000 bytes"));
        self.met_view(name, length.is_some_and(|length| length >= 1 << 32), both!("a file longer than 2^32 bytes"));
        self.met_view(name, decode(bytes).is_ok(), both!("a unit file"));
        let wrongs = records::wrongs(bytes);
        let field = |place: usize| records::field(bytes, place);
        match wrongs[..] {
            [] => {
                let (count, sum) = (field(0), field(1));
                self.met_view(name, count == 1, both!("K of 1"));
                self.met_view(name, count == 256, both!("K of 256"));
                self.met_view(name, sum == 8_192, both!("S of 8,192"));
                self.met_view(name, sum % 8 == 0, both!("S a multiple of 8"));
                self.met_view(name, sum % 8 > 0, both!("S no multiple of 8"));
                self.met_view(name, length == Some(LONGEST_RECORD as u64), both!("a record of 1,288 bytes"));
            }
            // refused for this alone
            [Wrong::Short] => self.met_view(name, true, both!("15 for fewer than 8 bytes")),
            [Wrong::Count] => {
                self.met_view(name, field(0) == 0, both!("15 for K of 0"));
                self.met_view(name, field(0) == 257, both!("15 for K of 257"));
            }
            [Wrong::ListOffset] => self.met_view(name, true, both!("15 for the offset of the list")),
            [Wrong::RingOffset] => self.met_view(name, true, both!("15 for the offset of the ring")),
            [Wrong::TooFew] => {
                let need = records::LIST + field(0) + field(1).div_ceil(8);
                self.met_view(name, bytes.len() + 1 == need, both!("15 for one byte cut off"));
                self.met_view(name, bytes.len() + 1 < need, both!("15 for more bytes cut off"));
            }
            [Wrong::TooMany] => {
                let need = records::LIST + field(0) + field(1).div_ceil(8);
                let length = length.map(|length| length - need as u64);
                self.met_view(name, length == Some(1), both!("15 for a byte after the end"));
                self.met_view(name, length == Some(256), both!("15 for 256 bytes after the end"));
                self.met_view(name, length == Some(65_536), both!("15 for 65,536 bytes after the end"));
            }
            [Wrong::Latency] => {
                let list = &bytes[records::LIST..records::LIST + field(0)];
                self.met_view(name, list.contains(&0), both!("15 for a latency 0"));
                self.met_view(name, list.contains(&33), both!("15 for a latency 33"));
            }
            [Wrong::Sum] => self.met_view(name, true, both!("15 for the sum")),
            [Wrong::RingBit] => self.met_view(name, true, both!("15 for the ring")),
            [Wrong::SpareBit] => self.met_view(name, true, both!("15 for a spare bit")),
            _ => self.met_view(name, true, both!("15 for several things")),
        }
    }

    fn what_was_done(&mut self, name: &str, said: &str, before: Before) -> Before {
        match (name, said) {
            ("fresh", "ok") => Before::Emptied,
            ("load", "ok") => Before::Emptied,
            ("fresh", "expected") | ("load", "expected") => Before::Bad,
            ("fresh", _) => Before::RefusedFresh,
            ("load", "no file") => Before::NoFile,
            ("load", _) => Before::RefusedLoad,
            ("mark" | "unmark", "ok") => Before::Edited,
            ("mark" | "unmark", "refused 2" | "refused 3" | "refused 4") => Before::RefusedEdit,
            ("search", "ok") => Before::Searched,
            ("search", "refused 2" | "refused 7") => Before::RefusedSearch,
            ("loop", "ok") => Before::Looped,
            ("loop", "refused 2" | "refused 7" | "refused 17") => Before::RefusedLoop,
            ("record", "ok") => Before::Recorded,
            ("record", "refused 2" | "refused 8") => Before::RefusedRecord,
            ("record", "not written") => Before::NotWritten,
            ("report" | "ring", "ok") => Before::Shown,
            ("report" | "ring", "refused 15" | "no file") => Before::NotShown,
            ("simulate", "ok") => Before::Charted,
            ("simulate", "refused 2" | "refused 6" | "refused 8") => Before::RefusedChart,
            ("delays", "ok") => Before::Delayed,
            ("delays", "refused 2" | "refused 19" | "refused 20" | "refused 21") => Before::RefusedDelays,
            ("delays", "not written") => Before::DelaysNotWritten,
            ("save", "ok") => Before::Saved,
            ("save", "not written") => Before::NotSaved,
            ("tick", "ok") => Before::Ticked,
            ("start", "ok") => Before::Started,
            ("start", "refused 2" | "refused 10") => Before::RefusedStart,
            ("arrive", "ok") => Before::Arrived,
            ("arrive", "refused 2" | "refused 14") => Before::RefusedArrival,
            ("pass", "started" | "none") => Before::Passed,
            ("callers", "ok") => Before::Counted,
            ("callers", "refused 18") => Before::RefusedCount,
            ("call", "ok") => Before::Called,
            ("call", "refused 2" | "refused 14" | "refused 18") => Before::RefusedCall,
            ("turn", "started" | "none") => Before::Turned,
            ("turn", "refused 18") => Before::RefusedTurn,
            ("small", "tables") => Before::Totaled,
            ("small", "ok") => Before::Numbered,
            ("small", "refused 22") => Before::RefusedSmall,
            // what only looks leaves what was done before in place
            ("read" | "bank" | "queue" | "diagram" | "vector" | "bound" | "upper" | "constant" | "row" | "list" | "table", _) => before,
            (_, "expected") => Before::Bad,
            _ => Before::Other,
        }
    }

    /// What the line before left as it was: the plan, the bank in use, the tasks that wait and the callers' tasks that do.
    fn kept(&self) -> [&'static str; 4] {
        let (in_use, queue, tasks) = ("a bank in use", "a queue", "callers' tasks");
        match self.before {
            Before::RefusedFresh => kept!("a refused fresh"),
            Before::RefusedLoad => kept!("a refused load"),
            Before::NoFile => kept!("a load of no file"),
            Before::RefusedEdit => kept!("a refused edit"),
            Before::Searched => ["a plan", "a bank kept by a search", "a queue kept by a search", "callers' tasks kept by a search"],
            Before::RefusedSearch => kept!("a refused search"),
            Before::Looped => kept!("a loop"),
            Before::RefusedLoop => kept!("a refused loop"),
            Before::Recorded => kept!("a record"),
            Before::RefusedRecord => kept!("a refused record"),
            Before::NotWritten => kept!("a record that was not written"),
            Before::Shown => kept!("a record that is shown"),
            Before::NotShown => kept!("a file that is no record"),
            Before::Charted => kept!("a chart"),
            Before::RefusedChart => kept!("a refused chart"),
            Before::Delayed => kept!("delays"),
            Before::RefusedDelays => kept!("refused delays"),
            Before::DelaysNotWritten => kept!("delays that were not written"),
            Before::Saved => kept!("a save"),
            Before::NotSaved => kept!("a save that was not written"),
            Before::Ticked => ["a plan kept by a tick", in_use, "a queue kept by a tick", "callers' tasks kept by a tick"],
            Before::Started => ["a plan kept by a start", in_use, "a queue kept by a start", "callers' tasks kept by a start"],
            Before::RefusedStart => kept!("a refused start"),
            Before::Arrived => ["a plan kept by an arrival", "a bank kept by an arrival", queue, "callers' tasks kept by an arrival"],
            Before::RefusedArrival => kept!("a refused arrival"),
            Before::Passed => ["a plan kept by a pass", in_use, queue, "callers' tasks kept by a pass"],
            Before::Counted => {
                ["a plan kept by a number of callers", "a bank kept by a number of callers", "a queue kept by a number of callers", tasks]
            }
            Before::RefusedCount => kept!("a refused number of callers"),
            Before::Called => ["a plan kept by a call", "a bank kept by a call", "a queue kept by a call", tasks],
            Before::RefusedCall => kept!("a refused call"),
            Before::Turned => ["a plan kept by a turn", in_use, "a queue kept by a turn", tasks],
            Before::RefusedTurn => {
                ["a plan kept by a refused turn", "a bank kept by a refused turn", "a queue kept by a refused turn", tasks]
            }
            Before::Totaled => kept!("totals of a size"),
            Before::RefusedSmall => kept!("a refused small table"),
            Before::Bad => kept!("a line that is no command"),
            Before::Emptied | Before::Edited | Before::Numbered | Before::Other => ["a plan", in_use, queue, tasks],
        }
    }

    fn meet_plan(&mut self, search: usize) {
        let [kept, ..] = self.kept();
        self.met.push(kept);
        let is_known = !self.shown.insert(search);
        self.met_if(is_known, "a plan shown again");
        self.met_if(!is_known && self.charted.contains(&search), "a plan shown after its chart");
    }

    fn meet_bank(&mut self) {
        if self.bank == empty_bank() {
            self.met_if(self.before == Before::Emptied, "a bank emptied");
            self.met_if(self.before == Before::Edited && self.found != empty_bank(), "a bank emptied by an edit");
            self.met_if(self.before == Before::Numbered && self.found != empty_bank(), "a bank emptied by a small table");
            return;
        }
        let [_, kept, ..] = self.kept();
        self.met.push(kept);
    }

    fn meet_queue(&mut self) {
        self.met.extend(queue_met::list(&self.queue));
        if self.queue.is_empty() {
            self.met_if(self.before == Before::Emptied && self.took_tasks, "queue: none after a new unit");
            self.met_if(self.before == Before::Numbered && self.took_tasks, "queue: none after a small table");
            self.met_if(self.before == Before::Edited && self.took_tasks, "queue: none after an edit");
            return;
        }
        let [_, _, kept, _] = self.kept();
        self.met.push(kept);
    }

    /// A time unit at the callers' port.
    fn meet_turn(&mut self, unit: &Unit) {
        self.met.extend(callers_met::turn(unit, &self.bank, &self.callers, &self.queue));
        if self.callers.waiting() == 0 {
            let took_tasks = self.found_callers.as_ref().is_some_and(|(found, _)| found.waiting() > 0);
            self.met_if(self.before == Before::Edited && took_tasks, "turn: nobody waits after an edit");
            self.met_if(self.before == Before::Emptied && took_tasks, "turn: nobody waits after a new unit");
            self.met_if(self.before == Before::Numbered && took_tasks, "turn: nobody waits after a small table");
            self.met_if(self.before == Before::Counted && took_tasks, "turn: nobody waits after a number of callers");
            return;
        }
        if let Some((Callers { turn, .. }, set_back)) = self.found_callers.take() {
            // the one whose turn it was has work again
            let both_wait = turn > 1 && self.callers.is_caller(turn) && self.callers.has_work(turn) && self.callers.has_work(1);
            self.met_if(both_wait, set_back);
        }
        let [.., kept] = self.kept();
        self.met.push(kept);
    }
}

/// The special cases that a run must have met.
pub const WANTED: &[&str] = &[
    "a line of 4,095 bytes",
    "a line of 4,096 bytes",
    "a line of 4,097 bytes",
    "a line of 4,098 bytes",
    "a line of 100,000 bytes",
    "a line of 4,095 bytes, the last one a carriage return",
    "a line of 4,096 bytes, the last one a carriage return",
    "a line of 4,097 bytes, the last one a carriage return",
    "a line of 4,098 bytes, the last one a carriage return",
    "a longer line whose 4,097th byte is a carriage return",
    "a command of 4,096 bytes",
    "a command made 4,095 bytes long by blanks",
    "a command made 4,096 bytes long by blanks",
    "a command made 4,097 bytes long by blanks",
    "a command made 4,098 bytes long by blanks",
    "a line with a NUL",
    "a line with a byte above 127",
    "a line with a vertical tab or a form feed",
    "spaces alone",
    "tabs alone",
    "spaces and tabs alone",
    "blanks alone of 4,096 bytes",
    "blanks alone that are too long",
    "a carriage return alone",
    "blanks and a carriage return alone",
    "a comment that is too long",
    "a comment after blanks that is too long",
    "a comment after a space",
    "a comment after a tab",
    "a comment with a carriage return at its end",
    "a comment after a carriage return, which is none",
    "a command after a carriage return",
    "a carriage return within a word",
    "a carriage return with a blank after it",
    "two carriage returns at the end",
    "a command with a space in front",
    "a command with a tab in front",
    "a command with a space at its end",
    "a command with a tab at its end",
    "a command with a carriage return at its end",
    "a command with a blank and a carriage return at its end",
    "a command with a tab between words",
    "a command with two spaces side by side",
    "a command with two tabs side by side",
    "a command with a space and a tab side by side",
    "a command in upper case",
    "a number with a carriage return in its word",
    "a number with zeros in front",
    "a number above 4294967295",
    "a number 4294967295",
    "a file's name with a carriage return after it",
    "a file's name with a carriage return in it",
    "a file's name with blanks around it",
    "a file's name that is a number",
    "a last line without a newline",
    "a last line without a newline, its last byte a carriage return",
    "a last line without a newline, its last byte a blank",
    "a script of lines that all end in a carriage return",
    "a mark that stood",
    "an unmark of no mark",
    "a save over another file",
    "a save over a longer file",
    "a save to a link to a file",
    "a save to a link to something else",
    "a save to a name without room for `.part`",
    "a save where a file has its name with `.part`",
    "a plan",
    "a plan shown again",
    "a plan shown after its chart",
    "a plan better than greedy",
    "a plan in place of another function's",
    "a plan dropped by a new unit",
    "a plan dropped by a small table",
    "no plan after a small table",
    "a plan kept by a refused fresh",
    "a plan kept by a refused load",
    "a plan kept by a load of no file",
    "a plan kept by a refused edit",
    "a plan kept by a refused search",
    "a plan kept by a loop",
    "a plan kept by a refused loop",
    "a plan kept by a record",
    "a plan kept by a refused record",
    "a plan kept by a record that was not written",
    "a plan kept by a record that is shown",
    "a plan kept by a file that is no record",
    "a plan kept by a chart",
    "a plan kept by a refused chart",
    "a plan kept by delays",
    "a plan kept by refused delays",
    "a plan kept by delays that were not written",
    "a plan kept by a save",
    "a plan kept by a save that was not written",
    "a plan kept by a tick",
    "a plan kept by a start",
    "a plan kept by a refused start",
    "a plan kept by an arrival",
    "a plan kept by a refused arrival",
    "a plan kept by a pass",
    "a plan kept by a number of callers",
    "a plan kept by a refused number of callers",
    "a plan kept by a call",
    "a plan kept by a refused call",
    "a plan kept by a turn",
    "a plan kept by a refused turn",
    "a plan kept by totals of a size",
    "a plan kept by a refused small table",
    "a plan kept by a line that is no command",
    "a plan with a sum above 255",
    "a plan of two or more latencies",
    "a drawing of a plan that was not read before",
    "a drawing without a plan",
    "a drawing beside another function's plan",
    "a diagram with n = 0",
    "a diagram of 256 states",
    "a listing with refused 7",
    "a listing of 4 functions",
    "a table of 10 or more rows and columns",
    "a row of no columns",
    "a row of zeros",
    "a row as wide as another",
    "judge: no latency",
    "judge: 256 latencies",
    "judge: 257 latencies",
    "judge: 2,000 latencies or more",
    "judge: a latency 0",
    "judge: a latency 256",
    "judge: a latency above 256",
    "judge: yes to 256 latencies",
    "judge: collides only across turns",
    "loop: no tag",
    "loop: 8 tags",
    "loop: 9 tags",
    "loop: 257 to 264 tags",
    "loop: 2,000 tags or more",
    "loop: no number after 256 tags",
    "loop: refused by 17 and not by 2",
    "loop: a tag 0",
    "loop: a tag after the last",
    "loop: a tag that would do without its higher bytes",
    "loop: a bad tag after good ones",
    "loop: a bad tag before others",
    "loop: a list that is a shorter one again",
    "loop: a function that the list does not name",
    "loop: no latency collides",
    "loop: 250 states or more",
    "loop: 256 states",
    "loop: 256 states of two or more tags",
    "loop: 256 states, a function not named",
    "loop: 257 states",
    "loop: 257 states of two or more tags",
    "loop: refused by 7 for registers of a function not named",
    "loop: refused by 7 for latencies of a function not named",
    "loop: better than greedy",
    "loop: more than one turn of the list",
    "loop: 10 turns of the list or more",
    "loop: 65 latencies or more",
    "loop: a sum above 255",
    "loop: a latency 32",
    "a load of a record",
    "a load of a record that was written",
    "a save over a record that was written",
    "a save over a unit file",
    "a record without a plan",
    "a record after an edit dropped the plan",
    "a record of a function beside another one's plan",
    "a record refused by 2 and not by 8",
    "a record refused by 2 beside a plan",
    "a record of a tag 0",
    "a record of a tag after the last",
    "a record of a tag that would do without its higher bytes",
    "a record of a plan that was not read before",
    "a record to a file whose name is a number",
    "a record to a file whose name is a number above 4294967295",
    "a record with its number after the file",
    "a record over another file",
    "a record over a longer file",
    "a record over a unit file",
    "a record over a record that was written",
    "a record to a link to a file",
    "a record to a link to something else",
    "a record to a name without room for `.part`",
    "a record where a file has its name with `.part`",
    "a record found: one latency",
    "a record found: two or more latencies",
    "a record found: 40 latencies or more",
    "a record found: a latency 32",
    "a record found: a sum above 255",
    "a record found: a sum that is a multiple of 8",
    "a record found: a sum that is no multiple of 8",
    "a record found: of a plan that was never shown",
    "report: a file before the first unit",
    "ring: a file before the first unit",
    "report: no file before the first unit",
    "ring: no file before the first unit",
    "report: a record that was written",
    "ring: a record that was written",
    "report: a record of a plan that was shown before",
    "ring: a record of a plan that was shown before",
    "report: a record of a plan that was not shown before",
    "ring: a record of a plan that was not shown before",
    "report: a record of a plan that is no longer the unit's",
    "ring: a record of a plan that is no longer the unit's",
    "report: an empty file",
    "ring: an empty file",
    "report: a file of 1,289 bytes",
    "ring: a file of 1,289 bytes",
    "report: a file of 4,096 bytes",
    "ring: a file of 4,096 bytes",
    "report: a file of 70,000 bytes",
    "ring: a file of 70,000 bytes",
    "report: a file longer than 2^32 bytes",
    "ring: a file longer than 2^32 bytes",
    "report: a unit file",
    "ring: a unit file",
    "report: K of 1",
    "ring: K of 1",
    "report: K of 256",
    "ring: K of 256",
    "report: S of 8,192",
    "ring: S of 8,192",
    "report: S a multiple of 8",
    "ring: S a multiple of 8",
    "report: S no multiple of 8",
    "ring: S no multiple of 8",
    "report: a record of 1,288 bytes",
    "ring: a record of 1,288 bytes",
    "report: 15 for fewer than 8 bytes",
    "ring: 15 for fewer than 8 bytes",
    "report: 15 for K of 0",
    "ring: 15 for K of 0",
    "report: 15 for K of 257",
    "ring: 15 for K of 257",
    "report: 15 for the offset of the list",
    "ring: 15 for the offset of the list",
    "report: 15 for the offset of the ring",
    "ring: 15 for the offset of the ring",
    "report: 15 for one byte cut off",
    "ring: 15 for one byte cut off",
    "report: 15 for more bytes cut off",
    "ring: 15 for more bytes cut off",
    "report: 15 for a byte after the end",
    "ring: 15 for a byte after the end",
    "report: 15 for 256 bytes after the end",
    "ring: 15 for 256 bytes after the end",
    "report: 15 for 65,536 bytes after the end",
    "ring: 15 for 65,536 bytes after the end",
    "report: 15 for a latency 0",
    "ring: 15 for a latency 0",
    "report: 15 for a latency 33",
    "ring: 15 for a latency 33",
    "report: 15 for the sum",
    "ring: 15 for the sum",
    "report: 15 for the ring",
    "ring: 15 for the ring",
    "report: 15 for a spare bit",
    "ring: 15 for a spare bit",
    "report: 15 for several things",
    "ring: 15 for several things",
    "a chart without a plan",
    "a chart after an edit dropped the plan",
    "a chart of a function beside another one's plan",
    "a chart refused by 2 and not by 6",
    "a chart refused by 2 and not by 8",
    "a chart refused by 2 beside a plan",
    "a chart refused by 8 and not by 6",
    "a chart of a tag 0",
    "a chart of a tag after the last",
    "a chart of a tag that would do without its higher bytes",
    "a chart of a plan that was shown before",
    "a chart of a plan that was not shown before",
    "a chart of no units",
    "a chart of one unit",
    "a chart whose units have a digit less than one unit more",
    "a chart whose units have a digit more than one unit less",
    "a chart of 8,192 units",
    "a chart of more than 8,192 units",
    "a chart of 147,858 bytes",
    "the longest chart with room",
    "the shortest chart without room",
    "a chart of 4294967295 units",
    "a chart of more than 4294967295 units",
    "a chart whose units have room in 16 bits",
    "a chart whose length has room in 32 bits",
    "a chart of 10 segments or more",
    "a chart of a unit of 32 columns",
    "a chart found: less than a turn",
    "a chart found: just a turn",
    "a chart found: three turns or more",
    "a chart found: three turns or more of two or more latencies",
    "a chart found: 27 tasks or more",
    "a chart found: 53 tasks or more",
    "a chart found: a segment that is never busy",
    "a chart found: a segment that is always busy",
    "delays: no unit, with a file",
    "delays: M above 4294967295",
    "delays: a file in place of M",
    "delays: words after the file",
    "delays: a file whose name is a number",
    "delays: a file whose name is a number above 4294967295",
    "delays: refused by 2, with a file",
    "delays: refused by 19, with a file",
    "delays: refused by 20, with a file",
    "delays: refused by 21, with a file",
    "delays: a tag 0",
    "delays: a tag after the last",
    "delays: a tag that would do without its higher bytes",
    "delays: M that would do without its higher bytes",
    "delays: refused by 2 and not by 20",
    "delays: refused by 19 and not by 20",
    "delays: 19 for column 1 alone",
    "delays: 19 for the last column alone",
    "delays: 19 for column 32 alone",
    "delays: 19 for a mark of segment 16 alone",
    "delays: M of 0",
    "delays: M of 33",
    "delays: M of 256",
    "delays: M of 4294967295",
    "delays: M one below the most marks of a segment",
    "delays: 20 for the first of several segments alone",
    "delays: 20 for the last of several segments alone",
    "delays: 21 for a mark",
    "delays: 21 for columns without marks alone",
    "delays: 21 after a mark at place 32",
    "delays: place 33 for a mark",
    "delays: place 33 for a column without a mark",
    "delays: M of 1",
    "delays: M of 32",
    "delays: M just the most marks of a segment",
    "delays: M below the bound",
    "delays: M below the number of all marks",
    "delays: no marks",
    "delays: of a function that is not the first",
    "delays: of a function that is not the last",
    "delays: of a unit of 32 columns",
    "delays: of a unit of 16 segments",
    "delays: M below another function's marks in a segment",
    "delays: two marks of another function in a column",
    "delays: a mark in a column where another function has one elsewhere",
    "delays: columns that move",
    "delays: no column that moves",
    "delays: a mark that moves on by two places or more",
    "delays: a mark kept from a place by another than the last one",
    "delays: a mark kept from a place of remainder 0",
    "delays: a place whose remainder another segment's mark has",
    "delays: a column without a mark where some mark could not be",
    "delays: place 32 for a mark",
    "delays: place 32 for a column without a mark",
    "delays: a column without a mark at the end",
    "a load of delays that were written",
    "a table kept by delays",
    "a table kept by totals of a size",
    "a table kept by a refused small table",
    "a table of a small table",
    "delays over another file",
    "delays over a longer file",
    "delays to a link to a file",
    "delays to a link to something else",
    "delays to a name without room for `.part`",
    "delays where a file has its name with `.part`",
    "delays over a record that was written",
    "delays over a unit file",
    "arrive: no ticket",
    "arrive: a number too many",
    "arrive: a ticket above 4294967295",
    "arrive: refused by 2, and there is room",
    "arrive: refused by 2 and not by 14",
    "arrive: a tag 0",
    "arrive: a tag after the last",
    "arrive: a tag that would do without its higher bytes",
    "arrive: no tag first and one in place of the ticket",
    "arrive: function 4",
    "arrive: the first",
    "arrive: the 32nd",
    "arrive: a function that the bank holds back",
    "arrive: the first, of a function that the bank grants",
    "arrive: a ticket 0",
    "arrive: a ticket 4294967295",
    "arrive: a ticket above 65535",
    "arrive: a ticket above 2147483647",
    "arrive: a ticket that is another tag",
    "arrive: a task as one that waits",
    "arrive: a ticket that a task of another function has",
    "pass: a number after it",
    "pass: none waits, and the bank is empty",
    "pass: none waits, and the bank is in use",
    "pass: none waits after an edit",
    "pass: none waits after a new unit",
    "pass: none waits after a small table",
    "pass: none, though one behind the oldest would be granted",
    "pass: none of two or more would be granted",
    "pass: none of 32",
    "pass: none, and one unit later it would be granted",
    "pass: none, though function 1 would be granted",
    "pass: held back by tasks of its own function alone",
    "pass: held back by tasks of other functions alone",
    "pass: held back by tasks started by hand alone",
    "pass: held back by callers' tasks alone",
    "pass: held back by a task started 31 units before alone",
    "pass: a start of the only one",
    "pass: a start of 32",
    "pass: a start of 18 or more",
    "pass: a start, and one behind it would be granted too",
    "pass: a start, though the youngest would be held back",
    "pass: a start that would be held back one unit later",
    "pass: a start beside other tasks",
    "pass: a start, though another function would be held back",
    "pass: a start in a unit without marks",
    "pass: a start of a function without marks beside others",
    "pass: a start of function 4",
    "pass: a start of a ticket 0",
    "pass: a start of a ticket above 65535",
    "pass: a start of a ticket above 2147483647",
    "pass: a start in the last unit that it may be in, none ahead",
    "pass: a start in the last unit that it may be in, some ahead",
    "pass: a start in the last unit that it may be in, 31 ahead",
    "pass: a start in unit 1,024",
    "queue: a number after it",
    "queue: none",
    "queue: none after an edit",
    "queue: none after a new unit",
    "queue: none after a small table",
    "queue: one",
    "queue: 10 or more",
    "queue: 32",
    "queue: tags that don't rise",
    "queue: tickets that don't rise",
    "queue: two tasks alike",
    "queue: a ticket 0",
    "queue: a ticket 4294967295",
    "a start by hand of the function that waits longest",
    "a start by hand of another function than waits longest",
    "a start by hand held back as the oldest is",
    "a start by hand held back by callers' tasks alone",
    "a tick where the oldest would be granted",
    "a queue",
    "a queue emptied by a new unit",
    "a queue emptied by a new unit beside an empty bank",
    "a queue emptied by a mark",
    "a queue emptied by a mark that stood",
    "a queue emptied by an unmark",
    "a queue emptied by an unmark of no mark",
    "a queue emptied by an edit beside an empty bank",
    "a queue kept by a refused fresh",
    "a queue kept by a refused load",
    "a queue kept by a load of no file",
    "a queue kept by a refused edit",
    "a queue kept by a search",
    "a queue kept by a refused search",
    "a queue kept by a loop",
    "a queue kept by a refused loop",
    "a queue kept by a record",
    "a queue kept by a refused record",
    "a queue kept by a record that was not written",
    "a queue kept by a record that is shown",
    "a queue kept by a file that is no record",
    "a queue kept by a chart",
    "a queue kept by a refused chart",
    "a queue kept by delays",
    "a queue kept by refused delays",
    "a queue kept by delays that were not written",
    "a queue kept by a save",
    "a queue kept by a save that was not written",
    "a queue kept by a tick",
    "a queue kept by a start",
    "a queue kept by a refused start",
    "a queue kept by a refused arrival",
    "a queue kept by a number of callers",
    "a queue kept by a refused number of callers",
    "a queue kept by a call",
    "a queue kept by a refused call",
    "a queue kept by a turn",
    "a queue kept by a refused turn",
    "a queue kept by totals of a size",
    "a queue kept by a refused small table",
    "a queue kept by a line that is no command",
    "small: no number",
    "small: one number",
    "small: a number too many",
    "small: segments above 4294967295",
    "small: columns above 4294967295",
    "small: a number above 4294967295",
    "small: two numbers, and a word that is none",
    "small: no segment",
    "small: 3 segments",
    "small: no column",
    "small: 7 columns",
    "small: a size of 4294967295",
    "small: segments that would do without their higher bytes",
    "small: columns that would do without their higher bytes",
    "small: a size that would do with segments and columns exchanged",
    "small: neither segments nor columns",
    "small: a size outside before the first unit",
    "small: a size outside, for totals",
    "small: a size outside, though every size has the number",
    "small: a size outside, and no size has the number",
    "small: the number after the last one of 1 segment and 1 column",
    "small: the number after the last one of 1 segment and 2 columns",
    "small: the number after the last one of 1 segment and 3 columns",
    "small: the number after the last one of 1 segment and 4 columns",
    "small: the number after the last one of 1 segment and 5 columns",
    "small: the number after the last one of 1 segment and 6 columns",
    "small: the number after the last one of 2 segments and 1 column",
    "small: the number after the last one of 2 segments and 2 columns",
    "small: the number after the last one of 2 segments and 3 columns",
    "small: the number after the last one of 2 segments and 4 columns",
    "small: the number after the last one of 2 segments and 5 columns",
    "small: the number after the last one of 2 segments and 6 columns",
    "small: a number 4294967295",
    "small: a number that would do as a byte",
    "small: a number that would do in 16 bits",
    "small: a number that a larger size has",
    "small: a number that two segments have",
    "small: a number outside before the first unit",
    "small: totals before the first unit",
    "small: totals of 1 segment and 1 column",
    "small: totals of 1 segment and 2 columns",
    "small: totals of 1 segment and 3 columns",
    "small: totals of 1 segment and 4 columns",
    "small: totals of 1 segment and 5 columns",
    "small: totals of 1 segment and 6 columns",
    "small: totals of 2 segments and 1 column",
    "small: totals of 2 segments and 2 columns",
    "small: totals of 2 segments and 3 columns",
    "small: totals of 2 segments and 4 columns",
    "small: totals of 2 segments and 5 columns",
    "small: totals of 2 segments and 6 columns",
    "small: a table before the first unit",
    "small: table 0 of 1 segment and 1 column",
    "small: table 0 of 1 segment and 2 columns",
    "small: table 0 of 1 segment and 3 columns",
    "small: table 0 of 1 segment and 4 columns",
    "small: table 0 of 1 segment and 5 columns",
    "small: table 0 of 1 segment and 6 columns",
    "small: table 0 of 2 segments and 1 column",
    "small: table 0 of 2 segments and 2 columns",
    "small: table 0 of 2 segments and 3 columns",
    "small: table 0 of 2 segments and 4 columns",
    "small: table 0 of 2 segments and 5 columns",
    "small: table 0 of 2 segments and 6 columns",
    "small: the last table of 1 segment and 1 column",
    "small: the last table of 1 segment and 2 columns",
    "small: the last table of 1 segment and 3 columns",
    "small: the last table of 1 segment and 4 columns",
    "small: the last table of 1 segment and 5 columns",
    "small: the last table of 1 segment and 6 columns",
    "small: the last table of 2 segments and 1 column",
    "small: the last table of 2 segments and 2 columns",
    "small: the last table of 2 segments and 3 columns",
    "small: the last table of 2 segments and 4 columns",
    "small: the last table of 2 segments and 5 columns",
    "small: the last table of 2 segments and 6 columns",
    "small: a table with a number above 255",
    "small: marks in the first of two segments alone",
    "small: marks in the second segment alone",
    "small: marks in both segments",
    "small: a table that is another one from its other end",
    "small: a table that is not at the bound",
    "small: a table at a bound above 1",
    "small: a table with a bound above the marks of a segment",
    "small: the table that is the unit",
    "callers: no number",
    "callers: a number too many",
    "callers: a number above 4294967295",
    "callers: 0",
    "callers: 5",
    "callers: a number that would do without its higher bytes",
    "callers: refused, and there are none yet",
    "callers: refused while tasks wait",
    "callers: refused in another's turn than caller 1's",
    "callers: the first time",
    "callers: 1",
    "callers: 4",
    "callers: fewer than before, while tasks wait",
    "callers: as many as before, while tasks wait",
    "callers: more than before, while tasks wait",
    "callers: fewer than the one whose turn it is",
    "callers: said in another's turn than caller 1's",
    "call: no ticket",
    "call: a number too many",
    "call: a caller above 4294967295",
    "call: a tag above 4294967295",
    "call: a ticket above 4294967295",
    "call: caller 1, and there are none yet",
    "call: caller 4, and there are none yet",
    "call: no callers yet, and not refused by 2",
    "call: caller 0",
    "call: a caller after the last",
    "call: caller 5 of 4",
    "call: a caller that there was before",
    "call: a caller that would do without its higher bytes",
    "call: refused by 18, and the tag is good",
    "call: refused by 18 and not by 2",
    "call: refused by 18 and not by 14",
    "call: refused by 18, and would do with caller and tag exchanged",
    "call: refused by 2, and there is room",
    "call: refused by 2 and not by 14",
    "call: a tag 0",
    "call: a tag after the last",
    "call: a tag that would do without its higher bytes",
    "call: refused by 2, and would do with caller and tag exchanged",
    "call: refused by 2, and would do with tag and ticket exchanged",
    "call: refused by 14, though another has room",
    "call: refused by 14, where nobody else waits",
    "call: refused by 14, where four are full",
    "call: refused by 14 at the one whose turn it is",
    "call: refused by 14 at another than whose turn it is",
    "call: the first of all, of the one whose turn it is",
    "call: the first of all, of another than whose turn it is",
    "call: the first of its caller, while others wait",
    "call: of the one whose turn it is, whose queue is empty while others wait",
    "call: of another than whose turn it is, whose queue is empty while others wait",
    "call: of another than whose turn it is, who waits",
    "call: the 8th",
    "call: the 9th of all, or a later one",
    "call: the 32nd of all",
    "call: taken, though another has no room",
    "call: caller 4",
    "call: function 4",
    "call: a function that the bank holds back",
    "call: the first of all, of a function that the bank grants",
    "call: would do with caller and tag exchanged",
    "call: would do with tag and ticket exchanged",
    "call: a ticket 0",
    "call: a ticket 4294967295",
    "call: a ticket above 65535",
    "call: a ticket above 2147483647",
    "call: a task as one that waits at its caller",
    "call: a task as one that waits at another caller",
    "call: a ticket that waits at another caller",
    "turn: a number after it",
    "turn: no callers yet, and the bank is in use",
    "turn: no callers yet, and the bank is empty",
    "turn: no callers yet, and the queue's oldest would be granted",
    "turn: nobody waits, and the bank is in use",
    "turn: nobody waits, and the bank is empty",
    "turn: nobody waits in another's turn than caller 1's",
    "turn: nobody waits, and the queue's oldest would be granted",
    "turn: none, though another caller's oldest would be granted",
    "turn: none, though one behind the oldest would be granted",
    "turn: none, though the queue's oldest would be granted",
    "turn: none, and nobody else waits",
    "turn: none, and all of four wait",
    "turn: none of several callers' oldest would be granted",
    "turn: none, and the turn is handed on all the same",
    "turn: none, and the turn is handed on round to a lower caller",
    "turn: none of 8",
    "turn: none, and one unit later it would be granted",
    "turn: none, though function 1 would be granted",
    "turn: none, though the function of the caller's number would be granted",
    "turn: a start of the one to whom the turn is handed on",
    "turn: a start of the one to whom the turn is handed on past another",
    "turn: a start of the one to whom the turn is handed on round",
    "turn: a start, and nobody is left",
    "turn: a start of another than caller 1, and nobody is left",
    "turn: a start, and the starter alone has more",
    "turn: a start of a caller's only one, while others wait",
    "turn: a start, and the turn goes to the next caller",
    "turn: a start, and the turn goes past a caller without work",
    "turn: a start, and the turn goes round to caller 1",
    "turn: a start, and the turn goes round past caller 1",
    "turn: a start, and all of four wait",
    "turn: a start of 32",
    "turn: a start of one caller alone",
    "turn: a start of 8 of one caller alone",
    "turn: a start of a caller with 8",
    "turn: a start, though another caller has more tasks",
    "turn: a start, and another caller's oldest would be granted too",
    "turn: a start, though the next caller's oldest would be held back",
    "turn: a start, though its caller's youngest would be held back",
    "turn: a start beside tasks in the queue",
    "turn: a start that would be held back one unit later",
    "turn: a start beside other tasks",
    "turn: a start, though another function would be held back",
    "turn: a start, though the function of the caller's number would be held back",
    "turn: a start in a unit without marks",
    "turn: a start of a function without marks beside others",
    "turn: a start of caller 4",
    "turn: a start of function 4",
    "turn: a start of a function that has not its caller's number",
    "turn: a start of a ticket 0",
    "turn: a start of a ticket above 65535",
    "turn: a start of a ticket above 2147483647",
    "turn: nobody waits after an edit",
    "turn: nobody waits after a new unit",
    "turn: nobody waits after a small table",
    "turn: nobody waits after a number of callers",
    "turn: caller 1's, where an edit set another's back",
    "turn: caller 1's, where a new unit set another's back",
    "turn: caller 1's, where a number of callers set another's back",
    "turn: held back by tasks of its own caller alone",
    "turn: held back by tasks of other callers alone",
    "turn: held back by the queue's tasks alone",
    "turn: held back by tasks started by hand alone",
    "turn: held back by a task started 31 units before alone",
    "turn: a start, though another caller's task waits longer",
    "turn: a second start of a caller, though another came between",
    "turn: a second start of a caller, though another came before it when nobody waited",
    "turn: a start of the one to whom the turn was handed, with work by now where it came from",
    "turn: a start in the last unit that it may be in, of one caller",
    "turn: a start in the last unit that it may be in, of two callers",
    "turn: a start in the last unit that it may be in, of four callers",
    "turn: a start in unit 128",
    "callers' tasks",
    "callers' tasks taken away by a new unit",
    "callers' tasks taken away by a new unit beside an empty bank and queue",
    "callers' tasks taken away by a mark",
    "callers' tasks taken away by a mark that stood",
    "callers' tasks taken away by an unmark",
    "callers' tasks taken away by an unmark of no mark",
    "callers' tasks taken away by an edit beside an empty bank and queue",
    "callers' tasks kept by a refused fresh",
    "callers' tasks kept by a refused load",
    "callers' tasks kept by a load of no file",
    "callers' tasks kept by a refused edit",
    "callers' tasks kept by a search",
    "callers' tasks kept by a refused search",
    "callers' tasks kept by a loop",
    "callers' tasks kept by a refused loop",
    "callers' tasks kept by a record",
    "callers' tasks kept by a refused record",
    "callers' tasks kept by a record that was not written",
    "callers' tasks kept by a record that is shown",
    "callers' tasks kept by a file that is no record",
    "callers' tasks kept by a chart",
    "callers' tasks kept by a refused chart",
    "callers' tasks kept by delays",
    "callers' tasks kept by refused delays",
    "callers' tasks kept by delays that were not written",
    "callers' tasks kept by a save",
    "callers' tasks kept by a save that was not written",
    "callers' tasks kept by a tick",
    "callers' tasks kept by a start",
    "callers' tasks kept by a refused start",
    "callers' tasks kept by an arrival",
    "callers' tasks kept by a refused arrival",
    "callers' tasks kept by a pass",
    "callers' tasks kept by a refused number of callers",
    "callers' tasks kept by a refused call",
    "callers' tasks kept by totals of a size",
    "callers' tasks kept by a refused small table",
    "callers' tasks kept by a line that is no command",
    "no plan after a loop",
    "a bank in use",
    "a bank emptied",
    "a bank in use emptied by a new unit",
    "a bank in use emptied by a mark",
    "a bank in use emptied by a mark that stood",
    "a bank in use emptied by an unmark",
    "a bank in use emptied by an unmark of no mark",
    "a bank in use emptied by an edit beside an empty queue",
    "a bank in use and a queue emptied by an edit while no caller waits",
    "a bank in use and a queue emptied by a new unit while no caller waits",
    "a bank emptied by an edit",
    "a bank emptied by a small table",
    "a start granted that the bank before an edit held back",
    "a bank kept by a refused fresh",
    "a bank kept by a refused load",
    "a bank kept by a load of no file",
    "a bank kept by a refused edit",
    "a bank kept by a search",
    "a bank kept by a refused search",
    "a bank kept by a loop",
    "a bank kept by a refused loop",
    "a bank kept by a record",
    "a bank kept by a refused record",
    "a bank kept by a record that was not written",
    "a bank kept by a record that is shown",
    "a bank kept by a file that is no record",
    "a bank kept by a chart",
    "a bank kept by a refused chart",
    "a bank kept by delays",
    "a bank kept by refused delays",
    "a bank kept by delays that were not written",
    "a bank kept by a save",
    "a bank kept by a save that was not written",
    "a bank kept by a refused start",
    "a bank kept by an arrival",
    "a bank kept by a refused arrival",
    "a bank kept by a number of callers",
    "a bank kept by a refused number of callers",
    "a bank kept by a call",
    "a bank kept by a refused call",
    "a bank kept by a refused turn",
    "a bank kept by totals of a size",
    "a bank kept by a refused small table",
    "a bank kept by a line that is no command",
    "an input of no bytes",
    "an input that comes byte by byte",
    "an input that waits for each answer",
    "a file longer than 2^32 bytes",
    "files: a save to a FIFO",
    "files: a save to a symbolic link to a FIFO",
    "files: a save to a new name and over other files",
    "files: a save over a file that has a second name",
    "files: a save to a symbolic link to a file",
    "files: a save to a symbolic link in another folder",
    "files: a save to a symbolic link to another one",
    "files: a save to a symbolic link to nothing",
    "files: a save to a symbolic link to a folder",
    "files: a save to a symbolic link to a full device",
    "files: a save into a folder that is not there",
    "files: a save into a file",
    "files: a save onto a folder",
    "files: a save with a folder in the way of its `.part`",
    "files: a save where a `.part` stands",
    "files: a save to a name without room for `.part`",
    "files: a save with room for no byte",
    "files: a save with room for all but one byte",
    "files: a save with room for just its bytes",
    "files: a record to a FIFO",
    "files: a record to a symbolic link to a FIFO",
    "files: a record to a new name and over other files",
    "files: a record over a file that has a second name",
    "files: a record to a symbolic link to a file",
    "files: a record to a symbolic link in another folder",
    "files: a record to a symbolic link to another one",
    "files: a record to a symbolic link to nothing",
    "files: a record to a symbolic link to a folder",
    "files: a record to a symbolic link to a full device",
    "files: a record into a folder that is not there",
    "files: a record into a file",
    "files: a record onto a folder",
    "files: a record with a folder in the way of its `.part`",
    "files: a record where a `.part` stands",
    "files: a record to a name without room for `.part`",
    "files: a record with room for no byte",
    "files: a record with room for all but one byte",
    "files: a record with room for just its bytes",
    "files: delays to a FIFO",
    "files: delays to a symbolic link to a FIFO",
    "files: delays to a new name and over other files",
    "files: delays over a file that has a second name",
    "files: delays to a symbolic link to a file",
    "files: delays to a symbolic link in another folder",
    "files: delays to a symbolic link to another one",
    "files: delays to a symbolic link to nothing",
    "files: delays to a symbolic link to a folder",
    "files: delays to a symbolic link to a full device",
    "files: delays into a folder that is not there",
    "files: delays into a file",
    "files: delays onto a folder",
    "files: delays with a folder in the way of its `.part`",
    "files: delays where a `.part` stands",
    "files: delays to a name without room for `.part`",
    "files: delays with room for no byte",
    "files: delays with room for all but one byte",
    "files: delays with room for just its bytes",
    "output: a full device",
    "output: a full device, and more input may come",
    "output: a pipe that nobody reads",
    "output: a file with room for the first answers",
];

/// Special cases that are tried where the system lets the tests do so.
pub const WHERE_POSSIBLE: &[&str] = &[
    "files: a save over a file that may not be written",
    "files: a save into a folder that may not be written",
    "files: a save that can't be renamed",
    "files: a record over a file that may not be written",
    "files: a record into a folder that may not be written",
    "files: a record that can't be renamed",
    "files: delays over a file that may not be written",
    "files: delays into a folder that may not be written",
    "files: delays that can't be renamed",
    "files: a file that may not be read",
];

/// "the reservation table, a row for each segment, `x` for a mark and `.` for none, with column numbers": cells of three bytes.
pub fn table(unit: &Unit, tag: u32) -> String {
    let mut lines = vec![String::from("   ")];
    for column in 1..=unit.columns {
        lines[0] += &format!("{column:>3}");
    }
    for segment in 1..=unit.segments {
        let mut line = format!("{segment:>3}");
        for column in 1..=unit.columns {
            let marked = unit.marks.contains(&Mark { tag, segment, column });
            line += &format!("{:>3}", if marked { 'x' } else { '.' });
        }
        lines.push(line);
    }
    lines.join("\n") + "\n"
}
