//! The program's output held against the answers that were worked out before: byte by byte, but for the best cycles and loops, of which the
//! paper leaves free which one is handed out. A plan that was shown once is known from then on, and the records that were written of it and
//! the charts that were drawn of it have to be its own.

use crate::charts;
use crate::console_folder::{File, Folder};
use crate::console_model::*;
use crate::console_program::Ending;
use crate::console_script::Script;
use crate::loops::Loops;
use crate::model::*;
use crate::records;
use std::collections::{BTreeMap, HashMap, HashSet};
use std::ops::Range;

/// What a program did: what it wrote, how it ended and what its folder holds after it.
pub struct Run {
    pub output: Vec<u8>,
    pub ending: Ending,
    /// Where each line waits for the answer to the one before: the first line that was not answered.
    pub unanswered: Option<usize>,
    pub folder: Folder,
}

/// The first difference: the line at which it shows (one more than the lines where it shows after all of them), and a text of several
/// lines.
#[derive(Debug)]
pub struct Difference {
    pub line: usize,
    pub why: String,
}

// ---------------------------------------------------------------------------------------------------------------------------------
// Counts

/// How often each sort of answer and each special case was met.
#[derive(Default)]
pub struct Counts {
    pub lines: usize,
    sorts: BTreeMap<Sort, u64>,
    met: BTreeMap<&'static str, u64>,
}

/// The refusals and the words that each command can answer with. Besides, each can be told what was expected.
const ANSWERS: [(&str, &[u32], &[&str]); 34] = [
    ("fresh", &[1], &["ok"]),
    ("mark", &[2, 3, 4], &["ok", "no unit"]),
    ("unmark", &[2, 3, 4], &["ok", "no unit"]),
    ("search", &[2, 7], &["ok", "no unit"]),
    ("read", &[8], &["ok", "no unit"]),
    ("vector", &[2], &["ok", "no unit"]),
    ("row", &[2], &["ok", "no unit"]),
    ("states", &[2, 7], &["ok", "no unit"]),
    ("greedy", &[2, 7], &["ok", "no unit"]),
    ("bound", &[2], &["ok", "no unit"]),
    ("upper", &[2], &["ok", "no unit"]),
    ("constant", &[2], &["ok", "no unit"]),
    ("judge", &[2, 9], &["yes", "no", "no unit"]),
    ("tick", &[], &["ok", "no unit"]),
    ("start", &[2, 10], &["ok", "no unit"]),
    ("bank", &[], &["ok", "no unit"]),
    ("load", &[1, 11, 12, 13], &["ok", "no file"]),
    ("save", &[], &["ok", "not written", "no unit"]),
    ("list", &[], &["ok", "no unit"]),
    ("table", &[2], &["ok", "no unit"]),
    ("diagram", &[2, 7], &["ok", "no unit"]),
    ("loop", &[2, 7, 17], &["ok", "no unit"]),
    ("record", &[2, 8], &["ok", "not written", "no unit"]),
    ("report", &[15], &["ok", "no file"]),
    ("ring", &[15], &["ok", "no file"]),
    ("simulate", &[2, 6, 8], &["ok", "no unit"]),
    ("delays", &[2, 19, 20, 21], &["ok", "not written", "no unit"]),
    ("arrive", &[2, 14], &["ok", "no unit"]),
    ("pass", &[], &["started", "none", "no unit"]),
    ("queue", &[], &["ok", "no unit"]),
    ("callers", &[18], &["ok", "no unit"]),
    ("call", &[2, 14, 18], &["ok", "no unit"]),
    ("turn", &[18], &["started", "none", "no unit"]),
    ("small", &[22], &["ok", "tables"]),
];

const OTHERS: [(Sort, &str); 4] = [
    (Sort::ExpectedCommand, "expected a command"),
    (Sort::TooLong, "too long"),
    (Sort::Empty, "lines without words"),
    (Sort::Comment, "comments"),
];

impl Counts {
    pub fn meet(&mut self, what: &'static str) {
        debug_assert!(WANTED.contains(&what) || WHERE_POSSIBLE.contains(&what), "{what}");
        *self.met.entry(what).or_default() += 1;
    }

    fn line(&mut self, answer: &Answer) {
        self.lines += 1;
        *self.sorts.entry(answer.sort.clone()).or_default() += 1;
        for what in &answer.met {
            self.meet(what);
        }
    }

    /// Every sort of answer, in the order of the table, with how often it was met.
    fn table(&self) -> Vec<(Sort, String, u64)> {
        let mut rows = Vec::new();
        for (name, refusals, words) in ANSWERS {
            for told in words.iter().map(|word| word.to_string()).chain(refusals.iter().map(|number| format!("refused {number}"))) {
                let label = format!("{name} {}", told.replace("refused ", "refused by "));
                rows.push((Sort::Of(name, told), label));
            }
            rows.push((Sort::Of(name, "expected".to_string()), format!("{name} not as expected")));
        }
        rows.extend(OTHERS.map(|(sort, label)| (sort, label.to_string())));
        rows.into_iter().map(|(sort, label)| (sort.clone(), label, self.sorts.get(&sort).copied().unwrap_or(0))).collect()
    }

    /// What should have been met and was not.
    pub fn gaps(&self) -> Vec<String> {
        let never = self.table().into_iter().filter(|row| row.2 == 0).map(|row| row.1);
        never.chain(WANTED.iter().filter(|what| !self.met.contains_key(*what)).map(|what| what.to_string())).collect()
    }

    /// One line: for each command what it answered and how often, a refusal by its number in brackets; then the other lines.
    pub fn told(&self) -> String {
        let mut parts: Vec<String> = Vec::new();
        for (sort, label, count) in self.table() {
            let Sort::Of(name, told) = sort else {
                parts.push(format!("; {label} {count}"));
                continue;
            };
            if ["ok", "yes", "started"].contains(&told.as_str()) {
                parts.push(format!("; {name}"));
            }
            parts.push(match told.strip_prefix("refused ") {
                Some(number) => format!(" ({number}) {count}"),
                None => format!(" {told} {count}"),
            });
        }
        format!("{} lines{}", self.lines, parts.concat())
    }

    /// The special cases, one a line.
    pub fn special(&self) -> String {
        let all = WANTED.iter().chain(WHERE_POSSIBLE);
        all.map(|what| format!("{:>7}  {what}\n", self.met.get(what).copied().unwrap_or(0))).collect()
    }
}

// ---------------------------------------------------------------------------------------------------------------------------------
// One run beside its script

/// Reads the output from its beginning.
struct Reader<'a> {
    output: &'a [u8],
    at: usize,
    /// The plans that were shown, by the number of their search.
    plans: HashMap<usize, Vec<u8>>,
    /// The charts of plans that were not shown yet, by the number of the search: how many units, and the starts in them.
    charts: HashMap<usize, Vec<(u32, Vec<u32>)>>,
    yard: Yard,
    counts: &'a mut Counts,
}

impl Reader<'_> {
    /// Goes on by a text, or as far as the output agrees with it.
    fn take(&mut self, text: &str) -> Result<(), String> {
        let alike = self.output[self.at..].iter().zip(text.as_bytes()).take_while(|(found, expected)| found == expected).count();
        self.at += alike;
        if alike < text.len() {
            return Err(String::new());
        }
        Ok(())
    }

    fn takes(&mut self, text: &str) -> bool {
        let stands = self.output[self.at..].starts_with(text.as_bytes());
        if stands {
            self.at += text.len();
        }
        stands
    }

    fn part(&mut self, part: &Part) -> Result<(), String> {
        match part {
            Part::Text(text) => self.take(text),
            Part::Best(drawn) => self.cycle().and_then(|cycle| drawn.check_best(&cycle, &mut self.yard)),
            Part::Plan(search, drawn) => {
                let cycle = self.cycle()?;
                self.plan(*search, drawn, cycle)
            }
            Part::Drawing(search, tag, drawn) => self.drawing(*search, *tag, drawn),
            Part::Loop(loops) => self.cycle().and_then(|cycle| self.best_loop(loops, cycle)),
            Part::List(planned) => {
                let cycle = self.list()?;
                self.plan(planned.search, &planned.drawn, cycle)
            }
            Part::Ring(planned) => {
                let cycle = self.ring()?;
                self.plan(planned.search, &planned.drawn, cycle)
            }
            Part::Chart(chart) => self.chart(chart),
        }
    }

    /// What is left of the line.
    fn rest_of_line(&self) -> &[u8] {
        let rest = &self.output[self.at..];
        &rest[..rest.iter().position(|byte| *byte == b'\n').unwrap_or(rest.len())]
    }

    /// K and the list up to the end of the line, written as they have to be.
    fn list(&mut self) -> Result<Cycle, String> {
        let no_list = || "no count and list".to_string();
        let text = std::str::from_utf8(self.rest_of_line()).map_err(|_| no_list())?;
        let (count, list) = text.split_once(" list ").ok_or_else(no_list)?;
        let latencies: Vec<u8> = list.split(' ').map(|word| word.parse().ok()).collect::<Option<_>>().ok_or_else(no_list)?;
        let count: usize = count.parse().map_err(|_| no_list())?;
        if count != latencies.len() {
            return Err(format!("the list has {} latencies", latencies.len()));
        }
        if records::list_text(count, &latencies) != text {
            return Err("numbers with something besides digits, or with zeros in front".to_string());
        }
        self.at += text.len();
        Ok(Cycle { sum: sum_of(&latencies), latencies })
    }

    /// S and the ring up to the end of the line, written as they have to be.
    fn ring(&mut self) -> Result<Cycle, String> {
        let no_ring = || "no sum and ring".to_string();
        let text = std::str::from_utf8(self.rest_of_line()).map_err(|_| no_ring())?;
        let (sum, ring) = text.split_once(" ring ").ok_or_else(no_ring)?;
        let bit = |digit: char| digit.to_digit(2).map(|bit| bit == 1);
        let bits: Vec<bool> = ring.chars().map(bit).collect::<Option<_>>().ok_or_else(no_ring)?;
        let sum: usize = sum.parse().map_err(|_| no_ring())?;
        if sum != bits.len() {
            return Err(format!("the ring has {} bits", bits.len()));
        }
        if records::ring_text(sum, &bits) != text {
            return Err("a number with something besides digits, or with zeros in front".to_string());
        }
        let latencies = records::latencies_of(&bits).ok_or("the ring of no cycle")?;
        self.at += text.len();
        Ok(Cycle { latencies, sum: sum as u32 })
    }

    /// Latencies and sum up to the end of the line, written as they have to be.
    fn cycle(&mut self) -> Result<Cycle, String> {
        let line = self.rest_of_line();
        let no_cycle = || "no latencies and sum".to_string();
        let text = std::str::from_utf8(line).map_err(|_| no_cycle())?;
        let (list, sum) = text.split_once(" sum ").ok_or_else(no_cycle)?;
        let latencies: Vec<u8> = list.split(' ').map(|word| word.parse().ok()).collect::<Option<_>>().ok_or_else(no_cycle)?;
        let sum: u32 = sum.parse().map_err(|_| no_cycle())?;
        let words: Vec<String> = latencies.iter().map(|latency| latency.to_string()).collect();
        if format!("{} sum {sum}", words.join(" ")) != text {
            return Err("numbers with something besides digits, or with zeros in front".to_string());
        }
        self.at += text.len();
        Ok(Cycle { latencies, sum })
    }

    /// A file that was found where the record of this plan should be: the whole file is a record, by both ways, and its cycle is the plan's.
    fn record(&mut self, planned: &Planned, found: Option<&File>) -> Result<(), String> {
        let Some(File::Bytes(bytes)) = found else {
            return Err(format!("found: {found:?}"));
        };
        let wrongs = records::wrongs(bytes);
        let latencies = records::written_again(bytes).map_err(|_| format!("no record for {wrongs:?}: {bytes:?}"))?;
        assert!(wrongs.is_empty(), "the two ways disagree");
        if !self.plans.contains_key(&planned.search) {
            self.counts.meet("a record found: of a plan that was never shown");
        }
        let (count, sum) = (latencies.len(), sum_of(&latencies));
        let cases = [
            (count == 1, "a record found: one latency"),
            (count > 1, "a record found: two or more latencies"),
            (count >= 40, "a record found: 40 latencies or more"),
            (latencies.contains(&32), "a record found: a latency 32"),
            (sum > 255, "a record found: a sum above 255"),
            (sum % 8 == 0, "a record found: a sum that is a multiple of 8"),
            (sum % 8 > 0, "a record found: a sum that is no multiple of 8"),
        ];
        let told = format!("{latencies:?}");
        self.plan(planned.search, &planned.drawn, Cycle { latencies, sum }).map_err(|why| format!("the record of {told}: {why}"))?;
        cases.into_iter().filter(|(holds, _)| *holds).for_each(|(_, what)| self.counts.meet(what));
        Ok(())
    }

    /// The first file that is not as it should be, in words.
    fn files(&mut self, after: &Folder, found: &Folder) -> Option<String> {
        let mut known = after.clone();
        for (name, file) in &mut known.files {
            if let File::Record(planned) = file {
                let seen = found.files.get(name);
                if let Err(why) = self.record(planned, seen) {
                    return Some(format!("the file {}, which should be the record of {planned:?}\n{why}", name.escape_ascii()));
                }
                *file = seen.expect("a record that was found").clone();
            }
        }
        known.difference(found)
    }

    /// A plan that is shown: a best cycle, and the same as it was before.
    fn plan(&mut self, search: usize, drawn: &Drawn, cycle: Cycle) -> Result<(), String> {
        drawn.check_best(&cycle, &mut self.yard)?;
        if cycle.sum > 255 {
            self.counts.meet("a plan with a sum above 255");
        }
        if cycle.latencies.len() > 1 {
            self.counts.meet("a plan of two or more latencies");
        }
        for (units, starts) in self.charts.remove(&search).unwrap_or_default() {
            if charts::starts_of(&cycle.latencies, units) != starts {
                return Err(format!("a chart of the plan had its starts in units {starts:?} of {units} before"));
            }
        }
        let known = self.plans.entry(search).or_insert_with(|| cycle.latencies.clone());
        if *known != cycle.latencies {
            return Err(format!("the plan was {} before", cycle_text(known)));
        }
        Ok(())
    }

    /// The chart of a plan that was shown is known. Of another one the starts are read, and the chart has to be theirs: a best cycle could
    /// have them, those of earlier charts go with them, and the plan has them when it is shown.
    fn chart(&mut self, chart: &Chart) -> Result<(), String> {
        let search = chart.planned.search;
        let starts = match self.plans.get(&search) {
            Some(latencies) => charts::starts_of(latencies, chart.units),
            None => self.starts(chart)?,
        };
        let text = chart.text_of(&starts)?;
        self.take(&text)?;
        let rows: Vec<&str> = text.lines().skip(2).map(|line| &line[charts::FIELD..][..chart.units as usize]).collect();
        let turns = self.plans.get(&search).map(|latencies| (latencies.len(), chart.units / sum_of(latencies), sum_of(latencies)));
        let cases = [
            (chart.units > 0 && turns.is_some_and(|(_, turns, _)| turns == 0), "a chart found: less than a turn"),
            (turns.is_some_and(|(_, _, sum)| sum == chart.units), "a chart found: just a turn"),
            (turns.is_some_and(|(_, turns, _)| turns > 2), "a chart found: three turns or more"),
            (turns.is_some_and(|(count, turns, _)| count > 1 && turns > 2), "a chart found: three turns or more of two or more latencies"),
            (starts.len() > 26, "a chart found: 27 tasks or more"),
            (starts.len() > 52, "a chart found: 53 tasks or more"),
            (chart.units > 40 && rows.iter().any(|row| !row.contains(|cell| cell != '.')), "a chart found: a segment that is never busy"),
            (chart.units > 40 && rows.iter().any(|row| !row.contains('.')), "a chart found: a segment that is always busy"),
        ];
        cases.into_iter().filter(|(holds, _)| *holds).for_each(|(_, what)| self.counts.meet(what));
        Ok(())
    }

    /// The starts of a chart whose plan was not shown yet.
    fn starts(&mut self, chart: &Chart) -> Result<Vec<u32>, String> {
        let Chart { planned: Planned { search, drawn }, units, .. } = chart;
        let begin = self.at;
        self.take(&charts::head(*units))?;
        let starts = charts::starts_in(self.rest_of_line())?;
        if self.rest_of_line().len() != *units as usize {
            return Err(format!("{} cells", self.rest_of_line().len()));
        }
        self.at = begin;
        if !drawn.may_start(&starts, *units, &mut self.yard) {
            return Err("starts that no best cycle has".to_string());
        }
        let earlier = self.charts.entry(*search).or_default();
        let up_to = |starts: &[u32], units: u32| starts.iter().copied().filter(|start| *start <= units).collect::<Vec<u32>>();
        if earlier.iter().any(|(other, others)| up_to(&starts, *other) != up_to(others, *units)) {
            return Err("other starts than in a chart of the plan before".to_string());
        }
        earlier.push((*units, starts.clone()));
        Ok(starts)
    }

    /// A loop is shown once, and any of the best will do.
    fn best_loop(&mut self, loops: &Loops, cycle: Cycle) -> Result<(), String> {
        loops.check_best(&cycle, &mut self.yard)?;
        let (count, turns) = (cycle.latencies.len(), cycle.latencies.len() / loops.kernel.tags.len());
        let cases = [
            (turns > 1, "loop: more than one turn of the list"),
            (turns >= 10, "loop: 10 turns of the list or more"),
            (count >= 65, "loop: 65 latencies or more"),
            (cycle.sum > 255, "loop: a sum above 255"),
            (cycle.latencies.contains(&32), "loop: a latency 32"),
        ];
        cases.into_iter().filter(|(holds, _)| *holds).for_each(|(_, what)| self.counts.meet(what));
        Ok(())
    }

    /// "Arcs are bold exactly where the unit has a plan of that tag and the arc is one that the plan's cycle runs along in the diagram."
    fn drawing(&mut self, search: usize, tag: u32, drawn: &Drawn) -> Result<(), String> {
        let known = self.plans.get(&search).map(|latencies| {
            let course = drawn.graph.course(latencies).expect("a cycle of the diagram");
            course.into_iter().collect::<HashSet<_>>()
        });
        self.take(&drawing_begin(tag))?;
        let mut bold = Vec::new();
        for (line, state, latency) in drawn.graph.arc_lines() {
            let begin = self.at;
            self.take(&line)?;
            let is = self.takes(BOLD);
            self.take(ARC_END)?;
            if known.as_ref().is_some_and(|known| known.contains(&(state, latency)) != is) {
                self.at = begin;
                return Err(format!("the arc {} one of the plan's", if is { "is not" } else { "is" }));
            }
            if is {
                bold.push((state, latency));
            }
        }
        self.take(DRAWING_END)?;
        if known.is_some() {
            return Ok(());
        }
        // the plan is seen here for the first time
        let latencies = around(&bold, &drawn.graph.diagram).ok_or("the bold arcs are no cycle")?;
        self.plan(search, drawn, Cycle { sum: sum_of(&latencies), latencies })
    }
}

/// The latencies of arcs that go once around a cycle and are nothing more, in the rotation that comes first.
fn around(arcs: &[(usize, u32)], diagram: &Diagram) -> Option<Vec<u8>> {
    let leading: HashMap<usize, u32> = arcs.iter().copied().collect();
    let begin = arcs.first()?.0;
    let mut latencies: Vec<u8> = Vec::new();
    let mut state = begin;
    while latencies.len() < arcs.len() {
        let latency = *leading.get(&state)?;
        latencies.push(latency as u8);
        state = diagram.arcs[state].iter().find(|arc| arc.0 == latency)?.1;
        if state == begin {
            break;
        }
    }
    if state != begin || latencies.len() != arcs.len() {
        return None;
    }
    while !is_first_rotation(&latencies) {
        latencies.rotate_left(1);
    }
    Some(latencies)
}

/// Compares a run with its script. The counts are those of the lines that agree.
pub fn check(script: &Script, run: &Run, counts: &mut Counts) -> Result<(), Difference> {
    let mut reader = Reader { output: &run.output, at: 0, plans: HashMap::new(), charts: HashMap::new(), yard: Yard::new(), counts };
    for (place, line) in (1..).zip(&script.lines) {
        let begin = reader.at;
        for part in &line.answer.parts {
            if let Err(why) = reader.part(part) {
                return Err(told(script, place, run, begin..reader.at, &reader.plans, &why));
            }
        }
        if run.unanswered == Some(place) {
            let why = "the answer is right, but it came only when no line was left to come";
            return Err(Difference { line: place, why: format!("DIFFERENCE at line {place} of {}\n{why}", script.name) });
        }
        reader.counts.line(&line.answer);
    }
    let after = script.lines.len() + 1;
    let end = |why: String| {
        Err(Difference { line: after, why: format!("DIFFERENCE at line {after}, after the last, of {}\n{why}", script.name) })
    };
    if reader.at < run.output.len() {
        return end(format!("left over:\n{}", shown(&run.output[reader.at..], 5)));
    }
    if run.ending != Ending::Status(0) {
        return end(format!("all answers are right, but the program {}", run.ending.told()));
    }
    if let Some(why) = reader.files(&script.after, &run.folder) {
        return end(why);
    }
    for what in &script.met {
        reader.counts.meet(what);
    }
    Ok(())
}

// ---------------------------------------------------------------------------------------------------------------------------------
// A difference in words

/// The first lines of a text, other bytes than printable ones written as escapes, and no line longer than a few hundred bytes.
fn shown(text: &[u8], lines: usize) -> String {
    let whole: Vec<&[u8]> = text.split_inclusive(|byte| *byte == b'\n').collect();
    let mut parts: Vec<String> = whole.iter().take(lines).map(|line| format!("    {}", line_shown(line))).collect();
    if whole.len() > lines {
        parts.push(format!("    .. {} lines more", whole.len() - lines));
    }
    if parts.is_empty() {
        parts.push("    nothing".to_string());
    }
    parts.join("\n")
}

pub fn line_shown(line: &[u8]) -> String {
    const MOST: usize = 300;
    let line = line.strip_suffix(b"\n").map_or_else(|| format!("{}<no newline>", cut(line)), cut);
    fn cut(line: &[u8]) -> String {
        let text = line[..line.len().min(MOST)].escape_ascii().to_string().replace("\\\"", "\"");
        if line.len() > MOST {
            return format!("{text} .. {} bytes in all", line.len());
        }
        text
    }
    line
}

/// The expected answer as text. A best cycle is free where none was shown before.
fn expected_text(answer: &Answer, plans: &HashMap<usize, Vec<u8>>) -> String {
    let mut text = String::new();
    for part in &answer.parts {
        match part {
            Part::Text(part) => text += part,
            Part::Best(_) => text += "<a best cycle>",
            Part::Loop(_) => text += "<a best loop>",
            Part::Plan(search, _) => text += &plans.get(search).map_or("<a best cycle>".to_string(), |latencies| cycle_text(latencies)),
            Part::List(planned) => {
                let list = |latencies: &Vec<u8>| records::list_text(latencies.len(), latencies);
                text += &plans.get(&planned.search).map_or("<count and list of a best cycle>".to_string(), list);
            }
            Part::Ring(planned) => {
                let ring = |latencies: &Vec<u8>| records::ring_text(sum_of(latencies) as usize, &records::ring_of(latencies));
                text += &plans.get(&planned.search).map_or("<sum and ring of a best cycle>".to_string(), ring);
            }
            Part::Chart(chart) => {
                let free = || {
                    let rows = (1..=chart.segments).map(|segment| format!("{segment:<8}<with a best cycle>\n"));
                    format!("{}<of a best cycle>\n{}", charts::head(chart.units), rows.collect::<String>())
                };
                text += &plans.get(&chart.planned.search).map_or_else(free, |latencies| chart.text(latencies));
            }
            Part::Drawing(search, tag, drawn) => {
                let course = plans.get(search).and_then(|latencies| drawn.graph.course(latencies)).unwrap_or_default();
                text += &drawing(*tag, &drawn.graph, &course.into_iter().collect());
            }
        }
    }
    text
}

/// `agreed` is where in the output the answer begins and how far it is right.
fn told(script: &Script, place: usize, run: &Run, agreed: Range<usize>, plans: &HashMap<usize, Vec<u8>>, why: &str) -> Difference {
    let line = &script.lines[place - 1];
    let expected = expected_text(&line.answer, plans);
    let lines_of = |text: &[u8]| -> Vec<Vec<u8>> { text.split_inclusive(|byte| *byte == b'\n').map(|line| line.to_vec()).collect() };
    let expected = lines_of(expected.as_bytes());
    let found = &run.output[agreed.start..];
    let found: Vec<Vec<u8>> = lines_of(found).into_iter().take(expected.len().max(1)).collect();
    // of a long answer the lines from the first one that differs
    let alike = run.output[agreed].iter().filter(|byte| **byte == b'\n').count();
    let from = if expected.len() > 8 { alike } else { 0 };
    let mut text =
        format!("DIFFERENCE at line {place} of {}\nline:\n    {}\n", script.name, line_shown(&[&line.bytes[..], b"\n"].concat()));
    if from > 0 {
        text += &format!("from line {} of the answer\n", from + 1);
    }
    let rest = |lines: &[Vec<u8>]| shown(&lines.get(from..).unwrap_or(&[]).concat(), 8);
    text += &format!("expected:\n{}\nfound:\n{}", rest(&expected), rest(&found));
    if !why.is_empty() {
        text += &format!("\nbecause: {why}");
    }
    if run.ending != Ending::Status(0) {
        text += &format!("\nand the program {}", run.ending.told());
    }
    Difference { line: place, why: text }
}
