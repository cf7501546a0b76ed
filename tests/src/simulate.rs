//! A test of the program `simulate` from outside: `simulate Q UNITS < FILE`.
//!
//! Unit files, good and damaged, and arguments, good and bad, are made from fixed seeds. What the program has to write is what the tests' own
//! console (`console_model.rs`) answers to a load of the file, a search for the function and a chart: the first refusal, or the chart, whose
//! cycle may be any best one. Words that are not exactly two numbers get what was expected.
//!
//!     simulate PROGRAM                   everything
//!     simulate selftest                  the test itself: a stand-in for the program, and wrong ones
//!     simulate stand-in WRONG WORDS..    the stand-in of this number; 0 is the right one

#![allow(dead_code)]

mod callers;
mod callers_check;
mod callers_met;
mod charts;
mod charts_check;
mod console_check;
mod console_faults;
mod console_folder;
mod console_model;
mod console_program;
mod console_script;
mod console_watch;
mod console_words;
mod delays;
mod delays_check;
mod delays_met;
mod facts;
mod loops;
mod loops_check;
mod model;
mod model_check;
mod queue;
mod queue_check;
mod queue_met;
mod random;
mod record_files;
mod records;
mod routes;
mod sheet;
mod small;
mod small_met;
mod tally;
mod units;

use console_check::{check, Counts, Run};
use console_faults::CHART_FAULTS;
use console_folder::{File, Folder};
use console_model::*;
use console_program::{path_of, wait, Place};
use console_script::{Feed, Line, Script};
use console_words::{Draw, Filler};
use model::*;
use random::{seed_of, Random};
use std::collections::BTreeMap;
use std::ffi::OsStr;
use std::fs;
use std::io::{self, Read, Write};
use std::os::unix::ffi::{OsStrExt, OsStringExt};
use std::path::Path;
use std::process::{exit, Command, Stdio};
use std::thread;
use std::time::Duration;

/// A program that has not ended by then never does, also where it runs beside the proofs.
const LIMIT: Duration = Duration::from_secs(240);
/// How many units are made at random, and how many damaged files.
const UNITS: u64 = 200;
const DAMAGED: u64 = 80;
const FILE: &str = "unit";

// ---------------------------------------------------------------------------------------------------------------------------------
// Cases

struct Case {
    file: Vec<u8>,
    words: Vec<Vec<u8>>,
    /// Whether the file comes through a pipe, in pieces.
    piped: bool,
}

/// What the program has to write, as one line of a script is answered.
fn answer(console: &mut Console<Folder>, file: &[u8], words: &[Vec<u8>]) -> Answer {
    let [Some(tag), Some(units)] = words.iter().map(|word| number(word)).collect::<Vec<_>>()[..] else {
        let parts = vec![Part::Text("expected simulate Q UNITS\n".to_string())];
        return Answer { sort: Sort::Of("simulate", "expected".to_string()), parts, met: Vec::new() };
    };
    console.shelf.files.insert(FILE.as_bytes().to_vec(), File::Bytes(file.to_vec()));
    for line in [format!("load {FILE}"), format!("search {tag}")] {
        let answer = console.answer(line.as_bytes(), 1);
        if !matches!(&answer.sort, Sort::Of(_, told) if told == "ok") {
            return answer;
        }
    }
    console.answer(format!("simulate {tag} {units}").as_bytes(), 1)
}

/// Words that are not two numbers.
const BAD_WORDS: [&[&[u8]]; 24] = [
    &[],
    &[b"1"],
    &[b"1", b"21", b"1"],
    &[b"1", b"21", b""],
    &[b"1", b"21", b"x"],
    &[b"", b"21"],
    &[b"1", b""],
    &[b"x", b"21"],
    &[b"1", b"x"],
    &[b"Q", b"UNITS"],
    &[b"-1", b"21"],
    &[b"1", b"-21"],
    &[b"+1", b"21"],
    &[b"1", b"+21"],
    &[b"1x", b"21"],
    &[b"1", b"21x"],
    &[b"1", b"0x15"],
    &[b"1", b"2.1"],
    &[b"1 21"],
    &[b"1", b" 21"],
    &[b"1", b"4294967296"],
    &[b"4294967297", b"21"],
    &[b"1", b"18446744073709551637"],
    &[b"1", b"\xff"],
];

/// A function of the unit, mostly, and now and then none.
fn some_tag(functions: u32, random: &mut Random) -> u32 {
    let inside = random.between(1, functions);
    match random.below(16) {
        0 => random.pick(&[0, functions + 1]),
        1 => random.pick(&[256, 65_536, 1 << 24, u32::MAX - 255]) + inside,
        _ => inside,
    }
}

/// How many units: mostly so many that the cycle is seen whole.
fn some_units(segments: u32, random: &mut Random) -> u32 {
    match random.below(24) {
        0 => 0,
        1 => 1,
        2..=5 => random.between(2, 60),
        6 => random.pick(&[9, 10, 99, 100, 999, 1_000]),
        7 | 8 => random.pick(&[8_191, 8_192, 8_193]),
        9 | 10 => charts::most_units(segments) + random.between(0, 2) - 1,
        11 => random.pick(&[1 << 16, 1 << 24, u32::MAX - 65_535]) + random.between(0, 300),
        12 => u32::MAX,
        // the last 32 bits of the chart's length have room
        13 => ((1u64 << 32) / (segments as u64 + 2)) as u32,
        _ => random.between(60, 900),
    }
}

fn words_for(unit: &Unit, random: &mut Random) -> Vec<Vec<u8>> {
    let (tag, units) = (some_tag(unit.functions, random), some_units(unit.segments, random));
    let zeros = |random: &mut Random| "0".repeat(random.pick(&[0, 0, 0, 0, 0, 1, 12]));
    [format!("{}{tag}", zeros(random)), format!("{}{units}", zeros(random))].map(String::into_bytes).to_vec()
}

fn cases() -> Vec<Case> {
    let random = &mut Random::new(seed_of(220, 0));
    let mut cases = Vec::new();
    let mut put = |file: Vec<u8>, words: Vec<Vec<u8>>| {
        let piped = cases.len() % 2 == 1;
        cases.push(Case { file, words, piped });
    };
    let two = |tag: u32, units: u32| [tag, units].map(|number| number.to_string().into_bytes()).to_vec();
    // each hard diagram, with the room that 16 segments have or a few turns
    for (place, (_, forbidden)) in units::HARD.into_iter().enumerate() {
        let mut unit = Unit::fresh(1, MOST_SEGMENTS, MOST_COLUMNS).expect("counts in their ranges");
        units::forbid(&mut unit, 1, forbidden, random);
        put(encode(&unit), two(1, if place % 9 == 0 { 8_192 } else { random.between(300, 1_600) }));
    }
    for _ in 0..UNITS {
        let unit = units::unit(random);
        put(encode(&unit), words_for(&unit, random));
    }
    for _ in 0..DAMAGED {
        let unit = units::unit(random);
        let mut file = encode(&unit);
        units::damage(&mut file, random);
        put(file, words_for(&unit, random));
    }
    // cut off, and with bytes after the end
    let unit = model_check::figure_2();
    let file = encode(&unit);
    for length in (0..14).chain([file.len() - 1]) {
        put(file[..length].to_vec(), two(1, 21));
    }
    let longest = encode(&Unit::fresh(MOST_FUNCTIONS, MOST_SEGMENTS, MOST_COLUMNS).expect("counts in their ranges"));
    for file in [&file, &longest] {
        for more in [0, 1, 256, 65_536, 500_000] {
            put([&file[..], &vec![0; more]].concat(), two(1, 21));
        }
    }
    // a file that is refused comes before a function that is not there, and the words before the file
    put(file[..13].to_vec(), two(9, u32::MAX));
    for words in BAD_WORDS {
        let words: Vec<Vec<u8>> = words.iter().map(|word| word.to_vec()).collect();
        put(file.clone(), words.clone());
        put(file[..13].to_vec(), words);
    }
    cases
}

// ---------------------------------------------------------------------------------------------------------------------------------
// Runs

/// A program, and the words before those of a case.
struct Program<'a> {
    path: &'a Path,
    first: &'a [String],
}

impl Case {
    fn told(&self) -> String {
        let words: Vec<String> = self.words.iter().map(|word| format!("'{}'", word.escape_ascii())).collect();
        let way = if self.piped { "through a pipe" } else { "from a file" };
        format!("simulate {} with {} bytes {way}", words.join(" "), self.file.len())
    }

    /// Runs the program in a folder that holds the file alone.
    fn run(&self, program: &Program) -> io::Result<Run> {
        let place = Place::new()?;
        self.folder().make(&place.path)?;
        let input = if self.piped { Stdio::piped() } else { fs::File::open(place.path.join(FILE))?.into() };
        let mut command = Command::new(program.path);
        command.args(program.first).args(self.words.iter().map(|word| OsStr::from_bytes(word)));
        let mut child = command.current_dir(&place.path).stdin(input).stdout(Stdio::piped()).spawn()?;
        let (stdin, mut stdout) = (child.stdin.take(), child.stdout.take().expect("a pipe"));
        let (output, ending) = thread::scope(|scope| {
            scope.spawn(move || {
                if let Some(mut pipe) = stdin {
                    // a program that reads no further shows in what it writes
                    let _ = self.file.chunks(7).try_for_each(|piece| pipe.write_all(piece));
                }
            });
            let reader = scope.spawn(move || {
                let mut output = Vec::new();
                stdout.read_to_end(&mut output).map(|_| output)
            });
            let ending = wait(&mut child, LIMIT);
            (reader.join().expect("the reader ends"), ending)
        });
        let folder = Folder::found(&place.path)?;
        Ok(Run { output: output?, ending: ending?, unanswered: None, folder })
    }

    fn folder(&self) -> Folder {
        Folder { files: BTreeMap::from([(FILE.as_bytes().to_vec(), File::Bytes(self.file.clone()))]) }
    }

    /// The first difference, in words.
    fn difference(&self, answer: Answer, run: Run) -> Option<String> {
        let (name, feed, newline) = (self.told(), Feed::Pieces, true);
        let (before, after, met) = (self.folder(), self.folder(), Vec::new());
        let lines = vec![Line { bytes: self.words.join(&b' '), answer }];
        let script = Script { name, lines, newline, feed, before, after, met };
        let difference = check(&script, &run, &mut Counts::default()).err()?;
        Some(format!("{}\nthe file: {:?}", difference.why, &self.file[..self.file.len().min(300)]))
    }
}

/// How often each sort of answer was met: `chart`, `refused N` and `expected`.
type Told = BTreeMap<String, usize>;

/// Runs the program on every case, up to the first difference.
fn try_program(program: &Program) -> Result<Told, String> {
    let mut console = Console::new(Folder::default());
    let mut told = Told::new();
    for case in cases() {
        console = console.again(Folder::default());
        let answer = answer(&mut console, &case.file, &case.words);
        let sort = match &answer.sort {
            Sort::Of(_, told) if told == "ok" => "chart".to_string(),
            Sort::Of(_, told) => told.clone(),
            _ => unreachable!("the answer of a command"),
        };
        let run = case.run(program).map_err(|error| format!("{}: can't be run: {error}", case.told()))?;
        if let Some(why) = case.difference(answer, run) {
            return Err(why);
        }
        *told.entry(sort).or_default() += 1;
    }
    Ok(told)
}

/// What has to be met.
const SORTS: [&str; 9] =
    ["chart", "refused 1", "refused 2", "refused 6", "refused 7", "refused 11", "refused 12", "refused 13", "expected"];

fn run(program: &Path) -> Result<(), String> {
    charts_check::run()?;
    let told = try_program(&Program { path: program, first: &[] })?;
    let gaps: Vec<&str> = SORTS.into_iter().filter(|sort| !told.contains_key(*sort)).collect();
    if !gaps.is_empty() {
        return Err(format!("NEVER MET: {}", gaps.join("; ")));
    }
    let counts: Vec<String> = told.iter().map(|(sort, count)| format!("{sort} {count}")).collect();
    println!("simulate: no difference in {} runs: {}", told.values().sum::<usize>(), counts.join(", "));
    Ok(())
}

// ---------------------------------------------------------------------------------------------------------------------------------
// The test itself

/// What a stand-in is given.
struct Given {
    file: Vec<u8>,
    words: Vec<Vec<u8>>,
}

impl Given {
    /// With other units.
    fn with_units(&mut self, change: impl Fn(u32) -> u32) {
        if let [_, units] = &mut self.words[..] {
            if let Some(number) = number(units) {
                *units = change(number).to_string().into_bytes();
            }
        }
    }
}

/// A stand-in that is wrong in what it takes or in what it writes.
type Wrong = (&'static str, fn(&mut Given), fn(String) -> String);

const WRONG: [Wrong; 24] = [
    ("passes over words after the second", |given| given.words.truncate(2), |text| text),
    (
        "takes words apart at spaces",
        |given| given.words = given.words.join(&b' ').split(|byte| *byte == b' ').map(<[u8]>::to_vec).collect(),
        |text| text,
    ),
    (
        "takes one word for a function, and 21 units",
        |given| given.words.extend((given.words.len() == 1).then(|| b"21".to_vec())),
        |text| text,
    ),
    ("exchanges its words", |given| given.words.reverse(), |text| text),
    (
        "takes an empty word for 0",
        |given| given.words.iter_mut().filter(|word| word.is_empty()).for_each(|word| word.push(b'0')),
        |text| text,
    ),
    (
        "takes a plus in front of a number",
        |given| given.words.iter_mut().for_each(|word| *word = word.strip_prefix(b"+").unwrap_or(word).to_vec()),
        |text| text,
    ),
    (
        "takes the digits in front for a number",
        |given| {
            for word in &mut given.words {
                let end = word.iter().position(|byte| !byte.is_ascii_digit()).filter(|end| *end > 0);
                word.truncate(end.unwrap_or(word.len()));
            }
        },
        |text| text,
    ),
    (
        "takes numbers modulo 2^32",
        |given| {
            for word in given.words.iter_mut().filter(|word| word.iter().all(|byte| byte.is_ascii_digit())) {
                if let Ok(number) = String::from_utf8_lossy(word).parse::<u128>() {
                    *word = (number % (1 << 32)).to_string().into_bytes();
                }
            }
        },
        |text| text,
    ),
    ("takes zeros in front for no number", |given| given.words.retain(|word| word.len() == 1 || !word.starts_with(b"0")), |text| text),
    ("takes its units modulo 65,536", |given| given.with_units(|units| units % 65_536), |text| text),
    ("takes 8,192 units at most", |given| given.with_units(|units| if units > 8_192 { u32::MAX } else { units }), |text| text),
    ("plays 8,192 units at most", |given| given.with_units(|units| units.min(8_192)), |text| text),
    ("takes no units for one", |given| given.with_units(|units| units.max(1)), |text| text),
    ("plays a unit more", |given| given.with_units(|units| units.saturating_add(1)), |text| text),
    ("reads 268 bytes at most", |given| given.file.truncate(268), |text| text),
    (
        "reads as far as the file should go",
        |given| {
            if let [functions, segments, ..] = given.file[..] {
                given.file.truncate(file_length(functions as u32, segments as u32));
            }
        },
        |text| text,
    ),
    ("reads 7 bytes at most", |given| given.file.truncate(7), |text| text),
    (
        "looks at the file before its words",
        |given| {
            if decode(&given.file).is_err() {
                given.words = vec![b"1".to_vec(); 2];
            }
        },
        |text| text,
    ),
    ("tells a line's number", |_| {}, |text| text.replace("expected simulate", "line 1: expected simulate")),
    ("tells nothing of words that are wrong", |_| {}, |text| if text.starts_with("expected") { String::new() } else { text }),
    ("refuses a search by 8", |_| {}, |text| text.replace("refused 7", "refused 8")),
    ("refuses a long chart by 15", |_| {}, |text| text.replace("refused 6", "refused 15")),
    ("shows the plan too", |_| {}, |text| if text.starts_with("unit") { format!("plan 1 cycle 1 sum 1\n{text}") } else { text }),
    ("leaves the last newline out", |_| {}, |text| text.trim_end_matches('\n').to_string()),
];

/// The stand-in of this number: the right one, those that are wrong, those that draw charts in a wrong way, and two that end in a wrong way.
fn stand_in(place: usize, words: Vec<Vec<u8>>) -> io::Result<()> {
    let mut given = Given { file: Vec::new(), words };
    io::stdin().read_to_end(&mut given.file)?;
    let (mut write, mut draw): (fn(String) -> String, Draw) = (|text| text, Chart::text);
    let (wrong, drawn) = (place.wrapping_sub(1), place.wrapping_sub(1 + WRONG.len()));
    if let Some((_, take, other)) = WRONG.get(wrong) {
        take(&mut given);
        write = *other;
    }
    if let Some((_, other)) = CHART_FAULTS.get(drawn) {
        draw = *other;
    }
    let answer = answer(&mut Console::new(Folder::default()), &given.file, &given.words);
    let text = Filler::new(draw).text(&answer, &mut Random::new(seed_of(221, given.file.len() as u64)));
    io::stdout().write_all(write(text).as_bytes())?;
    match drawn.wrapping_sub(CHART_FAULTS.len()) {
        0 => exit(3),
        1 => fs::write("left", b""),
        _ => Ok(()),
    }
}

fn selftest() -> Result<(), String> {
    let this = std::env::current_exe().map_err(|error| error.to_string())?;
    let wrongs = WRONG.iter().map(|(what, _, _)| *what).chain(CHART_FAULTS.iter().map(|(what, _)| *what));
    let names: Vec<&str> = wrongs.chain(["ends with status 3 after a chart", "leaves a file behind"]).collect();
    let try_stand_in = |place: usize| try_program(&Program { path: &this, first: &["stand-in".to_string(), place.to_string()] });
    let told = try_stand_in(0).map_err(|why| format!("selftest: the stand-in is not accepted\n{why}"))?;
    let gaps: Vec<&str> = SORTS.into_iter().filter(|sort| !told.contains_key(*sort)).collect();
    if !gaps.is_empty() {
        return Err(format!("selftest: NEVER MET: {}", gaps.join("; ")));
    }
    println!("selftest: a stand-in is accepted in {} runs: {told:?}", told.values().sum::<usize>());
    for (place, what) in (1..).zip(&names) {
        match try_stand_in(place) {
            Ok(_) => return Err(format!("selftest: NOT REPORTED: {what}")),
            Err(why) => println!("selftest: {}: {what}", why.lines().next().unwrap_or_default()),
        }
    }
    println!("selftest: {} wrong programs, and every one is reported", names.len());
    Ok(())
}

fn main() {
    let arguments: Vec<Vec<u8>> = std::env::args_os().skip(1).map(|word| word.into_vec()).collect();
    let words: Vec<&[u8]> = arguments.iter().map(|word| &word[..]).collect();
    let done = match words[..] {
        [b"selftest"] => selftest(),
        [b"stand-in", place, ref words @ ..] => {
            let place = number(place).expect("a number") as usize;
            stand_in(place, words.iter().map(|word| word.to_vec()).collect()).map_err(|error| error.to_string())
        }
        [program] => match path_of(&String::from_utf8_lossy(program)) {
            Some(path) => run(&path),
            None => Err(format!("simulate: {} is missing", program.escape_ascii())),
        },
        _ => Err("simulate PROGRAM | simulate selftest".to_string()),
    };
    if let Err(why) = done {
        println!("{why}");
        exit(1);
    }
}
