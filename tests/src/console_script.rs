//! Scripts for the console, good lines and bad ones, made from fixed seeds. Each line has its answer before the program is run.

use crate::callers::{CALLER_ROOM, MOST_CALLERS};
use crate::charts;
use crate::console_folder::{has_devices, File, Folder, FULL, INNER, NULL, PART};
use crate::console_model::*;
use crate::console_watch::Watch;
use crate::delays_check::EXAMPLES;
use crate::loops::MOST_TAGS;
use crate::model::*;
use crate::model_check::{figure_1, figure_2, unit_of};
use crate::queue::{Task, MOST_WAITING};
use crate::queue_check::TICKETS;
use crate::random::{seed_of, Random};
use crate::record_files::*;
use crate::records::laid_out;
use crate::small::{sizes, Size};
use crate::{delays, loops_check, routes, units};

pub struct Line {
    /// Without the newline.
    pub bytes: Vec<u8>,
    pub answer: Answer,
}

/// How the input comes to the program.
#[derive(Clone, Copy, PartialEq, Eq, Debug)]
pub enum Feed {
    /// In pieces of all sizes, which don't end where lines end.
    Pieces,
    Bytes,
    /// A line comes when all lines before it are answered, as from somebody who reads the answers.
    Turns,
}

pub struct Script {
    pub name: String,
    pub lines: Vec<Line>,
    /// Whether the last line ends in a newline.
    pub newline: bool,
    pub feed: Feed,
    pub before: Folder,
    pub after: Folder,
    /// Special cases that the script is one of.
    pub met: Vec<&'static str>,
}

impl Script {
    pub fn input(&self) -> Vec<u8> {
        let mut input: Vec<u8> = self.lines.iter().flat_map(|line| line.bytes.iter().chain(b"\n")).copied().collect();
        if !self.newline {
            input.pop();
        }
        input
    }

    /// Leaves out the files that no line names: a few lines name few of them, and it takes time to put files into a folder. Links are
    /// kept, and what they lead to.
    fn leave_out(&mut self) {
        let input = self.input();
        let kept = |name: &[u8], file: &File| {
            let is_named = input.windows(name.len()).any(|bytes| bytes == name);
            is_named || matches!(file, File::Link(_)) || LINKS.iter().any(|target| target.as_bytes() == name)
        };
        let idle: Vec<Vec<u8>> = self.before.files.iter().filter(|(name, file)| !kept(name, file)).map(|(name, _)| name.clone()).collect();
        for name in idle {
            self.before.files.remove(&name);
            self.after.files.remove(&name);
        }
    }

    /// Each line with its newline, and how many lines the answers have up to it.
    pub fn turns(&self) -> Vec<(Vec<u8>, usize)> {
        let mut height = 0;
        let turn = |line: &Line| {
            height += line.answer.height();
            ([&line.bytes[..], b"\n"].concat(), height)
        };
        self.lines.iter().map(turn).collect()
    }
}

// ---------------------------------------------------------------------------------------------------------------------------------
// Files

/// Files in order: one for each hard diagram, some of the outermost counts, and random units.
const GOOD_FILES: usize = 90;
const DAMAGED_FILES: usize = 160;
/// So many of them, the first ones, are refused for certain. Of the others a few are in order, with other marks.
const REFUSED_FILES: usize = 17;
const LONG_FILES: usize = 3;
/// Records of special and of random cycles, and damaged ones, beside the unit files.
const RECORD_FILES: usize = 60;
const TORN_FILES: usize = 80;
/// So many of each, the first ones, may be replaced.
const REPLACED_FILES: u64 = 30;
/// How many files records are written to again and again.
const PLAN_NAMES: u64 = 8;
/// Units for delays: one for each table worked out by hand, and random ones.
const DELAY_FILES: usize = EXAMPLES.len() + 43;
/// Units for tasks that wait: special ones, and random ones.
const QUEUE_FILES: usize = 48;

fn good_name(place: usize) -> String {
    format!("unit{place}")
}

fn damaged_name(place: usize) -> String {
    format!("damaged{place}")
}

fn long_name(place: usize) -> String {
    format!("long{place}")
}

/// A record that stands before the first line.
fn record_name(place: usize) -> String {
    format!("record{place}")
}

/// A damaged record.
fn torn_name(place: usize) -> String {
    format!("torn{place}")
}

/// A file with the unit of a hard list of tags.
fn list_name(place: usize) -> String {
    format!("list{place}")
}

/// A unit for delays.
fn delay_name(place: usize) -> String {
    format!("delay{place}")
}

/// A unit for tasks that wait.
fn queue_name(place: usize) -> String {
    format!("queue{place}")
}

/// Fig. 1's unit.
const FIGURE: &str = "figure";

/// Where symbolic links lead: to files that are saved now and then, to a file in order, to a file that is not there before one is saved along
/// the link, to another link, to the inner folder, into a folder that is not there, to a device and around in a circle.
const LINKS: [&str; 10] = ["again0", "inner/again0", "unit40", "linked", "link0", INNER, "missing/linked", FULL, NULL, "link9"];
/// The link to the inner folder.
const INNER_LINK: usize = 5;

fn link_name(place: usize) -> String {
    format!("link{place}")
}

/// The unit of the most counts, with marks in so many of its places.
fn full_unit(part: u64, whole: u64, random: &mut Random) -> Unit {
    let mut unit = Unit::fresh(MOST_FUNCTIONS, MOST_SEGMENTS, MOST_COLUMNS).expect("counts in their ranges");
    for tag in 1..=MOST_FUNCTIONS {
        for segment in 1..=MOST_SEGMENTS {
            for column in 1..=MOST_COLUMNS {
                if random.chance(part, whole) {
                    unit.marks.insert(Mark { tag, segment, column });
                }
            }
        }
    }
    unit
}

fn good_unit(place: usize, random: &mut Random) -> Unit {
    if let Some((_, forbidden)) = units::HARD.get(place) {
        let mut unit = Unit::fresh(random.between(1, 3), MOST_SEGMENTS, MOST_COLUMNS).expect("counts in their ranges");
        let tag = random.between(1, unit.functions);
        units::forbid(&mut unit, tag, forbidden, random);
        return unit;
    }
    match place - units::HARD.len() {
        0 => full_unit(1, 1, random),
        1 => full_unit(1, 2, random),
        2 => full_unit(1, 20, random),
        3 => full_unit(0, 1, random),
        4 => Unit::fresh(1, 1, 1).expect("counts in their ranges"),
        _ => units::unit(random),
    }
}

/// The function that a table worked out by hand is in its unit, and how many there are.
fn tag_of_example(place: usize) -> (u32, u32) {
    let functions = place as u32 % MOST_FUNCTIONS + 1;
    (place as u32 / MOST_FUNCTIONS % functions + 1, functions)
}

/// Beside a table worked out by hand there are functions with up to two marks in a column.
fn delay_unit(place: usize, random: &mut Random) -> Unit {
    let Some(example) = EXAMPLES.get(place) else { return routes::unit(random) };
    let (tag, functions) = tag_of_example(place);
    let mut rows: Vec<&[&[u32]]> = vec![&[]; functions as usize];
    rows[tag as usize - 1] = example.rows;
    let mut unit = unit_of(example.rows.len() as u32, example.columns, &rows);
    for other in (1..=functions).filter(|other| *other != tag) {
        for _ in 0..random.between(1, 2) {
            routes::route(&mut unit, other, random);
        }
    }
    unit
}

/// The special units for tasks that wait, by their places.
const FIGURE_2: usize = 0;
/// One function that is in one segment in all of 4 columns, and of 32: each start holds the next one back for n time units.
const ALL_OF_4: usize = 1;
const ALL_OF_32: usize = 2;
/// Four functions without marks.
const NO_MARKS: usize = 3;
/// Function 2 meets function 1 when it starts 31 time units after it, and nobody else.
const APART: usize = 4;
/// Three functions with a mark each in one segment, so that none meets its own tasks, and one without marks.
const ONE_EACH: usize = 5;

fn queue_unit(place: usize, random: &mut Random) -> Unit {
    let all: Vec<u32> = (1..=MOST_COLUMNS).collect();
    match place {
        FIGURE_2 => figure_2(),
        ALL_OF_4 => unit_of(1, 4, &[&[&all[..4]]]),
        ALL_OF_32 => unit_of(1, 32, &[&[&all]]),
        NO_MARKS => Unit::fresh(MOST_FUNCTIONS, MOST_SEGMENTS, MOST_COLUMNS).expect("counts in their ranges"),
        APART => unit_of(1, 32, &[&[&[32]], &[&[1]]]),
        ONE_EACH => unit_of(1, 9, &[&[&[4]], &[&[9]], &[&[]], &[&[1]]]),
        _ if random.chance(1, 3) => units::unit(random),
        _ => {
            // several functions that meet each other
            let (functions, segments, columns) = (random.between(2, 4), random.between(1, 5), random.between(2, 9));
            let mut unit = Unit::fresh(functions, segments, columns).expect("counts in their ranges");
            for tag in 1..=functions {
                routes::route(&mut unit, tag, random);
            }
            unit
        }
    }
}

fn files(random: &mut Random) -> Folder {
    let mut folder = Folder::default();
    let mut put = |name: String, file: File| {
        folder.files.insert(name.into_bytes(), file);
    };
    for place in 0..GOOD_FILES {
        put(good_name(place), File::Bytes(encode(&good_unit(place, random))));
    }
    for place in 0..DAMAGED_FILES {
        let bytes = match place {
            // a file of the most counts, cut after 0 to 12 bytes and before its last one, and with bytes too many
            0..=12 => encode(&full_unit(1, 4, random))[..place].to_vec(),
            13 => encode(&full_unit(1, 4, random))[..267].to_vec(),
            14..=16 => {
                let mut file = encode(&full_unit(1, 4, random));
                file.extend(vec![0; [1, 256, 65_536][place - 14]]);
                file
            }
            _ => {
                let mut file = encode(&units::unit(random));
                units::damage(&mut file, random);
                file
            }
        };
        put(damaged_name(place), File::Bytes(bytes));
    }
    for (place, row) in loops_check::HARD.into_iter().enumerate() {
        put(list_name(place), File::Bytes(encode(&loops_check::hard_unit(row))));
    }
    let cycles = special_cycles();
    for place in 0..RECORD_FILES {
        let cycle = cycles.get(place).cloned().unwrap_or_else(|| random_cycle(random));
        put(record_name(place), File::Bytes(laid_out(&cycle)));
    }
    let torn: Vec<Vec<u8>> = [&[3, 4][..], &[2, 2, 7], &[8], &[32; 256]].iter().flat_map(|cycle| damaged(cycle, random)).collect();
    for place in 0..TORN_FILES {
        // not those with 65,536 bytes more
        let some = loop {
            let some = &torn[random.below(torn.len() as u64) as usize];
            if some.len() < 5_000 {
                break some;
            }
        };
        put(torn_name(place), File::Bytes(some.clone()));
    }
    put(FIGURE.to_string(), File::Bytes(encode(&figure_1())));
    for place in 0..DELAY_FILES {
        put(delay_name(place), File::Bytes(encode(&delay_unit(place, random))));
    }
    for place in 0..QUEUE_FILES {
        put(queue_name(place), File::Bytes(encode(&queue_unit(place, random))));
    }
    // lengths that are right if one takes their last 32 bits alone, and zeros after a file in order
    let file = encode(&units::unit(random));
    let length = file.len() as u64;
    for (place, more) in [1 << 20, 1 << 32, 5 << 30].into_iter().enumerate() {
        put(long_name(place), File::Long(file.clone(), length + more));
    }
    for (place, target) in LINKS.into_iter().enumerate() {
        if has_devices() || !target.starts_with('/') {
            put(link_name(place), File::Link(target.as_bytes().to_vec()));
        }
    }
    folder
}

// ---------------------------------------------------------------------------------------------------------------------------------
// Lines

/// The files of the script about records, all of them named in it: records of special and of random cycles; records damaged in every
/// single way, cut at every length or with every bit the other way, and at random; and files of special lengths.
fn all_records(random: &mut Random) -> Vec<File> {
    let mut files: Vec<Vec<u8>> = special_cycles().iter().map(|cycle| laid_out(cycle)).collect();
    files.extend((0..150).map(|_| laid_out(&random_cycle(random))));
    let mut bases = vec![vec![3, 4], vec![1], vec![8], vec![2, 2, 7], vec![1; 8], vec![32; 8], vec![1; 256], vec![32; 256]];
    bases.extend((0..5).map(|_| random_cycle(random)));
    files.extend(bases.iter().flat_map(|cycle| damaged(cycle, random)));
    files.extend(wrong_lists(random).iter().map(|list| laid_out(list)));
    let medium: Vec<u8> = (0..24).map(|_| random.between(1, 32) as u8).collect();
    for cycle in [&[3, 4][..], &[1; 30], &medium] {
        files.extend(cut_off(&laid_out(cycle)));
    }
    // the longest record around its fields, its list and its ends, and some lengths between
    let near = |length: &usize| (0..20).contains(length) || (255..275).contains(length) || *length > 1_275 || length % 50 == 0;
    files.extend(cut_off(&laid_out(&[32; 256])).into_iter().filter(|file| near(&file.len())));
    for cycle in [&[3, 4][..], &[8], &[9, 1, 30, 2, 5]] {
        files.extend(flipped(&laid_out(cycle)));
    }
    for _ in 0..400 {
        let mut file = laid_out(&random_cycle(random));
        damage(&mut file, random);
        files.push(file);
    }
    for _ in 0..40 {
        let length = random.below(60) as usize;
        files.push(random.bytes(length));
    }
    files.extend(of_lengths(random));
    for _ in 0..20 {
        files.push(encode(&units::unit(random)));
    }
    let mut files: Vec<File> = files.into_iter().map(File::Bytes).collect();
    // lengths that are right if one takes their last 32 bits alone
    let record = laid_out(&[3, 4]);
    let length = record.len() as u64;
    files.push(File::Long(record, length + (1 << 32)));
    files
}

struct Writer {
    random: Random,
    console: Console<Folder>,
    /// What is seen of the issue port from outside.
    watch: Watch,
    lines: Vec<Line>,
    most: usize,
    /// How many files were saved, and how many records were written, under a name of their own.
    saved: usize,
    kept: usize,
    /// Whether the system has the devices that the script may name.
    has_devices: bool,
    /// Whether each line ends in a carriage return.
    returns: bool,
}

/// No program that reads the line in some wrong way shall write outside its folder: every `/` has to come after a letter, a digit, a dot
/// or another `/`, and no two dots may stand together.
fn harmless(line: &[u8]) -> bool {
    let devices = [NULL.as_bytes(), FULL.as_bytes()];
    match line.split(|byte| *byte == b' ').collect::<Vec<_>>()[..] {
        [b"load" | b"save" | b"report" | b"ring", file] if devices.contains(&file) => return true,
        [b"record", tag, file] if devices.contains(&file) && number(tag).is_some() => return true,
        [b"delays", tag, latency, file] if devices.contains(&file) && number(tag).is_some() && number(latency).is_some() => return true,
        _ => {}
    }
    let inside = |byte: u8| byte.is_ascii_alphanumeric() || byte == b'.' || byte == b'/';
    let mut slashes = (0..line.len()).filter(|place| line[*place] == b'/');
    slashes.all(|place| place > 0 && inside(line[place - 1])) && !line.windows(2).any(|pair| pair == b"..")
}

const MANY: [&str; 8] = ["255", "256", "300", "65536", "65537", "2147483648", "4294967040", "4294967295"];
const TOO_MANY: [&str; 9] = [
    "4294967296",
    "4294967297",
    "5000000000",
    "9999999999",
    "42949672950",
    "99999999999",
    "18446744073709551616",
    "18446744073709551617",
    "340282366920938463463374607431768211457",
];
/// Words that are no numbers, and some that are one with blanks beside it.
const NO_NUMBERS: [&[u8]; 23] = [
    b"",
    b"x",
    b"1x",
    b"x1",
    b"-1",
    b"+1",
    b"0x1",
    b"1.0",
    b"1e0",
    b"1,",
    b"1\t",
    b"\t1",
    b"1\0",
    b"\0",
    b"\xff",
    b"\xd9\xa1",
    b"1_0",
    b"1\r",
    b"1\r\r",
    b"\r1",
    b"1\x0c",
    b"Q",
    b"1/1",
];
const NO_COMMANDS: [&[u8]; 58] = [
    b"help",
    b"quit",
    b"exit",
    b"x",
    b"?",
    b"1",
    b"1 1 1",
    b"marks 1 1 1",
    b"mar 1 1 1",
    b"ma",
    b"freshen 1 1 1",
    b"starts 1",
    b"star 1",
    b"state 1",
    b"statess 1",
    b"un mark 1 1 1",
    b"unmarked 1 1 1",
    b"tick;tick",
    b"ticktick",
    b"bank,",
    b"judge1 1",
    b"loops 1 2",
    b"loo 1 2",
    b"records 1 plan0",
    b"recor 1 plan0",
    b"reports record0",
    b"repor record0",
    b"rings record0",
    b"rin record0",
    b"simulates 1 9",
    b"simulat 1 9",
    b"simulate1 9",
    b"delay 1 3",
    b"delayss 1 3",
    b"delays1 3",
    b"arrives 1 7",
    b"arriv 1 7",
    b"arrive1 7",
    b"passes",
    b"pas",
    b"pass1",
    b"queues",
    b"queu",
    b"queue:",
    b"caller 2",
    b"callerss 2",
    b"callers2",
    b"calls 1 1 7",
    b"cal 1 1 7",
    b"call1 1 7",
    b"turns",
    b"tur",
    b"turn1",
    b"smalls 1 1",
    b"smal 1 1",
    b"small1 1",
    b"\xef\xbb\xbftick",
    b"line 1: expected a command",
];
/// File names with bytes that mean something elsewhere, and some that are numbers. One with a tab is none, nor is a carriage return at the
/// line's end.
const ODD_NAMES: [&[u8]; 25] = [
    b"-",
    b"--",
    b"~",
    b"*",
    b"#",
    b"%s%n",
    b"$HOME",
    b"a;b",
    b"'q'",
    b"\\",
    b"\"",
    b"a\tb",
    b"\r",
    b"a\rb",
    b"\ra",
    b"a\r\r",
    b"a\x0b",
    b"\xe9t\xe9",
    b"\xff\xfe",
    b"FILE",
    b"1",
    b"007",
    b"4294967295",
    b"4294967296",
    b"-1",
];
/// Every sort of command, and lines that are none, for a unit of two functions, 3 segments and 5 columns with a plan for the first one and
/// its record.
const BETWEEN: [&str; 94] = [
    "fresh 1 1 1",
    "fresh 2 3 5",
    "fresh 0 3 5",
    "fresh 2 3",
    "load queue0",
    "load queue3",
    "load damaged0",
    "load missing",
    "load plan0",
    "mark 1 1 2",
    "mark 2 1 1",
    "mark 1 1 1",
    "mark 2 3 3",
    "mark 3 1 1",
    "mark 1 4 1",
    "mark 1 1 6",
    "mark 1 1",
    "unmark 1 1 1",
    "unmark 2 3 3",
    "unmark 1 1 2",
    "unmark 2 1 1",
    "unmark 3 1 1",
    "unmark 1 4 1",
    "unmark 1 1 6",
    "unmark 1 1",
    "search 1",
    "search 2",
    "search 3",
    "read",
    "vector 1",
    "row 1 2",
    "states 1",
    "greedy 1",
    "bound 1",
    "upper 1",
    "constant 1",
    "judge 1 9",
    "judge 1 2",
    "judge 1",
    "tick",
    "start 1",
    "start 2",
    "start 3",
    "bank",
    "save again0",
    "save missing/out",
    "list",
    "table 1",
    "table 3",
    "diagram 1",
    "loop 1 2",
    "loop 3",
    "record 1 plan0",
    "record 2 plan0",
    "record 1 missing/out",
    "report plan0",
    "report queue0",
    "report missing",
    "ring plan0",
    "ring missing",
    "simulate 1 9",
    "simulate 2 9",
    "delays 1 3",
    "delays 1 1",
    "delays 1 3 again0",
    "delays 1 3 missing/out",
    "arrive 1 9",
    "arrive 3 9",
    "arrive 1",
    "pass",
    "pass 1",
    "queue",
    "queue 1",
    "callers 3",
    "callers 2",
    "callers 5",
    "callers",
    "call 1 1 9",
    "call 0 1 9",
    "call 1 3 9",
    "call 1 1",
    "turn",
    "turn 1",
    "small 1 3",
    "small 2 2 6",
    "small 1 1 0",
    "small 3 1",
    "small 7 1 0",
    "small 1 2 4",
    "small 1",
    "turns",
    "tack",
    "# a comment",
    "",
];
/// Lines of blanks, carriage returns and signs of a comment: some are passed over, some are not.
const BARE_LINES: [&[u8]; 22] = [
    b" ",
    b"   ",
    b"\t",
    b"\t\t",
    b" \t ",
    b"\r",
    b" \r",
    b"\t\r",
    b"\r\r",
    b"\r ",
    b" \r \r",
    b" #",
    b"\t#",
    b" \t # tick",
    b"#\r",
    b" #\r",
    b"\r#",
    b"\r# tick",
    b"\r #",
    b"\x0b",
    b"\x0c#",
    b"\0",
];
/// In how many forms long lines come.
const LONG_FORMS: u64 = 55;
/// Lengths of lines: around the limit, around multiples of it, and far above it.
const LENGTHS: [usize; 21] = [
    4_095, 4_095, 4_096, 4_096, 4_096, 4_097, 4_097, 4_098, 5_000, 8_190, 8_191, 8_192, 8_193, 8_194, 12_288, 12_289, 16_384, 65_535,
    65_536, 65_537, 100_000,
];

/// What a command wants: a file that is not there, two numbers for any number of them, and this number for each other.
fn words_for(wants: &str, number: &str) -> String {
    let words = wants.replace("[FILE]", "missing").replace("FILE", "missing").replace("[NUMBER]", "9");
    let words = words.replace("UNITS", "9").replace("TICKET", "9");
    words.replace(" L L ..", " 1 1").replace(" Q Q ..", " 1 1").replace(['P', 'S', 'Q', 'R', 'C', 'M', 'I'], number)
}

impl Writer {
    fn new(seed: u64, most: usize, console: Console<Folder>) -> Writer {
        let (random, lines) = (Random::new(seed), Vec::new());
        Writer { random, console, watch: Watch::default(), lines, most, saved: 0, kept: 0, has_devices: has_devices(), returns: false }
    }

    /// Puts a line, now and then with blanks around its words.
    fn put(&mut self, line: impl AsRef<[u8]>) {
        let line = line.as_ref();
        if line.len() < 1_000 && self.random.chance(1, 8) {
            let other = self.with_blanks(line);
            if harmless(&other) {
                return self.put_bare(other);
            }
        }
        self.put_bare(line);
    }

    /// Puts a line as it is.
    fn put_bare(&mut self, line: impl AsRef<[u8]>) {
        let mut bytes = line.as_ref().to_vec();
        if self.returns {
            bytes.push(b'\r');
        }
        if self.lines.len() == self.most || bytes.contains(&b'\n') || !harmless(&bytes) {
            return;
        }
        let mut answer = self.console.answer(&bytes, self.lines.len() + 1);
        let seen = self.watch.see(&bytes, &answer, self.console.unit.as_ref());
        answer.met.extend(seen.unwrap_or_else(|why| panic!("line {}: {why}", self.lines.len() + 1)));
        self.lines.push(Line { bytes, answer });
    }

    fn full(&self) -> bool {
        self.lines.len() == self.most
    }

    /// Functions, segments and columns of the unit, or some where there is none.
    fn counts(&self) -> (u32, u32, u32) {
        self.console.unit.as_ref().map_or((2, 3, 8), |unit| (unit.functions, unit.segments, unit.columns))
    }

    // -----------------------------------------------------------------------------------------------------------------------------
    // Blanks

    /// One blank or more.
    fn blanks(&mut self) -> Vec<u8> {
        let count = self.random.pick(&[1, 1, 1, 1, 2, 2, 3, 9]);
        (0..count).map(|_| self.random.pick(&[b' ', b' ', b'\t'])).collect()
    }

    /// The line with other blanks in place of its spaces, in front and at its end, and with a carriage return there: each of them now and
    /// then. A command says the same with them.
    fn with_blanks(&mut self, line: &[u8]) -> Vec<u8> {
        let mut other = if self.random.chance(1, 3) { self.blanks() } else { Vec::new() };
        for byte in line {
            if *byte == b' ' && self.random.chance(1, 2) {
                other.extend(self.blanks());
            } else {
                other.push(*byte);
            }
        }
        if self.random.chance(1, 3) {
            other.extend(self.blanks());
        }
        if self.random.chance(1, 3) {
            other.push(b'\r');
        }
        other
    }

    // -----------------------------------------------------------------------------------------------------------------------------
    // Words

    /// A number as it is written, now and then with zeros in front.
    fn digits(&mut self, number: u32) -> String {
        let zeros = match self.random.below(400) {
            0..=15 => self.random.pick(&[1, 1, 2, 3, 9, 10, 11, 20]),
            16 => self.random.pick(&[40, 255, 256, 1_000]),
            _ => 0,
        };
        format!("{}{number}", "0".repeat(zeros))
    }

    /// A number that is wanted from 1 to `most`: mostly it is.
    fn argument(&mut self, most: u32) -> String {
        let inside = self.random.between(1, most);
        match self.random.below(100) {
            0 => self.digits(0),
            1 => self.digits(most + 1),
            2 => self.random.pick(&MANY).to_string(),
            3 => {
                let wide = self.random.pick(&[256, 65_536, 1 << 24, 1 << 31, u32::MAX - 255]);
                self.digits(wide + inside)
            }
            4 if self.random.chance(1, 2) => self.random.pick(&TOO_MANY).to_string(),
            // its last 32 or 64 bits are inside
            4 => {
                let bits = self.random.pick(&[32, 33, 64]);
                format!("{}", (1u128 << bits) + inside as u128)
            }
            _ => self.digits(inside),
        }
    }

    fn tag(&mut self) -> String {
        if self.random.chance(1, 2) {
            let tag = self.good_tag();
            return self.digits(tag);
        }
        let (functions, _, _) = self.counts();
        self.argument(functions)
    }

    /// A mark that stands, where there is one.
    fn standing(&mut self) -> Option<Mark> {
        let unit = self.console.unit.as_ref()?;
        let count = unit.marks.len() as u64;
        let place = if count == 0 { 0 } else { self.random.below(count) };
        unit.marks.iter().nth(place as usize).copied()
    }

    /// A tag of the unit, more often one with marks.
    fn good_tag(&mut self) -> u32 {
        let (functions, _, _) = self.counts();
        let any = self.random.between(1, functions);
        match self.standing() {
            Some(mark) if self.random.chance(2, 3) => mark.tag,
            _ => any,
        }
    }

    fn fresh_counts(&mut self) -> (u32, u32, u32) {
        let random = &mut self.random;
        match random.below(20) {
            0 => (4, 16, 32),
            1 => (random.pick(&[1, 4]), random.pick(&[1, 16]), random.pick(&[1, 31, 32])),
            2 => (random.between(1, 4), random.between(1, 16), random.between(1, 32)),
            3 | 4 => (random.between(1, 4), random.between(1, 4), random.between(11, 32)),
            5..=7 => (random.between(1, 2), random.between(1, 2), random.between(1, 3)),
            _ => (random.between(1, 4), random.between(1, 5), random.between(2, 10)),
        }
    }

    fn load_name(&mut self) -> Vec<u8> {
        let random = &mut self.random;
        let good = good_name(random.below(GOOD_FILES as u64) as usize);
        let text = match random.below(72) {
            0..=15 => damaged_name(random.below(DAMAGED_FILES as u64) as usize),
            16 => long_name(random.below(LONG_FILES as u64) as usize),
            17..=24 => format!("again{}", random.below(12)),
            25..=28 => format!("out{}", random.below(self.saved as u64 + 1)),
            29 | 30 => format!("{INNER}/again{}", random.below(3)),
            31 => format!("./{good}"),
            32 => format!(".///./{good}"),
            33 => format!("{INNER}/{good}"),
            34 => format!("missing/{good}"),
            35 => format!("{good}/"),
            36 => format!("{good}\0"),
            37 => format!("{good}\0x"),
            38 => format!("{good}."),
            39 => good.to_uppercase(),
            40 => random.pick(&[INNER, ".", "./", "inner/", "missing"]).to_string(),
            41 => "n".repeat(random.pick(&[249, 250, 251, 254, 255, 256, 257, 300, 1_000, 4_091])),
            42 if self.has_devices => NULL.to_string(),
            43 | 44 => return random.pick(&ODD_NAMES).to_vec(),
            45 => format!("missing{}", random.below(100)),
            46..=49 => link_name(random.below(LINKS.len() as u64) as usize),
            50 => format!("{}/again{}", link_name(INNER_LINK), random.below(3)),
            51 => format!("again{}{PART}", random.below(12)),
            // records, which are no units
            52 | 53 => format!("plan{}", random.below(PLAN_NAMES)),
            54 => format!("kept{}", random.below(self.kept as u64 + 1)),
            55 | 56 => record_name(random.below(RECORD_FILES as u64) as usize),
            57 => torn_name(random.below(TORN_FILES as u64) as usize),
            58 | 59 => delay_name(random.below(DELAY_FILES as u64) as usize),
            _ => good,
        };
        text.into_bytes()
    }

    fn save_name(&mut self) -> Vec<u8> {
        let random = &mut self.random;
        let text = match random.below(52) {
            0..=15 => format!("again{}", random.below(12)),
            16..=18 => format!("{INNER}/again{}", random.below(3)),
            19 => format!("./again{}", random.below(12)),
            20 | 21 => format!("missing/out{}", random.below(9)),
            22 => format!("{INNER}/missing/out{}", random.below(9)),
            23 => random.pick(&[INNER, ".", "./", "inner/", "./inner", "new/"]).to_string(),
            24 => format!("again{}\0x", random.below(12)),
            25 => format!("new{}\0", random.below(100)),
            26 => "n".repeat(random.pick(&[249, 250, 251, 254, 255, 256, 257, 300, 4_091])),
            27 if self.has_devices => FULL.to_string(),
            28 if self.has_devices => NULL.to_string(),
            29 | 30 => return random.pick(&ODD_NAMES).to_vec(),
            // over a file that is damaged, which is longer now and then
            31 | 32 => damaged_name(random.below(DAMAGED_FILES as u64) as usize),
            33..=37 => link_name(random.below(LINKS.len() as u64) as usize),
            38 => format!("{}/again{}", link_name(INNER_LINK), random.below(3)),
            39 => format!("again{}{PART}", random.below(12)),
            40 | 41 => format!("plan{}", random.below(PLAN_NAMES)),
            42 => record_name(random.below(REPLACED_FILES) as usize),
            _ => {
                self.saved += 1;
                format!("out{}", self.saved)
            }
        };
        text.into_bytes()
    }

    /// Where a record goes: to a name that records have again and again, to one of its own, over files of all sorts, or to what a save may
    /// name.
    fn plan_name(&mut self) -> Vec<u8> {
        let random = &mut self.random;
        let text = match random.below(24) {
            0..=7 => format!("plan{}", random.below(PLAN_NAMES)),
            8 => format!("{INNER}/plan{}", random.below(2)),
            9 | 10 => format!("again{}", random.below(12)),
            11 => record_name(random.below(REPLACED_FILES) as usize),
            12 | 13 => torn_name(random.below(REPLACED_FILES) as usize),
            14 => format!("plan{}{PART}", random.below(PLAN_NAMES)),
            15 => return random.pick(&ODD_NAMES).to_vec(),
            16..=19 => return self.save_name(),
            _ => {
                self.kept += 1;
                format!("kept{}", self.kept)
            }
        };
        text.into_bytes()
    }

    /// Where a unit with delays goes: mostly to what a save may name.
    fn delayed_name(&mut self) -> Vec<u8> {
        let random = &mut self.random;
        let text = match random.below(16) {
            0 => return random.pick(&ODD_NAMES).to_vec(),
            1 => link_name(random.below(LINKS.len() as u64) as usize),
            2 => format!("again{}{PART}", random.below(12)),
            3 => "n".repeat(random.pick(&[250, 251, 255])),
            4 => random.pick(&["1", "007", "4294967295", "4294967296", "99999999999"]).to_string(),
            _ => return self.save_name(),
        };
        text.into_bytes()
    }

    /// What a reader of records is given: records of all sorts, and what a load may name.
    fn view_name(&mut self) -> Vec<u8> {
        let random = &mut self.random;
        let text = match random.below(32) {
            0..=8 => format!("plan{}", random.below(PLAN_NAMES)),
            9 => format!("{INNER}/plan{}", random.below(2)),
            10 | 11 => format!("kept{}", random.below(self.kept as u64 + 1)),
            12..=15 => record_name(random.below(RECORD_FILES as u64) as usize),
            16..=20 => torn_name(random.below(TORN_FILES as u64) as usize),
            21 => good_name(random.below(GOOD_FILES as u64) as usize),
            22..=24 => format!("again{}", random.below(12)),
            25 => return random.pick(&ODD_NAMES).to_vec(),
            _ => return self.load_name(),
        };
        text.into_bytes()
    }

    // -----------------------------------------------------------------------------------------------------------------------------
    // Commands

    fn fresh(&mut self) -> Vec<u8> {
        let (functions, segments, columns) = self.fresh_counts();
        format!("fresh {} {} {}", self.digits(functions), self.digits(segments), self.digits(columns)).into_bytes()
    }

    fn refused_fresh(&mut self) -> Vec<u8> {
        let mut counts = [1, 5, 9];
        let (place, most) = self.random.pick(&[(0, MOST_FUNCTIONS), (1, MOST_SEGMENTS), (2, MOST_COLUMNS)]);
        counts[place] = self.random.pick(&[0, most + 1, most + 2, 255, 256, 256 + most, 300, 65_537, u32::MAX - 255 + most, u32::MAX]);
        format!("fresh {} {} {}", counts[0], counts[1], counts[2]).into_bytes()
    }

    fn mark(&mut self) -> Vec<u8> {
        let (functions, segments, columns) = self.counts();
        let (tag, segment, column) = (self.argument(functions), self.argument(segments), self.argument(columns));
        format!("mark {tag} {segment} {column}").into_bytes()
    }

    /// Mostly of a mark that stands.
    fn unmark(&mut self) -> Vec<u8> {
        match self.standing() {
            Some(Mark { tag, segment, column }) if self.random.chance(2, 3) => format!("unmark {tag} {segment} {column}").into_bytes(),
            _ => [b"un", &self.mark()[..]].concat(),
        }
    }

    fn judge(&mut self) -> Vec<u8> {
        let mut tag = self.tag();
        let drawn = number(tag.as_bytes()).and_then(|tag| self.console.drawn(tag));
        let mut latencies: Vec<String> = match self.random.below(60) {
            0 => (0..2_000).map(|_| self.random.between(1, 9).to_string()).collect(),
            1 => vec![self.random.pick(&["31", "32", "33", "255"]).to_string(); 256],
            // short ones, which collide more often
            2..=20 => (0..self.random.between(1, 5)).map(|_| self.random.between(1, 6).to_string()).collect(),
            _ => units::cycle(drawn.as_ref().map(|drawn| &drawn.graph.diagram), &mut self.random)
                .iter()
                .map(|latency| latency.to_string())
                .collect(),
        };
        if !latencies.is_empty() && self.random.chance(1, 12) {
            let place = self.random.below(latencies.len() as u64) as usize;
            let last = latencies.len() - 1;
            let place = if self.random.chance(1, 3) { last } else { place };
            latencies[place] = match self.random.below(6) {
                0 => "0".to_string(),
                1 => "256".to_string(),
                2 => self.random.pick(&MANY).to_string(),
                3 => (256 + self.random.between(1, 40)).to_string(),
                4 => self.random.pick(&TOO_MANY).to_string(),
                _ => format!("000{}", latencies[place]),
            };
            // a bad tag beside a bad latency
            if self.random.chance(1, 8) {
                tag = self.bad_tag();
            }
        }
        let mut line = format!("judge {tag}");
        for latency in latencies {
            line += " ";
            line += &latency;
        }
        line.into_bytes()
    }

    /// A list of tags, mostly of 1 to 8 good ones.
    fn loop_over(&mut self) -> Vec<u8> {
        let count = match self.random.below(64) {
            0 | 1 => 0,
            2 | 3 => self.random.pick(&[9, 10]),
            4 => self.random.pick(&[255, 256, 257, 260, 264, 2_000]),
            5..=20 => 1,
            21..=48 => self.random.between(2, 4) as usize,
            _ => self.random.between(5, 8) as usize,
        };
        // two functions, or any
        let (two, any) = ([self.good_tag(), self.good_tag()], self.random.chance(1, 2));
        let mut tags = Vec::new();
        for _ in 0..count {
            let tag = if any { self.good_tag() } else { self.random.pick(&two) };
            // a long list has no room for zeros
            tags.push(if count > 20 { tag.to_string() } else { self.digits(tag) });
        }
        // the same tags again
        if count % 2 == 0 && self.random.chance(1, 5) {
            let half = tags[..count / 2].to_vec();
            tags = [&half[..], &half].concat();
        }
        let often = if count > MOST_TAGS { 2 } else { 8 };
        if count > 0 && self.random.chance(1, often) {
            let any = self.random.below(count as u64) as usize;
            let place = if self.random.chance(1, 3) { count - 1 } else { any };
            tags[place] = self.bad_tag();
        }
        let mut line = "loop".to_string();
        for tag in tags {
            line += " ";
            line += &tag;
        }
        line.into_bytes()
    }

    /// Mostly of the function that has a plan, where one has.
    fn record(&mut self) -> Vec<u8> {
        let tag = match self.console.plan {
            Some(plan) if self.random.chance(2, 3) => self.digits(plan.tag),
            Some(plan) if self.random.chance(1, 4) => (self.random.pick(&[256, 65_536, 1 << 24]) + plan.tag).to_string(),
            _ if self.random.chance(1, 4) => self.bad_tag(),
            _ => self.tag(),
        };
        let name = self.plan_name();
        match self.random.below(60) {
            // the other way about
            0 => [b"record ", &name[..], b" ", tag.as_bytes()].concat(),
            _ => [b"record ", tag.as_bytes(), b" ", &name].concat(),
        }
    }

    /// Mostly of the function that has a plan, where one has.
    fn simulate(&mut self) -> Vec<u8> {
        let tag = match self.console.plan {
            Some(plan) if self.random.chance(3, 4) => self.digits(plan.tag),
            Some(plan) if self.random.chance(1, 4) => (self.random.pick(&[256, 65_536, 1 << 24]) + plan.tag).to_string(),
            _ if self.random.chance(1, 4) => self.bad_tag(),
            _ => self.tag(),
        };
        let units = self.units();
        match self.random.below(80) {
            // the other way about, or one number alone
            0 => format!("simulate {units} {tag}"),
            1 => format!("simulate {tag}"),
            _ => format!("simulate {tag} {units}"),
        }
        .into_bytes()
    }

    /// How many units a chart is to have: mostly not many.
    fn units(&mut self) -> String {
        let (_, segments, _) = self.counts();
        let some = self.random.between(0, 199);
        let units = match self.random.below(100) {
            0..=3 => 0,
            4..=6 => 1,
            7..=24 => self.random.between(2, 20),
            25..=30 => self.random.pick(&[9, 10, 99, 100, 999, 1_000]),
            31 => self.random.pick(&[8_191, 8_192, 8_193]),
            32 => charts::most_units(segments) + self.random.between(0, 2) - 1,
            // without room: their last bits have some, or the last bits of the chart's length do
            33 | 34 => self.random.pick(&[1 << 16, 1 << 17, 1 << 24, 1 << 31, u32::MAX - 65_535]) + some,
            35 => {
                let turns = self.random.between(1, segments + 2) as u64;
                ((turns << 32) / (segments as u64 + 2)).min(u32::MAX as u64) as u32
            }
            36 | 37 => return self.random.pick(&MANY).to_string(),
            38 => return self.random.pick(&TOO_MANY).to_string(),
            39 => return format!("{}", (1u64 << 32) + some as u64),
            _ => some,
        };
        self.digits(units)
    }

    /// A tag of the unit, mostly one of a function that has marks and no two of them in a column, where there is one.
    fn route_tag(&mut self) -> u32 {
        let any = self.good_tag();
        let Some(unit) = &self.console.unit else { return any };
        let is_route = |tag: &u32| !unit.spots(*tag).is_empty() && delays::places(unit, *tag, MOST_COLUMNS).is_ok();
        let tags: Vec<u32> = (1..=unit.functions).filter(is_route).collect();
        if tags.is_empty() || self.random.chance(1, 6) {
            any
        } else {
            self.random.pick(&tags)
        }
    }

    /// A latency that delays are wanted for: mostly one with a remainder for each mark of a segment, and with few more.
    fn latency(&mut self, tag: u32) -> String {
        let most = self.console.unit.as_ref().map_or(2, |unit| most_marks(&unit.spots(tag)));
        let some = most + self.random.between(0, 6);
        let latency = match self.random.below(52) {
            0 | 1 => 0,
            2 => MOST_COLUMNS,
            3 => MOST_COLUMNS + 1,
            4..=8 => most.saturating_sub(1),
            9..=24 => most,
            25..=28 => most + 1,
            29 | 30 => self.random.pick(&[256, 65_536, 1 << 24, u32::MAX - 255]) + some,
            31 => self.random.between(1, MOST_COLUMNS),
            32 => return self.random.pick(&MANY).to_string(),
            33 => return self.random.pick(&TOO_MANY).to_string(),
            34 => return ((1u64 << 32) + some as u64).to_string(),
            35..=38 => self.last_latency(tag).unwrap_or(some),
            _ => some,
        };
        self.digits(latency)
    }

    /// A latency for which a function's columns move just as far as there is room, or one place further.
    fn last_latency(&mut self, tag: u32) -> Option<u32> {
        let unit = self.console.unit.as_ref()?;
        let last_place = |latency: u32| delays::places(unit, tag, latency).ok()?.last().copied();
        let is_near = |place: u32| place > unit.columns && (MOST_COLUMNS..=MOST_COLUMNS + 1).contains(&place);
        let is_last = |latency: &u32| last_place(*latency).is_some_and(is_near);
        let latencies: Vec<u32> = (1..=MOST_COLUMNS).filter(is_last).collect();
        (!latencies.is_empty()).then(|| self.random.pick(&latencies))
    }

    /// Delays that are shown or written.
    fn delays(&mut self) -> Vec<u8> {
        let tag = match self.random.below(12) {
            0 => self.bad_tag(),
            1 | 2 => self.tag(),
            _ => {
                let tag = self.route_tag();
                self.digits(tag)
            }
        };
        // also of a tag that has one of the unit in its lowest byte
        let (latency, name) = (self.latency(number(tag.as_bytes()).unwrap_or(1) % 256), self.delayed_name());
        let asked = format!("delays {tag} {latency}").into_bytes();
        match self.random.below(100) {
            // the other way about, too few words or too many, and the file elsewhere
            0 | 1 => format!("delays {latency} {tag}").into_bytes(),
            2 => format!("delays {tag}").into_bytes(),
            3 => [b"delays ", tag.as_bytes(), b" ", &name].concat(),
            4 => [&asked[..], b" ", &name, b" 1"].concat(),
            5 => [b"delays ", &name[..], b" ", tag.as_bytes(), b" ", latency.as_bytes()].concat(),
            6..=45 => [&asked[..], b" ", &name].concat(),
            _ => asked,
        }
    }

    /// Delays that are good but for where they shall be written.
    fn unwritten_delays(&mut self) -> Vec<u8> {
        let name = self.random.pick(&["missing/delays", INNER, "again1/"]);
        format!("delays {} {MOST_COLUMNS} {name}", self.route_tag()).into_bytes()
    }

    /// A ticket, which may be any number: also one that waits, or one of the unit's tags.
    fn ticket(&mut self) -> String {
        let (functions, _, _) = self.counts();
        let waiting: Vec<u32> = self.console.queue.iter().chain(self.console.callers.queues.concat().iter()).map(|it| it.ticket).collect();
        let ticket = match self.random.below(24) {
            0..=5 => self.random.pick(&TICKETS),
            6..=9 if !waiting.is_empty() => self.random.pick(&waiting),
            10 | 11 => self.random.between(1, functions),
            12..=17 => self.random.word(),
            _ => self.random.between(0, 999),
        };
        self.digits(ticket)
    }

    /// A task of a function of the unit.
    fn good_arrival(&mut self) -> Vec<u8> {
        let tag = self.good_tag();
        format!("arrive {tag} {}", self.ticket()).into_bytes()
    }

    /// A task, mostly of a function of the unit.
    fn arrive(&mut self) -> Vec<u8> {
        let tag = match self.random.below(12) {
            0 | 1 => self.bad_tag(),
            2 => self.tag(),
            _ => {
                let tag = self.good_tag();
                self.digits(tag)
            }
        };
        let ticket = match self.random.below(24) {
            0 => self.random.pick(&TOO_MANY).to_string(),
            1 => ((1u64 << 32) + self.random.between(0, 99) as u64).to_string(),
            _ => self.ticket(),
        };
        match self.random.below(40) {
            // the other way about, one number alone, or one too many
            0 => format!("arrive {ticket} {tag}"),
            1 => format!("arrive {tag}"),
            2 => format!("arrive {tag} {ticket} {}", self.random.between(0, 9)),
            _ => format!("arrive {tag} {ticket}"),
        }
        .into_bytes()
    }

    /// The highest caller that there is, or that there can be where there are none yet.
    fn most_callers(&self) -> u32 {
        match self.console.callers.count {
            0 => MOST_CALLERS,
            count => count,
        }
    }

    fn good_caller(&mut self) -> u32 {
        let most = self.most_callers();
        self.random.between(1, most)
    }

    /// A number of callers that may be said.
    fn good_count(&mut self) -> Vec<u8> {
        let count = self.random.pick(&[1, 2, 2, 3, 3, 4, 4]);
        format!("callers {count}").into_bytes()
    }

    /// A number of callers, good or bad.
    fn count(&mut self) -> Vec<u8> {
        let good = self.random.between(1, MOST_CALLERS);
        match self.random.below(24) {
            0..=3 => format!("callers {}", self.random.pick(&[0, 5, 5, 6, 8, 255, 256])),
            4 | 5 => format!("callers {}", self.random.pick(&[256, 65_536, 1 << 24, u32::MAX - 255]) + good),
            6 => format!("callers {}", self.random.pick(&MANY)),
            7 => format!("callers {}", self.random.pick(&TOO_MANY)),
            8 => format!("callers {}", (1u64 << 32) + good as u64),
            9 => "callers".to_string(),
            10 => format!("callers {good} {}", self.random.between(0, 9)),
            _ => format!("callers {}", self.digits(good)),
        }
        .into_bytes()
    }

    /// What is no caller, or no number.
    fn bad_caller(&mut self) -> String {
        let (most, good) = (self.most_callers(), self.good_caller());
        match self.random.below(16) {
            0..=3 => "0".to_string(),
            4..=7 => (most + 1).to_string(),
            8 => "5".to_string(),
            9..=11 => (self.random.pick(&[256, 65_536, 1 << 24, u32::MAX - 255]) + good).to_string(),
            12 => ((1u64 << 32) + good as u64).to_string(),
            13 => self.random.pick(&TOO_MANY).to_string(),
            _ => self.random.pick(&["x", "-1", "1x", "1,", "+1", "0x1"]).to_string(),
        }
    }

    /// A task of a function of the unit, of one of the callers.
    fn good_call(&mut self) -> Vec<u8> {
        let (caller, tag) = (self.good_caller(), self.good_tag());
        format!("call {caller} {tag} {}", self.ticket()).into_bytes()
    }

    /// A task of one of the callers, mostly of a function of the unit.
    fn call(&mut self) -> Vec<u8> {
        let caller = match self.random.below(12) {
            0 | 1 => self.bad_caller(),
            2 => {
                let most = self.most_callers();
                self.argument(most)
            }
            _ => self.good_caller().to_string(),
        };
        let tag = match self.random.below(12) {
            0 | 1 => self.bad_tag(),
            2 => self.tag(),
            _ => self.good_tag().to_string(),
        };
        let ticket = match self.random.below(24) {
            0 => self.random.pick(&TOO_MANY).to_string(),
            1 => ((1u64 << 32) + self.random.between(0, 99) as u64).to_string(),
            _ => self.ticket(),
        };
        match self.random.below(48) {
            // the other way about, too few numbers, or one too many
            0 => format!("call {tag} {caller} {ticket}"),
            1 => format!("call {caller} {ticket} {tag}"),
            2 => format!("call {tag} {ticket}"),
            3 => format!("call {caller}"),
            4 => format!("call {caller} {tag} {ticket} {}", self.random.between(0, 9)),
            _ => format!("call {caller} {tag} {ticket}"),
        }
        .into_bytes()
    }

    /// A size of at most so many tables.
    fn good_size(&mut self, most: u32) -> Size {
        let sizes: Vec<Size> = sizes().filter(|size| size.tables() <= most).collect();
        self.random.pick(&sizes)
    }

    /// Segments and columns as they are written, mostly of this size.
    fn size(&mut self, size: Size) -> String {
        let Size { segments, columns } = size;
        let wide = self.random.pick(&[256, 65_536, 1 << 24, u32::MAX - 255]);
        match self.random.below(36) {
            0 => format!("0 {columns}"),
            1 => format!("3 {columns}"),
            2 => format!("{segments} 0"),
            3 => format!("{segments} 7"),
            4 => format!("{} {columns}", wide + segments),
            5 => format!("{segments} {}", wide + columns),
            6 => format!("{columns} {segments}"),
            7 => format!("{} {}", self.random.between(0, 9), self.random.between(0, 9)),
            8 => format!("{} {columns}", self.random.pick(&MANY)),
            9 => format!("{segments} {}", self.random.pick(&MANY)),
            10 => format!("{} {columns}", self.random.pick(&TOO_MANY)),
            11 => format!("{segments} {}", self.random.pick(&TOO_MANY)),
            12 => format!("{} {columns}", (1u64 << 32) + segments as u64),
            _ => format!("{} {}", self.digits(segments), self.digits(columns)),
        }
    }

    /// The number of a table of this size, mostly: also the last one, the one after it, and numbers that would do without their higher
    /// bytes.
    fn table_number(&mut self, size: Size) -> String {
        let tables = size.tables();
        let good = self.random.between(0, tables - 1);
        let number = match self.random.below(24) {
            0 => 0,
            1 | 2 => tables - 1,
            3 | 4 => tables,
            5 => tables + good,
            6 | 7 => self.random.pick(&[256, 65_536, 1 << 24, 1 << 31, u32::MAX - 4_095]) + good,
            8 => self.random.word(),
            9 => return self.random.pick(&MANY).to_string(),
            10 => return self.random.pick(&TOO_MANY).to_string(),
            11 => return ((1u64 << 32) + good as u64).to_string(),
            _ => good,
        };
        self.digits(number)
    }

    /// The totals of a size: of few tables, because the program works them out each time.
    fn small_totals(&mut self) -> Vec<u8> {
        let size = self.good_size(256);
        format!("small {}", self.size(size)).into_bytes()
    }

    /// A small table that is taken.
    fn good_small(&mut self) -> Vec<u8> {
        let size @ Size { segments, columns } = self.good_size(4_096);
        let number = self.random.between(0, size.tables() - 1);
        format!("small {segments} {columns} {}", self.digits(number)).into_bytes()
    }

    /// A small table by its number, or totals, good or bad.
    fn small(&mut self) -> Vec<u8> {
        let size = self.good_size(4_096);
        let (words, number) = (self.size(size), self.table_number(size));
        match self.random.below(48) {
            // too few words, too many, and one that is no number
            0 => b"small".to_vec(),
            1 => format!("small {}", self.random.between(0, 3)).into_bytes(),
            2 => format!("small {words} {number} {}", self.random.between(0, 9)).into_bytes(),
            3 | 4 => [format!("small {words} ").as_bytes(), self.random.pick(&NO_NUMBERS)].concat(),
            5..=24 => self.small_totals(),
            _ => format!("small {words} {number}").into_bytes(),
        }
    }

    /// Totals, or a table that is refused: nothing that makes a unit.
    fn no_small_unit(&mut self) -> Vec<u8> {
        let size @ Size { segments, columns } = self.good_size(256);
        match self.random.below(4) {
            0 | 1 => self.small_totals(),
            2 => format!("small {segments} {columns} {}", size.tables() + self.random.between(0, 1)).into_bytes(),
            _ => format!("small {} {columns} 1", self.random.pick(&[0, 3, 256 + segments])).into_bytes(),
        }
    }

    fn view(&mut self) -> Vec<u8> {
        let reader: &[u8] = self.random.pick(&[b"report ", b"ring "]);
        [reader, &self.view_name()].concat()
    }

    /// What is no tag of the unit, or no number.
    fn bad_tag(&mut self) -> String {
        let (functions, _, _) = self.counts();
        let inside = self.random.between(1, functions);
        match self.random.below(16) {
            0..=3 => "0".to_string(),
            4..=7 => (functions + 1).to_string(),
            8 => self.random.pick(&MANY).to_string(),
            9..=11 => (self.random.pick(&[256, 65_536, 1 << 24, u32::MAX - 255]) + inside).to_string(),
            12 => ((1u64 << 32) + inside as u64).to_string(),
            13 => self.random.pick(&TOO_MANY).to_string(),
            _ => self.random.pick(&["x", "-1", "1x", "1,", "+1", "0x1"]).to_string(),
        }
    }

    /// A command about a tag. Drawings and lists of many states are long, so most of those are left out.
    fn about(&mut self, name: &str) -> Vec<u8> {
        let mut name = name;
        let tag = self.tag();
        if ["diagram", "states"].contains(&name) {
            let drawn = number(tag.as_bytes()).and_then(|tag| self.console.drawn(tag));
            if drawn.is_some_and(|drawn| drawn.graph.diagram.states.len() > 60) && self.random.chance(14, 15) {
                name = "vector";
            }
        }
        format!("{name} {tag}").into_bytes()
    }

    fn command(&mut self) -> Vec<u8> {
        match self.random.below(160) {
            0..=22 => self.mark(),
            23..=29 => self.unmark(),
            30..=38 => self.about("search"),
            39..=44 => b"read".to_vec(),
            45..=48 => self.about("vector"),
            49..=54 => format!("row {} {}", self.tag(), self.tag()).into_bytes(),
            55..=58 => self.about("states"),
            59..=61 => self.about("greedy"),
            62 | 63 => self.about("bound"),
            64 | 65 => self.about("upper"),
            66 | 67 => self.about("constant"),
            68..=76 => self.judge(),
            77..=79 => b"tick".to_vec(),
            80..=87 => self.about("start"),
            88..=91 => b"bank".to_vec(),
            92 | 93 => [b"load ", &self.load_name()[..]].concat(),
            94..=97 => [b"save ", &self.save_name()[..]].concat(),
            98 | 99 => b"list".to_vec(),
            100..=102 => self.about("table"),
            103..=107 => self.about("diagram"),
            108 => self.refused_fresh(),
            109 => {
                let (functions, segments, columns) =
                    (self.argument(MOST_FUNCTIONS), self.argument(MOST_SEGMENTS), self.argument(MOST_COLUMNS));
                format!("fresh {functions} {segments} {columns}").into_bytes()
            }
            110..=115 => self.loop_over(),
            116..=120 => self.record(),
            121..=125 => self.view(),
            126..=129 => self.delays(),
            130..=134 => self.simulate(),
            135..=138 => self.arrive(),
            139..=142 => b"pass".to_vec(),
            143 | 144 => b"queue".to_vec(),
            145..=148 => self.call(),
            149..=153 => b"turn".to_vec(),
            154 => self.count(),
            155..=157 => self.small(),
            _ => format!("{} {}", self.random.pick(&["pass", "queue", "turn"]), self.random.between(0, 9)).into_bytes(),
        }
    }

    /// A byte of any value but those of a newline and of what leads out of a folder.
    fn any_byte(&mut self) -> u8 {
        loop {
            let byte = self.random.byte();
            if ![b'\n', b'/', b'.'].contains(&byte) {
                return byte;
            }
        }
    }

    /// A place of the line at which one of its bytes stands.
    fn some_place(&mut self, line: &[u8]) -> usize {
        self.random.below(line.len() as u64) as usize
    }

    /// A line with one thing wrong in it, mostly: now and then it is a command all the same.
    fn spoiled(&mut self) -> Vec<u8> {
        let mut line = self.command();
        let place = self.some_place(&line);
        let spaces: Vec<usize> = (0..line.len()).filter(|place| line[*place] == b' ').collect();
        let space = if spaces.is_empty() { line.len() } else { spaces[self.random.below(spaces.len() as u64) as usize] };
        match self.random.below(28) {
            // carriage returns before the end
            0 => line.insert(space, b'\r'),
            1 => line.insert(place, b'\r'),
            2 => line.insert(0, b'\r'),
            3 => {
                let end: &[u8] = self.random.pick(&[b"\r\r", b"\r ", b"\r\t", b"\r \r", b" \r\r"]);
                line.extend_from_slice(end);
            }
            // a word cut in two
            4 => line.insert(place, self.random.pick(&[b' ', b'\t'])),
            // two words made one
            5 if space < line.len() => line[space] = self.random.pick(&[11, 12, 0, 13, 160, b'_', b',']),
            5 => line.push(11),
            6 => line[0].make_ascii_uppercase(),
            7 => line.make_ascii_uppercase(),
            8 => line.truncate(*spaces.last().unwrap_or(&line.len())),
            9 => {
                let more: &[u8] = self.random.pick(&[b" 1", b" 0", b" x", b" 1 1", b" #", b" tick"]);
                line.extend_from_slice(more);
            }
            10 | 11 => line[place] = self.any_byte(),
            12 => line.insert(place, 0),
            13 => {
                let byte = self.any_byte() | 128;
                line.insert(place, byte);
            }
            14 => line.extend_from_slice(b" #"),
            15 => drop(line.remove(place)),
            16..=19 => {
                // one word that is no number, or too large a one
                line.truncate(space);
                let rest: Vec<&[u8]> = line.split(|byte| *byte == b' ').collect();
                let (name, mut words) = (rest[0].to_vec(), rest[1..].to_vec());
                let wrong = if self.random.chance(1, 2) { self.random.pick(&NO_NUMBERS) } else { self.random.pick(&TOO_MANY).as_bytes() };
                words.push(wrong);
                while words.len() < 3 && self.random.chance(1, 2) {
                    words.push(b"1");
                }
                if self.random.chance(1, 2) {
                    words.rotate_right(1);
                }
                line = [&name[..], &words.join(&b' ')].join(&b' ');
            }
            20 => line.swap(place, 0),
            21 | 22 => line = self.random.pick(&NO_COMMANDS).to_vec(),
            23 | 24 => {
                let count = self.random.between(1, 60);
                line = (0..count).map(|_| self.any_byte()).collect();
            }
            25 => {
                let two = self.command();
                let between = self.random.pick(&[b' ', b'\r', b';', 0, b'\t', 11, 12]);
                line = [&line[..], &two].join(&between);
            }
            26 => line = self.random.pick(&BARE_LINES).to_vec(),
            _ => line.push(self.random.pick(&[11, 12, 0, 127, 255, b'#', b',', b';'])),
        }
        line
    }

    fn comment(&mut self) -> Vec<u8> {
        let count = self.random.between(0, 30);
        let mut line = if self.random.chance(1, 3) { self.blanks() } else { Vec::new() };
        line.push(b'#');
        match self.random.below(4) {
            0 => line.extend(self.command()),
            1 => line.extend((0..count).map(|_| self.any_byte())),
            2 => line.extend(b" a comment"),
            _ => {}
        }
        line
    }

    // -----------------------------------------------------------------------------------------------------------------------------
    // Long lines

    /// A line of exactly this length, at least 4,000, in one of `LONG_FORMS` forms.
    fn long(&mut self, form: u64, length: usize) -> Vec<u8> {
        let tag = self.good_tag();
        // a number that fills the line with zeros in front of it
        let filled = |begin: String, end: String| {
            let zeros = length - begin.len() - end.len();
            format!("{begin}{}{end}", "0".repeat(zeros)).into_bytes()
        };
        match form {
            0 => vec![b'x'; length],
            1 => [b"#", &vec![b'-'; length - 1][..]].concat(),
            2 => vec![b' '; length],
            3 => vec![0; length],
            4 => filled("vector ".to_string(), tag.to_string()),
            5 => filled(format!("mark {tag} 1 "), "1".to_string()),
            6 => filled(format!("start {tag} "), "1".to_string()),
            7 => filled("table ".to_string(), format!("{tag}0")),
            8 => filled("fresh 1 2 ".to_string(), "3".to_string()),
            9 | 10 => {
                // latencies of one digit, and one with the zeros that are missing
                let count = self.random.pick(&[1, 2, 255, 256, 256, 257, 1_900]);
                let latencies = " 9".repeat(count - 1);
                filled(format!("judge {tag}{latencies} "), "9".to_string())
            }
            11 | 12 => {
                // a name with many ways to say this folder
                let name =
                    if self.random.chance(1, 4) { "missing".to_string() } else { good_name(self.random.below(GOOD_FILES as u64) as usize) };
                self.long_name_line("load", &name, length)
            }
            13 => {
                let name = format!("again{}", self.random.below(12));
                self.long_name_line("save", &name, length)
            }
            14 => [&b"mark 1 1 "[..], &vec![b'9'; length - 9]].concat(),
            15 => {
                let mut line: Vec<u8> = (0..length).map(|_| self.any_byte()).collect();
                line[0] = b'~';
                line
            }
            // a carriage return at the end
            16 => filled("vector ".to_string(), format!("{tag}\r")),
            17 => filled(format!("mark {tag} 1 "), "1 \r".to_string()),
            18 => filled(format!("start {tag}"), "\r\r".to_string()),
            19 => [&vec![b'x'; length - 1][..], b"\r"].concat(),
            20 => [b"#", &vec![b'-'; length - 2][..], b"\r"].concat(),
            21 => [&vec![b' '; length - 1][..], b"\r"].concat(),
            22 => {
                let name = format!("again{}", self.random.below(12));
                [&self.long_name_line("save", &name, length - 1)[..], b"\r"].concat()
            }
            // a command as long as a line may be, then a carriage return, then blanks
            23 => {
                let mut line = format!("vector {}{tag}\r", "0".repeat(LONGEST_LINE - 8)).into_bytes();
                line.resize(length, b' ');
                line
            }
            // tags, the last one with the zeros that are missing
            31 => {
                let count = self.random.pick(&[1, 2, 8, 9, 264]);
                filled(format!("loop{} ", format!(" {tag}").repeat(count - 1)), tag.to_string())
            }
            33 => filled("record ".to_string(), format!("{tag} plan1")),
            34 | 35 => {
                let name = format!("plan{}", self.random.below(PLAN_NAMES));
                let begin = if form == 34 { format!("record {tag}") } else { self.random.pick(&["report", "ring"]).to_string() };
                self.long_name_line(&begin, &name, length)
            }
            37 => filled(format!("simulate {tag} "), "21".to_string()),
            39 => filled(format!("delays {tag} "), "32".to_string()),
            40 => {
                let name = format!("again{}", self.random.below(12));
                self.long_name_line(&format!("delays {tag} 32"), &name, length)
            }
            42 => filled(format!("arrive {tag} "), "4294967295".to_string()),
            43 => filled("arrive ".to_string(), format!("{tag} 7")),
            47 => filled("callers ".to_string(), "2".to_string()),
            48 => filled("call ".to_string(), format!("2 {tag} 7")),
            49 => filled(format!("call 1 {tag} "), "4294967295".to_string()),
            52 => filled("small 1 3 ".to_string(), "5".to_string()),
            53 => filled("small ".to_string(), "1 3".to_string()),
            // blanks in place of what is missing: in front, between, at the end
            _ => {
                let mut blank = || self.random.pick(&[b' ', b' ', b'\t']);
                let mut long = |begin: String, end: String| {
                    let room = length - begin.len() - end.len();
                    [begin.as_bytes(), &(0..room).map(|_| blank()).collect::<Vec<u8>>(), end.as_bytes()].concat()
                };
                match form {
                    24 => long(String::new(), format!("start {tag}")),
                    25 => long(format!("judge {tag} "), "9 9".to_string()),
                    26 => long(format!("mark {tag} 1 1"), String::new()),
                    27 => long("tick".to_string(), "\r".to_string()),
                    28 => long(String::new(), "# a comment".to_string()),
                    29 => long("save".to_string(), "again1".to_string()),
                    32 => long(format!("loop {tag}"), tag.to_string()),
                    36 => long(format!("record {tag}"), "plan1".to_string()),
                    38 => long(format!("simulate {tag}"), "9".to_string()),
                    41 => long(format!("delays {tag} 32"), "again1".to_string()),
                    44 => long(format!("arrive {tag}"), "7".to_string()),
                    45 => long("pass".to_string(), String::new()),
                    46 => long(String::new(), "queue\r".to_string()),
                    50 => long(format!("call 1 {tag}"), "7".to_string()),
                    51 => long("turn".to_string(), String::new()),
                    54 => long("small 2 2".to_string(), "6".to_string()),
                    _ => long(format!("\tvector {tag}"), "x".to_string()),
                }
            }
        }
    }

    fn long_name_line(&mut self, name: &str, file: &str, length: usize) -> Vec<u8> {
        let begin = format!("{name} ");
        let room = length - begin.len() - file.len();
        let odd = if room % 2 == 1 { ".//" } else { "" };
        format!("{begin}{}{odd}{file}", "./".repeat((room - odd.len()) / 2)).into_bytes()
    }

    fn some_long(&mut self) {
        // the longest ones are few
        let mut length = self.random.pick(&LENGTHS);
        if length > 20_000 && self.random.chance(3, 4) {
            length = 4_096;
        }
        let form = self.random.below(LONG_FORMS);
        let line = self.long(form, length);
        self.put(line);
    }

    /// Any line.
    fn some_line(&mut self) {
        let line = match self.random.below(600) {
            0..=5 => Vec::new(),
            6..=13 => self.comment(),
            14..=60 => self.spoiled(),
            61 => return self.some_long(),
            62..=64 => self.random.pick(&BARE_LINES).to_vec(),
            _ => self.command(),
        };
        self.put(line);
    }

    // -----------------------------------------------------------------------------------------------------------------------------
    // Several lines that belong together

    /// A search, and what may come before its plan is seen.
    fn search_and_read(&mut self) {
        let tag = self.good_tag();
        self.put(format!("search {tag}"));
        match self.random.below(40) {
            0 => {
                let line = self.refused_fresh();
                self.put(line);
            }
            1 => {
                let name = damaged_name(self.random.below(DAMAGED_FILES as u64) as usize);
                self.put(format!("load {name}"));
            }
            2 => self.put("load missing"),
            3 => {
                let line = self.spoiled();
                self.put(line);
            }
            4 => self.put(format!("mark {} 0 0", self.counts().0 + 1)),
            5 => self.put(format!("unmark {tag} {} 0", self.counts().1 + 1)),
            6 => self.put(format!("mark {tag} 1 {}", self.counts().2 + 1)),
            7 => {
                let line = self.about("search");
                self.put(line);
            }
            8 => self.put("list"),
            9 => self.put("search 0"),
            10 | 11 => self.draw(tag),
            12 => {
                let line = self.mark();
                self.put(line);
            }
            // edits that leave the table as it is
            13 => {
                if let Some(Mark { tag, segment, column }) = self.standing() {
                    self.put(format!("mark {tag} {segment} {column}"));
                }
            }
            14 => {
                let line = [b"un", &self.mark()[..]].concat();
                self.put(line);
            }
            15 | 16 => {
                let line = self.loop_over();
                self.put(line);
            }
            17 | 18 => {
                let line = self.record();
                self.put(line);
            }
            19 => {
                let line = self.view();
                self.put(line);
            }
            20 | 21 => {
                let line = self.simulate();
                self.put(line);
            }
            22 | 23 => {
                let line = self.delays();
                self.put(line);
            }
            24 => {
                let line = self.unwritten_delays();
                self.put(line);
            }
            25 | 26 => {
                let line = self.arrive();
                self.put(line);
            }
            27 => {
                let line = self.random.pick(&["pass", "queue", "tick"]);
                self.put(line);
            }
            28 | 29 => {
                let line = self.about("start");
                self.put(line);
            }
            30 => {
                let name = self.random.pick(&["again1", "missing/out", INNER]);
                self.put(format!("save {name}"));
            }
            31 => {
                let line = self.call();
                self.put(line);
            }
            32 => self.put("turn"),
            33 => {
                let line = self.count();
                self.put(line);
            }
            34 | 35 => {
                let line = if self.random.chance(3, 4) { self.no_small_unit() } else { self.small() };
                self.put(line);
            }
            _ => {}
        }
        self.put("read");
        match self.random.below(7) {
            0 | 1 => self.draw(tag),
            2 => {
                let other = self.good_tag();
                self.draw(other);
            }
            3 => self.put("read"),
            4 => {
                let line = self.simulate();
                self.put(line);
            }
            _ => {}
        }
    }

    /// A drawing, unless it is long.
    fn draw(&mut self, tag: u32) {
        let states = self.console.drawn(tag).map_or(0, |drawn| drawn.graph.diagram.states.len());
        if states <= 60 || self.random.chance(1, 15) {
            self.put(format!("diagram {tag}"));
        }
    }

    /// Fig. 1, whose greedy cycle is not the best, drawn before its plan is shown in another way.
    fn figure(&mut self) {
        for line in [&format!("load {FIGURE}"), "search 1", "diagram 1", "read"] {
            self.put(line);
        }
    }

    /// Every question about a function.
    fn questions(&mut self) {
        let tag = self.good_tag();
        for name in ["table", "vector", "bound", "upper", "constant", "states", "greedy"] {
            let line = if name == "states" { self.about("states") } else { format!("{name} {tag}").into_bytes() };
            self.put(line);
        }
        for other in 1..=self.counts().0 {
            self.put(format!("row {tag} {other}"));
        }
        self.search_and_read();
        self.put("list");
    }

    /// Loops, and what is to be as it was before them.
    fn loops(&mut self) {
        for _ in 0..self.random.between(1, 4) {
            let line = self.loop_over();
            self.put(line);
            let line = self.random.pick(&["read", "bank", "list", "tick"]);
            self.put(line);
        }
    }

    /// A plan, or what was one, as a record, which is read back with what may come between.
    fn records(&mut self) {
        let tag = self.good_tag();
        let name = self.plan_name();
        let to = |begin: &str| [begin.as_bytes(), b" ", &name].concat();
        if self.random.chance(5, 6) {
            self.put(format!("search {tag}"));
        }
        match self.random.below(16) {
            0 => {
                let line = self.mark();
                self.put(line);
            }
            // edits that leave the table as it is
            1 => {
                if let Some(Mark { tag, segment, column }) = self.standing() {
                    self.put(format!("mark {tag} {segment} {column}"));
                }
            }
            2 => {
                let line = [b"un", &self.mark()[..]].concat();
                self.put(line);
            }
            3 | 4 => {
                let other = self.good_tag();
                self.put(format!("search {other}"));
            }
            5 => self.put("read"),
            6 => self.draw(tag),
            7 => {
                let line = self.between_starts();
                self.put(line);
            }
            8 => self.put(format!("start {tag}")),
            // a record that can't be written, and what is to be as it was before it
            9 => {
                let (name, seen) = (self.random.pick(&["missing/plan", INNER, "plan1/"]), self.random.pick(&["bank", "read"]));
                self.put(format!("start {tag}"));
                self.put(format!("record {tag} {name}"));
                self.put(seen);
            }
            _ => {}
        }
        self.put(to(&format!("record {tag}")));
        for _ in 0..self.random.between(1, 5) {
            let line = match self.random.below(20) {
                0..=4 => to("report"),
                5..=9 => to("ring"),
                10 | 11 => to("load"),
                12 => to("save"),
                13 => b"read".to_vec(),
                14 => b"bank".to_vec(),
                15 => self.record(),
                16 => self.view(),
                17 => to(&format!("record {}", self.good_tag())),
                18 => self.unmark(),
                _ => format!("search {tag}").into_bytes(),
            };
            self.put(line);
        }
        if self.random.chance(1, 2) {
            self.put("read");
        }
    }

    /// Charts of a plan, or of what was one, and what is to be as it was before them.
    fn charts(&mut self) {
        let tag = self.good_tag();
        if self.random.chance(5, 6) {
            self.put(format!("search {tag}"));
        }
        match self.random.below(16) {
            0 => {
                let line = self.mark();
                self.put(line);
            }
            // edits that leave the table as it is
            1 => {
                if let Some(Mark { tag, segment, column }) = self.standing() {
                    self.put(format!("mark {tag} {segment} {column}"));
                }
            }
            2 => {
                let line = [b"un", &self.mark()[..]].concat();
                self.put(line);
            }
            3 => {
                let other = self.good_tag();
                self.put(format!("search {other}"));
            }
            4 | 5 => self.put("read"),
            6 => self.put("tick"),
            7 => {
                let line = self.between_starts();
                self.put(line);
            }
            8 | 9 => self.put(format!("start {tag}")),
            _ => {}
        }
        for _ in 0..self.random.between(1, 3) {
            let units = self.units();
            self.put(format!("simulate {tag} {units}"));
            let line = match self.random.below(8) {
                0 | 1 => b"read".to_vec(),
                2 | 3 => b"bank".to_vec(),
                4 => format!("start {tag}").into_bytes(),
                5 => format!("table {tag}").into_bytes(),
                _ => self.simulate(),
            };
            self.put(line);
        }
        // one turn of a plan, or a few
        if let (Some(plan), true) = (self.console.plan, self.random.chance(1, 2)) {
            let sum = self.console.drawn(plan.tag).map_or(1, |drawn| drawn.graph.least().0 as u32);
            let turns = self.random.pick(&[1, 1, 2, 3, 7]);
            self.put(format!("simulate {} {}", plan.tag, turns * sum.min(500)));
        }
        if self.random.chance(1, 2) {
            self.put("read");
        }
    }

    /// Delays of a function, what is to be as it was before them, and what they wrote.
    fn some_delays(&mut self) {
        if self.random.chance(1, 2) {
            let name = delay_name(self.random.below(DELAY_FILES as u64) as usize);
            self.put(format!("load {name}"));
        }
        let tag = self.route_tag();
        if self.random.chance(1, 2) {
            let line = self.random.pick(&["search", "start"]);
            self.put(format!("{line} {tag}"));
        }
        for _ in 0..self.random.between(1, 3) {
            let latency = self.latency(tag);
            self.put(format!("delays {tag} {latency}"));
            let line = match self.random.below(8) {
                0 | 1 => b"read".to_vec(),
                2 | 3 => b"bank".to_vec(),
                4 | 5 => format!("table {tag}").into_bytes(),
                6 => format!("start {tag}").into_bytes(),
                _ => self.delays(),
            };
            self.put(line);
        }
        if self.random.chance(1, 2) {
            let (latency, name) = (self.latency(tag), format!("again{}", self.random.below(12)));
            self.put(format!("delays {tag} {latency} {name}"));
            let seen = self.random.pick(&["read", "bank", "list", "table 1"]);
            self.put(seen);
            self.put(format!("load {name}"));
            for _ in 0..self.random.between(1, 3) {
                let line = match self.random.below(8) {
                    0 => format!("delays 1 {latency}"),
                    1 => format!("judge 1 {latency}"),
                    _ => self.random.pick(&["table 1", "table 1", "table 2", "constant 1", "list"]).to_string(),
                };
                self.put(line);
            }
        }
    }

    /// Numbers that are no latencies. And the tables worked out by hand: shown, written, taken up again, and with a latency beside theirs.
    fn hard_delays(&mut self) {
        self.put(format!("load {}", delay_name(0)));
        for latency in [0, 33, 256, u32::MAX] {
            self.put(format!("delays 1 {latency}"));
        }
        for (place, example) in EXAMPLES.iter().enumerate() {
            let ((tag, _), latency) = (tag_of_example(place), example.latency);
            self.put(format!("load {}", delay_name(place)));
            self.put(format!("delays {tag} {latency}"));
            self.put(format!("delays {tag} {latency} delayed{place}"));
            self.put(format!("table {tag}"));
            self.put(format!("delays {tag} {}", latency + 1));
            self.put(format!("load delayed{place}"));
            self.put("table 1");
            self.put(format!("delays 1 {latency}"));
        }
    }

    /// Small tables, with what is seen of them and what comes between.
    fn some_small(&mut self) {
        for _ in 0..self.random.between(1, 3) {
            let line = self.good_small();
            self.put(line);
            for _ in 0..self.random.between(1, 5) {
                let line = match self.random.below(20) {
                    0..=3 => b"table 1".to_vec(),
                    4 | 5 => self.random.pick(&["vector 1", "constant 1", "upper 1", "greedy 1"]).as_bytes().to_vec(),
                    6 => self.random.pick(&["list", "diagram 1", "states 1", "table 2"]).as_bytes().to_vec(),
                    7 | 8 => b"bound 1".to_vec(),
                    9 => b"search 1".to_vec(),
                    10 | 11 => b"read".to_vec(),
                    12 => self.random.pick(&["bank", "queue", "turn", "pass"]).as_bytes().to_vec(),
                    13 => self.random.pick(&["start 1", "arrive 1 7", "call 1 1 7", "callers 2"]).as_bytes().to_vec(),
                    14 => self.mark(),
                    15 | 16 => self.no_small_unit(),
                    17 => self.good_small(),
                    _ => self.small(),
                };
                self.put(line);
            }
        }
    }

    /// A small table, and what is seen of it.
    fn small_table(&mut self, size: Size, number: u32) {
        self.put(format!("small {} {} {number}", size.segments, size.columns));
        self.put("table 1");
        match self.random.below(6) {
            0 => self.put("vector 1"),
            1 | 2 => self.put("bound 1"),
            3 => self.put_all(&["search 1", "read"]),
            _ => {}
        }
    }

    /// The totals of each size; of each the first table, the last one, the number after it, and the tables of one mark; sizes outside; and
    /// numbers that would do without their higher bytes.
    fn hard_small(&mut self) {
        for size @ Size { segments, columns } in sizes() {
            self.put(format!("small {segments} {columns}"));
            for number in [0, size.tables() - 1] {
                self.put_all(&["search 1", "start 1", "arrive 1 7"]);
                self.put(format!("small {segments} {columns} {number}"));
                self.put_all(&["table 1", "bank", "queue", "read"]);
            }
            for number in [size.tables(), size.tables() + 256, size.tables() + 65_536, u32::MAX] {
                self.put(format!("small {segments} {columns} {number}"));
            }
            self.put("table 1");
            for place in 0..segments * columns {
                self.small_table(size, 2u32.pow(place));
            }
        }
        // the table that is the unit
        self.put_all(&["small 2 4 89", "search 1", "small 2 4 89", "read", "start 1", "small 2 4 89", "bank"]);
        self.put_all(&["search 1", "read", "start 1"]);
        for words in ["0 1", "3 1", "1 0", "1 7", "0 0", "6 2", "6 1", "257 1", "1 258", "65537 1", "4294967295 1", "1 4294967295"] {
            self.put(format!("small {words}"));
            for number in ["0", "1", "4095", "4096", "4294967295"] {
                self.put(format!("small {words} {number}"));
            }
            self.put_all(&["read", "bank"]);
        }
        self.put_all(&["small", "small 1", "small 4294967296 1", "small 1 4294967297", "small 1 1 4294967296", "small 1 1 x"]);
        self.put_all(&["small 1 x", "small x 1", "small 1 1 1 1", "table 1", "read", "bank"]);
    }

    /// Every table of the sizes of few tables, and some of the others, in any order.
    fn every_small(&mut self) {
        let mut tables: Vec<(Size, u32)> = Vec::new();
        for size in sizes() {
            let all = size.tables();
            let some = (0..150).map(|_| self.random.between(0, all - 1)).collect();
            let numbers: Vec<u32> = if all <= 256 { (0..all).collect() } else { some };
            tables.extend(numbers.into_iter().map(|number| (size, number)));
        }
        for last in (1..tables.len()).rev() {
            tables.swap(last, self.random.below(last as u64 + 1) as usize);
        }
        for (size, number) in tables {
            self.small_table(size, number);
        }
    }

    /// Files that are too long. And each command that writes a file: along a link to a file of another sort, over a file with a `.part`
    /// beside it, to a name without room for `.part`, and to names that are numbers; with what shows what became of it.
    fn hard_names(&mut self) {
        for place in 0..LONG_FILES {
            self.put(format!("load {}", long_name(place)));
        }
        let (link, target) = (link_name(0), LINKS[0]);
        for (write, read) in [("save", "load"), ("record 1", "report"), ("delays 1 3", "load")] {
            self.put(format!("load {}", delay_name(0)));
            self.put("search 1");
            self.put(format!("{write} {link}"));
            self.put(format!("{read} {target}"));
            self.put(format!("save {target}{PART}"));
            self.put(format!("{write} {target}"));
            self.put(format!("load {target}{PART}"));
            self.put(format!("{write} {}", "n".repeat(251)));
            self.put(format!("{write} 007"));
            self.put(format!("{write} 4294967296"));
        }
    }

    /// A chart of the plan of each hard diagram, the longest that has room, and one of many turns, before the plan is shown and after.
    fn hard_charts(&mut self) {
        let names: Vec<String> = (0..units::HARD.len()).map(good_name).chain([list_name(loops_check::HARD.len() - 1)]).collect();
        for (place, name) in names.into_iter().enumerate() {
            self.put(format!("load {name}"));
            let tag = self.standing().map_or(1, |mark| mark.tag);
            self.put(format!("search {tag}"));
            let (first, second) = (self.random.pick(&[8_192, 3_000, 1_500, 700, 300]), self.random.between(100, 900));
            self.put(format!("simulate {tag} {}", if place == 0 { 8_192 } else { first }));
            self.put("read");
            self.put(format!("simulate {tag} {second}"));
        }
    }

    /// A record of the plan of each hard diagram, and of a plan of the longest latency.
    fn hard_records(&mut self) {
        let names: Vec<String> = (0..units::HARD.len()).map(good_name).chain([list_name(loops_check::HARD.len() - 1)]).collect();
        for (place, name) in names.into_iter().enumerate() {
            self.put(format!("load {name}"));
            let tag = self.standing().map_or(1, |mark| mark.tag);
            self.put(format!("search {tag}"));
            self.put(format!("record {tag} hard{place}"));
            let (ring, report) = (format!("ring hard{place}"), format!("report hard{place}"));
            for line in [&ring, &report, "read", &ring] {
                if self.random.chance(3, 4) {
                    self.put(line);
                }
            }
        }
    }

    /// The hard lists, a list of one tag for each hard diagram, and a list with a word after many tags that is no number.
    fn hard_loops(&mut self) {
        for (place, (_, _, _, tags, _)) in loops_check::HARD.into_iter().enumerate() {
            let words: Vec<String> = tags.iter().map(|tag| tag.to_string()).collect();
            self.put(format!("load {}", list_name(place)));
            self.put(format!("loop {}", words.join(" ")));
        }
        for place in 0..units::HARD.len() {
            self.put(format!("load {}", good_name(place)));
            let tag = self.standing().map_or(1, |mark| mark.tag);
            self.put(format!("loop {tag}"));
        }
        self.put(format!("loop{} x", " 1".repeat(256)));
    }

    /// The issue controller at work, and what leaves its bank as it is or empties it; then the bank is seen, and a start is tried.
    fn events(&mut self) {
        for _ in 0..self.random.between(1, 4) {
            for _ in 0..self.random.between(2, 10) {
                let line = match self.random.below(10) {
                    0..=5 => format!("start {}", self.good_tag()),
                    6 | 7 => "tick".to_string(),
                    _ => "bank".to_string(),
                };
                self.put(line);
            }
            let tag = self.good_tag();
            self.put(format!("start {tag}"));
            let line = self.between_starts();
            self.put(line);
            if self.random.chance(4, 5) {
                self.put("bank");
            }
            self.put(format!("start {tag}"));
            if self.random.chance(1, 3) {
                self.put("bank");
            }
        }
    }

    /// What may come between two starts: edits above all.
    fn between_starts(&mut self) -> Vec<u8> {
        let (functions, segments, columns) = self.counts();
        let tag = self.good_tag();
        let edit = self.random.pick(&["mark", "unmark"]);
        match self.random.below(59) {
            0 => self.refused_fresh(),
            1 => format!("load {}", damaged_name(self.random.below(DAMAGED_FILES as u64) as usize)).into_bytes(),
            2 => self.fresh(),
            3 => format!("load {}", good_name(self.random.below(GOOD_FILES as u64) as usize)).into_bytes(),
            4 => b"load missing".to_vec(),
            5..=7 => self.mark(),
            8..=10 => self.unmark(),
            // an edit that leaves the table as it is
            11 | 12 => match self.standing() {
                Some(Mark { tag, segment, column }) => format!("mark {tag} {segment} {column}").into_bytes(),
                None => self.mark(),
            },
            13 | 14 => [b"un", &self.mark()[..]].concat(),
            // edits that are refused
            15 | 16 => format!("{edit} {} 1 1", functions + 1).into_bytes(),
            17 | 18 => format!("{edit} {tag} {} 1", segments + 1).into_bytes(),
            19 | 20 => format!("{edit} {tag} 1 {}", columns + 1).into_bytes(),
            // and what is none
            21 => format!("{edit} {tag} 1").into_bytes(),
            22 => self.spoiled(),
            23 => format!("search {tag}").into_bytes(),
            24 => format!("search {}", functions + 1).into_bytes(),
            25..=27 => self.loop_over(),
            28..=30 => self.record(),
            31 | 32 => self.view(),
            33..=36 => self.simulate(),
            37..=40 => self.delays(),
            41 | 42 => self.unwritten_delays(),
            43 | 44 => self.arrive(),
            45 => b"pass".to_vec(),
            46 => b"queue".to_vec(),
            47 => self.about("start"),
            48 => [b"save ", &self.save_name()[..]].concat(),
            49 => format!("save {}", self.random.pick(&["missing/out", INNER])).into_bytes(),
            50 | 51 => self.call(),
            52 => b"turn".to_vec(),
            53 => self.count(),
            54 => self.small(),
            55 => self.good_small(),
            56 => self.no_small_unit(),
            _ => b"tick".to_vec(),
        }
    }

    /// Tasks that arrive, time units that pass, and what may come between.
    fn some_queue(&mut self) {
        for _ in 0..self.random.between(1, 3) {
            match self.random.below(24) {
                0 => self.fill(),
                1..=4 => {}
                _ => {
                    let count = self.random.between(1, 6) as usize;
                    self.arrivals(count);
                }
            }
            if self.random.chance(2, 3) {
                let line = if self.random.chance(2, 3) { self.between_starts() } else { self.command() };
                self.put(line);
            }
            if self.random.chance(2, 3) {
                self.put("queue");
            }
            let units = match self.random.below(8) {
                0 => 30,
                1 => 1,
                _ => self.random.between(2, 16),
            };
            self.passes(units);
        }
        if self.random.chance(1, 2) {
            self.put("queue");
        }
    }

    /// Arrivals until no other has room, and now and then some more.
    fn fill(&mut self) {
        let room = MOST_WAITING - self.console.queue.len();
        let more = self.random.pick(&[0, 1, 2, 3]);
        self.arrivals(room + more);
    }

    /// So many arrivals, most of them good; and where no other has room, some of functions that are not there.
    fn arrivals(&mut self, count: usize) {
        for _ in 0..count {
            let is_full = self.console.queue.len() == MOST_WAITING;
            let line = match self.random.below(30) {
                0 => self.arrive(),
                1 => b"pass".to_vec(),
                2..=14 if is_full => format!("arrive {} {}", self.bad_tag(), self.ticket()).into_bytes(),
                _ => self.good_arrival(),
            };
            self.put(line);
        }
    }

    /// So many time units, some of them by hand.
    fn passes(&mut self, count: u32) {
        for _ in 0..count {
            let waits = !self.console.queue.is_empty();
            let line = match self.random.below(30) {
                0 => b"tick".to_vec(),
                1 | 2 => format!("start {}", self.good_tag()).into_bytes(),
                3 => b"queue".to_vec(),
                4 => b"bank".to_vec(),
                5 | 6 => self.arrive(),
                7..=16 if !waits => self.good_arrival(),
                _ => b"pass".to_vec(),
            };
            self.put(line);
        }
    }

    fn put_all(&mut self, lines: &[&str]) {
        for line in lines {
            self.put(line);
        }
    }

    /// Tasks that wait on special units. And every sort of command while two tasks wait, with what becomes of them.
    fn hard_queues(&mut self) {
        // each time unit starts one; 34 tasks, and functions that are not there with room and without
        self.put(format!("load {}", queue_name(NO_MARKS)));
        for ticket in 0..34 {
            self.put(format!("arrive {} {}", ticket % 4 + 1, 40 - ticket));
            if ticket > 29 {
                self.put_all(&["arrive 0 1", "arrive 5 1", "arrive 257 7", "arrive 4294967295 2"]);
            }
        }
        self.put_all(&["queue", "pass", "arrive 4 4294967295", "queue", "arrive 1 1", "bank"]);
        self.put_all(&["pass"; 33]);
        // behind a start by hand each waits as long as can be
        self.put(format!("load {}", queue_name(ALL_OF_4)));
        self.put("start 1");
        for ticket in TICKETS.into_iter().cycle().take(MOST_WAITING) {
            self.put(format!("arrive 1 {ticket}"));
        }
        self.put_all(&["queue", "bank", "arrive 1 9", "arrive 2 9", "bank"]);
        self.put_all(&["pass"; 4 * MOST_WAITING]);
        self.put("queue");
        // 32 tasks of function 1 one after the other: for 31 time units one of function 2 would meet one of them
        self.put(format!("load {}", queue_name(APART)));
        for ticket in 0..32 {
            self.put(format!("arrive 1 {ticket}"));
            self.put("pass");
        }
        self.put_all(&["arrive 2 2147483648", "arrive 1 65536"]);
        self.put_all(&["pass"; 34]);
        self.put("queue");
        let load = format!("load {}", queue_name(FIGURE_2));
        for line in BETWEEN {
            self.put_all(&[&load, "search 1", "record 1 plan0", "start 1", "arrive 2 17", "arrive 1 4294967295"]);
            self.put_all(&[line, "bank", "queue", "pass", "read", "queue", "pass", "pass", "bank", "queue"]);
        }
        self.put_all(&[&load, "arrive 1 7"]);
        self.put([b'x'; LONGEST_LINE + 1]);
        self.put_all(&["queue", "pass"]);
        // new units and edits beside an empty bank, and beside an empty queue
        let empties = |line: &&str| ["fresh ", "load ", "mark ", "unmark ", "small "].iter().any(|name| line.starts_with(name));
        for line in BETWEEN.into_iter().filter(empties) {
            self.put_all(&[&load, "arrive 1 7", line, "queue", "pass", "bank"]);
            self.put_all(&[&load, "start 1", line, "bank", "queue"]);
        }
    }

    /// The same arrivals and time units twice, beginning with the same file, the second time without the arrivals after one of them: what
    /// came before starts in the same time unit, or in none both times.
    fn without_later(&mut self) {
        const CALLS: usize = 60;
        if self.lines.len() + 1 + 2 * (1 + CALLS) > self.most {
            return;
        }
        let load = format!("load {}", queue_name(self.random.below(QUEUE_FILES as u64) as usize));
        self.put_bare(&load);
        // an arrival each, with its own ticket, or a time unit
        let task = |it: &mut Writer, ticket: usize| Task { tag: it.good_tag(), ticket: ticket as u32 };
        let calls: Vec<Option<Task>> = (0..CALLS).map(|place| self.random.chance(1, 2).then(|| task(self, place))).collect();
        let last = self.random.below(CALLS as u64 / 2) as usize;
        let mut starts: Vec<Vec<(usize, String)>> = Vec::new();
        for end in [CALLS, last + 1] {
            self.put_bare(&load);
            let (mut unit, mut started) = (0, Vec::new());
            for (place, call) in calls.iter().enumerate() {
                match call {
                    Some(Task { tag, ticket }) if place < end => self.put_bare(format!("arrive {tag} {ticket}")),
                    Some(_) => {}
                    None => {
                        self.put_bare("pass");
                        unit += 1;
                        if let [Part::Text(text)] = &self.lines[self.lines.len() - 1].answer.parts[..] {
                            let ticket: Option<usize> = text.trim_end().rsplit(' ').next().and_then(|ticket| ticket.parse().ok());
                            started.extend(ticket.filter(|ticket| *ticket <= last).map(|_| (unit, text.clone())));
                        }
                    }
                }
            }
            starts.push(started);
        }
        assert_eq!(starts[0], starts[1], "later arrivals can't alter a start");
    }

    /// Tasks on a unit for them, above all.
    fn queue_session(&mut self) {
        let (good, own) = (self.random.below(GOOD_FILES as u64) as usize, self.random.below(QUEUE_FILES as u64) as usize);
        match self.random.below(8) {
            0 => self.begin(),
            1 => self.put(format!("load {}", good_name(good))),
            _ => self.put(format!("load {}", queue_name(own))),
        }
        for _ in 0..self.random.between(1, 6) {
            match self.random.below(16) {
                0 => self.without_later(),
                1 | 2 => self.events(),
                3 => self.some_line(),
                4 => {
                    let tag = self.good_tag();
                    self.put(format!("search {tag}"));
                }
                5 | 6 => {
                    let units = self.random.between(1, 60);
                    self.fill();
                    self.passes(units);
                }
                _ => self.some_queue(),
            }
        }
    }

    /// Tasks of callers, time units of their port, and what may come between.
    fn some_calls(&mut self) {
        for _ in 0..self.random.between(1, 3) {
            match self.random.below(24) {
                0..=2 => self.burst(),
                3..=5 => {}
                _ => {
                    let count = self.random.between(1, 8) as usize;
                    self.calls(count);
                }
            }
            if self.random.chance(2, 3) {
                let line = if self.random.chance(2, 3) { self.between_starts() } else { self.command() };
                self.put(line);
            }
            let units = match self.random.below(8) {
                0 => 30,
                1 => 1,
                _ => self.random.between(2, 16),
            };
            self.turns(units);
        }
    }

    /// Calls of one caller until no other has room, and now and then some more.
    fn burst(&mut self) {
        let caller = self.good_caller();
        let room = CALLER_ROOM - self.console.callers.queue(caller).len();
        for _ in 0..room + self.random.pick(&[0, 1, 2]) {
            let line = match self.random.below(30) {
                0 => b"turn".to_vec(),
                1 => self.good_call(),
                2 => format!("call {caller} {} {}", self.bad_tag(), self.ticket()).into_bytes(),
                _ => format!("call {caller} {} {}", self.good_tag(), self.ticket()).into_bytes(),
            };
            self.put(line);
        }
    }

    /// So many calls, most of them good.
    fn calls(&mut self, count: usize) {
        for _ in 0..count {
            let line = match self.random.below(30) {
                0 | 1 => self.call(),
                2 => b"turn".to_vec(),
                3 if self.random.chance(1, 3) => self.count(),
                _ => self.good_call(),
            };
            self.put(line);
        }
    }

    /// So many time units of the callers' port, some of them by hand or of the queue.
    fn turns(&mut self, count: u32) {
        for _ in 0..count {
            let waits = self.console.callers.waiting() > 0;
            let line = match self.random.below(48) {
                0 => b"tick".to_vec(),
                1 | 2 => format!("start {}", self.good_tag()).into_bytes(),
                3 => b"pass".to_vec(),
                4 => self.good_arrival(),
                5 => b"queue".to_vec(),
                6 => b"bank".to_vec(),
                7 => self.call(),
                8 if self.random.chance(1, 3) => self.count(),
                9..=14 => self.good_call(),
                15..=28 if !waits => self.good_call(),
                _ => b"turn".to_vec(),
            };
            self.put(line);
        }
    }

    /// Lines with a semicolon between each two.
    fn put_list(&mut self, lines: &str) {
        for line in lines.split("; ") {
            self.put(line);
        }
    }

    /// Before there are callers: what is refused, and what is to be as it was before it.
    fn no_callers(&mut self) {
        self.put(format!("load {}", queue_name(FIGURE_2)));
        self.put_list("turn; call 1 1 7; call 4 2 7; call 0 1 7; call 5 1 7; call 1 3 7; call 1 0 7; call 257 1 7; turn");
        self.put_list("callers 0; callers 5; callers 257; callers 4294967295; caller 2; calls 1 1 7; turn; call 1 1 7");
        for line in ["turn", "call 1 1 7", "call 9 9 7", "callers 0", "callers", "turn 1"] {
            for seen in ["bank", "read", "queue"] {
                self.put_list(&format!("search 1; start 1; arrive 2 17; {line}; {seen}; pass; bank; queue"));
            }
        }
        // an edit and a new unit make no callers
        self.put_list("mark 1 1 1; turn; call 1 1 7; fresh 1 1 1; turn; call 1 1 7");
    }

    /// Callers on special units.
    fn hard_callers(&mut self) {
        // four callers with 8 tasks each; no other has room
        self.put(format!("load {}", queue_name(NO_MARKS)));
        self.put("callers 4");
        for ticket in 0..36 {
            self.put(format!("call {} {} {}", ticket % 4 + 1, ticket / 4 % 4 + 1, 40 - ticket));
        }
        self.put_list("call 5 1 1; call 0 1 1; call 260 1 1; call 1 5 1; call 4 0 1; call 3 257 1; call 5 5 1; bank");
        self.put_list("turn; turn; call 3 4 4294967295; call 2 1 2147483648; call 2 3 65536; call 1 4 0");
        self.put_all(&["turn"; 36]);
        // a burst, and others who come while it goes on
        self.put_list("callers 3; call 2 1 0; call 2 2 1; call 2 2 2; call 2 2 3; call 2 2 4; call 2 2 5");
        self.put_list("call 2 2 6; call 2 2 7; call 2 2 8");
        self.put_list("turn; call 3 3 31; turn; call 1 1 11; turn; call 3 2 32; call 1 4 12; turn; turn; turn; turn");
        self.put_list("call 2 1 10; call 2 1 11; call 2 1 12; turn; turn; call 3 1 33");
        self.put_all(&["turn"; 9]);
        // whose turn it is after a start, where the starter alone has more, and where nobody is left
        for count in 2..=4 {
            for caller in 1..=count {
                let (next, last) = (caller % count + 1, (caller + count - 2) % count + 1);
                self.put_list(&format!("callers {count}; call {caller} 1 1; call {caller} 2 2; turn; call {next} 3 3; turn; turn; turn"));
                self.put_list(&format!("call {last} 4 4; call {next} 1 5; turn; turn"));
                self.put_list(&format!("call {caller} 1 6; turn; call {last} 2 7; call {caller} 3 8; turn; turn"));
            }
        }
        // fewer callers, more and as many, while tasks wait and it is another's turn
        for (before, after) in [(4, 2), (4, 3), (2, 4), (3, 3), (4, 1), (1, 4), (3, 2), (2, 1)] {
            self.put(format!("callers {before}"));
            for ticket in 0..9 {
                self.put(format!("call {before} 1 {ticket}"));
            }
            self.put_list(&format!("call 1 2 21; call 1 3 22; turn; callers 0; turn; call {before} 1 9; call 1 2 23"));
            self.put_list(&format!("callers {after}; turn"));
            self.put_list(&format!("call {} 1 31; call {before} 4 32; call {} 2 33; call 1 2 34", after + 1, before.min(after)));
            self.put_list("turn; turn; turn; turn; callers 4; turn; call 1 1 41; turn");
        }
        // a caller's task holds back the queue's and those by hand, and the other way about
        self.put(format!("load {}", queue_name(ALL_OF_4)));
        self.put_list("callers 2; call 2 1 7; turn; arrive 1 8; pass; start 1; call 1 1 9; turn; pass; pass; turn; turn; turn; turn");
        self.put_list("turn; turn; call 1 1 10; start 1; turn; tick; turn; bank; turn; turn; queue");
        // the turn is handed on though the bank does not grant the start, and kept whoever comes
        for (caller, others) in [(3, [1, 2]), (2, [1, 3]), (2, [3, 1])] {
            self.put_list(&format!("callers 3; start 1; call {caller} 1 1; turn; call {} 1 2; turn; call {} 1 3", others[0], others[1]));
            self.put_all(&["turn"; 12]);
        }
        // as long as can be
        for count in 1..=4 {
            self.put_list(&format!("tick; tick; tick; callers {count}; start 1"));
            for caller in (1..=count).rev().chain(1..=count) {
                self.put_list(&format!("call {caller} 1 65535; call {caller} 1 4294967295"));
            }
            self.put_all(&vec!["turn"; 4 * 4 * count + 2]);
        }
        // for 31 time units after the other's tasks one of function 2 would meet one of them
        self.put(format!("load {}", queue_name(APART)));
        self.put("callers 2");
        for ticket in 0..32 {
            self.put_list(&format!("call 1 1 {ticket}; turn"));
        }
        self.put_list("call 2 2 2147483648; call 1 1 65536");
        self.put_all(&["turn"; 35]);
    }

    /// Every sort of command while several callers wait, with what becomes of their tasks, of the turn and of the number of callers.
    fn between_turns(&mut self) {
        let load = format!("load {}", queue_name(FIGURE_2));
        for line in BETWEEN {
            self.put_list(&format!("{load}; callers 3; search 1; record 1 plan0; call 1 2 17; call 3 1 4294967295; call 1 1 5; turn"));
            self.put(line);
            self.put_list("turn; bank; turn; read; turn; call 3 2 9; call 2 1 8; turn; turn; turn; turn; turn; bank; queue");
        }
        self.put_list(&format!("{load}; callers 2; call 2 1 7"));
        self.put([b'x'; LONGEST_LINE + 1]);
        self.put_list("turn; turn");
        // new units and edits beside an empty bank and queue, while nobody waits, and in another's turn
        let empties = |line: &&str| ["fresh ", "load ", "mark ", "unmark ", "small "].iter().any(|name| line.starts_with(name));
        for line in BETWEEN.into_iter().filter(empties) {
            self.put_list(&format!("{load}; callers 2; call 2 1 7; {line}; turn; call 2 1 8; call 1 1 9; turn; turn"));
            self.put_list(&format!("{load}; call 1 1 7; call 2 1 7; turn; {line}; call 2 1 8; call 1 1 9; turn; turn; bank"));
            self.put_list(&format!("{load}; callers 3; call 3 1 7; turn; arrive 2 7; {line}; bank; queue; call 3 1 8; call 1 1 9; turn"));
        }
    }

    /// Small tables and totals where there are a plan, a bank in use, tasks that wait and callers' tasks that do, and another's turn than
    /// caller 1's: with what becomes of each of them.
    fn between_small(&mut self) {
        let load = format!("load {}", queue_name(FIGURE_2));
        let is_small = |line: &&str| line.starts_with("small ");
        for line in BETWEEN.into_iter().filter(is_small).chain(["small 2 6 4095", "small 1 6 37", "small 2 1 4", "small 1 7"]) {
            for seen in ["read", "bank", "queue", "turn", "pass", "table 1", "table 2"] {
                self.put_list(&format!("{load}; callers 3; call 3 1 5; call 2 1 6; turn; search 1; start 2; arrive 1 7; arrive 2 8"));
                self.put_list(&format!("{line}; {seen}; call 3 1 9; call 1 1 8; turn; turn; bank; queue; call 4 1 1; callers 2"));
            }
        }
    }

    /// Four callers whose tasks each fill the unit: each task waits for 128 time units once it is its caller's oldest.
    fn longest_turns(&mut self) {
        self.put(format!("load {}", queue_name(ALL_OF_32)));
        self.put("callers 4");
        for ticket in 0..12 {
            self.put(format!("call {} 1 {ticket}", ticket % 4 + 1));
        }
        for unit in 1..=12 * MOST_COLUMNS {
            self.put("turn");
            // what comes later waits behind
            if unit % 48 == 0 {
                self.put(format!("call {} 1 {unit}", unit / 48 % 4 + 1));
            }
        }
    }

    /// Callers on a unit for tasks, above all.
    fn caller_session(&mut self) {
        let (good, own) = (self.random.below(GOOD_FILES as u64) as usize, self.random.below(QUEUE_FILES as u64) as usize);
        match self.random.below(8) {
            0 => self.begin(),
            1 => self.put(format!("load {}", good_name(good))),
            _ => self.put(format!("load {}", queue_name(own))),
        }
        if self.console.callers.count == 0 || self.random.chance(1, 3) {
            let line = self.good_count();
            self.put(line);
        }
        for _ in 0..self.random.between(1, 6) {
            match self.random.below(16) {
                0 | 1 => self.some_queue(),
                2 => self.events(),
                3 => self.some_line(),
                4 => {
                    let tag = self.good_tag();
                    self.put(format!("search {tag}"));
                }
                5 | 6 => {
                    let units = self.random.between(1, 60);
                    self.burst();
                    self.turns(units);
                }
                7 => {
                    for _ in 0..self.random.between(2, 5) {
                        self.burst();
                    }
                    self.turns(40);
                }
                _ => self.some_calls(),
            }
        }
    }

    /// As long as any task can wait: 31 are ahead, n is 31, and each of them waits until nothing else is in the unit.
    fn longest_wait(&mut self) {
        self.put(format!("load {}", queue_name(ALL_OF_32)));
        self.put("start 1");
        for ticket in 1..=MOST_WAITING {
            self.put(format!("arrive 1 {ticket}"));
        }
        for unit in 1..=MOST_WAITING * MOST_COLUMNS as usize {
            self.put("pass");
            // later arrivals are refused, or wait behind
            if unit % 96 == 0 {
                self.put(format!("arrive 1 {unit}"));
                self.put("queue");
            }
        }
        self.put("queue");
    }

    /// What was saved is loaded, and is the same unit without its plan.
    fn save_and_load(&mut self) {
        let name = format!("again{}", self.random.below(12));
        let tag = self.good_tag();
        if self.random.chance(1, 2) {
            self.put(format!("search {tag}"));
        }
        self.put(format!("save {name}"));
        if self.random.chance(1, 2) {
            let line = self.mark();
            self.put(line);
        }
        if self.random.chance(1, 3) {
            let line = self.fresh();
            self.put(line);
        }
        self.put(format!("load {name}"));
        for line in ["read", "bank", "list"] {
            self.put(line);
        }
        self.put(format!("table {tag}"));
    }

    /// A new unit.
    fn begin(&mut self) {
        if self.random.chance(1, 3) {
            let name = match self.random.below(9) {
                0 => list_name(self.random.below(loops_check::HARD.len() as u64) as usize),
                1 => delay_name(self.random.below(DELAY_FILES as u64) as usize),
                2 => queue_name(self.random.below(QUEUE_FILES as u64) as usize),
                _ => good_name(self.random.below(GOOD_FILES as u64) as usize),
            };
            return self.put(format!("load {name}"));
        }
        let line = self.fresh();
        self.put(line);
        if self.random.chance(9, 10) {
            self.marks();
        }
    }

    /// Marks, a few or many.
    fn marks(&mut self) {
        let (functions, segments, columns) = self.counts();
        match self.random.below(11) {
            // anywhere
            0 | 1 => {
                let most = (functions * segments * columns).min(60);
                for _ in 0..self.random.between(1, most) {
                    let line = self.mark();
                    self.put(line);
                }
            }
            // two in each of some segments, each of which forbids a latency
            2..=7 => {
                for tag in [self.good_tag(), self.good_tag()] {
                    for segment in 1..=segments.min(8) {
                        for _ in 0..2 {
                            let column = self.random.between(1, columns);
                            self.put(format!("mark {tag} {segment} {column}"));
                        }
                    }
                }
            }
            // a task that goes from segment to segment and comes back now and then
            8 | 9 => {
                let tag = self.good_tag();
                for column in 1..=columns {
                    let segment = if self.random.chance(1, 3) { self.random.between(1, segments) } else { (column - 1) % segments + 1 };
                    self.put(format!("mark {tag} {segment} {column}"));
                }
            }
            // two far apart: more than 256 states where there are columns enough
            _ => {
                let (tag, segment) = (self.good_tag(), self.random.between(1, segments));
                let last = self.random.between(columns.min(9), columns);
                self.put(format!("mark {tag} {segment} 1"));
                self.put(format!("mark {tag} {segment} {last}"));
            }
        }
    }

    fn session(&mut self) {
        self.begin();
        for _ in 0..self.random.between(3, 70) {
            if self.console.unit.as_ref().is_some_and(|unit| unit.marks.len() < 3) && self.random.chance(1, 3) {
                self.marks();
            }
            match self.random.below(72) {
                0..=5 => self.search_and_read(),
                6 => self.questions(),
                7 => self.events(),
                8 => self.save_and_load(),
                9 => self.loops(),
                10 | 11 => self.records(),
                12 => self.charts(),
                13 => self.some_delays(),
                14 => self.some_queue(),
                15 => self.some_calls(),
                16 => self.some_small(),
                _ => self.some_line(),
            }
        }
    }

    /// Lines of all sorts in front of the first unit. What could make one is replaced by what is refused.
    fn no_unit(&mut self, count: usize) {
        let end = (self.lines.len() + count).min(self.most);
        for (name, wants) in COMMANDS {
            let words = words_for(wants, "0");
            self.put(format!("{name}{words}"));
            self.put(format!("{name}{words} 1 x"));
        }
        while self.lines.len() < end {
            let mut line = match self.random.below(10) {
                0 => self.refused_fresh(),
                1 | 2 => self.spoiled(),
                3 => self.comment(),
                _ => self.command(),
            };
            let first = words_of(&line).first().map(|word| word.to_vec()).unwrap_or_default();
            if first == b"fresh" {
                line = self.refused_fresh();
            } else if first == b"small" {
                line = self.no_small_unit();
            } else if first == b"load" {
                let damaged = damaged_name(self.random.below(REFUSED_FILES as u64) as usize);
                line = format!("load {}", self.random.pick(&["missing", INNER, &damaged])).into_bytes();
            }
            self.put(line);
        }
    }

    fn script(self, name: &str, before: Folder) -> (Script, Console<Folder>) {
        let script = Script {
            name: name.to_string(),
            lines: self.lines,
            newline: true,
            feed: Feed::Pieces,
            before,
            after: self.console.shelf.clone(),
            met: Vec::new(),
        };
        (script, self.console)
    }
}

// ---------------------------------------------------------------------------------------------------------------------------------
// Scripts

/// Lines of the long script.
pub const LINES: usize = 100_000;
const SHORT_SCRIPTS: u64 = 12;

/// The long script: so many lines, the last one without a newline.
fn sessions(lines: usize, before: &Folder, console: Console<Folder>) -> (Script, Console<Folder>) {
    let mut writer = Writer::new(seed_of(200, 0), lines - 1, console.again(before.clone()));
    writer.no_unit(400);
    // at the first unit every command about a function that it does not have, and every length once in each form
    writer.put("fresh 3 4 9");
    for (name, wants) in COMMANDS.into_iter().filter(|(_, wants)| wants.starts_with(" Q")) {
        writer.put(format!("{name}{}", words_for(wants, "4")));
    }
    writer.no_callers();
    writer.put("fresh 3 4 9");
    for form in 0..LONG_FORMS {
        for length in [4_095, 4_096, 4_097, 4_098, 100_000] {
            let line = writer.long(form, length);
            writer.put(line);
        }
    }
    writer.figure();
    writer.hard_loops();
    writer.hard_records();
    writer.hard_charts();
    writer.hard_delays();
    writer.hard_queues();
    writer.hard_callers();
    writer.between_turns();
    writer.hard_small();
    writer.hard_names();
    while !writer.full() {
        writer.session();
    }
    writer.most += 1;
    writer.put_bare("list\r");
    let (mut script, console) = writer.script("the sessions", before.clone());
    script.newline = false;
    script.met.push("a last line without a newline");
    script.met.push("a last line without a newline, its last byte a carriage return");
    (script, console)
}

/// A few lines that end in a special way.
fn ending(place: usize, last: &[u8], newline: bool, before: &Folder, console: Console<Folder>) -> (Script, Console<Folder>) {
    let mut writer = Writer::new(seed_of(201, place as u64), 10, console.again(before.clone()));
    for line in ["fresh 1 2 3", "mark 1 2 1", "mark 1 2 3", "search 1", "arrive 1 7", "callers 2", "call 2 1 7"] {
        writer.put_bare(line);
    }
    writer.put_bare(last);
    let (mut script, console) = writer.script(&format!("ending {place}"), before.clone());
    script.newline = newline;
    if !newline && last.last().is_some_and(|byte| is_blank(*byte)) {
        script.met.push("a last line without a newline, its last byte a blank");
    }
    (script, console)
}

/// The name of the script about records.
pub const RECORDS: &str = "the records";

/// Every file of a folder full of records and damaged ones is shown to both readers, before the first unit and after it.
fn records(console: Console<Folder>) -> (Script, Console<Folder>) {
    let mut random = Random::new(seed_of(204, 0));
    let files = all_records(&mut random);
    let count = files.len();
    let before = Folder { files: files.into_iter().enumerate().map(|(place, file)| (format!("r{place}").into_bytes(), file)).collect() };
    let mut writer = Writer::new(seed_of(204, 1), usize::MAX, console.again(before.clone()));
    let mut places: Vec<usize> = (0..count).collect();
    for last in (1..count).rev() {
        places.swap(last, random.below(last as u64 + 1) as usize);
    }
    for (time, place) in places.into_iter().enumerate() {
        if time == count / 2 {
            for line in ["fresh 2 3 5", "mark 1 1 1", "mark 1 1 4", "mark 2 2 2", "search 1", "start 1"] {
                writer.put(line);
            }
        }
        let mut readers = ["report", "ring"];
        if random.chance(1, 2) {
            readers.swap(0, 1);
        }
        for reader in readers {
            writer.put(format!("{reader} r{place}"));
        }
        match random.below(24) {
            // a file that no load takes leaves the session as it is
            0 if decode_fails(&before, place) => writer.put(format!("load r{place}")),
            1 => writer.put("read"),
            2 => writer.put("bank"),
            3 => writer.put("report missing"),
            4 => writer.put(format!("ring {INNER}")),
            _ => {}
        }
    }
    writer.script(RECORDS, before)
}

/// The name of the script about tasks that wait, and how many lines it has.
pub const QUEUES: &str = "the queues";
const QUEUE_LINES: usize = 20_000;

/// Tasks that wait, on units of all sorts: before the first unit, on special ones, as long as can be, and at random.
fn queues(before: &Folder, console: Console<Folder>) -> (Script, Console<Folder>) {
    let mut writer = Writer::new(seed_of(205, 0), QUEUE_LINES, console.again(before.clone()));
    writer.put_all(&["pass", "queue", "arrive 1 7", "arrive 0 7", "pass", "queue"]);
    writer.hard_queues();
    writer.longest_wait();
    while !writer.full() {
        writer.queue_session();
    }
    writer.script(QUEUES, before.clone())
}

/// The name of the script about callers, and how many lines it has.
pub const CALLERS: &str = "the callers";
const CALLER_LINES: usize = 20_000;

/// Callers in turn, on units of all sorts: before the first unit, before there are any, on special units, as long as can be, and at random.
fn callers(before: &Folder, console: Console<Folder>) -> (Script, Console<Folder>) {
    let mut writer = Writer::new(seed_of(206, 0), CALLER_LINES, console.again(before.clone()));
    writer.put_all(&["turn", "callers 2", "call 1 1 7", "callers 0", "call 0 0 7", "turn"]);
    writer.no_callers();
    writer.hard_callers();
    writer.between_turns();
    writer.longest_turns();
    while !writer.full() {
        writer.caller_session();
    }
    writer.script(CALLERS, before.clone())
}

/// The name of the script about small tables, and how many lines it has.
pub const SMALL_TABLES: &str = "the small tables";
const SMALL_LINES: usize = 8_000;

/// Small tables and totals: before the first unit, each of its kind, between commands of every sort, and at random.
fn small_tables(before: &Folder, console: Console<Folder>) -> (Script, Console<Folder>) {
    let mut writer = Writer::new(seed_of(207, 0), SMALL_LINES, console.again(before.clone()));
    writer.put_all(&["small 1 0", "small 3 1 0", "small 2 2 16", "small 1 3", "read", "small 1 3 5", "table 1", "read", "bank", "queue"]);
    writer.hard_small();
    writer.every_small();
    writer.between_small();
    while !writer.full() {
        match writer.random.below(4) {
            0 => writer.begin(),
            1 => writer.some_line(),
            _ => writer.some_small(),
        }
    }
    writer.script(SMALL_TABLES, before.clone())
}

/// Whether a file of this folder is no unit.
fn decode_fails(folder: &Folder, place: usize) -> bool {
    match folder.files.get(format!("r{place}").as_bytes()) {
        Some(File::Bytes(bytes)) => decode(bytes).is_err(),
        _ => true,
    }
}

/// The scripts of a run: the long one, and short ones, each for a new process.
pub fn scripts(lines: usize) -> Vec<Script> {
    let before = files(&mut Random::new(seed_of(202, 0)));
    let mut console = Console::new(Folder::default());
    let mut scripts = Vec::new();
    let mut keep = |(script, after): (Script, Console<Folder>), console: &mut Console<Folder>| {
        scripts.push(script);
        *console = after;
    };
    let take = |console: &mut Console<Folder>| std::mem::replace(console, Console::new(Folder::default()));

    let made = sessions(lines, &before, take(&mut console));
    keep(made, &mut console);

    let writer = Writer::new(0, 0, take(&mut console).again(Folder::default()));
    let (mut script, after) = writer.script("no input", Folder::default());
    script.met.push("an input of no bytes");
    keep((script, after), &mut console);

    let long = vec![b'9'; 5_000_000];
    let command = format!("vector {}1", "0".repeat(LONGEST_LINE - 8));
    let returned = format!("vector {}1\r", "0".repeat(LONGEST_LINE - 9));
    let too_long = format!("{command}\r");
    let lasts: [&[u8]; 51] = [
        b"",
        b"table 1",
        b"tick",
        b"list",
        b"# no newline",
        b" ",
        b" \t ",
        b"\r",
        b" \r",
        b"\r\r",
        b"\t # no newline\r",
        b"row 1 ",
        b"row 1 1 ",
        b"table 1\r",
        b"table\t1 \r",
        b"table 1\r ",
        b"tick\r\r",
        b"save out",
        b"save out\r",
        b"record 1 out",
        b"record 1 out\r",
        b"report out ",
        b"simulate 1 12",
        b"simulate 1 12 \r",
        b"simulate 1 0",
        b"delays 1 2",
        b"delays 1 2 out",
        b"delays 1 2 out \r",
        b"arrive 1 4294967295",
        b"arrive 1 8 \r",
        b"pass",
        b"pass\r",
        b"queue",
        b"queue ",
        b"callers 4",
        b"callers 0 \r",
        b"call 1 1 4294967295",
        b"call 2 1 8 \r",
        b"turn",
        b"turn\r",
        b"turn ",
        b"small 1 3",
        b"small 1 3 7",
        b"small 1 3 8 \r",
        command.as_bytes(),
        returned.as_bytes(),
        too_long.as_bytes(),
        &long[..LONGEST_LINE],
        &long[..LONGEST_LINE + 1],
        &long[..100_000],
        &long,
    ];
    for (place, last) in lasts.into_iter().enumerate() {
        for newline in [true, false] {
            // without its newline an empty line is none
            if newline || !last.is_empty() {
                let made = ending(2 * place + newline as usize, last, newline, &Folder::default(), take(&mut console));
                keep(made, &mut console);
            }
        }
    }
    for place in 0..SHORT_SCRIPTS {
        let mut writer = Writer::new(seed_of(203, place), 120, take(&mut console).again(before.clone()));
        // the lines of a script from another system, in pieces, byte by byte or one after the other
        writer.returns = place % 3 == 2;
        writer.no_unit(60 * (place as usize % 2));
        while !writer.full() {
            writer.session();
        }
        let returns = writer.returns;
        let (mut script, after) = writer.script(&format!("short script {place}"), before.clone());
        script.leave_out();
        if returns {
            script.met.push("a script of lines that all end in a carriage return");
        }
        match place % 4 {
            0 => {
                script.feed = Feed::Bytes;
                script.met.push("an input that comes byte by byte");
            }
            1 => {
                script.feed = Feed::Turns;
                script.met.push("an input that waits for each answer");
            }
            _ => {}
        }
        keep((script, after), &mut console);
    }
    let made = records(take(&mut console));
    keep(made, &mut console);
    let made = queues(&before, take(&mut console));
    keep(made, &mut console);
    let made = callers(&before, take(&mut console));
    keep(made, &mut console);
    let made = small_tables(&before, take(&mut console));
    keep(made, &mut console);
    scripts
}
