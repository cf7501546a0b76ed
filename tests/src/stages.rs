//! What is tried: the paper's tables, the edges of every range one by one, random and damaged units, and lists of edits and searches. The
//! lists that the library plays as a whole are in `lists.rs`.

use crate::checks::{Bench, Checked, Difference, LISTING_AREA};
use crate::facts::Facts;
use crate::ffi::{Kind, Lender};
use crate::lent::MOST_LENT_WORDS;
use crate::lists;
use crate::model::*;
use crate::model_check::*;
use crate::random::{seed_of, Random};
use crate::sheet::{play, Desk, Plan};
use crate::units;

// ---------------------------------------------------------------------------------------------------------------------------------
// The paper's tables

fn papers_units() -> Vec<(&'static str, Unit)> {
    vec![
        ("Fig. 1", figure_1()),
        ("Fig. 2", figure_2()),
        ("marks 1 3 6", one_segment(&[1, 3, 6])),
        ("three segments", three_segments()),
        ("no marks", one_segment(&[])),
        ("marks 1 2", one_segment(&[1, 2])),
        ("marks 1 10", one_segment(&[1, 10])),
        ("marks 1 11", one_segment(&[1, 11])),
    ]
}

pub const TABLES: u64 = 8;

/// One of the paper's units: made by the library's own fresh and marks, then every call on it, and every length around the listing's.
pub fn table(case: u64, bench: &mut Bench) -> Checked {
    let (name, unit) = papers_units().swap_remove(case as usize);
    let told = |why: Difference| format!("{name}: {why}");
    let seen = bench.lender.fresh(unit.functions, unit.segments, unit.columns, 268).map_err(told)?;
    let mut file = seen.map_err(|number| told(format!("fresh refused by {number}")))?;
    for mark in &unit.marks {
        let facts = Facts::of_file(file.clone(), 0);
        file = bench.edit(&facts, true, *mark).map_err(told)?.ok_or_else(|| told(format!("{mark:?} refused")))?;
    }
    if file != encode(&unit) {
        return Err(told("the file built by marks is another".to_string()));
    }
    if name == "Fig. 1" {
        let seen = bench.lender.listing(&file, LISTING_AREA).map_err(told)?;
        if seen != Ok(FIGURE_1_LISTING.as_bytes().to_vec()) {
            return Err(told(format!("listing {:?}", seen.map(|text| String::from_utf8_lossy(&text).into_owned()))));
        }
    }
    let mut facts = Facts::of_file(file, 0);
    bench.listing(&mut facts, None).map_err(told)?;
    let length = bench.lender.listing(&facts.file, LISTING_AREA)?.map_or(0, |text| text.len());
    for room in 0..length + 3 {
        bench.listing(&mut facts, Some(room)).map_err(told)?;
    }
    every_call(&mut facts, bench, &mut Random::new(seed_of(20, case))).map_err(told)
}

// ---------------------------------------------------------------------------------------------------------------------------------
// Edges

/// Each call once, with arguments in range, on a file in order or not.
fn each_call(facts: &mut Facts, tag: u32, bench: &mut Bench) -> Checked {
    let mark = Mark { tag, segment: 1, column: 1 };
    bench.edit(facts, true, mark)?;
    bench.edit(facts, false, mark)?;
    bench.vector(facts, tag)?;
    bench.matrix_row(facts, tag, 1)?;
    bench.matrix_row(facts, 1, tag)?;
    bench.bound(facts, tag)?;
    bench.upper(facts, tag)?;
    bench.constant(facts, tag)?;
    bench.judge(facts, tag, &[9])?;
    bench.states(facts, tag, MOST_STATES)?;
    bench.greedy(facts, tag, WORKING_WORDS, MOST_LATENCIES)?;
    bench.search(facts, tag, WORKING_WORDS, MOST_LATENCIES)?;
    bench.event(facts, &[0; REGISTERS], None)?;
    bench.event(facts, &[0; REGISTERS], Some(tag))?;
    bench.listing(facts, Some(LISTING_AREA))
}

fn fresh_counts(bench: &mut Bench) -> Checked {
    for functions in 0..=6 {
        for segments in 0..=18 {
            for columns in 0..=34 {
                let need = file_length(functions, segments);
                for room in [need, need.saturating_sub(1), 268] {
                    bench.fresh(functions, segments, columns, room)?;
                }
            }
        }
    }
    for high in [256, 65_536, 1 << 31, u32::MAX - 255] {
        for low in 0..=5 {
            bench.fresh(high + low, 1, 1, 268)?;
            bench.fresh(1, high + low, 1, 268)?;
            bench.fresh(1, 1, high + low, 268)?;
        }
    }
    Ok(())
}

fn file_lengths(bench: &mut Bench) -> Checked {
    let file = encode(&figure_2());
    for length in 0..=300 {
        let mut other = file.clone();
        other.resize(length, 0);
        let mut facts = Facts::of_file(other, 0);
        bench.meet_file(&facts);
        each_call(&mut facts, 1, bench)?;
    }
    for more in [256, 512, 65_536, 131_072] {
        let mut other = file.clone();
        other.resize(file.len() + more, 0);
        let mut facts = Facts::of_file(other, 0);
        bench.meet_file(&facts);
        each_call(&mut facts, 1, bench)?;
    }
    Ok(())
}

fn file_bits(bench: &mut Bench) -> Checked {
    let file = encode(&figure_2());
    for bit in 0..8 * file.len() {
        let mut other = file.clone();
        other[bit / 8] ^= 1 << (bit % 8);
        each_call(&mut Facts::of_file(other, 0), 1, bench)?;
    }
    for place in 0..8 {
        for value in 0..=255 {
            let mut other = file.clone();
            other[place] = value;
            let mut facts = Facts::of_file(other, 0);
            bench.meet_file(&facts);
            bench.event(&facts, &[1, 2, 3, 4], None)?;
            bench.bound(&mut facts, 2)?;
        }
    }
    // the largest file, nothing marked: each bit of it
    let file = encode(&Unit::fresh(4, 16, 31).expect("counts in their ranges"));
    for bit in 0..8 * file.len() {
        let mut other = file.clone();
        other[bit / 8] ^= 1 << (bit % 8);
        let mut facts = Facts::of_file(other, 0);
        bench.event(&facts, &[1, 2, 3, 4], None)?;
        for tag in 1..=4 {
            bench.bound(&mut facts, tag)?;
        }
    }
    Ok(())
}

fn numbers(bench: &mut Bench) -> Checked {
    let mut facts = Facts::of_file(encode(&figure_2()), 0);
    let far = [65_537, 65_538, 1 << 24, 1 << 31, (1 << 31) + 1, u32::MAX - 254, u32::MAX - 253, u32::MAX - 1, u32::MAX];
    for number in (0..=520).chain(far) {
        each_call(&mut facts, number, bench)?;
        for (tag, segment, column) in [(1, number, 1), (1, 1, number), (2, number, number), (3, number, 1), (1, 4, number)] {
            let mark = Mark { tag, segment, column };
            bench.edit(&facts, true, mark)?;
            bench.edit(&facts, false, mark)?;
        }
    }
    Ok(())
}

fn cycles_to_judge(bench: &mut Bench) -> Checked {
    let facts = Facts::of_file(encode(&figure_1()), 0);
    for length in 0..=300 {
        // 7 is Fig. 1's constant latency, 1 is forbidden
        bench.judge(&facts, 1, &vec![7; length])?;
        bench.judge(&facts, 1, &vec![1; length])?;
        bench.judge(&facts, 2, &vec![7; length])?;
    }
    for length in [1, 2, 255, 256, 257] {
        for place in 0..length {
            let mut latencies = vec![7; length];
            latencies[place] = 0;
            bench.judge(&facts, 1, &latencies)?;
            latencies[place] = 8;
            bench.judge(&facts, 1, &latencies)?;
        }
    }
    for latency in 0..=255 {
        bench.judge(&facts, 1, &[latency])?;
        bench.judge(&facts, 1, &vec![latency; MOST_LATENCIES])?;
        bench.judge(&facts, 1, &[3, latency])?;
        bench.judge(&facts, 1, &[latency, 255, 255])?;
    }
    Ok(())
}

/// Memory too short in every combination, on a diagram of five states, one of 256, one of too many, and a file that is refused.
fn lent_lengths(bench: &mut Bench) -> Checked {
    let mut files: Vec<Vec<u8>> = [figure_1(), one_segment(&[1, 10]), one_segment(&[1, 11])].iter().map(encode).collect();
    files.push(vec![1, 1, 1]);
    for file in files {
        let mut facts = Facts::of_file(file, 0);
        for tag in [0, 1, 2] {
            for out_length in [0, 1, 5, 254, 255, 256, 257, 300] {
                bench.states(&mut facts, tag, out_length)?;
                for work_length in [0, 1, 256, 2_048, 15_999, 16_000, 16_001, MOST_LENT_WORDS] {
                    bench.greedy(&mut facts, tag, work_length, out_length)?;
                    bench.search(&mut facts, tag, work_length, out_length)?;
                }
            }
            for length in 0..=8 {
                for registers in [[0; 8], [1; 8], [u32::MAX; 8]] {
                    bench.event(&facts, &registers[..length], None)?;
                    bench.event(&facts, &registers[..length], Some(tag))?;
                }
            }
        }
        for room in 0..=20 {
            bench.listing(&mut facts, Some(room))?;
        }
        bench.listing(&mut facts, None)?;
    }
    Ok(())
}

/// Every pair of marks in one segment, every column count: n from 0 to 31, with arcs up to 32.
fn pairs(bench: &mut Bench) -> Checked {
    for columns in 1..=32 {
        let mut facts = Facts::of_file(encode(&unit_of(1, columns, &[&[&[1, columns]]])), 0);
        each_call(&mut facts, 1, bench)?;
        // one interval is forbidden; short latencies meet it only many starts and many turns later
        for latency in 1..=33 {
            bench.judge(&facts, 1, &[latency])?;
            bench.judge(&facts, 1, &[latency, 1])?;
            bench.judge(&facts, 1, &[1, 1, latency])?;
            bench.judge(&facts, 1, &vec![latency; MOST_LATENCIES])?;
        }
        for length in 1..=40 {
            let mut latencies = vec![1; length];
            latencies.push(40);
            bench.judge(&facts, 1, &latencies)?;
        }
        // the marks of a busy segment, n = columns − 1: few latencies permitted, the last one columns
        let marked: Vec<u32> = (1..=columns).filter(|column| column % 2 == 1 || *column > columns / 2).collect();
        let mut facts = Facts::of_file(encode(&unit_of(1, columns, &[&[&marked]])), 0);
        each_call(&mut facts, 1, bench)?;
        let everywhere: Vec<u32> = (1..=columns).collect();
        let mut facts = Facts::of_file(encode(&unit_of(1, columns, &[&[&everywhere]])), 0);
        each_call(&mut facts, 1, bench)?;
    }
    Ok(())
}

/// Long cycles, and numbers of states around the limit.
fn hard_diagrams(bench: &mut Bench) -> Checked {
    for (case, (what, forbidden)) in (0..).zip(units::HARD) {
        let random = &mut Random::new(seed_of(21, case));
        let mut unit = Unit::fresh(4, 16, 32).expect("counts in their ranges");
        for tag in 1..=4 {
            units::forbid(&mut unit, tag, units::HARD[(case as usize + 7 * (tag as usize - 1)) % units::HARD.len()].1, random);
        }
        let mut facts = Facts::of_file(encode(&unit), 0);
        let vector = facts.vector(1, &mut bench.yard);
        let latencies: Vec<u32> = (1..).zip(vector.iter()).filter(|(_, set)| **set).map(|(latency, _)| latency).collect();
        let states = diagram(&vector, 1_000).map(|diagram| diagram.states.len());
        if latencies != forbidden || what.strip_suffix(" states").is_some_and(|count| count.parse().ok() != states) {
            return Err(format!("{what}: the unit forbids {latencies:?} and has {states:?} states"));
        }
        bench.met.meet_if(states == Some(257), "257 states");
        let told = |why: Difference| format!("{what}: {why}");
        each_call(&mut facts, 1, bench).map_err(told)?;
        bench.listing(&mut facts, None).map_err(told)?;
    }
    Ok(())
}

const EDGE_CASES: [(&str, fn(&mut Bench) -> Checked); 11] = [
    ("counts of fresh", fresh_counts),
    ("lengths of a file", file_lengths),
    ("bits and bytes of a file", file_bits),
    ("numbers", numbers),
    ("cycles to judge", cycles_to_judge),
    ("lent lengths", lent_lengths),
    ("pairs of marks", pairs),
    ("hard diagrams", hard_diagrams),
    ("counts of a list", lists::counts),
    ("lengths of a list", lists::lengths),
    ("bytes of a list", lists::bytes),
];

pub const EDGES: u64 = EDGE_CASES.len() as u64;

pub fn edge(case: u64, bench: &mut Bench) -> Checked {
    let (name, run) = EDGE_CASES[case as usize];
    run(bench).map_err(|why| format!("{name}: {why}"))
}

// ---------------------------------------------------------------------------------------------------------------------------------
// Random and damaged units

/// Above so many states, all functions of a unit together, a listing is asked for in one case of `LISTING_SAMPLE`, because it searches
/// every function.
const LISTING_STATES: usize = 96;
const LISTING_SAMPLE: u64 = 6;

fn work_length(random: &mut Random) -> usize {
    random.length(WORKING_WORDS).min(MOST_LENT_WORDS)
}

/// Every call, with arguments in and out of range.
fn every_call(facts: &mut Facts, bench: &mut Bench, random: &mut Random) -> Checked {
    let (functions, segments, columns) = match &facts.unit {
        Ok(unit) => (unit.functions, unit.segments, unit.columns),
        Err(_) => (2, 2, 2),
    };
    for _ in 0..2 {
        let mut mark = Mark { tag: random.number(functions), segment: random.number(segments), column: random.number(columns) };
        let set = random.chance(1, 2);
        if let (true, Ok(unit)) = (random.chance(1, 3), &facts.unit) {
            mark = unit.marks.first().copied().unwrap_or(mark);
        }
        bench.edit(facts, set, mark)?;
    }
    let tag = random.number(functions);
    bench.vector(facts, tag)?;
    bench.matrix_row(facts, random.number(functions), random.number(functions))?;
    bench.bound(facts, random.number(functions))?;
    bench.upper(facts, random.number(functions))?;
    bench.constant(facts, random.number(functions))?;

    bench.states(facts, tag, random.length(MOST_STATES))?;
    bench.greedy(facts, tag, work_length(random), random.length(MOST_LATENCIES))?;
    let best = bench.search(facts, tag, work_length(random), random.length(MOST_LATENCIES))?;
    if let Some(best) = best {
        bench.judge(facts, tag, &best.latencies)?;
    }
    for _ in 0..2 {
        let diagram = match facts.known(tag) {
            Ok(()) => facts.diagram(tag, &mut bench.yard),
            Err(_) => None,
        };
        let latencies = units::cycle(diagram.as_deref(), random);
        bench.judge(facts, tag, &latencies)?;
    }

    if facts.unit.is_ok() {
        let count = random.between(2, 16);
        bench.events_from_empty(facts, count, random)?;
    }
    let length = if random.chance(1, 24) { random.below(9) as usize } else { REGISTERS };
    let sparse = random.chance(1, 2);
    let mut bank: Vec<u32> =
        (0..length).map(|_| if sparse { random.word() & random.word() & random.word() } else { random.word() }).collect();
    for _ in 0..3 {
        let start = if random.chance(1, 3) { None } else { Some(random.number(functions)) };
        if let Some(after) = bench.event(facts, &bank, start)? {
            bank = after;
        }
    }
    Ok(())
}

fn some_listing(facts: &mut Facts, bench: &mut Bench, random: &mut Random) -> Checked {
    let mut states = 0;
    for tag in 1..=facts.functions() {
        states += facts.diagram(tag, &mut bench.yard).map_or(MOST_STATES, |diagram| diagram.states.len());
    }
    if states > LISTING_STATES && !random.chance(1, LISTING_SAMPLE) {
        return Ok(());
    }
    let room = match random.below(16) {
        0 => None,
        1 => Some(random.below(400) as usize),
        2 => Some(LISTING_AREA + random.below(100) as usize),
        _ => Some(LISTING_AREA),
    };
    bench.listing(facts, room)
}

/// One random unit, in three of ten cases with its file damaged.
pub fn unit(case: u64, seed: u64, bench: &mut Bench) -> Checked {
    let random = &mut Random::new(seed);
    let mut file = encode(&units::unit(random));
    if random.chance(3, 10) {
        units::damage(&mut file, random);
    }
    let mut facts = Facts::of_file(file, case);
    let told = |why: Difference, facts: &Facts| {
        format!("{why}\nfile of {} bytes {:02x?}", facts.file.len(), &facts.file[..facts.file.len().min(300)])
    };
    bench.meet_file(&facts);
    let (functions, segments, columns) = (random.number(4), random.number(16), random.number(32));
    let need = file_length(functions.min(4), segments.min(16));
    bench.fresh(functions, segments, columns, random.length(need))?;
    every_call(&mut facts, bench, random).map_err(|why| told(why, &facts))?;
    some_listing(&mut facts, bench, random).map_err(|why| told(why, &facts))
}

// ---------------------------------------------------------------------------------------------------------------------------------
// Lists of edits and searches

/// The single calls of the interface for C as a desk: the unit is its file. A file has no stored plan, and so there is no read.
struct FileDesk<'a> {
    lender: &'a mut Lender,
    file: Vec<u8>,
}

impl Desk for FileDesk<'_> {
    fn edit(&mut self, set: bool, mark: Mark) -> Result<Reply<()>, String> {
        let seen = self.lender.edit(set, &self.file, mark.tag, mark.segment, mark.column)?;
        Ok(seen.map(|file| self.file = file))
    }

    fn search(&mut self, tag: u32, work_length: usize) -> Result<Reply<Option<Cycle>>, String> {
        Ok(self.lender.cycle(Kind::Search, &self.file, tag, work_length, MOST_LATENCIES)?.map(Some))
    }

    fn read(&mut self) -> Result<Option<Reply<Plan>>, String> {
        Ok(None)
    }

    fn file(&self) -> Option<&[u8]> {
        Some(&self.file)
    }
}

pub fn list(seed: u64, bench: &mut Bench) -> Checked {
    let random = &mut Random::new(seed);
    let (functions, segments) = (random.between(1, 4), random.between(1, 5));
    let columns = if random.chance(1, 8) { random.between(12, 32) } else { random.between(1, 10) };
    let seen = bench.lender.fresh(functions, segments, columns, 268).map_err(|breach| format!("fresh: {breach}"))?;
    let file = seen.map_err(|number| format!("fresh refused by {number}"))?;
    let unit = Unit::fresh(functions, segments, columns).expect("counts in their ranges");
    let mut desk = FileDesk { lender: &mut bench.lender, file };
    let count = random.between(4, 40);
    play(&mut desk, unit, count, random, &mut bench.yard, &mut bench.met)
}
