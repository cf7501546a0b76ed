//! How often each call was accepted and each refusal number was met, and which special cases came up. A run in which something the
//! interface allows was never met is a failure: it has shown nothing about it.

use std::collections::BTreeMap;
use std::time::Duration;

#[derive(Clone, Copy, PartialEq, Eq, PartialOrd, Ord, Debug)]
pub enum Call {
    Fresh,
    Mark,
    Unmark,
    Vector,
    MatrixRow,
    Bound,
    Upper,
    Constant,
    Judge,
    States,
    Greedy,
    Search,
    Tick,
    Start,
    Listing,
    Play,
    PlayedMark,
    PlayedUnmark,
    PlayedSearch,
    PlayedRead,
}

use Call::*;

/// The calls with the refusals that the interface allows each. Those of a file are 1, 11, 12 and 13. Those in a list are told apart by
/// their replies.
pub const ALLOWED: [(Call, &str, &[u32]); 20] = [
    (Fresh, "fresh", &[1, 6]),
    (Mark, "mark", &[1, 2, 3, 4, 11, 12, 13]),
    (Unmark, "unmark", &[1, 2, 3, 4, 11, 12, 13]),
    (Vector, "vector", &[1, 2, 11, 12, 13]),
    (MatrixRow, "matrix_row", &[1, 2, 11, 12, 13]),
    (Bound, "bound", &[1, 2, 11, 12, 13]),
    (Upper, "upper", &[1, 2, 11, 12, 13]),
    (Constant, "constant", &[1, 2, 11, 12, 13]),
    (Judge, "judge", &[1, 2, 9, 11, 12, 13]),
    (States, "states", &[1, 2, 6, 7, 11, 12, 13]),
    (Greedy, "greedy", &[1, 2, 5, 6, 7, 11, 12, 13]),
    (Search, "search", &[1, 2, 5, 6, 7, 11, 12, 13]),
    (Tick, "tick", &[1, 6, 11, 12, 13]),
    (Start, "start", &[1, 2, 6, 10, 11, 12, 13]),
    (Listing, "listing", &[6]),
    (Play, "play", &[]),
    (PlayedMark, "in it mark", &[1, 2, 3, 4]),
    (PlayedUnmark, "in it unmark", &[1, 2, 3, 4]),
    (PlayedSearch, "in it search", &[1, 2, 5, 7]),
    (PlayedRead, "in it read", &[1, 8]),
];

const NUMBERS: [u32; 14] = [0, 1, 2, 3, 4, 5, 6, 7, 8, 9, 10, 11, 12, 13];

/// Special cases that a run must have met.
pub const WANTED: [&str; 81] = [
    "file: fewer than 4 bytes",
    "file: functions outside 1 to 4",
    "file: segments outside 1 to 16",
    "file: columns outside 1 to 32",
    "file: too short",
    "file: too long",
    "file: longer by a multiple of 256",
    "file: longer by 65,536",
    "file: byte 3 not zero",
    "file: an offset wrong",
    "file: a mark beyond the columns",
    "number above 255, low byte in range",
    "mark already there",
    "unmark of no mark",
    "cycle: empty",
    "cycle: more than 256 latencies",
    "cycle: a latency 0",
    "cycle: 256 latencies",
    "cycle: never collides",
    "cycle: collides in one turn",
    "cycle: collides only across turns",
    "states: 1",
    "states: 2 to 16",
    "states: 17 to 64",
    "states: 65 to 255",
    "states: 256",
    "states: more than 256",
    "diagram with n = 0",
    "diagram with n = 31",
    "best cycle with a sum above 255",
    "greedy cycle with a sum above 255",
    "257 states",
    "best is better than greedy",
    "best is greedy",
    "bound of a function without marks",
    "bound: the marks of a segment",
    "bound: above the marks of every segment",
    "average at the lower bound",
    "average at the upper bound",
    "best of two or more functions",
    "least average by Karp",
    "least average by heights",
    "words exactly enough",
    "words too few by one",
    "output exactly enough",
    "output too short by one",
    "listing of a refused file",
    "listing with refused 7",
    "listing in just its length",
    "start granted from any registers",
    "start by tasks from empty",
    "play: counts refused",
    "play: count above 255, low byte in range",
    "play: no call played",
    "play: part of a call at the end",
    "play: room for fewer replies",
    "play: room ends one byte early",
    "play: bytes after the replies",
    "play: words too few by one",
    "play: words exactly enough",
    "play: words and no search that may use them",
    "play: a kind above 3",
    "play: 40 calls",
    "read: before anything",
    "read: straight after a search",
    "read: after an edit that changed the table",
    "read: after a mark that stood",
    "read: after an unmark of no mark",
    "read: 8 after a refused edit",
    "read: plan after a refused edit",
    "read: plan after a search of another tag",
    "read: plan after a search refused by 2",
    "read: plan after a search refused by 7",
    "read: 8 after a search refused by 5",
    "read: 8 after a search refused by 7",
    "read: plan read again",
    "read: plan of a table changed since a plan",
    "read: shorter plan in place of a longer",
    "read: plan with a sum above 255",
    "read: plan of two or more latencies",
    "read: plan better than greedy",
];

/// Answers of calls.
#[derive(Default)]
pub struct Tally {
    answers: BTreeMap<(Call, u32), u64>,
    time: BTreeMap<Call, (Duration, Duration)>,
}

/// Special cases.
#[derive(Default)]
pub struct Met {
    counts: BTreeMap<&'static str, u64>,
}

impl Tally {
    pub fn answer(&mut self, call: Call, number: u32, took: Duration) {
        *self.answers.entry((call, number)).or_default() += 1;
        let (whole, longest) = self.time.entry(call).or_default();
        *whole += took;
        *longest = (*longest).max(took);
    }

    /// The reply to a call in a list, which takes no time of its own.
    pub fn reply(&mut self, call: Call, number: u32) {
        *self.answers.entry((call, number)).or_default() += 1;
    }

    /// What another worker counted.
    pub fn add(&mut self, other: &Tally) {
        for (answer, count) in &other.answers {
            *self.answers.entry(*answer).or_default() += count;
        }
        for (call, (took, most)) in &other.time {
            let (whole, longest) = self.time.entry(*call).or_default();
            *whole += *took;
            *longest = (*longest).max(*most);
        }
    }

    /// Time inside the calls.
    pub fn time(&self) -> Duration {
        self.time.values().map(|(whole, _)| *whole).sum()
    }

    pub fn calls(&self) -> u64 {
        self.answers.values().sum()
    }

    /// What should have been met and was not.
    pub fn gaps(&self) -> Vec<String> {
        let mut gaps = Vec::new();
        for (call, name, refusals) in ALLOWED {
            for number in std::iter::once(&0).chain(refusals) {
                if !self.answers.contains_key(&(call, *number)) {
                    gaps.push(format!("{name}: answer {number}"));
                }
            }
        }
        gaps
    }

    pub fn print(&self) {
        print!("{:<13}{:>9}", "call", "accepted");
        for number in &NUMBERS[1..] {
            print!("{number:>8}");
        }
        println!("{:>10}{:>10}", "in all", "longest");
        for (call, name, refusals) in ALLOWED {
            print!("{name:<13}");
            for number in NUMBERS {
                let width = if number == 0 { 9 } else { 8 };
                match self.answers.get(&(call, number)) {
                    Some(count) => print!("{count:>width$}"),
                    None if number == 0 || refusals.contains(&number) => print!("{:>width$}", "NEVER"),
                    None => print!("{:>width$}", "."),
                }
            }
            match self.time.get(&call) {
                Some((whole, longest)) => println!("{:>8.2} s{:>7.2} ms", whole.as_secs_f64(), longest.as_secs_f64() * 1e3),
                None => println!(),
            }
        }
    }
}

impl Met {
    pub fn meet(&mut self, what: &'static str) {
        debug_assert!(WANTED.contains(&what), "{what}");
        *self.counts.entry(what).or_default() += 1;
    }

    pub fn meet_if(&mut self, holds: bool, what: &'static str) {
        if holds {
            self.meet(what);
        }
    }

    /// What another worker met.
    pub fn add(&mut self, other: &Met) {
        for (what, count) in &other.counts {
            *self.counts.entry(what).or_default() += count;
        }
    }

    pub fn gaps(&self) -> Vec<String> {
        WANTED.iter().filter(|what| !self.counts.contains_key(*what)).map(|what| what.to_string()).collect()
    }

    pub fn print(&self) {
        let lines: Vec<String> = WANTED
            .iter()
            .map(|what| match self.counts.get(what) {
                Some(count) => format!("{count:>9}  {what}"),
                None => format!("{:>9}  {what}", "NEVER"),
            })
            .collect();
        let rows = lines.len().div_ceil(2);
        for row in 0..rows {
            println!("{:<52}{}", lines[row], lines.get(row + rows).map_or("", |line| line));
        }
    }
}
