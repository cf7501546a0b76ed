//! Lists of mark, unmark, search and read that the library plays as a whole, each reply held against the paper's sheet (demand 3).
//!
//! A list is made beforehand, from its seed alone; no reply decides what is called next.

use crate::checks::{Bench, Checked};
use crate::lent::MOST_LENT_WORDS;
use crate::model::*;
use crate::random::Random;
use crate::sheet::{play_one, Call, Desk, Plan, Sheet};
use crate::tally::Met;
use crate::units;

/// "A call is four bytes: kind (0 mark, 1 unmark, 2 search, any other a read), tag, segment, column."
pub const CALL_BYTES: usize = 4;
/// "A reply is 262 bytes"
pub const REPLY_BYTES: usize = 262;
/// No random list has more calls.
const MOST_CALLS: usize = 40;

const MARK: u8 = 0;
const UNMARK: u8 = 1;
const SEARCH: u8 = 2;
const READ: u8 = 3;

/// What the library is asked: the counts of the fresh unit, the bytes of the calls, and the lengths of what is lent.
#[derive(Clone, Debug)]
struct List {
    counts: [u32; 3],
    calls: Vec<u8>,
    work_length: usize,
    out_length: usize,
}

fn call_of(bytes: &[u8], work_length: usize) -> Call {
    let mark = Mark { tag: bytes[1] as u32, segment: bytes[2] as u32, column: bytes[3] as u32 };
    match bytes[0] {
        MARK => Call::Edit(true, mark),
        UNMARK => Call::Edit(false, mark),
        SEARCH => Call::Search(mark.tag, work_length),
        _ => Call::Read,
    }
}

// ---------------------------------------------------------------------------------------------------------------------------------
// Replies

/// "the number of the refusal or 0 .. zeros otherwise"
fn number_alone(reply: &[u8]) -> Result<Reply<()>, String> {
    if reply[1..].iter().any(|byte| *byte != 0) {
        return Err(format!("bytes after the number are not 0: {reply:?}"));
    }
    Ok(if reply[0] == 0 { Ok(()) } else { Err(reply[0] as u32) })
}

/// "for a read that is accepted the plan: tag, K and S in two bytes each, the low byte first, and 256 bytes of latencies"
fn plan_of(reply: &[u8]) -> Result<Reply<Plan>, String> {
    if reply[0] != 0 {
        return Ok(number_alone(reply)?.map(|()| unreachable!("a number other than 0")));
    }
    let count = reply[2] as usize + 256 * reply[3] as usize;
    let sum = reply[4] as u32 + 256 * reply[5] as u32;
    let latencies = &reply[6..];
    if count == 0 || count > MOST_LATENCIES {
        return Err(format!("a plan with K = {count}: {reply:?}"));
    }
    if latencies[count..].iter().any(|byte| *byte != 0) {
        return Err(format!("bytes after the first K = {count} are not 0: {reply:?}"));
    }
    Ok(Ok(Plan { tag: reply[1] as u32, cycle: Cycle { latencies: latencies[..count].to_vec(), sum } }))
}

/// The library as a desk: its replies, one for each call in turn.
struct PlayedDesk<'a> {
    replies: std::slice::Iter<'a, Vec<u8>>,
}

impl PlayedDesk<'_> {
    fn next(&mut self) -> Result<&[u8], String> {
        self.replies.next().map(|reply| &reply[..]).ok_or_else(|| "no reply".to_string())
    }
}

impl Desk for PlayedDesk<'_> {
    fn edit(&mut self, _: bool, _: Mark) -> Result<Reply<()>, String> {
        number_alone(self.next()?)
    }

    fn search(&mut self, _: u32, _: usize) -> Result<Reply<Option<Cycle>>, String> {
        Ok(number_alone(self.next()?)?.map(|()| None))
    }

    fn read(&mut self) -> Result<Option<Reply<Plan>>, String> {
        plan_of(self.next()?).map(Some)
    }

    fn file(&self) -> Option<&[u8]> {
        None
    }
}

// ---------------------------------------------------------------------------------------------------------------------------------
// One list beside the sheet

/// The call before, as far as it decides what sort of case a read is.
struct Before {
    call: Call,
    answer: Reply<()>,
    /// The owed tag in front of it.
    owed: u32,
    /// An accepted edit that left the table as it was.
    idle: bool,
}

/// What has gone by in a list. It is told answers and is therefore no part of the sheet.
#[derive(Default)]
struct Past {
    before: Option<Before>,
    /// The plan last read.
    read: Option<Plan>,
    /// No mark, unmark or search was accepted since that read.
    same: bool,
    /// A mark or an unmark was accepted since that read.
    dropped: bool,
    /// Such an edit changed the table.
    changed: bool,
}

impl Past {
    /// Which sort of read this is; and a plan that was read and neither dropped nor replaced since is read again as it was.
    fn meet_read(&mut self, owed: u32, plan: Option<Plan>, met: &mut Met) -> Checked {
        match &self.before {
            None => met.meet("read: before anything"),
            Some(Before { call, answer, owed: earlier, idle }) => match (call, answer, owed) {
                (Call::Edit(set, _), Ok(()), _) if *earlier != 0 => met.meet(match (idle, set) {
                    (false, _) => "read: after an edit that changed the table",
                    (true, true) => "read: after a mark that stood",
                    (true, false) => "read: after an unmark of no mark",
                }),
                (Call::Edit(..), Err(_), 0) => met.meet("read: 8 after a refused edit"),
                (Call::Edit(..), Err(_), _) => met.meet("read: plan after a refused edit"),
                (Call::Search(tag, _), Ok(()), _) => {
                    met.meet("read: straight after a search");
                    met.meet_if(*earlier != 0 && earlier != tag, "read: plan after a search of another tag");
                }
                (Call::Search(..), Err(2), 1..) => met.meet("read: plan after a search refused by 2"),
                (Call::Search(..), Err(7), 1..) => met.meet("read: plan after a search refused by 7"),
                (Call::Search(..), Err(5), 0) => met.meet("read: 8 after a search refused by 5"),
                (Call::Search(..), Err(7), 0) => met.meet("read: 8 after a search refused by 7"),
                (Call::Read, Ok(()), 1..) => met.meet("read: plan read again"),
                _ => {}
            },
        }
        if let Some(plan) = plan {
            if let Some(old) = &self.read {
                if self.same && *old != plan {
                    return Err(format!("the plan read before was {old:?}, and now it is {plan:?}, with no call accepted in between"));
                }
                met.meet_if(self.changed, "read: plan of a table changed since a plan");
                let shorter = plan.cycle.latencies.len() < old.cycle.latencies.len();
                met.meet_if(shorter && !self.dropped, "read: shorter plan in place of a longer");
            }
            met.meet_if(plan.cycle.sum > 255, "read: plan with a sum above 255");
            met.meet_if(plan.cycle.latencies.len() > 1, "read: plan of two or more latencies");
            *self = Past { before: self.before.take(), read: Some(plan), same: true, dropped: false, changed: false };
        }
        Ok(())
    }

    fn take(&mut self, before: Before) {
        match (before.call, before.answer) {
            (Call::Edit(..), Ok(())) => {
                self.same = false;
                self.dropped = true;
                self.changed = self.changed || !before.idle;
            }
            (Call::Search(..), Ok(())) => self.same = false,
            _ => {}
        }
        self.before = Some(before);
    }
}

fn meet_list(list: &List, played: usize, met: &mut Met) {
    let List { counts: [functions, segments, columns], calls, work_length, out_length } = list;
    let whole = calls.len() / CALL_BYTES;
    let limits = [(functions, MOST_FUNCTIONS), (segments, MOST_SEGMENTS), (columns, MOST_COLUMNS)];
    let outside = limits.iter().filter(|(count, most)| !(1..=*most).contains(*count));
    met.meet_if(outside.clone().count() > 0, "play: counts refused");
    let fits = |(count, most): (&u32, u32)| *count > 255 && (1..=most).contains(&(count % 256));
    met.meet_if(outside.clone().count() == 1 && outside.clone().all(|pair| fits(*pair)), "play: count above 255, low byte in range");
    met.meet_if(played == 0, "play: no call played");
    met.meet_if(calls.len() % CALL_BYTES != 0 && played == whole, "play: part of a call at the end");
    met.meet_if(played < whole, "play: room for fewer replies");
    met.meet_if(*out_length + 1 == whole * REPLY_BYTES, "play: room ends one byte early");
    met.meet_if(*out_length > played * REPLY_BYTES, "play: bytes after the replies");
    met.meet_if(played == MOST_CALLS, "play: 40 calls");
    let kinds = calls.chunks(CALL_BYTES).take(played).map(|call| call[0]);
    met.meet_if(kinds.clone().any(|kind| kind > READ), "play: a kind above 3");
    if kinds.clone().any(|kind| kind == SEARCH) {
        met.meet_if(*work_length + 1 == WORKING_WORDS, "play: words too few by one");
        met.meet_if(*work_length == WORKING_WORDS, "play: words exactly enough");
    } else {
        met.meet_if(*work_length >= WORKING_WORDS, "play: words and no search that may use them");
    }
}

fn check_replies(list: &List, case: u64, bench: &mut Bench) -> Checked {
    let Bench { lender, yard, met, .. } = bench;
    let replies = lender.play(list.counts, &list.calls, list.work_length, list.out_length)?;
    // "how many were played: as many as there are whole calls and room for their replies"
    let played = (list.calls.len() / CALL_BYTES).min(list.out_length / REPLY_BYTES);
    if replies.len() != played {
        return Err(format!("{} calls played instead of {played}", replies.len()));
    }
    meet_list(list, played, met);
    let [functions, segments, columns] = list.counts;
    let unit = match Unit::fresh(functions, segments, columns) {
        Ok(unit) => unit,
        // "Where the three counts are refused .. every call answers 1."
        Err(number) => {
            for (place, reply) in replies.iter().enumerate() {
                match number_alone(reply)? {
                    Err(seen) if seen == number => {}
                    seen => return Err(format!("call {place}: the reply is {seen:?}, the counts are refused by {number}")),
                }
            }
            return Ok(());
        }
    };
    let mut sheet = Sheet::new(unit, case);
    let mut desk = PlayedDesk { replies: replies.iter() };
    let mut past = Past::default();
    for (place, (bytes, reply)) in list.calls.chunks(CALL_BYTES).zip(&replies).enumerate() {
        let told = |why: String| format!("call {place}: {why}");
        let call = call_of(bytes, list.work_length);
        let owed = sheet.owed();
        let idle = matches!(call, Call::Edit(set, mark) if sheet.unit().marks.contains(&mark) == set);
        let answer = play_one(&mut desk, &mut sheet, call, yard, met).map_err(told)?;
        if let Call::Read = call {
            let plan = plan_of(reply).map_err(told)?.ok();
            if let Some(Plan { tag, cycle }) = &plan {
                let greedy = sheet.facts().diagram(*tag, yard).expect("a diagram").greedy();
                let ahead = cycle.sum as usize * greedy.len() < sum_of(&greedy) as usize * cycle.latencies.len();
                met.meet_if(ahead, "read: plan better than greedy");
            }
            past.meet_read(owed, plan, met).map_err(told)?;
        }
        past.take(Before { call, answer, owed, idle });
    }
    Ok(())
}

fn check(list: &List, case: u64, bench: &mut Bench) -> Checked {
    check_replies(list, case, bench).map_err(|why| {
        let calls: Vec<&[u8]> = list.calls.chunks(CALL_BYTES).collect();
        let List { counts, work_length, out_length, .. } = list;
        format!("{why}\ncounts {counts:?}, {work_length} words, {out_length} bytes for replies, calls {calls:?}")
    })
}

// ---------------------------------------------------------------------------------------------------------------------------------
// Random lists

/// A byte that is wanted from 1 to `most`: mostly it is.
fn argument(most: u32, random: &mut Random) -> u8 {
    match random.below(40) {
        0 => 0,
        1 => most as u8 + 1,
        2 => random.pick(&[5, 17, 33]),
        3 => 255,
        4 => random.byte(),
        _ => random.between(1, most) as u8,
    }
}

/// Makes the calls of a list, and keeps the table they lead to, so that it can name marks that stand.
struct Maker<'a> {
    unit: Unit,
    calls: Vec<[u8; CALL_BYTES]>,
    random: &'a mut Random,
}

impl Maker<'_> {
    fn edit(&mut self, kind: u8, mark: Mark) {
        // refused ones leave the table
        let _ = if kind == MARK { self.unit.mark(mark) } else { self.unit.unmark(mark) };
        self.calls.push([kind, mark.tag as u8, mark.segment as u8, mark.column as u8]);
    }

    fn some_mark(&mut self) -> Mark {
        let Unit { functions, segments, columns, .. } = self.unit;
        let (tag, segment) = (argument(functions, self.random), argument(segments, self.random));
        Mark { tag: tag as u32, segment: segment as u32, column: argument(columns, self.random) as u32 }
    }

    fn standing_mark(&mut self) -> Option<Mark> {
        let count = self.unit.marks.len() as u64;
        if count == 0 {
            return None;
        }
        self.unit.marks.iter().nth(self.random.below(count) as usize).copied()
    }

    /// A mark or an unmark, now and then of a mark that stands.
    fn some_edit(&mut self) {
        let kind = if self.random.chance(5, 8) { MARK } else { UNMARK };
        let mut mark = self.some_mark();
        let often = if kind == MARK { 1 } else { 6 };
        if self.random.chance(often, 8) {
            mark = self.standing_mark().unwrap_or(mark);
        }
        self.edit(kind, mark);
    }

    fn refused_edit(&mut self) {
        let Unit { functions, segments, columns, .. } = self.unit;
        let kind = self.random.pick(&[MARK, UNMARK]);
        let beyond = [0, 255, functions.max(segments).max(columns) + 1];
        let outside = self.random.pick(&beyond);
        let mut mark = self.some_mark();
        match self.random.below(3) {
            0 => mark.tag = outside,
            1 => mark.segment = outside,
            _ => mark.column = outside,
        }
        self.edit(kind, mark);
    }

    /// The last two bytes mean nothing to a search, and the last three nothing to a read.
    fn search(&mut self, tag: u8) {
        self.calls.push([SEARCH, tag, self.random.byte(), self.random.byte()]);
    }

    fn some_search(&mut self) {
        let tag = argument(self.unit.functions, self.random);
        self.search(tag);
    }

    fn read(&mut self) {
        let other = self.random.between(READ as u32, 255) as u8;
        let kind = self.random.pick(&[READ, READ, READ + 1, 255, other]);
        let tag = argument(self.unit.functions, self.random);
        self.calls.push([kind, tag, self.random.byte(), self.random.byte()]);
    }

    /// A search, and what may come between it and a read.
    fn search_and_read(&mut self) {
        self.some_search();
        match self.random.below(10) {
            0 => self.some_edit(),
            1 | 2 => self.refused_edit(),
            3 => self.some_search(),
            4 => {
                let mark = self.standing_mark().unwrap_or(Mark { tag: 1, segment: 1, column: 1 });
                self.edit(MARK, mark);
            }
            5 => {
                let mark = self.some_mark();
                self.edit(UNMARK, mark);
            }
            6 => {
                self.read();
                self.some_search();
            }
            _ => {}
        }
        self.read();
    }

    fn some_call(&mut self) {
        match self.random.below(16) {
            0..=9 => self.some_edit(),
            10 => self.some_search(),
            11 | 12 => self.read(),
            _ => self.search_and_read(),
        }
    }

    /// The marks of a diagram that is hard to search, then a search of it and a read. For 16 segments and 32 columns.
    fn hard_begin(&mut self) {
        let tag = self.random.between(1, self.unit.functions);
        let mut hard = self.unit.clone();
        units::forbid(&mut hard, tag, self.random.pick(&units::HARD).1, self.random);
        for mark in hard.marks {
            self.edit(MARK, mark);
        }
        self.search(tag as u8);
        self.read();
    }

    /// Two marks of one function in each segment, up to four.
    fn pairs_begin(&mut self) {
        let tag = self.random.between(1, self.unit.functions);
        for segment in 1..=self.unit.segments.min(4) {
            for _ in 0..2 {
                let column = self.random.between(1, self.unit.columns);
                self.edit(MARK, Mark { tag, segment, column });
            }
        }
        self.search(tag as u8);
    }

    /// Two marks of one function so far apart that it has more than 256 states. For 11 columns or more.
    fn wide_begin(&mut self) {
        let (tag, segment) = (self.random.between(1, self.unit.functions), self.random.between(1, self.unit.segments));
        let last = self.random.between(11, self.unit.columns);
        for column in [1, last] {
            self.edit(MARK, Mark { tag, segment, column });
        }
    }
}

/// A count that is not from 1 to `most`.
fn count_outside(most: u32, random: &mut Random) -> u32 {
    let inside = random.between(1, most);
    let far = random.word() | 1 << 31;
    random.pick(&[0, most + 1, 255, 256, 256 + inside, 65_536 + inside, (1 << 31) + inside, u32::MAX, far])
}

fn work_length(random: &mut Random) -> usize {
    match random.below(32) {
        0 | 1 => WORKING_WORDS - 1,
        2 => random.below(WORKING_WORDS as u64) as usize,
        3 => 0,
        4..=7 => random.between(WORKING_WORDS as u32 + 1, MOST_LENT_WORDS as u32) as usize,
        _ => WORKING_WORDS,
    }
}

fn out_length(count: usize, random: &mut Random) -> usize {
    let need = count * REPLY_BYTES;
    match random.below(16) {
        0 => need - 1,
        1 => random.below(need as u64) as usize,
        2 => random.below(count as u64) as usize * REPLY_BYTES,
        3..=6 => need + random.between(1, 600) as usize,
        _ => need,
    }
}

fn some_list(random: &mut Random) -> List {
    let hard = random.chance(1, 100);
    let wide = !hard && random.chance(1, 10);
    let (mut segments, mut columns) = (random.between(1, 4), random.between(1, 10));
    if hard {
        (segments, columns) = (MOST_SEGMENTS, MOST_COLUMNS);
    } else if wide {
        columns = random.between(11, MOST_COLUMNS);
    } else if random.chance(1, 16) {
        segments = random.between(1, MOST_SEGMENTS);
    }
    let unit = Unit::fresh(random.between(1, MOST_FUNCTIONS), segments, columns).expect("counts in their ranges");
    let mut counts = [unit.functions, segments, columns];

    let mut maker = Maker { unit, calls: Vec::new(), random };
    if hard {
        maker.hard_begin();
    } else if wide {
        maker.wide_begin();
    } else if maker.random.chance(1, 3) {
        maker.pairs_begin();
    }
    let least = maker.calls.len().max(1) as u32;
    let count = maker.random.between(least, MOST_CALLS as u32) as usize;
    while maker.calls.len() < count {
        maker.some_call();
    }
    maker.calls.truncate(count);
    let mut calls = maker.calls.concat();

    if random.chance(1, 16) {
        let (place, most) = random.pick(&[(0, MOST_FUNCTIONS), (1, MOST_SEGMENTS), (2, MOST_COLUMNS)]);
        counts[place] = count_outside(most, random);
    }
    if random.chance(1, 5) {
        // "whole calls": the bytes of a part of one
        let part = random.between(1, CALL_BYTES as u32 - 1) as usize;
        calls.extend(random.bytes(part));
    }
    List { counts, calls, work_length: work_length(random), out_length: out_length(count, random) }
}

pub fn play(case: u64, seed: u64, bench: &mut Bench) -> Checked {
    check(&some_list(&mut Random::new(seed)), case, bench)
}

// ---------------------------------------------------------------------------------------------------------------------------------
// Edges

/// A mark, a search, an unmark and two reads, which any unit accepts or refuses by 8.
const SHORT: [u8; 20] = [MARK, 1, 1, 1, SEARCH, 1, 0, 0, READ, 0, 0, 0, UNMARK, 1, 1, 1, READ, 0, 0, 0];

pub fn counts(bench: &mut Bench) -> Checked {
    let mut list = List { counts: [0; 3], calls: SHORT.to_vec(), work_length: WORKING_WORDS, out_length: 5 * REPLY_BYTES };
    for functions in 0..=6 {
        for segments in 0..=18 {
            for columns in 0..=34 {
                list.counts = [functions, segments, columns];
                check(&list, 0, bench)?;
            }
        }
    }
    for place in 0..3 {
        for number in (35..=520).chain([65_537, 1 << 24, (1 << 31) + 1, u32::MAX - 254, u32::MAX]) {
            list.counts = [1, 1, 1];
            list.counts[place] = number;
            check(&list, 0, bench)?;
        }
    }
    Ok(())
}

pub fn lengths(bench: &mut Bench) -> Checked {
    for counts in [[1, 1, 1], [1, 1, 33]] {
        for length in 0..=SHORT.len() {
            let rooms = (0..=6 * REPLY_BYTES).filter(|room| (room + 2) % REPLY_BYTES < 4 || room % 100 == 0);
            for out_length in rooms {
                let list = List { counts, calls: SHORT[..length].to_vec(), work_length: WORKING_WORDS, out_length };
                check(&list, 0, bench)?;
            }
        }
        for work_length in [0, 1, 256, 2_048, 15_999, 16_000, 16_001, MOST_LENT_WORDS] {
            let list = List { counts, calls: SHORT.to_vec(), work_length, out_length: 5 * REPLY_BYTES };
            check(&list, 0, bench)?;
        }
    }
    // longer than any other: a plan made and dropped 2,000 times
    let calls = SHORT.repeat(2_000);
    check(&List { counts: [2, 3, 5], out_length: calls.len() / CALL_BYTES * REPLY_BYTES, calls, work_length: WORKING_WORDS }, 0, bench)
}

/// Every value of each byte of a call, on a unit with a plan, and a read after it.
pub fn bytes(bench: &mut Bench) -> Checked {
    let begin = [[MARK, 1, 1, 1], [MARK, 1, 1, 3], [MARK, 2, 2, 2], [SEARCH, 1, 0, 0]];
    for call in [[MARK, 1, 1, 1], [MARK, 2, 2, 4], [UNMARK, 1, 1, 3], [UNMARK, 2, 1, 1], [SEARCH, 2, 0, 0], [READ, 0, 0, 0]] {
        for place in 0..CALL_BYTES {
            for value in 0..=255 {
                let mut other = call;
                other[place] = value;
                let calls = [&begin[..], &[other, [READ, 1, 1, 1], [SEARCH, 1, 0, 0], [READ, 2, 2, 2]]].concat().concat();
                let out_length = calls.len() / CALL_BYTES * REPLY_BYTES;
                check(&List { counts: [2, 2, 4], calls, work_length: WORKING_WORDS, out_length }, 0, bench)?;
            }
        }
    }
    Ok(())
}
