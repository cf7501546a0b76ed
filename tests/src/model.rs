//! The answers of the unit configurator, worked out from its paper by sets, lists and brute force.
//!
//! Nothing here is meant to be quick. A collision is two tasks in one segment in one time unit, found by laying tasks down; a state is a
//! list of yes and no; a least average comes from Karp's theorem. No step is taken by shifting or joining machine words, so that an error
//! of such a step can't stand on both sides of a comparison. Sentences in quotation marks are the paper's.

use std::collections::{BTreeSet, HashMap};

/// An accepted call's value, or the number of the refusal.
pub type Reply<T> = Result<T, u32>;

pub const MOST_FUNCTIONS: u32 = 4;
pub const MOST_SEGMENTS: u32 = 16;
pub const MOST_COLUMNS: u32 = 32;
/// "Limit: 256 states."
pub const MOST_STATES: usize = 256;
/// "held in 256 bytes"
pub const MOST_LATENCIES: usize = 256;
/// "32-bit working words, at least 16,000"
pub const WORKING_WORDS: usize = 16_000;
/// "The bank, four registers of 32 bits"
pub const REGISTERS: usize = 4;
pub const REGISTER_BITS: usize = 32;

// ---------------------------------------------------------------------------------------------------------------------------------
// The unit and its marks

/// "A mark says that a task of a function occupies a segment in a column."
#[derive(Clone, Copy, PartialEq, Eq, PartialOrd, Ord, Hash, Debug)]
pub struct Mark {
    pub tag: u32,
    pub segment: u32,
    pub column: u32,
}

#[derive(Clone, PartialEq, Eq, Debug)]
pub struct Unit {
    pub functions: u32,
    pub segments: u32,
    pub columns: u32,
    pub marks: BTreeSet<Mark>,
}

fn from_one_to(most: u32, number: u32) -> bool {
    (1..=most).contains(&number)
}

impl Unit {
    /// "Fresh: the three counts give a unit without marks or plan." "1 a count outside its range"
    pub fn fresh(functions: u32, segments: u32, columns: u32) -> Reply<Unit> {
        let counts_stand =
            from_one_to(MOST_FUNCTIONS, functions) && from_one_to(MOST_SEGMENTS, segments) && from_one_to(MOST_COLUMNS, columns);
        if !counts_stand {
            return Err(1);
        }
        Ok(Unit { functions, segments, columns, marks: BTreeSet::new() })
    }

    /// "2 tag not in the unit"
    pub fn check_tag(&self, tag: u32) -> Reply<()> {
        if from_one_to(self.functions, tag) {
            Ok(())
        } else {
            Err(2)
        }
    }

    /// "2 tag not in the unit; 3 segment; 4 column" and "The lowest number that applies is given."
    pub fn check_mark(&self, mark: Mark) -> Reply<()> {
        self.check_tag(mark.tag)?;
        if !from_one_to(self.segments, mark.segment) {
            return Err(3);
        }
        if !from_one_to(self.columns, mark.column) {
            return Err(4);
        }
        Ok(())
    }

    /// "Mark and unmark set or clear one mark."
    pub fn mark(&mut self, mark: Mark) -> Reply<()> {
        self.check_mark(mark)?;
        self.marks.insert(mark);
        Ok(())
    }

    pub fn unmark(&mut self, mark: Mark) -> Reply<()> {
        self.check_mark(mark)?;
        self.marks.remove(&mark);
        Ok(())
    }

    /// Segment and column of each mark of one function.
    pub fn spots(&self, tag: u32) -> Vec<Spot> {
        self.marks.iter().filter(|mark| mark.tag == tag).map(|mark| (mark.segment, mark.column)).collect()
    }
}

/// A segment and a column.
pub type Spot = (u32, u32);

// ---------------------------------------------------------------------------------------------------------------------------------
// Collisions

/// Which segment is occupied in which time unit. Clearing it is a new turn: a place counts as occupied where its stamp is this turn's.
pub struct Yard {
    stamps: Vec<u32>,
    turn: u32,
}

impl Yard {
    pub fn new() -> Yard {
        Yard { stamps: Vec::new(), turn: 1 }
    }

    pub fn clear(&mut self) {
        self.turn += 1;
    }

    fn place(segment: u32, time: u32) -> usize {
        (time * MOST_SEGMENTS + segment - 1) as usize
    }

    fn occupied(&self, segment: u32, time: u32) -> bool {
        self.stamps.get(Yard::place(segment, time)) == Some(&self.turn)
    }

    fn occupy(&mut self, segment: u32, time: u32) {
        let place = Yard::place(segment, time);
        if place >= self.stamps.len() {
            self.stamps.resize(place + 1024, 0);
        }
        self.stamps[place] = self.turn;
    }

    /// "A task started at time a occupies a segment in time unit a + c for each mark that its function has there in column c."
    pub fn lay(&mut self, spots: &[Spot], start: u32) {
        for &(segment, column) in spots {
            self.occupy(segment, start + column);
        }
    }

    /// Would a task find one of its places occupied?
    pub fn clashes(&self, spots: &[Spot], start: u32) -> bool {
        spots.iter().any(|&(segment, column)| self.occupied(segment, start + column))
    }
}

/// The intervals t at least 1 at which a task of `later`, started t after a task of `earlier`, meets it in a segment: entry t − 1 is t.
/// The paper's "column t of a vector or row". Two tasks 32 apart never meet, because their columns are 1 to 32.
pub fn meetings(earlier: &[Spot], later: &[Spot], yard: &mut Yard) -> Vec<bool> {
    yard.clear();
    yard.lay(earlier, 0);
    (1..=REGISTER_BITS as u32).map(|interval| yard.clashes(later, interval)).collect()
}

/// "t is forbidden when some segment has two marks t columns apart. n is the largest forbidden t, or 0." The vector has n entries.
pub fn collision_vector(spots: &[Spot], yard: &mut Yard) -> Vec<bool> {
    let mut vector = meetings(spots, spots, yard);
    while vector.last() == Some(&false) {
        vector.pop();
    }
    vector
}

/// "Held in a word, column t of a vector or row (c_t) is bit t − 1, bit 0 the lowest, and all other bits are 0."
pub fn word_of(columns: &[bool]) -> u32 {
    let powers = (0..).map(|exponent| 2u64.pow(exponent));
    let sum: u64 = columns.iter().zip(powers).filter(|(set, _)| **set).map(|(_, power)| power).sum();
    sum as u32
}

/// The 32 bits of a word, lowest first.
pub fn bits_of(word: u32) -> Vec<bool> {
    let mut rest = word;
    (0..REGISTER_BITS)
        .map(|_| {
            let odd = rest % 2 == 1;
            rest /= 2;
            odd
        })
        .collect()
}

// ---------------------------------------------------------------------------------------------------------------------------------
// State diagram

pub struct Diagram {
    /// Each state is as long as the collision vector, entry t − 1 for column t.
    pub states: Vec<Vec<bool>>,
    pub arcs: Arcs,
}

/// "A state permits latency t when t is from 1 to n and its column t is 0; and it permits n + 1."
fn permitted(state: &[bool]) -> Vec<usize> {
    let largest = state.len();
    let mut latencies: Vec<usize> = (1..=largest).filter(|latency| !state[latency - 1]).collect();
    latencies.push(largest + 1);
    latencies
}

/// "Latency t leads to the state shifted right t places, zeros entering, OR the collision vector; n + 1 leads to the first state."
fn after(state: &[bool], latency: usize, vector: &[bool]) -> Vec<bool> {
    let largest = vector.len();
    if latency == largest + 1 {
        return vector.to_vec();
    }
    (0..largest).map(|place| vector[place] || (place + latency < largest && state[place + latency])).collect()
}

/// "States are listed as they are first found: the first state, then for each listed state in turn its arcs by rising latency." None where
/// there are more than `limit`.
pub fn diagram(vector: &[bool], limit: usize) -> Option<Diagram> {
    let mut states = vec![vector.to_vec()];
    let mut places: HashMap<Vec<bool>, usize> = HashMap::from([(vector.to_vec(), 0)]);
    let mut arcs: Arcs = Vec::new();
    while arcs.len() < states.len() {
        let state = states[arcs.len()].clone();
        let mut leading = Vec::new();
        for latency in permitted(&state) {
            let next = after(&state, latency, vector);
            let place = match places.get(&next) {
                Some(&place) => place,
                None => {
                    if states.len() == limit {
                        return None;
                    }
                    places.insert(next.clone(), states.len());
                    states.push(next);
                    states.len() - 1
                }
            };
            leading.push((latency as u32, place));
        }
        arcs.push(leading);
    }
    Some(Diagram { states, arcs })
}

impl Diagram {
    fn next(&self, state: usize, latency: u32) -> Option<usize> {
        self.arcs[state].iter().find(|arc| arc.0 == latency).map(|arc| arc.1)
    }

    /// "from the first state always the least latency; the cycle starts at the first state of that walk that occurs again"
    pub fn greedy(&self) -> Vec<u8> {
        let mut walked: Vec<usize> = Vec::new();
        let mut latencies: Vec<u8> = Vec::new();
        let mut state = 0;
        loop {
            if let Some(again) = walked.iter().position(|&earlier| earlier == state) {
                return latencies[again..].to_vec();
            }
            walked.push(state);
            let (latency, next) = self.arcs[state][0];
            latencies.push(latency as u8);
            state = next;
        }
    }

    /// "a cycle of the diagram in which no state occurs twice": some state leads by these latencies back to itself, and no state on the way
    /// is met again before that.
    pub fn has_cycle(&self, latencies: &[u8]) -> bool {
        if latencies.is_empty() || latencies.len() > self.states.len() {
            return false;
        }
        (0..self.states.len()).any(|begin| self.closes(begin, latencies))
    }

    fn closes(&self, begin: usize, latencies: &[u8]) -> bool {
        let mut met = vec![false; self.states.len()];
        let mut state = begin;
        for &latency in latencies {
            if met[state] {
                return false;
            }
            met[state] = true;
            match self.next(state, latency as u32) {
                Some(next) => state = next,
                None => return false,
            }
        }
        state == begin
    }

    pub fn least_average(&self) -> (i64, i64) {
        least_average(&self.arcs)
    }

    pub fn nothing_below(&self, sum: i64, count: i64) -> bool {
        nothing_below(&self.arcs, sum, count)
    }
}

/// For each state of a graph its latencies, rising, with the place of the state they lead to.
pub type Arcs = Vec<Vec<(u32, usize)>>;

/// The least average of a cycle, as a sum and a count, by Karp's theorem: with d(k, v) the least sum of a walk of exactly k arcs from
/// the first state to v, and N states, it is the least over v of the greatest over k below N of (d(N, v) − d(k, v)) / (N − k). The
/// theorem asks that every state can be reached from the first one, as in the graphs here each can.
pub fn least_average(arcs: &Arcs) -> (i64, i64) {
    let count = arcs.len();
    let flat: Vec<(usize, i32, usize)> =
        arcs.iter().enumerate().flat_map(|(from, leading)| leading.iter().map(move |&(latency, to)| (from, latency as i32, to))).collect();
    const NONE: i32 = i32::MAX / 2;
    let mut sums = vec![NONE; (count + 1) * count];
    sums[0] = 0;
    for arcs in 1..=count {
        let (shorter, longer) = sums[(arcs - 1) * count..(arcs + 1) * count].split_at_mut(count);
        for &(from, latency, to) in &flat {
            longer[to] = longer[to].min(shorter[from] + latency);
        }
        longer.iter_mut().for_each(|sum| *sum = (*sum).min(NONE));
    }
    let mut least: Option<(i64, i64)> = None;
    for state in 0..count {
        let whole = sums[count * count + state];
        if whole == NONE {
            continue;
        }
        let mut greatest: Option<(i64, i64)> = None;
        for arcs in 0..count {
            let part = sums[arcs * count + state];
            if part == NONE {
                continue;
            }
            let fraction = ((whole - part) as i64, (count - arcs) as i64);
            if greatest.is_none_or(|old| fraction.0 * old.1 > old.0 * fraction.1) {
                greatest = Some(fraction);
            }
        }
        let greatest = greatest.expect("a walk of N arcs meets a state twice");
        if least.is_none_or(|old| greatest.0 * old.1 < old.0 * greatest.1) {
            least = Some(greatest);
        }
    }
    least.expect("every state permits n + 1")
}

/// No cycle has an average below `sum / count`: heights exist for the states such that each arc of latency t rises by no more than
/// count × t − sum. Added up around a cycle of m latencies with sum T this says count × T at least sum × m. Without such heights a
/// cycle of a lower average exists, so the answer is exact both ways. It is believed only after the heights were tried on every arc.
pub fn nothing_below(arcs: &Arcs, sum: i64, count: i64) -> bool {
    let mut heights = vec![0i64; arcs.len()];
    for _ in 0..=arcs.len() {
        let mut settled = true;
        for (from, leading) in arcs.iter().enumerate() {
            for &(latency, to) in leading {
                let reach = heights[from] + count * latency as i64 - sum;
                if reach < heights[to] {
                    heights[to] = reach;
                    settled = false;
                }
            }
        }
        if settled {
            return arcs
                .iter()
                .enumerate()
                .all(|(from, leading)| leading.iter().all(|&(latency, to)| heights[to] - heights[from] <= count * latency as i64 - sum));
        }
    }
    false
}

/// "The cycle is given in the rotation that comes first when read as a list of numbers."
pub fn is_first_rotation(latencies: &[u8]) -> bool {
    (1..latencies.len()).all(|turn| {
        let rotated = latencies[turn..].iter().chain(&latencies[..turn]);
        latencies.iter().le(rotated)
    })
}

/// A cycle as it is handed out: latencies, and a number that should be their sum.
#[derive(Clone, PartialEq, Eq, Debug)]
pub struct Cycle {
    pub latencies: Vec<u8>,
    pub sum: u32,
}

pub fn sum_of(latencies: &[u8]) -> u32 {
    latencies.iter().map(|&latency| latency as u32).sum()
}

// ---------------------------------------------------------------------------------------------------------------------------------
// Other questions about a function

/// "The sender of a cycle to the judge: 9 an empty list, one above 256, or a latency 0."
pub fn check_cycle(latencies: &[u8]) -> Reply<()> {
    if latencies.is_empty() || latencies.len() > MOST_LATENCIES || latencies.contains(&0) {
        return Err(9);
    }
    Ok(())
}

/// "Repeated without end, it begins with a start at time 0, and each latency in turn leads to the next start." "The cycle never collides
/// when no two of these tasks occupy one segment in one time unit."
///
/// The starts before `sum + 32` are enough. Columns are 1 to 32, so two tasks that meet started less than 32 apart. With K latencies of
/// sum P the start K places later comes P later; so where starts i and j meet, i before j and i at least K, starts i − K and j − K meet
/// too. Going down this way some meeting pair has its earlier start in the first turn, before P, and its later start before P + 32.
pub fn never_collides(spots: &[Spot], latencies: &[u8], yard: &mut Yard) -> bool {
    let end = sum_of(latencies) + 32;
    tasks_never_meet(spots, latencies, yard, end)
}

/// The same for the starts of the first turn alone: what a judge sees who tests "intervals within one period only".
pub fn one_turn_never_collides(spots: &[Spot], latencies: &[u8], yard: &mut Yard) -> bool {
    tasks_never_meet(spots, latencies, yard, sum_of(latencies))
}

fn tasks_never_meet(spots: &[Spot], latencies: &[u8], yard: &mut Yard, end: u32) -> bool {
    yard.clear();
    let mut start = 0;
    for &latency in latencies.iter().cycle() {
        if start >= end {
            break;
        }
        if yard.clashes(spots, start) {
            return false;
        }
        yard.lay(spots, start);
        start += latency as u32;
    }
    true
}

/// "Constant: the least latency m such that no multiple of m is forbidden."
pub fn constant(vector: &[bool]) -> u32 {
    let forbidden: Vec<usize> = (1..=vector.len()).filter(|latency| vector[latency - 1]).collect();
    let mut latency = 1;
    while forbidden.iter().any(|interval| interval % latency == 0) {
        latency += 1;
    }
    latency as u32
}

/// The largest number of marks that the function has in one segment.
pub fn most_marks(spots: &[Spot]) -> u32 {
    let mut counts: HashMap<u32, u32> = HashMap::new();
    for &(segment, _) in spots {
        *counts.entry(segment).or_insert(0) += 1;
    }
    counts.values().copied().max().unwrap_or(0)
}

/// "Bound becomes the size of the largest set of whole numbers in which every two differ by a forbidden latency; a set of one always counts."
/// Moved to begin with 0, such a set has forbidden latencies for its other numbers. These stand in two halves: every set that the lower half
/// allows is completed by the largest set among those of the upper half that go with all of it.
pub fn bound(vector: &[bool]) -> u32 {
    let latencies: Vec<usize> = (1..=vector.len()).filter(|latency| vector[latency - 1]).collect();
    let (lower, upper) = latencies.split_at(latencies.len() / 2);
    let most = largest_among(vector, upper);
    let (in_lower, in_upper) = (go_with(vector, lower, lower), go_with(vector, lower, upper));
    // for a choice of the lower half, the upper half's numbers that go with all of it; none where two of the choice don't go together
    let mut left = vec![Some(most.len() - 1); 1 << lower.len()];
    let mut largest = 0;
    for choice in 0..left.len() {
        if choice > 0 {
            let (first, rest) = (choice.trailing_zeros() as usize, choice & (choice - 1));
            left[choice] = left[rest].filter(|_| rest & in_lower[first] == rest).map(|numbers| numbers & in_upper[first]);
        }
        if let Some(numbers) = left[choice] {
            largest = largest.max(choice.count_ones() + most[numbers]);
        }
    }
    largest + 1
}

/// For each of some numbers the places of those of a half, as a word, that differ from it by a forbidden latency.
fn go_with(vector: &[bool], numbers: &[usize], half: &[usize]) -> Vec<usize> {
    let differ = |one: usize, two: usize| one != two && vector[one.abs_diff(two) - 1];
    numbers.iter().map(|&one| (0..half.len()).filter(|&place| differ(one, half[place])).map(|place| 1 << place).sum()).collect()
}

/// For each choice of a half's numbers, a word of their places, the size of the largest set among them in which every two go together.
fn largest_among(vector: &[bool], half: &[usize]) -> Vec<u32> {
    let together = go_with(vector, half, half);
    let mut most = vec![0; 1 << half.len()];
    for choice in 1..most.len() {
        let (first, rest) = (choice.trailing_zeros() as usize, choice & (choice - 1));
        most[choice] = most[rest].max(1 + most[rest & together[first]]);
    }
    most
}

/// "Upper: the number of 1s in the collision vector, plus 1."
pub fn upper(vector: &[bool]) -> u32 {
    vector.iter().filter(|set| **set).count() as u32 + 1
}

// ---------------------------------------------------------------------------------------------------------------------------------
// The issue controller

/// The registers as lists of bits, lowest first.
#[derive(Clone, PartialEq, Eq, Hash, Debug)]
pub struct Bank {
    registers: [[bool; REGISTER_BITS]; REGISTERS],
}

impl Bank {
    /// "The bank takes any register values". "Empty means all zero."
    pub fn of_words(words: &[u32]) -> Bank {
        Bank { registers: std::array::from_fn(|place| bits_of(words[place]).try_into().expect("32 bits")) }
    }

    pub fn words(&self) -> Vec<u32> {
        self.registers.iter().map(|register| word_of(register)).collect()
    }

    /// "A tick shifts each register right by one."
    pub fn tick(&mut self) {
        for register in &mut self.registers {
            register.rotate_left(1);
            register[REGISTER_BITS - 1] = false;
        }
    }

    pub fn holds_back(&self, tag: u32) -> bool {
        self.registers[tag as usize - 1][0]
    }

    /// "A start of Q is granted when the lowest bit of register Q is 0; then all registers shift right by one, and row R of M_Q is ORed
    /// into register R for each tag R of the unit. A refused start takes no time." `rows[R − 1]` is row R of M_Q.
    pub fn start(&mut self, tag: u32, rows: &[Vec<bool>]) -> Reply<()> {
        if self.holds_back(tag) {
            return Err(10);
        }
        self.tick();
        for (register, row) in self.registers.iter_mut().zip(rows) {
            for (bit, &collides) in register.iter_mut().zip(row) {
                *bit = *bit || collides;
            }
        }
        Ok(())
    }
}

/// What the bank stands for: the tasks granted so far on the segments of one unchanged unit, from nothing.
pub struct Machine {
    yard: Yard,
    pub now: u32,
}

impl Machine {
    pub fn new() -> Machine {
        Machine { yard: Yard::new(), now: 0 }
    }

    pub fn restart(&mut self) {
        self.yard.clear();
        self.now = 0;
    }

    pub fn tick(&mut self) {
        self.now += 1;
    }

    /// A start "is granted exactly when no segment would serve two tasks in one time unit"; a granted one takes a time unit.
    pub fn start(&mut self, spots: &[Spot]) -> Reply<()> {
        if self.would_clash(spots, 0) {
            return Err(10);
        }
        self.yard.lay(spots, self.now);
        self.now += 1;
        Ok(())
    }

    pub fn would_clash(&self, spots: &[Spot], wait: u32) -> bool {
        self.yard.clashes(spots, self.now + wait)
    }
}

// ---------------------------------------------------------------------------------------------------------------------------------
// The unit file

/// Bytes of the file of a unit with these counts.
pub fn file_length(functions: u32, segments: u32) -> usize {
    (4 + 2 * functions + 4 * segments * functions) as usize
}

/// "The table of tag k begins at 4 + 2 × p + 4 × s × (k − 1), and offset k says so."
fn table_offset(functions: u32, segments: u32, tag: u32) -> usize {
    (4 + 2 * functions + 4 * segments * (tag - 1)) as usize
}

fn little_endian(bytes: &[u8]) -> u64 {
    bytes.iter().rev().fold(0, |value, &byte| value * 256 + byte as u64)
}

fn put_little_endian(bytes: &mut [u8], value: u64) {
    let mut rest = value;
    for byte in bytes {
        *byte = (rest % 256) as u8;
        rest /= 256;
    }
}

/// "Byte 0 functions p, byte 1 segments s, byte 2 columns, byte 3 zero; then p offsets of 16 bits; then tables." "A table is one 32-bit word
/// per segment, bit c − 1 for column c."
pub fn encode(unit: &Unit) -> Vec<u8> {
    let mut file = vec![0; file_length(unit.functions, unit.segments)];
    file[0] = unit.functions as u8;
    file[1] = unit.segments as u8;
    file[2] = unit.columns as u8;
    for tag in 1..=unit.functions {
        let offset = table_offset(unit.functions, unit.segments, tag);
        let entry = 4 + 2 * (tag as usize - 1);
        put_little_endian(&mut file[entry..entry + 2], offset as u64);
        let mut words = vec![0u64; unit.segments as usize];
        for (segment, column) in unit.spots(tag) {
            words[segment as usize - 1] += 2u64.pow(column - 1);
        }
        for (place, word) in words.into_iter().enumerate() {
            let begin = offset + 4 * place;
            put_little_endian(&mut file[begin..begin + 4], word);
        }
    }
    file
}

/// "A file is tried in the order 11 (under 4 bytes), 1, 11, 12, 13."
pub fn decode(file: &[u8]) -> Reply<Unit> {
    if file.len() < 4 {
        return Err(11);
    }
    let mut unit = Unit::fresh(file[0] as u32, file[1] as u32, file[2] as u32)?;
    if file.len() != file_length(unit.functions, unit.segments) {
        return Err(11);
    }
    if file[3] != 0 {
        return Err(12);
    }
    for tag in 1..=unit.functions {
        let entry = 4 + 2 * (tag as usize - 1);
        if little_endian(&file[entry..entry + 2]) != table_offset(unit.functions, unit.segments, tag) as u64 {
            return Err(12);
        }
    }
    for tag in 1..=unit.functions {
        for segment in 1..=unit.segments {
            let begin = table_offset(unit.functions, unit.segments, tag) + 4 * (segment as usize - 1);
            let word = little_endian(&file[begin..begin + 4]) as u32;
            for (column, set) in (1..).zip(bits_of(word)) {
                if set && column > unit.columns {
                    return Err(13);
                }
                if set {
                    unit.marks.insert(Mark { tag, segment, column });
                }
            }
        }
    }
    Ok(unit)
}

// ---------------------------------------------------------------------------------------------------------------------------------
// What the printer writes

/// A listing is text, but for the best cycles: "Where several cycles share the least average, which one is free."
#[derive(Clone, PartialEq, Eq, Debug)]
pub enum Piece {
    Text(String),
    /// The rest of the line `best` of this tag, up to the end of the line.
    Best(u32),
}

/// Latencies and their sum, as the lines `greedy` and `best` have them after their first word.
pub fn cycle_text(latencies: &[u8]) -> String {
    let mut text = String::new();
    for latency in latencies {
        text += &format!("{latency} ");
    }
    text + &format!("sum {}", sum_of(latencies))
}

/// "c_n to c_1, or `-` if n is 0"
pub fn vector_text(vector: &[bool]) -> String {
    if vector.is_empty() {
        return "-".to_string();
    }
    vector.iter().rev().map(|&set| if set { '1' } else { '0' }).collect()
}

/// The listing of one file. `greedy_of` hands out a tag's number of states and greedy cycle, or nothing where it has too many states.
pub fn listing(file: &Reply<Unit>, yard: &mut Yard, mut greedy_of: impl FnMut(u32) -> Option<(usize, Vec<u8>)>) -> Vec<Piece> {
    let unit = match file {
        Ok(unit) => unit,
        // "A refused file prints `refused` and its number only."
        Err(number) => return vec![Piece::Text(format!("refused {number}\n"))],
    };
    let mut pieces = Vec::new();
    for tag in 1..=unit.functions {
        let spots = unit.spots(tag);
        let vector = collision_vector(&spots, yard);
        let head = format!("function {tag}\nvector {}\nbound {} upper {}\n", vector_text(&vector), bound(&vector), upper(&vector));
        let tail = format!("constant {}\n", constant(&vector));
        match greedy_of(tag) {
            Some((states, greedy)) => {
                pieces.push(Piece::Text(format!("{head}states {states}\ngreedy {}\nbest ", cycle_text(&greedy))));
                pieces.push(Piece::Best(tag));
                pieces.push(Piece::Text(format!("\n{tail}")));
            }
            // "With too many states, one line `refused 7` replaces states, greedy and best."
            None => pieces.push(Piece::Text(format!("{head}refused 7\n{tail}"))),
        }
    }
    pieces
}
