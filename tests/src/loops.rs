//! Loops over several functions: the states that the steps of a list of tags reach, the least average of a loop, and whether an answer is
//! one of the best. Sentences in quotation marks are the request's.
//!
//! Steps are taken by the model's issue controller, register by register. The least average comes from Karp's theorem. An answer is
//! played on the controller by itself, without the states listed before, and laid out by its marks, without any controller.

use crate::model::*;
use std::cell::OnceCell;
use std::collections::{HashMap, HashSet};

/// "From a list of 1 to 8 tags in that fixed order"
pub const MOST_TAGS: usize = 8;

/// "17 is new: an empty list or one above 8, tried between 1 and 2."
pub fn check_list(unit: &Unit, tags: &[u32]) -> Reply<()> {
    if tags.is_empty() || tags.len() > MOST_TAGS {
        return Err(17);
    }
    tags.iter().try_for_each(|tag| unit.check_tag(*tag))
}

/// A list of tags that are issued in that order without end, and what the unit says of its functions.
#[derive(Clone)]
pub struct Kernel {
    pub tags: Vec<u32>,
    /// The marks of each function of the unit.
    spots: Vec<Vec<Spot>>,
    /// The matrix of each function, row by row, as a start needs it.
    matrices: Vec<Vec<Vec<bool>>>,
    /// n + 1, n the largest column with a 1 in any matrix of the unit, or 0. After n ticks the registers hold nothing, whatever was
    /// started: a longer latency leads to the state that n + 1 leads to.
    pub longest: u32,
}

/// "A state is a position with the bank just after its start".
#[derive(Clone, PartialEq, Eq, Hash)]
struct State {
    position: usize,
    bank: Bank,
}

/// The latency behind the last column with a 1.
fn beyond<'a>(rows: impl Iterator<Item = &'a Vec<bool>>) -> u32 {
    rows.map(|row| row.iter().rposition(|collides| *collides).map_or(0, |place| place + 1)).max().unwrap_or(0) as u32 + 1
}

impl Kernel {
    /// Of tags that are in the unit.
    pub fn new(unit: &Unit, tags: &[u32], yard: &mut Yard) -> Kernel {
        let spots: Vec<Vec<Spot>> = (1..=unit.functions).map(|tag| unit.spots(tag)).collect();
        let matrix = |earlier: &Vec<Spot>| spots.iter().map(|later| meetings(earlier, later, yard)).collect();
        let matrices: Vec<Vec<Vec<bool>>> = spots.iter().map(matrix).collect();
        let longest = beyond(matrices.iter().flatten());
        Kernel { tags: tags.to_vec(), spots, matrices, longest }
    }

    fn names(&self, function: usize) -> bool {
        self.tags.contains(&(function as u32 + 1))
    }

    pub fn names_all(&self) -> bool {
        (0..self.spots.len()).all(|function| self.names(function))
    }

    /// The least length of a list that gives this one when it is written one or more times.
    pub fn period(&self) -> usize {
        let count = self.tags.len();
        let repeats = |part: &usize| count % part == 0 && (*part..count).all(|place| self.tags[place] == self.tags[place - part]);
        (1..=count).find(repeats).unwrap_or(count)
    }

    /// As if functions that the list does not name had no registers.
    pub fn without_others(&self) -> Kernel {
        let mut kernel = self.clone();
        for matrix in &mut kernel.matrices {
            for (function, row) in matrix.iter_mut().enumerate() {
                if !self.names(function) {
                    row.fill(false);
                }
            }
        }
        kernel
    }

    /// As if latencies ended behind the last one at which functions of the list collide.
    pub fn with_own_latencies(&self) -> Kernel {
        let named = |function: &usize| self.names(*function);
        let rows = (0..self.spots.len()).filter(named).flat_map(|earlier| {
            let matrix = &self.matrices[earlier];
            (0..matrix.len()).filter(named).map(move |later| &matrix[later])
        });
        Kernel { longest: beyond(rows), ..self.clone() }
    }

    fn after(&self, position: usize) -> usize {
        (position + 1) % self.tags.len()
    }

    /// The state after the start of this position's tag, where the bank grants it.
    fn start(&self, position: usize, bank: &Bank) -> Option<State> {
        let tag = self.tags[position];
        if bank.holds_back(tag) {
            return None;
        }
        let mut bank = bank.clone();
        bank.start(tag, &self.matrices[tag as usize - 1]).expect("a start that is not held back");
        Some(State { position, bank })
    }

    /// "the first tag started on an empty bank"
    fn first(&self) -> State {
        self.start(0, &Bank::of_words(&[0; REGISTERS])).expect("an empty bank grants every start")
    }

    /// "a step is any number of ticks and then a granted start of the next tag": the latency says in which time unit after the start before
    /// it this one is.
    fn step(&self, state: &State, latency: u8) -> Option<State> {
        let mut bank = state.bank.clone();
        for _ in 1..latency {
            bank.tick();
        }
        self.start(self.after(state.position), &bank)
    }

    /// The states "reached by steps", as they are first found. None where there are more than `limit`.
    pub fn reached(&self, limit: usize) -> Option<Reached> {
        let mut states = vec![self.first()];
        let mut places: HashMap<State, usize> = HashMap::from([(states[0].clone(), 0)]);
        let mut arcs: Arcs = Vec::new();
        while arcs.len() < states.len() {
            let State { position, mut bank } = states[arcs.len()].clone();
            let mut leading = Vec::new();
            for latency in 1..=self.longest {
                if let Some(next) = self.start(self.after(position), &bank) {
                    let place = *places.entry(next).or_insert_with_key(|next| {
                        states.push(next.clone());
                        states.len() - 1
                    });
                    if states.len() > limit {
                        return None;
                    }
                    leading.push((latency, place));
                }
                bank.tick();
            }
            arcs.push(leading);
        }
        Some(Reached { positions: states.iter().map(|state| state.position).collect(), arcs })
    }

    /// The states of a turn of a loop, in order, from position 0, and the one that the turn ends with. None where a start is not granted.
    ///
    /// From the first state the loop is played until 32 time units have passed: from then on each register holds what the loop's own starts
    /// put there, and a turn begins in the state that the loop begins in. What is granted in any other state of position 0 is granted in
    /// the first one too, which holds nothing but the matrix of the first tag; so a loop of reached states is never stopped on the way.
    fn turn(&self, latencies: &[u8]) -> Option<Vec<State>> {
        let mut state = self.first();
        let mut passed = 0;
        while passed < REGISTER_BITS as u32 {
            state = latencies.iter().try_fold(state, |state, latency| self.step(&state, *latency))?;
            passed += sum_of(latencies);
        }
        let mut states = vec![state];
        for (place, latency) in latencies.iter().enumerate() {
            states.push(self.step(&states[place], *latency)?);
        }
        Some(states)
    }

    /// "whose repetition never collides", by the marks alone: the i-th start is one of the i-th tag, and so on around the list. The starts
    /// before `sum + 32` are enough, as they are for one function, because K is a multiple of the list's length.
    pub fn never_collides(&self, latencies: &[u8], yard: &mut Yard) -> bool {
        let end = sum_of(latencies) + REGISTER_BITS as u32;
        yard.clear();
        let mut start = 0;
        for (&tag, &latency) in self.tags.iter().cycle().zip(latencies.iter().cycle()) {
            if start >= end {
                break;
            }
            let spots = &self.spots[tag as usize - 1];
            if yard.clashes(spots, start) {
                return false;
            }
            yard.lay(spots, start);
            start += latency as u32;
        }
        true
    }
}

/// The states that steps reach from the first one: the position of each, and its arcs.
pub struct Reached {
    pub positions: Vec<usize>,
    pub arcs: Arcs,
}

impl Reached {
    /// From the first state always the least latency: the cycle that this walk comes to, with the state that it begins in.
    fn greedy(&self) -> (usize, Vec<u8>) {
        let mut walked: Vec<usize> = Vec::new();
        let mut latencies: Vec<u8> = Vec::new();
        let mut state = 0;
        loop {
            if let Some(again) = walked.iter().position(|earlier| *earlier == state) {
                return (state, latencies[again..].to_vec());
            }
            walked.push(state);
            let (latency, next) = self.arcs[state][0];
            latencies.push(latency as u8);
            state = next;
        }
    }
}

/// The loops of a list whose states are within the limit.
pub struct Loops {
    pub kernel: Kernel,
    pub reached: Reached,
    least: OnceCell<(i64, i64)>,
}

impl Loops {
    pub fn new(kernel: Kernel, reached: Reached) -> Loops {
        Loops { kernel, reached, least: OnceCell::new() }
    }

    /// The least average of a loop, as a sum and a count. Each cycle of the reached states goes around the list a whole number of times.
    pub fn least(&self) -> (i64, i64) {
        *self.least.get_or_init(|| least_average(&self.reached.arcs))
    }

    pub fn is_least(&self, latencies: &[u8]) -> bool {
        let (least, of) = self.least();
        least * latencies.len() as i64 == sum_of(latencies) as i64 * of
    }

    /// A cycle that begins in this state, turned so that it begins at position 0: "the i-th latency following the i-th tag".
    pub fn turned(&self, begin: usize, mut latencies: Vec<u8>) -> Vec<u8> {
        let count = self.kernel.tags.len();
        latencies.rotate_left((count - self.reached.positions[begin]) % count);
        latencies
    }

    pub fn greedy(&self) -> Vec<u8> {
        let (begin, latencies) = self.reached.greedy();
        self.turned(begin, latencies)
    }

    /// "find K latencies with sum S .. whose repetition never collides, K a multiple, above 0, of the list's length", of the least average,
    /// and "No state occurs twice in a loop".
    pub fn check_best(&self, cycle: &Cycle, yard: &mut Yard) -> Result<(), String> {
        let Cycle { latencies, sum } = cycle;
        if latencies.is_empty() || latencies.len() % self.kernel.tags.len() != 0 {
            return Err(format!("{} latencies for a list of {} tags", latencies.len(), self.kernel.tags.len()));
        }
        if *sum != sum_of(latencies) {
            return Err(format!("the sum is {}", sum_of(latencies)));
        }
        if latencies.iter().any(|latency| !(1..=REGISTER_BITS).contains(&(*latency as usize))) {
            return Err("a latency outside 1 to 32".to_string());
        }
        let states = self.kernel.turn(latencies).ok_or("a start is not granted")?;
        let (last, met) = states.split_last().expect("a state at the end of the turn");
        if last != &met[0] {
            return Err("the loop does not come back to the state that it begins in".to_string());
        }
        if met.iter().collect::<HashSet<_>>().len() < met.len() {
            return Err("a state occurs twice".to_string());
        }
        if !self.kernel.never_collides(latencies, yard) {
            return Err("the loop collides".to_string());
        }
        if !self.is_least(latencies) {
            let (least, of) = self.least();
            return Err(format!("not a best loop: the least average is {least} / {of}"));
        }
        Ok(())
    }
}
