//! The queue's model by itself. Every task that is started is laid out in its segments, time unit by time unit, and what is answered is
//! judged by that alone: no two tasks may be in one segment in one time unit; none is started only where the oldest would have met another
//! task; the oldest comes first; and a task with k ahead starts within (k + 1) × (n + 1) units, whatever arrives after it. It runs before
//! the program is asked anything, and beside every script (`console_watch.rs`).

use crate::model::*;
use crate::model_check::{figure_1, figure_2, unit_of};
use crate::queue::*;
use crate::random::{seed_of, Random};
use crate::{routes, units};
use std::cell::OnceCell;
use std::collections::{HashMap, HashSet};

type Checked = Result<(), String>;

// ---------------------------------------------------------------------------------------------------------------------------------
// Tasks laid out in time

/// Who let a task start.
#[derive(Clone, Copy, PartialEq, Eq, Debug)]
pub enum By {
    Hand,
    Queue,
    Caller(u32),
}

/// A task that was started.
pub struct Laid {
    tag: u32,
    pub start: u32,
    pub by: By,
}

/// A record that was taken. Within so many units it has to start where nothing but arrivals and passing units follows: as many as were
/// left when something else happened last, with so many tasks ahead then.
struct Record {
    task: Task,
    is_started: bool,
    ahead: usize,
    left: u32,
}

/// The issue port as it is seen from outside, since bank and queue were empty.
pub struct Layout {
    unit: Unit,
    /// How many time units have passed.
    pub now: u32,
    tasks: Vec<Laid>,
    /// Which of the tasks is in a segment in a time unit.
    cells: HashMap<(u32, u32), usize>,
    /// In the order of their arrival.
    records: Vec<Record>,
    reach: OnceCell<u32>,
    /// Special cases that were met.
    met: Vec<&'static str>,
}

/// "Let n be the largest column with a 1 in any matrix, or 0": two tasks, of any functions, started so far apart are in one segment at one
/// time where some segment is marked in two columns so far apart.
pub fn reach(unit: &Unit) -> u32 {
    let marked: HashSet<Spot> = unit.marks.iter().map(|mark| (mark.segment, mark.column)).collect();
    let meet = |apart: u32| marked.iter().any(|&(segment, column)| marked.contains(&(segment, column + apart)));
    (1..MOST_COLUMNS).rev().find(|apart| meet(*apart)).unwrap_or(0)
}

impl Layout {
    pub fn new(unit: &Unit) -> Layout {
        let (unit, reach) = (unit.clone(), OnceCell::new());
        Layout { unit, now: 0, tasks: Vec::new(), cells: HashMap::new(), records: Vec::new(), reach, met: Vec::new() }
    }

    /// The special cases that were met since this was asked last.
    pub fn take_met(&mut self) -> Vec<&'static str> {
        std::mem::take(&mut self.met)
    }

    fn met_if(&mut self, holds: bool, what: &'static str) {
        if holds {
            self.met.push(what);
        }
    }

    /// n
    pub fn reach(&self) -> u32 {
        *self.reach.get_or_init(|| reach(&self.unit))
    }

    /// The places of the records that wait.
    fn waiting(&self) -> Vec<usize> {
        (0..self.records.len()).filter(|place| !self.records[*place].is_started).collect()
    }

    pub fn is_tag(&self, tag: u32) -> bool {
        1 <= tag && tag <= self.unit.functions
    }

    /// The tasks that one of this function would meet if it were started so many units from now.
    pub fn met_by(&self, tag: u32, wait: u32) -> Vec<&Laid> {
        let cell = |(segment, column): Spot| self.cells.get(&(segment, self.now + wait + column));
        self.unit.spots(tag).into_iter().filter_map(cell).map(|task| &self.tasks[*task]).collect()
    }

    /// "A task started at time a occupies a segment in time unit a + c for each mark that its function has there in column c."
    fn lay(&mut self, tag: u32, by: By) -> Checked {
        for (segment, column) in self.unit.spots(tag) {
            if self.cells.insert((segment, self.now + column), self.tasks.len()).is_some() {
                return Err(format!("two tasks are in segment {segment} in time unit {}", self.now + column));
            }
        }
        self.tasks.push(Laid { tag, start: self.now, by });
        Ok(())
    }

    /// "a task with k tasks ahead starts within (k + 1) × (n + 1) units"
    fn units_for(&self, ahead: usize) -> u32 {
        (ahead as u32 + 1) * (self.reach() + 1)
    }

    /// Something else than an arrival or a passing unit happened: from now on the units are counted anew.
    fn count_anew(&mut self) {
        for (ahead, place) in self.waiting().into_iter().enumerate() {
            let left = self.units_for(ahead);
            (self.records[place].ahead, self.records[place].left) = (ahead, left);
        }
    }

    pub fn arrive(&mut self, task: Task, reply: Reply<()>) -> Checked {
        let ahead = self.waiting().len();
        let wanted = match ahead {
            _ if !self.is_tag(task.tag) => Err(2),
            32.. => Err(14),
            _ => Ok(()),
        };
        if reply != wanted {
            return Err(format!("{reply:?} for an arrival of {task:?}, where {ahead} wait"));
        }
        if reply.is_ok() {
            let left = self.units_for(ahead);
            self.records.push(Record { task, is_started: false, ahead, left });
        }
        Ok(())
    }

    /// A time unit in which this task was started, or none.
    pub fn pass(&mut self, started: Option<Task>) -> Checked {
        let waiting = self.waiting();
        let oldest = waiting.first().map(|place| self.records[*place].task);
        match (oldest, started) {
            (None, None) => {}
            (Some(oldest), None) => self.held_back(oldest.tag).map_err(|why| format!("{oldest:?}: {why}"))?,
            (Some(oldest), Some(task)) if oldest == task => {
                self.lay(task.tag, By::Queue).map_err(|why| format!("{task:?}: {why}"))?;
                self.records[waiting[0]].is_started = true;
                let Record { ahead, left, .. } = self.records[waiting[0]];
                let is_last = left == 1 && self.reach() > 0;
                self.met_if(is_last && ahead == 0, "pass: a start in the last unit that it may be in, none ahead");
                self.met_if(is_last && ahead > 0, "pass: a start in the last unit that it may be in, some ahead");
                self.met_if(is_last && ahead == 31, "pass: a start in the last unit that it may be in, 31 ahead");
                self.met_if(is_last && ahead == 31 && self.reach() == 31, "pass: a start in unit 1,024");
            }
            _ => return Err(format!("started {started:?}, where the oldest is {oldest:?}")),
        }
        self.now += 1;
        for place in waiting {
            let record = &mut self.records[place];
            record.left -= 1;
            if record.left == 0 && !record.is_started {
                let (task, ahead) = (record.task, record.ahead);
                return Err(format!("{task:?}, {ahead} ahead of it, is not started within {} units", self.units_for(ahead)));
            }
        }
        Ok(())
    }

    /// None was started where the oldest is of this function: it would have met other tasks.
    fn held_back(&mut self, tag: u32) -> Checked {
        let met = self.met_by(tag, 0);
        if met.is_empty() {
            return Err("not started, though it would meet no other task".to_string());
        }
        let cases = [
            (met.iter().all(|task| task.tag == tag), "pass: held back by tasks of its own function alone"),
            (met.iter().all(|task| task.tag != tag), "pass: held back by tasks of other functions alone"),
            (met.iter().all(|task| task.by == By::Hand), "pass: held back by tasks started by hand alone"),
            (met.iter().all(|task| matches!(task.by, By::Caller(_))), "pass: held back by callers' tasks alone"),
            (met.iter().all(|task| self.now - task.start == 31), "pass: held back by a task started 31 units before alone"),
        ];
        self.met.extend(cases.into_iter().filter(|(holds, _)| *holds).map(|(_, what)| what));
        Ok(())
    }

    /// A start by hand.
    pub fn start(&mut self, tag: u32, reply: Reply<()>) -> Checked {
        let wanted = match tag {
            _ if !self.is_tag(tag) => Err(2),
            _ if !self.met_by(tag, 0).is_empty() => Err(10),
            _ => Ok(()),
        };
        if reply != wanted {
            return Err(format!("{reply:?} for a start of function {tag} by hand"));
        }
        let waiting = self.waiting();
        let is_oldest = waiting.first().is_some_and(|place| self.records[*place].task.tag == tag);
        self.met_if(reply.is_ok() && is_oldest, "a start by hand of the function that waits longest");
        self.met_if(reply.is_ok() && !waiting.is_empty() && !is_oldest, "a start by hand of another function than waits longest");
        self.met_if(reply == Err(10) && is_oldest, "a start by hand held back as the oldest is");
        let is_held = reply == Err(10) && self.met_by(tag, 0).iter().all(|task| matches!(task.by, By::Caller(_)));
        self.met_if(is_held, "a start by hand held back by callers' tasks alone");
        if reply.is_ok() {
            self.lay(tag, By::Hand)?;
            self.now += 1;
            self.count_anew();
        }
        Ok(())
    }

    pub fn tick(&mut self) {
        let oldest = self.waiting().first().map(|place| self.records[*place].task.tag);
        self.met_if(oldest.is_some_and(|tag| self.met_by(tag, 0).is_empty()), "a tick where the oldest would be granted");
        self.now += 1;
        self.count_anew();
    }

    /// A time unit of the callers' port, in which this caller's task of this function was started, or none.
    pub fn turn(&mut self, started: Option<(u32, u32)>) -> Checked {
        if let Some((caller, tag)) = started {
            self.lay(tag, By::Caller(caller))?;
        }
        self.now += 1;
        self.count_anew();
        Ok(())
    }

    /// The bank's words: bit i of register Q is 1 where a task of function Q, started i units from now, would meet another.
    pub fn bank(&self, words: &[u32]) -> Checked {
        let bit = |tag: u32, wait: u32| if self.met_by(tag, wait).is_empty() { 0 } else { 2u32.pow(wait) };
        let register = |tag: u32| (0..REGISTER_BITS as u32).map(|wait| bit(tag, wait)).sum();
        let wanted: Vec<u32> = (1..=REGISTERS as u32).map(register).collect();
        if words != wanted {
            return Err(format!("a bank {words:?}, where the tasks would make it {wanted:?}"));
        }
        Ok(())
    }

    /// What is shown of the records that wait.
    pub fn list(&self, text: &str) -> Checked {
        let waiting = self.waiting();
        let mut words = vec!["queue".to_string(), format!("{}:", waiting.len())];
        for place in waiting {
            let Task { tag, ticket } = self.records[place].task;
            words.extend([tag.to_string(), ticket.to_string()]);
        }
        if text != words.join(" ") {
            return Err(format!("{text:?} in place of {:?}", words.join(" ")));
        }
        Ok(())
    }
}

// ---------------------------------------------------------------------------------------------------------------------------------
// Calls, one after the other

#[derive(Clone, Copy, PartialEq, Eq, Debug)]
enum Call {
    Arrive(Task),
    Pass,
    Start(u32),
    Tick,
}

/// For each ticket in which time unit, counted from 1, its task was started.
type Starts = HashMap<u32, u32>;

/// Carries out calls from an empty bank and an empty queue, and holds the answers against the tasks laid out in time. Answers the starts,
/// and the special cases that were met.
fn play(unit: &Unit, calls: &[Call], port: &Port) -> Result<(Starts, Vec<&'static str>), String> {
    let (mut bank, mut queue) = (Bank::of_words(&[0; REGISTERS]), Queue::new());
    let (mut layout, mut starts) = (Layout::new(unit), Starts::new());
    for (place, call) in calls.iter().enumerate() {
        let judged = match *call {
            Call::Arrive(task) => layout.arrive(task, (port.arrive)(unit, &mut queue, task)),
            Call::Pass => {
                let started = (port.pass)(unit, &mut bank, &mut queue);
                let judged = layout.pass(started);
                starts.extend(started.map(|task| (task.ticket, layout.now)));
                judged
            }
            Call::Start(tag) => layout.start(tag, if started(unit, &mut bank, tag) { Ok(()) } else { Err(10) }),
            Call::Tick => {
                bank.tick();
                layout.tick();
                Ok(())
            }
        };
        let judged = judged.and_then(|_| layout.list(&(port.list)(&queue)));
        judged.map_err(|why| format!("call {place} of {calls:?} on {unit:?}\n{why}"))?;
    }
    layout.bank(&bank.words()).map_err(|why| format!("after {calls:?} on {unit:?}\n{why}"))?;
    Ok((starts, layout.take_met()))
}

/// Tasks that arrive, each as its function and the number of units that have passed by then; and the unit in which each starts.
type Example = (&'static [(u32, u32)], &'static [u32]);

/// By hand.
fn examples() -> Vec<(Unit, Example)> {
    vec![
        // the greedy cycle 2 2 7: 1, 5, 6 and 8 are forbidden
        (figure_1(), (&[(1, 0), (1, 0), (1, 0), (1, 0), (1, 0), (1, 0), (1, 0)], &[1, 3, 5, 12, 14, 16, 23])),
        // B comes 1, 3 or 5 after A, and A 3 or 5 after B; A comes 1, 4 or 5 after A
        (figure_2(), (&[(1, 0), (2, 0), (1, 0), (2, 0)], &[1, 2, 5, 6])),
        (figure_2(), (&[(1, 0), (1, 0), (1, 0)], &[1, 2, 6])),
        // the third waits for the second, though it would meet nobody in unit 2
        (figure_2(), (&[(2, 0), (1, 0), (2, 0)], &[1, 4, 5])),
        // in unit 2 none waits; the second is held back in units 3 and 4, and in unit 5 the third waits behind it
        (figure_2(), (&[(1, 0), (1, 2), (1, 4)], &[1, 5, 6])),
        // no marks: n is 0, and each unit starts one
        (unit_of(1, 1, &[&[&[]]]), (&[(1, 0), (1, 0), (1, 0), (1, 5)], &[1, 2, 3, 6])),
        // 1 is forbidden; 1 and 2 are
        (unit_of(1, 2, &[&[&[1, 2]]]), (&[(1, 0), (1, 0), (1, 0)], &[1, 3, 5])),
        (unit_of(1, 3, &[&[&[1, 2, 3]]]), (&[(1, 0), (1, 0), (1, 0)], &[1, 4, 7])),
        // A meets B when it starts 4 after it, and nobody else
        (unit_of(1, 5, &[&[&[1]], &[&[5]]]), (&[(2, 0), (1, 0), (1, 0), (1, 0), (1, 0)], &[1, 2, 3, 4, 6])),
        (unit_of(1, 5, &[&[&[1]], &[&[5]]]), (&[(2, 0), (1, 4)], &[1, 6])),
        // 31 alone is forbidden
        (unit_of(1, 32, &[&[&[1, 32]]]), (&[(1, 0), (1, 31), (1, 31)], &[1, 33, 34])),
    ]
}

fn by_hand() -> Checked {
    for (unit, (arrivals, wanted)) in examples() {
        let mut calls = Vec::new();
        for passed in 0..40 {
            let here = (0..).zip(arrivals).filter(|(_, arrival)| arrival.1 == passed);
            calls.extend(here.map(|(ticket, arrival)| Call::Arrive(Task { tag: arrival.0, ticket })));
            calls.push(Call::Pass);
        }
        let (starts, _) = play(&unit, &calls, &PORT)?;
        let found: Vec<Option<&u32>> = (0..arrivals.len() as u32).map(|ticket| starts.get(&ticket)).collect();
        if found != wanted.iter().map(Some).collect::<Vec<_>>() {
            return Err(format!("{arrivals:?} of {unit:?}\nwanted: {wanted:?}\nfound:  {found:?}"));
        }
    }
    Ok(())
}

/// Every list of so many calls, of some that are possible, on a unit.
fn every_list(unit: &Unit, some: &[Call], count: u32) -> Checked {
    for number in 0..some.len().pow(count) {
        let call = |place: u32| some[number / some.len().pow(place) % some.len()];
        let tickets = (0..count).map(|place| match call(place) {
            Call::Arrive(task) => Call::Arrive(Task { ticket: place, ..task }),
            call => call,
        });
        play(unit, &tickets.collect::<Vec<_>>(), &PORT)?;
    }
    Ok(())
}

/// Every small table: of one function in one segment and of two.
fn every_table() -> Checked {
    let arrive = |tag: u32| Call::Arrive(Task { tag, ticket: 0 });
    let columns = |word: u32, from: u32| (0..3).filter(|bit| word >> (from + bit) & 1 == 1).map(|bit| bit + 1).collect::<Vec<u32>>();
    for word in 0..64 {
        let unit = unit_of(1, 3, &[&[&columns(word, 0)], &[&columns(word, 3)]]);
        every_list(&unit, &[arrive(1), arrive(2), Call::Pass], 6)?;
        every_list(&unit, &[arrive(1), arrive(2), Call::Pass, Call::Start(1), Call::Tick], 4)?;
    }
    Ok(())
}

// ---------------------------------------------------------------------------------------------------------------------------------
// Random calls

/// Tickets that mean something elsewhere.
pub const TICKETS: [u32; 14] = [0, 1, 2, 3, 4, 255, 256, 65_535, 65_536, 65_537, 16_777_216, 2_147_483_647, 2_147_483_648, u32::MAX];

/// Arrivals, up to 32 and beyond, and units that pass. Without tickets of their own two tasks may have the same one.
fn calls(unit: &Unit, has_own_tickets: bool, by_hand: bool, random: &mut Random) -> Vec<Call> {
    let mut calls = Vec::new();
    for _ in 0..random.between(1, 4) {
        for _ in 0..random.pick(&[1, 1, 2, 5, 10, 31, 33, 36]) {
            let good = random.between(1, unit.functions);
            let tag = if random.chance(1, 12) { random.pick(&[0, unit.functions + 1, 256 + good, 65_536 + good, u32::MAX]) } else { good };
            let ticket = if has_own_tickets { calls.len() as u32 } else { random.pick(&TICKETS) };
            calls.push(Call::Arrive(Task { tag, ticket }));
            if random.chance(1, 10) {
                calls.push(Call::Pass);
            }
        }
        for _ in 0..random.pick(&[1, 3, 10, 40, 80]) {
            let tag = random.between(1, unit.functions);
            calls.push(match random.below(24) {
                0 | 1 if by_hand => Call::Start(tag),
                2 if by_hand => Call::Tick,
                _ => Call::Pass,
            });
        }
    }
    calls
}

pub fn random_unit(random: &mut Random) -> Unit {
    match random.below(4) {
        0 => units::unit(random),
        1 => figure_2(),
        _ => routes::unit(random),
    }
}

/// Random calls on a port, some of them by hand, held against the tasks laid out in time. A port with a fault is to be told by this.
pub fn judged(port: &Port) -> Checked {
    let random = &mut Random::new(seed_of(17, 0));
    for _ in 0..300 {
        let unit = random_unit(random);
        let calls = calls(&unit, false, true, random);
        play(&unit, &calls, port)?;
    }
    Ok(())
}

/// "later arrivals can't alter its start": without the arrivals after it, each record starts in the same unit, or in none as before.
fn left_out(unit: &Unit, random: &mut Random) -> Checked {
    let calls = calls(unit, true, random.chance(1, 2), random);
    let (starts, _) = play(unit, &calls, &PORT)?;
    for _ in 0..4 {
        let place = random.below(calls.len() as u64) as usize;
        let is_kept = |(other, call): &(usize, &Call)| *other <= place || !matches!(call, Call::Arrive(_));
        let fewer: Vec<Call> = calls.iter().enumerate().filter(is_kept).map(|(_, call)| *call).collect();
        let (others, _) = play(unit, &fewer, &PORT)?;
        // a record's ticket is its place
        if let Some(ticket) = (0..=place as u32).find(|ticket| starts.get(ticket) != others.get(ticket)) {
            let told = format!("{:?} and {:?}", starts.get(&ticket), others.get(&ticket));
            return Err(format!("ticket {ticket} of {calls:?} on {unit:?} starts in {told}, with arrivals after call {place} and without"));
        }
    }
    Ok(())
}

/// As many tasks of one function as can wait, on an empty bank: they start as the greedy walk does, "always the least latency".
fn greedy_walk(unit: &Unit, tag: u32, yard: &mut Yard) -> Checked {
    let Some(diagram) = diagram(&collision_vector(&unit.spots(tag), yard), MOST_STATES) else { return Ok(()) };
    let mut calls: Vec<Call> = (0..32).map(|ticket| Call::Arrive(Task { tag, ticket })).collect();
    calls.resize(32 + 32 * 32, Call::Pass);
    let (starts, _) = play(unit, &calls, &PORT)?;
    let (mut state, mut unit_of_start) = (0, 1);
    for ticket in 0..32 {
        if starts.get(&ticket) != Some(&unit_of_start) {
            return Err(format!("task {ticket} of function {tag} of {unit:?} is not started in unit {unit_of_start}"));
        }
        let (latency, next) = diagram.arcs[state][0];
        (state, unit_of_start) = (next, unit_of_start + latency);
    }
    Ok(())
}

/// n is one less than the least latency after which nothing of any function can collide.
fn reaches(unit: &Unit) -> Checked {
    let last = |row: &Vec<bool>| row.iter().rposition(|collides| *collides).map_or(0, |place| place as u32 + 1);
    let largest = (1..=unit.functions).flat_map(|tag| rows(unit, tag)).map(|row| last(&row)).max().unwrap_or(0);
    if reach(unit) != largest {
        return Err(format!("n of {unit:?} is {} and {largest}", reach(unit)));
    }
    Ok(())
}

/// Everything above.
pub fn run() -> Checked {
    by_hand()?;
    every_table()?;
    judged(&PORT)?;
    let (random, yard) = (&mut Random::new(seed_of(17, 1)), &mut Yard::new());
    for _ in 0..120 {
        let unit = random_unit(random);
        reaches(&unit)?;
        left_out(&unit, random)?;
    }
    for _ in 0..12 {
        let unit = random_unit(random);
        let tag = random.between(1, unit.functions);
        greedy_walk(&unit, tag, yard)?;
    }
    // 32 tasks behind a start, each of which has to wait as long as can be
    let full: Vec<u32> = (1..=32).collect();
    let mut calls = vec![Call::Start(1)];
    calls.extend((0..32).map(|ticket| Call::Arrive(Task { tag: 1, ticket })));
    calls.resize(33 + 1_024, Call::Pass);
    let (starts, met) = play(&unit_of(1, 32, &[&[&full]]), &calls, &PORT)?;
    if starts.get(&31) != Some(&1_025) || !met.contains(&"pass: a start in unit 1,024") {
        return Err(format!("the last of 32 tasks starts in {:?}", starts.get(&31)));
    }
    Ok(())
}
