//! The callers' model by itself. Every task that is started is laid out in its segments, time unit by time unit, beside those of the queue
//! and those started by hand, and what is answered is judged by that and by when each task came: no two tasks may be in one segment in one
//! time unit; none is started only where the one that is due would have met another task; each caller's oldest comes first, and it starts
//! within C × (n + 1) units of becoming that; and while two callers wait, neither starts twice without the other between. It runs before
//! the program is asked anything, and beside every script (`console_watch.rs`).

use crate::callers::*;
use crate::model::*;
use crate::model_check::{figure_1, figure_2, unit_of};
use crate::queue::{self, Queue, Task};
use crate::queue_check::{random_unit, By, Layout, TICKETS};
use crate::random::{seed_of, Random};

type Checked = Result<(), String>;

// ---------------------------------------------------------------------------------------------------------------------------------
// What has happened at the shared port

/// A record that waits.
struct Record {
    caller: u32,
    task: Task,
    /// The moment at which it came.
    came: usize,
    /// Where it is its caller's oldest: within so many units it has to start if nothing but calls and time units of this port follows.
    left: u32,
}

/// The shared port as it is seen from outside, since C was said or the queues were emptied. Each accepted call and each time unit is a
/// moment of its own.
#[derive(Default)]
pub struct Sharing {
    /// C, and 0 before it was said.
    count: u32,
    moments: usize,
    /// In the order of their arrival.
    records: Vec<Record>,
    /// The moments of the time units.
    units: Vec<usize>,
    /// The starts: a moment and a caller each.
    starts: Vec<(usize, u32)>,
    /// Special cases that were met.
    met: Vec<&'static str>,
}

/// Who may start, and the moment at which that was settled: the first time unit or the end of a start since which it could not change.
struct Due {
    caller: u32,
    settled: usize,
}

impl Sharing {
    /// The special cases that were met since this was asked last.
    pub fn take_met(&mut self) -> Vec<&'static str> {
        std::mem::take(&mut self.met)
    }

    fn met_if(&mut self, holds: bool, what: &'static str) {
        if holds {
            self.met.push(what);
        }
    }

    /// The places of a caller's records, oldest first.
    fn records_of(&self, caller: u32) -> Vec<usize> {
        (0..self.records.len()).filter(|place| self.records[*place].caller == caller).collect()
    }

    fn oldest(&self, caller: u32) -> Option<usize> {
        self.records_of(caller).first().copied()
    }

    /// Whether a record of this caller came before this moment and still waits: where it has started none since, it had work all along.
    fn had_work(&self, caller: u32, moment: usize) -> bool {
        self.records.iter().any(|record| record.caller == caller && record.came < moment)
    }

    /// Nothing is handed on from unit to unit here. At the end of a start the next one with work is due, the starter last. Where nobody has
    /// work then, or nobody has started, it is settled in the first time unit in which anybody has: for the last starter, or caller 1, or
    /// the next one with work.
    fn due(&self) -> Option<Due> {
        let round = |first: u32| (first..=self.count).chain(1..first);
        let (start, last) = self.starts.last().copied().unwrap_or((0, 1));
        let settle = |mut order: Box<dyn Iterator<Item = u32> + '_>, moment: usize| {
            order.find(|caller| self.had_work(*caller, moment)).map(|caller| Due { caller, settled: moment })
        };
        let at_start = (!self.starts.is_empty()).then(|| settle(Box::new(round(last).skip(1).chain([last])), start + 1)).flatten();
        at_start.or_else(|| self.units.iter().filter(|unit| **unit > start).find_map(|unit| settle(Box::new(round(last)), *unit)))
    }

    /// "each caller's task starts within C × (n + 1) units"
    fn units_for(&self, layout: &Layout) -> u32 {
        self.count * (layout.reach() + 1)
    }

    /// Time has passed elsewhere than at this port: from now on its units are counted anew.
    pub fn count_anew(&mut self, layout: &Layout) {
        for place in (1..=self.count).filter_map(|caller| self.oldest(caller)).collect::<Vec<_>>() {
            self.records[place].left = self.units_for(layout);
        }
    }

    /// The queues were emptied: nobody waits, and it is as if nobody had started. There are as many callers as before.
    pub fn empty(&mut self) {
        *self = Sharing { count: self.count, ..Sharing::default() };
    }

    pub fn count(&mut self, count: u32, reply: Reply<()>) -> Checked {
        let wanted = if [1, 2, 3, 4].contains(&count) { Ok(()) } else { Err(18) };
        if reply != wanted {
            return Err(format!("{reply:?} for {count} callers"));
        }
        if reply.is_ok() {
            *self = Sharing { count, ..Sharing::default() };
        }
        Ok(())
    }

    pub fn call(&mut self, layout: &Layout, caller: u32, task: Task, reply: Reply<()>) -> Checked {
        let ahead = self.records_of(caller).len();
        let wanted = match ahead {
            _ if caller == 0 || caller > self.count => Err(18),
            _ if !layout.is_tag(task.tag) => Err(2),
            8.. => Err(14),
            _ => Ok(()),
        };
        if reply != wanted {
            return Err(format!("{reply:?} for {task:?} of caller {caller} of {}, {ahead} of whose tasks wait", self.count));
        }
        if reply.is_ok() {
            self.moments += 1;
            self.records.push(Record { caller, task, came: self.moments, left: self.units_for(layout) });
        }
        Ok(())
    }

    /// A time unit in which this caller's task was started, or none.
    pub fn turn(&mut self, layout: &mut Layout, reply: Reply<Option<(u32, Task)>>) -> Checked {
        if self.count == 0 {
            return if reply == Err(18) { Ok(()) } else { Err(format!("{reply:?} for a time unit without callers")) };
        }
        let started = reply.map_err(|number| format!("a time unit is refused by {number}"))?;
        self.moments += 1;
        self.units.push(self.moments);
        if let Some((caller, task)) = started {
            self.is_oldest(caller, task)?;
            self.takes_turns(caller)?;
        }
        let due = self.due().map(|due| (self.oldest(due.caller).expect("a record of the one who is due"), due));
        let named = due.as_ref().map(|(place, due)| (due.caller, self.records[*place].task));
        match (named, started) {
            (None, None) => {}
            (Some((caller, task)), None) => self.held_back(layout, caller, task.tag)?,
            (Some(_), Some(_)) if named == started => {}
            _ => return Err(format!("started {started:?}, where {named:?} is due")),
        }
        layout.turn(started.map(|(caller, task)| (caller, task.tag))).map_err(|why| format!("{started:?}: {why}"))?;
        if let (Some(_), Some((place, due))) = (started, due) {
            self.meet_start(layout, place, due);
            self.starts.push((self.moments, self.records[place].caller));
            let Record { caller, .. } = self.records.remove(place);
            if let Some(next) = self.oldest(caller) {
                // it is the oldest from the next unit on
                self.records[next].left = self.units_for(layout) + 1;
            }
        }
        for place in (1..=self.count).filter_map(|caller| self.oldest(caller)).collect::<Vec<_>>() {
            let record = &mut self.records[place];
            record.left -= 1;
            if record.left == 0 {
                let (task, caller) = (record.task, record.caller);
                return Err(format!("{task:?}, the oldest of caller {caller}, is not started within {} units", self.units_for(layout)));
            }
        }
        Ok(())
    }

    /// A caller's tasks start in the order of their arrival.
    fn is_oldest(&self, caller: u32, task: Task) -> Checked {
        let oldest = self.oldest(caller).map(|place| self.records[place].task);
        if oldest != Some(task) {
            return Err(format!("started {task:?} of caller {caller}, whose oldest is {oldest:?}"));
        }
        Ok(())
    }

    /// "while two callers both wait, neither starts twice without the other starting between"
    fn takes_turns(&self, caller: u32) -> Checked {
        let last = |caller: u32| self.starts.iter().rev().find(|start| start.1 == caller).map(|start| start.0);
        let Some(before) = last(caller) else { return Ok(()) };
        // work since before that start, and no start since then
        let waits = |other: &u32| self.had_work(*other, before) && last(*other).is_none_or(|start| start < before);
        match (1..=self.count).filter(|other| *other != caller).find(waits) {
            Some(other) => Err(format!("caller {caller} starts twice, while caller {other} waits")),
            None => Ok(()),
        }
    }

    /// None was started where a task of this function is due: it would have met other tasks.
    fn held_back(&mut self, layout: &Layout, caller: u32, tag: u32) -> Checked {
        let met = layout.met_by(tag, 0);
        if met.is_empty() {
            return Err(format!("the oldest of caller {caller} is not started, though it is due and would meet no other task"));
        }
        let all = |is: &dyn Fn(By) -> bool| met.iter().all(|task| is(task.by));
        let cases = [
            (all(&|by| by == By::Caller(caller)), "turn: held back by tasks of its own caller alone"),
            (all(&|by| by != By::Caller(caller) && matches!(by, By::Caller(_))), "turn: held back by tasks of other callers alone"),
            (all(&|by| by == By::Queue), "turn: held back by the queue's tasks alone"),
            (all(&|by| by == By::Hand), "turn: held back by tasks started by hand alone"),
            (met.iter().all(|task| layout.now - task.start == 31), "turn: held back by a task started 31 units before alone"),
        ];
        self.met.extend(cases.into_iter().filter(|(holds, _)| *holds).map(|(_, what)| what));
        Ok(())
    }

    /// The record at this place is started.
    fn meet_start(&mut self, layout: &Layout, place: usize, due: Due) {
        let Record { caller, came, left, .. } = self.records[place];
        let others: Vec<(u32, usize)> = self.records.iter().filter(|other| other.caller != caller).map(|it| (it.caller, it.came)).collect();
        let (start, last) = self.starts.last().copied().unwrap_or((0, 1));
        let came_between = others.iter().any(|other| other.1 > start);
        let came_before = others.iter().any(|other| start < other.1 && other.1 < came);
        let is_last = left == 1 && layout.reach() > 0;
        let again = caller == last && start > 0;
        let cases = [
            (others.iter().any(|other| other.1 < came), "turn: a start, though another caller's task waits longer"),
            (again && came < start && came_between, "turn: a second start of a caller, though another came between"),
            (again && came > start && came_before, "turn: a second start of a caller, though another came before it when nobody waited"),
            (
                due.settled < self.moments && due.settled > start + 1 && caller != last && others.iter().any(|other| other.0 == last),
                "turn: a start of the one to whom the turn was handed, with work by now where it came from",
            ),
            (is_last && self.count == 1, "turn: a start in the last unit that it may be in, of one caller"),
            (is_last && self.count == 2, "turn: a start in the last unit that it may be in, of two callers"),
            (is_last && self.count == 4, "turn: a start in the last unit that it may be in, of four callers"),
            (is_last && self.count == 4 && layout.reach() == 31, "turn: a start in unit 128"),
        ];
        cases.into_iter().for_each(|(holds, what)| self.met_if(holds, what));
    }
}

// ---------------------------------------------------------------------------------------------------------------------------------
// Events, one after the other

#[derive(Clone, Copy, PartialEq, Eq, Debug)]
enum Event {
    Count(u32),
    Call(u32, Task),
    Turn,
    Arrive(Task),
    Pass,
    Start(u32),
    Tick,
    /// An edit that leaves the table as it is.
    Empty,
}

/// The tasks that callers had started: the time unit, counted from 1, the caller and the ticket.
type Starts = Vec<(u32, u32, u32)>;

/// Carries out events from an empty port without callers, and holds the answers against the tasks laid out in time. Answers the callers'
/// starts, and the special cases that were met.
fn play(unit: &Unit, events: &[Event], shared: &Shared) -> Result<(Starts, Vec<&'static str>), String> {
    let empty_bank = || Bank::of_words(&[0; REGISTERS]);
    let (mut bank, mut queue, mut callers) = (empty_bank(), Queue::new(), Callers::new());
    let (mut layout, mut sharing, mut starts) = (Layout::new(unit), Sharing::default(), Starts::new());
    for (place, event) in events.iter().enumerate() {
        let now = layout.now;
        let judged = match *event {
            Event::Count(count) => sharing.count(count, (shared.count)(&mut callers, count)),
            Event::Call(caller, task) => sharing.call(&layout, caller, task, (shared.call)(unit, &mut callers, caller, task)),
            Event::Turn => {
                let reply = (shared.turn)(unit, &mut bank, &mut callers);
                let judged = sharing.turn(&mut layout, reply);
                starts.extend(reply.ok().flatten().map(|(caller, task)| (layout.now, caller, task.ticket)));
                judged
            }
            Event::Arrive(task) => layout.arrive(task, queue::arrive(unit, &mut queue, task)),
            Event::Pass => layout.pass(queue::pass(unit, &mut bank, &mut queue)),
            Event::Start(tag) => layout.start(tag, if queue::started(unit, &mut bank, tag) { Ok(()) } else { Err(10) }),
            Event::Tick => {
                bank.tick();
                layout.tick();
                Ok(())
            }
            Event::Empty => {
                (bank, layout) = (empty_bank(), Layout::new(unit));
                queue.clear();
                callers.empty();
                sharing.empty();
                Ok(())
            }
        };
        if *event != Event::Turn && layout.now != now {
            sharing.count_anew(&layout);
        }
        let judged = judged.and_then(|_| layout.list(&queue::list(&queue)));
        judged.map_err(|why| format!("event {place} of {events:?} on {unit:?}\n{why}"))?;
    }
    layout.bank(&bank.words()).map_err(|why| format!("after {events:?} on {unit:?}\n{why}"))?;
    Ok((starts, sharing.take_met()))
}

/// So many callers; tasks that come, each as its caller, its function and the number of units that have passed by then; and the unit in
/// which each starts.
type Example = (u32, &'static [(u32, u32, u32)], &'static [u32]);

/// By hand.
fn examples() -> Vec<(Unit, Example)> {
    let no_marks = || unit_of(1, 1, &[&[&[]]]);
    let burst = &[(1, 1, 0), (1, 1, 0), (1, 1, 0), (1, 1, 0), (1, 1, 0), (1, 1, 0), (1, 1, 0), (1, 1, 0), (2, 1, 0), (3, 1, 0), (4, 1, 0)];
    // 1 is forbidden
    let every_second = || unit_of(1, 2, &[&[&[1, 2]]]);
    vec![
        // without marks each unit starts one: caller 1, 2, 3, 1, and then 3
        (no_marks(), (3, &[(1, 1, 0), (1, 1, 0), (2, 1, 0), (3, 1, 0), (3, 1, 0)], &[1, 4, 2, 3, 5])),
        // a burst of 8 keeps nobody else waiting
        (no_marks(), (4, burst, &[1, 5, 6, 7, 8, 9, 10, 11, 2, 3, 4])),
        (every_second(), (4, burst, &[1, 9, 11, 13, 15, 17, 19, 21, 3, 5, 7])),
        // the first turn goes from caller 1 to caller 2, and then it goes between 2 and 4
        (no_marks(), (4, &[(4, 1, 0), (2, 1, 0), (4, 1, 0), (2, 1, 0)], &[2, 1, 4, 3])),
        (every_second(), (2, &[(1, 1, 0), (2, 1, 0), (1, 1, 0), (2, 1, 0)], &[1, 3, 5, 7])),
        // in unit 2 the turn goes from caller 1 to caller 3, who is held back and keeps it; then 1 comes before 2
        (every_second(), (3, &[(1, 1, 0), (3, 1, 1), (2, 1, 2), (1, 1, 2)], &[1, 3, 7, 5])),
        // after the last start nobody waits, and the turn stays with caller 1
        (no_marks(), (2, &[(1, 1, 0), (2, 1, 1), (1, 1, 1)], &[1, 3, 2])),
        // after the first start caller 1 alone has work, and caller 2 comes too late for the next one
        (no_marks(), (2, &[(1, 1, 0), (1, 1, 0), (2, 1, 1)], &[1, 2, 3])),
        // the turn of caller 2, who alone waits, goes on from caller 3 to caller 1
        (no_marks(), (3, &[(2, 1, 0), (1, 1, 1), (3, 1, 1), (2, 1, 1)], &[1, 4, 3, 2])),
        // B comes 1, 3 or 5 after A, A 3 or 5 after B, and each 1, 4 or 5 after its own: A B A B, though the first caller's two come first
        (figure_2(), (2, &[(1, 1, 0), (1, 1, 0), (2, 2, 0), (2, 2, 0)], &[1, 5, 2, 6])),
        // in unit 2 caller 3's B would meet nobody, but it is the turn of caller 2
        (figure_2(), (3, &[(1, 2, 0), (2, 1, 0), (3, 2, 0)], &[1, 4, 5])),
        // one caller alone: the greedy cycle 2 2 7
        (figure_1(), (1, &[(1, 1, 0), (1, 1, 0), (1, 1, 0), (1, 1, 0), (1, 1, 0), (1, 1, 0), (1, 1, 0)], &[1, 3, 5, 12, 14, 16, 23])),
        // three callers: the same starts, in turn
        (figure_1(), (3, &[(3, 1, 0), (3, 1, 0), (3, 1, 0), (2, 1, 0), (2, 1, 0), (1, 1, 0), (1, 1, 0)], &[5, 16, 23, 3, 14, 1, 12])),
    ]
}

fn by_hand() -> Checked {
    for (unit, (count, arrivals, wanted)) in examples() {
        let mut events = vec![Event::Count(count)];
        for passed in 0..40 {
            let here = (0..).zip(arrivals).filter(|(_, arrival)| arrival.2 == passed);
            events.extend(here.map(|(ticket, arrival)| Event::Call(arrival.0, Task { tag: arrival.1, ticket })));
            events.push(Event::Turn);
        }
        let (starts, _) = play(&unit, &events, &SHARED)?;
        let start_of = |ticket: u32| starts.iter().find(|start| start.2 == ticket).map(|start| start.0);
        let found: Vec<Option<u32>> = (0..arrivals.len() as u32).map(start_of).collect();
        if found != wanted.iter().copied().map(Some).collect::<Vec<_>>() {
            return Err(format!("{arrivals:?} of {count} callers on {unit:?}\nwanted: {wanted:?}\nfound:  {found:?}"));
        }
    }
    Ok(())
}

/// Every list of so many events, of some that are possible, after C was said.
fn every_list(unit: &Unit, callers: u32, some: &[Event], count: u32) -> Checked {
    for number in 0..some.len().pow(count) {
        let event = |place: u32| some[number / some.len().pow(place) % some.len()];
        let tickets = (0..count).map(|place| match event(place) {
            Event::Call(caller, task) => Event::Call(caller, Task { ticket: place, ..task }),
            event => event,
        });
        play(unit, &[Event::Count(callers)].into_iter().chain(tickets).collect::<Vec<_>>(), &SHARED)?;
    }
    Ok(())
}

/// Every small table of two functions in one segment, for two callers and for three; and more events without marks.
fn every_table() -> Checked {
    let call = |caller: u32, tag: u32| Event::Call(caller, Task { tag, ticket: 0 });
    let columns = |word: u32, from: u32| (0..3).filter(|bit| word >> (from + bit) & 1 == 1).map(|bit| bit + 1).collect::<Vec<u32>>();
    for word in 0..64 {
        let unit = unit_of(1, 3, &[&[&columns(word, 0)], &[&columns(word, 3)]]);
        every_list(&unit, 2, &[call(1, 1), call(2, 2), Event::Turn], 6)?;
        every_list(&unit, 3, &[call(1, 2), call(2, 1), call(3, 1), Event::Turn], 5)?;
        every_list(&unit, 2, &[call(1, 1), call(2, 1), Event::Turn, Event::Start(2), Event::Tick, Event::Pass, Event::Empty], 4)?;
    }
    let unit = unit_of(1, 1, &[&[&[]]]);
    every_list(&unit, 3, &[call(1, 1), call(2, 1), call(3, 1), Event::Turn], 8)?;
    every_list(&unit, 4, &[call(1, 1), call(2, 1), call(3, 1), call(4, 1), Event::Turn], 6)
}

// ---------------------------------------------------------------------------------------------------------------------------------
// Random events

/// Calls of so many callers, here and there or many of one, and time units. Each ticket is its event's place.
fn calls(unit: &Unit, callers: u32, random: &mut Random) -> Vec<Event> {
    let mut events = Vec::new();
    for _ in 0..random.between(1, 5) {
        let one = random.chance(1, 3).then(|| random.between(1, callers));
        for _ in 0..random.pick(&[1, 1, 2, 5, 8, 9, 14, 34]) {
            let caller = one.unwrap_or_else(|| random.between(1, callers));
            events.push(Event::Call(caller, Task { tag: random.between(1, unit.functions), ticket: events.len() as u32 }));
            if random.chance(1, 6) {
                events.push(Event::Turn);
            }
        }
        for _ in 0..random.pick(&[1, 3, 10, 40]) {
            let call = random.chance(1, 4);
            let caller = random.between(1, callers);
            let task = Task { tag: random.between(1, unit.functions), ticket: events.len() as u32 };
            events.push(if call { Event::Call(caller, task) } else { Event::Turn });
        }
    }
    events
}

/// The same beside everything else that may happen, good and bad.
fn any_events(unit: &Unit, random: &mut Random) -> Vec<Event> {
    let mut events = Vec::new();
    // before there are callers
    for _ in 0..random.between(0, 6) {
        let task = Task { tag: random.between(0, unit.functions + 1), ticket: 7 };
        let call = Event::Call(random.between(0, MOST_CALLERS + 1), task);
        let start = Event::Start(random.between(1, unit.functions));
        events.push(random.pick(&[Event::Turn, Event::Turn, call, start, Event::Count(0), Event::Count(5), Event::Tick]));
    }
    for _ in 0..random.between(1, 3) {
        let callers = random.between(1, MOST_CALLERS);
        events.push(Event::Count(callers));
        for event in calls(unit, callers, random) {
            let (function, caller) = (random.between(1, unit.functions), random.between(1, callers));
            // mostly as it is, but for its ticket
            let task = Task { tag: function, ticket: random.pick(&TICKETS) };
            let other = match event {
                Event::Call(caller, task) if random.chance(2, 3) => Event::Call(caller, Task { ticket: random.pick(&TICKETS), ..task }),
                event => event,
            };
            let strange = random.pick(&[0, unit.functions + 1, 256 + function, 65_536 + function, u32::MAX]);
            events.push(match random.below(80) {
                0 => Event::Start(function),
                1 => Event::Tick,
                2 => Event::Arrive(task),
                3 => Event::Pass,
                4 | 5 => Event::Call(random.pick(&[0, callers + 1, 5, 256 + caller, 65_536 + caller, u32::MAX]), task),
                6 => Event::Call(random.pick(&[0, callers + 1]), Task { tag: strange, ..task }),
                7 | 8 => Event::Call(caller, Task { tag: strange, ..task }),
                9 => Event::Count(random.pick(&[0, 5, 6, 255, 256, 256 + caller, 65_536 + caller, u32::MAX])),
                10 if random.chance(1, 3) => Event::Empty,
                11 if random.chance(1, 3) => Event::Count(callers),
                _ => other,
            });
        }
    }
    events
}

/// Random events at a shared port, held against the tasks laid out in time. A port with a fault is to be told by this.
pub fn judged(shared: &Shared) -> Checked {
    let random = &mut Random::new(seed_of(18, 0));
    for _ in 0..500 {
        let unit = if random.chance(1, 6) { unit_of(1, 1, &[&[&[]], &[&[]], &[&[]], &[&[]]]) } else { random_unit(random) };
        let events = any_events(&unit, random);
        play(&unit, &events, shared)?;
    }
    Ok(())
}

fn starts_of(unit: &Unit, callers: u32, events: &[Event]) -> Result<Starts, String> {
    let all: Vec<Event> = [Event::Count(callers)].iter().chain(events).copied().collect();
    play(unit, &all, &SHARED).map(|(starts, _)| starts)
}

/// One caller alone has what the queue at the issue port is, with 8 for 32.
fn as_one_queue(unit: &Unit, random: &mut Random) -> Checked {
    let events = calls(unit, 1, random);
    let starts = starts_of(unit, 1, &events)?;
    let (mut bank, mut queue, mut now, mut others) = (Bank::of_words(&[0; REGISTERS]), Queue::new(), 0, Starts::new());
    for event in &events {
        match event {
            Event::Call(_, task) if queue.len() < 8 => queue::arrive(unit, &mut queue, *task).expect("a task that has room"),
            Event::Turn => {
                now += 1;
                others.extend(queue::pass(unit, &mut bank, &mut queue).map(|task| (now, 1, task.ticket)));
            }
            _ => {}
        }
    }
    if starts != others {
        return Err(format!("one caller alone, {events:?} on {unit:?}\nfound:     {starts:?}\nthe queue: {others:?}"));
    }
    Ok(())
}

/// Callers who never call alter nothing.
fn silent_callers(unit: &Unit, random: &mut Random) -> Checked {
    let callers = random.between(1, 3);
    let events = calls(unit, callers, random);
    let (starts, others) = (starts_of(unit, callers, &events)?, starts_of(unit, MOST_CALLERS, &events)?);
    if starts != others {
        return Err(format!("{events:?} on {unit:?}\nof {callers} callers:    {starts:?}\nof {MOST_CALLERS} callers: {others:?}"));
    }
    Ok(())
}

/// A caller's record starts in the same unit without what comes after it at its own queue.
fn own_later(unit: &Unit, random: &mut Random) -> Checked {
    let callers = random.between(1, MOST_CALLERS);
    let events = calls(unit, callers, random);
    let starts = starts_of(unit, callers, &events)?;
    for _ in 0..4 {
        let place = random.below(events.len() as u64) as usize;
        let Event::Call(caller, Task { ticket, .. }) = events[place] else { continue };
        let is_left_out = |(later, event): &(usize, &Event)| *later > place && matches!(event, Event::Call(own, _) if *own == caller);
        let fewer: Vec<Event> = events.iter().enumerate().filter(|it| !is_left_out(it)).map(|(_, event)| *event).collect();
        let others = starts_of(unit, callers, &fewer)?;
        let start = |starts: &Starts| starts.iter().find(|start| start.2 == ticket).copied();
        if start(&starts) != start(&others) {
            let told = format!("{:?} and {:?}", start(&starts), start(&others));
            return Err(format!("{told} for ticket {ticket} of {events:?} on {unit:?}, with its caller's later calls and without"));
        }
    }
    Ok(())
}

/// Caller 1 always has 8 tasks, and each of the others calls once: it starts within C × (n + 1) units all the same, n being the largest
/// distance at which two tasks meet, found by trying every two functions at every distance.
fn burst(unit: &Unit, callers: u32, random: &mut Random) -> Checked {
    let yard = &mut Yard::new();
    let mut meet = |apart: u32| {
        let pairs = (1..=unit.functions).flat_map(|one| (1..=unit.functions).map(move |other| (one, other)));
        pairs.into_iter().any(|(one, other)| meetings(&unit.spots(one), &unit.spots(other), yard)[apart as usize - 1])
    };
    let within = callers * ((1..=REGISTER_BITS as u32).rev().find(|apart| meet(*apart)).unwrap_or(0) + 1);
    let long = random.between(1, unit.functions);
    let begins: Vec<u32> = (2..=callers).map(|_| random.between(0, 20)).collect();
    let mut events = Vec::new();
    for unit_number in 0..20 + within + 1 {
        // what has no room is refused
        events.extend([Event::Call(1, Task { tag: long, ticket: 0 }); 9]);
        for (caller, begin) in (2..).zip(&begins) {
            if *begin == unit_number {
                events.push(Event::Call(caller, Task { tag: random.between(1, unit.functions), ticket: caller }));
            }
        }
        events.push(Event::Turn);
    }
    let starts = starts_of(unit, callers, &events)?;
    for (caller, begin) in (2..).zip(&begins) {
        match starts.iter().find(|start| start.1 == caller) {
            Some(start) if start.0 <= begin + within => {}
            start => return Err(format!("caller {caller} comes after unit {begin} and starts in {start:?}: {events:?} on {unit:?}")),
        }
    }
    Ok(())
}

/// Four callers whose tasks fill the unit: each waits as long as can be, the last of them 128 units after the one before it.
fn longest_turns() -> Checked {
    let full: Vec<u32> = (1..=32).collect();
    let mut events = vec![Event::Count(4)];
    events.extend((0..12).map(|ticket| Event::Call(ticket % 4 + 1, Task { tag: 1, ticket })));
    events.resize(1 + 12 + 12 * 32, Event::Turn);
    let (starts, met) = play(&unit_of(1, 32, &[&[&full]]), &events, &SHARED)?;
    let wanted: Starts = (0..12).map(|ticket| (1 + 32 * ticket, ticket % 4 + 1, ticket)).collect();
    if starts != wanted || !met.contains(&"turn: a start in unit 128") {
        return Err(format!("four callers on a full unit start in {starts:?}"));
    }
    Ok(())
}

/// Everything above.
pub fn run() -> Checked {
    by_hand()?;
    every_table()?;
    judged(&SHARED)?;
    let random = &mut Random::new(seed_of(18, 1));
    for _ in 0..100 {
        let unit = random_unit(random);
        as_one_queue(&unit, random)?;
        silent_callers(&unit, random)?;
        own_later(&unit, random)?;
        let callers = random.between(2, MOST_CALLERS);
        burst(&unit, callers, random)?;
    }
    longest_turns()
}
