//! Callers in turn at a shared issue port: a queue for each, whose turn it is, and one time unit of the port. Sentences in quotation marks
//! are the request's.
//!
//! The turn is handed from unit to unit here, and whether a start is granted is said by the model's bank. `callers_check.rs` lays the tasks
//! out in time, without a bank, works out who is due from when each task came, without a turn that is handed on, and compares.

use crate::model::*;
use crate::queue::{started, Queue, Task, NO_PLACE};

/// "Up to 4 callers (C, fixed at the start, numbered from 1)"
pub const MOST_CALLERS: u32 = 4;
/// "each get a queue of 8"
pub const CALLER_ROOM: usize = 8;
/// "18 is new: C outside 1 to 4, no such caller, or a turn that names none"
pub const NO_CALLER: u32 = 18;

/// The shared port between calls.
#[derive(Clone, PartialEq, Eq, Debug)]
pub struct Callers {
    /// C, and 0 before there are callers.
    pub count: u32,
    /// The caller whose turn it is.
    pub turn: u32,
    /// The tasks of each caller that there can be, oldest first. "Queues beyond C are neither read nor changed."
    pub queues: [Queue; MOST_CALLERS as usize],
}

pub type Count = fn(&mut Callers, u32) -> Reply<()>;
pub type Call = fn(&Unit, &mut Callers, u32, Task) -> Reply<()>;
/// One time unit, with the task that it starts and the caller whose it is.
pub type Turn = fn(&Unit, &mut Bank, &mut Callers) -> Reply<Option<(u32, Task)>>;

/// How each of the calls is carried out.
#[derive(Clone, Copy)]
pub struct Shared {
    pub count: Count,
    pub call: Call,
    pub turn: Turn,
}

pub const SHARED: Shared = Shared { count, call, turn };

impl Callers {
    pub fn new() -> Callers {
        Callers { count: 0, turn: 1, queues: Default::default() }
    }

    pub fn is_caller(&self, caller: u32) -> bool {
        1 <= caller && caller <= self.count
    }

    pub fn queue(&self, caller: u32) -> &Queue {
        &self.queues[caller as usize - 1]
    }

    pub fn queue_mut(&mut self, caller: u32) -> &mut Queue {
        &mut self.queues[caller as usize - 1]
    }

    pub fn has_work(&self, caller: u32) -> bool {
        !self.queue(caller).is_empty()
    }

    /// How many tasks wait in all.
    pub fn waiting(&self) -> usize {
        (1..=self.count).map(|caller| self.queue(caller).len()).sum()
    }

    /// The caller after this one, going round.
    pub fn after(&self, caller: u32) -> u32 {
        if caller < self.count {
            caller + 1
        } else {
            1
        }
    }

    /// All callers, going round from this one, which comes first.
    pub fn round(&self, first: u32) -> impl Iterator<Item = u32> {
        (first..=self.count).chain(1..first)
    }

    /// The next caller with work, going round from this one, which comes first.
    pub fn with_work_from(&self, first: u32) -> Option<u32> {
        self.round(first).find(|caller| self.has_work(*caller))
    }

    /// A new unit or an accepted edit: nobody waits and the turn is caller 1's, but there are as many callers as before.
    pub fn empty(&mut self) {
        *self = Callers { count: self.count, ..Callers::new() };
    }
}

/// So many callers from now on, each with an empty queue, and the turn is caller 1's. No time passes.
pub fn count(callers: &mut Callers, count: u32) -> Reply<()> {
    if count < 1 || count > MOST_CALLERS {
        return Err(NO_CALLER);
    }
    *callers = Callers { count, ..Callers::new() };
    Ok(())
}

/// 18, then "as in the queue ticket, with 8 for 32": 2 for the tag offered, 14. "An arrival doesn't move the turn."
pub fn call(unit: &Unit, callers: &mut Callers, caller: u32, task: Task) -> Reply<()> {
    if !callers.is_caller(caller) {
        return Err(NO_CALLER);
    }
    unit.check_tag(task.tag)?;
    if callers.queue(caller).len() >= CALLER_ROOM {
        return Err(NO_PLACE);
    }
    callers.queue_mut(caller).push(task);
    Ok(())
}

/// "Only the caller whose turn it is may start; after a start, or where its queue is empty, the turn goes round to the next caller with
/// work, which takes no time; with no work anywhere it stays and the unit is a tick."
pub fn turn(unit: &Unit, bank: &mut Bank, callers: &mut Callers) -> Reply<Option<(u32, Task)>> {
    if callers.count == 0 {
        return Err(NO_CALLER);
    }
    let caller = callers.with_work_from(callers.turn).unwrap_or(callers.turn);
    callers.turn = caller;
    let oldest = callers.queue(caller).first().copied().filter(|task| started(unit, bank, task.tag));
    match oldest {
        Some(_) => {
            callers.queue_mut(caller).remove(0);
            callers.turn = callers.with_work_from(callers.after(caller)).unwrap_or(caller);
        }
        None => bank.tick(),
    }
    Ok(oldest.map(|task| (caller, task)))
}
