//! A queue at the issue port: the tasks that wait, oldest first, and one time unit of the port. Sentences in quotation marks are the
//! request's.
//!
//! Whether a start is granted is said here by the model's bank. `queue_check.rs` lays the tasks out in time, without a bank, and compares.

use crate::model::*;

/// "The waiting tasks are up to 32 records of tag and ticket"
pub const MOST_WAITING: usize = 32;
/// "14 is new: at an arrival, 32 or more already wait"
pub const NO_PLACE: u32 = 14;

/// A task's "tag and ticket (a 32-bit number chosen by the sender)"
#[derive(Clone, Copy, PartialEq, Eq, Debug)]
pub struct Task {
    pub tag: u32,
    pub ticket: u32,
}

/// The tasks that wait, "oldest first".
pub type Queue = Vec<Task>;

pub type Arrive = fn(&Unit, &mut Queue, Task) -> Reply<()>;
/// One time unit, with the task that it starts.
pub type Pass = fn(&Unit, &mut Bank, &mut Queue) -> Option<Task>;
/// What is shown of the tasks that wait.
pub type List = fn(&Queue) -> String;

/// How each of the calls is carried out.
#[derive(Clone, Copy)]
pub struct Port {
    pub arrive: Arrive,
    pub pass: Pass,
    pub list: List,
}

pub const PORT: Port = Port { arrive, pass, list };

/// "Order: .. 2 for the tag offered, 14": no time passes.
pub fn arrive(unit: &Unit, queue: &mut Queue, task: Task) -> Reply<()> {
    unit.check_tag(task.tag)?;
    if queue.len() >= MOST_WAITING {
        return Err(NO_PLACE);
    }
    queue.push(task);
    Ok(())
}

/// "In each time unit the oldest is started if the bank grants it; otherwise the unit passes as a tick." "A start moves the waiting records
/// one place forward".
pub fn pass(unit: &Unit, bank: &mut Bank, queue: &mut Queue) -> Option<Task> {
    let oldest = queue.first().copied().filter(|task| started(unit, bank, task.tag));
    match oldest {
        Some(_) => {
            queue.remove(0);
        }
        None => bank.tick(),
    }
    oldest
}

/// A start of this function, where the bank grants it.
pub fn started(unit: &Unit, bank: &mut Bank, tag: u32) -> bool {
    !bank.holds_back(tag) && bank.start(tag, &rows(unit, tag)).is_ok()
}

/// Row R of M_Q for each tag R of the unit.
pub fn rows(unit: &Unit, tag: u32) -> Vec<Vec<bool>> {
    let (yard, earlier) = (&mut Yard::new(), unit.spots(tag));
    (1..=unit.functions).map(|later| meetings(&earlier, &unit.spots(later), yard)).collect()
}

/// `queue N:` and then tag and ticket of each, a space in front of every number.
pub fn list(queue: &Queue) -> String {
    let tasks = queue.iter().map(|task| format!(" {} {}", task.tag, task.ticket));
    format!("queue {}:{}", queue.len(), tasks.collect::<String>())
}
