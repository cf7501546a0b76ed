//! The special cases that the calls on a queue are one of, from what stands before the call, so that a run can tell which it has met. Those
//! that the tasks started before decide are told by `queue_check.rs`.

use crate::model::*;
use crate::queue::*;

/// Each with whether it holds.
type Cases = Vec<(bool, &'static str)>;

fn holding(cases: Cases) -> Vec<&'static str> {
    cases.into_iter().filter(|(holds, _)| *holds).map(|(_, what)| what).collect()
}

/// A task that is offered.
pub fn arrival(unit: &Unit, bank: &Bank, queue: &Queue, task: Task) -> Vec<&'static str> {
    let Task { tag, ticket } = task;
    let is_tag = unit.check_tag(tag).is_ok();
    let (has_room, is_taken) = (queue.len() < MOST_WAITING, is_tag && queue.len() < MOST_WAITING);
    let would_do = |tag: u32| unit.check_tag(tag).is_ok();
    let has_ticket: Vec<&Task> = queue.iter().filter(|other| other.ticket == ticket).collect();
    holding(vec![
        (!is_tag && has_room, "arrive: refused by 2, and there is room"),
        (!is_tag && !has_room, "arrive: refused by 2 and not by 14"),
        (tag == 0, "arrive: a tag 0"),
        (tag == unit.functions + 1, "arrive: a tag after the last"),
        (tag > 255 && would_do(tag % 256), "arrive: a tag that would do without its higher bytes"),
        (!is_tag && would_do(ticket), "arrive: no tag first and one in place of the ticket"),
        (is_taken && tag == MOST_FUNCTIONS, "arrive: function 4"),
        (is_taken && queue.is_empty(), "arrive: the first"),
        (is_taken && queue.len() == 31, "arrive: the 32nd"),
        (is_taken && bank.holds_back(tag), "arrive: a function that the bank holds back"),
        (is_taken && queue.is_empty() && !bank.holds_back(tag), "arrive: the first, of a function that the bank grants"),
        (is_taken && ticket == 0, "arrive: a ticket 0"),
        (is_taken && ticket == u32::MAX, "arrive: a ticket 4294967295"),
        (is_taken && ticket > 65_535, "arrive: a ticket above 65535"),
        (is_taken && ticket > 2_147_483_647, "arrive: a ticket above 2147483647"),
        (is_taken && ticket != tag && would_do(ticket), "arrive: a ticket that is another tag"),
        (is_taken && has_ticket.iter().any(|other| other.tag == tag), "arrive: a task as one that waits"),
        (is_taken && has_ticket.iter().any(|other| other.tag != tag), "arrive: a ticket that a task of another function has"),
    ])
}

/// A time unit that passes.
pub fn pass(unit: &Unit, bank: &Bank, queue: &Queue) -> Vec<&'static str> {
    let is_in_use = *bank != Bank::of_words(&[0; REGISTERS]);
    let Some((Task { tag, ticket }, behind)) = queue.split_first() else {
        return vec![if is_in_use { "pass: none waits, and the bank is in use" } else { "pass: none waits, and the bank is empty" }];
    };
    let is_full = queue.len() == MOST_WAITING;
    let mut next = bank.clone();
    next.tick();
    let granted = |task: &Task| !bank.holds_back(task.tag);
    if bank.holds_back(*tag) {
        return holding(vec![
            (behind.iter().any(granted), "pass: none, though one behind the oldest would be granted"),
            (!behind.is_empty() && !behind.iter().any(granted), "pass: none of two or more would be granted"),
            (is_full, "pass: none of 32"),
            (!next.holds_back(*tag), "pass: none, and one unit later it would be granted"),
            (*tag > 1 && !bank.holds_back(1), "pass: none, though function 1 would be granted"),
        ]);
    }
    let has_marks = !unit.spots(*tag).is_empty();
    let is_last_held = behind.last().is_some_and(|task| !granted(task));
    holding(vec![
        (behind.is_empty(), "pass: a start of the only one"),
        (is_full, "pass: a start of 32"),
        (behind.len() > 16, "pass: a start of 18 or more"),
        (behind.iter().any(granted), "pass: a start, and one behind it would be granted too"),
        (is_last_held, "pass: a start, though the youngest would be held back"),
        (next.holds_back(*tag), "pass: a start that would be held back one unit later"),
        (is_in_use, "pass: a start beside other tasks"),
        ((1..=unit.functions).any(|tag| bank.holds_back(tag)), "pass: a start, though another function would be held back"),
        (unit.marks.is_empty(), "pass: a start in a unit without marks"),
        (!unit.marks.is_empty() && !has_marks, "pass: a start of a function without marks beside others"),
        (*tag == MOST_FUNCTIONS, "pass: a start of function 4"),
        (*ticket == 0, "pass: a start of a ticket 0"),
        (*ticket > 65_535, "pass: a start of a ticket above 65535"),
        (*ticket > 2_147_483_647, "pass: a start of a ticket above 2147483647"),
    ])
}

/// The tasks that are listed.
pub fn list(queue: &Queue) -> Vec<&'static str> {
    let rises = |of: fn(&Task) -> u32| queue.windows(2).all(|pair| of(&pair[0]) <= of(&pair[1]));
    let is_twice = |(place, task): (usize, &Task)| queue[..place].contains(task);
    holding(vec![
        (queue.is_empty(), "queue: none"),
        (queue.len() == 1, "queue: one"),
        (queue.len() > 9, "queue: 10 or more"),
        (queue.len() == MOST_WAITING, "queue: 32"),
        (!rises(|task| task.tag), "queue: tags that don't rise"),
        (!rises(|task| task.ticket), "queue: tickets that don't rise"),
        (queue.iter().enumerate().any(is_twice), "queue: two tasks alike"),
        (queue.iter().any(|task| task.ticket == 0), "queue: a ticket 0"),
        (queue.iter().any(|task| task.ticket == u32::MAX), "queue: a ticket 4294967295"),
    ])
}
