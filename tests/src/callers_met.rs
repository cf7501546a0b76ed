//! The special cases that the calls on a shared port are one of, from what stands before the call, so that a run can tell which it has met.
//! Those that the tasks started before decide, or when each task came, are told by `callers_check.rs`.

use crate::callers::*;
use crate::model::*;
use crate::queue::{Queue, Task};

/// Each with whether it holds.
type Cases = Vec<(bool, &'static str)>;

fn holding(cases: Cases) -> Vec<&'static str> {
    cases.into_iter().filter(|(holds, _)| *holds).map(|(_, what)| what).collect()
}

/// A number of callers that is said.
pub fn count(callers: &Callers, count: u32) -> Vec<&'static str> {
    let is_count = |count: u32| (1..=MOST_CALLERS).contains(&count);
    let (is_good, waits, is_first) = (is_count(count), callers.waiting() > 0, callers.count == 0);
    let other_turn = callers.turn > 1;
    holding(vec![
        (count == 0, "callers: 0"),
        (count == MOST_CALLERS + 1, "callers: 5"),
        (count > 255 && is_count(count % 256), "callers: a number that would do without its higher bytes"),
        (!is_good && is_first, "callers: refused, and there are none yet"),
        (!is_good && waits, "callers: refused while tasks wait"),
        (!is_good && other_turn, "callers: refused in another's turn than caller 1's"),
        (is_good && is_first, "callers: the first time"),
        (is_good && count == 1, "callers: 1"),
        (is_good && count == MOST_CALLERS, "callers: 4"),
        (is_good && waits && count < callers.count, "callers: fewer than before, while tasks wait"),
        (is_good && waits && count == callers.count, "callers: as many as before, while tasks wait"),
        (is_good && waits && count > callers.count, "callers: more than before, while tasks wait"),
        (is_good && other_turn && count < callers.turn, "callers: fewer than the one whose turn it is"),
        (is_good && other_turn && count >= callers.turn, "callers: said in another's turn than caller 1's"),
    ])
}

/// A task that is offered at a caller's queue. There were at most so many callers before.
pub fn call(unit: &Unit, bank: &Bank, callers: &Callers, most: u32, caller: u32, task: Task) -> Vec<&'static str> {
    let Task { tag, ticket } = task;
    let (is_tag, is_caller) = (unit.check_tag(tag).is_ok(), callers.is_caller(caller));
    let would_do = |caller: u32, tag: u32| callers.is_caller(caller) && unit.check_tag(tag).is_ok();
    let is_full = |caller: u32| callers.queue(caller).len() >= CALLER_ROOM;
    let all = || 1..=callers.count;
    if callers.count == 0 {
        return holding(vec![
            (is_tag && caller == 1, "call: caller 1, and there are none yet"),
            (is_tag && caller == MOST_CALLERS, "call: caller 4, and there are none yet"),
            (!is_tag, "call: no callers yet, and not refused by 2"),
        ]);
    }
    if !is_caller {
        return holding(vec![
            (caller == 0, "call: caller 0"),
            (caller == callers.count + 1 && caller <= MOST_CALLERS, "call: a caller after the last"),
            (caller == MOST_CALLERS + 1 && callers.count == MOST_CALLERS, "call: caller 5 of 4"),
            (caller > callers.count && caller <= most, "call: a caller that there was before"),
            (caller > 255 && callers.is_caller(caller % 256), "call: a caller that would do without its higher bytes"),
            (is_tag, "call: refused by 18, and the tag is good"),
            (!is_tag, "call: refused by 18 and not by 2"),
            (all().all(is_full), "call: refused by 18 and not by 14"),
            (would_do(tag, caller), "call: refused by 18, and would do with caller and tag exchanged"),
        ]);
    }
    let queue = callers.queue(caller);
    let others = || all().filter(|other| *other != caller);
    if !is_tag {
        return holding(vec![
            (!is_full(caller), "call: refused by 2, and there is room"),
            (is_full(caller), "call: refused by 2 and not by 14"),
            (tag == 0, "call: a tag 0"),
            (tag == unit.functions + 1, "call: a tag after the last"),
            (tag > 255 && would_do(caller, tag % 256), "call: a tag that would do without its higher bytes"),
            (would_do(tag, caller), "call: refused by 2, and would do with caller and tag exchanged"),
            (would_do(caller, ticket), "call: refused by 2, and would do with tag and ticket exchanged"),
        ]);
    }
    if is_full(caller) {
        return holding(vec![
            (others().any(|other| !is_full(other)), "call: refused by 14, though another has room"),
            (callers.waiting() == CALLER_ROOM, "call: refused by 14, where nobody else waits"),
            (all().all(is_full) && callers.count == MOST_CALLERS, "call: refused by 14, where four are full"),
            (caller == callers.turn, "call: refused by 14 at the one whose turn it is"),
            (caller != callers.turn, "call: refused by 14 at another than whose turn it is"),
        ]);
    }
    let (waits, is_own, is_idle) = (callers.waiting() > 0, caller == callers.turn, !callers.has_work(callers.turn));
    let has_ticket = |other: u32| callers.queue(other).iter().any(|waiting| waiting.ticket == ticket);
    holding(vec![
        (!waits && is_own, "call: the first of all, of the one whose turn it is"),
        (!waits && !is_own, "call: the first of all, of another than whose turn it is"),
        (waits && queue.is_empty(), "call: the first of its caller, while others wait"),
        (waits && is_idle && is_own, "call: of the one whose turn it is, whose queue is empty while others wait"),
        (waits && is_idle && !is_own, "call: of another than whose turn it is, whose queue is empty while others wait"),
        (!is_idle && !is_own, "call: of another than whose turn it is, who waits"),
        (queue.len() == CALLER_ROOM - 1, "call: the 8th"),
        (callers.waiting() >= CALLER_ROOM, "call: the 9th of all, or a later one"),
        (callers.waiting() == 31, "call: the 32nd of all"),
        (others().any(is_full), "call: taken, though another has no room"),
        (caller == MOST_CALLERS, "call: caller 4"),
        (tag == MOST_FUNCTIONS, "call: function 4"),
        (bank.holds_back(tag), "call: a function that the bank holds back"),
        (!waits && !bank.holds_back(tag), "call: the first of all, of a function that the bank grants"),
        (tag != caller && would_do(tag, caller), "call: would do with caller and tag exchanged"),
        (tag != ticket && would_do(caller, ticket), "call: would do with tag and ticket exchanged"),
        (ticket == 0, "call: a ticket 0"),
        (ticket == u32::MAX, "call: a ticket 4294967295"),
        (ticket > 65_535, "call: a ticket above 65535"),
        (ticket > 2_147_483_647, "call: a ticket above 2147483647"),
        (queue.contains(&task), "call: a task as one that waits at its caller"),
        (others().any(|other| callers.queue(other).contains(&task)), "call: a task as one that waits at another caller"),
        (others().any(has_ticket), "call: a ticket that waits at another caller"),
    ])
}

/// A time unit that passes, beside the tasks of the queue.
pub fn turn(unit: &Unit, bank: &Bank, callers: &Callers, queue: &Queue) -> Vec<&'static str> {
    let is_in_use = *bank != Bank::of_words(&[0; REGISTERS]);
    let granted = |task: &Task| !bank.holds_back(task.tag);
    if callers.count == 0 {
        return holding(vec![
            (is_in_use, "turn: no callers yet, and the bank is in use"),
            (!is_in_use, "turn: no callers yet, and the bank is empty"),
            (queue.first().is_some_and(granted), "turn: no callers yet, and the queue's oldest would be granted"),
        ]);
    }
    let Some(caller) = callers.with_work_from(callers.turn) else {
        return holding(vec![
            (is_in_use, "turn: nobody waits, and the bank is in use"),
            (!is_in_use, "turn: nobody waits, and the bank is empty"),
            (callers.turn > 1, "turn: nobody waits in another's turn than caller 1's"),
            (queue.first().is_some_and(granted), "turn: nobody waits, and the queue's oldest would be granted"),
        ]);
    };
    let (is_handed_on, is_lower) = (caller != callers.turn, caller < callers.turn);
    let is_past_another = is_handed_on && caller != callers.after(callers.turn);
    let (Task { tag, ticket }, behind) = callers.queue(caller).split_first().expect("a caller with work");
    let others: Vec<u32> = (1..=callers.count).filter(|other| *other != caller && callers.has_work(*other)).collect();
    let oldest_granted = |other: &u32| callers.queue(*other).first().is_some_and(granted);
    let mut next = bank.clone();
    next.tick();
    if bank.holds_back(*tag) {
        return holding(vec![
            (others.iter().any(oldest_granted), "turn: none, though another caller's oldest would be granted"),
            (behind.iter().any(granted), "turn: none, though one behind the oldest would be granted"),
            (queue.first().is_some_and(granted), "turn: none, though the queue's oldest would be granted"),
            (others.is_empty(), "turn: none, and nobody else waits"),
            (others.len() == 3, "turn: none, and all of four wait"),
            (!others.is_empty() && !others.iter().any(oldest_granted), "turn: none of several callers' oldest would be granted"),
            (is_handed_on, "turn: none, and the turn is handed on all the same"),
            (is_lower, "turn: none, and the turn is handed on round to a lower caller"),
            (behind.len() == CALLER_ROOM - 1, "turn: none of 8"),
            (!next.holds_back(*tag), "turn: none, and one unit later it would be granted"),
            (*tag > 1 && !bank.holds_back(1), "turn: none, though function 1 would be granted"),
            (caller != *tag && !bank.holds_back(caller), "turn: none, though the function of the caller's number would be granted"),
        ]);
    }
    let after = callers.round(caller).find(|other| others.contains(other));
    let has_marks = !unit.spots(*tag).is_empty();
    holding(vec![
        (is_handed_on, "turn: a start of the one to whom the turn is handed on"),
        (is_past_another, "turn: a start of the one to whom the turn is handed on past another"),
        (is_lower, "turn: a start of the one to whom the turn is handed on round"),
        (others.is_empty() && behind.is_empty(), "turn: a start, and nobody is left"),
        (others.is_empty() && behind.is_empty() && caller > 1, "turn: a start of another than caller 1, and nobody is left"),
        (others.is_empty() && !behind.is_empty() && callers.count > 1, "turn: a start, and the starter alone has more"),
        (!others.is_empty() && behind.is_empty(), "turn: a start of a caller's only one, while others wait"),
        (after == Some(callers.after(caller)) && caller < callers.count, "turn: a start, and the turn goes to the next caller"),
        (after.is_some_and(|after| after > caller + 1), "turn: a start, and the turn goes past a caller without work"),
        (after == Some(1) && caller == callers.count && callers.count > 2, "turn: a start, and the turn goes round to caller 1"),
        (after.is_some_and(|after| after < caller && after > 1), "turn: a start, and the turn goes round past caller 1"),
        (others.len() == 3, "turn: a start, and all of four wait"),
        (callers.waiting() == 32, "turn: a start of 32"),
        (callers.count == 1, "turn: a start of one caller alone"),
        (callers.count == 1 && behind.len() == CALLER_ROOM - 1, "turn: a start of 8 of one caller alone"),
        (behind.len() == CALLER_ROOM - 1, "turn: a start of a caller with 8"),
        (others.iter().any(|other| callers.queue(*other).len() > behind.len() + 1), "turn: a start, though another caller has more tasks"),
        (others.iter().any(oldest_granted), "turn: a start, and another caller's oldest would be granted too"),
        (after.is_some_and(|after| !oldest_granted(&after)), "turn: a start, though the next caller's oldest would be held back"),
        (behind.last().is_some_and(|task| !granted(task)), "turn: a start, though its caller's youngest would be held back"),
        (!queue.is_empty(), "turn: a start beside tasks in the queue"),
        (next.holds_back(*tag), "turn: a start that would be held back one unit later"),
        (is_in_use, "turn: a start beside other tasks"),
        ((1..=unit.functions).any(|tag| bank.holds_back(tag)), "turn: a start, though another function would be held back"),
        (caller != *tag && bank.holds_back(caller), "turn: a start, though the function of the caller's number would be held back"),
        (unit.marks.is_empty(), "turn: a start in a unit without marks"),
        (!unit.marks.is_empty() && !has_marks, "turn: a start of a function without marks beside others"),
        (caller == MOST_CALLERS, "turn: a start of caller 4"),
        (*tag == MOST_FUNCTIONS, "turn: a start of function 4"),
        (*tag != caller, "turn: a start of a function that has not its caller's number"),
        (*ticket == 0, "turn: a start of a ticket 0"),
        (*ticket > 65_535, "turn: a start of a ticket above 65535"),
        (*ticket > 2_147_483_647, "turn: a start of a ticket above 2147483647"),
    ])
}
