//! Consoles with one fault each in how callers take turns, as those of `console_faults.rs`.

use crate::callers::*;
use crate::console_faults::*;
use crate::console_folder::Folder;
use crate::console_model::*;
use crate::model::*;
use crate::queue::{self, rows, started, Queue, Task, MOST_WAITING, NO_PLACE};
use crate::queue_faults::{expected, joined, no_file, not_written, tick, ticked};

/// What a time unit answers.
type Started = Reply<Option<(u32, Task)>>;

// ---------------------------------------------------------------------------------------------------------------------------------
// How many callers

/// With something done where the number is refused, and another reply.
fn at_bad_count(callers: &mut Callers, number: u32, then: impl Fn(&mut Callers) -> Reply<()>) -> Reply<()> {
    count(callers, number).or_else(|_| then(callers))
}

/// With something done to the callers after an accepted number, from those before it.
fn counting(callers: &mut Callers, number: u32, then: impl Fn(&Callers, &mut Callers)) -> Reply<()> {
    let before = callers.clone();
    count(callers, number)?;
    then(&before, callers);
    Ok(())
}

/// With the tasks kept where it is so, from the numbers before and after.
fn keeping_all(callers: &mut Callers, number: u32, is_kept: impl Fn(u32, u32) -> bool) -> Reply<()> {
    counting(callers, number, |before, callers| {
        if is_kept(before.count, callers.count) {
            callers.queues = before.queues.clone();
        }
    })
}

/// A number that is refused, though it is good, where it is so.
fn no_count(callers: &mut Callers, number: u32, is_refused: impl Fn(&Callers) -> bool) -> Reply<()> {
    if is_refused(callers) {
        return Err(NO_CALLER);
    }
    count(callers, number)
}

const COUNT_FAULTS: &[(&str, Count)] = &[
    ("callers: 5 are taken for 4", |callers, number| count(callers, if number == 5 { 4 } else { number })),
    ("callers: more than 4 are taken for 4", |callers, number| count(callers, number.min(MOST_CALLERS))),
    ("callers: 0 is taken for 1", |callers, number| count(callers, number.max(1))),
    ("callers: there may be none", |callers, number| {
        if number == 0 {
            *callers = Callers::new();
            return Ok(());
        }
        count(callers, number)
    }),
    ("callers: 3 are the most", |callers, number| no_count(callers, number, |_| number == 4)),
    ("callers: 2 are the fewest", |callers, number| no_count(callers, number, |_| number == 1)),
    ("callers: C is taken modulo 256", |callers, number| count(callers, number % 256)),
    ("callers: C is taken modulo 65,536", |callers, number| count(callers, number % 65_536)),
    ("callers: a bad number is refused by 1", |callers, number| count(callers, number).map_err(|_| 1)),
    ("callers: a bad number is refused by 2", |callers, number| count(callers, number).map_err(|_| 2)),
    ("callers: a bad number is refused by 14", |callers, number| count(callers, number).map_err(|_| NO_PLACE)),
    ("callers: a bad number is refused by 17", |callers, number| count(callers, number).map_err(|_| 17)),
    ("callers: a bad number is answered by ok", |callers, number| at_bad_count(callers, number, |_| Ok(()))),
    ("callers: a refused number takes the tasks away", |callers, number| {
        at_bad_count(callers, number, |callers| {
            callers.queues = Default::default();
            Err(NO_CALLER)
        })
    }),
    ("callers: a refused number sets the turn back", |callers, number| {
        at_bad_count(callers, number, |callers| {
            callers.turn = 1;
            Err(NO_CALLER)
        })
    }),
    ("callers: a refused number takes the callers away", |callers, number| {
        at_bad_count(callers, number, |callers| {
            *callers = Callers::new();
            Err(NO_CALLER)
        })
    }),
    ("callers: a refused number makes it four", |callers, number| {
        at_bad_count(callers, number, |callers| {
            callers.count = MOST_CALLERS;
            Err(NO_CALLER)
        })
    }),
    ("callers: the tasks are kept", |callers, number| keeping_all(callers, number, |_, _| true)),
    ("callers: the tasks are kept where C is the same", |callers, number| keeping_all(callers, number, |before, after| before == after)),
    ("callers: the tasks are kept where there are fewer", |callers, number| keeping_all(callers, number, |before, after| before > after)),
    ("callers: the tasks are kept where there are more", |callers, number| keeping_all(callers, number, |before, after| before < after)),
    ("callers: caller 1's tasks alone are taken away", |callers, number| {
        counting(callers, number, |before, callers| callers.queues[1..].clone_from_slice(&before.queues[1..]))
    }),
    ("callers: the last caller's tasks are kept", |callers, number| {
        counting(callers, number, |before, callers| *callers.queue_mut(number) = before.queue(number).clone())
    }),
    ("callers: the turn is kept", |callers, number| counting(callers, number, |before, callers| callers.turn = before.turn.min(number))),
    ("callers: the turn is kept where C is the same", |callers, number| {
        counting(callers, number, |before, callers| {
            if before.count == number {
                callers.turn = before.turn;
            }
        })
    }),
    ("callers: the turn is the last one's", |callers, number| counting(callers, number, |_, callers| callers.turn = number)),
    ("callers: the turn is caller 2's", |callers, number| counting(callers, number, |_, callers| callers.turn = number.min(2))),
    ("callers: the first number holds for good", |callers, number| {
        if callers.count > 0 && (1..=MOST_CALLERS).contains(&number) {
            return Ok(());
        }
        count(callers, number)
    }),
    ("callers: a second number is refused", |callers, number| no_count(callers, number, |callers| callers.count > 0)),
    ("callers: a number is refused while tasks wait", |callers, number| no_count(callers, number, |callers| callers.waiting() > 0)),
    ("callers: a lower number than before is refused", |callers, number| no_count(callers, number, |callers| number < callers.count)),
    ("callers: there are never fewer than before", |callers, number| {
        counting(callers, number, |before, callers| callers.count = number.max(before.count))
    }),
    ("callers: there are always four", |callers, number| counting(callers, number, |_, callers| callers.count = MOST_CALLERS)),
    ("callers: one more than was said", |callers, number| counting(callers, number, |_, callers| callers.count = (number + 1).min(4))),
    ("callers: one fewer than was said", |callers, number| counting(callers, number, |_, callers| callers.count = (number - 1).max(1))),
];

// ---------------------------------------------------------------------------------------------------------------------------------
// Tasks that come

/// With room where it is so, from the callers and the caller.
fn with_room(unit: &Unit, callers: &mut Callers, caller: u32, task: Task, has_room: impl Fn(&Callers, &Queue) -> bool) -> Reply<()> {
    if !callers.is_caller(caller) {
        return Err(NO_CALLER);
    }
    unit.check_tag(task.tag)?;
    if !has_room(callers, callers.queue(caller)) {
        return Err(NO_PLACE);
    }
    callers.queue_mut(caller).push(task);
    Ok(())
}

/// With another number for a refusal.
fn renumbered(unit: &Unit, callers: &mut Callers, caller: u32, task: Task, number: u32, other: u32) -> Reply<()> {
    call(unit, callers, caller, task).map_err(|refusal| if refusal == number { other } else { refusal })
}

/// With something done where it is refused by a number, and another reply.
fn at_refusal(
    unit: &Unit,
    callers: &mut Callers,
    caller: u32,
    task: Task,
    number: u32,
    then: impl Fn(&mut Callers) -> Reply<()>,
) -> Reply<()> {
    match call(unit, callers, caller, task) {
        Err(refusal) if refusal == number => then(callers),
        reply => reply,
    }
}

/// With something done to the callers after an accepted task, from the callers before it.
fn calling(unit: &Unit, callers: &mut Callers, caller: u32, task: Task, then: impl Fn(&Callers, &mut Callers)) -> Reply<()> {
    let before = callers.clone();
    call(unit, callers, caller, task)?;
    then(&before, callers);
    Ok(())
}

/// With the turn another's after an accepted task, where it is so, from the callers before it.
fn moving(unit: &Unit, callers: &mut Callers, caller: u32, task: Task, turn: impl Fn(&Callers) -> Option<u32>) -> Reply<()> {
    calling(unit, callers, caller, task, |before, callers| callers.turn = turn(before).unwrap_or(callers.turn))
}

/// A task that is not taken, though it is good, where it is so.
fn not_taken(
    unit: &Unit,
    callers: &mut Callers,
    caller: u32,
    task: Task,
    is_left: impl Fn(&Callers) -> bool,
    reply: Reply<()>,
) -> Reply<()> {
    let left = is_left(callers);
    call(unit, callers, caller, task)?;
    if left {
        callers.queue_mut(caller).pop();
        return reply;
    }
    Ok(())
}

/// A task that goes before others of its caller: before the first for which it is so.
fn before(unit: &Unit, callers: &mut Callers, caller: u32, task: Task, is_behind: impl Fn(&Task) -> bool) -> Reply<()> {
    call(unit, callers, caller, task)?;
    let queue = callers.queue_mut(caller);
    queue.pop();
    let place = queue.iter().position(is_behind).unwrap_or(queue.len());
    queue.insert(place, task);
    Ok(())
}

/// A good task that goes to another caller's queue, where there is room.
fn to_another(unit: &Unit, callers: &mut Callers, caller: u32, task: Task, other: impl Fn(&Callers) -> u32) -> Reply<()> {
    calling(unit, callers, caller, task, |before, callers| {
        let other = other(before);
        if before.queue(other).len() < CALLER_ROOM {
            callers.queue_mut(caller).pop();
            callers.queue_mut(other).push(task);
        }
    })
}

/// With another ticket.
fn with_ticket(unit: &Unit, callers: &mut Callers, caller: u32, task: Task, ticket: u32) -> Reply<()> {
    call(unit, callers, caller, Task { ticket, ..task })
}

/// With another tag.
fn with_tag(unit: &Unit, callers: &mut Callers, caller: u32, task: Task, tag: u32) -> Reply<()> {
    call(unit, callers, caller, Task { tag, ..task })
}

/// The queues of all callers.
fn all_queues(callers: &Callers) -> impl Iterator<Item = &Queue> {
    callers.queues[..callers.count as usize].iter()
}

fn waits_anywhere(callers: &Callers, is: impl Fn(&Task) -> bool) -> bool {
    all_queues(callers).flatten().any(is)
}

const CALL_FAULTS: &[(&str, Call)] = &[
    // what is refused
    ("call: 7 are the most", |unit, callers, caller, task| with_room(unit, callers, caller, task, |_, queue| queue.len() < 7)),
    ("call: 9 are the most", |unit, callers, caller, task| with_room(unit, callers, caller, task, |_, queue| queue.len() < 9)),
    ("call: 32 are the most", |unit, callers, caller, task| with_room(unit, callers, caller, task, |_, queue| queue.len() < 32)),
    ("call: 8 are the most of all together", |unit, callers, caller, task| {
        with_room(unit, callers, caller, task, |callers, _| callers.waiting() < 8)
    }),
    ("call: 32 are the most of all together", |unit, callers, caller, task| {
        with_room(unit, callers, caller, task, |callers, _| callers.waiting() < 32)
    }),
    ("call: 31 are the most of all together", |unit, callers, caller, task| {
        with_room(unit, callers, caller, task, |callers, queue| queue.len() < 8 && callers.waiting() < 31)
    }),
    ("call: 32 are shared out among the callers", |unit, callers, caller, task| {
        with_room(unit, callers, caller, task, |callers, queue| queue.len() < 32 / callers.count as usize)
    }),
    ("call: no room where any has none", |unit, callers, caller, task| {
        with_room(unit, callers, caller, task, |callers, _| all_queues(callers).all(|queue| queue.len() < 8))
    }),
    ("call: room where any has some", |unit, callers, caller, task| {
        with_room(unit, callers, caller, task, |callers, _| all_queues(callers).any(|queue| queue.len() < 8))
    }),
    ("call: the room of the one whose turn it is", |unit, callers, caller, task| {
        with_room(unit, callers, caller, task, |callers, _| callers.queue(callers.turn).len() < 8)
    }),
    ("call: 14 comes before 18 where all are full", |unit, callers, caller, task| {
        if callers.count > 0 && all_queues(callers).all(|queue| queue.len() >= 8) {
            return Err(NO_PLACE);
        }
        call(unit, callers, caller, task)
    }),
    ("call: 14 comes before 18 where the last is full", |unit, callers, caller, task| {
        if callers.count > 0 && caller > callers.count && callers.queue(callers.count).len() >= 8 {
            return Err(NO_PLACE);
        }
        call(unit, callers, caller, task)
    }),
    ("call: 14 comes before 2", |unit, callers, caller, task| {
        if callers.is_caller(caller) && callers.queue(caller).len() >= 8 {
            return Err(NO_PLACE);
        }
        call(unit, callers, caller, task)
    }),
    ("call: 2 comes before 18", |unit, callers, caller, task| {
        unit.check_tag(task.tag)?;
        call(unit, callers, caller, task)
    }),
    ("call: 2 comes before 18 where there are no callers yet", |unit, callers, caller, task| {
        if callers.count == 0 {
            unit.check_tag(task.tag)?;
        }
        call(unit, callers, caller, task)
    }),
    ("call: no room is refused by 2", |unit, callers, caller, task| renumbered(unit, callers, caller, task, NO_PLACE, 2)),
    ("call: no room is refused by 6", |unit, callers, caller, task| renumbered(unit, callers, caller, task, NO_PLACE, 6)),
    ("call: no room is refused by 18", |unit, callers, caller, task| renumbered(unit, callers, caller, task, NO_PLACE, NO_CALLER)),
    ("call: an unknown function is refused by 14", |unit, callers, caller, task| renumbered(unit, callers, caller, task, 2, NO_PLACE)),
    ("call: an unknown function is refused by 18", |unit, callers, caller, task| renumbered(unit, callers, caller, task, 2, NO_CALLER)),
    ("call: an unknown caller is refused by 2", |unit, callers, caller, task| renumbered(unit, callers, caller, task, NO_CALLER, 2)),
    ("call: an unknown caller is refused by 14", |unit, callers, caller, task| {
        renumbered(unit, callers, caller, task, NO_CALLER, NO_PLACE)
    }),
    ("call: an unknown caller is refused by 1", |unit, callers, caller, task| renumbered(unit, callers, caller, task, NO_CALLER, 1)),
    ("call: an unknown caller is answered by ok", |unit, callers, caller, task| {
        at_refusal(unit, callers, caller, task, NO_CALLER, |_| Ok(()))
    }),
    ("call: an unknown function is answered by ok", |unit, callers, caller, task| at_refusal(unit, callers, caller, task, 2, |_| Ok(()))),
    ("call: a task without room is answered by ok", |unit, callers, caller, task| {
        at_refusal(unit, callers, caller, task, NO_PLACE, |_| Ok(()))
    }),
    ("call: caller 0 is taken for 1", |unit, callers, caller, task| call(unit, callers, caller.max(1), task)),
    ("call: a caller after the last is taken for it", |unit, callers, caller, task| call(unit, callers, caller.min(callers.count), task)),
    ("call: the caller after the last is caller 1", |unit, callers, caller, task| {
        call(unit, callers, if caller == callers.count + 1 { 1 } else { caller }, task)
    }),
    ("call: callers are numbered from 0", |unit, callers, caller, task| call(unit, callers, caller.saturating_add(1), task)),
    ("call: I is taken modulo 256", |unit, callers, caller, task| call(unit, callers, caller % 256, task)),
    ("call: I is taken modulo 65,536", |unit, callers, caller, task| call(unit, callers, caller % 65_536, task)),
    ("call: there is caller 1 before any number was said", |unit, callers, caller, task| {
        callers.count = callers.count.max(1);
        call(unit, callers, caller, task)
    }),
    ("call: there are four callers before any number was said", |unit, callers, caller, task| {
        if callers.count == 0 {
            callers.count = MOST_CALLERS;
        }
        call(unit, callers, caller, task)
    }),
    ("call: tag 0 is taken for 1", |unit, callers, caller, task| with_tag(unit, callers, caller, task, task.tag.max(1))),
    ("call: a tag after the last is taken for it", |unit, callers, caller, task| {
        with_tag(unit, callers, caller, task, task.tag.min(unit.functions))
    }),
    ("call: Q is taken modulo 256", |unit, callers, caller, task| with_tag(unit, callers, caller, task, task.tag % 256)),
    ("call: Q is taken modulo 65,536", |unit, callers, caller, task| with_tag(unit, callers, caller, task, task.tag % 65_536)),
    ("call: an unknown function is refused, and waits as function 1", |unit, callers, caller, task| {
        at_refusal(unit, callers, caller, task, 2, |callers| {
            callers.queue_mut(caller).push(Task { tag: 1, ..task });
            callers.queue_mut(caller).truncate(CALLER_ROOM);
            Err(2)
        })
    }),
    ("call: a task of an unknown caller is refused, and waits at caller 1", |unit, callers, caller, task| {
        at_refusal(unit, callers, caller, task, NO_CALLER, |callers| {
            if callers.count > 0 && unit.check_tag(task.tag).is_ok() {
                callers.queue_mut(1).push(task);
                callers.queue_mut(1).truncate(CALLER_ROOM);
            }
            Err(NO_CALLER)
        })
    }),
    ("call: a task that is refused by 18 takes the tasks away", |unit, callers, caller, task| {
        at_refusal(unit, callers, caller, task, NO_CALLER, |callers| {
            callers.queues = Default::default();
            Err(NO_CALLER)
        })
    }),
    ("call: a task that is refused by 2 takes its caller's away", |unit, callers, caller, task| {
        at_refusal(unit, callers, caller, task, 2, |callers| {
            callers.queue_mut(caller).clear();
            Err(2)
        })
    }),
    ("call: a task that is refused by 14 takes its caller's away", |unit, callers, caller, task| {
        at_refusal(unit, callers, caller, task, NO_PLACE, |callers| {
            callers.queue_mut(caller).clear();
            Err(NO_PLACE)
        })
    }),
    ("call: a task that is refused by 14 takes the oldest away", |unit, callers, caller, task| {
        at_refusal(unit, callers, caller, task, NO_PLACE, |callers| {
            callers.queue_mut(caller).remove(0);
            Err(NO_PLACE)
        })
    }),
    ("call: a task that is refused by 14 is in the youngest's place", |unit, callers, caller, task| {
        at_refusal(unit, callers, caller, task, NO_PLACE, |callers| {
            *callers.queue_mut(caller).last_mut().expect("8 tasks") = task;
            Err(NO_PLACE)
        })
    }),
    ("call: the oldest makes room", |unit, callers, caller, task| {
        at_refusal(unit, callers, caller, task, NO_PLACE, |callers| {
            callers.queue_mut(caller).remove(0);
            callers.queue_mut(caller).push(task);
            Ok(())
        })
    }),
    ("call: a task without room goes to another caller", |unit, callers, caller, task| {
        at_refusal(unit, callers, caller, task, NO_PLACE, |callers| {
            let other = callers.round(caller).find(|other| callers.queue(*other).len() < CALLER_ROOM).ok_or(NO_PLACE)?;
            callers.queue_mut(other).push(task);
            Ok(())
        })
    }),
    // what waits, and where
    ("call: a task goes in front", |unit, callers, caller, task| before(unit, callers, caller, task, |_| true)),
    ("call: a task goes before those of higher tags", |unit, callers, caller, task| {
        before(unit, callers, caller, task, |other| other.tag > task.tag)
    }),
    ("call: a task goes before those of higher tickets", |unit, callers, caller, task| {
        before(unit, callers, caller, task, |other| other.ticket > task.ticket)
    }),
    ("call: a ticket that waits at its caller is not taken again", |unit, callers, caller, task| {
        let is_left = |callers: &Callers| callers.queue(caller).iter().any(|other| other.ticket == task.ticket);
        let is_left = |callers: &Callers| callers.is_caller(caller) && is_left(callers);
        not_taken(unit, callers, caller, task, is_left, Ok(()))
    }),
    ("call: a ticket that waits at any caller is not taken again", |unit, callers, caller, task| {
        not_taken(unit, callers, caller, task, |callers| waits_anywhere(callers, |other| other.ticket == task.ticket), Ok(()))
    }),
    ("call: a ticket that waits at any caller is refused", |unit, callers, caller, task| {
        not_taken(unit, callers, caller, task, |callers| waits_anywhere(callers, |other| other.ticket == task.ticket), Err(NO_PLACE))
    }),
    ("call: a task as one that waits at any caller is not taken again", |unit, callers, caller, task| {
        not_taken(unit, callers, caller, task, |callers| waits_anywhere(callers, |other| *other == task), Ok(()))
    }),
    ("call: one of each function may wait", |unit, callers, caller, task| {
        not_taken(unit, callers, caller, task, |callers| waits_anywhere(callers, |other| other.tag == task.tag), Err(NO_PLACE))
    }),
    ("call: a ticket 0 does not wait", |unit, callers, caller, task| not_taken(unit, callers, caller, task, |_| task.ticket == 0, Ok(()))),
    ("call: a ticket 0 is refused", |unit, callers, caller, task| not_taken(unit, callers, caller, task, |_| task.ticket == 0, Err(2))),
    ("call: a ticket 4294967295 is refused", |unit, callers, caller, task| {
        not_taken(unit, callers, caller, task, |_| task.ticket == u32::MAX, Err(2))
    }),
    ("call: tickets have 8 bits", |unit, callers, caller, task| with_ticket(unit, callers, caller, task, task.ticket % 256)),
    ("call: tickets have 16 bits", |unit, callers, caller, task| with_ticket(unit, callers, caller, task, task.ticket % 65_536)),
    ("call: tickets have 24 bits", |unit, callers, caller, task| with_ticket(unit, callers, caller, task, task.ticket % (1 << 24))),
    ("call: tickets have 31 bits", |unit, callers, caller, task| with_ticket(unit, callers, caller, task, task.ticket % (1 << 31))),
    ("call: the ticket is the tag", |unit, callers, caller, task| with_ticket(unit, callers, caller, task, task.tag)),
    ("call: the ticket is the caller", |unit, callers, caller, task| with_ticket(unit, callers, caller, task, caller)),
    ("call: the tag is the caller where there is such a function", |unit, callers, caller, task| {
        let is_function = unit.check_tag(caller).and(unit.check_tag(task.tag)).is_ok();
        with_tag(unit, callers, caller, task, if is_function { caller } else { task.tag })
    }),
    ("call: I and Q are exchanged where both would do", |unit, callers, caller, task| {
        match call(unit, &mut callers.clone(), task.tag, Task { tag: caller, ..task }) {
            Ok(()) if callers.is_caller(caller) && unit.check_tag(task.tag).is_ok() => {
                call(unit, callers, task.tag, Task { tag: caller, ..task })
            }
            _ => call(unit, callers, caller, task),
        }
    }),
    ("call: Q and TICKET are exchanged where both are tags", |unit, callers, caller, task| {
        match unit.check_tag(task.tag).and(unit.check_tag(task.ticket)) {
            Ok(()) => call(unit, callers, caller, Task { tag: task.ticket, ticket: task.tag }),
            Err(_) => call(unit, callers, caller, task),
        }
    }),
    ("call: a task goes to caller 1", |unit, callers, caller, task| to_another(unit, callers, caller, task, |_| 1)),
    ("call: a task goes to the last caller", |unit, callers, caller, task| {
        to_another(unit, callers, caller, task, |callers| callers.count)
    }),
    ("call: a task goes to the next caller", |unit, callers, caller, task| {
        to_another(unit, callers, caller, task, |callers| callers.after(caller))
    }),
    ("call: a task goes to the one whose turn it is", |unit, callers, caller, task| {
        to_another(unit, callers, caller, task, |callers| callers.turn)
    }),
    ("call: a task goes to the shortest queue", |unit, callers, caller, task| {
        to_another(unit, callers, caller, task, |callers| {
            callers.round(1).min_by_key(|other| callers.queue(*other).len()).expect("a caller")
        })
    }),
    ("call: a task goes to the caller of its function's number", |unit, callers, caller, task| {
        to_another(unit, callers, caller, task, |callers| if callers.is_caller(task.tag) { task.tag } else { caller })
    }),
    ("call: a task goes to every caller", |unit, callers, caller, task| {
        calling(unit, callers, caller, task, |before, callers| {
            for other in before.round(1).filter(|other| *other != caller && before.queue(*other).len() < CALLER_ROOM) {
                callers.queue_mut(other).push(task);
            }
        })
    }),
    // whose turn it is then
    ("call: an arrival takes the turn", |unit, callers, caller, task| moving(unit, callers, caller, task, |_| Some(caller))),
    ("call: an arrival takes the turn where nobody waits", |unit, callers, caller, task| {
        moving(unit, callers, caller, task, |before| (before.waiting() == 0).then_some(caller))
    }),
    ("call: an arrival takes the turn of one without work", |unit, callers, caller, task| {
        moving(unit, callers, caller, task, |before| (!before.has_work(before.turn)).then_some(caller))
    }),
    ("call: an arrival at an empty queue takes the turn", |unit, callers, caller, task| {
        moving(unit, callers, caller, task, |before| (!before.has_work(caller)).then_some(caller))
    }),
    ("call: an arrival at a lower caller takes the turn", |unit, callers, caller, task| {
        moving(unit, callers, caller, task, |before| (caller < before.turn).then_some(caller))
    }),
    ("call: an arrival hands the turn on", |unit, callers, caller, task| {
        moving(unit, callers, caller, task, |before| Some(before.after(before.turn)))
    }),
    ("call: an arrival of the one whose turn it is hands it on", |unit, callers, caller, task| {
        moving(unit, callers, caller, task, |before| (caller == before.turn).then_some(before.after(caller)))
    }),
    ("call: an arrival sets the turn back", |unit, callers, caller, task| moving(unit, callers, caller, task, |_| Some(1))),
    ("call: an arrival hands the turn of one without work on, as a time unit does", |unit, callers, caller, task| {
        calling(unit, callers, caller, task, |_, callers| callers.turn = callers.with_work_from(callers.turn).unwrap_or(callers.turn))
    }),
    ("call: an arrival that is refused by 2 hands the turn on", |unit, callers, caller, task| {
        at_refusal(unit, callers, caller, task, 2, |callers| {
            callers.turn = callers.after(callers.turn);
            Err(2)
        })
    }),
    ("call: an arrival that is refused by 14 hands the turn on", |unit, callers, caller, task| {
        at_refusal(unit, callers, caller, task, NO_PLACE, |callers| {
            callers.turn = callers.after(callers.turn);
            Err(NO_PLACE)
        })
    }),
    ("call: an arrival that is refused by 18 hands the turn on", |unit, callers, caller, task| {
        at_refusal(unit, callers, caller, task, NO_CALLER, |callers| {
            callers.turn = callers.after(callers.turn);
            Err(NO_CALLER)
        })
    }),
];

// ---------------------------------------------------------------------------------------------------------------------------------
// Time units

/// With other rules: who is tried, and whose turn it is after a start. Where none is started it is the turn of the one who was tried.
fn ruled(
    unit: &Unit,
    bank: &mut Bank,
    callers: &mut Callers,
    due: impl Fn(&Bank, &Callers) -> Option<u32>,
    next: impl Fn(&Callers, u32) -> u32,
) -> Started {
    if callers.count == 0 {
        return Err(NO_CALLER);
    }
    let tried = due(bank, callers);
    callers.turn = tried.unwrap_or(callers.turn);
    let oldest = tried.and_then(|caller| callers.queue(caller).first().copied()).filter(|task| started(unit, bank, task.tag));
    match oldest {
        Some(_) => {
            let caller = callers.turn;
            callers.queue_mut(caller).remove(0);
            callers.turn = next(callers, caller);
            Ok(oldest.map(|task| (caller, task)))
        }
        None => {
            bank.tick();
            Ok(None)
        }
    }
}

/// As it is right.
fn due(_: &Bank, callers: &Callers) -> Option<u32> {
    callers.with_work_from(callers.turn)
}

fn next(callers: &Callers, caller: u32) -> u32 {
    callers.with_work_from(callers.after(caller)).unwrap_or(caller)
}

/// With another turn after a start.
fn followed(unit: &Unit, bank: &mut Bank, callers: &mut Callers, next: impl Fn(&Callers, u32) -> u32) -> Started {
    ruled(unit, bank, callers, due, next)
}

/// With another one who is tried.
fn trying(unit: &Unit, bank: &mut Bank, callers: &mut Callers, due: impl Fn(&Bank, &Callers) -> Option<u32>) -> Started {
    ruled(unit, bank, callers, due, next)
}

/// With something done where none is started: to the bank as it was before and to the callers, who are as they were before too.
fn at_none(unit: &Unit, bank: &mut Bank, callers: &mut Callers, then: impl Fn(&mut Bank, &mut Callers)) -> Started {
    let (mut old_bank, mut old_callers) = (bank.clone(), callers.clone());
    let started = turn(unit, bank, callers)?;
    if started.is_none() {
        then(&mut old_bank, &mut old_callers);
        (*bank, *callers) = (old_bank, old_callers);
    }
    Ok(started)
}

/// The turn of the one who has it, or to whom it is handed on.
fn hand_on(callers: &mut Callers) {
    callers.turn = callers.with_work_from(callers.turn).unwrap_or(callers.turn);
}

/// With the bank and the turn as they are after a unit without a start, and something done to the tasks of the one who is held back.
fn holding_back(unit: &Unit, bank: &mut Bank, callers: &mut Callers, then: impl Fn(&mut Queue)) -> Started {
    at_none(unit, bank, callers, |bank, callers| {
        bank.tick();
        hand_on(callers);
        then(callers.queue_mut(callers.turn));
    })
}

/// With something else where there are no callers yet.
fn without(unit: &Unit, bank: &mut Bank, callers: &mut Callers, then: impl Fn(&mut Bank) -> Started) -> Started {
    if callers.count == 0 {
        return then(bank);
    }
    turn(unit, bank, callers)
}

/// With another bank after a start, from the one before it, the caller and the function.
fn banking(unit: &Unit, bank: &mut Bank, callers: &mut Callers, change: impl Fn(&Bank, u32, u32) -> Bank) -> Started {
    let old = bank.clone();
    let started = turn(unit, bank, callers)?;
    if let Some((caller, task)) = started {
        *bank = change(&old, caller, task.tag);
    }
    Ok(started)
}

/// The one who is due starts where it is so, whatever the bank says: from the bank, the caller and the function.
fn granting(unit: &Unit, bank: &mut Bank, callers: &mut Callers, is_granted: impl Fn(&Bank, u32, u32) -> bool) -> Started {
    if callers.count == 0 {
        return Err(NO_CALLER);
    }
    hand_on(callers);
    let caller = callers.turn;
    let oldest = callers.queue(caller).first().copied().filter(|task| is_granted(bank, caller, task.tag));
    bank.tick();
    if let Some(task) = oldest {
        *bank = joined(bank, &rows(unit, task.tag));
        callers.queue_mut(caller).remove(0);
        callers.turn = next(callers, caller);
    }
    Ok(oldest.map(|task| (caller, task)))
}

/// With other tasks of all callers after a start, from those before it and the caller; the turn is as it is right.
fn leaving(unit: &Unit, bank: &mut Bank, callers: &mut Callers, change: impl Fn(&mut Callers, u32)) -> Started {
    let mut old = callers.clone();
    let started = turn(unit, bank, callers)?;
    if let Some((caller, _)) = started {
        change(&mut old, caller);
        callers.queues = old.queues;
    }
    Ok(started)
}

/// The one who is due starts another of its tasks than the oldest, where the bank grants that.
fn choosing(unit: &Unit, bank: &mut Bank, callers: &mut Callers, choose: impl Fn(&Bank, &Queue) -> Option<usize>) -> Started {
    let Some(caller) = callers.with_work_from(callers.turn) else { return turn(unit, bank, callers) };
    if let Some(place) = choose(bank, callers.queue(caller)) {
        let task = callers.queue_mut(caller).remove(place);
        callers.queue_mut(caller).insert(0, task);
        let mut order: Queue = callers.queue(caller).clone();
        let started = turn(unit, bank, callers)?;
        if started.is_none() {
            let task = order.remove(0);
            order.insert(place, task);
            *callers.queue_mut(caller) = order;
        }
        return Ok(started);
    }
    turn(unit, bank, callers)
}

/// Another task is told than the one that was started.
fn telling(unit: &Unit, bank: &mut Bank, callers: &mut Callers, change: impl Fn((u32, Task), &Callers) -> (u32, Task)) -> Started {
    Ok(turn(unit, bank, callers)?.map(|started| change(started, callers)))
}

/// The callers, going back round from the one before this one, which comes last.
fn back(callers: &Callers, caller: u32) -> impl Iterator<Item = u32> {
    (1..caller).rev().chain((caller..=callers.count).rev())
}

fn oldest_granted(bank: &Bank, callers: &Callers, caller: u32) -> bool {
    callers.queue(caller).first().is_some_and(|task| !bank.holds_back(task.tag))
}

const TURN_FAULTS: &[(&str, Turn)] = &[
    // whose turn it is after a start
    ("turn: the turn stays after a start", |unit, bank, callers| followed(unit, bank, callers, |_, caller| caller)),
    ("turn: the turn stays while its caller has work", |unit, bank, callers| {
        followed(unit, bank, callers, |callers, caller| callers.with_work_from(caller).unwrap_or(caller))
    }),
    ("turn: after a start the turn goes to the next caller, with work or without", |unit, bank, callers| {
        followed(unit, bank, callers, |callers, caller| callers.after(caller))
    }),
    ("turn: after a start the turn goes on past the next caller", |unit, bank, callers| {
        followed(unit, bank, callers, |callers, caller| callers.with_work_from(callers.after(callers.after(caller))).unwrap_or(caller))
    }),
    ("turn: the turn goes back round", |unit, bank, callers| {
        followed(unit, bank, callers, |callers, caller| back(callers, caller).find(|other| callers.has_work(*other)).unwrap_or(caller))
    }),
    ("turn: after a start the turn goes to the lowest caller with work", |unit, bank, callers| {
        followed(unit, bank, callers, |callers, caller| callers.with_work_from(1).unwrap_or(caller))
    }),
    ("turn: after a start the turn does not go round", |unit, bank, callers| {
        followed(unit, bank, callers, |callers, caller| (caller + 1..=callers.count).find(|it| callers.has_work(*it)).unwrap_or(caller))
    }),
    ("turn: after a start the turn goes to the one with most tasks", |unit, bank, callers| {
        followed(unit, bank, callers, |callers, caller| {
            let most = callers.round(callers.after(caller)).max_by_key(|other| callers.queue(*other).len());
            most.filter(|other| callers.has_work(*other)).unwrap_or(caller)
        })
    }),
    ("turn: after a start the turn leaves the starter, though nobody else has work", |unit, bank, callers| {
        followed(unit, bank, callers, |callers, caller| {
            let other = callers.round(caller).skip(1).find(|other| callers.has_work(*other));
            other.unwrap_or(callers.after(caller))
        })
    }),
    ("turn: the turn goes on where nobody is left", |unit, bank, callers| {
        followed(unit, bank, callers, |callers, caller| callers.with_work_from(callers.after(caller)).unwrap_or(callers.after(caller)))
    }),
    ("turn: the turn is set back where nobody is left", |unit, bank, callers| {
        followed(unit, bank, callers, |callers, caller| callers.with_work_from(callers.after(caller)).unwrap_or(1))
    }),
    ("turn: after a start the turn goes to one whose oldest would be granted", |unit, bank, callers| {
        let started = turn(unit, bank, callers)?;
        if let Some((caller, _)) = started {
            let granted = callers.round(callers.after(caller)).find(|other| oldest_granted(bank, callers, *other));
            callers.turn = granted.unwrap_or(callers.turn);
        }
        Ok(started)
    }),
    // who is tried
    ("turn: the lowest caller with work starts", |unit, bank, callers| trying(unit, bank, callers, |_, callers| callers.with_work_from(1))),
    ("turn: the highest caller with work starts", |unit, bank, callers| {
        trying(unit, bank, callers, |_, callers| (1..=callers.count).rev().find(|caller| callers.has_work(*caller)))
    }),
    ("turn: the one with most tasks starts", |unit, bank, callers| {
        trying(unit, bank, callers, |_, callers| {
            let most = callers.round(callers.turn).max_by_key(|caller| callers.queue(*caller).len());
            most.filter(|caller| callers.has_work(*caller))
        })
    }),
    ("turn: the one with fewest tasks starts", |unit, bank, callers| {
        trying(unit, bank, callers, |_, callers| {
            callers.round(callers.turn).filter(|caller| callers.has_work(*caller)).min_by_key(|caller| callers.queue(*caller).len())
        })
    }),
    ("turn: the first whose oldest is granted starts", |unit, bank, callers| {
        trying(unit, bank, callers, |bank, callers| {
            callers.round(callers.turn).find(|caller| oldest_granted(bank, callers, *caller)).or(due(bank, callers))
        })
    }),
    ("turn: where the one who is due is held back, the next one starts", |unit, bank, callers| {
        let turn_before = callers.with_work_from(callers.turn);
        let started = trying(unit, bank, callers, |bank, callers| {
            let first = due(bank, callers)?;
            let second = callers.with_work_from(callers.after(first))?;
            Some(if oldest_granted(bank, callers, first) || !oldest_granted(bank, callers, second) { first } else { second })
        })?;
        // it is still the turn of the one who is held back
        if let (Some(before), Some((caller, _))) = (turn_before, started) {
            if caller != before {
                callers.turn = before;
            }
        }
        Ok(started)
    }),
    ("turn: one without work keeps the turn", |unit, bank, callers| {
        trying(unit, bank, callers, |_, callers| callers.has_work(callers.turn).then_some(callers.turn))
    }),
    ("turn: from one without work the turn goes to the next caller, with work or without", |unit, bank, callers| {
        trying(unit, bank, callers, |bank, callers| {
            due(bank, callers).map(|caller| if caller == callers.turn { caller } else { callers.after(callers.turn) })
        })
    }),
    ("turn: from one without work the turn does not go round", |unit, bank, callers| {
        trying(unit, bank, callers, |_, callers| (callers.turn..=callers.count).find(|caller| callers.has_work(*caller)))
    }),
    ("turn: from one without work the turn goes back round", |unit, bank, callers| {
        trying(unit, bank, callers, |_, callers| {
            [callers.turn].into_iter().chain(back(callers, callers.turn)).find(|caller| callers.has_work(*caller))
        })
    }),
    ("turn: from one without work the turn goes to the lowest caller with work", |unit, bank, callers| {
        trying(unit, bank, callers, |_, callers| callers.with_work_from(if callers.has_work(callers.turn) { callers.turn } else { 1 }))
    }),
    ("turn: it takes a time unit to hand the turn on", |unit, bank, callers| {
        let Some(caller) = callers.with_work_from(callers.turn).filter(|caller| *caller != callers.turn) else {
            return turn(unit, bank, callers);
        };
        callers.turn = caller;
        bank.tick();
        Ok(None)
    }),
    ("turn: it is a tick besides to hand the turn on", |unit, bank, callers| {
        if callers.with_work_from(callers.turn).is_some_and(|caller| caller != callers.turn) {
            bank.tick();
        }
        turn(unit, bank, callers)
    }),
    ("turn: the turn is not handed on where the bank does not grant the start", |unit, bank, callers| {
        at_none(unit, bank, callers, |bank, _| bank.tick())
    }),
    ("turn: the turn goes on where the bank does not grant the start", |unit, bank, callers| {
        at_none(unit, bank, callers, |bank, callers| {
            bank.tick();
            hand_on(callers);
            callers.turn = next(callers, callers.turn);
        })
    }),
    ("turn: the turn goes back to caller 1 where the bank does not grant the start", |unit, bank, callers| {
        at_none(unit, bank, callers, |bank, callers| {
            bank.tick();
            callers.turn = 1;
        })
    }),
    ("turn: the turn goes on where nobody waits", |unit, bank, callers| {
        at_none(unit, bank, callers, |bank, callers| {
            bank.tick();
            hand_on(callers);
            if callers.waiting() == 0 {
                callers.turn = callers.after(callers.turn);
            }
        })
    }),
    ("turn: the turn is set back where nobody waits", |unit, bank, callers| {
        at_none(unit, bank, callers, |bank, callers| {
            bank.tick();
            hand_on(callers);
            if callers.waiting() == 0 {
                callers.turn = 1;
            }
        })
    }),
    ("turn: the turn goes on with every unit", |unit, bank, callers| {
        let before = callers.turn;
        let started = turn(unit, bank, callers)?;
        callers.turn = callers.after(before);
        Ok(started)
    }),
    ("turn: the last caller is passed over", |unit, bank, callers| {
        trying(unit, bank, callers, |bank, callers| {
            let others = callers.round(callers.turn).filter(|caller| *caller < callers.count);
            others.into_iter().find(|caller| callers.has_work(*caller)).or(due(bank, callers))
        })
    }),
    ("turn: caller 4 is never tried", |unit, bank, callers| {
        trying(unit, bank, callers, |_, callers| callers.round(callers.turn).find(|caller| *caller < 4 && callers.has_work(*caller)))
    }),
    // which of its tasks
    ("turn: the youngest of the caller is started", |unit, bank, callers| {
        choosing(unit, bank, callers, |_, queue| queue.len().checked_sub(1))
    }),
    ("turn: the oldest of the caller that the bank grants is started", |unit, bank, callers| {
        choosing(unit, bank, callers, |bank, queue| queue.iter().position(|task| !bank.holds_back(task.tag)))
    }),
    ("turn: the lowest tag of the caller is started first", |unit, bank, callers| {
        choosing(unit, bank, callers, |_, queue| (0..queue.len()).min_by_key(|place| queue[*place].tag))
    }),
    ("turn: the lowest ticket of the caller is started first", |unit, bank, callers| {
        choosing(unit, bank, callers, |_, queue| (0..queue.len()).min_by_key(|place| queue[*place].ticket))
    }),
    // where it is started
    ("turn: the oldest is started where the bank does not grant it", |unit, bank, callers| granting(unit, bank, callers, |_, _, _| true)),
    ("turn: register 1 decides", |unit, bank, callers| granting(unit, bank, callers, |bank, _, _| !bank.holds_back(1))),
    ("turn: the register of the caller's number decides", |unit, bank, callers| {
        granting(unit, bank, callers, |bank, caller, _| !bank.holds_back(caller))
    }),
    ("turn: all registers decide", |unit, bank, callers| {
        granting(unit, bank, callers, |bank, _, _| (1..=REGISTERS as u32).all(|tag| !bank.holds_back(tag)))
    }),
    ("turn: the bit after the shift decides", |unit, bank, callers| {
        granting(unit, bank, callers, |bank, _, tag| !ticked(bank).holds_back(tag))
    }),
    ("turn: on an empty bank alone is any started", |unit, bank, callers| {
        granting(unit, bank, callers, |bank, _, _| bank.words() == [0; REGISTERS])
    }),
    // what becomes of the bank
    ("turn: no tick where none is started", |unit, bank, callers| at_none(unit, bank, callers, |_, callers| hand_on(callers))),
    ("turn: no tick where nobody waits", |unit, bank, callers| {
        at_none(unit, bank, callers, |bank, callers| {
            hand_on(callers);
            if callers.waiting() > 0 {
                bank.tick();
            }
        })
    }),
    ("turn: no tick where the one who is due is held back", |unit, bank, callers| {
        at_none(unit, bank, callers, |bank, callers| {
            hand_on(callers);
            if callers.waiting() == 0 {
                bank.tick();
            }
        })
    }),
    ("turn: a tick for each caller where nobody waits", |unit, bank, callers| {
        at_none(unit, bank, callers, |bank, callers| {
            hand_on(callers);
            let ticks = if callers.waiting() == 0 { callers.count } else { 1 };
            (0..ticks).for_each(|_| bank.tick());
        })
    }),
    ("turn: the bank is emptied where nobody waits", |unit, bank, callers| {
        at_none(unit, bank, callers, |bank, callers| {
            bank.tick();
            hand_on(callers);
            if callers.waiting() == 0 {
                *bank = Bank::of_words(&[0; REGISTERS]);
            }
        })
    }),
    ("turn: a start leaves the bank as it is", |unit, bank, callers| banking(unit, bank, callers, |bank, _, _| bank.clone())),
    ("turn: a start is a tick for the bank", |unit, bank, callers| banking(unit, bank, callers, |bank, _, _| ticked(bank))),
    ("turn: a start does not shift the registers", |unit, bank, callers| {
        banking(unit, bank, callers, |bank, _, tag| joined(bank, &rows(unit, tag)))
    }),
    ("turn: a start and then a tick", |unit, bank, callers| {
        banking(unit, bank, callers, |bank, _, tag| ticked(&joined(&ticked(bank), &rows(unit, tag))))
    }),
    ("turn: the rows are those of function 1", |unit, bank, callers| {
        banking(unit, bank, callers, |bank, _, _| joined(&ticked(bank), &rows(unit, 1)))
    }),
    ("turn: the rows are those of the function of the caller's number", |unit, bank, callers| {
        banking(unit, bank, callers, |bank, caller, tag| {
            joined(&ticked(bank), &rows(unit, if caller <= unit.functions { caller } else { tag }))
        })
    }),
    ("turn: row Q of M_R in place of row R of M_Q", |unit, bank, callers| {
        banking(unit, bank, callers, |bank, _, tag| {
            let columns: Vec<Vec<bool>> = (1..=unit.functions).map(|other| rows(unit, other).remove(tag as usize - 1)).collect();
            joined(&ticked(bank), &columns)
        })
    }),
    ("turn: the rows of the other functions are left out", |unit, bank, callers| {
        banking(unit, bank, callers, |bank, _, tag| {
            let mut rows = rows(unit, tag);
            let is_other = |other: &usize| *other != tag as usize - 1;
            (0..rows.len()).filter(is_other).for_each(|other| rows[other].fill(false));
            joined(&ticked(bank), &rows)
        })
    }),
    // which tasks wait then
    ("turn: a task that is started stays", |unit, bank, callers| leaving(unit, bank, callers, |_, _| {})),
    ("turn: a task that is started goes to the end", |unit, bank, callers| {
        leaving(unit, bank, callers, |callers, caller| callers.queue_mut(caller).rotate_left(1))
    }),
    ("turn: the caller's youngest leaves in its place", |unit, bank, callers| {
        leaving(unit, bank, callers, |callers, caller| {
            callers.queue_mut(caller).pop();
        })
    }),
    ("turn: the one after it leaves too", |unit, bank, callers| {
        leaving(unit, bank, callers, |callers, caller| {
            let queue = callers.queue_mut(caller);
            queue.drain(..queue.len().min(2));
        })
    }),
    ("turn: all of its caller leave", |unit, bank, callers| {
        leaving(unit, bank, callers, |callers, caller| callers.queue_mut(caller).clear())
    }),
    ("turn: the oldest of every caller leaves", |unit, bank, callers| {
        leaving(unit, bank, callers, |callers, _| {
            for queue in &mut callers.queues {
                queue.drain(..queue.len().min(1));
            }
        })
    }),
    ("turn: caller 1's oldest leaves in its place", |unit, bank, callers| {
        leaving(unit, bank, callers, |callers, caller| {
            let other = if callers.has_work(1) { 1 } else { caller };
            callers.queue_mut(other).remove(0);
        })
    }),
    ("turn: all tasks as it leave", |unit, bank, callers| {
        leaving(unit, bank, callers, |callers, caller| {
            let first = callers.queue(caller)[0];
            callers.queues.iter_mut().for_each(|queue| queue.retain(|task| *task != first));
        })
    }),
    ("turn: the last one takes the free place", |unit, bank, callers| {
        leaving(unit, bank, callers, |callers, caller| {
            callers.queue_mut(caller).swap_remove(0);
        })
    }),
    ("turn: the 8th does not move", |unit, bank, callers| {
        leaving(unit, bank, callers, |callers, caller| {
            let queue = callers.queue_mut(caller);
            let seventh = queue.get(6).copied().filter(|_| queue.len() == CALLER_ROOM);
            queue.remove(0);
            if let Some(seventh) = seventh {
                queue[6] = seventh;
            }
        })
    }),
    ("turn: the oldest leaves where it is held back", |unit, bank, callers| {
        holding_back(unit, bank, callers, |queue| drop(queue.drain(..queue.len().min(1))))
    }),
    ("turn: the oldest goes to the end where it is held back", |unit, bank, callers| {
        holding_back(unit, bank, callers, |queue| {
            if !queue.is_empty() {
                queue.rotate_left(1);
            }
        })
    }),
    ("turn: all tasks leave where nobody starts", |unit, bank, callers| {
        at_none(unit, bank, callers, |bank, callers| {
            bank.tick();
            hand_on(callers);
            callers.queues = Default::default();
        })
    }),
    ("turn: two callers start where both are granted", |unit, bank, callers| {
        let first = turn(unit, bank, callers)?;
        if first.is_some() && oldest_granted(bank, callers, callers.turn) {
            turn(unit, bank, callers)?;
        }
        Ok(first)
    }),
    ("turn: time passes until one is started", |unit, bank, callers| loop {
        let started = turn(unit, bank, callers)?;
        if started.is_some() || callers.waiting() == 0 {
            return Ok(started);
        }
    }),
    // where there are no callers, and what is told
    ("turn: a tick where there are no callers yet", |unit, bank, callers| {
        without(unit, bank, callers, |bank| {
            bank.tick();
            Ok(None)
        })
    }),
    ("turn: refused where there are no callers yet, and a tick", |unit, bank, callers| {
        without(unit, bank, callers, |bank| {
            bank.tick();
            Err(NO_CALLER)
        })
    }),
    ("turn: none where there are no callers yet", |unit, bank, callers| without(unit, bank, callers, |_| Ok(None))),
    ("turn: refused by 1 where there are no callers yet", |unit, bank, callers| without(unit, bank, callers, |_| Err(1))),
    ("turn: refused by 14 where there are no callers yet", |unit, bank, callers| without(unit, bank, callers, |_| Err(NO_PLACE))),
    ("turn: refused by 18 where nobody waits", |unit, bank, callers| {
        if callers.waiting() == 0 {
            return Err(NO_CALLER);
        }
        turn(unit, bank, callers)
    }),
    ("turn: refused by 18 where the one whose turn it is has no work", |unit, bank, callers| {
        if callers.count > 0 && !callers.has_work(callers.turn) {
            return Err(NO_CALLER);
        }
        turn(unit, bank, callers)
    }),
    ("turn: refused by 10 where the one who is due is held back", |unit, bank, callers| {
        let waits = callers.waiting() > 0;
        match turn(unit, bank, callers)? {
            None if waits => Err(10),
            started => Ok(started),
        }
    }),
    ("turn: the caller is told whose turn it is then", |unit, bank, callers| {
        telling(unit, bank, callers, |(_, task), callers| (callers.turn, task))
    }),
    ("turn: caller 1 is told", |unit, bank, callers| telling(unit, bank, callers, |(_, task), _| (1, task))),
    ("turn: callers are told from 0 on", |unit, bank, callers| telling(unit, bank, callers, |(caller, task), _| (caller - 1, task))),
    ("turn: caller and tag are told the other way about", |unit, bank, callers| {
        telling(unit, bank, callers, |(caller, task), _| (task.tag, Task { tag: caller, ..task }))
    }),
    ("turn: tag and ticket are told the other way about", |unit, bank, callers| {
        telling(unit, bank, callers, |(caller, Task { tag, ticket }), _| (caller, Task { tag: ticket, ticket: tag }))
    }),
    ("turn: a ticket is told with 16 bits", |unit, bank, callers| {
        telling(unit, bank, callers, |(caller, task), _| (caller, Task { ticket: task.ticket % 65_536, ..task }))
    }),
    ("turn: a ticket is told with 31 bits", |unit, bank, callers| {
        telling(unit, bank, callers, |(caller, task), _| (caller, Task { ticket: task.ticket % (1 << 31), ..task }))
    }),
];

/// As if there were four callers.
fn of_four<T>(callers: &mut Callers, then: impl FnOnce(&mut Callers) -> T) -> T {
    let count = callers.count;
    if count > 0 {
        callers.count = MOST_CALLERS;
    }
    let reply = then(callers);
    callers.count = count;
    reply
}

/// Queues beyond C that are read or changed.
const BEYOND_FAULTS: &[(&str, Shared)] = &[
    (
        "callers: those beyond C are there, but are never served",
        Shared { call: |unit, callers, caller, task| of_four(callers, |callers| call(unit, callers, caller, task)), ..SHARED },
    ),
    (
        "callers: those beyond C keep what waits, and are served",
        Shared {
            count: |callers, number| {
                counting(callers, number, |before, callers| {
                    callers.queues[number as usize..].clone_from_slice(&before.queues[number as usize..])
                })
            },
            turn: |unit, bank, callers| of_four(callers, |callers| turn(unit, bank, callers)),
            ..SHARED
        },
    ),
    (
        "callers: those beyond C keep what waits until there are so many again",
        Shared {
            count: |callers, number| {
                counting(callers, number, |before, callers| {
                    callers.queues[before.count as usize..].clone_from_slice(&before.queues[before.count as usize..]);
                    if number < before.count {
                        callers.queues[number as usize..].clone_from_slice(&before.queues[number as usize..]);
                    }
                })
            },
            ..SHARED
        },
    ),
    (
        "call: 14 comes before 18 where one beyond C was full",
        Shared {
            count: |callers, number| {
                counting(callers, number, |before, callers| {
                    callers.queues[number as usize..].clone_from_slice(&before.queues[number as usize..])
                })
            },
            call: |unit, callers, caller, task| {
                let is_full = (1..=MOST_CALLERS).contains(&caller) && callers.queue(caller).len() >= CALLER_ROOM;
                if is_full && !callers.is_caller(caller) {
                    return Err(NO_PLACE);
                }
                call(unit, callers, caller, task)
            },
            ..SHARED
        },
    ),
];

/// The shared ports with one of these faults.
pub fn shared_faults() -> Vec<(&'static str, Shared)> {
    let of_counts = COUNT_FAULTS.iter().map(|(what, count)| (*what, Shared { count: *count, ..SHARED }));
    let of_calls = CALL_FAULTS.iter().map(|(what, call)| (*what, Shared { call: *call, ..SHARED }));
    let of_turns = TURN_FAULTS.iter().map(|(what, turn)| (*what, Shared { turn: *turn, ..SHARED }));
    of_counts.chain(of_calls).chain(of_turns).chain(BEYOND_FAULTS.iter().copied()).collect()
}

// ---------------------------------------------------------------------------------------------------------------------------------
// The session

impl Faulty {
    /// With something of the callers kept or changed after an accepted line of these commands, from those before it.
    fn having(&mut self, line: &[u8], place: usize, names: &[&str], then: impl Fn(&Callers, &mut Console<Folder>, &Answer)) -> Answer {
        let before = self.console.callers.clone();
        let answer = self.answer(line, place);
        if names.iter().any(|name| is(&answer, name, "ok")) {
            then(&before, &mut self.console, &answer);
        }
        answer
    }

    /// With tasks kept that waited before, where it is so.
    fn keeping_calls(
        &mut self,
        line: &[u8],
        place: usize,
        names: &[&str],
        is_kept: impl Fn(&Console<Folder>, &Answer, &Task) -> bool,
    ) -> Answer {
        self.having(line, place, names, |before, console, answer| {
            let mut queues = before.queues.clone();
            queues.iter_mut().for_each(|queue| queue.retain(|task| is_kept(console, answer, task)));
            console.callers.queues = queues;
        })
    }

    /// The same where the line is in this special case.
    fn keeping_calls_at(&mut self, line: &[u8], place: usize, names: &[&str], what: &str) -> Answer {
        self.keeping_calls(line, place, names, |_, answer, _| answer.met.contains(&what))
    }

    /// With the turn kept where it is so, from the callers before.
    fn keeping_turn(&mut self, line: &[u8], place: usize, names: &[&str], is_kept: impl Fn(&Callers, &Answer) -> bool) -> Answer {
        self.having(line, place, names, |before, console, answer| {
            if is_kept(before, answer) {
                console.callers.turn = before.turn;
            }
        })
    }

    /// With another number of callers, where there are any.
    fn recounting(&mut self, line: &[u8], place: usize, names: &[&str], count: u32) -> Answer {
        self.having(line, place, names, |before, console, _| console.callers.count = before.count.min(1) * count)
    }

    /// With another text after a time unit of the callers' port, from the right one.
    fn telling_turn(&mut self, line: &[u8], place: usize, text: impl Fn(&str) -> Option<String>) -> Answer {
        self.instead(line, place, |answer, right| match answer.sort {
            Sort::Of("turn", ref told) if told == "started" || told == "none" => Some(text(right.trim_end())? + "\n"),
            _ => None,
        })
    }

    /// With a refusal in place of an accepted call, where it is so; its task does not wait then.
    fn refusing_call(&mut self, line: &[u8], place: usize, refusal: u32, holds: impl Fn(&Console<Folder>, u32) -> bool) -> Answer {
        let numbers: Vec<u32> = words_of(line).iter().skip(1).filter_map(|word| number(word)).collect();
        let is_task = numbers.len() == 3 && (1..=REGISTERS as u32).contains(&numbers[1]);
        let holds = is_task && holds(&self.console, numbers[1]);
        let before = self.console.callers.clone();
        let mut answer = self.answer(line, place);
        if holds && is(&answer, "call", "ok") {
            self.console.callers = before;
            answer.parts = vec![Part::Text(format!("refused {refusal}\n"))];
        }
        answer
    }

    /// With room for 8 calls of each caller in all, which are counted anew where it is so of its queue.
    fn counting_calls(&mut self, line: &[u8], place: usize, is_set_back: impl Fn(&Queue) -> bool) -> Answer {
        let mut answer = self.answer(line, place);
        let is_new = ["fresh", "load", "mark", "unmark", "small", "callers"].iter().any(|name| is(&answer, name, "ok"));
        for (count, queue) in self.counts.iter_mut().zip(&self.console.callers.queues) {
            if is_new || is_set_back(queue) {
                *count = 0;
            }
        }
        if is(&answer, "call", "ok") {
            let caller = number(words_of(line)[1]).expect("a caller");
            let count = &mut self.counts[caller as usize - 1];
            *count += 1;
            if *count > CALLER_ROOM {
                self.console.callers.queue_mut(caller).pop();
                answer.parts = vec![Part::Text("refused 14\n".to_string())];
            }
        }
        answer
    }
}

fn take_calls(console: &mut Console<Folder>) {
    console.callers.queues = Default::default();
}

fn set_back(console: &mut Console<Folder>) {
    console.callers.turn = 1;
}

fn take_callers(console: &mut Console<Folder>) {
    console.callers = Callers::new();
}

fn turn_on(console: &mut Console<Folder>) {
    console.callers.turn = console.callers.after(console.callers.turn);
}

fn empty_queue(console: &mut Console<Folder>) {
    console.queue.clear();
}

/// The oldest of the one who is due leaves.
fn take_due(console: &mut Console<Folder>) {
    if let Some(caller) = console.callers.with_work_from(console.callers.turn) {
        console.callers.queue_mut(caller).remove(0);
    }
}

/// The oldest of the one who is due is started where the bank grants it; no time passes else.
fn start_due(console: &mut Console<Folder>) {
    let (Some(unit), Some(caller)) = (&console.unit, console.callers.with_work_from(console.callers.turn)) else { return };
    if oldest_granted(&console.bank, &console.callers, caller) {
        let _ = turn(unit, &mut console.bank, &mut console.callers);
    }
}

fn unit_passed(told: &str) -> bool {
    told == "started" || told == "none"
}

/// Lines that leave the callers as they are, three faults for each.
macro_rules! untouched {
    ($(($what:literal, $said:expr, $($name:literal),+)),+ $(,)?) => {
        &[$(
            (concat!($what, ": the tasks are taken away"), |it, line, place| it.after(line, place, &[$($name),+], $said, take_calls)),
            (concat!($what, ": the turn is set back"), |it, line, place| it.after(line, place, &[$($name),+], $said, set_back)),
            (concat!($what, ": there are no callers then"), |it, line, place| it.after(line, place, &[$($name),+], $said, take_callers)),
        )+]
    };
}

pub const UNTOUCHED_FAULTS: &[(&str, Fault)] = untouched![
    ("a refused fresh", refused, "fresh"),
    ("a fresh that is not as expected", expected, "fresh"),
    ("a refused load", refused, "load"),
    ("a load of no file", no_file, "load"),
    ("a refused mark", refused, "mark"),
    ("a refused unmark", refused, "unmark"),
    ("an edit that is not as expected", expected, "mark", "unmark"),
    ("a search", ok, "search"),
    ("a refused search", refused, "search"),
    ("read", ok, "read"),
    ("vector and row", ok, "vector", "row"),
    ("states and greedy", ok, "states", "greedy"),
    ("bound, upper and constant", ok, "bound", "upper", "constant"),
    ("judge", |told| told == "yes" || told == "no", "judge"),
    ("a tick", ok, "tick"),
    ("a start by hand", ok, "start"),
    ("a refused start by hand", refused, "start"),
    ("bank", ok, "bank"),
    ("a save", ok, "save"),
    ("a save that is not written", not_written, "save"),
    ("list", ok, "list"),
    ("table", ok, "table"),
    ("diagram", ok, "diagram"),
    ("a loop", ok, "loop"),
    ("a refused loop", refused, "loop"),
    ("a record", ok, "record"),
    ("a refused record", refused, "record"),
    ("a record that is not written", not_written, "record"),
    ("report and ring", ok, "report", "ring"),
    ("a file that is no record", refused, "report", "ring"),
    ("a report of no file", no_file, "report", "ring"),
    ("a chart", ok, "simulate"),
    ("a refused chart", refused, "simulate"),
    ("delays", ok, "delays"),
    ("refused delays", refused, "delays"),
    ("delays that are not written", not_written, "delays"),
    ("an arrival", ok, "arrive"),
    ("a refused arrival", refused, "arrive"),
    ("an arrival that is not as expected", expected, "arrive"),
    ("a pass", unit_passed, "pass"),
    ("a pass that is not as expected", expected, "pass"),
    ("queue", ok, "queue"),
    ("a refused number of callers", refused, "callers"),
    ("a number of callers that is not as expected", expected, "callers"),
    ("a refused call", refused, "call"),
    ("a call that is not as expected", expected, "call"),
    ("a turn that is not as expected", expected, "turn"),
    ("totals", |told| told == "tables", "small"),
    ("a refused small table", refused, "small"),
    ("a small table that is not as expected", expected, "small"),
];

pub const CALLER_FAULTS: &[(&str, Fault)] = &[
    // what takes the callers' tasks away
    ("fresh keeps the callers' tasks", |it, line, place| it.keeping_calls(line, place, &["fresh"], |_, _, _| true)),
    ("load keeps the callers' tasks", |it, line, place| it.keeping_calls(line, place, &["load"], |_, _, _| true)),
    ("mark keeps the callers' tasks", |it, line, place| it.keeping_calls(line, place, &["mark"], |_, _, _| true)),
    ("unmark keeps the callers' tasks", |it, line, place| it.keeping_calls(line, place, &["unmark"], |_, _, _| true)),
    ("a small table keeps the callers' tasks", |it, line, place| it.keeping_calls(line, place, &["small"], |_, _, _| true)),
    ("a mark that stood keeps the callers' tasks", |it, line, place| it.keeping_calls_at(line, place, &["mark"], "a mark that stood")),
    ("an unmark of no mark keeps the callers' tasks", |it, line, place| {
        it.keeping_calls_at(line, place, &["unmark"], "an unmark of no mark")
    }),
    ("an edit beside an empty bank and queue keeps the callers' tasks", |it, line, place| {
        it.keeping_calls_at(line, place, &["mark", "unmark"], "callers' tasks taken away by an edit beside an empty bank and queue")
    }),
    ("a new unit beside an empty bank and queue keeps the callers' tasks", |it, line, place| {
        it.keeping_calls_at(line, place, &["fresh", "load"], "callers' tasks taken away by a new unit beside an empty bank and queue")
    }),
    ("a small table beside an empty bank and queue keeps the callers' tasks", |it, line, place| {
        it.keeping_calls_at(line, place, &["small"], "callers' tasks taken away by a new unit beside an empty bank and queue")
    }),
    ("a new unit keeps the tasks whose function is there", |it, line, place| {
        it.keeping_calls(line, place, &["fresh", "load"], |console, _, task| {
            console.unit.as_ref().is_some_and(|unit| task.tag <= unit.functions)
        })
    }),
    ("an edit keeps the callers' tasks of other functions", |it, line, place| {
        let tag = words_of(line).get(1).and_then(|word| number(word));
        it.keeping_calls(line, place, &["mark", "unmark"], |_, _, task| Some(task.tag) != tag)
    }),
    ("an edit keeps the callers' tasks of its function", |it, line, place| {
        let tag = words_of(line).get(1).and_then(|word| number(word));
        it.keeping_calls(line, place, &["mark", "unmark"], |_, _, task| Some(task.tag) == tag)
    }),
    ("an edit takes caller 1's tasks away alone", |it, line, place| {
        it.having(line, place, &["mark", "unmark"], |before, console, _| {
            console.callers.queues[1..].clone_from_slice(&before.queues[1..]);
        })
    }),
    ("an edit keeps caller 1's tasks", |it, line, place| {
        it.having(line, place, &["mark", "unmark"], |before, console, _| console.callers.queues[0] = before.queues[0].clone())
    }),
    ("an edit takes the tasks of the one whose turn it is away alone", |it, line, place| {
        it.having(line, place, &["mark", "unmark"], |before, console, _| {
            console.callers.queues = before.queues.clone();
            console.callers.queue_mut(before.turn).clear();
        })
    }),
    ("a new unit keeps the last caller's tasks", |it, line, place| {
        it.having(line, place, &["fresh", "load"], |before, console, _| {
            if before.count > 0 {
                *console.callers.queue_mut(before.count) = before.queue(before.count).clone();
            }
        })
    }),
    // what sets the turn back
    ("fresh keeps the turn", |it, line, place| it.keeping_turn(line, place, &["fresh"], |_, _| true)),
    ("load keeps the turn", |it, line, place| it.keeping_turn(line, place, &["load"], |_, _| true)),
    ("mark keeps the turn", |it, line, place| it.keeping_turn(line, place, &["mark"], |_, _| true)),
    ("unmark keeps the turn", |it, line, place| it.keeping_turn(line, place, &["unmark"], |_, _| true)),
    ("a small table keeps the turn", |it, line, place| it.keeping_turn(line, place, &["small"], |_, _| true)),
    ("a mark that stood keeps the turn", |it, line, place| {
        it.keeping_turn(line, place, &["mark"], |_, answer| answer.met.contains(&"a mark that stood"))
    }),
    ("an unmark of no mark keeps the turn", |it, line, place| {
        it.keeping_turn(line, place, &["unmark"], |_, answer| answer.met.contains(&"an unmark of no mark"))
    }),
    ("an edit keeps the turn where nobody waits", |it, line, place| {
        it.keeping_turn(line, place, &["mark", "unmark"], |before, _| before.waiting() == 0)
    }),
    ("a new unit keeps the turn where nobody waits", |it, line, place| {
        it.keeping_turn(line, place, &["fresh", "load"], |before, _| before.waiting() == 0)
    }),
    ("an edit hands the turn on", |it, line, place| {
        it.having(line, place, &["mark", "unmark"], |before, console, _| {
            if before.count > 0 {
                console.callers.turn = before.after(before.turn);
            }
        })
    }),
    // what leaves the callers there
    ("fresh takes the callers away", |it, line, place| it.recounting(line, place, &["fresh"], 0)),
    ("load takes the callers away", |it, line, place| it.recounting(line, place, &["load"], 0)),
    ("mark takes the callers away", |it, line, place| it.recounting(line, place, &["mark"], 0)),
    ("unmark takes the callers away", |it, line, place| it.recounting(line, place, &["unmark"], 0)),
    ("a small table takes the callers away", |it, line, place| it.recounting(line, place, &["small"], 0)),
    ("a small table leaves one caller", |it, line, place| it.recounting(line, place, &["small"], 1)),
    ("an edit leaves one caller", |it, line, place| it.recounting(line, place, &["mark", "unmark"], 1)),
    ("an edit makes it four callers", |it, line, place| it.recounting(line, place, &["mark", "unmark"], 4)),
    ("a new unit leaves one caller", |it, line, place| it.recounting(line, place, &["fresh", "load"], 1)),
    ("a new unit makes it four callers", |it, line, place| it.recounting(line, place, &["fresh", "load"], 4)),
    ("a new unit makes it four callers where there are none yet", |it, line, place| {
        it.having(line, place, &["fresh", "load"], |before, console, _| {
            if before.count == 0 {
                console.callers.count = MOST_CALLERS;
            }
        })
    }),
    ("an edit makes it one caller where there are none yet", |it, line, place| {
        it.having(line, place, &["mark", "unmark"], |before, console, _| console.callers.count = before.count.max(1))
    }),
    ("an edit while no caller waits keeps the bank", |it, line, place| {
        it.keeping(line, place, &["mark", "unmark"], false, |_, answer| {
            answer.met.contains(&"a bank in use and a queue emptied by an edit while no caller waits")
        })
    }),
    ("a new unit while no caller waits keeps the bank", |it, line, place| {
        it.keeping(line, place, &["fresh", "load"], false, |_, answer| {
            answer.met.contains(&"a bank in use and a queue emptied by a new unit while no caller waits")
        })
    }),
    ("an edit while no caller waits keeps the queue", |it, line, place| {
        let old = it.console.queue.clone();
        it.having(line, place, &["mark", "unmark"], |before, console, _| {
            if before.waiting() == 0 {
                console.queue = old.clone();
            }
        })
    }),
    // lines that are no command
    ("a line that is no command takes the callers' tasks away", |it, line, place| {
        let answer = it.answer(line, place);
        if answer.sort == Sort::ExpectedCommand {
            take_calls(&mut it.console);
        }
        answer
    }),
    ("a comment takes the callers' tasks away", |it, line, place| {
        let answer = it.answer(line, place);
        if answer.sort == Sort::Comment {
            take_calls(&mut it.console);
        }
        answer
    }),
    ("a line that is too long takes the callers' tasks away", |it, line, place| {
        let answer = it.answer(line, place);
        if answer.sort == Sort::TooLong {
            take_calls(&mut it.console);
        }
        answer
    }),
    // what a number of callers leaves as it is
    ("a number of callers takes a time unit", |it, line, place| it.after(line, place, &["callers"], ok, tick)),
    ("a refused number of callers takes a time unit", |it, line, place| it.after(line, place, &["callers"], refused, tick)),
    ("a number of callers empties the bank", |it, line, place| it.after(line, place, &["callers"], ok, empty)),
    ("a refused number of callers empties the bank", |it, line, place| it.after(line, place, &["callers"], refused, empty)),
    ("a number of callers empties the queue", |it, line, place| it.after(line, place, &["callers"], ok, empty_queue)),
    ("a refused number of callers empties the queue", |it, line, place| it.after(line, place, &["callers"], refused, empty_queue)),
    ("a number of callers drops the plan", |it, line, place| it.after(line, place, &["callers"], ok, drop_plan)),
    ("a refused number of callers drops the plan", |it, line, place| it.after(line, place, &["callers"], refused, drop_plan)),
    ("a number of callers takes a mark away", |it, line, place| it.after(line, place, &["callers"], ok, take_mark)),
    ("a number of callers that is not as expected empties the queue", |it, line, place| {
        it.after(line, place, &["callers"], expected, empty_queue)
    }),
    // what a call leaves as it is
    ("a call takes a time unit", |it, line, place| it.after(line, place, &["call"], ok, tick)),
    ("a call that is refused by 2 takes a time unit", |it, line, place| it.after(line, place, &["call"], |told| told == "refused 2", tick)),
    ("a call that is refused by 14 takes a time unit", |it, line, place| {
        it.after(line, place, &["call"], |told| told == "refused 14", tick)
    }),
    ("a call that is refused by 18 takes a time unit", |it, line, place| {
        it.after(line, place, &["call"], |told| told == "refused 18", tick)
    }),
    ("a call empties the bank", |it, line, place| it.after(line, place, &["call"], ok, empty)),
    ("a refused call empties the bank", |it, line, place| it.after(line, place, &["call"], refused, empty)),
    ("a call empties the queue", |it, line, place| it.after(line, place, &["call"], ok, empty_queue)),
    ("a refused call empties the queue", |it, line, place| it.after(line, place, &["call"], refused, empty_queue)),
    ("a call drops the plan", |it, line, place| it.after(line, place, &["call"], ok, drop_plan)),
    ("a refused call drops the plan", |it, line, place| it.after(line, place, &["call"], refused, drop_plan)),
    ("a call takes a mark away", |it, line, place| it.after(line, place, &["call"], ok, take_mark)),
    ("a call starts the one who is due", |it, line, place| it.after(line, place, &["call"], ok, start_due)),
    ("a call is started where nobody waits", |it, line, place| {
        it.after(line, place, &["call"], ok, |console| {
            if console.callers.waiting() == 1 {
                start_due(console);
            }
        })
    }),
    ("a call that the bank holds back is refused by 10", |it, line, place| {
        it.refusing_call(line, place, 10, |console, tag| console.bank.holds_back(tag))
    }),
    ("those of a caller that were started still take room", |it, line, place| it.counting_calls(line, place, |_| false)),
    ("a caller has room again where none of its tasks waits alone", |it, line, place| {
        it.counting_calls(line, place, |queue| queue.is_empty())
    }),
    // what a time unit leaves as it is
    ("a turn with a start drops the plan", |it, line, place| it.after(line, place, &["turn"], |told| told == "started", drop_plan)),
    ("a turn without a start drops the plan", |it, line, place| it.after(line, place, &["turn"], |told| told == "none", drop_plan)),
    ("a refused turn drops the plan", |it, line, place| it.after(line, place, &["turn"], refused, drop_plan)),
    ("a turn with a start takes a mark away", |it, line, place| it.after(line, place, &["turn"], |told| told == "started", take_mark)),
    ("a turn with a start empties the queue", |it, line, place| it.after(line, place, &["turn"], |told| told == "started", empty_queue)),
    ("a turn without a start empties the queue", |it, line, place| it.after(line, place, &["turn"], |told| told == "none", empty_queue)),
    ("a refused turn empties the queue", |it, line, place| it.after(line, place, &["turn"], refused, empty_queue)),
    ("a refused turn empties the bank", |it, line, place| it.after(line, place, &["turn"], refused, empty)),
    ("a turn that is not as expected takes the oldest of the one who is due away", |it, line, place| {
        it.after(line, place, &["turn"], expected, take_due)
    }),
    // beside the queue and what is done by hand
    ("turn has a bank of its own", |it, line, place| {
        let is_unit = words_of(line) == [b"turn"];
        if is_unit {
            std::mem::swap(&mut it.console.bank, &mut it.other);
        }
        let answer = it.answer(line, place);
        if is_unit {
            std::mem::swap(&mut it.console.bank, &mut it.other);
        }
        if ["fresh", "load", "mark", "unmark", "small"].iter().any(|name| is(&answer, name, "ok")) {
            it.other = it.console.bank.clone();
        }
        answer
    }),
    ("turn starts the queue's oldest where nobody waits", |it, line, place| {
        let (bank, waits) = (it.console.bank.clone(), it.console.callers.waiting() > 0);
        let mut answer = it.answer(line, place);
        if let (Some(unit), true) = (&it.console.unit, is(&answer, "turn", "none") && !waits) {
            it.console.bank = bank;
            if let Some(Task { tag, ticket }) = queue::pass(unit, &mut it.console.bank, &mut it.console.queue) {
                answer.parts = vec![Part::Text(format!("started 1 {tag} {ticket}\n"))];
            }
        }
        answer
    }),
    ("turn takes the queue's oldest away", |it, line, place| {
        it.after(line, place, &["turn"], |told| told == "started", |console| drop(console.queue.drain(..console.queue.len().min(1))))
    }),
    ("pass starts a caller's oldest where none waits", |it, line, place| {
        let (bank, waits) = (it.console.bank.clone(), !it.console.queue.is_empty());
        let mut answer = it.answer(line, place);
        if let (Some(unit), true) = (&it.console.unit, is(&answer, "pass", "none") && !waits && it.console.callers.waiting() > 0) {
            it.console.bank = bank;
            if let Ok(Some((_, Task { tag, ticket }))) = turn(unit, &mut it.console.bank, &mut it.console.callers) {
                answer.parts = vec![Part::Text(format!("started {tag} {ticket}\n"))];
            }
        }
        answer
    }),
    ("pass takes the oldest of the one who is due away", |it, line, place| it.after(line, place, &["pass"], unit_passed, take_due)),
    ("pass hands the turn on", |it, line, place| it.after(line, place, &["pass"], unit_passed, turn_on)),
    ("a tick hands the turn on", |it, line, place| it.after(line, place, &["tick"], ok, turn_on)),
    ("a tick takes the oldest of the one who is due away", |it, line, place| it.after(line, place, &["tick"], ok, take_due)),
    ("a start by hand hands the turn on", |it, line, place| it.after(line, place, &["start"], ok, turn_on)),
    ("a start by hand takes the oldest of the one who is due away", |it, line, place| it.after(line, place, &["start"], ok, take_due)),
    ("a start by hand that is not granted hands the turn on", |it, line, place| {
        it.after(line, place, &["start"], |told| told == "refused 10", turn_on)
    }),
    ("an arrival waits at caller 1 too", |it, line, place| {
        it.after(line, place, &["arrive"], ok, |console| {
            if let (true, Some(task)) = (console.callers.count > 0, console.queue.last()) {
                console.callers.queues[0].push(*task);
                console.callers.queues[0].truncate(CALLER_ROOM);
            }
        })
    }),
    ("an arrival takes caller 1's turn", |it, line, place| it.after(line, place, &["arrive"], ok, set_back)),
    ("a call waits in the queue too", |it, line, place| {
        let numbers: Vec<u32> = words_of(line).iter().skip(1).filter_map(|word| number(word)).collect();
        let answer = it.answer(line, place);
        if is(&answer, "call", "ok") && it.console.queue.len() < MOST_WAITING {
            it.console.queue.push(Task { tag: numbers[1], ticket: numbers[2] });
        }
        answer
    }),
    ("the queue's tasks take the callers' room", |it, line, place| {
        it.refusing_call(line, place, NO_PLACE, |console, _| console.queue.len() >= CALLER_ROOM)
    }),
    ("the callers' tasks take the queue's room", |it, line, place| {
        let is_full = it.console.queue.len() + it.console.callers.waiting() >= MOST_WAITING;
        let mut answer = it.answer(line, place);
        if is_full && is(&answer, "arrive", "ok") {
            it.console.queue.pop();
            answer.parts = vec![Part::Text("refused 14\n".to_string())];
        }
        answer
    }),
    ("queue tells how many of the callers' tasks wait too", |it, line, place| {
        let more = it.console.callers.waiting();
        let own = it.console.queue.len();
        it.instead(line, place, |answer, text| {
            is(answer, "queue", "ok").then(|| text.replacen(&format!("queue {own}:"), &format!("queue {}:", own + more), 1))
        })
    }),
    // who comes first in other ways
    ("the task that came first is started, whoever's turn it is", |it, line, place| {
        if words_of(line) == [b"turn"] {
            it.console.callers.turn = it.came.first().copied().unwrap_or(it.console.callers.turn);
        }
        let answer = it.answer(line, place);
        if is(&answer, "call", "ok") {
            it.came.push(number(words_of(line)[1]).expect("a caller"));
        } else if is(&answer, "turn", "started") {
            it.came.remove(0);
        } else if it.console.callers.waiting() == 0 {
            it.came.clear();
        }
        answer
    }),
    ("each caller starts twice in a row", |it, line, place| {
        let before = it.console.callers.with_work_from(it.console.callers.turn);
        let answer = it.answer(line, place);
        if let (true, Some(caller)) = (is(&answer, "turn", "started"), before) {
            it.skipped += 1;
            if it.skipped % 2 == 1 && it.console.callers.has_work(caller) {
                it.console.callers.turn = caller;
            }
        }
        answer
    }),
    // what is asked for and what is told
    ("call: I and Q are exchanged", |it, line, place| it.with_words_of(line, place, "call", 3, |words| words.swap(1, 2))),
    ("call: Q and TICKET are exchanged", |it, line, place| it.with_words_of(line, place, "call", 3, |words| words.swap(2, 3))),
    ("call: no caller is taken for 1", |it, line, place| it.with_words_of(line, place, "call", 2, |words| words.insert(1, b"1".to_vec()))),
    ("call: no ticket is taken for 0", |it, line, place| it.with_words_of(line, place, "call", 2, |words| words.push(b"0".to_vec()))),
    ("call: a number too many is passed over", |it, line, place| it.with_words_of(line, place, "call", 4, |words| words.truncate(4))),
    ("call: a ticket above 4294967295 is taken modulo 2^32", |it, line, place| {
        it.with_words_of(line, place, "call", 3, |words| {
            if let Some(ticket) = digits(&String::from_utf8_lossy(&words[3])) {
                words[3] = (ticket % (1 << 32)).to_string().into_bytes();
            }
        })
    }),
    ("call: a caller above 4294967295 is taken modulo 2^32", |it, line, place| {
        it.with_words_of(line, place, "call", 3, |words| {
            if let Some(caller) = digits(&String::from_utf8_lossy(&words[1])) {
                words[1] = (caller % (1 << 32)).to_string().into_bytes();
            }
        })
    }),
    ("call: a ticket above 65535 is not what was expected", |it, line, place| {
        it.with_words_of(line, place, "call", 3, |words| {
            if number(&words[3]).is_some_and(|ticket| ticket > 65_535) {
                words.push(b"x".to_vec());
            }
        })
    }),
    ("callers: no number is taken for 1", |it, line, place| it.with_words_of(line, place, "callers", 0, |words| words.push(b"1".to_vec()))),
    ("callers: no number is taken for 4", |it, line, place| it.with_words_of(line, place, "callers", 0, |words| words.push(b"4".to_vec()))),
    ("callers: a number too many is passed over", |it, line, place| it.with_words_of(line, place, "callers", 2, |words| words.truncate(2))),
    ("callers: a number above 255 is not what was expected", |it, line, place| {
        it.with_words_of(line, place, "callers", 1, |words| {
            if number(&words[1]).is_some_and(|count| count > 255) {
                words.push(b"x".to_vec());
            }
        })
    }),
    ("turn: a number after it is passed over", |it, line, place| it.with_words_of(line, place, "turn", 1, |words| words.truncate(1))),
    ("caller is taken for callers", |it, line, place| it.with_words_of(line, place, "caller", 1, |words| words[0] = b"callers".to_vec())),
    ("calls is taken for call", |it, line, place| it.with_words_of(line, place, "calls", 3, |words| words[0] = b"call".to_vec())),
    ("callers: accepted before the first unit, and answered by no unit", |it, line, place| {
        let answer = it.answer(line, place);
        if is(&answer, "callers", "no unit") {
            let _ = count(&mut it.console.callers, number(words_of(line)[1]).expect("a number"));
        }
        answer
    }),
    ("callers: ok in place of no unit", |it, line, place| {
        it.instead(line, place, |answer, _| is(answer, "callers", "no unit").then(|| "ok\n".to_string()))
    }),
    ("callers: refused 18 comes before no unit", |it, line, place| {
        let is_good = words_of(line).get(1).and_then(|word| number(word)).is_some_and(|count| (1..=MOST_CALLERS).contains(&count));
        it.instead(line, place, |answer, _| (!is_good && is(answer, "callers", "no unit")).then(|| "refused 18\n".to_string()))
    }),
    ("call: refused 18 in place of no unit", |it, line, place| {
        it.instead(line, place, |answer, _| is(answer, "call", "no unit").then(|| "refused 18\n".to_string()))
    }),
    ("turn: refused 18 in place of no unit", |it, line, place| {
        it.instead(line, place, |answer, _| is(answer, "turn", "no unit").then(|| "refused 18\n".to_string()))
    }),
    ("turn: none in place of no unit", |it, line, place| {
        it.instead(line, place, |answer, _| is(answer, "turn", "no unit").then(|| "none\n".to_string()))
    }),
    ("callers: how many there are is told", |it, line, place| {
        let told = words_of(line).get(1).and_then(|word| number(word)).unwrap_or(0);
        it.instead(line, place, |answer, _| is(answer, "callers", "ok").then(|| format!("ok {told}\n")))
    }),
    ("call: how many wait is told", |it, line, place| {
        let told = it.console.callers.waiting() + 1;
        it.instead(line, place, |answer, _| is(answer, "call", "ok").then(|| format!("ok {told}\n")))
    }),
    ("turn: ok where one is started", |it, line, place| {
        it.telling_turn(line, place, |text| text.starts_with("started").then(|| "ok".to_string()))
    }),
    ("turn: ok where none is started", |it, line, place| it.telling_turn(line, place, |text| (text == "none").then(|| "ok".to_string()))),
    ("turn: the caller is not told", |it, line, place| {
        it.telling_turn(line, place, |text| {
            let words: Vec<&str> = text.split(' ').collect();
            (words.len() == 4).then(|| format!("started {} {}", words[2], words[3]))
        })
    }),
    ("turn: the caller is told last", |it, line, place| {
        it.telling_turn(line, place, |text| {
            let words: Vec<&str> = text.split(' ').collect();
            (words.len() == 4).then(|| format!("started {} {} {}", words[2], words[3], words[1]))
        })
    }),
    ("turn: the caller alone is told", |it, line, place| {
        it.telling_turn(line, place, |text| {
            let words: Vec<&str> = text.split(' ').collect();
            (words.len() == 4).then(|| format!("started {}", words[1]))
        })
    }),
    ("turn: a colon after the caller", |it, line, place| {
        it.telling_turn(line, place, |text| {
            let words: Vec<&str> = text.split(' ').collect();
            (words.len() == 4).then(|| format!("started {}: {} {}", words[1], words[2], words[3]))
        })
    }),
    ("turn: a space at the end", |it, line, place| {
        it.telling_turn(line, place, |text| text.starts_with("started").then(|| format!("{text} ")))
    }),
    ("turn: whose turn it is is told where none is started", |it, line, place| {
        let turn = it.console.callers.turn;
        it.telling_turn(line, place, |text| (text == "none").then(|| format!("none {turn}")))
    }),
    ("turn: idle in place of none", |it, line, place| it.telling_turn(line, place, |text| Some(text.replace("none", "idle")))),
];
