//! Consoles with one fault each in how tasks wait, as those of `console_faults.rs`.

use crate::console_faults::*;
use crate::console_folder::Folder;
use crate::console_model::*;
use crate::model::*;
use crate::queue::*;

// ---------------------------------------------------------------------------------------------------------------------------------
// The calls

/// With room for so many.
fn with_room(unit: &Unit, queue: &mut Queue, task: Task, most: usize) -> Reply<()> {
    unit.check_tag(task.tag)?;
    if queue.len() >= most {
        return Err(NO_PLACE);
    }
    queue.push(task);
    Ok(())
}

/// With another number for a refusal.
fn renumbered(unit: &Unit, queue: &mut Queue, task: Task, number: u32, other: u32) -> Reply<()> {
    arrive(unit, queue, task).map_err(|refusal| if refusal == number { other } else { refusal })
}

/// With something done where it is refused by a number, and another reply.
fn at_refusal(unit: &Unit, queue: &mut Queue, task: Task, number: u32, then: impl Fn(&mut Queue) -> Reply<()>) -> Reply<()> {
    match arrive(unit, queue, task) {
        Err(refusal) if refusal == number => then(queue),
        reply => reply,
    }
}

/// A task that is not taken, though it is good, where it is so.
fn not_taken(unit: &Unit, queue: &mut Queue, task: Task, is_left: impl Fn(&Queue) -> bool, reply: Reply<()>) -> Reply<()> {
    let left = is_left(queue);
    arrive(unit, queue, task)?;
    if left {
        queue.pop();
        return reply;
    }
    Ok(())
}

/// A task that goes before others: before the first for which it is so.
fn before(unit: &Unit, queue: &mut Queue, task: Task, is_behind: impl Fn(&Task) -> bool) -> Reply<()> {
    arrive(unit, queue, task)?;
    queue.pop();
    let place = queue.iter().position(is_behind).unwrap_or(queue.len());
    queue.insert(place, task);
    Ok(())
}

/// With another ticket.
fn with_ticket(unit: &Unit, queue: &mut Queue, task: Task, change: impl Fn(u32) -> u32) -> Reply<()> {
    arrive(unit, queue, Task { ticket: change(task.ticket), ..task })
}

/// With another tag.
fn with_tag(unit: &Unit, queue: &mut Queue, task: Task, change: impl Fn(u32) -> u32) -> Reply<()> {
    arrive(unit, queue, Task { tag: change(task.tag), ..task })
}

/// A time unit that starts another task than the oldest, if any.
fn choosing(unit: &Unit, bank: &mut Bank, queue: &mut Queue, choose: impl Fn(&Bank, &Queue) -> Option<usize>) -> Option<Task> {
    match choose(bank, queue).filter(|place| started(unit, bank, queue[*place].tag)) {
        Some(place) => Some(queue.remove(place)),
        None => {
            bank.tick();
            None
        }
    }
}

/// The place of the task that comes first by a number.
fn first_by(queue: &Queue, number: impl Fn(&Task) -> u32) -> Option<usize> {
    (0..queue.len()).min_by_key(|place| number(&queue[*place]))
}

/// With these rows beside what the bank holds.
pub fn joined(bank: &Bank, rows: &[Vec<bool>]) -> Bank {
    let mut words = bank.words();
    for (word, row) in words.iter_mut().zip(rows) {
        *word |= word_of(row);
    }
    Bank::of_words(&words)
}

/// The oldest is started where it is so, whatever the bank says.
fn granting(unit: &Unit, bank: &mut Bank, queue: &mut Queue, is_granted: impl Fn(&Bank, u32) -> bool) -> Option<Task> {
    let oldest = queue.first().copied().filter(|task| is_granted(bank, task.tag));
    bank.tick();
    if let Some(task) = oldest {
        *bank = joined(bank, &rows(unit, task.tag));
        queue.remove(0);
    }
    oldest
}

/// With another bank after a start, from the one before it and the function.
fn banking(unit: &Unit, bank: &mut Bank, queue: &mut Queue, change: impl Fn(&Bank, u32) -> Bank) -> Option<Task> {
    let old = bank.clone();
    let started = pass(unit, bank, queue);
    if let Some(task) = started {
        *bank = change(&old, task.tag);
    }
    started
}

pub fn ticked(bank: &Bank) -> Bank {
    let mut bank = bank.clone();
    bank.tick();
    bank
}

/// With other tasks that wait after a start, from those before it.
fn leaving(unit: &Unit, bank: &mut Bank, queue: &mut Queue, change: impl Fn(&mut Queue)) -> Option<Task> {
    let mut old = queue.clone();
    let started = pass(unit, bank, queue);
    if started.is_some() {
        change(&mut old);
        *queue = old;
    }
    started
}

/// The first of them leaves, and so many of the others move one place forward.
fn move_forward(queue: &mut Queue, most: usize) {
    let old = queue.clone();
    queue.pop();
    for place in 0..queue.len().min(most) {
        queue[place] = old[place + 1];
    }
}

/// With something done where none is started: to the bank as it was before and to the tasks.
fn at_none(unit: &Unit, bank: &mut Bank, queue: &mut Queue, then: impl Fn(&mut Bank, &mut Queue)) -> Option<Task> {
    let mut old = bank.clone();
    let started = pass(unit, bank, queue);
    if started.is_none() {
        then(&mut old, queue);
        *bank = old;
    }
    started
}

/// Another task is told than the one that was started.
fn telling(unit: &Unit, bank: &mut Bank, queue: &mut Queue, change: impl Fn(Task, &Queue) -> Task) -> Option<Task> {
    pass(unit, bank, queue).map(|task| change(task, queue))
}

/// Where there are so many, none is started.
fn idle(unit: &Unit, bank: &mut Bank, queue: &mut Queue, is_idle: impl Fn(&Bank, &Queue) -> bool) -> Option<Task> {
    if is_idle(bank, queue) {
        bank.tick();
        return None;
    }
    pass(unit, bank, queue)
}

/// The line with other records.
fn listing(queue: &Queue, record: impl Fn(&Task) -> String) -> String {
    format!("queue {}:{}", queue.len(), queue.iter().map(record).collect::<String>())
}

/// The line of other tasks, with the right number of them.
fn listing_of(queue: &Queue, tasks: &Queue) -> String {
    list(tasks).replacen(&format!("queue {}:", tasks.len()), &format!("queue {}:", queue.len()), 1)
}

fn sorted(queue: &Queue, number: impl Fn(&Task) -> u32) -> Queue {
    let mut tasks = queue.clone();
    tasks.sort_by_key(number);
    tasks
}

const ARRIVE_FAULTS: &[(&str, Arrive)] = &[
    // what is refused
    ("arrive: 31 are the most", |unit, queue, task| with_room(unit, queue, task, 31)),
    ("arrive: 33 are the most", |unit, queue, task| with_room(unit, queue, task, 33)),
    ("arrive: any number may wait", |unit, queue, task| with_room(unit, queue, task, usize::MAX)),
    ("arrive: 14 comes before 2", |unit, queue, task| if queue.len() >= MOST_WAITING { Err(NO_PLACE) } else { arrive(unit, queue, task) }),
    ("arrive: no room is refused by 2", |unit, queue, task| renumbered(unit, queue, task, NO_PLACE, 2)),
    ("arrive: no room is refused by 6", |unit, queue, task| renumbered(unit, queue, task, NO_PLACE, 6)),
    ("arrive: no room is refused by 10", |unit, queue, task| renumbered(unit, queue, task, NO_PLACE, 10)),
    ("arrive: an unknown function is refused by 14", |unit, queue, task| renumbered(unit, queue, task, 2, NO_PLACE)),
    ("arrive: an unknown function is answered by ok", |unit, queue, task| at_refusal(unit, queue, task, 2, |_| Ok(()))),
    ("arrive: an unknown function is refused, and waits as function 1", |unit, queue, task| {
        at_refusal(unit, queue, task, 2, |queue| {
            queue.push(Task { tag: 1, ..task });
            queue.truncate(MOST_WAITING);
            Err(2)
        })
    }),
    ("arrive: tag 0 is taken for 1", |unit, queue, task| with_tag(unit, queue, task, |tag| tag.max(1))),
    ("arrive: a tag after the last is taken for it", |unit, queue, task| with_tag(unit, queue, task, |tag| tag.min(unit.functions))),
    ("arrive: Q is taken modulo 256", |unit, queue, task| with_tag(unit, queue, task, |tag| tag % 256)),
    ("arrive: Q is taken modulo 65,536", |unit, queue, task| with_tag(unit, queue, task, |tag| tag % 65_536)),
    ("arrive: a task without room is answered by ok", |unit, queue, task| at_refusal(unit, queue, task, NO_PLACE, |_| Ok(()))),
    ("arrive: the oldest makes room", |unit, queue, task| {
        at_refusal(unit, queue, task, NO_PLACE, |queue| {
            queue.remove(0);
            queue.push(task);
            Ok(())
        })
    }),
    ("arrive: the youngest makes room", |unit, queue, task| {
        at_refusal(unit, queue, task, NO_PLACE, |queue| {
            queue.pop();
            queue.push(task);
            Ok(())
        })
    }),
    ("arrive: a task that is refused by 14 is in the youngest's place", |unit, queue, task| {
        at_refusal(unit, queue, task, NO_PLACE, |queue| {
            queue.pop();
            queue.push(task);
            Err(NO_PLACE)
        })
    }),
    ("arrive: a task that is refused by 14 takes the oldest away", |unit, queue, task| {
        at_refusal(unit, queue, task, NO_PLACE, |queue| {
            queue.remove(0);
            Err(NO_PLACE)
        })
    }),
    ("arrive: a task that is refused by 14 empties the queue", |unit, queue, task| {
        at_refusal(unit, queue, task, NO_PLACE, |queue| {
            queue.clear();
            Err(NO_PLACE)
        })
    }),
    ("arrive: a task that is refused by 2 empties the queue", |unit, queue, task| {
        at_refusal(unit, queue, task, 2, |queue| {
            queue.clear();
            Err(2)
        })
    }),
    // what waits, and where
    ("arrive: a task goes in front", |unit, queue, task| before(unit, queue, task, |_| true)),
    ("arrive: a task goes before those of higher tags", |unit, queue, task| before(unit, queue, task, |other| other.tag > task.tag)),
    ("arrive: a task goes before those of higher tickets", |unit, queue, task| {
        before(unit, queue, task, |other| other.ticket > task.ticket)
    }),
    ("arrive: a task goes before one of the same ticket", |unit, queue, task| {
        before(unit, queue, task, |other| other.ticket == task.ticket)
    }),
    ("arrive: a ticket that waits is not taken again", |unit, queue, task| {
        not_taken(unit, queue, task, |queue| queue.iter().any(|other| other.ticket == task.ticket), Ok(()))
    }),
    ("arrive: a ticket that waits is refused", |unit, queue, task| {
        not_taken(unit, queue, task, |queue| queue.iter().any(|other| other.ticket == task.ticket), Err(NO_PLACE))
    }),
    ("arrive: a task as one that waits is not taken again", |unit, queue, task| {
        not_taken(unit, queue, task, |queue| queue.contains(&task), Ok(()))
    }),
    ("arrive: a task as the youngest is not taken again", |unit, queue, task| {
        not_taken(unit, queue, task, |queue| queue.last() == Some(&task), Ok(()))
    }),
    ("arrive: one of each function may wait", |unit, queue, task| {
        not_taken(unit, queue, task, |queue| queue.iter().any(|other| other.tag == task.tag), Err(NO_PLACE))
    }),
    ("arrive: a ticket 0 does not wait", |unit, queue, task| not_taken(unit, queue, task, |_| task.ticket == 0, Ok(()))),
    ("arrive: a ticket 0 is refused", |unit, queue, task| not_taken(unit, queue, task, |_| task.ticket == 0, Err(2))),
    ("arrive: a ticket 4294967295 is refused", |unit, queue, task| not_taken(unit, queue, task, |_| task.ticket == u32::MAX, Err(2))),
    ("arrive: tickets have 8 bits", |unit, queue, task| with_ticket(unit, queue, task, |ticket| ticket % 256)),
    ("arrive: tickets have 16 bits", |unit, queue, task| with_ticket(unit, queue, task, |ticket| ticket % 65_536)),
    ("arrive: tickets have 24 bits", |unit, queue, task| with_ticket(unit, queue, task, |ticket| ticket % (1 << 24))),
    ("arrive: tickets have 31 bits", |unit, queue, task| with_ticket(unit, queue, task, |ticket| ticket % (1 << 31))),
    ("arrive: a ticket above 2147483647 is taken for it", |unit, queue, task| {
        with_ticket(unit, queue, task, |ticket| ticket.min(i32::MAX as u32))
    }),
    ("arrive: a ticket 4294967295 is taken for 0", |unit, queue, task| {
        with_ticket(unit, queue, task, |ticket| if ticket == u32::MAX { 0 } else { ticket })
    }),
    ("arrive: a ticket 0 is taken for 1", |unit, queue, task| with_ticket(unit, queue, task, |ticket| ticket.max(1))),
    ("arrive: the ticket is the tag", |unit, queue, task| with_ticket(unit, queue, task, |_| task.tag)),
    ("arrive: the ticket is how many wait", |unit, queue, task| {
        let ticket = queue.len() as u32 + 1;
        with_ticket(unit, queue, task, |_| ticket)
    }),
    ("arrive: Q and TICKET are exchanged where both are tags", |unit, queue, task| {
        match unit.check_tag(task.tag).and(unit.check_tag(task.ticket)) {
            Ok(()) => arrive(unit, queue, Task { tag: task.ticket, ticket: task.tag }),
            Err(_) => arrive(unit, queue, task),
        }
    }),
    ("arrive: the tag of the 32nd is that of the 31st", |unit, queue, task| {
        arrive(unit, queue, task)?;
        if queue.len() == MOST_WAITING {
            queue[31].tag = queue[30].tag;
        }
        Ok(())
    }),
];

const PASS_FAULTS: &[(&str, Pass)] = &[
    // which task is started
    ("pass: the youngest is started", |unit, bank, queue| choosing(unit, bank, queue, |_, queue| queue.len().checked_sub(1))),
    ("pass: the oldest that the bank grants is started", |unit, bank, queue| {
        choosing(unit, bank, queue, |bank, queue| queue.iter().position(|task| !bank.holds_back(task.tag)))
    }),
    ("pass: the second is started where the oldest is held back", |unit, bank, queue| {
        choosing(unit, bank, queue, |bank, queue| {
            let is_held = queue.len() > 1 && bank.holds_back(queue[0].tag);
            (!queue.is_empty()).then_some(is_held as usize)
        })
    }),
    ("pass: the lowest tag is started first", |unit, bank, queue| choosing(unit, bank, queue, |_, queue| first_by(queue, |task| task.tag))),
    ("pass: the lowest ticket is started first", |unit, bank, queue| {
        choosing(unit, bank, queue, |_, queue| first_by(queue, |task| task.ticket))
    }),
    ("pass: the highest ticket is started first", |unit, bank, queue| {
        choosing(unit, bank, queue, |_, queue| first_by(queue, |task| u32::MAX - task.ticket))
    }),
    // where it is started
    ("pass: the oldest is started where the bank does not grant it", |unit, bank, queue| granting(unit, bank, queue, |_, _| true)),
    ("pass: register 1 decides", |unit, bank, queue| granting(unit, bank, queue, |bank, _| !bank.holds_back(1))),
    ("pass: register 4 is not looked at", |unit, bank, queue| granting(unit, bank, queue, |bank, tag| tag == 4 || !bank.holds_back(tag))),
    ("pass: all registers decide", |unit, bank, queue| granting(unit, bank, queue, |bank, _| (1..=4).all(|tag| !bank.holds_back(tag)))),
    ("pass: the bit after the shift decides", |unit, bank, queue| granting(unit, bank, queue, |bank, tag| !ticked(bank).holds_back(tag))),
    ("pass: a register that is not 0 holds back", |unit, bank, queue| {
        granting(unit, bank, queue, |bank, tag| bank.words()[tag as usize - 1] == 0)
    }),
    ("pass: on an empty bank alone is any started", |unit, bank, queue| {
        granting(unit, bank, queue, |bank, _| bank.words() == [0; REGISTERS])
    }),
    ("pass: the last one that waits is not started", |unit, bank, queue| idle(unit, bank, queue, |_, queue| queue.len() == 1)),
    ("pass: none of 32 is started", |unit, bank, queue| idle(unit, bank, queue, |_, queue| queue.len() == MOST_WAITING)),
    ("pass: a ticket 0 is not started", |unit, bank, queue| {
        idle(unit, bank, queue, |_, queue| queue.first().is_some_and(|task| task.ticket == 0))
    }),
    ("pass: none is started where one behind would be held back", |unit, bank, queue| {
        idle(unit, bank, queue, |bank, queue| queue.iter().any(|task| bank.holds_back(task.tag)))
    }),
    // what becomes of the bank
    ("pass: no tick where none is started", |unit, bank, queue| at_none(unit, bank, queue, |_, _| {})),
    ("pass: no tick where none waits", |unit, bank, queue| {
        at_none(unit, bank, queue, |bank, queue| {
            if !queue.is_empty() {
                bank.tick();
            }
        })
    }),
    ("pass: no tick where the oldest is held back", |unit, bank, queue| {
        at_none(unit, bank, queue, |bank, queue| {
            if queue.is_empty() {
                bank.tick();
            }
        })
    }),
    ("pass: two ticks where the oldest is held back", |unit, bank, queue| {
        at_none(unit, bank, queue, |bank, queue| {
            bank.tick();
            if !queue.is_empty() {
                bank.tick();
            }
        })
    }),
    ("pass: two ticks where none waits", |unit, bank, queue| {
        at_none(unit, bank, queue, |bank, queue| {
            bank.tick();
            if queue.is_empty() {
                bank.tick();
            }
        })
    }),
    ("pass: the bank is emptied where none waits", |unit, bank, queue| {
        at_none(unit, bank, queue, |bank, queue| {
            bank.tick();
            if queue.is_empty() {
                *bank = Bank::of_words(&[0; REGISTERS]);
            }
        })
    }),
    ("pass: the register of the oldest alone is shifted where it is held back", |unit, bank, queue| {
        at_none(unit, bank, queue, |bank, queue| {
            let mut words = bank.words();
            for (tag, word) in (1..).zip(&mut words) {
                if queue.first().is_none_or(|task| task.tag == tag) {
                    *word /= 2;
                }
            }
            *bank = Bank::of_words(&words);
        })
    }),
    ("pass: a start leaves the bank as it is", |unit, bank, queue| banking(unit, bank, queue, |bank, _| bank.clone())),
    ("pass: a start is a tick for the bank", |unit, bank, queue| banking(unit, bank, queue, |bank, _| ticked(bank))),
    ("pass: a start does not shift the registers", |unit, bank, queue| {
        let rows = |tag: u32| rows(unit, tag);
        banking(unit, bank, queue, |bank, tag| joined(bank, &rows(tag)))
    }),
    ("pass: a start and then a tick", |unit, bank, queue| {
        banking(unit, bank, queue, |bank, tag| ticked(&joined(&ticked(bank), &rows(unit, tag))))
    }),
    ("pass: a start shifts the registers after it has joined the rows", |unit, bank, queue| {
        banking(unit, bank, queue, |bank, tag| ticked(&joined(bank, &rows(unit, tag))))
    }),
    ("pass: a start replaces the registers", |unit, bank, queue| {
        banking(unit, bank, queue, |_, tag| joined(&Bank::of_words(&[0; REGISTERS]), &rows(unit, tag)))
    }),
    ("pass: the rows are those of function 1", |unit, bank, queue| {
        banking(unit, bank, queue, |bank, _| joined(&ticked(bank), &rows(unit, 1)))
    }),
    ("pass: the rows are those of the task that is then the oldest", |unit, bank, queue| {
        let next = queue.get(1).copied();
        banking(unit, bank, queue, |bank, tag| joined(&ticked(bank), &rows(unit, next.map_or(tag, |task| task.tag))))
    }),
    ("pass: row Q of M_R in place of row R of M_Q", |unit, bank, queue| {
        banking(unit, bank, queue, |bank, tag| {
            let columns: Vec<Vec<bool>> = (1..=unit.functions).map(|other| rows(unit, other).remove(tag as usize - 1)).collect();
            joined(&ticked(bank), &columns)
        })
    }),
    ("pass: the row of the task's own function alone", |unit, bank, queue| {
        banking(unit, bank, queue, |bank, tag| {
            let mut rows = rows(unit, tag);
            let is_other = |other: &usize| *other != tag as usize - 1;
            (0..rows.len()).filter(is_other).for_each(|other| rows[other].fill(false));
            joined(&ticked(bank), &rows)
        })
    }),
    ("pass: the rows of the other functions alone", |unit, bank, queue| {
        banking(unit, bank, queue, |bank, tag| {
            let mut rows = rows(unit, tag);
            rows[tag as usize - 1].fill(false);
            joined(&ticked(bank), &rows)
        })
    }),
    ("pass: column 31 is left out", |unit, bank, queue| {
        banking(unit, bank, queue, |bank, tag| {
            let mut rows = rows(unit, tag);
            rows.iter_mut().for_each(|row| row[30] = false);
            joined(&ticked(bank), &rows)
        })
    }),
    ("pass: a start of a function without marks takes no time", |unit, bank, queue| {
        banking(unit, bank, queue, |bank, tag| {
            if unit.spots(tag).is_empty() {
                return bank.clone();
            }
            joined(&ticked(bank), &rows(unit, tag))
        })
    }),
    // which tasks wait then
    ("pass: the oldest leaves where it is held back", |unit, bank, queue| {
        at_none(unit, bank, queue, |bank, queue| {
            bank.tick();
            queue.drain(..queue.len().min(1));
        })
    }),
    ("pass: the oldest goes to the end where it is held back", |unit, bank, queue| {
        at_none(unit, bank, queue, |bank, queue| {
            bank.tick();
            if !queue.is_empty() {
                queue.rotate_left(1);
            }
        })
    }),
    ("pass: a task that is started stays", |unit, bank, queue| leaving(unit, bank, queue, |_| {})),
    ("pass: a task that is started goes to the end", |unit, bank, queue| leaving(unit, bank, queue, |queue| queue.rotate_left(1))),
    ("pass: the youngest leaves in place of the one that is started", |unit, bank, queue| {
        leaving(unit, bank, queue, |queue| {
            queue.pop();
        })
    }),
    ("pass: the one after it leaves too", |unit, bank, queue| {
        leaving(unit, bank, queue, |queue| {
            queue.drain(..queue.len().min(2));
        })
    }),
    ("pass: all leave at a start", |unit, bank, queue| leaving(unit, bank, queue, |queue| queue.clear())),
    ("pass: all tasks as the one that is started leave", |unit, bank, queue| {
        leaving(unit, bank, queue, |queue| {
            let first = queue[0];
            queue.retain(|task| *task != first);
        })
    }),
    ("pass: all tasks of its ticket leave", |unit, bank, queue| {
        leaving(unit, bank, queue, |queue| {
            let first = queue[0];
            queue.retain(|task| task.ticket != first.ticket);
        })
    }),
    ("pass: the last one of its ticket leaves in its place", |unit, bank, queue| {
        leaving(unit, bank, queue, |queue| {
            let first = queue[0];
            let last = queue.iter().rposition(|task| task.ticket == first.ticket).expect("the first");
            queue.remove(last);
        })
    }),
    ("pass: the last one takes the free place", |unit, bank, queue| {
        leaving(unit, bank, queue, |queue| {
            queue.swap_remove(0);
        })
    }),
    ("pass: the last one does not move", |unit, bank, queue| {
        leaving(unit, bank, queue, |queue| move_forward(queue, queue.len().saturating_sub(2)))
    }),
    ("pass: those after the 16th do not move", |unit, bank, queue| leaving(unit, bank, queue, |queue| move_forward(queue, 16))),
    ("pass: the 32nd does not move", |unit, bank, queue| leaving(unit, bank, queue, |queue| move_forward(queue, 30))),
    ("pass: the tags alone move", |unit, bank, queue| {
        leaving(unit, bank, queue, |queue| {
            let tickets: Vec<u32> = queue.iter().map(|task| task.ticket).collect();
            queue.remove(0);
            queue.iter_mut().zip(tickets).for_each(|(task, ticket)| task.ticket = ticket);
        })
    }),
    ("pass: the tickets alone move", |unit, bank, queue| {
        leaving(unit, bank, queue, |queue| {
            let tags: Vec<u32> = queue.iter().map(|task| task.tag).collect();
            queue.remove(0);
            queue.iter_mut().zip(tags).for_each(|(task, tag)| task.tag = tag);
        })
    }),
    ("pass: two are started where both are granted", |unit, bank, queue| {
        let first = pass(unit, bank, queue);
        if first.is_some() && queue.first().is_some_and(|task| !bank.holds_back(task.tag)) {
            pass(unit, bank, queue);
        }
        first
    }),
    ("pass: time passes until one is started", |unit, bank, queue| loop {
        let started = pass(unit, bank, queue);
        if started.is_some() || queue.is_empty() {
            return started;
        }
    }),
    // what is told
    ("pass: the task is told that is then the oldest", |unit, bank, queue| {
        telling(unit, bank, queue, |task, queue| queue.first().copied().unwrap_or(task))
    }),
    ("pass: tag and ticket are told the other way about", |unit, bank, queue| {
        telling(unit, bank, queue, |Task { tag, ticket }, _| Task { tag: ticket, ticket: tag })
    }),
    ("pass: a ticket is told with 16 bits", |unit, bank, queue| {
        telling(unit, bank, queue, |task, _| Task { ticket: task.ticket % 65_536, ..task })
    }),
    ("pass: a ticket is told with 31 bits", |unit, bank, queue| {
        telling(unit, bank, queue, |task, _| Task { ticket: task.ticket % (1 << 31), ..task })
    }),
    ("pass: how many wait is told in place of the ticket", |unit, bank, queue| {
        telling(unit, bank, queue, |task, queue| Task { ticket: queue.len() as u32, ..task })
    }),
];

const LIST_FAULTS: &[(&str, List)] = &[
    ("queue: the youngest comes first", |queue| list(&queue.iter().rev().copied().collect())),
    ("queue: a space at the end", |queue| list(queue) + " "),
    ("queue: a space at the end where none waits", |queue| if queue.is_empty() { list(queue) + " " } else { list(queue) }),
    ("queue: no colon", |queue| list(queue).replace(':', "")),
    ("queue: no colon where none waits", |queue| list(queue).trim_end_matches(':').to_string()),
    ("queue: none in place of nothing", |queue| if queue.is_empty() { list(queue) + " none" } else { list(queue) }),
    ("queue: - in place of nothing", |queue| if queue.is_empty() { list(queue) + " -" } else { list(queue) }),
    ("queue: another word", |queue| list(queue).replacen("queue", "waiting", 1)),
    ("queue: two spaces after the colon", |queue| list(queue).replacen(": ", ":  ", 1)),
    ("queue: no space after the colon", |queue| list(queue).replacen(": ", ":", 1)),
    ("queue: the ticket before the tag", |queue| listing(queue, |task| format!(" {} {}", task.ticket, task.tag))),
    ("queue: the tags alone", |queue| listing(queue, |task| format!(" {}", task.tag))),
    ("queue: the tickets alone", |queue| listing(queue, |task| format!(" {}", task.ticket))),
    ("queue: a colon between tag and ticket", |queue| listing(queue, |task| format!(" {}:{}", task.tag, task.ticket))),
    ("queue: commas between the tasks", |queue| {
        listing(queue, |task| format!(" {} {},", task.tag, task.ticket)).trim_end_matches(',').to_string()
    }),
    ("queue: tickets have a sign", |queue| listing(queue, |task| format!(" {} {}", task.tag, task.ticket as i32))),
    ("queue: tickets are shown with 16 bits", |queue| listing(queue, |task| format!(" {} {}", task.tag, task.ticket % 65_536))),
    ("queue: tickets are shown with 31 bits", |queue| listing(queue, |task| format!(" {} {}", task.tag, task.ticket % (1 << 31)))),
    ("queue: tickets have 10 digits", |queue| listing(queue, |task| format!(" {} {:010}", task.tag, task.ticket))),
    ("queue: a ticket 0 is not shown", |queue| listing_of(queue, &queue.iter().filter(|task| task.ticket > 0).copied().collect())),
    ("queue: one more than wait", |queue| list(queue).replacen(&queue.len().to_string(), &(queue.len() + 1).to_string(), 1)),
    ("queue: their number modulo 32", |queue| list(queue).replacen("queue 32:", "queue 0:", 1)),
    ("queue: the room that is left", |queue| list(queue).replacen(&queue.len().to_string(), &(MOST_WAITING - queue.len()).to_string(), 1)),
    ("queue: a number of two digits", |queue| {
        list(queue).replacen(&format!("queue {}:", queue.len()), &format!("queue {:2}:", queue.len()), 1)
    }),
    ("queue: no number", |queue| list(queue).replacen(&format!("queue {}:", queue.len()), "queue:", 1)),
    ("queue: 31 are shown at most", |queue| listing_of(queue, &queue.iter().take(31).copied().collect())),
    ("queue: 9 are shown at most", |queue| listing_of(queue, &queue.iter().take(9).copied().collect())),
    ("queue: the oldest is left out", |queue| listing_of(queue, &queue.iter().skip(1).copied().collect())),
    ("queue: the oldest is left out, and not counted", |queue| list(&queue.iter().skip(1).copied().collect())),
    ("queue: in the order of the tags", |queue| list(&sorted(queue, |task| task.tag))),
    ("queue: in the order of the tickets", |queue| list(&sorted(queue, |task| task.ticket))),
    ("queue: tasks alike are shown once", |queue| {
        let mut once = queue.clone();
        once.dedup();
        list(&once)
    }),
];

/// The ports with one of these faults.
pub fn port_faults() -> Vec<(&'static str, Port)> {
    let of_arrivals = ARRIVE_FAULTS.iter().map(|(what, arrive)| (*what, Port { arrive: *arrive, ..PORT }));
    let of_units = PASS_FAULTS.iter().map(|(what, pass)| (*what, Port { pass: *pass, ..PORT }));
    let of_lists = LIST_FAULTS.iter().map(|(what, list)| (*what, Port { list: *list, ..PORT }));
    of_arrivals.chain(of_units).chain(of_lists).collect()
}

// ---------------------------------------------------------------------------------------------------------------------------------
// The session

impl Faulty {
    /// With tasks kept that waited before an accepted line of these commands, from the console after it and the answer.
    fn keeping_tasks(
        &mut self,
        line: &[u8],
        place: usize,
        names: &[&str],
        is_kept: impl Fn(&Console<Folder>, &Answer, &Task) -> bool,
    ) -> Answer {
        let old = self.console.queue.clone();
        let answer = self.answer(line, place);
        if names.iter().any(|name| is(&answer, name, "ok")) {
            self.console.queue = old.into_iter().filter(|task| is_kept(&self.console, &answer, task)).collect();
        }
        answer
    }

    /// The same where the line is in this special case.
    fn keeping_tasks_at(&mut self, line: &[u8], place: usize, names: &[&str], what: &str) -> Answer {
        self.keeping_tasks(line, place, names, |_, answer, _| answer.met.contains(&what))
    }

    /// With another text after a time unit, from the right one and the console before it.
    fn telling_unit(&mut self, line: &[u8], place: usize, text: impl Fn(&str, &Queue) -> Option<String>) -> Answer {
        let waiting = self.console.queue.clone();
        self.instead(line, place, |answer, right| match answer.sort {
            Sort::Of("pass", ref told) if told == "started" || told == "none" => Some(text(right.trim_end(), &waiting)? + "\n"),
            _ => None,
        })
    }

    /// With a refusal in place of an accepted line of this command, where it is so; what waits and the bank are then as they were.
    fn refusing_at(
        &mut self,
        line: &[u8],
        place: usize,
        name: &str,
        refusal: u32,
        holds: impl Fn(&Console<Folder>, u32) -> bool,
    ) -> Answer {
        let tag = words_of(line).get(1).and_then(|word| number(word)).unwrap_or(0);
        let holds = (1..=REGISTERS as u32).contains(&tag) && holds(&self.console, tag);
        let (bank, queue) = (self.console.bank.clone(), self.console.queue.clone());
        let mut answer = self.answer(line, place);
        if holds && is(&answer, name, "ok") {
            (self.console.bank, self.console.queue) = (bank, queue);
            answer.parts = vec![Part::Text(format!("refused {refusal}\n"))];
        }
        answer
    }

    /// Whether the line was an accepted one that empties bank and queue.
    fn has_emptied(&self, answer: &Answer) -> bool {
        ["fresh", "load", "mark", "unmark", "small"].iter().any(|name| is(answer, name, "ok"))
    }
}

fn empty_queue(console: &mut Console<Folder>) {
    console.queue.clear();
}

fn take_oldest(console: &mut Console<Folder>) {
    console.queue.drain(..console.queue.len().min(1));
}

pub fn tick(console: &mut Console<Folder>) {
    console.bank.tick();
}

/// The oldest is started where the bank grants it; no time passes else.
fn start_oldest(console: &mut Console<Folder>) {
    if let (Some(unit), Some(task)) = (&console.unit, console.queue.first()) {
        if started(unit, &mut console.bank, task.tag) {
            console.queue.remove(0);
        }
    }
}

/// With the queue emptied after answers of these commands that are so.
macro_rules! emptied {
    ($said:expr, $($name:literal),+) => {
        |it, line, place| it.after(line, place, &[$($name),+], $said, empty_queue)
    };
}

pub fn not_written(told: &str) -> bool {
    told == "not written"
}

pub fn no_file(told: &str) -> bool {
    told == "no file"
}

pub fn expected(told: &str) -> bool {
    told == "expected"
}

pub const QUEUE_FAULTS: &[(&str, Fault)] = &[
    // what empties the queue
    ("fresh keeps the queue", |it, line, place| it.keeping_tasks(line, place, &["fresh"], |_, _, _| true)),
    ("load keeps the queue", |it, line, place| it.keeping_tasks(line, place, &["load"], |_, _, _| true)),
    ("mark keeps the queue", |it, line, place| it.keeping_tasks(line, place, &["mark"], |_, _, _| true)),
    ("unmark keeps the queue", |it, line, place| it.keeping_tasks(line, place, &["unmark"], |_, _, _| true)),
    ("a small table keeps the queue", |it, line, place| it.keeping_tasks(line, place, &["small"], |_, _, _| true)),
    ("a mark that stood keeps the queue", |it, line, place| it.keeping_tasks_at(line, place, &["mark"], "a mark that stood")),
    ("an unmark of no mark keeps the queue", |it, line, place| it.keeping_tasks_at(line, place, &["unmark"], "an unmark of no mark")),
    ("an edit beside an empty bank keeps the queue", |it, line, place| {
        it.keeping_tasks_at(line, place, &["mark", "unmark"], "a queue emptied by an edit beside an empty bank")
    }),
    ("a new unit beside an empty bank keeps the queue", |it, line, place| {
        it.keeping_tasks_at(line, place, &["fresh", "load"], "a queue emptied by a new unit beside an empty bank")
    }),
    ("a small table beside an empty bank keeps the queue", |it, line, place| {
        it.keeping_tasks_at(line, place, &["small"], "a queue emptied by a new unit beside an empty bank")
    }),
    ("a small table keeps tasks of function 1", |it, line, place| it.keeping_tasks(line, place, &["small"], |_, _, task| task.tag == 1)),
    ("an edit beside an empty queue keeps the bank", |it, line, place| {
        it.keeping(line, place, &["mark", "unmark"], false, |_, answer| {
            answer.met.contains(&"a bank in use emptied by an edit beside an empty queue")
        })
    }),
    ("fresh keeps tasks whose function is there", |it, line, place| {
        it.keeping_tasks(line, place, &["fresh"], |console, _, task| console.unit.as_ref().is_some_and(|unit| task.tag <= unit.functions))
    }),
    ("load keeps tasks whose function is there", |it, line, place| {
        it.keeping_tasks(line, place, &["load"], |console, _, task| console.unit.as_ref().is_some_and(|unit| task.tag <= unit.functions))
    }),
    ("an edit keeps the tasks of other functions", |it, line, place| {
        let tag = words_of(line).get(1).and_then(|word| number(word));
        it.keeping_tasks(line, place, &["mark", "unmark"], |_, _, task| Some(task.tag) != tag)
    }),
    ("an edit keeps the tasks of its function", |it, line, place| {
        let tag = words_of(line).get(1).and_then(|word| number(word));
        it.keeping_tasks(line, place, &["mark", "unmark"], |_, _, task| Some(task.tag) == tag)
    }),
    ("an edit takes the oldest away alone", |it, line, place| {
        let answer = it.keeping_tasks(line, place, &["mark", "unmark"], |_, _, _| true);
        if is(&answer, "mark", "ok") || is(&answer, "unmark", "ok") {
            take_oldest(&mut it.console);
        }
        answer
    }),
    // what leaves it as it is
    ("a refused fresh empties the queue", emptied!(refused, "fresh")),
    ("a fresh that is not as expected empties the queue", emptied!(expected, "fresh")),
    ("a refused load empties the queue", emptied!(refused, "load")),
    ("a load of no file empties the queue", emptied!(no_file, "load")),
    ("a mark refused by 2 empties the queue", emptied!(|told| told == "refused 2", "mark")),
    ("a mark refused by 3 empties the queue", emptied!(|told| told == "refused 3", "mark")),
    ("a mark refused by 4 empties the queue", emptied!(|told| told == "refused 4", "mark")),
    ("an unmark refused by 2 empties the queue", emptied!(|told| told == "refused 2", "unmark")),
    ("an unmark refused by 3 empties the queue", emptied!(|told| told == "refused 3", "unmark")),
    ("an unmark refused by 4 empties the queue", emptied!(|told| told == "refused 4", "unmark")),
    ("an edit that is not as expected empties the queue", emptied!(expected, "mark", "unmark")),
    ("a search empties the queue", emptied!(ok, "search")),
    ("a refused search empties the queue", emptied!(refused, "search")),
    ("read empties the queue", emptied!(ok, "read")),
    ("vector and row empty the queue", emptied!(ok, "vector", "row")),
    ("states and greedy empty the queue", emptied!(ok, "states", "greedy")),
    ("bound, upper and constant empty the queue", emptied!(ok, "bound", "upper", "constant")),
    ("judge empties the queue", emptied!(|told| told == "yes" || told == "no", "judge")),
    ("a tick empties the queue", emptied!(ok, "tick")),
    ("a start by hand empties the queue", emptied!(ok, "start")),
    ("a start by hand that is not granted empties the queue", emptied!(|told| told == "refused 10", "start")),
    ("a start by hand of an unknown function empties the queue", emptied!(|told| told == "refused 2", "start")),
    ("bank empties the queue", emptied!(ok, "bank")),
    ("a save empties the queue", emptied!(ok, "save")),
    ("a save that is not written empties the queue", emptied!(not_written, "save")),
    ("list empties the queue", emptied!(ok, "list")),
    ("table empties the queue", emptied!(ok, "table")),
    ("diagram empties the queue", emptied!(ok, "diagram")),
    ("a loop empties the queue", emptied!(ok, "loop")),
    ("a refused loop empties the queue", emptied!(refused, "loop")),
    ("a record empties the queue", emptied!(ok, "record")),
    ("a refused record empties the queue", emptied!(refused, "record")),
    ("a record that is not written empties the queue", emptied!(not_written, "record")),
    ("report empties the queue", emptied!(ok, "report")),
    ("ring empties the queue", emptied!(ok, "ring")),
    ("a file that is no record empties the queue", emptied!(refused, "report", "ring")),
    ("a report of no file empties the queue", emptied!(no_file, "report", "ring")),
    ("a chart empties the queue", emptied!(ok, "simulate")),
    ("a refused chart empties the queue", emptied!(refused, "simulate")),
    ("delays empty the queue", emptied!(ok, "delays")),
    ("refused delays empty the queue", emptied!(refused, "delays")),
    ("delays that are not written empty the queue", emptied!(not_written, "delays")),
    ("totals empty the queue", emptied!(|told| told == "tables", "small")),
    ("a refused small table empties the queue", emptied!(refused, "small")),
    ("a small table that is not as expected empties the queue", emptied!(expected, "small")),
    ("an arrival that is not as expected empties the queue", emptied!(expected, "arrive")),
    ("an arrival that is not as expected waits as function 1", |it, line, place| {
        it.after(line, place, &["arrive"], expected, |console| {
            if console.unit.is_some() && console.queue.len() < MOST_WAITING {
                console.queue.push(Task { tag: 1, ticket: 0 });
            }
        })
    }),
    ("a pass that is not as expected takes the oldest away", |it, line, place| it.after(line, place, &["pass"], expected, take_oldest)),
    ("a line that is no command empties the queue", |it, line, place| {
        let answer = it.answer(line, place);
        if answer.sort == Sort::ExpectedCommand {
            empty_queue(&mut it.console);
        }
        answer
    }),
    ("a comment empties the queue", |it, line, place| {
        let answer = it.answer(line, place);
        if answer.sort == Sort::Comment {
            empty_queue(&mut it.console);
        }
        answer
    }),
    ("a line that is too long empties the queue", |it, line, place| {
        let answer = it.answer(line, place);
        if answer.sort == Sort::TooLong {
            empty_queue(&mut it.console);
        }
        answer
    }),
    // what arrivals and lists leave as it is
    ("an arrival takes a time unit", |it, line, place| it.after(line, place, &["arrive"], ok, tick)),
    ("an arrival that is refused by 2 takes a time unit", |it, line, place| {
        it.after(line, place, &["arrive"], |told| told == "refused 2", tick)
    }),
    ("an arrival that is refused by 14 takes a time unit", |it, line, place| {
        it.after(line, place, &["arrive"], |told| told == "refused 14", tick)
    }),
    ("an arrival empties the bank", |it, line, place| it.after(line, place, &["arrive"], ok, empty)),
    ("a refused arrival empties the bank", |it, line, place| it.after(line, place, &["arrive"], refused, empty)),
    ("an arrival drops the plan", |it, line, place| it.after(line, place, &["arrive"], ok, drop_plan)),
    ("a refused arrival drops the plan", |it, line, place| it.after(line, place, &["arrive"], refused, drop_plan)),
    ("an arrival takes a mark away", |it, line, place| it.after(line, place, &["arrive"], ok, take_mark)),
    ("an arrival starts the oldest", |it, line, place| it.after(line, place, &["arrive"], ok, start_oldest)),
    ("an arrival is started where none waits", |it, line, place| {
        it.after(line, place, &["arrive"], ok, |console| {
            if console.queue.len() == 1 {
                start_oldest(console);
            }
        })
    }),
    ("an arrival starts its function, and waits", |it, line, place| it.and_then(line, place, "arrive", "start")),
    ("an arrival searches for its function", |it, line, place| it.and_then(line, place, "arrive", "search")),
    ("an arrival that the bank holds back is refused by 10", |it, line, place| {
        it.refusing_at(line, place, "arrive", 10, |console, tag| console.bank.holds_back(tag))
    }),
    ("those that were started still take room", |it, line, place| {
        let mut answer = it.answer(line, place);
        if it.has_emptied(&answer) {
            it.skipped = 0;
        }
        if is(&answer, "arrive", "ok") {
            it.skipped += 1;
            if it.skipped > MOST_WAITING {
                it.console.queue.pop();
                answer.parts = vec![Part::Text("refused 14\n".to_string())];
            }
        }
        answer
    }),
    ("there is room again where none waits alone", |it, line, place| {
        let mut answer = it.answer(line, place);
        if it.console.queue.is_empty() {
            it.skipped = 0;
        }
        if is(&answer, "arrive", "ok") {
            it.skipped += 1;
            if it.skipped > MOST_WAITING {
                it.console.queue.pop();
                answer.parts = vec![Part::Text("refused 14\n".to_string())];
            }
        }
        answer
    }),
    ("a list takes a time unit", |it, line, place| it.after(line, place, &["queue"], ok, tick)),
    ("a list takes the oldest away", |it, line, place| it.after(line, place, &["queue"], ok, take_oldest)),
    ("a list empties the queue", emptied!(ok, "queue")),
    ("a list empties the bank", |it, line, place| it.after(line, place, &["queue"], ok, empty)),
    ("a list drops the plan", |it, line, place| it.after(line, place, &["queue"], ok, drop_plan)),
    ("a list starts the oldest", |it, line, place| it.after(line, place, &["queue"], ok, start_oldest)),
    // time units, and events by hand
    ("a pass with a start drops the plan", |it, line, place| it.after(line, place, &["pass"], |told| told == "started", drop_plan)),
    ("a pass without a start drops the plan", |it, line, place| it.after(line, place, &["pass"], |told| told == "none", drop_plan)),
    ("a pass with a start takes a mark away", |it, line, place| it.after(line, place, &["pass"], |told| told == "started", take_mark)),
    ("a task waits for a time unit at least", |it, line, place| {
        let is_new = it.skipped == 1 && words_of(line) == [b"pass"];
        let hidden = if is_new { std::mem::take(&mut it.console.queue) } else { Queue::new() };
        let answer = it.answer(line, place);
        if is_new {
            it.console.queue = hidden;
            it.skipped = 0;
        }
        if is(&answer, "arrive", "ok") && it.console.queue.len() == 1 {
            it.skipped = 1;
        } else if it.console.queue.is_empty() {
            it.skipped = 0;
        }
        answer
    }),
    ("pass has a bank of its own", |it, line, place| {
        let is_unit = words_of(line) == [b"pass"];
        if is_unit {
            std::mem::swap(&mut it.console.bank, &mut it.other);
        }
        let answer = it.answer(line, place);
        if is_unit {
            std::mem::swap(&mut it.console.bank, &mut it.other);
        }
        if it.has_emptied(&answer) {
            it.other = it.console.bank.clone();
        }
        answer
    }),
    ("a tick starts the oldest", |it, line, place| {
        let old = it.console.bank.clone();
        let answer = it.answer(line, place);
        if is(&answer, "tick", "ok") {
            let ticked = std::mem::replace(&mut it.console.bank, old);
            let count = it.console.queue.len();
            start_oldest(&mut it.console);
            if it.console.queue.len() == count {
                it.console.bank = ticked;
            }
        }
        answer
    }),
    ("a tick takes the oldest away", |it, line, place| it.after(line, place, &["tick"], ok, take_oldest)),
    ("a start by hand takes the oldest away", |it, line, place| it.after(line, place, &["start"], ok, take_oldest)),
    ("a start by hand takes the oldest of its function away", |it, line, place| {
        let answer = it.answer(line, place);
        if is(&answer, "start", "ok") {
            let tag = number(words_of(line)[1]);
            if let Some(first) = it.console.queue.iter().position(|task| Some(task.tag) == tag) {
                it.console.queue.remove(first);
            }
        }
        answer
    }),
    ("a start by hand that is not granted waits", |it, line, place| {
        let answer = it.answer(line, place);
        if is(&answer, "start", "refused 10") && it.console.queue.len() < MOST_WAITING {
            it.console.queue.push(Task { tag: number(words_of(line)[1]).expect("a tag"), ticket: 0 });
        }
        answer
    }),
    ("a start by hand is refused where any wait", |it, line, place| {
        it.refusing_at(line, place, "start", 10, |console, _| !console.queue.is_empty())
    }),
    ("a start by hand is refused where one of its function waits", |it, line, place| {
        it.refusing_at(line, place, "start", 10, |console, tag| console.queue.iter().any(|task| task.tag == tag))
    }),
    // what is asked for and what is told
    ("arrive: Q and TICKET are exchanged", |it, line, place| it.with_words_of(line, place, "arrive", 2, |words| words.swap(1, 2))),
    ("arrive: no ticket is taken for 0", |it, line, place| it.with_words_of(line, place, "arrive", 1, |words| words.push(b"0".to_vec()))),
    ("arrive: a number too many is passed over", |it, line, place| it.with_words_of(line, place, "arrive", 3, |words| words.truncate(3))),
    ("arrive: a ticket above 4294967295 is taken modulo 2^32", |it, line, place| {
        it.with_words_of(line, place, "arrive", 2, |words| {
            if let Some(ticket) = digits(&String::from_utf8_lossy(&words[2])) {
                words[2] = (ticket % (1 << 32)).to_string().into_bytes();
            }
        })
    }),
    ("arrive: a ticket above 65535 is not what was expected", |it, line, place| {
        it.with_words_of(line, place, "arrive", 2, |words| {
            if number(&words[2]).is_some_and(|ticket| ticket > 65_535) {
                words.push(b"x".to_vec());
            }
        })
    }),
    ("pass: a number after it is passed over", |it, line, place| it.with_words_of(line, place, "pass", 1, |words| words.truncate(1))),
    ("queue: a number after it is passed over", |it, line, place| it.with_words_of(line, place, "queue", 1, |words| words.truncate(1))),
    ("arrive: no unit comes after refused 2", |it, line, place| {
        it.instead(line, place, |answer, _| is(answer, "arrive", "no unit").then(|| "refused 2\n".to_string()))
    }),
    ("pass: none in place of no unit", |it, line, place| {
        it.instead(line, place, |answer, _| is(answer, "pass", "no unit").then(|| "none\n".to_string()))
    }),
    ("queue: none waits in place of no unit", |it, line, place| {
        it.instead(line, place, |answer, _| is(answer, "queue", "no unit").then(|| "queue 0:\n".to_string()))
    }),
    ("arrive: how many wait is told", |it, line, place| {
        let count = it.console.queue.len() + 1;
        it.instead(line, place, |answer, _| is(answer, "arrive", "ok").then(|| format!("ok {count}\n")))
    }),
    ("pass: ok where one is started", |it, line, place| {
        it.telling_unit(line, place, |text, _| text.starts_with("started").then(|| "ok".to_string()))
    }),
    ("pass: ok where none is started", |it, line, place| {
        it.telling_unit(line, place, |text, _| (text == "none").then(|| "ok".to_string()))
    }),
    ("pass: ok where none waits", |it, line, place| {
        it.telling_unit(line, place, |_, waiting| waiting.is_empty().then(|| "ok".to_string()))
    }),
    ("pass: refused 10 where the oldest is held back", |it, line, place| {
        it.telling_unit(line, place, |text, waiting| (text == "none" && !waiting.is_empty()).then(|| "refused 10".to_string()))
    }),
    ("pass: refused 14 where none waits", |it, line, place| {
        it.telling_unit(line, place, |_, waiting| waiting.is_empty().then(|| "refused 14".to_string()))
    }),
    ("pass: idle in place of none", |it, line, place| it.telling_unit(line, place, |text, _| Some(text.replace("none", "idle")))),
    ("pass: the tag alone is told", |it, line, place| {
        it.telling_unit(line, place, |text, _| text.rsplit_once(' ').map(|(front, _)| front.to_string()))
    }),
    ("pass: the ticket alone is told", |it, line, place| {
        it.telling_unit(line, place, |text, _| text.rsplit_once(' ').map(|(_, ticket)| format!("started {ticket}")))
    }),
    ("pass: a space at the end", |it, line, place| {
        it.telling_unit(line, place, |text, _| text.starts_with("started").then(|| format!("{text} ")))
    }),
    ("pass: a colon after started", |it, line, place| it.telling_unit(line, place, |text, _| Some(text.replace("started", "started:")))),
];
