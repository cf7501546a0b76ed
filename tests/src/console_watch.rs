//! The answers about the issue port in a script, held against the tasks laid out in time (`queue_check.rs`, `callers_check.rs`), before the
//! program is run.

use crate::callers_check::Sharing;
use crate::console_model::*;
use crate::model::*;
use crate::queue::Task;
use crate::queue_check::Layout;

/// What the lines so far say of the issue port. There is nothing before the first unit.
#[derive(Default)]
pub struct Watch {
    layout: Option<Layout>,
    sharing: Sharing,
}

/// What a command answered: nothing refused, or the number.
fn reply_of(text: &str) -> Reply<()> {
    text.strip_prefix("refused ").map_or(Ok(()), |number| Err(number.parse().expect("a number")))
}

/// The numbers of some words.
fn numbers<'a>(words: impl IntoIterator<Item = &'a [u8]>) -> Vec<u32> {
    words.into_iter().map(|word| number(word).expect("a number")).collect()
}

/// What a time unit answered: the numbers of the task that was started, or none.
fn started(text: &str) -> Result<Option<Vec<u32>>, String> {
    match text.strip_prefix("started ") {
        Some(task) => Ok(Some(numbers(task.split(' ').map(|word| word.as_bytes())))),
        None if text == "none" => Ok(None),
        None => Err(format!("{text:?} after a time unit")),
    }
}

impl Watch {
    /// A line with its answer, and the unit as it is after it. Answers the special cases that were met.
    pub fn see(&mut self, line: &[u8], answer: &Answer, unit: Option<&Unit>) -> Result<Vec<&'static str>, String> {
        let (Sort::Of(name, told), [Part::Text(text)]) = (&answer.sort, &answer.parts[..]) else { return Ok(Vec::new()) };
        let text = text.trim_end_matches('\n');
        // "An accepted `fresh`, `load`, `mark` or `unmark` empties queue and bank": and the callers' queues; so does a small table
        if ["fresh", "load", "mark", "unmark", "small"].contains(name) && told == "ok" {
            self.layout = unit.map(Layout::new);
            self.sharing.empty();
        }
        let (Some(layout), false) = (&mut self.layout, ["expected", "no unit"].contains(&told.as_str())) else { return Ok(Vec::new()) };
        let (sharing, now) = (&mut self.sharing, layout.now);
        let words = words_of(line);
        match *name {
            "arrive" => {
                let [tag, ticket] = numbers(words[1..].iter().copied())[..] else { unreachable!("two numbers") };
                layout.arrive(Task { tag, ticket }, reply_of(text))?;
            }
            "pass" => layout.pass(started(text)?.map(|task| Task { tag: task[0], ticket: task[1] }))?,
            "queue" => layout.list(text)?,
            "start" => layout.start(numbers([words[1]])[0], reply_of(text))?,
            "tick" => layout.tick(),
            "bank" => layout.bank(&numbers(text.split(' ').map(|word| word.as_bytes())))?,
            "callers" => sharing.count(numbers([words[1]])[0], reply_of(text))?,
            "call" => {
                let [caller, tag, ticket] = numbers(words[1..].iter().copied())[..] else { unreachable!("three numbers") };
                sharing.call(layout, caller, Task { tag, ticket }, reply_of(text))?;
            }
            "turn" => {
                let refusal = reply_of(text);
                let started = if refusal.is_ok() { started(text)? } else { None };
                sharing.turn(layout, refusal.map(|_| started.map(|task| (task[0], Task { tag: task[1], ticket: task[2] }))))?;
            }
            _ => {}
        }
        // the bank is the same
        if *name != "turn" && layout.now != now {
            sharing.count_anew(layout);
        }
        Ok([layout.take_met(), sharing.take_met()].concat())
    }
}
