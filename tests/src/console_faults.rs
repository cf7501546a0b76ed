//! Consoles with one fault each, as a program could have it. The scripts have to show every one of them: an output that is wrong shows that
//! the comparison works, a console that is wrong shows that the lines reach the fault.

use crate::callers::MOST_CALLERS;
use crate::charts;
use crate::console_folder::{part_of, Content, File, Folder, Shelf};
use crate::console_model::*;
use crate::console_script::LINES;
use crate::console_words::{one_turn, Draw};
use crate::delays::*;
use crate::delays_check::{after, is_taken, marks_in, tried_places, Placed};
use crate::loops::Loops;
use crate::model::*;
use crate::records;
use std::cell::Cell;
use std::rc::Rc;

/// What a faulty console is made of.
pub struct Faulty {
    pub console: Console<Folder>,
    /// For a fault that counts.
    pub skipped: usize,
    /// For a fault that has a second bank.
    pub other: Bank,
    /// For a fault that counts for each caller.
    pub counts: [usize; MOST_CALLERS as usize],
    /// For a fault that knows whose tasks came first.
    pub came: Vec<u32>,
}

/// The answer that a console with this fault gives.
pub type Fault = fn(&mut Faulty, &[u8], usize) -> Answer;

impl Faulty {
    pub fn new(console: Console<Folder>) -> Faulty {
        Faulty { console, skipped: 0, other: Bank::of_words(&[0; REGISTERS]), counts: Default::default(), came: Vec::new() }
    }

    pub fn answer(&mut self, line: &[u8], place: usize) -> Answer {
        self.console.answer(line, place)
    }

    /// With the words changed, where the line says any.
    fn with_words(&mut self, line: &[u8], place: usize, change: impl Fn(&mut Vec<Vec<u8>>)) -> Answer {
        if !says(line) {
            return self.answer(line, place);
        }
        let mut words: Vec<Vec<u8>> = words_of(line).into_iter().map(|word| word.to_vec()).collect();
        change(&mut words);
        self.answer(&line_of(&words), place)
    }

    /// With an empty word, where the line is to have one: a command with it is not what was expected.
    fn with_empty_word(&mut self, line: &[u8], place: usize, has: fn(&[u8]) -> bool) -> Answer {
        let has = has(without_return(line));
        self.with_words(line, place, |words| {
            if has {
                words.extend([b"x".to_vec(), b"x".to_vec()]);
            }
        })
    }

    /// As a line that is no command, where it is so.
    fn no_command_if(&mut self, holds: bool, line: &[u8], place: usize) -> Answer {
        self.answer(if holds { b"?" } else { line }, place)
    }

    /// With other bytes, where the line is not too long.
    fn with_bytes(&mut self, line: &[u8], place: usize, change: impl Fn(u8) -> u8) -> Answer {
        let other: Vec<u8> = line.iter().map(|byte| change(*byte)).collect();
        self.answer(if line.len() > LONGEST_LINE { line } else { &other }, place)
    }

    /// As another line, where that one is not too long and this one is, which has words.
    fn shorter(&mut self, line: &[u8], place: usize, other: &[u8]) -> Answer {
        let is_shorter = line.len() > LONGEST_LINE && other.len() <= LONGEST_LINE && !has_no_words(line);
        self.answer(if is_shorter { other } else { line }, place)
    }

    /// With a line of some sort left out of the numbers of those after it.
    fn not_counting(&mut self, line: &[u8], place: usize, is: impl Fn(&[u8]) -> bool) -> Answer {
        let skipped = self.skipped;
        self.skipped += is(line) as usize;
        self.answer(line, place - skipped)
    }

    /// With each number changed.
    fn with_numbers(&mut self, line: &[u8], place: usize, change: impl Fn(&str) -> Option<String>) -> Answer {
        self.with_words(line, place, |words| {
            for word in &mut words[1..] {
                let text = String::from_utf8_lossy(word).into_owned();
                if let Some(other) = change(&text) {
                    *word = other.into_bytes();
                }
            }
        })
    }

    /// With something done after answers of these commands that are as asked for.
    pub fn after(&mut self, line: &[u8], place: usize, names: &[&str], said: fn(&str) -> bool, then: fn(&mut Console<Folder>)) -> Answer {
        let answer = self.answer(line, place);
        if let Sort::Of(name, told) = &answer.sort {
            if names.contains(name) && said(told) {
                then(&mut self.console);
            }
        }
        answer
    }

    /// With the plan or the bank as it was before answers of these commands that are as asked for.
    pub fn keeping(
        &mut self,
        line: &[u8],
        place: usize,
        names: &[&str],
        plan: bool,
        said: impl Fn(&Console<Folder>, &Answer) -> bool,
    ) -> Answer {
        let (old_plan, old_bank) = (self.console.plan, self.console.bank.clone());
        let answer = self.answer(line, place);
        if let Sort::Of(name, told) = &answer.sort {
            if names.contains(name) && told == "ok" && said(&self.console, &answer) {
                match plan {
                    true => self.console.plan = old_plan,
                    false => self.console.bank = old_bank,
                }
            }
        }
        answer
    }

    /// With another text in place of some.
    pub fn instead(&mut self, line: &[u8], place: usize, change: impl Fn(&Answer, &str) -> Option<String>) -> Answer {
        let mut answer = self.answer(line, place);
        if let [Part::Text(text)] = &mut answer.parts[..] {
            let copy = text.clone();
            if let Some(other) = change(&Answer { sort: answer.sort.clone(), parts: Vec::new(), met: answer.met.clone() }, &copy) {
                *text = other;
            }
        }
        answer
    }

    /// With other tags, where the line says a loop: the numbers after its name.
    fn with_tags(&mut self, line: &[u8], place: usize, change: impl Fn(&mut Vec<Vec<u8>>)) -> Answer {
        self.with_words(line, place, |words| {
            if words[0] == b"loop" && words[1..].iter().all(|word| number(word).is_some()) {
                let mut tags = words.split_off(1);
                change(&mut tags);
                words.append(&mut tags);
            }
        })
    }

    /// With another loop, where there is one.
    fn with_loop(&mut self, line: &[u8], place: usize, change: impl Fn(&Loops) -> Option<Vec<u8>>) -> Answer {
        let mut answer = self.answer(line, place);
        for part in &mut answer.parts {
            if let Part::Loop(loops) = part {
                if let Some(latencies) = change(loops) {
                    *part = Part::Text(cycle_text(&latencies));
                }
            }
        }
        answer
    }

    /// With another text in place of what is shown of a record that stood before the first line: what comes after `count` or `sum`.
    fn showing(&mut self, line: &[u8], place: usize, begin: &str, change: impl Fn(&str) -> String) -> Answer {
        self.instead(line, place, |_, text| {
            let shown = text.strip_prefix(begin)?.strip_suffix('\n')?;
            Some(format!("{begin}{}\n", change(shown)))
        })
    }

    /// With other bits of a ring.
    fn showing_ring(&mut self, line: &[u8], place: usize, change: impl Fn(&str) -> String) -> Answer {
        self.showing(line, place, "sum ", |shown| match shown.split_once(" ring ") {
            Some((sum, ring)) => format!("{sum} ring {}", change(ring)),
            None => shown.to_string(),
        })
    }

    /// With another text in this special case of the two readers.
    fn in_case(&mut self, line: &[u8], place: usize, what: &str, text: &str) -> Answer {
        self.instead(line, place, |answer, _| answer.met.contains(&what).then(|| text.to_string()))
    }

    /// With other bytes of the file that a reader of records is given.
    fn with_file(&mut self, line: &[u8], place: usize, readers: &[&[u8]], change: impl Fn(&mut Vec<u8>)) -> Answer {
        let [reader, name] = words_of(line)[..] else { return self.answer(line, place) };
        let old = self.console.shelf.files.get(name).cloned();
        let (true, Some(File::Bytes(mut bytes))) = (readers.contains(&reader), old.clone()) else { return self.answer(line, place) };
        change(&mut bytes);
        self.console.shelf.files.insert(name.to_vec(), File::Bytes(bytes));
        let answer = self.answer(line, place);
        self.console.shelf.files.extend(old.map(|file| (name.to_vec(), file)));
        answer
    }

    /// With other units, where the line asks for a chart.
    fn with_units(&mut self, line: &[u8], place: usize, change: impl Fn(u32) -> u32) -> Answer {
        self.with_words(line, place, |words| {
            if let (true, [_, _, units]) = (words[0] == b"simulate", &mut words[..]) {
                if let Some(number) = number(units) {
                    *units = change(number).to_string().into_bytes();
                }
            }
        })
    }

    /// With another chart, where there is one, from the marks of the unit.
    fn with_chart(&mut self, line: &[u8], place: usize, change: impl Fn(&Unit, &mut Chart)) -> Answer {
        let mut answer = self.answer(line, place);
        if let ([Part::Chart(chart)], Some(unit)) = (&mut answer.parts[..], &self.console.unit) {
            change(unit, chart);
        }
        answer
    }

    /// With a refusal in place of a chart in this special case.
    fn refusing(&mut self, line: &[u8], place: usize, what: &str, number: u32) -> Answer {
        let mut answer = self.answer(line, place);
        if answer.met.contains(&what) {
            answer.parts = vec![Part::Text(format!("refused {number}\n"))];
        }
        answer
    }

    /// With something done to the files where this command has written one, from the files before and the name of that one.
    fn having_written(&mut self, line: &[u8], place: usize, name: &str, then: fn(&mut Folder, &Folder, &[u8])) -> Answer {
        let Some(file) = file_of(line, name) else { return self.answer(line, place) };
        let before = self.console.shelf.clone();
        let answer = self.answer(line, place);
        if is(&answer, name, "ok") {
            then(&mut self.console.shelf, &before, file);
        }
        answer
    }

    /// With other words, where the line has a name and so many words after it.
    pub fn with_words_of(&mut self, line: &[u8], place: usize, name: &str, count: usize, change: impl Fn(&mut Vec<Vec<u8>>)) -> Answer {
        self.with_words(line, place, |words| {
            if words[0] == name.as_bytes() && words.len() == count + 1 {
                change(words);
            }
        })
    }

    /// With a word too many, where the last of so many words after a name, which is a file's, is such a number.
    fn with_no_number(&mut self, line: &[u8], place: usize, name: &str, count: usize, is: fn(&[u8]) -> bool) -> Answer {
        self.with_words_of(line, place, name, count, |words| {
            if is(&words[count]) {
                words.push(b"x".to_vec());
            }
        })
    }

    /// With another command about the same function carried out after an accepted one.
    pub fn and_then(&mut self, line: &[u8], place: usize, name: &str, then: &str) -> Answer {
        let answer = self.answer(line, place);
        if is(&answer, name, "ok") {
            let line = [then.as_bytes(), b" ", words_of(line)[1]].concat();
            self.answer(&line, place);
        }
        answer
    }

    /// The unit with delays that was shown or written.
    fn delayed_by(&self, line: &[u8], answer: &Answer) -> Option<Unit> {
        let unit = self.console.unit.as_ref().filter(|_| is(answer, "delays", "ok"))?;
        let words = words_of(line);
        delayed(unit, number(words[1])?, number(words[2])?).ok()
    }

    /// With another text, from the unit with delays, where that was written or where it was shown.
    fn telling_delays(&mut self, line: &[u8], place: usize, is_written: bool, text: impl Fn(&Unit) -> String) -> Answer {
        let mut answer = self.answer(line, place);
        if let (Some(result), true) = (self.delayed_by(line, &answer), file_of(line, "delays").is_some() == is_written) {
            answer.parts = vec![Part::Text(text(&result))];
        }
        answer
    }

    /// With the unit with delays in place of the session's, where that was written or where it was shown.
    fn taking_delays(&mut self, line: &[u8], place: usize, is_written: bool) -> Answer {
        let answer = self.answer(line, place);
        if let (Some(result), true) = (self.delayed_by(line, &answer), file_of(line, "delays").is_some() == is_written) {
            change_unit(&mut self.console, |unit| *unit = result);
        }
        answer
    }

    /// With the session's unit written where delays with a file get this answer.
    fn saving_at(&mut self, line: &[u8], place: usize, told: &str) -> Answer {
        let answer = self.answer(line, place);
        if let (true, Some(file), Some(unit)) = (is(&answer, "delays", told), file_of(line, "delays"), &self.console.unit) {
            let content = Content::Bytes(encode(unit));
            self.console.shelf.save(file, &content);
        }
        answer
    }

    /// With a loop in place of a refusal in this special case.
    fn unrefused(&mut self, line: &[u8], place: usize, what: &'static str) -> Answer {
        self.instead(line, place, |answer, _| answer.met.contains(&what).then(|| "loop cycle 1 sum 1\n".to_string()))
    }
}

/// The file that a line of this name asks to be written.
pub fn file_of<'a>(line: &'a [u8], name: &str) -> Option<&'a [u8]> {
    match words_of(line)[..] {
        [first @ b"save", file] | [first @ b"record", _, file] | [first @ b"delays", _, _, file] if first == name.as_bytes() => Some(file),
        _ => None,
    }
}

/// A `.part` is left beside a file.
fn leave_part(folder: &mut Folder, _: &Folder, name: &[u8]) {
    if let Some(file @ (File::Bytes(_) | File::Record(_))) = folder.files.get(name).cloned() {
        folder.files.insert(part_of(name), file);
    }
}

/// The old file itself is written, and a `.part` that stood is still there.
fn keep_part(folder: &mut Folder, before: &Folder, name: &[u8]) {
    let part = part_of(name);
    folder.files.extend(before.files.get(&part).map(|file| (part, file.clone())));
}

/// The file stands where a link stood.
fn replace_link(folder: &mut Folder, before: &Folder, name: &[u8]) {
    let (Some(File::Link(_)), Some(content)) = (before.files.get(name), folder.load(name)) else { return };
    let file = match content {
        Content::Bytes(bytes) => File::Bytes(bytes),
        Content::Record(planned) => File::Record(planned),
    };
    *folder = before.clone();
    folder.files.insert(name.to_vec(), file);
}

/// The end of a longer file is left.
fn keep_end(folder: &mut Folder, before: &Folder, _: &[u8]) {
    for (name, file) in &mut folder.files {
        if let (File::Bytes(new), Some(File::Bytes(old))) = (file, before.files.get(name)) {
            if new.len() < old.len() {
                new.extend_from_slice(&old[new.len()..]);
            }
        }
    }
}

/// The two readers of records.
const READERS: &[&[u8]] = &[b"report", b"ring"];

/// Where the list of a record ends and where its ring does, where it is long enough for both.
fn ends(bytes: &[u8]) -> Option<(usize, usize)> {
    if bytes.len() < records::LIST {
        return None;
    }
    let list_end = records::LIST + records::field(bytes, 0);
    let ring_end = list_end + records::field(bytes, 1).div_ceil(8);
    (ring_end <= bytes.len()).then_some((list_end, ring_end))
}

/// The spare bits of a record's last byte.
fn spare_bits(bytes: &[u8]) -> u8 {
    match records::field(bytes, 1) % 8 {
        0 => 0,
        used => !((1 << used) - 1),
    }
}

/// Whether a line is no longer than it may be and has words that are no comment.
fn says(line: &[u8]) -> bool {
    line.len() <= LONGEST_LINE && words_of(line).first().is_some_and(|first| !first.starts_with(b"#"))
}

/// A line that says these words.
fn line_of(words: &[Vec<u8>]) -> Vec<u8> {
    let mut line = words.join(&b' ');
    // one that belongs to the last word
    if line.ends_with(b"\r") {
        line.push(b'\r');
    }
    line
}

fn first_is(line: &[u8], names: &[&[u8]]) -> bool {
    says(line) && names.contains(&words_of(line)[0])
}

fn is_comment(line: &[u8]) -> bool {
    words_of(line).first().is_some_and(|first| first.starts_with(b"#"))
}

fn has_no_words(line: &[u8]) -> bool {
    words_of(line).is_empty()
}

fn after_blanks(line: &[u8]) -> bool {
    line.first().is_some_and(|byte| is_blank(*byte))
}

fn before_blanks(line: &[u8]) -> bool {
    line.last().is_some_and(|byte| is_blank(*byte))
}

/// Without blanks at either end.
fn between_blanks(line: &[u8]) -> &[u8] {
    let begin = line.iter().position(|byte| !is_blank(*byte)).unwrap_or(line.len());
    let end = line.iter().rposition(|byte| !is_blank(*byte)).map_or(begin, |last| last + 1);
    &line[begin..end]
}

pub fn digits(text: &str) -> Option<u128> {
    if text.is_empty() || text.len() > 39 || !text.bytes().all(|byte| byte.is_ascii_digit()) {
        return None;
    }
    text.parse().ok()
}

fn is_number(word: &[u8]) -> bool {
    number(word).is_some()
}

fn is_large_number(word: &[u8]) -> bool {
    digits(&String::from_utf8_lossy(word)).is_some_and(|number| number >= 1 << 32)
}

pub fn refused(told: &str) -> bool {
    told.starts_with("refused")
}

pub fn ok(told: &str) -> bool {
    told == "ok"
}

pub fn empty(console: &mut Console<Folder>) {
    console.bank = Bank::of_words(&[0; REGISTERS]);
}

pub fn drop_plan(console: &mut Console<Folder>) {
    console.plan = None;
}

/// Changes the unit. A plan is kept where its function has the diagram that it had, so that the plan still runs along its arcs.
pub fn change_unit(console: &mut Console<Folder>, change: impl FnOnce(&mut Unit)) {
    let diagram = |console: &mut Console<Folder>| console.plan.and_then(|plan| console.drawn(plan.tag)).map(|drawn| drawn.graph);
    let before = diagram(console);
    if let Some(unit) = &mut console.unit {
        change(unit);
    }
    let after = diagram(console);
    if !matches!((before, after), (Some(before), Some(after)) if Rc::ptr_eq(&before, &after)) {
        drop_plan(console);
    }
}

/// Takes the last mark away.
pub fn take_mark(console: &mut Console<Folder>) {
    change_unit(console, |unit| {
        unit.marks.pop_last();
    });
}

pub fn is(answer: &Answer, name: &str, told: &str) -> bool {
    answer.sort == Sort::Of(COMMANDS.iter().find(|command| command.0 == name).expect("a command").0, told.to_string())
}

pub const FAULTS: &[(&str, Fault)] = &[
    // blanks
    ("a tab is a byte of a word", |it, line, place| it.with_bytes(line, place, |byte| if byte == b'\t' { 11 } else { byte })),
    ("two blanks side by side make an empty word", |it, line, place| {
        it.with_empty_word(line, place, |line| between_blanks(line).windows(2).any(|pair| is_blank(pair[0]) && is_blank(pair[1])))
    }),
    ("two tabs side by side make an empty word", |it, line, place| {
        it.with_empty_word(line, place, |line| between_blanks(line).windows(2).any(|pair| pair == b"\t\t"))
    }),
    ("a space and a tab side by side make an empty word", |it, line, place| {
        it.with_empty_word(line, place, |line| between_blanks(line).windows(2).any(|pair| pair == b" \t" || pair == b"\t "))
    }),
    ("a blank at the end makes an empty word", |it, line, place| it.with_empty_word(line, place, before_blanks)),
    ("a tab at the end makes an empty word", |it, line, place| it.with_empty_word(line, place, |line| line.ends_with(b"\t"))),
    ("a blank before a carriage return makes an empty word", |it, line, place| {
        let returned = line.ends_with(b"\r");
        it.with_words(line, place, |words| {
            if returned && before_blanks(without_return(line)) {
                words.extend([b"x".to_vec(), b"x".to_vec()]);
            }
        })
    }),
    ("a space in front makes no command", |it, line, place| it.no_command_if(says(line) && line.starts_with(b" "), line, place)),
    ("a tab in front makes no command", |it, line, place| it.no_command_if(says(line) && line.starts_with(b"\t"), line, place)),
    ("one blank in front alone is passed over", |it, line, place| {
        it.no_command_if(says(line) && after_blanks(line) && after_blanks(&line[1..]), line, place)
    }),
    ("a vertical tab and a form feed are blanks", |it, line, place| {
        it.with_bytes(line, place, |byte| if byte == 11 || byte == 12 { b' ' } else { byte })
    }),
    ("every byte below 32 is a blank", |it, line, place| it.with_bytes(line, place, |byte| if byte < 32 { b' ' } else { byte })),
    ("spaces alone are answered", |it, line, place| {
        it.no_command_if(has_no_words(line) && line.starts_with(b" ") && line.len() <= LONGEST_LINE, line, place)
    }),
    ("tabs alone are answered", |it, line, place| {
        it.no_command_if(has_no_words(line) && line.starts_with(b"\t") && line.len() <= LONGEST_LINE, line, place)
    }),
    ("a comment after spaces is no comment", |it, line, place| {
        it.no_command_if(is_comment(line) && line.starts_with(b" ") && line.len() <= LONGEST_LINE, line, place)
    }),
    ("a comment after tabs is no comment", |it, line, place| {
        it.no_command_if(is_comment(line) && line.starts_with(b"\t") && line.len() <= LONGEST_LINE, line, place)
    }),
    ("blanks alone are not counted", |it, line, place| it.not_counting(line, place, |line| !line.is_empty() && has_no_words(line))),
    ("comments after blanks are not counted", |it, line, place| {
        it.not_counting(line, place, |line| is_comment(line) && after_blanks(line))
    }),
    // carriage returns
    ("a carriage return at the end is a byte of a word", |it, line, place| {
        it.answer(&if line.ends_with(b"\r") && line.len() < LONGEST_LINE { [line, b"\r"].concat() } else { line.to_vec() }, place)
    }),
    ("a carriage return at the input's end is a byte of a word", |it, line, place| {
        it.answer(&if line.ends_with(b"\r") && place == LINES { [line, b"\r"].concat() } else { line.to_vec() }, place)
    }),
    ("a carriage return alone is answered", |it, line, place| it.no_command_if(line == b"\r", line, place)),
    ("blanks and a carriage return alone are answered", |it, line, place| {
        it.no_command_if(has_no_words(line) && line.ends_with(b"\r") && (2..LONGEST_LINE).contains(&line.len()), line, place)
    }),
    ("two carriage returns at the end are passed over", |it, line, place| {
        it.answer(if line.ends_with(b"\r\r") && line.len() <= LONGEST_LINE { &line[..line.len() - 2] } else { line }, place)
    }),
    ("a carriage return with blanks after it is passed over", |it, line, place| {
        let bare = between_blanks(line);
        it.answer(if before_blanks(line) && bare.ends_with(b"\r") && line.len() <= LONGEST_LINE { bare } else { line }, place)
    }),
    ("a carriage return is passed over wherever it stands", |it, line, place| {
        let other: Vec<u8> = line.iter().copied().filter(|byte| *byte != b'\r').collect();
        it.answer(if line.len() > LONGEST_LINE { line } else { &other }, place)
    }),
    ("a carriage return is passed over at the end of each word", |it, line, place| {
        it.with_words(line, place, |words| {
            for word in words.iter_mut().filter(|word| word.len() > 1 && word.ends_with(b"\r")) {
                word.pop();
            }
        })
    }),
    ("a carriage return in front is passed over", |it, line, place| {
        it.answer(line.strip_prefix(b"\r").filter(|_| line.len() <= LONGEST_LINE).unwrap_or(line), place)
    }),
    ("a carriage return is a blank", |it, line, place| it.with_bytes(line, place, |byte| if byte == b'\r' { b' ' } else { byte })),
    ("a carriage return ends the line", |it, line, place| {
        let end = line.iter().position(|byte| *byte == b'\r').filter(|_| line.len() <= LONGEST_LINE).unwrap_or(line.len());
        it.answer(&line[..end], place)
    }),
    ("a carriage return ends a file's name", |it, line, place| {
        it.with_words(line, place, |words| {
            if let [_, file] = &mut words[..] {
                let end = file.iter().position(|byte| *byte == b'\r').filter(|end| *end > 0);
                file.truncate(end.unwrap_or(file.len()));
            }
        })
    }),
    ("a file's name goes on to the line's end", |it, line, place| {
        let named = first_is(line, &[b"load", b"save", b"report", b"ring"]);
        it.with_words(line, place, |words| {
            if named && words.len() > 2 {
                let name = words.drain(1..).collect::<Vec<_>>().join(&b'_');
                words.push(name);
            }
        })
    }),
    // the length
    ("the length is counted without the carriage return", |it, line, place| it.shorter(line, place, without_return(line))),
    ("the length is counted without blanks at the end", |it, line, place| {
        let end = line.iter().rposition(|byte| !is_blank(*byte)).map_or(0, |last| last + 1);
        it.shorter(line, place, &line[..end])
    }),
    ("the length is counted without blanks in front", |it, line, place| {
        let begin = line.iter().position(|byte| !is_blank(*byte)).unwrap_or(line.len());
        it.shorter(line, place, &line[begin..])
    }),
    ("the length is counted of the words alone", |it, line, place| {
        let other = words_of(line).join(&b' ');
        it.shorter(line, place, if line.ends_with(b"\r") { line } else { &other })
    }),
    ("a carriage return at the end makes 4,096 bytes too long", |it, line, place| {
        it.answer(if line.len() == 4_096 && line.ends_with(b"\r") { &[b'x'; 5_000] } else { line }, place)
    }),
    ("a line is cut to 4,097 bytes before its carriage return is passed over", |it, line, place| {
        it.shorter(line, place, if line.len() > 4_097 { without_return(&line[..4_097]) } else { line })
    }),
    ("blanks alone are never too long", |it, line, place| it.answer(if has_no_words(line) { b"" } else { line }, place)),
    ("a comment after blanks is never too long", |it, line, place| {
        it.answer(if is_comment(line) && after_blanks(line) { b"#" } else { line }, place)
    }),
    // lines
    ("a NUL ends the line", |it, line, place| {
        let end = line.iter().position(|byte| *byte == 0).filter(|_| line.len() <= LONGEST_LINE).unwrap_or(line.len());
        it.answer(&line[..end], place)
    }),
    ("the highest bit of a byte is left out", |it, line, place| {
        let other: Vec<u8> = line.iter().map(|byte| byte & 127).map(|byte| if byte == b'\n' { b'x' } else { byte }).collect();
        it.answer(if other.contains(&b'/') || line.len() > LONGEST_LINE { line } else { &other }, place)
    }),
    ("upper case is taken for lower", |it, line, place| it.with_words(line, place, |words| words[0].make_ascii_lowercase())),
    ("a command is known by its first three letters", |it, line, place| {
        it.with_words(line, place, |words| {
            if let Some((name, _)) = COMMANDS.iter().find(|command| words[0].len() >= 3 && command.0.as_bytes().starts_with(&words[0][..3]))
            {
                words[0] = name.as_bytes().to_vec();
            }
        })
    }),
    ("a comment may follow a command", |it, line, place| {
        it.with_words(line, place, |words| {
            let end = words.iter().position(|word| word.starts_with(b"#")).unwrap_or(words.len());
            words.truncate(end);
        })
    }),
    ("4,095 bytes are the most", |it, line, place| it.answer(if line.len() == 4_096 { &[b'x'; 5_000] } else { line }, place)),
    ("4,097 bytes are the most", |it, line, place| it.answer(if line.len() == 4_097 { &line[..4_096] } else { line }, place)),
    ("a long line is cut", |it, line, place| it.answer(&line[..line.len().min(LONGEST_LINE)], place)),
    ("the end of a long line is taken for a line", |it, line, place| {
        it.answer(if line.len() > LONGEST_LINE { &line[LONGEST_LINE..][..1] } else { line }, place)
    }),
    ("a comment is never too long", |it, line, place| it.answer(if line.starts_with(b"#") { b"#" } else { line }, place)),
    ("empty lines are not counted", |it, line, place| it.not_counting(line, place, |line| line.is_empty())),
    ("comments are not counted", |it, line, place| it.not_counting(line, place, |line| line.starts_with(b"#"))),
    ("lines too long are not counted", |it, line, place| it.not_counting(line, place, |line| line.len() > LONGEST_LINE)),
    ("the number of a line has 16 bits", |it, line, place| it.answer(line, place % 65_536)),
    ("no unit comes before what was expected", |it, line, place| {
        let no_unit = it.console.unit.is_none();
        it.instead(line, place, |answer, _| match &answer.sort {
            Sort::Of(name, told) if told == "expected" && no_unit && !["fresh", "load", "report", "ring", "small"].contains(name) => {
                Some("no unit\n".to_string())
            }
            _ => None,
        })
    }),
    // numbers
    ("zeros in front are no number", |it, line, place| {
        it.with_numbers(line, place, |text| (text.len() > 1 && text.starts_with('0')).then(|| "x".to_string()))
    }),
    ("ten digits are the most", |it, line, place| {
        it.with_numbers(line, place, |text| (text.len() > 10 && digits(text).is_some()).then(|| "x".to_string()))
    }),
    ("numbers are taken modulo 2^32", |it, line, place| {
        it.with_numbers(line, place, |text| digits(text).map(|number| (number % (1 << 32)).to_string()))
    }),
    ("numbers are taken modulo 2^64", |it, line, place| {
        it.with_numbers(line, place, |text| digits(text).filter(|number| *number >= 1 << 64).map(|number| (number % (1 << 64)).to_string()))
    }),
    ("numbers are taken modulo 256", |it, line, place| {
        it.with_numbers(line, place, |text| digits(text).filter(|number| *number < 1 << 32).map(|number| (number % 256).to_string()))
    }),
    ("numbers are taken modulo 65,536", |it, line, place| {
        it.with_numbers(line, place, |text| digits(text).filter(|number| *number < 1 << 32).map(|number| (number % 65_536).to_string()))
    }),
    ("a number above 4294967295 is taken for it", |it, line, place| {
        it.with_numbers(line, place, |text| digits(text).filter(|number| *number >= 1 << 32).map(|_| u32::MAX.to_string()))
    }),
    ("4294967295 is too large", |it, line, place| it.with_numbers(line, place, |text| (text == "4294967295").then(|| "x".to_string()))),
    ("a number above 255 is not what was expected", |it, line, place| {
        it.with_numbers(line, place, |text| digits(text).filter(|number| *number > 255).map(|_| "x".to_string()))
    }),
    ("a plus in front of a number", |it, line, place| {
        it.with_numbers(line, place, |text| text.strip_prefix('+').map(|rest| rest.to_string()))
    }),
    ("what follows a number's digits is passed over", |it, line, place| {
        it.with_numbers(line, place, |text| {
            let end = text.bytes().position(|byte| !byte.is_ascii_digit())?;
            (end > 0).then(|| text[..end].to_string())
        })
    }),
    ("words too many are passed over", |it, line, place| {
        it.with_words(line, place, |words| {
            if let Some((_, wants)) = COMMANDS.iter().find(|command| command.0.as_bytes() == words[0] && !command.1.ends_with("..")) {
                words.truncate(1 + wants.split_whitespace().count());
            }
        })
    }),
    // judge
    ("judge: latencies after the 256th are passed over", |it, line, place| {
        it.with_words(line, place, |words| words.truncate(if words[0] == b"judge" { 258 } else { words.len() }))
    }),
    ("judge: 255 latencies are the most", |it, line, place| {
        it.with_words(line, place, |words| {
            if words[0] == b"judge" && words.len() == 258 {
                words[2] = b"0".to_vec();
            }
        })
    }),
    ("judge: a latency above 255 is taken for 255", |it, line, place| {
        let judge = first_is(line, &[b"judge"]);
        it.with_numbers(line, place, |text| {
            digits(text).filter(|number| judge && (256..1 << 32).contains(number)).map(|_| "255".to_string())
        })
    }),
    ("judge: 9 comes before 2", |it, line, place| {
        let bad = words_of(line).into_iter().skip(2).any(|word| number(word).is_some_and(|number| number == 0 || number > 255));
        it.instead(line, place, |answer, _| (bad && is(answer, "judge", "refused 2")).then(|| "refused 9\n".to_string()))
    }),
    ("judge: one turn alone is looked at", |it, line, place| {
        it.instead(line, place, |answer, _| answer.met.contains(&"judge: collides only across turns").then(|| "yes\n".to_string()))
    }),
    // loop
    ("loop: 2 comes before 17", |it, line, place| {
        it.instead(line, place, |answer, _| answer.met.contains(&"loop: refused by 17 and not by 2").then(|| "refused 2\n".to_string()))
    }),
    ("loop: no tag is not what was expected", |it, line, place| {
        it.with_tags(line, place, |tags| {
            if tags.is_empty() {
                tags.push(b"x".to_vec());
            }
        })
    }),
    ("loop: no tag is refused by 2", |it, line, place| {
        it.instead(line, place, |answer, _| answer.met.contains(&"loop: no tag").then(|| "refused 2\n".to_string()))
    }),
    ("loop: 7 tags are the most", |it, line, place| {
        it.with_tags(line, place, |tags| {
            if tags.len() == 8 {
                tags.push(b"1".to_vec());
            }
        })
    }),
    ("loop: 9 tags are the most", |it, line, place| it.unrefused(line, place, "loop: 9 tags")),
    ("loop: tags after the eighth are passed over", |it, line, place| it.with_tags(line, place, |tags| tags.truncate(8))),
    ("loop: the number of tags is taken modulo 256", |it, line, place| it.with_tags(line, place, |tags| tags.truncate(tags.len() % 256))),
    ("loop: words after 256 tags are passed over", |it, line, place| {
        it.with_words(line, place, |words| words.truncate(if words[0] == b"loop" { 257 } else { words.len() }))
    }),
    ("loop: tags that are not in the unit are passed over", |it, line, place| {
        let functions = it.console.unit.as_ref().map_or(0, |unit| unit.functions);
        it.with_tags(line, place, |tags| tags.retain(|word| number(word).is_some_and(|tag| (1..=functions).contains(&tag))))
    }),
    ("loop: the first tag alone is looked at", |it, line, place| it.unrefused(line, place, "loop: a bad tag after good ones")),
    ("loop: the last tag alone is looked at", |it, line, place| it.unrefused(line, place, "loop: a bad tag before others")),
    ("loop: a list is taken for a shorter one that it is again", |it, line, place| {
        it.with_tags(line, place, |tags| {
            let half = tags.len() / 2;
            if (2..=8).contains(&tags.len()) && tags[..half] == tags[half..] {
                tags.truncate(half);
            }
        })
    }),
    ("loop: the tags are taken backwards", |it, line, place| it.with_tags(line, place, |tags| tags.reverse())),
    ("loop: the tags are taken in rising order", |it, line, place| it.with_tags(line, place, |tags| tags.sort())),
    ("loop: a tag that comes twice in a row is taken once", |it, line, place| {
        it.with_tags(line, place, |tags| {
            if tags.len() <= 8 {
                tags.dedup();
            }
        })
    }),
    ("loop: the first tag alone is issued", |it, line, place| {
        it.with_tags(line, place, |tags| {
            if (1..=8).contains(&tags.len()) {
                let first = tags[0].clone();
                tags.fill(first);
            }
        })
    }),
    ("loop: the list is begun at its second tag", |it, line, place| {
        it.with_tags(line, place, |tags| {
            if tags.len() > 1 {
                tags.rotate_left(1);
            }
        })
    }),
    ("loop: the first latency leads to the first tag, where greedy is best", |it, line, place| {
        it.with_loop(line, place, |loops| {
            let mut latencies = loops.greedy();
            latencies.rotate_right(1);
            loops.is_least(&latencies).then_some(latencies)
        })
    }),
    ("loop: each start comes as soon as it can", |it, line, place| it.with_loop(line, place, |loops| Some(loops.greedy()))),
    ("loop: one turn of the list alone is looked at", |it, line, place| it.with_loop(line, place, one_turn)),
    ("loop: n + 1 each time", |it, line, place| {
        it.with_loop(line, place, |loops| Some(vec![loops.kernel.longest as u8; loops.kernel.tags.len()]))
    }),
    ("loop: 255 states are the most", |it, line, place| {
        let mut answer = it.answer(line, place);
        if answer.met.contains(&"loop: 256 states") {
            answer.parts = vec![Part::Text("refused 7\n".to_string())];
        }
        answer
    }),
    ("loop: 257 states are the most", |it, line, place| it.unrefused(line, place, "loop: 257 states")),
    ("loop: functions that the list does not name have no registers", |it, line, place| {
        it.unrefused(line, place, "loop: refused by 7 for registers of a function not named")
    }),
    ("loop: latencies end where the functions of the list no longer collide", |it, line, place| {
        it.unrefused(line, place, "loop: refused by 7 for latencies of a function not named")
    }),
    // rows
    ("row: Q and R are exchanged", |it, line, place| it.with_words_of(line, place, "row", 2, |words| words.swap(1, 2))),
    ("row: its own columns alone", |it, line, place| {
        it.instead(line, place, |_, text| {
            let row = text.strip_prefix("row ")?.trim_start_matches('0').trim_end();
            Some(format!("row {}\n", if row.is_empty() { "-" } else { row }))
        })
    }),
    // the order of refusals
    ("mark: 3 comes before 2", |it, line, place| {
        let segments = it.console.unit.as_ref().map_or(0, |unit| unit.segments);
        let outside = words_of(line).get(2).and_then(|word| number(word)).is_some_and(|segment| segment == 0 || segment > segments);
        it.instead(line, place, |answer, _| (outside && is(answer, "mark", "refused 2")).then(|| "refused 3\n".to_string()))
    }),
    ("unmark: 4 comes before 3", |it, line, place| {
        let columns = it.console.unit.as_ref().map_or(0, |unit| unit.columns);
        let outside = words_of(line).get(3).and_then(|word| number(word)).is_some_and(|column| column == 0 || column > columns);
        it.instead(line, place, |answer, _| (outside && is(answer, "unmark", "refused 3")).then(|| "refused 4\n".to_string()))
    }),
    // plan and bank
    ("a refused fresh drops the plan", |it, line, place| it.after(line, place, &["fresh"], refused, drop_plan)),
    ("a refused fresh empties the bank", |it, line, place| it.after(line, place, &["fresh"], refused, empty)),
    ("a refused load drops the plan", |it, line, place| it.after(line, place, &["load"], refused, drop_plan)),
    ("a refused load empties the bank", |it, line, place| it.after(line, place, &["load"], refused, empty)),
    ("a load of no file drops the plan", |it, line, place| it.after(line, place, &["load"], |told| told == "no file", drop_plan)),
    ("a load of no file empties the bank", |it, line, place| it.after(line, place, &["load"], |told| told == "no file", empty)),
    ("fresh keeps the bank", |it, line, place| it.keeping(line, place, &["fresh"], false, |_, _| true)),
    ("load keeps the bank", |it, line, place| it.keeping(line, place, &["load"], false, |_, _| true)),
    ("an edit keeps the bank", |it, line, place| it.keeping(line, place, &["mark", "unmark"], false, |_, _| true)),
    ("mark keeps the bank", |it, line, place| it.keeping(line, place, &["mark"], false, |_, _| true)),
    ("unmark keeps the bank", |it, line, place| it.keeping(line, place, &["unmark"], false, |_, _| true)),
    ("a mark that stood keeps the bank", |it, line, place| {
        it.keeping(line, place, &["mark"], false, |_, answer| answer.met.contains(&"a mark that stood"))
    }),
    ("an unmark of no mark keeps the bank", |it, line, place| {
        it.keeping(line, place, &["unmark"], false, |_, answer| answer.met.contains(&"an unmark of no mark"))
    }),
    ("an edit empties the register of its function alone", |it, line, place| {
        let mut registers = it.console.bank.words();
        let answer = it.answer(line, place);
        if is(&answer, "mark", "ok") || is(&answer, "unmark", "ok") {
            registers[number(words_of(line)[1]).expect("a tag") as usize - 1] = 0;
            it.console.bank = Bank::of_words(&registers);
        }
        answer
    }),
    ("an edit empties the registers of the others alone", |it, line, place| {
        let old = it.console.bank.words();
        let answer = it.answer(line, place);
        if is(&answer, "mark", "ok") || is(&answer, "unmark", "ok") {
            let mut registers = [0; REGISTERS];
            let tag = number(words_of(line)[1]).expect("a tag") as usize;
            registers[tag - 1] = old[tag - 1];
            it.console.bank = Bank::of_words(&registers);
        }
        answer
    }),
    ("an edit takes a time unit", |it, line, place| {
        let mut bank = it.console.bank.clone();
        let answer = it.answer(line, place);
        if is(&answer, "mark", "ok") || is(&answer, "unmark", "ok") {
            bank.tick();
            it.console.bank = bank;
        }
        answer
    }),
    ("a refused edit empties the bank", |it, line, place| it.after(line, place, &["mark", "unmark"], refused, empty)),
    ("a mark refused by 2 empties the bank", |it, line, place| it.after(line, place, &["mark"], |told| told == "refused 2", empty)),
    ("a mark refused by 3 empties the bank", |it, line, place| it.after(line, place, &["mark"], |told| told == "refused 3", empty)),
    ("a mark refused by 4 empties the bank", |it, line, place| it.after(line, place, &["mark"], |told| told == "refused 4", empty)),
    ("an unmark refused by 2 empties the bank", |it, line, place| it.after(line, place, &["unmark"], |told| told == "refused 2", empty)),
    ("an unmark refused by 3 empties the bank", |it, line, place| it.after(line, place, &["unmark"], |told| told == "refused 3", empty)),
    ("an unmark refused by 4 empties the bank", |it, line, place| it.after(line, place, &["unmark"], |told| told == "refused 4", empty)),
    ("an edit that is not as expected empties the bank", |it, line, place| {
        it.after(line, place, &["mark", "unmark"], |told| told == "expected", empty)
    }),
    ("a line that is no command empties the bank", |it, line, place| {
        let answer = it.answer(line, place);
        if answer.sort == Sort::ExpectedCommand {
            empty(&mut it.console);
        }
        answer
    }),
    ("a search empties the bank", |it, line, place| it.after(line, place, &["search"], ok, empty)),
    ("a refused search empties the bank", |it, line, place| it.after(line, place, &["search"], refused, empty)),
    ("a loop empties the bank", |it, line, place| it.after(line, place, &["loop"], ok, empty)),
    ("a refused loop empties the bank", |it, line, place| it.after(line, place, &["loop"], refused, empty)),
    ("a loop takes a time unit", |it, line, place| it.after(line, place, &["loop"], ok, |console| console.bank.tick())),
    ("a loop starts its first tag", |it, line, place| it.and_then(line, place, "loop", "start")),
    ("a loop takes a mark away", |it, line, place| it.after(line, place, &["loop"], ok, take_mark)),
    ("a loop drops the plan", |it, line, place| it.after(line, place, &["loop"], ok, drop_plan)),
    ("a refused loop drops the plan", |it, line, place| it.after(line, place, &["loop"], refused, drop_plan)),
    ("a loop makes a plan", |it, line, place| it.and_then(line, place, "loop", "search")),
    ("a mark that stood keeps the plan", |it, line, place| {
        it.keeping(line, place, &["mark"], true, |_, answer| answer.met.contains(&"a mark that stood"))
    }),
    ("an unmark of no mark keeps the plan", |it, line, place| {
        it.keeping(line, place, &["unmark"], true, |_, answer| answer.met.contains(&"an unmark of no mark"))
    }),
    ("a refused edit drops the plan", |it, line, place| it.after(line, place, &["mark", "unmark"], refused, drop_plan)),
    ("a refused search drops the plan", |it, line, place| it.after(line, place, &["search"], refused, drop_plan)),
    ("a listing drops the plan", |it, line, place| it.after(line, place, &["list"], ok, drop_plan)),
    ("a save drops the plan", |it, line, place| it.after(line, place, &["save"], ok, drop_plan)),
    ("a search keeps the plan of another function", |it, line, place| {
        let old = it.console.plan;
        it.keeping(line, place, &["search"], true, move |console, _| {
            old.is_some() && old.map(|plan| plan.tag) != console.plan.map(|plan| plan.tag)
        })
    }),
    ("a start that is not granted takes a time unit", |it, line, place| {
        it.after(line, place, &["start"], |told| told == "refused 10", |console| console.bank.tick())
    }),
    // files
    ("a save over a longer file leaves its end", |it, line, place| it.having_written(line, place, "save", keep_end)),
    ("a save leaves its `.part`", |it, line, place| it.having_written(line, place, "save", leave_part)),
    ("a save writes over the old file itself", |it, line, place| it.having_written(line, place, "save", keep_part)),
    ("a save to a symbolic link replaces the link", |it, line, place| it.having_written(line, place, "save", replace_link)),
    ("a save to a name without room for `.part` is written", |it, line, place| {
        let mut answer = it.answer(line, place);
        if answer.met.contains(&"a save to a name without room for `.part`") {
            let name = words_of(line)[1].to_vec();
            let unit = it.console.unit.as_ref().expect("a save");
            it.console.shelf.files.insert(name, File::Bytes(encode(unit)));
            answer.parts = vec![Part::Text("ok\n".to_string())];
        }
        answer
    }),
    ("a NUL ends a file's name", |it, line, place| {
        let named = first_is(line, &[b"load", b"save", b"record", b"report", b"ring", b"delays"]);
        let end = line.iter().position(|byte| *byte == 0).filter(|_| named).unwrap_or(line.len());
        it.answer(&line[..end], place)
    }),
    ("a file too long is read as far as it should go", |it, line, place| {
        let [b"load", name] = words_of(line)[..] else { return it.answer(line, place) };
        let Some(File::Bytes(bytes) | File::Long(bytes, _)) = it.console.shelf.files.get(name).cloned() else {
            return it.answer(line, place);
        };
        let whole = it.console.shelf.clone();
        let end = if bytes.len() > 1 { file_length(bytes[0] as u32, bytes[1] as u32).min(bytes.len()) } else { bytes.len() };
        it.console.shelf.files.insert(name.to_vec(), File::Bytes(bytes[..end].to_vec()));
        let answer = it.answer(line, place);
        it.console.shelf = whole;
        answer
    }),
    // records: what is written
    ("a record is of the plan, whichever function is asked for", |it, line, place| {
        let (plan, functions) = (it.console.plan, it.console.unit.as_ref().map_or(0, |unit| unit.functions));
        it.with_words(line, place, |words| {
            if let (true, [_, tag, _], Some(plan)) = (words[0] == b"record", &mut words[..], plan) {
                if number(tag).is_some_and(|tag| (1..=functions).contains(&tag)) {
                    *tag = plan.tag.to_string().into_bytes();
                }
            }
        })
    }),
    ("a record is of the plan that an edit dropped", |it, line, place| {
        it.in_case(line, place, "a record after an edit dropped the plan", "ok\n")
    }),
    ("a record searches where there is no plan", |it, line, place| {
        let answer = it.answer(line, place);
        if !is(&answer, "record", "refused 8") || it.console.plan.is_some() {
            return answer;
        }
        let search = [b"search ", words_of(line)[1]].concat();
        it.answer(&search, place);
        it.answer(line, place)
    }),
    ("a record searches where another function has the plan", |it, line, place| {
        let answer = it.answer(line, place);
        if !is(&answer, "record", "refused 8") || it.console.plan.is_none() {
            return answer;
        }
        let search = [b"search ", words_of(line)[1]].concat();
        it.answer(&search, place);
        it.answer(line, place)
    }),
    ("a record wants its plan read before", |it, line, place| {
        it.in_case(line, place, "a record of a plan that was not read before", "refused 8\n")
    }),
    ("record: 8 comes before 2", |it, line, place| it.in_case(line, place, "a record refused by 2 and not by 8", "refused 8\n")),
    ("record: a plan of a tag's lowest byte is taken", |it, line, place| {
        it.in_case(line, place, "a record of a tag that would do without its higher bytes", "ok\n")
    }),
    ("record: an unknown function is refused by 8 beside a plan", |it, line, place| {
        it.in_case(line, place, "a record refused by 2 beside a plan", "refused 8\n")
    }),
    ("record: a file's name may be no number", |it, line, place| it.with_no_number(line, place, "record", 2, is_number)),
    ("record: a file's name may be no number above 4294967295", |it, line, place| {
        it.with_no_number(line, place, "record", 2, is_large_number)
    }),
    ("report: a file's name may be no number", |it, line, place| it.with_no_number(line, place, "report", 1, is_number)),
    ("ring: a file's name may be no number", |it, line, place| it.with_no_number(line, place, "ring", 1, is_number)),
    ("record: the file may come first", |it, line, place| {
        it.with_words_of(line, place, "record", 2, |words| {
            if !is_number(&words[1]) && is_number(&words[2]) {
                words.swap(1, 2);
            }
        })
    }),
    ("record: without a number it is the plan's", |it, line, place| {
        let tag = it.console.plan.map_or(1, |plan| plan.tag);
        it.with_words_of(line, place, "record", 1, |words| words.insert(1, tag.to_string().into_bytes()))
    }),
    ("record: no unit comes after refused 2", |it, line, place| {
        it.instead(line, place, |answer, _| is(answer, "record", "no unit").then(|| "refused 2\n".to_string()))
    }),
    ("a record leaves its `.part`", |it, line, place| it.having_written(line, place, "record", leave_part)),
    ("a record writes over the old file itself", |it, line, place| it.having_written(line, place, "record", keep_part)),
    ("a record to a symbolic link replaces the link", |it, line, place| it.having_written(line, place, "record", replace_link)),
    ("a record to a name without room for `.part` is written", |it, line, place| {
        let mut answer = it.answer(line, place);
        if answer.met.contains(&"a record to a name without room for `.part`") {
            answer.parts = vec![Part::Text("ok\n".to_string())];
        }
        answer
    }),
    ("a record that is refused by 8 empties its file", |it, line, place| {
        let answer = it.answer(line, place);
        if is(&answer, "record", "refused 8") {
            it.console.shelf.save(words_of(line)[2], &Content::Bytes(Vec::new()));
        }
        answer
    }),
    ("a record that is refused by 2 takes its file away", |it, line, place| {
        let answer = it.answer(line, place);
        if is(&answer, "record", "refused 2") {
            it.console.shelf.files.remove(words_of(line)[2]);
        }
        answer
    }),
    ("a record is not written over another one", |it, line, place| {
        let old = words_of(line).get(2).and_then(|name| it.console.shelf.files.get(*name)).cloned();
        let answer = it.answer(line, place);
        if let (true, Some(File::Record(_))) = (is(&answer, "record", "ok"), &old) {
            it.console.shelf.files.extend(old.map(|file| (words_of(line)[2].to_vec(), file)));
        }
        answer
    }),
    ("a record is not written over a unit file", |it, line, place| it.in_case(line, place, "a record over a unit file", "not written\n")),
    ("a save writes a record where there is a plan", |it, line, place| {
        let answer = it.answer(line, place);
        if let (true, Some(plan)) = (is(&answer, "save", "ok"), it.console.plan) {
            let line = [format!("record {} ", plan.tag).as_bytes(), words_of(line)[1]].concat();
            it.answer(&line, place);
        }
        answer
    }),
    ("a load takes a record", |it, line, place| it.in_case(line, place, "a load of a record", "ok\n")),
    ("a load refuses a record by 11", |it, line, place| it.in_case(line, place, "a load of a record", "refused 11\n")),
    ("a load refuses a record that was written by 12", |it, line, place| {
        it.in_case(line, place, "a load of a record that was written", "refused 12\n")
    }),
    ("a record drops the plan", |it, line, place| it.after(line, place, &["record"], ok, drop_plan)),
    ("a refused record drops the plan", |it, line, place| it.after(line, place, &["record"], refused, drop_plan)),
    ("a record that is not written drops the plan", |it, line, place| {
        it.after(line, place, &["record"], |told| told == "not written", drop_plan)
    }),
    ("a record empties the bank", |it, line, place| it.after(line, place, &["record"], ok, empty)),
    ("a refused record empties the bank", |it, line, place| it.after(line, place, &["record"], refused, empty)),
    ("a record that is not written empties the bank", |it, line, place| {
        it.after(line, place, &["record"], |told| told == "not written", empty)
    }),
    ("a record takes a time unit", |it, line, place| it.after(line, place, &["record"], ok, |console| console.bank.tick())),
    ("a record takes a mark away", |it, line, place| it.after(line, place, &["record"], ok, take_mark)),
    ("a report drops the plan", |it, line, place| it.after(line, place, &["report"], ok, drop_plan)),
    ("a ring drops the plan", |it, line, place| it.after(line, place, &["ring"], ok, drop_plan)),
    ("a file that is no record drops the plan", |it, line, place| it.after(line, place, &["report", "ring"], refused, drop_plan)),
    ("a report empties the bank", |it, line, place| it.after(line, place, &["report"], ok, empty)),
    ("a ring empties the bank", |it, line, place| it.after(line, place, &["ring"], ok, empty)),
    ("a file that is no record empties the bank", |it, line, place| it.after(line, place, &["report", "ring"], refused, empty)),
    ("a report of no file drops the plan", |it, line, place| {
        it.after(line, place, &["report", "ring"], |told| told == "no file", drop_plan)
    }),
    ("a report takes its file away", |it, line, place| {
        let answer = it.answer(line, place);
        if is(&answer, "report", "ok") {
            it.console.shelf.files.remove(words_of(line)[1]);
        }
        answer
    }),
    // charts
    ("a chart is of the plan, whichever function is asked for", |it, line, place| {
        let (plan, functions) = (it.console.plan, it.console.unit.as_ref().map_or(0, |unit| unit.functions));
        it.with_words(line, place, |words| {
            if let (true, [_, tag, _], Some(plan)) = (words[0] == b"simulate", &mut words[..], plan) {
                if number(tag).is_some_and(|tag| (1..=functions).contains(&tag)) {
                    *tag = plan.tag.to_string().into_bytes();
                }
            }
        })
    }),
    ("a chart is of the plan that an edit dropped", |it, line, place| {
        it.in_case(line, place, "a chart after an edit dropped the plan", "unit    \nstarts  \n")
    }),
    ("a chart searches where there is no plan", |it, line, place| {
        let answer = it.answer(line, place);
        if !is(&answer, "simulate", "refused 8") || it.console.plan.is_some() {
            return answer;
        }
        let search = [b"search ", words_of(line)[1]].concat();
        it.answer(&search, place);
        it.answer(line, place)
    }),
    ("a chart searches where another function has the plan", |it, line, place| {
        let answer = it.answer(line, place);
        if !is(&answer, "simulate", "refused 8") || it.console.plan.is_none() {
            return answer;
        }
        let search = [b"search ", words_of(line)[1]].concat();
        it.answer(&search, place);
        it.answer(line, place)
    }),
    ("a chart wants its plan shown before", |it, line, place| it.refusing(line, place, "a chart of a plan that was not shown before", 8)),
    ("simulate: 8 comes before 2", |it, line, place| it.refusing(line, place, "a chart refused by 2 and not by 8", 8)),
    ("simulate: 6 comes before 2", |it, line, place| it.refusing(line, place, "a chart refused by 2 and not by 6", 6)),
    ("simulate: 6 comes before 8", |it, line, place| it.refusing(line, place, "a chart refused by 8 and not by 6", 6)),
    ("simulate: an unknown function is refused by 8 beside a plan", |it, line, place| {
        it.refusing(line, place, "a chart refused by 2 beside a plan", 8)
    }),
    ("simulate: a plan of a tag's lowest byte is taken", |it, line, place| {
        let plan = it.console.plan;
        it.with_words(line, place, |words| {
            if let (true, [_, tag, _], Some(plan)) = (words[0] == b"simulate", &mut words[..], plan) {
                if number(tag).is_some_and(|tag| tag % 256 == plan.tag) {
                    *tag = plan.tag.to_string().into_bytes();
                }
            }
        })
    }),
    ("simulate: no unit comes after refused 2", |it, line, place| {
        it.instead(line, place, |answer, _| is(answer, "simulate", "no unit").then(|| "refused 2\n".to_string()))
    }),
    ("simulate: no units are refused", |it, line, place| it.refusing(line, place, "a chart of no units", 6)),
    ("simulate: no units are not what was expected", |it, line, place| {
        it.with_words_of(line, place, "simulate", 2, |words| {
            if number(&words[2]) == Some(0) {
                words.push(b"x".to_vec());
            }
        })
    }),
    ("simulate: no units are taken for one", |it, line, place| it.with_units(line, place, |units| units.max(1))),
    ("simulate: the units are taken modulo 256", |it, line, place| it.with_units(line, place, |units| units % 256)),
    ("simulate: the units are taken modulo 65,536", |it, line, place| it.with_units(line, place, |units| units % 65_536)),
    ("simulate: one unit more", |it, line, place| it.with_units(line, place, |units| units.saturating_add(1))),
    ("simulate: Q and UNITS are exchanged", |it, line, place| it.with_words_of(line, place, "simulate", 2, |words| words.swap(1, 2))),
    ("simulate: 8,192 units are the most", |it, line, place| it.refusing(line, place, "a chart of more than 8,192 units", 6)),
    ("simulate: 8,191 units are the most", |it, line, place| it.refusing(line, place, "a chart of 8,192 units", 6)),
    ("simulate: 147,857 bytes are the most", |it, line, place| it.refusing(line, place, "a chart of 147,858 bytes", 6)),
    ("simulate: the longest chart has no room", |it, line, place| it.refusing(line, place, "the longest chart with room", 6)),
    ("simulate: the shortest chart without room has some", |it, line, place| {
        let segments = it.console.unit.as_ref().map_or(1, |unit| unit.segments);
        let most = charts::most_units(segments);
        it.with_units(line, place, |units| if units == most + 1 { most } else { units })
    }),
    ("simulate: a chart without room is cut", |it, line, place| {
        let segments = it.console.unit.as_ref().map_or(1, |unit| unit.segments);
        it.with_units(line, place, |units| units.min(charts::most_units(segments)))
    }),
    ("simulate: the length of a chart has 32 bits", |it, line, place| {
        it.in_case(line, place, "a chart whose length has room in 32 bits", "unit    \nstarts  \n")
    }),
    ("simulate: the marks are those of function 1", |it, line, place| {
        it.with_chart(line, place, |unit, chart| chart.planned.drawn.spots = unit.spots(1).into())
    }),
    ("simulate: the marks are those of the last function", |it, line, place| {
        it.with_chart(line, place, |unit, chart| chart.planned.drawn.spots = unit.spots(unit.functions).into())
    }),
    ("simulate: segments after the last marked one are left out", |it, line, place| {
        it.with_chart(line, place, |_, chart| {
            chart.segments = chart.planned.drawn.spots.iter().map(|spot| spot.0).max().unwrap_or(chart.segments);
        })
    }),
    ("a chart drops the plan", |it, line, place| it.after(line, place, &["simulate"], ok, drop_plan)),
    ("a refused chart drops the plan", |it, line, place| it.after(line, place, &["simulate"], refused, drop_plan)),
    ("a chart empties the bank", |it, line, place| it.after(line, place, &["simulate"], ok, empty)),
    ("a refused chart empties the bank", |it, line, place| it.after(line, place, &["simulate"], refused, empty)),
    ("a chart takes a time unit", |it, line, place| it.after(line, place, &["simulate"], ok, |console| console.bank.tick())),
    ("a chart starts its function", |it, line, place| it.and_then(line, place, "simulate", "start")),
    ("a chart leaves an empty bank with one start", |it, line, place| {
        let answer = it.answer(line, place);
        if is(&answer, "simulate", "ok") {
            empty(&mut it.console);
            let start = [b"start ", words_of(line)[1]].concat();
            it.answer(&start, place);
        }
        answer
    }),
    ("a chart takes a mark away", |it, line, place| it.after(line, place, &["simulate"], ok, take_mark)),
    ("a chart makes a new plan", |it, line, place| it.and_then(line, place, "simulate", "search")),
    // delays: what is asked for, what becomes of files, and what is to be as it was
    ("delays: no unit comes after refused 2", |it, line, place| {
        it.instead(line, place, |answer, _| is(answer, "delays", "no unit").then(|| "refused 2\n".to_string()))
    }),
    ("delays: Q and M are exchanged", |it, line, place| it.with_words_of(line, place, "delays", 2, |words| words.swap(1, 2))),
    ("delays: Q and M are exchanged where a file is named", |it, line, place| {
        it.with_words_of(line, place, "delays", 3, |words| words.swap(1, 2))
    }),
    ("delays: a file has to be named", |it, line, place| it.with_words_of(line, place, "delays", 2, |words| words.truncate(2))),
    ("delays: no file may be named", |it, line, place| it.with_words_of(line, place, "delays", 3, |words| words.push(b"x".to_vec()))),
    ("delays: a file that is named is passed over", |it, line, place| {
        it.with_words_of(line, place, "delays", 3, |words| words.truncate(3))
    }),
    ("delays: a file's name may be no number", |it, line, place| it.with_no_number(line, place, "delays", 3, is_number)),
    ("delays: a file's name may be no number above 4294967295", |it, line, place| {
        it.with_no_number(line, place, "delays", 3, is_large_number)
    }),
    ("delays: a file's name that is a number is passed over", |it, line, place| {
        it.with_words_of(line, place, "delays", 3, |words| words.truncate(if is_number(&words[3]) { 3 } else { 4 }))
    }),
    ("delays: the file may come first", |it, line, place| {
        it.with_words_of(line, place, "delays", 3, |words| {
            if !is_number(&words[1]) {
                words[1..].rotate_left(1);
            }
        })
    }),
    ("delays: without M it is 32", |it, line, place| it.with_words_of(line, place, "delays", 1, |words| words.push(b"32".to_vec()))),
    ("delays: without M it is 32, and a file may be named", |it, line, place| {
        it.with_words_of(line, place, "delays", 2, |words| {
            if !is_number(&words[2]) {
                words.insert(2, b"32".to_vec());
            }
        })
    }),
    ("delays: the table is shown where a file is written", |it, line, place| {
        it.telling_delays(line, place, true, |result| table(result, 1))
    }),
    ("delays: ok comes before the table", |it, line, place| {
        it.telling_delays(line, place, false, |result| format!("ok\n{}", table(result, 1)))
    }),
    ("delays: ok comes after the table", |it, line, place| it.telling_delays(line, place, false, |result| table(result, 1) + "ok\n")),
    ("delays: ok in place of the table", |it, line, place| it.telling_delays(line, place, false, |_| "ok\n".to_string())),
    ("delays: the line of column numbers is left out", |it, line, place| {
        it.telling_delays(line, place, false, |result| table(result, 1).split_inclusive('\n').skip(1).collect())
    }),
    ("delays: the columns are numbered as before", |it, line, place| {
        let columns = it.console.unit.as_ref().map_or(0, |unit| unit.columns as usize);
        it.telling_delays(line, place, false, |result| {
            let text = table(result, 1);
            let (numbers, rows) = text.split_once('\n').expect("two lines");
            format!("{}\n{rows}", &numbers[..3 + 3 * columns])
        })
    }),
    ("delays over a longer file leave its end", |it, line, place| it.having_written(line, place, "delays", keep_end)),
    ("delays leave their `.part`", |it, line, place| it.having_written(line, place, "delays", leave_part)),
    ("delays write over the old file itself", |it, line, place| it.having_written(line, place, "delays", keep_part)),
    ("delays to a symbolic link replace the link", |it, line, place| it.having_written(line, place, "delays", replace_link)),
    ("delays to a name without room for `.part` are written", |it, line, place| {
        it.in_case(line, place, "delays to a name without room for `.part`", "ok\n")
    }),
    ("delays are not written over a unit file", |it, line, place| it.in_case(line, place, "delays over a unit file", "not written\n")),
    ("delays write no file", |it, line, place| it.having_written(line, place, "delays", |folder, before, _| *folder = before.clone())),
    ("delays write the unit as it is", |it, line, place| it.saving_at(line, place, "ok")),
    ("delays write the table", |it, line, place| {
        let answer = it.answer(line, place);
        if let (Some(result), Some(file)) = (it.delayed_by(line, &answer), file_of(line, "delays")) {
            it.console.shelf.save(file, &Content::Bytes(table(&result, 1).into_bytes()));
        }
        answer
    }),
    ("delays that are refused by 2 write a file", |it, line, place| it.saving_at(line, place, "refused 2")),
    ("delays that are refused by 19 write a file", |it, line, place| it.saving_at(line, place, "refused 19")),
    ("delays that are refused by 20 write a file", |it, line, place| it.saving_at(line, place, "refused 20")),
    ("delays that are refused by 21 write a file", |it, line, place| it.saving_at(line, place, "refused 21")),
    ("delays that are refused take their file away", |it, line, place| {
        let answer = it.answer(line, place);
        if let (Sort::Of("delays", told), Some(file)) = (&answer.sort, file_of(line, "delays")) {
            if refused(told) {
                it.console.shelf.files.remove(file);
            }
        }
        answer
    }),
    ("delays: what is refused is not written", |it, line, place| {
        let has_file = file_of(line, "delays").is_some();
        it.instead(line, place, |answer, text| {
            (has_file && text.starts_with("refused") && matches!(answer.sort, Sort::Of("delays", _))).then(|| "not written\n".to_string())
        })
    }),
    ("delays: a file that can't be written comes before what is refused", |it, line, place| {
        let Some(file) = file_of(line, "delays") else { return it.answer(line, place) };
        let can_be_written = it.console.shelf.clone().save(file, &Content::Bytes(Vec::new()));
        it.instead(line, place, |_, text| (!can_be_written && text.starts_with("refused")).then(|| "not written\n".to_string()))
    }),
    ("delays that are shown are the unit from then on", |it, line, place| it.taking_delays(line, place, false)),
    ("delays that are written are the unit from then on", |it, line, place| it.taking_delays(line, place, true)),
    ("delays drop the plan", |it, line, place| it.after(line, place, &["delays"], ok, drop_plan)),
    ("refused delays drop the plan", |it, line, place| it.after(line, place, &["delays"], refused, drop_plan)),
    ("delays that are not written drop the plan", |it, line, place| {
        it.after(line, place, &["delays"], |told| told == "not written", drop_plan)
    }),
    ("delays empty the bank", |it, line, place| it.after(line, place, &["delays"], ok, empty)),
    ("refused delays empty the bank", |it, line, place| it.after(line, place, &["delays"], refused, empty)),
    ("delays that are not written empty the bank", |it, line, place| {
        it.after(line, place, &["delays"], |told| told == "not written", empty)
    }),
    ("delays take a time unit", |it, line, place| it.after(line, place, &["delays"], ok, |console| console.bank.tick())),
    ("delays take a mark away", |it, line, place| it.after(line, place, &["delays"], ok, take_mark)),
    ("delays make a plan", |it, line, place| it.and_then(line, place, "delays", "search")),
    ("delays start their function", |it, line, place| it.and_then(line, place, "delays", "start")),
];

/// Delays by another rule, where nothing is refused before the columns are placed.
fn ruled(
    unit: &Unit,
    tag: u32,
    latency: u32,
    first: impl Fn(u32, u32) -> u32,
    taken: impl Fn(Option<u32>, &[Placed], u32) -> bool,
) -> Reply<Unit> {
    places(unit, tag, latency)?;
    moved(unit, tag, &tried_places(unit, tag, first, taken))
}

/// The same where one of the earlier marks alone is looked at.
fn ruled_by_one(unit: &Unit, tag: u32, latency: u32, which: fn(&[&Placed]) -> Option<u32>) -> Reply<Unit> {
    ruled(unit, tag, latency, after, |segment, earlier, place| {
        let marks: Vec<&Placed> = earlier.iter().filter(|mark| Some(mark.segment) == segment).collect();
        which(&marks).is_some_and(|other| other % latency == place % latency)
    })
}

/// The same where a column is taken for free, though it may not be: from its segment and the place, and whether it is the unit's last.
fn freed(unit: &Unit, tag: u32, latency: u32, is_free: impl Fn(Option<u32>, u32, bool) -> bool) -> Reply<Unit> {
    let is_last = Cell::new(false);
    let first = |column: u32, predecessor: u32| {
        is_last.set(column == unit.columns);
        after(column, predecessor)
    };
    ruled(unit, tag, latency, first, |segment, earlier, place| {
        !is_free(segment, place, is_last.get()) && is_taken(segment, earlier, place, latency)
    })
}

/// With the right unit changed.
fn reshaped(unit: &Unit, tag: u32, latency: u32, change: impl Fn(&mut Unit)) -> Reply<Unit> {
    let mut result = delayed(unit, tag, latency)?;
    change(&mut result);
    Ok(result)
}

/// Refused by this number, where all else is good and it is so.
fn refused_by(number: u32, holds: bool, unit: &Unit, tag: u32, latency: u32) -> Reply<Unit> {
    match delayed(unit, tag, latency) {
        Ok(_) | Err(BEYOND) if holds => Err(number),
        reply => reply,
    }
}

/// Refused by another number, where it is so.
fn renumbered(number: u32, other: u32, holds: bool, unit: &Unit, tag: u32, latency: u32) -> Reply<Unit> {
    delayed(unit, tag, latency).map_err(|refusal| if refusal == number && holds { other } else { refusal })
}

/// M that is below the marks of a segment is refused by 21, where it is below those of none of these segments.
fn looking_at(mut segments: impl Iterator<Item = u32>, unit: &Unit, tag: u32, latency: u32) -> Reply<Unit> {
    let is_below = segments.any(|segment| latency < marks_in(&unit.spots(tag), segment));
    renumbered(NO_LATENCY, BEYOND, is_latency(latency) && !is_below, unit, tag, latency)
}

/// With the marks passed over that stand in a column besides its first one, where they are such ones.
fn uncrowded(unit: &Unit, tag: u32, latency: u32, is_passed_over: impl Fn(Spot) -> bool) -> Reply<Unit> {
    let mut other = unit.clone();
    let spots = unit.spots(tag);
    let is_second = |mark: &Mark| spots.iter().any(|spot| spot.1 == mark.column && spot.0 < mark.segment);
    other.marks.retain(|mark| mark.tag != tag || !is_second(mark) || !is_passed_over((mark.segment, mark.column)));
    delayed(&other, tag, latency)
}

/// The place of the last column, and of the last mark.
fn last_places(unit: &Unit, tag: u32, latency: u32) -> (u32, u32) {
    let places = places(unit, tag, latency).unwrap_or_default();
    let last_mark = unit.spots(tag).iter().filter_map(|spot| places.get(spot.1 as usize - 1)).copied().max();
    (places.last().copied().unwrap_or(0), last_mark.unwrap_or(0))
}

/// The same for the rule of delays, for the unit that they make, and for what is refused.
pub const DELAY_FAULTS: &[(&str, Delay)] = &[
    ("a place is compared with the last mark of the segment alone", |unit, tag, latency| {
        ruled_by_one(unit, tag, latency, |marks| marks.last().map(|mark| mark.place))
    }),
    ("a place is compared with the first mark of the segment alone", |unit, tag, latency| {
        ruled_by_one(unit, tag, latency, |marks| marks.first().map(|mark| mark.place))
    }),
    ("a place is compared with marks where they stood before", |unit, tag, latency| {
        ruled(unit, tag, latency, after, |segment, earlier, place| {
            earlier.iter().any(|mark| Some(mark.segment) == segment && mark.column % latency == place % latency)
        })
    }),
    ("a place is compared with the marks of all segments", |unit, tag, latency| {
        ruled(unit, tag, latency, after, |segment, earlier, place| {
            segment.is_some() && earlier.iter().any(|mark| mark.place % latency == place % latency)
        })
    }),
    ("a place is compared with the mark just before it", |unit, tag, latency| {
        ruled(unit, tag, latency, after, |segment, earlier, place| {
            earlier.last().is_some_and(|mark| Some(mark.segment) == segment && mark.place % latency == place % latency)
        })
    }),
    ("remainders are those modulo M + 1", |unit, tag, latency| {
        ruled(unit, tag, latency, after, |segment, earlier, place| is_taken(segment, earlier, place, latency + 1))
    }),
    ("remainders are those modulo M - 1", |unit, tag, latency| {
        ruled(unit, tag, latency, after, |segment, earlier, place| is_taken(segment, earlier, place, latency.max(2) - 1))
    }),
    ("no mark moves", |unit, tag, latency| ruled(unit, tag, latency, after, |_, _, _| false)),
    ("a column may have its predecessor's place", |unit, tag, latency| {
        ruled(unit, tag, latency, |_, predecessor| predecessor.max(1), |segment, earlier, place| is_taken(segment, earlier, place, latency))
    }),
    ("a column without a mark has its predecessor's place", |unit, tag, latency| {
        let spots = unit.spots(tag);
        let first = |column: u32, predecessor: u32| {
            let is_marked = spots.iter().any(|spot| spot.1 == column);
            if is_marked {
                after(column, predecessor)
            } else {
                predecessor.max(1)
            }
        };
        ruled(unit, tag, latency, first, |segment, earlier, place| is_taken(segment, earlier, place, latency))
    }),
    ("a column is looked for from its own number on", |unit, tag, latency| {
        ruled(unit, tag, latency, |column, _| column, |segment, earlier, place| is_taken(segment, earlier, place, latency))
    }),
    ("columns are placed from 2 on", |unit, tag, latency| {
        let first = |column: u32, predecessor: u32| if column == 1 { 2 } else { predecessor + 1 };
        ruled(unit, tag, latency, first, |segment, earlier, place| is_taken(segment, earlier, place, latency))
    }),
    ("a mark moves on by one place at most", |unit, tag, latency| {
        let tries = Cell::new(0);
        let first = |column: u32, predecessor: u32| {
            tries.set(0);
            after(column, predecessor)
        };
        ruled(unit, tag, latency, first, |segment, earlier, place| {
            tries.set(tries.get() + 1);
            tries.get() == 1 && is_taken(segment, earlier, place, latency)
        })
    }),
    ("a place of remainder 0 is always free", |unit, tag, latency| freed(unit, tag, latency, |_, place, _| place % latency == 0)),
    ("a mark of segment 1 never moves", |unit, tag, latency| freed(unit, tag, latency, |segment, _, _| segment == Some(1))),
    ("a mark of segment 16 never moves", |unit, tag, latency| freed(unit, tag, latency, |segment, _, _| segment == Some(16))),
    ("a mark of the last segment never moves", |unit, tag, latency| {
        freed(unit, tag, latency, |segment, _, _| segment == Some(unit.segments))
    }),
    ("the last column never moves", |unit, tag, latency| freed(unit, tag, latency, |_, _, is_last| is_last)),
    ("a column without a mark moves on as a mark of segment 1 would", |unit, tag, latency| {
        ruled(unit, tag, latency, after, |segment, earlier, place| is_taken(segment.or(Some(1)), earlier, place, latency))
    }),
    ("a column without a mark moves on as a mark of the segment before it would", |unit, tag, latency| {
        ruled(unit, tag, latency, after, |segment, earlier, place| {
            let last = earlier.last().map(|mark| mark.segment);
            is_taken(segment.or(last), earlier, place, latency)
        })
    }),
    // the unit
    ("the columns end with the last mark", |unit, tag, latency| {
        reshaped(unit, tag, latency, |result| {
            result.columns = result.marks.iter().map(|mark| mark.column).max().unwrap_or(result.columns);
        })
    }),
    ("there are as many columns as before", |unit, tag, latency| reshaped(unit, tag, latency, |result| result.columns = unit.columns)),
    ("there are always 32 columns", |unit, tag, latency| reshaped(unit, tag, latency, |result| result.columns = MOST_COLUMNS)),
    ("there is a column more", |unit, tag, latency| {
        reshaped(unit, tag, latency, |result| result.columns = MOST_COLUMNS.min(result.columns + 1))
    }),
    ("the marks stay function Q's", |unit, tag, latency| {
        reshaped(unit, tag, latency, |result| {
            result.functions = unit.functions;
            result.marks = result.marks.iter().map(|mark| Mark { tag, ..*mark }).collect();
        })
    }),
    ("there are as many functions as before", |unit, tag, latency| {
        reshaped(unit, tag, latency, |result| result.functions = unit.functions)
    }),
    ("the other functions keep their marks", |unit, tag, latency| {
        reshaped(unit, tag, latency, |result| {
            result.functions = unit.functions;
            result.marks = result.marks.iter().map(|mark| Mark { tag, ..*mark }).collect();
            result.marks.extend(unit.marks.iter().filter(|mark| mark.tag != tag));
        })
    }),
    ("segments after the last marked one are left out", |unit, tag, latency| {
        reshaped(unit, tag, latency, |result| {
            result.segments = result.marks.iter().map(|mark| mark.segment).max().unwrap_or(result.segments);
        })
    }),
    ("there are always 16 segments", |unit, tag, latency| reshaped(unit, tag, latency, |result| result.segments = MOST_SEGMENTS)),
    ("the marks stay in their columns", |unit, tag, latency| {
        reshaped(unit, tag, latency, |result| {
            result.marks = unit.spots(tag).into_iter().map(|(segment, column)| Mark { tag: 1, segment, column }).collect();
        })
    }),
    ("the marks that moved stand in their old columns too", |unit, tag, latency| {
        reshaped(unit, tag, latency, |result| {
            result.marks.extend(unit.spots(tag).into_iter().map(|(segment, column)| Mark { tag: 1, segment, column }));
        })
    }),
    ("a mark at place 1 is left out", |unit, tag, latency| {
        reshaped(unit, tag, latency, |result| result.marks.retain(|mark| mark.column > 1))
    }),
    ("a mark at place 32 is left out", |unit, tag, latency| {
        reshaped(unit, tag, latency, |result| result.marks.retain(|mark| mark.column < MOST_COLUMNS))
    }),
    ("the function is the first one", |unit, tag, latency| unit.check_tag(tag).and_then(|_| delayed(unit, 1, latency))),
    ("the function is the last one", |unit, tag, latency| unit.check_tag(tag).and_then(|_| delayed(unit, unit.functions, latency))),
    // what is refused
    ("Q is taken modulo 256", |unit, tag, latency| delayed(unit, tag % 256, latency)),
    ("M is taken modulo 256", |unit, tag, latency| delayed(unit, tag, latency % 256)),
    ("M is taken modulo 32", |unit, tag, latency| delayed(unit, tag, latency % 32)),
    ("M above 32 is taken for 32", |unit, tag, latency| delayed(unit, tag, latency.min(MOST_COLUMNS))),
    ("M of 33 is taken", |unit, tag, latency| delayed(unit, tag, if latency == 33 { 32 } else { latency })),
    ("M of 32 is refused", |unit, tag, latency| refused_by(NO_LATENCY, latency == 32, unit, tag, latency)),
    ("M of 0 is taken for 1", |unit, tag, latency| delayed(unit, tag, latency.max(1))),
    ("M of 1 is refused", |unit, tag, latency| refused_by(NO_LATENCY, latency == 1, unit, tag, latency)),
    ("M just the most marks of a segment is refused", |unit, tag, latency| {
        refused_by(NO_LATENCY, latency == most_marks(&unit.spots(tag)), unit, tag, latency)
    }),
    ("M below the most marks of a segment is refused by 21", |unit, tag, latency| looking_at(1..1, unit, tag, latency)),
    ("M one below the most marks of a segment is refused by 21", |unit, tag, latency| {
        renumbered(NO_LATENCY, BEYOND, is_latency(latency) && latency + 1 == most_marks(&unit.spots(tag)), unit, tag, latency)
    }),
    ("20 is by the bound", |unit, tag, latency| {
        let bound = bound(&collision_vector(&unit.spots(tag), &mut Yard::new()));
        refused_by(NO_LATENCY, latency < bound, unit, tag, latency)
    }),
    ("20 is by the number of all marks", |unit, tag, latency| {
        refused_by(NO_LATENCY, latency < unit.spots(tag).len() as u32, unit, tag, latency)
    }),
    ("20 is by the marks of any function", |unit, tag, latency| {
        let is_below = (1..=unit.functions).any(|tag| latency < most_marks(&unit.spots(tag)));
        refused_by(NO_LATENCY, is_below, unit, tag, latency)
    }),
    ("20 looks at segment 1 alone", |unit, tag, latency| looking_at(1..=1, unit, tag, latency)),
    ("20 does not look at segment 1", |unit, tag, latency| looking_at(2..=unit.segments, unit, tag, latency)),
    ("20 does not look at the last segment", |unit, tag, latency| looking_at(1..unit.segments, unit, tag, latency)),
    ("no marks are refused by 20", |unit, tag, latency| refused_by(NO_LATENCY, unit.spots(tag).is_empty(), unit, tag, latency)),
    ("20 is tried before 2", |unit, tag, latency| renumbered(2, NO_LATENCY, !is_latency(latency), unit, tag, latency)),
    ("20 is tried before 19", |unit, tag, latency| {
        let is_refused = !is_latency(latency) || latency < most_marks(&unit.spots(tag));
        renumbered(TWO_MARKS, NO_LATENCY, is_refused, unit, tag, latency)
    }),
    ("M outside 1 to 32 is tried before 19", |unit, tag, latency| {
        renumbered(TWO_MARKS, NO_LATENCY, !is_latency(latency), unit, tag, latency)
    }),
    ("two marks in a column are refused by 20", |unit, tag, latency| renumbered(TWO_MARKS, NO_LATENCY, true, unit, tag, latency)),
    ("19 is for two marks of any function in a column", |unit, tag, latency| {
        let is_crowded = (1..=unit.functions).any(|tag| places(unit, tag, MOST_COLUMNS) == Err(TWO_MARKS));
        refused_by(TWO_MARKS, is_crowded, unit, tag, latency)
    }),
    ("19 is for the marks of two functions in a column", |unit, tag, latency| {
        let is_crowded = unit.spots(tag).iter().any(|spot| unit.marks.iter().any(|mark| mark.tag != tag && mark.column == spot.1));
        refused_by(TWO_MARKS, is_crowded, unit, tag, latency)
    }),
    ("19 is for two marks in a segment", |unit, tag, latency| refused_by(TWO_MARKS, most_marks(&unit.spots(tag)) > 1, unit, tag, latency)),
    ("two marks in a column are taken for one", |unit, tag, latency| uncrowded(unit, tag, latency, |_| true)),
    ("19 does not look at column 1", |unit, tag, latency| uncrowded(unit, tag, latency, |spot| spot.1 == 1)),
    ("19 does not look at column 32", |unit, tag, latency| uncrowded(unit, tag, latency, |spot| spot.1 == 32)),
    ("19 does not look at the last column", |unit, tag, latency| uncrowded(unit, tag, latency, |spot| spot.1 == unit.columns)),
    ("19 does not look at segment 16", |unit, tag, latency| uncrowded(unit, tag, latency, |spot| spot.0 == 16)),
    ("19 does not look at the last segment", |unit, tag, latency| uncrowded(unit, tag, latency, |spot| spot.0 == unit.segments)),
    ("21 is for marks alone", |unit, tag, latency| {
        let places = places(unit, tag, latency)?;
        let (_, last_mark) = last_places(unit, tag, latency);
        let within: Vec<u32> = places.iter().map(|place| (*place).min(MOST_COLUMNS)).collect();
        moved(unit, tag, if last_mark <= MOST_COLUMNS { &within } else { &places })
    }),
    ("21 is for the last column alone where it has a mark", |unit, tag, latency| {
        let is_marked = unit.spots(tag).iter().any(|spot| spot.1 == unit.columns);
        let places = places(unit, tag, latency)?;
        let within: Vec<u32> = places.iter().map(|place| (*place).min(MOST_COLUMNS)).collect();
        moved(unit, tag, if is_marked { &places } else { &within })
    }),
    ("places beyond 32 are taken for 32", |unit, tag, latency| {
        let within: Vec<u32> = places(unit, tag, latency)?.into_iter().map(|place| place.min(MOST_COLUMNS)).collect();
        moved(unit, tag, &within)
    }),
    ("place 32 is refused", |unit, tag, latency| refused_by(BEYOND, last_places(unit, tag, latency).0 == 32, unit, tag, latency)),
    ("place 32 of a mark is refused", |unit, tag, latency| refused_by(BEYOND, last_places(unit, tag, latency).1 == 32, unit, tag, latency)),
    ("place 33 is taken", |unit, tag, latency| {
        let places = places(unit, tag, latency)?;
        let mut within = places.clone();
        let is_33 = within.pop() == Some(33) && within.iter().all(|place| *place <= MOST_COLUMNS);
        if !is_33 {
            return moved(unit, tag, &places);
        }
        moved(unit, tag, &[&within[..], &[MOST_COLUMNS]].concat()).map(|result| Unit { columns: 33, ..result })
    }),
    ("a place beyond 32 is refused by 20", |unit, tag, latency| renumbered(BEYOND, NO_LATENCY, true, unit, tag, latency)),
    ("a place beyond 32 is refused by 4", |unit, tag, latency| renumbered(BEYOND, 4, true, unit, tag, latency)),
    ("a unit that gets wider is refused", |unit, tag, latency| {
        refused_by(BEYOND, last_places(unit, tag, latency).0 > unit.columns, unit, tag, latency)
    }),
];

/// A chart drawn in another way, also of wrong starts or marks and with wrong letters: where two tasks meet, the later one is shown.
fn sketch(chart: &Chart, starts: &[u32], spots: &[Spot], letter: impl Fn(usize) -> char) -> String {
    let (units, width) = (chart.units as usize, chart.units.to_string().len());
    let mut rows = vec![vec!['.'; units]; chart.segments as usize + 1];
    for (task, start) in starts.iter().enumerate() {
        // the starts are the first row
        let cells = spots.iter().map(|&(segment, column)| (segment, start + column - 1)).chain([(0, *start)]);
        for (row, unit) in cells.filter(|cell| cell.1 <= chart.units) {
            rows[row as usize][unit as usize - 1] = letter(task);
        }
    }
    let mut text = charts::head(chart.units);
    for (segment, row) in rows.iter().enumerate() {
        text.extend(row);
        text += "\n";
        if segment > 0 {
            text.pop();
            text += &format!(" busy {:>width$}/{units}\n", row.iter().filter(|cell| **cell != '.').count());
        }
        if segment < rows.len() - 1 {
            text += &format!("{:<8}", segment + 1);
        }
    }
    text
}

/// The right chart, where the marks are the plan's.
pub fn sketched(chart: &Chart, latencies: &[u8]) -> String {
    started(chart, &charts::starts_of(latencies, chart.units))
}

/// With other starts.
fn started(chart: &Chart, starts: &[u32]) -> String {
    sketch(chart, starts, &chart.planned.drawn.spots, charts::letter)
}

/// With other marks, where they are inside the chart.
fn marked(chart: &Chart, latencies: &[u8], change: impl Fn(Spot) -> Option<Spot>) -> String {
    let spots: Vec<Spot> = chart.planned.drawn.spots.iter().copied().filter_map(change).collect();
    sketch(chart, &charts::starts_of(latencies, chart.units), &spots, charts::letter)
}

/// With other letters.
fn lettered(chart: &Chart, latencies: &[u8], letter: impl Fn(usize) -> char) -> String {
    sketch(chart, &charts::starts_of(latencies, chart.units), &chart.planned.drawn.spots, letter)
}

/// With other lines of the segments, from their front and their busy units.
fn rowed(chart: &Chart, latencies: &[u8], change: impl Fn(&str, usize) -> String) -> String {
    let text = chart.text(latencies);
    let line = |line: &str| match line.split_once(" busy ") {
        Some((front, busy)) => change(front, busy.split_once('/').expect("two numbers").0.trim().parse().expect("a number")) + "\n",
        None => format!("{line}\n"),
    };
    text.lines().map(line).collect()
}

/// With another number of busy units.
fn counted(chart: &Chart, latencies: &[u8], change: impl Fn(usize) -> usize) -> String {
    let width = chart.units.to_string().len();
    rowed(chart, latencies, |front, busy| format!("{front} busy {:>width$}/{}", change(busy), chart.units))
}

/// With a field of another text in front of the cells.
fn fielded(chart: &Chart, latencies: &[u8], change: impl Fn(&str) -> String) -> String {
    let text = chart.text(latencies);
    text.lines().map(|line| line.split_at(charts::FIELD)).map(|(field, cells)| change(field) + cells + "\n").collect()
}

/// With the cells of the line `unit` changed.
fn numbered(chart: &Chart, latencies: &[u8], digit: impl Fn(u32) -> u32) -> String {
    let text = chart.text(latencies);
    let digits: String = (1..=chart.units).map(|unit| digit(unit).to_string()).collect();
    format!("unit    {digits}{}", &text[charts::FIELD + chart.units as usize..])
}

/// The same cycle with its last latency changed.
fn last_changed(chart: &Chart, latencies: &[u8], change: impl Fn(u8) -> u8) -> String {
    let mut other = latencies.to_vec();
    if let Some(last) = other.last_mut() {
        *last = change(*last).max(1);
    }
    started(chart, &charts::starts_of(&other, chart.units))
}

/// The same for how a chart is drawn.
pub const CHART_FAULTS: &[(&str, Draw)] = &[
    ("the position is 0 after S", |chart, latencies| last_changed(chart, latencies, |last| last + 1)),
    ("the position is 0 after S - 2", |chart, latencies| last_changed(chart, latencies, |last| last - 1)),
    ("the ring is played once", |chart, latencies| {
        let sum = sum_of(latencies);
        started(chart, &charts::starts_of(latencies, chart.units.min(sum)))
    }),
    ("the ring is played twice", |chart, latencies| {
        let sum = sum_of(latencies);
        started(chart, &charts::starts_of(latencies, chart.units.min(2 * sum)))
    }),
    ("tasks start where the bits are 1", |chart, latencies| {
        let starts = charts::starts_of(latencies, chart.units);
        started(chart, &(1..=chart.units).filter(|unit| !starts.contains(unit)).collect::<Vec<u32>>())
    }),
    ("a task starts at the first bit that is 1 too", |chart, latencies| {
        let mut starts = charts::starts_of(latencies, chart.units);
        if let Some(unit) = (1..=chart.units).find(|unit| !starts.contains(unit)) {
            starts.push(unit);
            starts.sort();
        }
        started(chart, &starts)
    }),
    ("the first unit is a tick", |chart, latencies| {
        let starts = charts::starts_of(latencies, chart.units.saturating_sub(1));
        started(chart, &starts.iter().map(|start| start + 1).collect::<Vec<u32>>())
    }),
    ("the latencies are taken backwards", |chart, latencies| {
        let other: Vec<u8> = latencies.iter().rev().copied().collect();
        chart.text(&other)
    }),
    ("the cycle is begun at its second latency", |chart, latencies| {
        let mut other = latencies.to_vec();
        other.rotate_left(1);
        chart.text(&other)
    }),
    ("the cycle is the greedy one", |chart, _| chart.text(&chart.planned.drawn.graph.greedy)),
    ("the cycle is n + 1", |chart, _| chart.text(&[chart.planned.drawn.graph.diagram.states[0].len() as u8 + 1])),
    ("after Z comes A again", |chart, latencies| lettered(chart, latencies, |task| charts::letter(task % 26))),
    ("after Z comes [", |chart, latencies| {
        lettered(chart, latencies, |task| if task < 52 { (b'A' + task as u8) as char } else { charts::letter(task) })
    }),
    ("after z comes {", |chart, latencies| {
        lettered(chart, latencies, |task| if task % 53 == 52 { '{' } else { charts::letter(task % 53) })
    }),
    ("after z comes a again", |chart, latencies| {
        lettered(chart, latencies, |task| if task < 52 { charts::letter(task) } else { charts::letter(26 + task % 26) })
    }),
    ("a to z come first", |chart, latencies| lettered(chart, latencies, |task| charts::letter(task + 26))),
    ("the first task is B", |chart, latencies| lettered(chart, latencies, |task| charts::letter(task + 1))),
    ("tasks are counted modulo 256", |chart, latencies| lettered(chart, latencies, |task| charts::letter(task % 256))),
    ("a mark is shown one unit late", |chart, latencies| marked(chart, latencies, |(segment, column)| Some((segment, column + 1)))),
    ("a mark is shown one unit early", |chart, latencies| {
        marked(chart, latencies, |(segment, column)| (column > 1).then(|| (segment, column - 1)))
    }),
    ("segment 1 is shown one unit late", |chart, latencies| {
        marked(chart, latencies, |(segment, column)| Some((segment, column + (segment == 1) as u32)))
    }),
    ("the last segment is shown one unit late", |chart, latencies| {
        marked(chart, latencies, |(segment, column)| Some((segment, column + (segment == chart.segments) as u32)))
    }),
    ("segments are shown in reverse", |chart, latencies| {
        marked(chart, latencies, |(segment, column)| Some((chart.segments + 1 - segment, column)))
    }),
    ("column 1 is not shown", |chart, latencies| marked(chart, latencies, |spot| (spot.1 > 1).then_some(spot))),
    ("column 32 is not shown", |chart, latencies| marked(chart, latencies, |spot| (spot.1 < 32).then_some(spot))),
    ("the last marked column is not shown", |chart, latencies| {
        let last = chart.planned.drawn.spots.iter().map(|spot| spot.1).max();
        marked(chart, latencies, |spot| (Some(spot.1) < last).then_some(spot))
    }),
    ("segment 16 is not shown", |chart, latencies| marked(chart, latencies, |spot| (spot.0 < 16).then_some(spot))),
    ("a task is shown for as long as the longest latency", |chart, latencies| {
        let longest = latencies.iter().copied().max().map(u32::from);
        marked(chart, latencies, |spot| (Some(spot.1) <= longest).then_some(spot))
    }),
    ("a task is shown for one turn", |chart, latencies| {
        let sum = sum_of(latencies);
        marked(chart, latencies, |spot| (spot.1 <= sum).then_some(spot))
    }),
    ("the first task alone is shown", |chart, latencies| started(chart, &charts::starts_of(latencies, chart.units.min(1)))),
    ("busy: one more", |chart, latencies| counted(chart, latencies, |busy| busy + 1)),
    ("busy: one less", |chart, latencies| counted(chart, latencies, |busy| busy.saturating_sub(1))),
    ("busy: idle units are counted", |chart, latencies| counted(chart, latencies, |busy| chart.units as usize - busy)),
    ("busy: starts are counted", |chart, latencies| {
        let starts = charts::starts_of(latencies, chart.units).len();
        counted(chart, latencies, |_| starts)
    }),
    ("busy: modulo 256", |chart, latencies| counted(chart, latencies, |busy| busy % 256)),
    ("busy: the last unit is left out", |chart, latencies| {
        let width = chart.units.to_string().len();
        rowed(chart, latencies, |front, busy| {
            let is_last = chart.units > 0 && !front.ends_with('.');
            format!("{front} busy {:>width$}/{}", busy - is_last as usize, chart.units)
        })
    }),
    ("busy: not right-aligned", |chart, latencies| rowed(chart, latencies, |front, busy| format!("{front} busy {busy}/{}", chart.units))),
    ("busy: left-aligned", |chart, latencies| {
        let width = chart.units.to_string().len();
        rowed(chart, latencies, |front, busy| format!("{front} busy {busy:<width$}/{}", chart.units))
    }),
    ("busy: zeros in front", |chart, latencies| {
        let width = chart.units.to_string().len();
        rowed(chart, latencies, |front, busy| format!("{front} busy {busy:0>width$}/{}", chart.units))
    }),
    ("busy: two bytes wide", |chart, latencies| rowed(chart, latencies, |front, busy| format!("{front} busy {busy:>2}/{}", chart.units))),
    ("busy: as wide as one unit more", |chart, latencies| {
        let width = (chart.units + 1).to_string().len();
        rowed(chart, latencies, |front, busy| format!("{front} busy {busy:>width$}/{}", chart.units))
    }),
    ("busy: as wide as one unit less", |chart, latencies| {
        let width = chart.units.saturating_sub(1).to_string().len();
        rowed(chart, latencies, |front, busy| format!("{front} busy {busy:>width$}/{}", chart.units))
    }),
    ("busy: without the units", |chart, latencies| rowed(chart, latencies, |front, busy| format!("{front} busy {busy}"))),
    ("busy: in percent", |chart, latencies| {
        rowed(chart, latencies, |front, busy| format!("{front} busy {}%", 100 * busy / chart.units.max(1) as usize))
    }),
    ("the units are numbered from 0", |chart, latencies| numbered(chart, latencies, |unit| (unit - 1) % 10)),
    ("after unit 9 comes 1", |chart, latencies| numbered(chart, latencies, |unit| (unit - 1) % 9 + 1)),
    ("the units' numbers have 8 bits", |chart, latencies| numbered(chart, latencies, |unit| unit % 256 % 10)),
    ("idle cells are spaces", |chart, latencies| chart.text(latencies).replace('.', " ")),
    ("spaces at a line's end are left out", |chart, latencies| {
        chart.text(latencies).lines().map(|line| format!("{}\n", line.trim_end())).collect()
    }),
    ("a chart of no units is empty", |chart, latencies| if chart.units == 0 { String::new() } else { chart.text(latencies) }),
    ("no newline at a chart's end", |chart, latencies| chart.text(latencies).trim_end_matches('\n').to_string()),
    ("the field has 7 bytes", |chart, latencies| fielded(chart, latencies, |field| field[..charts::FIELD - 1].to_string())),
    ("the field is right-aligned", |chart, latencies| fielded(chart, latencies, |field| format!("{:>8}", field.trim_end()))),
    ("segments are numbered from 0", |chart, latencies| {
        fielded(chart, latencies, |field| match field.trim_end().parse::<u32>() {
            Ok(segment) => format!("{:<8}", segment - 1),
            Err(_) => field.to_string(),
        })
    }),
    ("a number of two digits makes the field longer", |chart, latencies| {
        fielded(chart, latencies, |field| match field.trim_end().parse::<u32>() {
            Ok(segment) if segment > 9 => format!("{field} "),
            _ => field.to_string(),
        })
    }),
    ("a number of two digits is shown by its last one", |chart, latencies| {
        fielded(chart, latencies, |field| match field.trim_end().parse::<u32>() {
            Ok(segment) => format!("{:<8}", segment % 10),
            Err(_) => field.to_string(),
        })
    }),
    ("the line of the starts is left out", |chart, latencies| {
        chart.text(latencies).split_inclusive('\n').filter(|line| !line.starts_with("starts")).collect()
    }),
    ("one unit too few is shown", |chart, latencies| Chart { units: chart.units.saturating_sub(1), ..chart.clone() }.text(latencies)),
    ("255 units at most are shown", |chart, latencies| Chart { units: chart.units.min(255), ..chart.clone() }.text(latencies)),
    ("8,191 units at most are shown", |chart, latencies| Chart { units: chart.units.min(8_191), ..chart.clone() }.text(latencies)),
    ("a task starts nowhere after 8,192 units", |chart, latencies| started(chart, &charts::starts_of(latencies, chart.units.min(8_192)))),
];

/// The same for what stands in the folder of the script about records.
pub const RECORD_FAULTS: &[(&str, Fault)] = &[
    // what is shown
    ("ring: the bits are shown in reverse", |it, line, place| it.showing_ring(line, place, |ring| ring.chars().rev().collect())),
    ("ring: the bits of each byte are shown in reverse", |it, line, place| {
        it.showing_ring(line, place, |ring| ring.as_bytes().chunks(8).flat_map(|byte| byte.iter().rev()).map(|bit| *bit as char).collect())
    }),
    ("ring: one bit too many", |it, line, place| it.showing_ring(line, place, |ring| format!("{ring}1"))),
    ("ring: one bit too few", |it, line, place| it.showing_ring(line, place, |ring| ring[..ring.len() - 1].to_string())),
    ("ring: the spare bits are shown", |it, line, place| {
        it.showing_ring(line, place, |ring| format!("{ring}{}", "1".repeat(ring.len().div_ceil(8) * 8 - ring.len())))
    }),
    ("ring: the last byte is left out where it is not full", |it, line, place| {
        it.showing_ring(line, place, |ring| ring[..ring.len() - ring.len() % 8].to_string())
    }),
    ("ring: a 1 where a task starts", |it, line, place| {
        it.showing_ring(line, place, |ring| ring.chars().map(|bit| if bit == '0' { '1' } else { '0' }).collect())
    }),
    ("ring: the starts are shown one place later", |it, line, place| {
        it.showing_ring(line, place, |ring| format!("{}{}", &ring[ring.len() - 1..], &ring[..ring.len() - 1]))
    }),
    ("ring: 4,096 bits at most are shown", |it, line, place| {
        it.showing_ring(line, place, |ring| ring[..ring.len().min(4_096)].to_string())
    }),
    ("ring: 8,191 bits at most are shown", |it, line, place| {
        it.showing_ring(line, place, |ring| ring[..ring.len().min(8_191)].to_string())
    }),
    ("ring: the sum is shown modulo 256", |it, line, place| {
        it.showing(line, place, "sum ", |shown| match shown.split_once(' ') {
            Some((sum, rest)) => format!("{} {rest}", sum.parse::<usize>().expect("a sum") % 256),
            None => shown.to_string(),
        })
    }),
    ("ring: K is shown in place of S", |it, line, place| {
        it.showing(line, place, "sum ", |shown| match shown.split_once(" ring ") {
            Some((_, ring)) => format!("{} ring {ring}", ring.matches('0').count()),
            None => shown.to_string(),
        })
    }),
    ("report: the list is off by one", |it, line, place| {
        it.showing(line, place, "count ", |shown| match shown.split_once(" list ") {
            Some((count, list)) => {
                let words = list.split(' ').map(|word| (word.parse::<u32>().expect("a latency") - 1).to_string());
                format!("{count} list {}", words.collect::<Vec<_>>().join(" "))
            }
            None => shown.to_string(),
        })
    }),
    ("report: the list begins at its second latency", |it, line, place| {
        it.showing(line, place, "count ", |shown| match shown.split_once(" list ") {
            Some((count, list)) => {
                let mut words: Vec<&str> = list.split(' ').collect();
                words.rotate_left(1);
                format!("{count} list {}", words.join(" "))
            }
            None => shown.to_string(),
        })
    }),
    ("report: the last latency is left out", |it, line, place| {
        it.showing(line, place, "count ", |shown| shown.rsplit_once(' ').map_or(String::new(), |(begin, _)| begin.to_string()))
    }),
    ("report: 255 latencies at most are shown", |it, line, place| {
        it.showing(line, place, "count ", |shown| shown.split(' ').take(2 + 255).collect::<Vec<_>>().join(" "))
    }),
    ("report: K is shown modulo 256", |it, line, place| it.showing(line, place, "count ", |shown| shown.replacen("256 list", "0 list", 1))),
    ("report: the sum is shown in place of K", |it, line, place| {
        it.showing(line, place, "count ", |shown| match shown.split_once(" list ") {
            Some((_, list)) => format!("{} list {list}", list.split(' ').map(|word| word.parse::<u32>().expect("a latency")).sum::<u32>()),
            None => shown.to_string(),
        })
    }),
    ("report: a list of one latency has no number", |it, line, place| {
        it.showing(line, place, "count ", |shown| shown.replacen("1 list ", "list ", shown.starts_with("1 ") as usize))
    }),
    // what is taken
    ("the fields have their higher byte first", |it, line, place| {
        it.with_file(line, place, READERS, |bytes| {
            if bytes.len() >= 8 {
                bytes[..8].chunks_mut(2).for_each(|pair| pair.swap(0, 1));
            }
        })
    }),
    ("K has one byte", |it, line, place| {
        it.with_file(line, place, READERS, |bytes| {
            if bytes.len() >= 8 && bytes[0] > 0 {
                bytes[1] = 0;
            }
        })
    }),
    ("the higher bytes of the offsets are not looked at", |it, line, place| {
        it.with_file(line, place, READERS, |bytes| {
            if bytes.len() >= 8 {
                bytes[5] = 0;
                bytes[7] = ((records::LIST + records::field(bytes, 0)) / 256) as u8;
            }
        })
    }),
    ("a byte after the end is passed over", |it, line, place| {
        it.with_file(line, place, READERS, |bytes| {
            if let Some((_, end)) = ends(bytes) {
                bytes.truncate(if bytes.len() == end + 1 { end } else { bytes.len() });
            }
        })
    }),
    ("bytes after the end are passed over", |it, line, place| {
        it.with_file(line, place, READERS, |bytes| {
            if let Some((_, end)) = ends(bytes) {
                bytes.truncate(end);
            }
        })
    }),
    ("bytes after the end are passed over by the loader alone", |it, line, place| {
        it.with_file(line, place, &[b"ring"], |bytes| {
            if let Some((_, end)) = ends(bytes) {
                bytes.truncate(end);
            }
        })
    }),
    ("a newline at the end is passed over", |it, line, place| {
        it.with_file(line, place, READERS, |bytes| {
            if bytes.ends_with(b"\n") {
                bytes.pop();
            }
        })
    }),
    ("bytes after the 1,288th are not read", |it, line, place| it.with_file(line, place, READERS, |bytes| bytes.truncate(1_288))),
    ("1,287 bytes are read", |it, line, place| it.with_file(line, place, READERS, |bytes| bytes.truncate(1_287))),
    ("1,024 bytes are read", |it, line, place| it.with_file(line, place, READERS, |bytes| bytes.truncate(1_024))),
    ("300 bytes are read", |it, line, place| it.with_file(line, place, READERS, |bytes| bytes.truncate(300))),
    ("the length of a record is taken modulo 256", |it, line, place| {
        it.with_file(line, place, READERS, |bytes| {
            if let Some((_, end)) = ends(bytes) {
                bytes.truncate(if bytes.len() % 256 == end % 256 { end } else { bytes.len() });
            }
        })
    }),
    ("the length of a record is taken modulo 65,536", |it, line, place| {
        it.with_file(line, place, READERS, |bytes| {
            if bytes.len() >= 65_536 {
                bytes.truncate(bytes.len() - 65_536);
            }
        })
    }),
    ("a byte that is cut off is taken for a spare one", |it, line, place| {
        it.with_file(line, place, READERS, |bytes| {
            bytes.push(255);
            if ends(bytes).is_none_or(|(_, end)| end != bytes.len()) {
                bytes.pop();
            }
        })
    }),
    ("the spare bits are not looked at", |it, line, place| {
        it.with_file(line, place, READERS, |bytes| {
            if let Some((_, end)) = ends(bytes).filter(|(list, end)| list < end) {
                bytes[end - 1] |= spare_bits(bytes);
            }
        })
    }),
    ("the spare bits are 0", |it, line, place| {
        it.with_file(line, place, READERS, |bytes| {
            if let Some((_, end)) = ends(bytes).filter(|(list, end)| list < end) {
                bytes[end - 1] ^= spare_bits(bytes);
            }
        })
    }),
    ("the first spare bit is 0", |it, line, place| {
        it.with_file(line, place, READERS, |bytes| {
            if let Some((_, end)) = ends(bytes).filter(|(list, end)| list < end) {
                let spare = spare_bits(bytes);
                bytes[end - 1] ^= spare & spare.wrapping_neg();
            }
        })
    }),
    ("the first spare bit alone is looked at", |it, line, place| {
        it.with_file(line, place, READERS, |bytes| {
            if let Some((_, end)) = ends(bytes).filter(|(list, end)| list < end) {
                let spare = spare_bits(bytes);
                bytes[end - 1] |= spare & !(spare & spare.wrapping_neg());
            }
        })
    }),
    ("the bits of the ring begin with the highest of each byte", |it, line, place| {
        it.with_file(line, place, READERS, |bytes| {
            if let Some((list, end)) = ends(bytes) {
                bytes[list..end].iter_mut().for_each(|byte| *byte = byte.reverse_bits());
            }
        })
    }),
    ("a task starts where the ring has a 1", |it, line, place| {
        it.with_file(line, place, READERS, |bytes| {
            if let Some((list, end)) = ends(bytes) {
                bytes[list..end].iter_mut().for_each(|byte| *byte = !*byte);
            }
        })
    }),
    ("the first bit of the ring is not looked at", |it, line, place| {
        it.with_file(line, place, READERS, |bytes| {
            if let Some((list, _)) = ends(bytes).filter(|(list, end)| list < end) {
                bytes[list] &= 254;
            }
        })
    }),
    ("the report reader does not look at the ring", |it, line, place| {
        it.with_file(line, place, &[b"report"], |bytes| {
            if let Some((list, end)) = ends(bytes) {
                let right = records::laid_out(&bytes[records::LIST..list])[list..].to_vec();
                if right.len() == end - list {
                    bytes[list..end].copy_from_slice(&right);
                }
            }
        })
    }),
    ("the loader does not look at the list", |it, line, place| {
        it.with_file(line, place, &[b"ring"], |bytes| {
            if let Some((list, end)) = ends(bytes) {
                let bits: Vec<bool> = (0..records::field(bytes, 1)).map(|bit| bytes[list + bit / 8] >> (bit % 8) & 1 == 1).collect();
                match records::latencies_of(&bits) {
                    Some(latencies) if latencies.len() == list - records::LIST && list < end => {
                        bytes[records::LIST..list].copy_from_slice(&latencies);
                    }
                    _ => {}
                }
            }
        })
    }),
    ("0s of the ring may be missing", |it, line, place| {
        it.with_file(line, place, READERS, |bytes| {
            if let Some((list, end)) = ends(bytes) {
                let right = records::laid_out(&bytes[records::LIST..list])[list..].to_vec();
                if right.len() == end - list {
                    bytes[list..end].iter_mut().zip(right).for_each(|(byte, right)| *byte &= right);
                }
            }
        })
    }),
    ("0s of the ring may be too many", |it, line, place| {
        it.with_file(line, place, READERS, |bytes| {
            if let Some((list, end)) = ends(bytes) {
                let right = records::laid_out(&bytes[records::LIST..list])[list..].to_vec();
                if right.len() == end - list {
                    bytes[list..end].iter_mut().zip(right).for_each(|(byte, right)| *byte |= right);
                }
            }
        })
    }),
    ("an empty file is no file", |it, line, place| {
        it.instead(line, place, |answer, _| {
            let is_empty = answer.met.iter().any(|what| ["report: an empty file", "ring: an empty file"].contains(what));
            is_empty.then(|| "no file\n".to_string())
        })
    }),
    ("no file is refused by 15", |it, line, place| {
        it.instead(line, place, |answer, _| {
            (is(answer, "report", "no file") || is(answer, "ring", "no file")).then(|| "refused 15\n".to_string())
        })
    }),
    ("a file that is no record is refused by 11", |it, line, place| {
        it.instead(line, place, |answer, _| is(answer, "report", "refused 15").then(|| "refused 11\n".to_string()))
    }),
    ("report: there has to be a unit", |it, line, place| it.in_case(line, place, "report: a file before the first unit", "no unit\n")),
    ("ring: there has to be a unit", |it, line, place| it.in_case(line, place, "ring: a file before the first unit", "no unit\n")),
    ("report: there has to be a unit before a file is looked for", |it, line, place| {
        it.in_case(line, place, "report: no file before the first unit", "no unit\n")
    }),
    ("ring: there has to be a unit before a file is looked for", |it, line, place| {
        it.in_case(line, place, "ring: no file before the first unit", "no unit\n")
    }),
    // each single case by each reader
    ("report: no 15 for fewer than 8 bytes", |it, line, place| {
        it.in_case(line, place, "report: 15 for fewer than 8 bytes", "count 1 list 1\n")
    }),
    ("ring: no 15 for fewer than 8 bytes", |it, line, place| it.in_case(line, place, "ring: 15 for fewer than 8 bytes", "sum 1 ring 0\n")),
    ("report: no 15 for K of 0", |it, line, place| it.in_case(line, place, "report: 15 for K of 0", "count 1 list 1\n")),
    ("ring: no 15 for K of 0", |it, line, place| it.in_case(line, place, "ring: 15 for K of 0", "sum 1 ring 0\n")),
    ("report: no 15 for K of 257", |it, line, place| it.in_case(line, place, "report: 15 for K of 257", "count 1 list 1\n")),
    ("ring: no 15 for K of 257", |it, line, place| it.in_case(line, place, "ring: 15 for K of 257", "sum 1 ring 0\n")),
    ("report: no 15 for the offset of the list", |it, line, place| {
        it.in_case(line, place, "report: 15 for the offset of the list", "count 1 list 1\n")
    }),
    ("ring: no 15 for the offset of the list", |it, line, place| {
        it.in_case(line, place, "ring: 15 for the offset of the list", "sum 1 ring 0\n")
    }),
    ("report: no 15 for the offset of the ring", |it, line, place| {
        it.in_case(line, place, "report: 15 for the offset of the ring", "count 1 list 1\n")
    }),
    ("ring: no 15 for the offset of the ring", |it, line, place| {
        it.in_case(line, place, "ring: 15 for the offset of the ring", "sum 1 ring 0\n")
    }),
    ("report: no 15 for one byte cut off", |it, line, place| {
        it.in_case(line, place, "report: 15 for one byte cut off", "count 1 list 1\n")
    }),
    ("ring: no 15 for one byte cut off", |it, line, place| it.in_case(line, place, "ring: 15 for one byte cut off", "sum 1 ring 0\n")),
    ("report: no 15 for more bytes cut off", |it, line, place| {
        it.in_case(line, place, "report: 15 for more bytes cut off", "count 1 list 1\n")
    }),
    ("ring: no 15 for more bytes cut off", |it, line, place| it.in_case(line, place, "ring: 15 for more bytes cut off", "sum 1 ring 0\n")),
    ("report: no 15 for a byte after the end", |it, line, place| {
        it.in_case(line, place, "report: 15 for a byte after the end", "count 1 list 1\n")
    }),
    ("ring: no 15 for a byte after the end", |it, line, place| {
        it.in_case(line, place, "ring: 15 for a byte after the end", "sum 1 ring 0\n")
    }),
    ("report: no 15 for 256 bytes after the end", |it, line, place| {
        it.in_case(line, place, "report: 15 for 256 bytes after the end", "count 1 list 1\n")
    }),
    ("ring: no 15 for 256 bytes after the end", |it, line, place| {
        it.in_case(line, place, "ring: 15 for 256 bytes after the end", "sum 1 ring 0\n")
    }),
    ("report: no 15 for 65,536 bytes after the end", |it, line, place| {
        it.in_case(line, place, "report: 15 for 65,536 bytes after the end", "count 1 list 1\n")
    }),
    ("ring: no 15 for 65,536 bytes after the end", |it, line, place| {
        it.in_case(line, place, "ring: 15 for 65,536 bytes after the end", "sum 1 ring 0\n")
    }),
    ("report: no 15 for a latency 0", |it, line, place| it.in_case(line, place, "report: 15 for a latency 0", "count 1 list 1\n")),
    ("ring: no 15 for a latency 0", |it, line, place| it.in_case(line, place, "ring: 15 for a latency 0", "sum 1 ring 0\n")),
    ("report: no 15 for a latency 33", |it, line, place| it.in_case(line, place, "report: 15 for a latency 33", "count 1 list 1\n")),
    ("ring: no 15 for a latency 33", |it, line, place| it.in_case(line, place, "ring: 15 for a latency 33", "sum 1 ring 0\n")),
    ("report: no 15 for the sum", |it, line, place| it.in_case(line, place, "report: 15 for the sum", "count 1 list 1\n")),
    ("ring: no 15 for the sum", |it, line, place| it.in_case(line, place, "ring: 15 for the sum", "sum 1 ring 0\n")),
    ("report: no 15 for the ring", |it, line, place| it.in_case(line, place, "report: 15 for the ring", "count 1 list 1\n")),
    ("ring: no 15 for the ring", |it, line, place| it.in_case(line, place, "ring: 15 for the ring", "sum 1 ring 0\n")),
    ("report: no 15 for a spare bit", |it, line, place| it.in_case(line, place, "report: 15 for a spare bit", "count 1 list 1\n")),
    ("ring: no 15 for a spare bit", |it, line, place| it.in_case(line, place, "ring: 15 for a spare bit", "sum 1 ring 0\n")),
    ("report: an empty file is taken", |it, line, place| it.in_case(line, place, "report: an empty file", "count 1 list 1\n")),
    ("ring: an empty file is taken", |it, line, place| it.in_case(line, place, "ring: an empty file", "sum 1 ring 0\n")),
    ("report: a file longer than 2^32 bytes is taken", |it, line, place| {
        it.in_case(line, place, "report: a file longer than 2^32 bytes", "count 1 list 1\n")
    }),
    ("ring: a file longer than 2^32 bytes is taken", |it, line, place| {
        it.in_case(line, place, "ring: a file longer than 2^32 bytes", "sum 1 ring 0\n")
    }),
    ("report: a file of 1,289 bytes is taken", |it, line, place| {
        it.in_case(line, place, "report: a file of 1,289 bytes", "count 1 list 1\n")
    }),
    ("ring: a file of 1,289 bytes is taken", |it, line, place| it.in_case(line, place, "ring: a file of 1,289 bytes", "sum 1 ring 0\n")),
    ("report: a file of 4,096 bytes is taken", |it, line, place| {
        it.in_case(line, place, "report: a file of 4,096 bytes", "count 1 list 1\n")
    }),
    ("ring: a file of 4,096 bytes is taken", |it, line, place| it.in_case(line, place, "ring: a file of 4,096 bytes", "sum 1 ring 0\n")),
    ("report: a file of 70,000 bytes is taken", |it, line, place| {
        it.in_case(line, place, "report: a file of 70,000 bytes", "count 1 list 1\n")
    }),
    ("ring: a file of 70,000 bytes is taken", |it, line, place| it.in_case(line, place, "ring: a file of 70,000 bytes", "sum 1 ring 0\n")),
    ("report: a unit file is taken", |it, line, place| it.in_case(line, place, "report: a unit file", "count 1 list 1\n")),
    ("ring: a unit file is taken", |it, line, place| it.in_case(line, place, "ring: a unit file", "sum 1 ring 0\n")),
    ("report: K of 1 is refused", |it, line, place| it.in_case(line, place, "report: K of 1", "refused 15\n")),
    ("ring: K of 1 is refused", |it, line, place| it.in_case(line, place, "ring: K of 1", "refused 15\n")),
    ("report: K of 256 is refused", |it, line, place| it.in_case(line, place, "report: K of 256", "refused 15\n")),
    ("ring: K of 256 is refused", |it, line, place| it.in_case(line, place, "ring: K of 256", "refused 15\n")),
    ("report: S of 8,192 is refused", |it, line, place| it.in_case(line, place, "report: S of 8,192", "refused 15\n")),
    ("ring: S of 8,192 is refused", |it, line, place| it.in_case(line, place, "ring: S of 8,192", "refused 15\n")),
    ("report: S a multiple of 8 is refused", |it, line, place| it.in_case(line, place, "report: S a multiple of 8", "refused 15\n")),
    ("ring: S a multiple of 8 is refused", |it, line, place| it.in_case(line, place, "ring: S a multiple of 8", "refused 15\n")),
    ("report: S no multiple of 8 is refused", |it, line, place| it.in_case(line, place, "report: S no multiple of 8", "refused 15\n")),
    ("ring: S no multiple of 8 is refused", |it, line, place| it.in_case(line, place, "ring: S no multiple of 8", "refused 15\n")),
    ("report: a record of 1,288 bytes is refused", |it, line, place| {
        it.in_case(line, place, "report: a record of 1,288 bytes", "refused 15\n")
    }),
    ("ring: a record of 1,288 bytes is refused", |it, line, place| {
        it.in_case(line, place, "ring: a record of 1,288 bytes", "refused 15\n")
    }),
];
