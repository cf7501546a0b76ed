//! The calls of limedarts.h, each behind a safe function.
//!
//! Every buffer is lent between guards. A function here hands out what the call answered, and fails where the call changed something that
//! its comment in the header says stays as before: guards, inputs, everything lent to a refused call but the working words at 7, outputs
//! after what was written, and working words beyond the first 16,000.

use crate::lent::{Breach, Lent, Work};
use crate::lists::{CALL_BYTES, REPLY_BYTES};
use crate::model::{Cycle, Reply};
use crate::random::Random;
use crate::tally::{Call, Tally};
use std::time::Instant;

mod c {
    extern "C" {
        pub fn limedarts_fresh(functions: u32, segments: u32, columns: u32, out: *mut u8, out_length: usize, length: *mut u32) -> u32;
        pub fn limedarts_mark(file: *mut u8, file_length: usize, tag: u32, segment: u32, column: u32) -> u32;
        pub fn limedarts_unmark(file: *mut u8, file_length: usize, tag: u32, segment: u32, column: u32) -> u32;
        pub fn limedarts_vector(file: *const u8, file_length: usize, tag: u32, word: *mut u32) -> u32;
        pub fn limedarts_matrix_row(file: *const u8, file_length: usize, tag: u32, other: u32, word: *mut u32) -> u32;
        pub fn limedarts_bound(file: *const u8, file_length: usize, tag: u32, value: *mut u32) -> u32;
        pub fn limedarts_upper(file: *const u8, file_length: usize, tag: u32, value: *mut u32) -> u32;
        pub fn limedarts_constant(file: *const u8, file_length: usize, tag: u32, value: *mut u32) -> u32;
        pub fn limedarts_judge(file: *const u8, file_length: usize, tag: u32, cycle: *const u8, cycle_length: usize, yes: *mut u32) -> u32;
        pub fn limedarts_states(file: *const u8, file_length: usize, tag: u32, out: *mut u32, out_length: usize, count: *mut u32) -> u32;
        pub fn limedarts_greedy(
            file: *const u8,
            file_length: usize,
            tag: u32,
            work: *mut u32,
            work_length: usize,
            out: *mut u8,
            out_length: usize,
            count: *mut u32,
            sum: *mut u32,
        ) -> u32;
        pub fn limedarts_search(
            file: *const u8,
            file_length: usize,
            tag: u32,
            work: *mut u32,
            work_length: usize,
            out: *mut u8,
            out_length: usize,
            count: *mut u32,
            sum: *mut u32,
        ) -> u32;
        pub fn limedarts_tick(file: *const u8, file_length: usize, bank: *mut u32, bank_length: usize) -> u32;
        pub fn limedarts_start(file: *const u8, file_length: usize, bank: *mut u32, bank_length: usize, tag: u32) -> u32;
        pub fn limedarts_listing(file: *const u8, file_length: usize, out: *mut u8, out_length: usize, length: *mut u32) -> u32;
        pub fn limedarts_play(
            functions: u32,
            segments: u32,
            columns: u32,
            calls: *const u8,
            calls_length: usize,
            work: *mut u32,
            work_length: usize,
            out: *mut u8,
            out_length: usize,
            count: *mut usize,
        ) -> u32;
    }
}

/// What a call answered, or the breach that it is guilty of.
pub type Seen<T> = Result<Reply<T>, Breach>;

/// Which of the two calls that hand out a cycle.
#[derive(Clone, Copy, PartialEq, Eq)]
pub enum Kind {
    Greedy,
    Search,
}

/// Lends memory, makes calls and counts their answers.
pub struct Lender {
    random: Random,
    work: Work,
    pub tally: Tally,
}

impl Lender {
    pub fn new() -> Lender {
        Lender { random: Random::new(0), work: Work::new(), tally: Tally::default() }
    }

    /// Guards, working words and what outputs hold beforehand depend on this seed alone.
    pub fn begin(&mut self, seed: u64) {
        self.random = Random::new(seed);
        self.work.begin(&mut self.random);
    }

    fn ask(&mut self, call: Call, make: impl FnOnce() -> u32) -> u32 {
        let begin = Instant::now();
        let number = make();
        self.tally.answer(call, number, begin.elapsed());
        number
    }

    fn lend_bytes(&mut self, content: &[u8]) -> Lent<u8> {
        Lent::bytes(content, &mut self.random)
    }

    fn lend_output(&mut self, length: usize) -> Lent<u8> {
        let content = self.random.bytes(length);
        Lent::bytes(&content, &mut self.random)
    }

    fn lend_words(&mut self, length: usize) -> Lent<u32> {
        let content = self.random.words(length);
        Lent::words(&content, &mut self.random)
    }

    /// The bytes written to the front of an output, and nothing else changed.
    fn front_of(number: u32, out: &Lent<u8>, count: &Lent<u32>) -> Seen<Vec<u8>> {
        if number != 0 {
            out.kept("output")?;
            count.kept("count")?;
            return Ok(Err(number));
        }
        let written = count.now()[0] as usize;
        count.kept_but(1, "count")?;
        out.kept_but(written, "output")?;
        Ok(Ok(out.now()[..written].to_vec()))
    }

    pub fn fresh(&mut self, functions: u32, segments: u32, columns: u32, out_length: usize) -> Seen<Vec<u8>> {
        let mut out = self.lend_output(out_length);
        let mut length = self.lend_words(1);
        let number = self.ask(Call::Fresh, || unsafe {
            c::limedarts_fresh(functions, segments, columns, out.pointer(), out.length(), length.pointer())
        });
        Lender::front_of(number, &out, &length)
    }

    /// Mark or unmark: the file afterwards.
    pub fn edit(&mut self, set: bool, file: &[u8], tag: u32, segment: u32, column: u32) -> Seen<Vec<u8>> {
        let mut lent = self.lend_bytes(file);
        let number = if set {
            self.ask(Call::Mark, || unsafe { c::limedarts_mark(lent.pointer(), lent.length(), tag, segment, column) })
        } else {
            self.ask(Call::Unmark, || unsafe { c::limedarts_unmark(lent.pointer(), lent.length(), tag, segment, column) })
        };
        if number != 0 {
            lent.kept("file of a refused edit")?;
            return Ok(Err(number));
        }
        lent.kept_but(lent.length(), "file")?;
        Ok(Ok(lent.now().to_vec()))
    }

    /// The calls that read a file and write one word.
    fn one_word(&mut self, call: Call, file: &[u8], make: impl FnOnce(*const u8, usize, *mut u32) -> u32) -> Seen<u32> {
        let mut lent = self.lend_bytes(file);
        let mut word = self.lend_words(1);
        let number = self.ask(call, || make(lent.pointer(), lent.length(), word.pointer()));
        lent.kept("file")?;
        if number != 0 {
            word.kept("word of a refused call")?;
            return Ok(Err(number));
        }
        word.kept_but(1, "word")?;
        Ok(Ok(word.now()[0]))
    }

    pub fn vector(&mut self, file: &[u8], tag: u32) -> Seen<u32> {
        self.one_word(Call::Vector, file, |file, length, word| unsafe { c::limedarts_vector(file, length, tag, word) })
    }

    pub fn matrix_row(&mut self, file: &[u8], tag: u32, other: u32) -> Seen<u32> {
        self.one_word(Call::MatrixRow, file, |file, length, word| unsafe { c::limedarts_matrix_row(file, length, tag, other, word) })
    }

    pub fn bound(&mut self, file: &[u8], tag: u32) -> Seen<u32> {
        self.one_word(Call::Bound, file, |file, length, word| unsafe { c::limedarts_bound(file, length, tag, word) })
    }

    pub fn upper(&mut self, file: &[u8], tag: u32) -> Seen<u32> {
        self.one_word(Call::Upper, file, |file, length, word| unsafe { c::limedarts_upper(file, length, tag, word) })
    }

    pub fn constant(&mut self, file: &[u8], tag: u32) -> Seen<u32> {
        self.one_word(Call::Constant, file, |file, length, word| unsafe { c::limedarts_constant(file, length, tag, word) })
    }

    pub fn judge(&mut self, file: &[u8], tag: u32, latencies: &[u8]) -> Seen<u32> {
        let mut cycle = self.lend_bytes(latencies);
        let seen = self.one_word(Call::Judge, file, |file, length, word| unsafe {
            c::limedarts_judge(file, length, tag, cycle.pointer(), cycle.length(), word)
        })?;
        cycle.kept("cycle")?;
        Ok(seen)
    }

    pub fn states(&mut self, file: &[u8], tag: u32, out_length: usize) -> Seen<Vec<u32>> {
        let mut lent = self.lend_bytes(file);
        let mut out = self.lend_words(out_length);
        let mut count = self.lend_words(1);
        let number = self.ask(Call::States, || unsafe {
            c::limedarts_states(lent.pointer(), lent.length(), tag, out.pointer(), out.length(), count.pointer())
        });
        lent.kept("file")?;
        if number != 0 {
            out.kept("states of a refused call")?;
            count.kept("count of a refused call")?;
            return Ok(Err(number));
        }
        count.kept_but(1, "count")?;
        let listed = count.now()[0] as usize;
        out.kept_but(listed, "states")?;
        Ok(Ok(out.now()[..listed].to_vec()))
    }

    /// The greedy cycle or the best one.
    pub fn cycle(&mut self, kind: Kind, file: &[u8], tag: u32, work_length: usize, out_length: usize) -> Seen<Cycle> {
        let mut lent = self.lend_bytes(file);
        let mut out = self.lend_output(out_length);
        let mut count = self.lend_words(1);
        let mut sum = self.lend_words(1);
        let (call, function): (Call, unsafe extern "C" fn(_, _, _, _, _, _, _, _, _) -> u32) = match kind {
            Kind::Greedy => (Call::Greedy, c::limedarts_greedy),
            Kind::Search => (Call::Search, c::limedarts_search),
        };
        let work = self.work.pointer();
        let number = self.ask(call, || unsafe {
            function(
                lent.pointer() as *const u8,
                lent.length(),
                tag,
                work,
                work_length,
                out.pointer(),
                out.length(),
                count.pointer(),
                sum.pointer(),
            )
        });
        // "the first 16,000 are free after it was accepted or refused by 7, and untouched otherwise, as all beyond them always are"
        self.work.settle(work_length, number == 0 || number == 7)?;
        lent.kept("file")?;
        match number {
            0 => sum.kept_but(1, "sum")?,
            _ => sum.kept("sum of a refused call")?,
        }
        let seen = Lender::front_of(number, &out, &count)?;
        Ok(seen.map(|latencies| Cycle { latencies, sum: sum.now()[0] }))
    }

    /// A tick, or a start of a tag: the lent registers afterwards.
    pub fn event(&mut self, file: &[u8], bank: &[u32], start: Option<u32>) -> Seen<Vec<u32>> {
        let mut lent = self.lend_bytes(file);
        let mut words = Lent::words(bank, &mut self.random);
        let number = match start {
            None => self.ask(Call::Tick, || unsafe { c::limedarts_tick(lent.pointer(), lent.length(), words.pointer(), words.length()) }),
            Some(tag) => {
                self.ask(Call::Start, || unsafe { c::limedarts_start(lent.pointer(), lent.length(), words.pointer(), words.length(), tag) })
            }
        };
        lent.kept("file")?;
        if number != 0 {
            words.kept("registers of a refused call")?;
            return Ok(Err(number));
        }
        // "The bank, four registers": words after the fourth are not part of it
        words.kept_but(4.min(words.length()), "registers")?;
        Ok(Ok(words.now().to_vec()))
    }

    pub fn listing(&mut self, file: &[u8], out_length: usize) -> Seen<Vec<u8>> {
        let mut lent = self.lend_bytes(file);
        let mut out = self.lend_output(out_length);
        let mut length = self.lend_words(1);
        let number = self.ask(Call::Listing, || unsafe {
            c::limedarts_listing(lent.pointer(), lent.length(), out.pointer(), out.length(), length.pointer())
        });
        lent.kept("file")?;
        Lender::front_of(number, &out, &length)
    }

    /// A list of calls from a fresh unit of these counts: the replies to those that were played.
    pub fn play(&mut self, counts: [u32; 3], calls: &[u8], work_length: usize, out_length: usize) -> Result<Vec<Vec<u8>>, Breach> {
        let [functions, segments, columns] = counts;
        let mut lent = self.lend_bytes(calls);
        let mut out = self.lend_output(out_length);
        let mut count = Lent::length_word(self.random.next() as usize, &mut self.random);
        let work = self.work.pointer();
        let number = self.ask(Call::Play, || unsafe {
            c::limedarts_play(
                functions,
                segments,
                columns,
                lent.pointer(),
                lent.length(),
                work,
                work_length,
                out.pointer(),
                out.length(),
                count.pointer(),
            )
        });
        if number != 0 {
            return Err(format!("play answers {number}"));
        }
        lent.kept("calls")?;
        count.kept_but(1, "count")?;
        let played = count.now()[0];
        if played > calls.len() / CALL_BYTES {
            return Err(format!("{played} calls are said to be played, {} bytes of calls were lent", calls.len()));
        }
        // "Bytes after the replies stay as before"
        out.kept_but(played * REPLY_BYTES, "replies")?;
        let replies: Vec<Vec<u8>> = out.now()[..played * REPLY_BYTES].chunks(REPLY_BYTES).map(|reply| reply.to_vec()).collect();
        let mut free = false;
        for (call, reply) in calls.chunks(CALL_BYTES).zip(&replies) {
            let (kind, number) = (call[0], reply[0] as u32);
            self.tally.reply(
                match kind {
                    0 => Call::PlayedMark,
                    1 => Call::PlayedUnmark,
                    2 => Call::PlayedSearch,
                    _ => Call::PlayedRead,
                },
                number,
            );
            free = free || kind == 2 && (number == 0 || number == 7);
        }
        // "may be changed by a search that is accepted or refused by 7, and none otherwise"
        self.work.settle(work_length, free)?;
        Ok(replies)
    }
}
