//! Memory lent to a call, with guards in front and behind.

use crate::random::Random;

/// What a call did that no call may do, in words.
pub type Breach = String;

const GUARD: usize = 16;

/// A lent part between guards, with a copy of everything as it was before the call.
pub struct Lent<T> {
    cells: Vec<T>,
    before: Vec<T>,
    front: usize,
    length: usize,
}

impl Lent<u8> {
    /// Bytes may stand at any address: the front guard's length varies.
    pub fn bytes(content: &[u8], random: &mut Random) -> Lent<u8> {
        let front = GUARD + random.below(8) as usize;
        Lent::between(random.bytes(front), content, random.bytes(GUARD))
    }
}

impl Lent<u32> {
    pub fn words(content: &[u32], random: &mut Random) -> Lent<u32> {
        Lent::between(random.words(4), content, random.words(4))
    }
}

impl Lent<usize> {
    /// One number as large as a length can be.
    pub fn length_word(content: usize, random: &mut Random) -> Lent<usize> {
        Lent::between(vec![random.next() as usize; 2], &[content], vec![random.next() as usize; 2])
    }
}

impl<T: Copy + PartialEq> Lent<T> {
    fn between(front: Vec<T>, content: &[T], behind: Vec<T>) -> Lent<T> {
        let begin = front.len();
        let mut cells = front;
        cells.extend_from_slice(content);
        cells.extend(behind);
        Lent { before: cells.clone(), cells, front: begin, length: content.len() }
    }

    pub fn pointer(&mut self) -> *mut T {
        self.cells.as_mut_ptr().wrapping_add(self.front)
    }

    pub fn length(&self) -> usize {
        self.length
    }

    pub fn now(&self) -> &[T] {
        &self.cells[self.front..self.front + self.length]
    }

    /// Everything outside the first `count` cells of the lent part is as before, the guards too.
    pub fn kept_but(&self, count: usize, what: &str) -> Result<(), Breach> {
        if count > self.length {
            return Err(format!("{what}: {count} cells are said to be written, {} were lent", self.length));
        }
        let written = self.front + count;
        let end = self.front + self.length;
        if self.cells[..self.front] != self.before[..self.front] {
            return Err(format!("{what}: changed in front of what was lent"));
        }
        if self.cells[end..] != self.before[end..] {
            return Err(format!("{what}: changed behind what was lent"));
        }
        if let Some(place) = (written..end).find(|&place| self.cells[place] != self.before[place]) {
            return Err(format!("{what}: cell {} of {} changed, the call may write the first {count}", place - self.front, self.length));
        }
        Ok(())
    }

    pub fn kept(&self, what: &str) -> Result<(), Breach> {
        self.kept_but(0, what)
    }
}

/// The working words: one large store for all calls, of which a call is lent the front. What calls leave in the free words stays there
/// for the next ones, until a case begins.
pub struct Work {
    cells: Vec<u32>,
    before: Vec<u32>,
}

/// No call is lent more.
pub const MOST_LENT_WORDS: usize = 16_400;

/// "The first 16,000 working words are free"
const FREE: usize = 16_000;

impl Work {
    pub fn new() -> Work {
        let cells = vec![0; GUARD + MOST_LENT_WORDS + GUARD];
        Work { before: cells.clone(), cells }
    }

    /// A case begins with words that depend on its seed alone.
    pub fn begin(&mut self, random: &mut Random) {
        let (some, other) = (random.word(), random.word());
        let first = random.pick(&[0, u32::MAX, 1, some]);
        let step = random.pick(&[0, 1, other]);
        let mut word = first;
        for cell in &mut self.cells {
            *cell = word;
            word = word.wrapping_add(step);
        }
        for place in (0..GUARD).chain(GUARD + FREE..GUARD + MOST_LENT_WORDS + GUARD) {
            self.cells[place] = random.word();
        }
        self.before.copy_from_slice(&self.cells);
    }

    pub fn pointer(&mut self) -> *mut u32 {
        self.cells.as_mut_ptr().wrapping_add(GUARD)
    }

    /// After a call that was lent `length` words: all are as before, but for the first 16,000 where they are free.
    pub fn settle(&mut self, length: usize, free: bool) -> Result<(), Breach> {
        let freed = if free { length.min(FREE) } else { 0 };
        let end = GUARD + freed;
        if self.cells[..GUARD] != self.before[..GUARD] {
            return Err("working words: changed in front of what was lent".to_string());
        }
        if self.cells[end..] != self.before[end..] {
            let place = (end..self.cells.len()).find(|&place| self.cells[place] != self.before[place]).unwrap_or(end);
            return Err(format!("working words: word {} of {length} changed, the first {freed} are free", place - GUARD));
        }
        self.before[GUARD..end].copy_from_slice(&self.cells[GUARD..end]);
        Ok(())
    }
}
