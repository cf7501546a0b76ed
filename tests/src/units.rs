//! Random units, damaged unit files and cycles to judge.

use crate::model::*;
use crate::random::Random;

/// Forbidden latencies whose diagrams are hard: found by trying many, for what each row says.
pub const HARD: [(&str, &[u32]); 27] = [
    ("greedy cycle with sum 520", &[3, 6, 7, 8, 13, 17, 20, 22, 23, 24, 27]),
    ("greedy cycle with sum 480, n = 31", &[1, 4, 5, 6, 9, 11, 12, 22, 25, 26, 27, 30, 31]),
    ("greedy cycle with sum 406", &[1, 3, 4, 5, 7, 15, 16, 21, 22, 23, 25, 26, 28]),
    ("greedy cycle of 72 latencies", &[4, 11, 12, 13, 14, 17, 18, 19, 24, 25, 26, 27]),
    ("greedy cycle of 70 latencies", &[3, 7, 8, 14, 18, 19, 20, 21, 24, 25]),
    ("only best cycle with sum 413", &[2, 8, 9, 13, 14, 17, 19, 20, 21, 24, 25, 26, 29]),
    ("only best cycle with sum 357", &[1, 10, 13, 14, 16, 18, 19, 21, 22, 25]),
    ("only best cycle with sum 349, n = 31", &[1, 3, 9, 10, 11, 15, 18, 20, 22, 25, 26, 28, 29, 30, 31]),
    ("only best cycle with sum 323", &[1, 2, 9, 11, 16, 17, 20, 21, 23, 24, 25, 26]),
    ("only best cycle of 56 latencies", &[1, 2, 6, 8, 13, 15, 18, 21, 24, 25, 26, 27]),
    ("only best cycle of 48 latencies, n = 31", &[6, 8, 15, 16, 17, 18, 19, 20, 21, 22, 23, 24, 31]),
    ("only best cycle of 48 latencies", &[5, 7, 10, 14, 17, 18, 20, 23, 25, 26]),
    ("a best cycle of 66 latencies", &[3, 12, 13, 14, 16, 18, 20, 22, 23]),
    ("a best cycle with sum 338", &[2, 3, 7, 8, 9, 10, 14, 21, 23, 27, 28, 29, 30]),
    ("250 states", &[1, 2, 16, 17, 21]),
    ("251 states", &[5, 9, 15, 16, 17, 20, 21]),
    ("252 states", &[2, 6, 11, 17, 20, 21]),
    ("253 states", &[5, 11, 15, 16, 19, 20]),
    ("254 states", &[5, 9, 15, 16, 18, 19, 20]),
    ("255 states", &[5, 7, 14, 15, 19, 20]),
    ("256 states", &[5, 7, 14, 18, 20]),
    ("257 states", &[7, 9, 12, 16, 19, 20]),
    ("258 states", &[3, 7, 9, 16, 19, 20]),
    ("259 states", &[8, 9, 15, 16, 19, 20]),
    ("260 states", &[5, 7, 14, 15, 19]),
    ("261 states", &[3, 5, 7, 16, 19, 20]),
    ("262 states", &[5, 7, 15, 16, 19, 20]),
];

/// Two marks in each of as many segments as there are forbidden latencies, so that exactly these are forbidden.
pub fn forbid(unit: &mut Unit, tag: u32, forbidden: &[u32], random: &mut Random) {
    for (segment, &apart) in (1..).zip(forbidden) {
        let first = random.between(1, unit.columns - apart);
        unit.marks.insert(Mark { tag, segment, column: first });
        unit.marks.insert(Mark { tag, segment, column: first + apart });
    }
}

/// A unit of one or two functions with a hard diagram each, or one that differs from it in a latency.
fn hard_unit(random: &mut Random) -> Unit {
    let mut unit = Unit::fresh(random.between(1, 2), 16, 32).expect("counts in their ranges");
    for tag in 1..=unit.functions {
        let mut forbidden = random.pick(&HARD).1.to_vec();
        if random.chance(3, 4) {
            let latency = random.between(1, 31);
            match forbidden.iter().position(|other| *other == latency) {
                Some(place) => drop(forbidden.remove(place)),
                None => forbidden.push(latency),
            }
        }
        forbidden.truncate(16);
        forbid(&mut unit, tag, &forbidden, random);
    }
    unit
}

/// Counts of all sizes: small ones, whose diagrams are small, medium ones, any, and the outermost.
fn counts(random: &mut Random) -> (u32, u32, u32) {
    match random.below(16) {
        0 => (random.between(1, 2), random.between(1, 3), random.between(1, 4)),
        1 | 2 => (random.between(1, 2), random.between(1, 4), random.between(3, 8)),
        3..=10 => (random.between(1, 3), random.between(1, 5), random.between(7, 13)),
        11 | 12 => (random.between(1, 2), random.between(1, 6), random.between(14, 32)),
        13 | 14 => (random.between(1, 4), random.between(1, 16), random.between(1, 32)),
        _ => (random.pick(&[1, 4]), random.pick(&[1, 16]), random.pick(&[1, 31, 32])),
    }
}

/// Marks every place of a function with a chance of `part` in `whole`.
fn scatter(unit: &mut Unit, tag: u32, part: u64, whole: u64, random: &mut Random) {
    for segment in 1..=unit.segments {
        for column in 1..=unit.columns {
            if random.chance(part, whole) {
                unit.marks.insert(Mark { tag, segment, column });
            }
        }
    }
}

fn marks_of_function(unit: &mut Unit, tag: u32, random: &mut Random) {
    let (segments, columns) = (unit.segments, unit.columns);
    let mut put = |segment: u32, column: u32| {
        unit.marks.insert(Mark { tag, segment, column });
    };
    match random.below(32) {
        // nothing, or one mark
        0 => {}
        1 => put(random.between(1, segments), random.between(1, columns)),
        // two marks in a segment, as in the paper's 1 2, 1 10 and 1 11
        2 | 3 => {
            let apart = if random.chance(2, 3) { random.between(1, columns).min(11) - 1 } else { random.between(1, columns) - 1 };
            let segment = random.between(1, segments);
            let first = random.between(1, columns - apart);
            put(segment, first);
            put(segment, first + apart);
        }
        // two marks in each segment, as in the paper's 1 3; 1 4; 1 7: each segment forbids one latency
        4..=11 => {
            for segment in 1..=segments {
                let apart = random.between(1, columns.max(2) - 1).min(columns - 1);
                let first = random.between(1, columns - apart);
                put(segment, first);
                put(segment, first + apart);
            }
        }
        // a few marks anywhere
        12..=16 => {
            for _ in 0..random.between(2, 7) {
                put(random.between(1, segments), random.between(1, columns));
            }
        }
        // a task that goes from segment to segment and comes back now and then, as Fig. 1's does
        17..=20 => {
            let mut segment = 1;
            for column in 1..=columns {
                put(segment, column);
                segment = if random.chance(1, 4) { random.between(1, segments) } else { segment % segments + 1 };
            }
        }
        // one busy segment with marks at both ends: n is as large as the columns allow, and few latencies are permitted
        21..=25 => {
            let segment = random.between(1, segments);
            put(segment, 1);
            put(segment, columns);
            for _ in 0..columns / 5 + random.between(0, 3) {
                put(segment, random.between(1, columns));
            }
        }
        26 | 27 => scatter(unit, tag, 1, 10, random),
        28 => scatter(unit, tag, 1, 4, random),
        29 => scatter(unit, tag, 1, 2, random),
        30 => scatter(unit, tag, 9, 10, random),
        _ => scatter(unit, tag, 1, 1, random),
    }
}

pub fn unit(random: &mut Random) -> Unit {
    if random.chance(1, 50) {
        return hard_unit(random);
    }
    let (functions, segments, columns) = counts(random);
    let mut unit = Unit::fresh(functions, segments, columns).expect("counts in their ranges");
    for tag in 1..=functions {
        marks_of_function(&mut unit, tag, random);
    }
    unit
}

/// A byte of the file, changed to another value.
fn change_byte(file: &mut [u8], place: usize, random: &mut Random) {
    if place < file.len() {
        let old = file[place];
        while file[place] == old {
            file[place] = if random.chance(1, 2) { random.byte() } else { random.byte() % 36 };
        }
    }
}

fn flip_bit(file: &mut [u8], bytes: usize, random: &mut Random) {
    if bytes > 0 && bytes <= file.len() {
        file[random.below(bytes as u64) as usize] ^= 1 << random.below(8);
    }
}

/// One damage to a file. A few leave a file that is in order, with other marks.
fn damage_once(file: &mut Vec<u8>, random: &mut Random) {
    let length = file.len();
    let functions = file.first().map_or(0, |count| *count as usize);
    let head = (4 + 2 * functions).min(length);
    match random.below(32) {
        0..=3 => flip_bit(file, length, random),
        4..=6 => flip_bit(file, head, random),
        7..=10 => change_byte(file, random.below(3) as usize, random),
        11 | 12 => file.truncate(random.below(length as u64 + 1) as usize),
        13 => file.truncate(random.below(5) as usize),
        14 | 15 => {
            let more = random.between(1, 40) as usize;
            let bytes = if random.chance(1, 2) { vec![0; more] } else { random.bytes(more) };
            file.extend(bytes);
        }
        16 => file.clear(),
        17 => {
            let length = random.below(300) as usize;
            *file = random.bytes(length);
        }
        18 | 19 => {
            // counts in range and the length that goes with them; the rest at random
            let (functions, segments, columns) = counts(random);
            *file = random.bytes(file_length(functions, segments));
            file[..3].copy_from_slice(&[functions as u8, segments as u8, columns as u8]);
        }
        20 | 21 => change_byte(file, 3, random),
        22..=24 => {
            // an offset off by a little, or two offsets exchanged
            if functions >= 2 && random.chance(1, 2) && head == 4 + 2 * functions {
                file.swap(4, 6);
                file.swap(5, 7);
            } else if head > 4 {
                let place = 4 + random.below(head as u64 - 4) as usize;
                file[place] = file[place].wrapping_add(random.pick(&[1, 2, 4, 255]));
            }
        }
        25..=29 => {
            // a mark just beyond the columns, or far beyond them
            let columns = file.get(2).map_or(32, |count| *count as u32);
            if columns < 32 && head < length {
                let column = if random.chance(1, 2) { columns + 1 } else { random.between(columns + 1, 32) };
                let word = random.below((length - head) as u64 / 4 + 1) as usize;
                let place = head + 4 * word + (column as usize - 1) / 8;
                if place < length {
                    file[place] |= 1 << ((column - 1) % 8);
                }
            }
        }
        30 => file.extend(vec![0; 256 * random.between(1, 3) as usize]),
        _ => {
            if random.chance(1, 16) {
                file.extend(vec![0; 65_536]);
            }
        }
    }
}

/// One or more damages, so that several numbers may apply.
pub fn damage(file: &mut Vec<u8>, random: &mut Random) {
    damage_once(file, random);
    while random.chance(1, 4) {
        damage_once(file, random);
    }
}

/// Latencies to judge: lists that are no cycles, lists of all sizes, and walks of the diagram, which never collide in one turn but often
/// do in the next.
pub fn cycle(diagram: Option<&Diagram>, random: &mut Random) -> Vec<u8> {
    match random.below(32) {
        0 => Vec::new(),
        1 => {
            let length = random.pick(&[257, 257, 258, 300, 512, 513]);
            vec![random.between(1, 40) as u8; length]
        }
        2 => {
            // a latency 0 somewhere
            let mut latencies = list(random.between(1, 12) as usize, 40, random);
            let place = random.below(latencies.len() as u64) as usize;
            latencies[place] = 0;
            latencies
        }
        3 => {
            let length = random.pick(&[255, 256, 256, 256]);
            let least = random.pick(&[1, 20, 30, 32]);
            list(length, 34, random).into_iter().map(|latency| latency.max(least)).collect()
        }
        4 => list(random.between(1, 6) as usize, 255, random),
        5 => vec![random.between(1, 34) as u8; random.between(1, 5) as usize],
        6..=13 => list(random.between(1, 7) as usize, 34, random),
        _ => match diagram {
            Some(diagram) => walk(diagram, random.between(1, 8) as usize, random),
            None => list(random.between(1, 3) as usize, 32, random),
        },
    }
}

fn list(length: usize, most: u32, random: &mut Random) -> Vec<u8> {
    (0..length).map(|_| random.between(1, most) as u8).collect()
}

fn walk(diagram: &Diagram, length: usize, random: &mut Random) -> Vec<u8> {
    let mut state = random.below(diagram.states.len() as u64) as usize;
    let mut latencies = Vec::new();
    for _ in 0..length {
        let arcs = &diagram.arcs[state];
        // the lower half of the arcs more often: long latencies rarely collide
        let end = if random.chance(2, 3) { arcs.len().div_ceil(2) } else { arcs.len() };
        let (latency, next) = arcs[random.below(end as u64) as usize];
        latencies.push(latency as u8);
        state = next;
    }
    latencies
}
