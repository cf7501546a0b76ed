//! Records of random cycles, and files that are damaged records.

use crate::model::*;
use crate::random::Random;
use crate::records::*;

/// Cycles whose records are special: the least and the most latencies, the largest sum, sums just below, at and above multiples of 8 and of
/// 256, and the paper's 3 4.
pub fn special_cycles() -> Vec<Vec<u8>> {
    let mut cycles = vec![
        vec![3, 4],
        vec![4, 3],
        vec![2, 2, 7],
        vec![1; 2],
        vec![1; 8],
        vec![1; 9],
        vec![1; 255],
        vec![1; 256],
        vec![32; 8],
        vec![32; 255],
        vec![32; 256],
        vec![31; 256],
        vec![2; 128],
        vec![1, 32],
        vec![32, 1],
    ];
    cycles.extend((1..=32).map(|latency| vec![latency]));
    // sums of 8,191, and of 255, 256 and 257
    cycles.push([&[32; 255][..], &[31]].concat());
    cycles.push([&[31][..], &[32; 255]].concat());
    cycles.extend((31..=33).map(|rest| [&[32; 7][..], &[rest - 1, 1]].concat()));
    cycles
}

pub fn random_cycle(random: &mut Random) -> Vec<u8> {
    let count = match random.below(16) {
        0 | 1 => 1,
        2 => 2,
        3..=8 => random.between(3, 12),
        9 | 10 => random.between(13, 100),
        11 | 12 => random.between(101, 255),
        13 => 255,
        _ => 256,
    };
    let (least, most) = match random.below(8) {
        0 => (1, 1),
        1 => (1, 2),
        2 | 3 => (1, 9),
        4 => (8, 8),
        5 => (30, 32),
        _ => (1, 32),
    };
    (0..count).map(|_| random.between(least, most) as u8).collect()
}

fn put_field(bytes: &mut [u8], place: usize, value: usize) {
    bytes[2 * place] = (value % 256) as u8;
    bytes[2 * place + 1] = (value / 256 % 256) as u8;
}

/// The bytes with a field changed by so much.
fn with_field(bytes: &[u8], place: usize, more: isize) -> Vec<u8> {
    let mut other = bytes.to_vec();
    put_field(&mut other, place, (field(bytes, place) as isize + more).rem_euclid(65_536) as usize);
    other
}

/// A record's bytes, from its four fields, its list and its ring.
fn joined(fields: [usize; 4], list: &[u8], ring: &[u8]) -> Vec<u8> {
    let mut bytes = vec![0; LIST];
    for (place, value) in fields.into_iter().enumerate() {
        put_field(&mut bytes, place, value);
    }
    bytes.extend_from_slice(list);
    bytes.extend_from_slice(ring);
    bytes
}

/// Files made from the record of a cycle, each with one thing wrong. A few are records all the same, of other cycles.
pub fn damaged(latencies: &[u8], random: &mut Random) -> Vec<Vec<u8>> {
    let record = laid_out(latencies);
    let (count, sum) = (latencies.len(), sum_of(latencies) as usize);
    let (list, ring) = (&record[LIST..LIST + count], &record[LIST + count..]);
    let mut files = Vec::new();
    // a field a little off, without its higher byte, or as if its first byte were the higher one
    for place in 0..4 {
        for more in [1, -1, 2, 8, -8, 255, 256, -256, 0x100 - field(&record, place) as isize] {
            files.push(with_field(&record, place, more));
        }
        let mut turned = record.clone();
        turned.swap(2 * place, 2 * place + 1);
        files.push(turned);
    }
    let mut turned = record.clone();
    turned[..LIST].chunks_mut(2).for_each(|pair| pair.swap(0, 1));
    files.push(turned);
    // a latency that is none, alone and with a sum and a ring that go with it
    let some = random.below(count as u64) as usize;
    for place in [0, some, count - 1] {
        for other in [0, 33, 34, 64, 128, 255, latencies[place] + 1, latencies[place] - 1] {
            let mut changed = latencies.to_vec();
            changed[place] = other;
            files.push([&record[..LIST], &changed, ring].concat());
            files.push(laid_out(&changed));
        }
    }
    // one more latency, or one less, with and without the rest
    let more = [latencies, &[1]].concat();
    files.push([&record[..LIST], &more, ring].concat());
    files.push(joined([count + 1, sum, LIST, LIST + count + 1], &more, ring));
    files.push(joined([count + 1, sum, LIST, LIST + count + 1], list, ring));
    files.push(joined([count - 1, sum, LIST, LIST + count - 1], list, ring));
    files.push(joined([count - 1, sum, LIST, LIST + count - 1], &list[1..], ring));
    // bits of the ring, and the spare ones
    for place in [0, latencies[0] as usize % sum, sum - 1, random.below(sum as u64) as usize, random.below(sum as u64) as usize] {
        let mut other = record.clone();
        other[LIST + count + place / 8] ^= 1 << (place % 8);
        files.push(other);
    }
    for place in sum..8 * ring.len() {
        let mut other = record.clone();
        other[LIST + count + place / 8] ^= 1 << (place % 8);
        files.push(other);
    }
    let with_ring = |change: fn(u8) -> u8| [&record[..LIST + count], &ring.iter().map(|byte| change(*byte)).collect::<Vec<u8>>()].concat();
    files.push(with_ring(|byte| !byte));
    files.push(with_ring(|byte| byte.reverse_bits()));
    files.push(with_ring(|_| 0));
    files.push(with_ring(|_| 255));
    if sum % 8 > 0 {
        let mut other = record.clone();
        *other.last_mut().expect("a ring") &= (1 << (sum % 8)) - 1;
        files.push(other);
    }
    // a sum and a ring that go together, but not with the list: they end later or earlier
    let ring_of = |latencies: &[u8]| laid_out(latencies)[LIST + latencies.len()..].to_vec();
    for later in [1, 2, 8, 32] {
        let ring = ring_of(&[latencies, &[later]].concat());
        files.push(joined([count, sum + later as usize, LIST, LIST + count], list, &ring));
    }
    let last = latencies[count - 1];
    for earlier in (1..last).filter(|earlier| *earlier < 3 || *earlier == last - 1) {
        let ring = ring_of(&[&latencies[..count - 1], &[last - earlier]].concat());
        files.push(joined([count, sum - earlier as usize, LIST, LIST + count], list, &ring));
    }
    files.push(joined([count, 8 * ring.len(), LIST, LIST + count], list, ring));
    files.push(joined([count, sum + 8, LIST, LIST + count], list, &[ring, &[255]].concat()));
    // the list of another rotation or in another order than the ring's
    let mut rotated = latencies.to_vec();
    rotated.rotate_left(1);
    files.push([&record[..LIST], &rotated, ring].concat());
    rotated.reverse();
    files.push([&record[..LIST], &rotated, ring].concat());
    // list and ring elsewhere
    files.push(joined([count, sum, LIST + ring.len(), LIST], ring, list));
    files.push(joined([count, sum, LIST, LIST + count + 1], list, &[&[255], ring].concat()));
    files.push(joined([count, sum, LIST + 1, LIST + count + 1], &[&[1], list].concat(), ring));
    files.push(joined([sum, count, LIST, LIST + count], list, ring));
    files.push(joined([count, sum, LIST + count, LIST], list, ring));
    files.push(joined([count, sum, 0, count], list, ring));
    // bytes after the end, and bytes cut off
    for end in [&[0][..], &[255], &[0; 256], &[255; 256], &[0; 65_536], b"\n", &ring[ring.len() - 1..], &record] {
        files.push([&record[..], end].concat());
    }
    files.push(record[..record.len() - 1].to_vec());
    files.push(record[1..].to_vec());
    files.push(record[..LIST].to_vec());
    files.push(record[..LIST + count].to_vec());
    files
}

/// Lists that no record can have, though all else goes with them: no latency, and more than 256.
pub fn wrong_lists(random: &mut Random) -> Vec<Vec<u8>> {
    let mut lists =
        vec![Vec::new(), vec![1; 257], vec![32; 257], vec![1; 258], vec![4; 512], vec![255; 256], vec![33; 256], vec![0], vec![0; 256]];
    lists.push((0..257).map(|_| random.between(1, 32) as u8).collect());
    // sums and counts beyond 16 bits
    lists.extend([vec![255; 258], vec![1; 65_536], vec![1; 65_537]]);
    lists
}

/// Every length up to the whole one.
pub fn cut_off(record: &[u8]) -> Vec<Vec<u8>> {
    (0..record.len()).map(|length| record[..length].to_vec()).collect()
}

/// Every bit the other way, one in each file.
pub fn flipped(record: &[u8]) -> Vec<Vec<u8>> {
    let flip = |place: usize| {
        let mut other = record.to_vec();
        other[place / 8] ^= 1 << (place % 8);
        other
    };
    (0..8 * record.len()).map(flip).collect()
}

/// Files of lengths that are special: records made longer, and other bytes.
pub fn of_lengths(random: &mut Random) -> Vec<Vec<u8>> {
    let (longest, short) = (laid_out(&[32; 256]), laid_out(&[3, 4]));
    let mut files = Vec::new();
    for length in [LONGEST_RECORD, LONGEST_RECORD + 1, 4_096, 66_824, 70_000] {
        for (record, byte) in [(&longest, 0), (&longest, 255), (&short, 0), (&short, 255)] {
            let mut file = record.clone();
            file.resize(length, byte);
            files.push(file);
        }
        files.push(random.bytes(length));
        files.push(vec![0; length]);
        files.push(vec![255; length]);
    }
    files
}

/// One or more damages, of which a few leave a record.
pub fn damage(file: &mut Vec<u8>, random: &mut Random) {
    loop {
        let length = file.len();
        match random.below(16) {
            _ if length < LIST => *file = laid_out(&random_cycle(random)),
            0..=3 => file[random.below(length as u64) as usize] ^= 1 << random.below(8),
            4 => file[random.below(length as u64) as usize] = random.byte(),
            5 => file.truncate(random.below(length as u64 + 1) as usize),
            6 => file.truncate(length - 1),
            7 => file.push(random.pick(&[0, 255, 254, 1])),
            8 | 9 => *file = with_field(file, random.below(4) as usize, random.pick(&[1, -1, 256, -256, 8])),
            10 => {
                let place = random.between(0, length as u32) as usize;
                file.insert(place, random.pick(&[1, 8, 32, 33, 255]));
            }
            11 => drop(file.remove(random.below(length as u64) as usize)),
            12 => file.swap(random.below(length as u64) as usize, random.below(length as u64) as usize),
            13 => {
                let bytes = random.bytes(length - LIST);
                file[LIST..].copy_from_slice(&bytes);
            }
            14 => *file = random.bytes(length),
            _ => {
                // a latency more and one less: the sum stays, the ring does not
                let count = field(file, 0);
                if count >= 2 && LIST + count <= length {
                    let place = LIST + random.below(count as u64 - 1) as usize;
                    file[place] = file[place].wrapping_add(1);
                    file[place + 1] = file[place + 1].wrapping_sub(1);
                }
            }
        }
        if random.chance(3, 4) {
            return;
        }
    }
}
