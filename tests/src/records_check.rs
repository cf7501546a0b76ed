//! The records' model by itself: against the paper's example and others worked out by hand, and its two ways against each other on random
//! and damaged bytes. It runs before the program is asked anything.

use crate::model::*;
use crate::random::{seed_of, Random};
use crate::record_files::*;
use crate::records::*;

type Checked = Result<(), String>;

/// A cycle, its record, and what the two readers show after `count` and after `sum`.
type Example = (&'static [u8], &'static [u8], &'static str, &'static str);

/// By hand. "For 3 4 the record is bytes 02 00 07 00 08 00 0A 00 03 04 F6."
const EXAMPLES: [Example; 7] = [
    (&[3, 4], &[0x02, 0x00, 0x07, 0x00, 0x08, 0x00, 0x0A, 0x00, 0x03, 0x04, 0xF6], "2 list 3 4", "7 ring 0110111"),
    // the ring of 4 3 has its second 0 one place later
    (&[4, 3], &[0x02, 0x00, 0x07, 0x00, 0x08, 0x00, 0x0A, 0x00, 0x04, 0x03, 0xEE], "2 list 4 3", "7 ring 0111011"),
    // seven spare bits, and none
    (&[1], &[0x01, 0x00, 0x01, 0x00, 0x08, 0x00, 0x09, 0x00, 0x01, 0xFE], "1 list 1", "1 ring 0"),
    (&[8], &[0x01, 0x00, 0x08, 0x00, 0x08, 0x00, 0x09, 0x00, 0x08, 0xFE], "1 list 8", "8 ring 01111111"),
    // a start in every time unit
    (
        &[1, 1, 1, 1, 1, 1, 1, 1],
        &[0x08, 0x00, 0x08, 0x00, 0x08, 0x00, 0x10, 0x00, 1, 1, 1, 1, 1, 1, 1, 1, 0x00],
        "8 list 1 1 1 1 1 1 1 1",
        "8 ring 00000000",
    ),
    // a ring of two bytes: starts at 0, 2 and 4, and five spare bits
    (&[2, 2, 7], &[0x03, 0x00, 0x0B, 0x00, 0x08, 0x00, 0x0B, 0x00, 0x02, 0x02, 0x07, 0xEA, 0xFF], "3 list 2 2 7", "11 ring 01010111111"),
    // the first byte of the ring is full, and a start is in the second
    (&[9, 1], &[0x02, 0x00, 0x0A, 0x00, 0x08, 0x00, 0x0A, 0x00, 0x09, 0x01, 0xFE, 0xFD], "2 list 9 1", "10 ring 0111111110"),
];

/// The bytes with what each alone is wrong with them, by hand; all of them from the record of 3 4.
const REFUSED: [(&[u8], &[Wrong]); 21] = [
    (&[], &[Wrong::Short]),
    (&[2, 0, 7, 0, 8, 0, 10], &[Wrong::Short]),
    // no latency, and nothing else wrong
    (&[0, 0, 0, 0, 8, 0, 8, 0], &[Wrong::Count]),
    (&[2, 0, 7, 0, 9, 0, 10, 0, 3, 4, 0xF6], &[Wrong::ListOffset]),
    (&[2, 0, 7, 0, 8, 1, 10, 0, 3, 4, 0xF6], &[Wrong::ListOffset]),
    (&[2, 0, 7, 0, 8, 0, 11, 0, 3, 4, 0xF6], &[Wrong::RingOffset]),
    (&[2, 0, 7, 0, 8, 0, 10, 1, 3, 4, 0xF6], &[Wrong::RingOffset]),
    (&[2, 0, 7, 0, 8, 0, 10, 0, 3, 4, 0xF6, 0], &[Wrong::TooMany]),
    (&[2, 0, 7, 0, 8, 0, 10, 0, 3, 4, 0xF6, 0xFF], &[Wrong::TooMany]),
    (&[2, 0, 7, 0, 8, 0, 10, 0, 3, 4], &[Wrong::TooFew]),
    // a ring of 8 bits would have a 0 at 7, which is the sum of the first two latencies
    (&[2, 0, 8, 0, 8, 0, 10, 0, 3, 4, 0xF6], &[Wrong::Sum, Wrong::RingBit]),
    (&[2, 0, 8, 0, 8, 0, 10, 0, 3, 4, 0x76], &[Wrong::Sum]),
    // one of 6 bits has another spare one
    (&[2, 0, 6, 0, 8, 0, 10, 0, 3, 4, 0xF6], &[Wrong::Sum]),
    // 3 0 4 has the starts of 3 4
    (&[3, 0, 7, 0, 8, 0, 11, 0, 3, 0, 4, 0xF6], &[Wrong::Latency]),
    (&[1, 0, 33, 0, 8, 0, 9, 0, 33, 0xFE, 0xFF, 0xFF, 0xFF, 0xFF], &[Wrong::Latency]),
    (&[2, 0, 7, 0, 8, 0, 10, 0, 3, 4, 0xF7], &[Wrong::RingBit]),
    (&[2, 0, 7, 0, 8, 0, 10, 0, 3, 4, 0xFE], &[Wrong::RingBit]),
    (&[2, 0, 7, 0, 8, 0, 10, 0, 3, 4, 0xB6], &[Wrong::RingBit]),
    (&[2, 0, 7, 0, 8, 0, 10, 0, 4, 3, 0xF6], &[Wrong::RingBit]),
    // the start of the next turn is no bit of the ring
    (&[2, 0, 7, 0, 8, 0, 10, 0, 3, 4, 0x76], &[Wrong::SpareBit]),
    (&[2, 0, 7, 0, 8, 0, 10, 0, 4, 3, 0x76], &[Wrong::RingBit, Wrong::SpareBit]),
];

fn by_hand() -> Checked {
    for (latencies, record, list, ring_shown) in EXAMPLES {
        let found = (record_of(latencies), written_again(record), report(record), ring(record));
        let wanted = (Ok(record.to_vec()), Ok(latencies.to_vec()), Ok(format!("count {list}")), Ok(format!("sum {ring_shown}")));
        if found != wanted {
            return Err(format!("record of {latencies:?}\nwanted: {wanted:?}\nfound:  {found:?}"));
        }
    }
    for (bytes, wanted) in REFUSED {
        let found = wrongs(bytes);
        if found != wanted || [report(bytes), ring(bytes)] != [Err(15), Err(15)] || written_again(bytes) != Err(15) {
            return Err(format!("{bytes:?} is no record: {found:?} in place of {wanted:?}"));
        }
    }
    // the longest one: 256 = 0x0100 latencies, a sum of 8,192 = 0x2000, the ring from 264 = 0x0108 on
    let longest = record_of(&[32; 256]);
    let wanted = [&[0x00, 0x01, 0x00, 0x20, 0x08, 0x00, 0x08, 0x01][..], &[32; 256], &[0xFE, 0xFF, 0xFF, 0xFF].repeat(256)].concat();
    if longest != Ok(wanted) || longest.is_ok_and(|record| record.len() != 1_288) {
        return Err("record of 32, 256 times".to_string());
    }
    for list in [&[][..], &[0], &[33], &[3, 0, 4], &[1; 257]] {
        if record_of(list) != Err(15) {
            return Err(format!("a record of {list:?}"));
        }
    }
    Ok(())
}

/// The two ways agree, and so do the readers. Answers whether the bytes are a record.
fn ways_agree(bytes: &[u8]) -> Result<bool, String> {
    let (by_fields, again) = (wrongs(bytes).is_empty(), written_again(bytes));
    let agree = match &again {
        Ok(list) => {
            let (sum, bits) = (sum_of(list) as usize, ring_of(list));
            report(bytes) == Ok(format!("count {}", list_text(list.len(), list)))
                && ring(bytes) == Ok(format!("sum {}", ring_text(sum, &bits)))
                && bits.len() == sum
                && latencies_of(&bits).as_ref() == Some(list)
        }
        Err(number) => *number == 15 && report(bytes) == Err(15) && ring(bytes) == Err(15),
    };
    if by_fields != again.is_ok() || !agree {
        return Err(format!("the ways disagree: {:?} and {again:?} for {bytes:?}", wrongs(bytes)));
    }
    Ok(again.is_ok())
}

/// Everything above.
pub fn run() -> Checked {
    by_hand()?;
    let random = &mut Random::new(seed_of(14, 0));
    for cycle in special_cycles() {
        let record = record_of(&cycle).map_err(|_| format!("no record of {cycle:?}"))?;
        if !ways_agree(&record)? {
            return Err(format!("the record of {cycle:?} is none"));
        }
        for file in damaged(&cycle, random) {
            ways_agree(&file)?;
        }
    }
    for list in wrong_lists(random) {
        if ways_agree(&laid_out(&list))? {
            return Err(format!("a record of {} latencies", list.len()));
        }
    }
    // every byte of some records changed to every other value
    for cycle in [&[3, 4][..], &[1], &[8], &[2, 2, 7], &[32]] {
        let record = laid_out(cycle);
        for place in 0..record.len() {
            for byte in (0..=255).filter(|byte| *byte != record[place]) {
                let mut other = record.clone();
                other[place] = byte;
                if ways_agree(&other)? {
                    return Err(format!("a record with byte {place} changed to {byte} is one of {cycle:?}"));
                }
            }
        }
        for file in cut_off(&record) {
            ways_agree(&file)?;
        }
    }
    // every list of up to four numbers of a few
    for count in 1..=4 {
        let numbers = [0, 1, 2, 7, 8, 9, 32, 33];
        for place in 0..numbers.len().pow(count) {
            let list: Vec<u8> = (0..count).map(|digit| numbers[place / numbers.len().pow(digit) % numbers.len()]).collect();
            let is_cycle = list.iter().all(|latency| (1..=32).contains(latency));
            if ways_agree(&laid_out(&list))? != is_cycle {
                return Err(format!("the list {list:?} is taken or refused"));
            }
        }
    }
    let mut taken = 0;
    for _ in 0..4_000 {
        let mut file = laid_out(&random_cycle(random));
        if !ways_agree(&file)? {
            return Err(format!("a record of a cycle is refused: {file:?}"));
        }
        damage(&mut file, random);
        taken += ways_agree(&file)? as usize;
        let length = random.below(40) as usize;
        ways_agree(&random.bytes(length))?;
    }
    for file in of_lengths(random) {
        ways_agree(&file)?;
    }
    // some damages leave a record, or make another one
    if taken == 0 || taken > 800 {
        return Err(format!("{taken} of the damaged records are records"));
    }
    Ok(())
}
