//! Plan records: the bytes that the record of a cycle has, whether bytes are a record, and what its two readers show. Sentences in quotation
//! marks are the request's.
//!
//! Whether bytes are a record is found by two ways: field by field (`wrongs`), and by writing the list that stands in them again
//! (`written_again`). `records_check.rs` compares them.

use crate::model::*;

/// "a record, or a plan to be written, its bytes past K included, that no cycle of 1 to 256 latencies, each 1 to 32, gives, or a plan of tag 0"
pub const NO_RECORD: u32 = 15;
pub const LONGEST_LATENCY: u8 = 32;
/// "The list follows from byte 8"
pub const LIST: usize = 8;
/// The longest record: four fields, 256 latencies and, for a sum of 8,192, so many bits.
pub const LONGEST_RECORD: usize = LIST + 256 + 8_192 / 8;

// ---------------------------------------------------------------------------------------------------------------------------------
// From a cycle to its record

/// The record's bytes as the rule gives them for any list, also for one that may have no record.
pub fn laid_out(latencies: &[u8]) -> Vec<u8> {
    let (count, sum) = (latencies.len(), sum_of(latencies) as usize);
    // "four little-endian 16-bit fields: K, S, offset of the list, offset of the ring"
    let fields = [count, sum, LIST, LIST + count];
    let mut record: Vec<u8> = fields.iter().flat_map(|field| [(field % 256) as u8, (field / 256 % 256) as u8]).collect();
    record.extend_from_slice(latencies);
    // "spare bits are 1"
    let mut ring = vec![true; sum.div_ceil(8) * 8];
    let mut start = 0;
    for latency in latencies {
        if start < sum {
            ring[start] = false;
        }
        start += *latency as usize;
    }
    // "it is bit i mod 8 of byte i / 8"
    record.extend(ring.chunks(8).map(|bits| word_of(bits) as u8));
    record
}

/// The bytes of a cycle's record.
pub fn record_of(latencies: &[u8]) -> Reply<Vec<u8>> {
    let is_cycle =
        (1..=MOST_LATENCIES).contains(&latencies.len()) && latencies.iter().all(|latency| (1..=LONGEST_LATENCY).contains(latency));
    if !is_cycle {
        return Err(NO_RECORD);
    }
    Ok(laid_out(latencies))
}

// ---------------------------------------------------------------------------------------------------------------------------------
// From bytes to what they say

/// What can be wrong with bytes that should be a record.
#[derive(Clone, Copy, PartialEq, Eq, PartialOrd, Ord, Hash, Debug)]
pub enum Wrong {
    /// No room for the four fields.
    Short,
    /// K is none of 1 to 256.
    Count,
    ListOffset,
    RingOffset,
    /// Fewer bytes than K and S ask for, or more.
    TooFew,
    TooMany,
    /// A latency is none of 1 to 32.
    Latency,
    /// S is not the sum of the list.
    Sum,
    /// A bit of the ring, below S.
    RingBit,
    SpareBit,
}

/// One of the four fields.
pub fn field(bytes: &[u8], place: usize) -> usize {
    bytes[2 * place] as usize + 256 * bytes[2 * place + 1] as usize
}

/// The bit of this place in the bytes, where there is one.
fn bit(bytes: &[u8], place: usize) -> Option<bool> {
    let byte = *bytes.get(place / 8)?;
    Some(byte / 2u8.pow(place as u32 % 8) % 2 == 1)
}

/// Everything that is wrong with the bytes, each thing by itself: the list is K bytes from byte 8 on and the ring comes after it, whatever
/// else is wrong, and what is not there is not looked at. Bytes are a record where nothing is.
pub fn wrongs(bytes: &[u8]) -> Vec<Wrong> {
    if bytes.len() < LIST {
        return vec![Wrong::Short];
    }
    let (count, sum) = (field(bytes, 0), field(bytes, 1));
    let after_list = bytes.len().min(LIST + count);
    let (list, ring) = (&bytes[LIST..after_list], &bytes[after_list..]);
    let ring_length = sum.div_ceil(8);
    // "Ring bit i is 0 exactly when i is 0 or a sum of the first several latencies below S"
    let mut zeros = vec![false; sum];
    let mut several = 0;
    for latency in std::iter::once(&0).chain(list) {
        several += *latency as usize;
        if several < sum {
            zeros[several] = true;
        }
    }
    let ring_bit_is_wrong = |place: usize| bit(ring, place).is_some_and(|one| one == zeros[place]);
    // "then the ring, nothing after"
    let need = LIST + count + ring_length;
    let cases = [
        (!(1..=MOST_LATENCIES).contains(&count), Wrong::Count),
        (field(bytes, 2) != LIST, Wrong::ListOffset),
        (field(bytes, 3) != LIST + count, Wrong::RingOffset),
        (bytes.len() < need, Wrong::TooFew),
        (bytes.len() > need, Wrong::TooMany),
        (list.iter().any(|latency| !(1..=LONGEST_LATENCY).contains(latency)), Wrong::Latency),
        (sum_of(list) as usize != sum, Wrong::Sum),
        ((0..sum).any(ring_bit_is_wrong), Wrong::RingBit),
        ((sum..8 * ring_length).any(|place| bit(ring, place) == Some(false)), Wrong::SpareBit),
    ];
    cases.into_iter().filter(|(holds, _)| *holds).map(|(_, wrong)| wrong).collect()
}

/// The list of a record, which is one where the list's own record has the same bytes.
pub fn written_again(bytes: &[u8]) -> Reply<Vec<u8>> {
    let &[low, high, ..] = bytes else { return Err(NO_RECORD) };
    let count = u16::from_le_bytes([low, high]) as usize;
    let list = bytes.get(8..8 + count).ok_or(NO_RECORD)?;
    if record_of(list)? != bytes {
        return Err(NO_RECORD);
    }
    Ok(list.to_vec())
}

fn check(bytes: &[u8]) -> Reply<()> {
    if wrongs(bytes).is_empty() {
        Ok(())
    } else {
        Err(NO_RECORD)
    }
}

/// "The report reader shows K and the list"
pub fn report(bytes: &[u8]) -> Reply<String> {
    check(bytes)?;
    let count = field(bytes, 0);
    Ok(format!("count {}", list_text(count, &bytes[LIST..LIST + count])))
}

/// "the loader S and the ring; both accept the same records"
pub fn ring(bytes: &[u8]) -> Reply<String> {
    check(bytes)?;
    let (count, sum) = (field(bytes, 0), field(bytes, 1));
    let bits: Vec<bool> = (0..sum).filter_map(|place| bit(&bytes[LIST + count..], place)).collect();
    Ok(format!("sum {}", ring_text(sum, &bits)))
}

// ---------------------------------------------------------------------------------------------------------------------------------
// The two views

/// What stands after `count`.
pub fn list_text(count: usize, latencies: &[u8]) -> String {
    let words: Vec<String> = latencies.iter().map(|latency| latency.to_string()).collect();
    format!("{count} list {}", words.join(" "))
}

/// What stands after `sum`: the bits of the ring, bit 0 first.
pub fn ring_text(sum: usize, bits: &[bool]) -> String {
    let digits: String = bits.iter().map(|one| if *one { '1' } else { '0' }).collect();
    format!("{sum} ring {digits}")
}

/// The ring of a cycle: as many bits as its sum says, a 0 where a task starts.
pub fn ring_of(latencies: &[u8]) -> Vec<bool> {
    latencies.iter().flat_map(|latency| (0..*latency).map(|place| place > 0)).collect()
}

/// The latencies of a ring: from each 0 to the next, and from the last one to the end. None where it does not begin with a 0, or where a
/// latency is above 255.
pub fn latencies_of(ring: &[bool]) -> Option<Vec<u8>> {
    let mut starts: Vec<usize> = (0..ring.len()).filter(|place| !ring[*place]).collect();
    if starts.first() != Some(&0) {
        return None;
    }
    starts.push(ring.len());
    starts.windows(2).map(|pair| u8::try_from(pair[1] - pair[0]).ok()).collect()
}
