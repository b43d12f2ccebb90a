//! The bytes of an entry tree and of a walk, by docs/STATES.md: laid out, and read back.

use crate::rng::Rng;
use emcyphal::registry::probe::Listed;

pub const MOST_ENTRY: u32 = 127;
pub const ENTRIES: usize = 128;
pub const LENGTH: usize = 1 + 3 * ENTRIES;

/// What an opening writes where nothing is said, a removal into a place that is left, and a walk that
/// ends.
pub const UNUSED: u8 = 0;
const LEFT: u8 = 255;
const NO_WALK: u8 = 255;

/// The tree over the bytes before the call.
pub fn lay(listed: &[Listed], over: &mut [u8]) {
    let before = usize::from(over[0]);
    over[0] = listed.len() as u8;
    for (i, place) in over[1..].chunks_exact_mut(3).enumerate() {
        if let Some(&(entry, number)) = listed.get(i) {
            let [low, high] = number.to_le_bytes();
            place.copy_from_slice(&[entry, low, high]);
        } else if i < before {
            place.fill(LEFT);
        }
    }
}

/// The tree that the bytes mean, and what is wrong with them.
pub fn read(bytes: &[u8]) -> (Vec<Listed>, &'static str) {
    let pair = |place: &[u8]| (place[0], u16::from_le_bytes([place[1], place[2]]));
    let places = bytes[1..].chunks_exact(3).take(bytes[0].into());
    let is_too_long = usize::from(bytes[0]) > ENTRIES;
    let fault = if is_too_long {
        " FAULT a tree's size"
    } else {
        ""
    };
    (places.map(pair).collect(), fault)
}

/// By docs/STATES.md, the size excepted.
pub fn is_whole(listed: &[Listed], most: u32, may_follow: fn(u16, u16) -> bool) -> bool {
    let is_in_range =
        |&(entry, number): &Listed| u32::from(entry) <= MOST_ENTRY && u32::from(number) <= most;
    let stands = |entry| listed.iter().filter(|pair| pair.0 == entry).count();
    listed.iter().all(is_in_range)
        && listed.iter().all(|pair| stands(pair.0) == 1)
        && listed.is_sorted_by(|a, b| may_follow(a.1, b.1))
}

/// The walk over its byte before the call.
pub fn lay_walk(walk: Option<u8>, over: &mut u8) {
    *over = match (walk, read_walk(*over)) {
        (Some(entry), _) => entry,
        (None, None) => *over,
        (None, Some(_)) => NO_WALK,
    };
}

pub fn read_walk(byte: u8) -> Option<u8> {
    Some(byte).filter(|&entry| u32::from(entry) <= MOST_ENTRY)
}

/// Other bytes of the same tree.
pub fn disguise(bytes: &mut [u8], rng: &mut Rng) {
    let used = 1 + 3 * usize::from(bytes[0]);
    bytes[used..].fill_with(|| rng.next() as u8);
}

/// Another byte of the same walk.
pub fn disguise_walk(byte: &mut u8, rng: &mut Rng) {
    if read_walk(*byte).is_none() {
        *byte = 128 + rng.below(128) as u8;
    }
}

/// The meaning in few bytes.
pub fn told_by(listed: &[Listed], walk: Option<u8>) -> Vec<u8> {
    let mut told = vec![walk.unwrap_or(NO_WALK), listed.len() as u8];
    for &(entry, number) in listed {
        let [low, high] = number.to_le_bytes();
        told.extend([entry, low, high]);
    }
    told
}
