//! What the registries' calls have in common: the entries, subjects and services that a size uses,
//! arguments at random, all calls on few numbers, and refusals. A call's role tells what its numbers
//! are: registering grows, removing shrinks; the others name a subject or service and, where
//! there is a second number, whether the frame is looped back.

use crate::pair::{Call, Op, Role};
use crate::rng::Rng;
use crate::tree::MOST_ENTRY;
use emcyphal::registry::probe::Listed;

/// Subjects or services that sizes use; none named: all.
pub type Pools = [&'static [u16]; 6];
pub const THREE: usize = 0;
pub const ENDS: usize = 1;
pub const ONE: usize = 2;
pub const NEAR: usize = 3;
pub const SOME: usize = 4;
pub const ALL: usize = 5;

/// The entries and the subjects or services that a size uses.
#[derive(Clone, Copy)]
pub struct Range {
    pub entries: u32,
    pub pool: &'static [u16],
    /// The last subject or service that there is.
    pub most: u32,
}

impl Range {
    pub fn numbers(&self) -> Vec<u32> {
        match self.pool {
            [] => (0..=self.most).collect(),
            named => named.iter().map(|&number| number.into()).collect(),
        }
    }

    /// Every call but opening, with one number past each limit.
    pub fn every_call(&self, ops: &'static [Op]) -> Vec<Call> {
        let entries: Vec<_> = (0..self.entries).chain([MOST_ENTRY + 1]).collect();
        let mut numbers = self.numbers();
        numbers.push(self.most + 1);
        let mut calls = Vec::new();
        for op in ops {
            let (firsts, seconds): (&[u32], &[u32]) = match (op.role, op.args) {
                (Role::Open, _) => continue,
                (_, 0) => (&[0], &[0]),
                (Role::Grow, _) => (&entries, &numbers),
                (Role::Shrink, _) => (&entries, &[0]),
                (_, 1) => (&numbers, &[0]),
                _ => (&numbers, &[0, 1, 255]),
            };
            calls.extend(every_pair(firsts, seconds).map(|args| Call::new(op, &args[..op.args])));
        }
        calls
    }
}

fn every_pair(firsts: &[u32], seconds: &[u32]) -> impl Iterator<Item = [u32; 2]> {
    let with = move |&first| seconds.iter().map(move |&second| [first, second]);
    firsts.iter().flat_map(with)
}

/// What document 01 refuses before the Rust is asked, opening and 9 excepted.
pub fn refused(call: Call, most: u32, is_registered: impl Fn(u8) -> bool) -> Option<u8> {
    let [a, b, ..] = call.args;
    match call.op.role {
        Role::Grow | Role::Shrink if a > MOST_ENTRY => Some(2),
        Role::Grow if b > most => Some(3),
        Role::Walk | Role::Read if a > most => Some(3),
        Role::Grow if is_registered(a as u8) => Some(5),
        Role::Shrink if !is_registered(a as u8) => Some(8),
        _ => None,
    }
}

/// Arguments at random for the calls on a state.
pub struct Draw {
    pub range: Range,
    /// Which frames reach.
    pub active: Vec<Listed>,
    pub inactive: Vec<Listed>,
    pub walk: Option<u8>,
}

impl Draw {
    pub fn call(&self, op: &'static Op, rng: &mut Rng) -> Call {
        let args = match op.role {
            Role::Grow => [self.free_entry(rng), self.number(rng)],
            Role::Shrink => [self.registered_entry(rng), 0],
            _ if op.args < 2 => [self.number(rng), 0],
            _ => [self.number(rng), rng.pick(&[0, 0, 0, 0, 1, 1, 2, 128, 255])],
        };
        Call::new(op, &args[..op.args])
    }

    fn registered(&self) -> impl Iterator<Item = &Listed> {
        self.active.iter().chain(&self.inactive)
    }

    fn is_registered(&self, entry: u32) -> bool {
        self.registered().any(|listed| u32::from(listed.0) == entry)
    }

    /// One of the entries, which are spread from 0 to 127, now and then one past these.
    fn entry(&self, rng: &mut Rng) -> u32 {
        if rng.one_in(24) {
            return rng.pick(&[128, 129, 255, 256, 257, 65_535, 65_536, u32::MAX]);
        }
        let entries = self.range.entries;
        rng.below(entries.into()) as u32 * MOST_ENTRY / (entries - 1)
    }

    /// One that is registered or not, as wanted, if a few draws find it; now and then another.
    fn entry_that(&self, wanted: bool, rng: &mut Rng) -> u32 {
        let mut entry = self.entry(rng);
        for _ in 0..8 {
            let is = entry > MOST_ENTRY || self.is_registered(entry) == wanted;
            if is || rng.one_in(20) {
                break;
            }
            entry = self.entry(rng);
        }
        entry
    }

    pub fn free_entry(&self, rng: &mut Rng) -> u32 {
        self.entry_that(false, rng)
    }

    /// Often the one that the walk points at, or an active one.
    pub fn registered_entry(&self, rng: &mut Rng) -> u32 {
        match self.walk {
            Some(entry) if rng.one_in(4) => entry.into(),
            _ if !self.active.is_empty() && rng.one_in(2) => rng.pick(&self.active).0.into(),
            _ => self.entry_that(true, rng),
        }
    }

    /// A subject or service, now and then one past the end.
    pub fn number(&self, rng: &mut Rng) -> u32 {
        let Range { pool, most, .. } = self.range;
        if rng.one_in(40) {
            let past = [most + 1, most + 2, 2 * most + 1];
            return rng.pick(&[past[0], past[1], past[2], 65_535, 65_536, 65_537, u32::MAX]);
        }
        if !pool.is_empty() {
            return rng.pick(pool).into();
        }
        let known: Vec<_> = self.registered().map(|listed| listed.1).collect();
        if known.is_empty() || rng.one_in(2) {
            return rng.below(u64::from(most) + 1) as u32;
        }
        let near = u32::from(rng.pick(&known));
        let beside = [near, near, near.saturating_sub(1), near + 1];
        rng.pick(&beside).min(most)
    }
}
