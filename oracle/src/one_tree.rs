//! Registries whose state is one entry tree, with a walk or without: loop-back reception, requests.

use crate::exports::Answer;
use crate::pair::{Call, Lent, Op, Pair, Role, Size};
use crate::registry::{self, ALL, Draw, Pools, Range};
use crate::rng::Rng;
use crate::tree;
use emcyphal::registry::probe::{Listed, Tree};

/// A kind of such registries: the Rust's side of one, and its exports.
pub trait OneTree: Sized + 'static {
    const OPS: &'static [Op];
    const LENGTH: usize;
    /// What entries have, subjects or services; the last that there is; those that sizes use.
    const NUMBERS: &'static str;
    const MOST: u32;
    const POOLS: Pools;

    /// The Rust's registry in the given state.
    fn of(state: &Tree) -> Self;

    fn state(&self) -> Tree;

    /// Puts a call to the Rust, opening excepted.
    fn put(&mut self, call: Call) -> Answer;

    fn make(call: Call, lent: &mut [u8]) -> Answer;

    /// Calls with frames that show where these go in this state.
    fn frames(state: &Tree) -> Vec<Call>;

    /// Whether a pair with the second number may follow one with the first.
    fn may_follow(first: u16, second: u16) -> bool;
}

pub fn size<K: OneTree, const ENTRIES: u32, const POOL: usize>(share: u64) -> Size {
    let numbers = Both::<K, ENTRIES, POOL>::RANGE.numbers().len();
    Size {
        name: format!(
            "{}, entries {ENTRIES}, {} {numbers}",
            K::OPS[0].kind,
            K::NUMBERS
        ),
        share,
        open: Box::new(|soil| {
            let lent = Lent::new(K::LENGTH, soil);
            Box::new(Both::<K, ENTRIES, POOL>::of(&Tree::default(), lent))
        }),
    }
}

/// Bytes of the kind's length on both sides, where they are whole.
pub fn pair_of<K: OneTree>(lent: Lent) -> Option<Box<dyn Pair>> {
    let (state, faults) = read(&lent);
    if !faults.is_empty() || !is_whole::<K>(&state) {
        return None;
    }
    Some(Box::new(Both::<K, 128, ALL>::of(&state, lent)))
}

/// By docs/STATES.md, a tree's size excepted.
fn is_whole<K: OneTree>(state: &Tree) -> bool {
    let Tree { listed, walk } = state;
    tree::is_whole(listed, K::MOST, K::may_follow)
        && walk.is_none_or(|walk| listed.iter().any(|pair| pair.0 == walk))
}

/// The state over the bytes before the call.
pub fn lay(state: &Tree, over: &mut [u8]) {
    let (places, rest) = over.split_at_mut(tree::LENGTH);
    tree::lay(&state.listed, places);
    if let Some(walk) = rest.first_mut() {
        tree::lay_walk(state.walk, walk);
    }
}

/// What the bytes mean, and what is wrong with them.
fn read(bytes: &[u8]) -> (Tree, &'static str) {
    let (places, rest) = bytes.split_at(tree::LENGTH);
    let (listed, faults) = tree::read(places);
    let walk = rest.first().and_then(|&byte| tree::read_walk(byte));
    (Tree { listed, walk }, faults)
}

/// Other bytes of the same meaning: past the walk nothing is said.
fn disguise(bytes: &mut [u8], rng: &mut Rng) {
    let (places, rest) = bytes.split_at_mut(tree::LENGTH);
    tree::disguise(places, rng);
    if let Some((walk, silent)) = rest.split_first_mut() {
        tree::disguise_walk(walk, rng);
        silent.fill_with(|| rng.next() as u8);
    }
}

fn words(state: &Tree) -> String {
    let pair = |&(entry, number): &Listed| format!("{entry}:{number}");
    let listed: Vec<_> = state.listed.iter().map(pair).collect();
    format!("walk={:?} entries=[{}]", state.walk, listed.join(","))
}

struct Both<K, const ENTRIES: u32, const POOL: usize> {
    rust: K,
    /// Nothing was put to the Rust since its opening.
    is_fresh: bool,
    lent: Lent,
}

impl<K: OneTree, const ENTRIES: u32, const POOL: usize> Both<K, ENTRIES, POOL> {
    const RANGE: Range = Range {
        entries: ENTRIES,
        pool: K::POOLS[POOL],
        most: K::MOST,
    };

    fn of(state: &Tree, lent: Lent) -> Self {
        Self {
            rust: K::of(state),
            is_fresh: false,
            lent,
        }
    }

    fn call(role: Role, args: &[u32]) -> Call {
        let op = K::OPS.iter().find(|op| op.role == role);
        Call::new(op.expect("a call of this role"), args)
    }
}

impl<K: OneTree, const ENTRIES: u32, const POOL: usize> Pair for Both<K, ENTRIES, POOL> {
    fn ops(&self) -> &'static [Op] {
        K::OPS
    }

    fn opening(&self) -> Call {
        Self::call(Role::Open, &[])
    }

    /// Seldom, so that sequences are long: no opening is refused.
    fn openings(&self) -> u64 {
        600
    }

    fn draw(&self, op: &'static Op, rng: &mut Rng) -> Call {
        let Tree { listed, walk } = self.rust.state();
        let draw = Draw {
            range: Self::RANGE,
            active: listed,
            inactive: Vec::new(),
            walk,
        };
        draw.call(op, rng)
    }

    fn every_call(&self) -> Vec<Call> {
        let mut calls = vec![self.opening()];
        calls.extend(Self::RANGE.every_call(K::OPS));
        calls
    }

    fn unasked(&self, call: Call) -> Option<Answer> {
        let listed = self.rust.state().listed;
        let is_registered = |entry| listed.iter().any(|pair| pair.0 == entry);
        registry::refused(call, K::MOST, is_registered).map(Answer::refused)
    }

    fn put(&mut self, call: Call) -> Answer {
        self.is_fresh = call.op.role == Role::Open;
        if self.is_fresh {
            self.rust = K::of(&Tree::default());
            return Answer::DONE;
        }
        self.rust.put(call)
    }

    fn make(&mut self, call: Call) -> Answer {
        K::make(call, &mut self.lent)
    }

    fn lent(&self) -> &Lent {
        &self.lent
    }

    fn lay(&self, over: &mut [u8]) {
        if self.is_fresh {
            over.fill(tree::UNUSED);
        }
        lay(&self.rust.state(), over);
    }

    fn rust_state(&self) -> String {
        words(&self.rust.state())
    }

    fn our_state(&self) -> String {
        let (state, faults) = read(&self.lent);
        words(&state) + faults
    }

    fn means_the_same(&self) -> bool {
        read(&self.lent) == (self.rust.state(), "")
    }

    fn beside(&mut self, _call: Call, _answer: Answer) -> Result<(), String> {
        self.read_back()
    }

    fn copied(&self, soil: u64) -> Option<Box<dyn Pair>> {
        let mut copy = Self::of(&self.rust.state(), self.lent.clone());
        disguise(&mut copy.lent, &mut Rng::new(soil));
        Some(Box::new(copy))
    }

    /// Frames, then the first, the middle and the last pair removed and registered anew.
    fn trial(&self) -> Vec<Call> {
        let state = self.rust.state();
        let mut calls = K::frames(&state);
        let count = state.listed.len();
        let mut places = vec![0, count / 2, count.saturating_sub(1)];
        places.dedup();
        let pairs = places.iter().filter_map(|&place| state.listed.get(place));
        let pairs: Vec<_> = pairs
            .map(|&(entry, number)| [entry.into(), number.into()])
            .collect();
        calls.extend(
            pairs
                .iter()
                .map(|pair| Self::call(Role::Shrink, &pair[..1])),
        );
        calls.extend(pairs.iter().map(|pair| Self::call(Role::Grow, pair)));
        calls
    }

    fn told_by(&self) -> Vec<u8> {
        let state = self.rust.state();
        tree::told_by(&state.listed, state.walk)
    }
}
