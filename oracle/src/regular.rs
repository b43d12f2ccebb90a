//! `RegularInner` against the exports `gomxeli_reg_..`, and the filter image that its updates go into.

use crate::answer::{pushed, registered, update};
use crate::demand::Demand;
use crate::exports::{self, Answer};
use crate::image::{self, MOST_SUBJECT};
use crate::pair::{Call, Lent, Op, Pair, Size, ops};
use crate::registry::{self, ALL, Draw, ENDS, NEAR, ONE, Pools, Range, SOME, THREE};
use crate::regular_bytes::{self as bytes, LENGTH};
use crate::rng::Rng;
use crate::tree;
use emcyphal::registry::probe::Regular;

ops! { "reg":
    OPEN = 60 "open" 1 Open;
    REGISTER = 61 "register" 2 Grow;
    UNREGISTER = 62 "unregister" 1 Shrink;
    POLL_POP = 63 "poll_pop" 0 Poll;
    HUB_PUSH_START = 64 "hub_push_start" 1 Walk;
    HUB_PUSH_NEXT = 65 "hub_push_next" 0 Walk;
}

/// Those of loop-back reception too.
pub const POOLS: Pools = [
    &[0, 1, 8191],
    &[0, 1, 8190, 8191],
    &[100],
    &[0, 1, 2, 3, 4, 5, 6, 7],
    &[0, 1, 2, 100, 101, 300, 8188, 8190, 8191],
    &[],
];

pub fn sizes() -> Vec<Size> {
    vec![
        size::<0, 3, THREE>(1),
        size::<1, 3, ENDS>(2),
        size::<3, 3, THREE>(3),
        size::<2, 16, ONE>(2),
        size::<4, 8, ENDS>(4),
        size::<30, 8, ENDS>(5),
        size::<8, 16, NEAR>(4),
        size::<100, 16, NEAR>(6),
        size::<100, 32, SOME>(6),
        size::<40, 128, SOME>(5),
        size::<1000, 128, ALL>(6),
        size::<65_534, 16, NEAR>(4),
        size::<65_535, 3, THREE>(4),
        size::<65_535, 16, ENDS>(5),
        size::<65_535, 128, ALL>(3),
    ]
}

/// Those of which every state is reached whose slot counter is among `followed`.
pub fn small() -> Vec<Size> {
    vec![size::<3, 3, THREE>(0), size::<65_535, 3, THREE>(0)]
}

pub fn size<const SLOTS: u32, const ENTRIES: u32, const POOL: usize>(share: u64) -> Size {
    let subjects = range(ENTRIES, POOL).numbers().len();
    Size {
        name: format!("reg {SLOTS}, entries {ENTRIES}, subjects {subjects}"),
        share,
        open: Box::new(|soil| {
            Box::new(Registry::<SLOTS, ENTRIES, POOL> {
                rust: Regular::new(0),
                is_fresh: false,
                lent: Lent::new(LENGTH, soil),
                demand: Demand::new(),
                image: Lent::new(image::LENGTH, soil),
            })
        }),
    }
}

pub const MOST_SLOTS: u32 = 65_535;

fn range(entries: u32, pool: usize) -> Range {
    Range {
        entries,
        pool: POOLS[pool],
        most: MOST_SUBJECT,
    }
}

/// Every other time past the limit, so that sequences are long; else mostly the size's own.
fn draw_slots(own: u32, rng: &mut Rng) -> u32 {
    let past = [65_536, 65_537, u32::MAX];
    let within = [own, own, own, own, own, own, 0, 1, 65_535];
    if rng.one_in(2) {
        rng.pick(&past)
    } else {
        rng.pick(&within)
    }
}

/// The counter is not bounded by the slots: exploring follows it from 3 below to 1 above.
fn followed(slots: u32) -> std::ops::RangeInclusive<u32> {
    slots.saturating_sub(3)..=slots + 1
}

struct Registry<const SLOTS: u32, const ENTRIES: u32, const POOL: usize> {
    rust: Regular,
    /// Nothing was put to the Rust since its opening.
    is_fresh: bool,
    lent: Lent,
    demand: Demand,
    image: Lent,
}

impl<const SLOTS: u32, const ENTRIES: u32, const POOL: usize> Registry<SLOTS, ENTRIES, POOL> {
    /// Whether the Rust's counter would pass 65,535: asked of a copy.
    fn passes_slots(&self, entry: u8) -> bool {
        let full = MOST_SLOTS as usize;
        self.rust.slots() == full && {
            let mut copy = self.rust.copied();
            copy.unregister(entry);
            copy.slots() > full
        }
    }

    fn put_to_rust(&mut self, call: Call) -> Answer {
        let [a, b, ..] = call.args;
        match call.op.code {
            OPEN => self.rust = Regular::new(a as usize),
            REGISTER => return registered(self.rust.register(a as u8, b as u16)),
            UNREGISTER => self.rust.unregister(a as u8),
            POLL_POP => return update(self.rust.poll_pop()),
            HUB_PUSH_START => return Answer::flag(self.rust.hub_push_start(a as u16)),
            HUB_PUSH_NEXT => return pushed(self.rust.hub_push_next()),
            code => unreachable!("call {code}"),
        }
        Answer::DONE
    }

    /// Makes a call on the image, and compares it with the plain set.
    fn pass_on(&mut self, call: Call) -> Result<(), String> {
        let answer = image::make(call, &mut self.image);
        let expected = self.demand.passing.bytes();
        if answer == Answer::DONE && self.image.margins_stand() && self.image[..] == expected {
            return Ok(());
        }
        Err(format!("{call}: the image is not the set; ours {answer}"))
    }
}

impl<const SLOTS: u32, const ENTRIES: u32, const POOL: usize> Pair
    for Registry<SLOTS, ENTRIES, POOL>
{
    fn ops(&self) -> &'static [Op] {
        OPS
    }

    fn opening(&self) -> Call {
        call(OPEN, &[SLOTS])
    }

    fn draw(&self, op: &'static Op, rng: &mut Rng) -> Call {
        if op.code == OPEN {
            return call(OPEN, &[draw_slots(SLOTS, rng)]);
        }
        let state = self.rust.state();
        let draw = Draw {
            range: range(ENTRIES, POOL),
            active: bytes::listed(&state.active),
            inactive: bytes::listed(&state.inactive),
            walk: state.walk,
        };
        draw.call(op, rng)
    }

    fn every_call(&self) -> Vec<Call> {
        let slots = followed(SLOTS).filter(|&slots| slots <= SLOTS);
        let opening = |slots| call(OPEN, &[slots]);
        let mut calls: Vec<_> = slots.chain([MOST_SLOTS + 1]).map(opening).collect();
        calls.extend(range(ENTRIES, POOL).every_call(OPS));
        calls
    }

    fn unasked(&self, call: Call) -> Option<Answer> {
        let a = call.args[0];
        let is_registered = |entry| self.rust.is_registered(entry);
        let number = registry::refused(call, MOST_SUBJECT, is_registered);
        let number = number.or_else(|| match call.op.code {
            OPEN if a > MOST_SLOTS => Some(3),
            UNREGISTER if self.passes_slots(a as u8) => Some(9),
            _ => None,
        });
        number.map(Answer::refused)
    }

    /// The wake flag is how often the Rust woke; only accepted registering and removing may.
    fn put(&mut self, call: Call) -> Answer {
        let before = self.rust.wakes();
        let answer = self.put_to_rust(call);
        self.is_fresh = call.op.code == OPEN;
        let woken = self.rust.wakes() - if self.is_fresh { 0 } else { before };
        if matches!(call.op.code, REGISTER | UNREGISTER) && answer == Answer::DONE {
            return Answer::new(0, woken as u8, 0, 0);
        }
        assert_eq!(woken, 0);
        answer
    }

    fn make(&mut self, call: Call) -> Answer {
        let [a, b, ..] = call.args;
        match call.op.code {
            OPEN => exports::reg_open(&mut self.lent, a),
            REGISTER => exports::reg_register(&mut self.lent, a, b),
            UNREGISTER => exports::reg_unregister(&mut self.lent, a),
            POLL_POP => exports::reg_poll_pop(&mut self.lent),
            HUB_PUSH_START => exports::reg_hub_push_start(&mut self.lent, a),
            HUB_PUSH_NEXT => exports::reg_hub_push_next(&mut self.lent),
            code => unreachable!("call {code}"),
        }
    }

    fn lent(&self) -> &Lent {
        &self.lent
    }

    fn lay(&self, over: &mut [u8]) {
        if self.is_fresh {
            over.fill(tree::UNUSED);
        }
        bytes::lay(&self.rust.state(), over);
    }

    fn rust_state(&self) -> String {
        bytes::words(&self.rust.state())
    }

    fn our_state(&self) -> String {
        let (state, faults) = bytes::read(&self.lent);
        bytes::words(&state) + &faults
    }

    fn means_the_same(&self) -> bool {
        bytes::read(&self.lent) == (self.rust.state(), String::new())
    }

    fn beside(&mut self, call: Call, answer: Answer) -> Result<(), String> {
        self.read_back()?;
        if let Some(change) = self.demand.told(call, answer)? {
            self.pass_on(change)?;
        }
        self.demand.compare(&self.rust.state())
    }

    fn copied(&self, soil: u64) -> Option<Box<dyn Pair>> {
        let mut copy = Self {
            rust: self.rust.copied(),
            is_fresh: false,
            lent: self.lent.clone(),
            demand: self.demand.clone(),
            image: self.image.clone(),
        };
        bytes::disguise(&mut copy.lent, &mut Rng::new(soil));
        Some(Box::new(copy))
    }

    /// A walk over each active subject, which shows its head, and polls until nothing is left, which show the marks.
    fn trial(&self) -> Vec<Call> {
        let state = self.rust.state();
        let mut calls = Vec::new();
        for on in state.active.chunk_by(|a, b| a.subject == b.subject) {
            calls.push(call(HUB_PUSH_START, &[on[0].subject.into()]));
            calls.extend(vec![call(HUB_PUSH_NEXT, &[]); on.len() + 1]);
        }
        let entries = state.active.len() + state.inactive.len();
        calls.extend(vec![call(POLL_POP, &[]); entries + 2]);
        calls
    }

    fn told_by(&self) -> Vec<u8> {
        bytes::told_by(&self.rust.state())
    }

    fn is_followed(&self) -> bool {
        followed(SLOTS).contains(&(self.rust.slots() as u32))
    }

    fn follow_ups(&mut self, call: Call, answer: Answer) -> Vec<(Call, Answer)> {
        match self.demand.told(call, answer) {
            Ok(Some(change)) => image::recorded(change, &self.demand.passing),
            _ => Vec::new(),
        }
    }
}
