//! `LoopBackInner` against the exports `gomxeli_lb_..`.

use crate::answer::{pushed, registered};
use crate::exports::{self, Answer};
use crate::image::MOST_SUBJECT;
use crate::one_tree::{self, OneTree};
use crate::pair::{Call, Op, Size, ops};
use crate::registry::{ALL, ENDS, NEAR, ONE, Pools, SOME, THREE};
use crate::regular;
use emcyphal::registry::probe::{LoopBack, Tree};

ops! { "lb":
    OPEN = 80 "open" 0 Open;
    REGISTER = 81 "register" 2 Grow;
    UNREGISTER = 82 "unregister" 1 Shrink;
    HUB_PUSH_START = 83 "hub_push_start" 1 Walk;
    HUB_PUSH_NEXT = 84 "hub_push_next" 0 Walk;
}

pub fn sizes() -> Vec<Size> {
    vec![
        size::<3, THREE>(2),
        size::<8, ENDS>(3),
        size::<16, ONE>(2),
        size::<16, NEAR>(3),
        size::<32, SOME>(3),
        size::<128, SOME>(3),
        size::<128, ALL>(4),
    ]
}

/// Those of which every state is reached.
pub fn small() -> Vec<Size> {
    vec![size::<3, THREE>(0), size::<4, ENDS>(0)]
}

pub fn size<const ENTRIES: u32, const POOL: usize>(share: u64) -> Size {
    one_tree::size::<LoopBack, ENTRIES, POOL>(share)
}

impl OneTree for LoopBack {
    const OPS: &'static [Op] = OPS;
    const LENGTH: usize = 389;
    const NUMBERS: &'static str = "subjects";
    const MOST: u32 = MOST_SUBJECT;
    const POOLS: Pools = regular::POOLS;

    fn of(state: &Tree) -> Self {
        LoopBack::of(state)
    }

    fn state(&self) -> Tree {
        LoopBack::state(self)
    }

    fn put(&mut self, call: Call) -> Answer {
        let [a, b, ..] = call.args;
        let answer = match call.op.code {
            REGISTER => registered(self.register(a as u8, b as u16)),
            UNREGISTER => {
                self.unregister(a as u8);
                Answer::DONE
            }
            HUB_PUSH_START => Answer::flag(self.hub_push_start(a as u16)),
            HUB_PUSH_NEXT => pushed(self.hub_push_next()),
            code => unreachable!("call {code}"),
        };
        assert_eq!(self.wakes(), 0, "this side never wakes");
        answer
    }

    fn make(call: Call, lent: &mut [u8]) -> Answer {
        let [a, b, ..] = call.args;
        match call.op.code {
            OPEN => exports::lb_open(lent),
            REGISTER => exports::lb_register(lent, a, b),
            UNREGISTER => exports::lb_unregister(lent, a),
            HUB_PUSH_START => exports::lb_hub_push_start(lent, a),
            HUB_PUSH_NEXT => exports::lb_hub_push_next(lent),
            code => unreachable!("call {code}"),
        }
    }

    /// The walk on to its end; one on a free subject; the first step of each subject's; one over all;
    /// and one that stays at the first entry.
    fn frames(state: &Tree) -> Vec<Call> {
        let start = |subject| call(HUB_PUSH_START, &[subject]);
        let next = call(HUB_PUSH_NEXT, &[]);
        let to_the_end = vec![next; state.listed.len() + 1];
        let mut subjects: Vec<u32> = state.listed.iter().map(|pair| pair.1.into()).collect();
        subjects.dedup();
        let free = (0..=MOST_SUBJECT).find(|subject| !subjects.contains(subject));
        let mut calls = to_the_end.clone();
        calls.extend(free.map(start));
        calls.extend(subjects.iter().flat_map(|&subject| [start(subject), next]));
        if let Some(&first) = subjects.first() {
            calls.push(start(first));
            calls.extend(to_the_end);
            calls.push(start(first));
        }
        calls
    }

    fn may_follow(first: u16, second: u16) -> bool {
        first <= second
    }
}
