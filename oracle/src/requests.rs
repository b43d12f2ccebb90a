//! The registry of `rx_req.rs` against the exports `gomxeli_req_..`.

use crate::answer::registered;
use crate::exports::{self, Answer};
use crate::one_tree::{self, OneTree};
use crate::pair::{Call, Op, Size, ops};
use crate::registry::{ALL, ENDS, NEAR, ONE, Pools, SOME, THREE};
use emcyphal::registry::probe::{Requests, Tree};

ops! { "req":
    OPEN = 90 "open" 0 Open;
    REGISTER = 91 "register" 2 Grow;
    UNREGISTER = 92 "unregister" 1 Shrink;
    POLL_PUSH = 93 "poll_push" 2 Read;
}

pub fn sizes() -> Vec<Size> {
    vec![
        size::<3, THREE>(2),
        size::<8, ENDS>(2),
        size::<16, ONE>(1),
        size::<16, NEAR>(3),
        size::<128, SOME>(2),
        size::<128, ALL>(5),
    ]
}

/// Those of which every state is reached.
pub fn small() -> Vec<Size> {
    vec![size::<3, THREE>(0), size::<4, ENDS>(0)]
}

pub fn size<const ENTRIES: u32, const POOL: usize>(share: u64) -> Size {
    one_tree::size::<Requests, ENTRIES, POOL>(share)
}

pub const MOST_SERVICE: u32 = 511;

impl OneTree for Requests {
    const OPS: &'static [Op] = OPS;
    const LENGTH: usize = 385;
    const NUMBERS: &'static str = "services";
    const MOST: u32 = MOST_SERVICE;
    const POOLS: Pools = [
        &[0, 1, 511],
        &[0, 1, 510, 511],
        &[100],
        &[0, 1, 2, 3, 4, 5, 6, 7],
        &[0, 1, 2, 100, 101, 300, 508, 510, 511],
        &[],
    ];

    fn of(state: &Tree) -> Self {
        Requests::of(state)
    }

    fn state(&self) -> Tree {
        Requests::state(self)
    }

    fn put(&mut self, call: Call) -> Answer {
        let [a, b, ..] = call.args;
        match call.op.code {
            REGISTER => registered(self.register(a as u8, b as u16, false)),
            UNREGISTER => {
                self.unregister(a as u8);
                Answer::DONE
            }
            POLL_PUSH => Answer::found(self.poll_push(a as u16, b != 0)),
            code => unreachable!("call {code}"),
        }
    }

    fn make(call: Call, lent: &mut [u8]) -> Answer {
        let [a, b, ..] = call.args;
        match call.op.code {
            OPEN => exports::req_open(lent),
            REGISTER => exports::req_register(lent, a, b),
            UNREGISTER => exports::req_unregister(lent, a),
            POLL_PUSH => exports::req_poll_push(lent, a, b as u8),
            code => unreachable!("call {code}"),
        }
    }

    /// A frame for every registered service, also looped back, and one for a free service.
    fn frames(state: &Tree) -> Vec<Call> {
        let frame = |service, loop_back| call(POLL_PUSH, &[service, loop_back]);
        let services: Vec<u32> = state.listed.iter().map(|pair| pair.1.into()).collect();
        let free = (0..=MOST_SERVICE).find(|service| !services.contains(service));
        let both = |service| [frame(service, 0), frame(service, 1)];
        services.into_iter().chain(free).flat_map(both).collect()
    }

    fn may_follow(first: u16, second: u16) -> bool {
        first < second
    }
}
