//! What a size of the transmit registries uses, and numbers at random for their calls.

use crate::image::MOST_SUBJECT;
use crate::registry::{Draw, Range};
use crate::regular::POOLS;
use crate::rng::Rng;
use crate::transmit_calls::{OPEN, Open, PICK, REGISTER, SETTLE, UNREGISTER, UPDATE};
use emcyphal::registry::probe::{TxSeen, TxState};

/// The entries, subjects and priorities that a size uses.
#[derive(Clone, Copy)]
pub struct Used {
    pub range: Range,
    pub priorities: u8,
}

impl Used {
    pub fn new(entries: u32, pool: usize, priorities: u8) -> Self {
        let range = Range {
            entries,
            pool: POOLS[pool],
            most: MOST_SUBJECT,
        };
        Self { range, priorities }
    }

    /// Every set of these priorities.
    pub fn sets(self) -> impl Iterator<Item = u32> {
        let is_used = move |set: &u32| set & !u32::from(self.priorities) == 0;
        (0..=self.priorities.into()).filter(is_used)
    }
}

pub struct TxDraw {
    pub used: Used,
    pub state: TxState,
    pub open: Option<Open>,
}

/// The number, now and then one of the others.
fn mostly(number: u32, others: &[u32], rng: &mut Rng) -> u32 {
    if rng.one_in(16) {
        rng.pick(others)
    } else {
        number
    }
}

impl TxDraw {
    /// While a pick is open mostly its settlement, else mostly another call.
    pub fn place(&self, place: u8, rng: &mut Rng) -> u8 {
        match place {
            OPEN => OPEN,
            _ if self.open.is_some() && !rng.one_in(8) => SETTLE,
            SETTLE if self.open.is_none() && !rng.one_in(8) => PICK,
            _ => place,
        }
    }

    pub fn args(&self, place: u8, rng: &mut Rng) -> Vec<u32> {
        let entries = self.entries();
        match place {
            OPEN => Vec::new(),
            REGISTER => vec![
                entries.free_entry(rng),
                entries.number(rng),
                self.set(rng).into(),
            ],
            UNREGISTER => vec![entries.registered_entry(rng)],
            UPDATE => {
                let entry = entries.registered_entry(rng);
                vec![entry, self.readiness(entry, rng)]
            }
            PICK => vec![self.mask(rng), self.mtu(rng)],
            _ => self.settlement(rng),
        }
    }

    /// The next entry that would be picked is often drawn.
    fn entries(&self) -> Draw {
        let subject = |entry| self.state.tree.iter().find(|pair| pair.0 == entry);
        let pair = |seen: &TxSeen| (seen.entry, subject(seen.entry).map_or(0, |pair| pair.1));
        Draw {
            range: self.used.range,
            active: self.state.entries.iter().map(pair).collect(),
            inactive: Vec::new(),
            walk: self.state.queued.first().map(|queued| queued.1),
        }
    }

    /// Of the priorities that are used, now and then of others too.
    fn set(&self, rng: &mut Rng) -> u8 {
        let any = rng.next() as u8;
        let one = 1 << rng.below(8);
        let used = self.used.priorities;
        let some = used & any;
        rng.pick(&[0, used & one, some, some, used, any])
    }

    /// Every third time with the same most urgent priority as the entry has.
    fn readiness(&self, entry: u32, rng: &mut Rng) -> u32 {
        let is_the_one = |seen: &&TxSeen| u32::from(seen.entry) == entry;
        let seen = self.state.entries.iter().find(is_the_one);
        match seen {
            Some(seen) if rng.one_in(3) => {
                let first = seen.readiness & seen.readiness.wrapping_neg();
                let up_to_first = first.wrapping_mul(2).wrapping_sub(1);
                u32::from(first | self.set(rng) & !up_to_first)
            }
            _ => self.set(rng).into(),
        }
    }

    fn mask(&self, rng: &mut Rng) -> u32 {
        let some = self.set(rng);
        rng.pick(&[255, 255, self.used.priorities, some]).into()
    }

    fn mtu(&self, rng: &mut Rng) -> u32 {
        let others = [0, 7, 9, 63, 65, 256 + 8, 65_536 + 64, u32::MAX];
        mostly(rng.pick(&[8, 64]), &others, rng)
    }

    fn settlement(&self, rng: &mut Rng) -> Vec<u32> {
        let open = self
            .open
            .map(|open| (open.asked.entry, open.priority(), open.pick.mtu));
        let (entry, priority, mtu) = open.unwrap_or((0, 4, 8));
        let mtu = u32::from(mtu);
        let other_priorities = [
            priority ^ 1,
            priority ^ 7,
            8,
            255,
            256 + priority,
            65_536 + priority,
            u32::MAX,
        ];
        let other_lengths = [0, mtu + 1, 64, 65, 256, 257, 65_536, 65_537, u32::MAX];
        let length = 1 + rng.below(mtu.into()) as u32;
        vec![
            rng.pick(&[0, 0, 1, 1, 1, 1, 2, 255]),
            self.readiness(entry.into(), rng),
            mostly(priority, &other_priorities, rng),
            mostly(length, &other_lengths, rng),
            rng.below(256) as u32,
        ]
    }
}
