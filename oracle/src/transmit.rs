//! The registries of `tx_msg.rs` and `tx_resp.rs`, both above `tx_queue.rs`, against the exports
//! `gomxeli_txm_..` and `gomxeli_txr_..`.
//!
//! The Rust picks and settles in one `poll_pop`, which asks a buffer in between. So our pick is
//! compared with a `poll_pop` on a copy of the Rust's registry, which shows what buffer is asked and
//! for what. The registry itself is polled when our settlement comes, and its buffer answers what that
//! reports; in between it gets no call. A pick that names nothing is a `poll_pop` that asks no buffer.

use crate::answer::registered;
use crate::exports::Answer;
use crate::image::MOST_SUBJECT;
use crate::pair::{Call, Lent, Op, Pair, Size};
use crate::registry::{ALL, ENDS, NEAR, THREE};
use crate::rng::Rng;
use crate::transmit_bytes::{self as bytes, Meaning, Pick};
use crate::transmit_calls::{
    Named, OPEN, Open, PICK, REGISTER, SETTLE, Settled, Transmit, UNREGISTER, UPDATE, call, make,
};
use crate::transmit_draw::{TxDraw, Used};
use crate::tree::{self, MOST_ENTRY};
use emcyphal::marker::{Message, Response};
use emcyphal::registry::probe::{Report, TxSide};

pub fn message_sizes() -> Vec<Size> {
    vec![
        size::<Message>(3, THREE, 0b0001_0000, 3),
        size::<Message>(4, ENDS, 0b1000_0001, 4),
        size::<Message>(16, NEAR, 0b1111_1111, 4),
        size::<Message>(128, ALL, 0b0000_1000, 2),
        size::<Message>(128, ALL, 0b1111_1111, 3),
    ]
}

pub fn response_sizes() -> Vec<Size> {
    vec![
        size::<Response>(3, ALL, 0b0000_0001, 3),
        size::<Response>(4, ALL, 0b0001_0010, 4),
        size::<Response>(16, ALL, 0b1111_1111, 4),
        size::<Response>(128, ALL, 0b1000_0000, 2),
        size::<Response>(128, ALL, 0b1111_1111, 3),
    ]
}

/// Those of which every state is reached.
pub fn small_messages() -> Vec<Size> {
    vec![size::<Message>(3, THREE, 0b0001_0000, 0)]
}

pub fn small_responses() -> Vec<Size> {
    vec![
        size::<Response>(3, ALL, 0b1000_0000, 0),
        size::<Response>(2, ALL, 0b0010_0001, 0),
    ]
}

/// Entries, subjects (of messages) and priorities that a size uses.
pub fn size<K: Transmit>(entries: u32, pool: usize, priorities: u8, share: u64) -> Size {
    let used = Used::new(entries, pool, priorities);
    let mut name = format!("{}, entries {entries}", K::OPS[0].kind);
    if K::HAS_SUBJECTS {
        name += &format!(", subjects {}", used.range.numbers().len());
    }
    Size {
        name: name + &format!(", priorities {priorities:08b}"),
        share,
        open: Box::new(move |soil| {
            let lent = Lent::new(K::LENGTH, soil);
            Box::new(Both::<K>::of(used, &Meaning::default(), lent))
        }),
    }
}

/// Bytes of the kind's length on both sides, where they are whole.
pub fn pair_of<K: Transmit>(lent: Lent) -> Option<Box<dyn Pair>> {
    let (meaning, faults) = bytes::read(&lent);
    if !faults.is_empty() || !bytes::is_whole(&meaning, K::HAS_SUBJECTS) {
        return None;
    }
    let used = Used::new(128, ALL, 255);
    Some(Box::new(Both::<K>::of(used, &meaning, lent)))
}

struct Both<K: Transmit> {
    used: Used,
    rust: TxSide<K>,
    open: Option<Open>,
    /// Nothing was put to the Rust since its opening.
    is_fresh: bool,
    lent: Lent,
}

impl<K: Transmit> Both<K> {
    fn of(used: Used, meaning: &Meaning, lent: Lent) -> Self {
        let mut made = Self {
            used,
            rust: TxSide::of(&meaning.state),
            open: None,
            is_fresh: false,
            lent,
        };
        made.open = meaning
            .pick
            .map(|pick| made.asked(pick).expect("may be open"));
        made
    }

    fn meaning(&self) -> Meaning {
        Meaning {
            state: self.rust.state(),
            pick: self.open.map(|open| open.pick),
        }
    }

    /// What a `poll_pop` asks, seen on a copy.
    fn asked(&self, pick: Pick) -> Option<Open> {
        let mut copy = TxSide::<K>::of(&self.rust.state());
        let asked = copy.poll_pop(pick.mask, pick.mtu, Report::default()).0?;
        assert_eq!(asked.mtu, pick.mtu);
        assert!(asked.mask.is_power_of_two(), "one priority is asked for");
        Some(Open { pick, asked })
    }

    fn pick(&mut self, pick: Pick) -> Answer {
        self.open = self.asked(pick);
        if let Some(open) = self.open {
            return Answer::new(0, 1, open.asked.entry.into(), open.priority());
        }
        let (asked, frame) = self.rust.poll_pop(pick.mask, pick.mtu, Report::default());
        assert!(asked.is_none() && frame.is_none());
        Answer::DONE
    }

    /// The Rust's own `poll_pop`: it asks what it was seen to ask, and hands on the frame given to it.
    fn settle(&mut self, settled: Settled) -> Answer {
        let Open { pick, asked } = self.open.expect("a pick is open");
        let report = settled.report();
        let polled = self.rust.poll_pop(pick.mask, pick.mtu, report.clone());
        assert_eq!(polled, (Some(asked), report.frame));
        self.open = None;
        Answer::first(asked.entry.into())
    }

    fn put_to_rust(&mut self, call: Named) -> Answer {
        match call {
            Named::Open => {
                self.rust = TxSide::new();
                self.open = None;
            }
            Named::Register {
                entry,
                subject,
                readiness,
            } => {
                let result = self.rust.register(entry as u8, subject as u16, readiness);
                return registered(result);
            }
            Named::Unregister { entry } => self.rust.unregister(entry as u8),
            Named::Update { entry, readiness } => self.rust.update(entry as u8, readiness),
            Named::Pick { mask, mtu } => {
                return self.pick(Pick {
                    mask,
                    mtu: mtu as u8,
                });
            }
            Named::Settle(settled) => return self.settle(settled),
        }
        Answer::DONE
    }

    /// Frames of each priority, the last one and another, and none, each with every readiness; then
    /// frames with a wrong number.
    fn every_settlement(&self) -> Vec<Call> {
        let Used { priorities, .. } = self.used;
        let is_used = |priority: &u32| priorities >> priority & 1 == 1;
        let frames = (0..8).filter(is_used);
        let frames = frames.flat_map(|p| [[1, p, 8, 64], [255, p, 1, 191]]);
        let reported = frames.chain([[0, 8, 0, 64]]);
        let with = |[frame, p, length, last]: [u32; 4]| {
            let sets = self.used.sets();
            sets.map(move |set| [frame, set, p, length, last])
        };
        let own = priorities.trailing_zeros();
        let unused = priorities.trailing_ones() % 8;
        let wrong = [
            [unused, 8],
            [8, 8],
            [own, 0],
            [own, 9],
            [own, 64],
            [own, 65],
        ];
        let wrong = wrong.map(|[p, length]| [1, 0, p, length, 64]);
        let all = reported.flat_map(with).chain(wrong);
        all.map(|args| call::<K>(SETTLE, &args)).collect()
    }
}

impl<K: Transmit> Pair for Both<K> {
    fn ops(&self) -> &'static [Op] {
        K::OPS
    }

    fn opening(&self) -> Call {
        call::<K>(OPEN, &[])
    }

    /// Seldom, so that sequences are long: no opening is refused.
    fn openings(&self) -> u64 {
        600
    }

    fn draw(&self, op: &'static Op, rng: &mut Rng) -> Call {
        let draw = TxDraw {
            used: self.used,
            state: self.rust.state(),
            open: self.open,
        };
        let place = draw.place(op.code - K::OPS[0].code, rng);
        call::<K>(place, &draw.args(place, rng))
    }

    fn every_call(&self) -> Vec<Call> {
        let entries = || (0..self.used.range.entries).chain([MOST_ENTRY + 1]);
        let mut subjects = vec![0];
        if K::HAS_SUBJECTS {
            subjects = self.used.range.numbers();
            subjects.push(MOST_SUBJECT + 1);
        }
        let mut calls = vec![self.opening()];
        for entry in entries() {
            calls.push(call::<K>(UNREGISTER, &[entry]));
            for set in self.used.sets() {
                calls.push(call::<K>(UPDATE, &[entry, set]));
                let register = |&subject| call::<K>(REGISTER, &[entry, subject, set]);
                calls.extend(subjects.iter().map(register));
            }
        }
        for mask in self.used.sets() {
            calls.extend([8, 64].map(|mtu| call::<K>(PICK, &[mask, mtu])));
        }
        calls.push(call::<K>(PICK, &[255, 9]));
        calls.extend(self.every_settlement());
        calls
    }

    fn unasked(&self, call: Call) -> Option<Answer> {
        let call = Named::of::<K>(call);
        let is_registered = |entry| self.rust.is_registered(entry as u8);
        let number = call.past_end().or_else(|| match (call, self.open) {
            (Named::Open, _) => None,
            (Named::Settle(_), None) => Some(11),
            (Named::Settle(settled), Some(open)) => settled.is_wrong(open).then_some(12),
            (_, Some(_)) => Some(10),
            (Named::Register { entry, .. }, _) => is_registered(entry).then_some(5),
            (Named::Unregister { entry } | Named::Update { entry, .. }, _) => {
                (!is_registered(entry)).then_some(8)
            }
            (Named::Pick { .. }, _) => None,
        });
        number.map(Answer::refused)
    }

    /// The wake flag is how often the Rust woke; removing and a pick never do.
    fn put(&mut self, call: Call) -> Answer {
        let named = Named::of::<K>(call);
        let before = self.rust.wakes();
        let answer = self.put_to_rust(named);
        self.is_fresh = matches!(named, Named::Open);
        let woken = self.rust.wakes() - if self.is_fresh { 0 } else { before };
        let may_wake = matches!(
            named,
            Named::Register { .. } | Named::Update { .. } | Named::Settle(_)
        );
        if may_wake && answer.number() == 0 {
            return Answer::new(0, woken as u8, answer.fields().1, 0);
        }
        assert_eq!(woken, 0);
        answer
    }

    fn make(&mut self, call: Call) -> Answer {
        make::<K>(call, &mut self.lent)
    }

    fn lent(&self) -> &Lent {
        &self.lent
    }

    fn lay(&self, over: &mut [u8]) {
        if self.is_fresh {
            over.fill(tree::UNUSED);
        }
        bytes::lay(&self.meaning(), over);
    }

    fn rust_state(&self) -> String {
        bytes::words(&self.meaning())
    }

    fn our_state(&self) -> String {
        let (meaning, faults) = bytes::read(&self.lent);
        bytes::words(&meaning) + &faults
    }

    fn means_the_same(&self) -> bool {
        bytes::read(&self.lent) == (self.meaning(), String::new())
    }

    fn beside(&mut self, _call: Call, _answer: Answer) -> Result<(), String> {
        self.read_back()
    }

    fn copied(&self, soil: u64) -> Option<Box<dyn Pair>> {
        let mut copy = Self::of(self.used, &self.meaning(), self.lent.clone());
        bytes::disguise(&mut copy.lent, &mut Rng::new(soil));
        Some(Box::new(copy))
    }

    /// An open pick is settled with no frame; of each class the first leaves with a last frame, and the
    /// next goes on with another; the first and the last entry are removed and registered anew.
    fn trial(&self) -> Vec<Call> {
        let state = self.rust.state();
        let mut calls = Vec::new();
        if self.open.is_some() {
            calls.push(call::<K>(SETTLE, &[0, 255, 8, 0, 64]));
        }
        for list in state.queued.chunk_by(|a, b| a.0 == b.0) {
            let priority = u32::from(list[0].0 / 2);
            let pick = call::<K>(PICK, &[1 << priority, 64]);
            let last = call::<K>(SETTLE, &[1, 0, priority, 64, 64]);
            let other = call::<K>(SETTLE, &[1, 1 << priority, priority, 1, 0]);
            calls.extend([pick, last]);
            calls.extend(list.get(1).iter().flat_map(|_| [pick, other]));
        }
        let subject = |entry| state.tree.iter().find(|pair| pair.0 == entry);
        for seen in state.entries.first().iter().chain(&state.entries.last()) {
            let subject = subject(seen.entry).map_or(0, |pair| pair.1);
            calls.push(call::<K>(UNREGISTER, &[seen.entry.into()]));
            calls.push(call::<K>(
                REGISTER,
                &[seen.entry.into(), subject.into(), 255],
            ));
        }
        calls.push(call::<K>(PICK, &[255, 8]));
        calls
    }

    fn told_by(&self) -> Vec<u8> {
        bytes::told_by(&self.meaning())
    }
}
