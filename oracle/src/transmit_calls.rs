//! The calls of the two transmit registries: their numbers by name, their exports, and which numbers
//! are refused.

use crate::exports::{self, Answer};
use crate::image::MOST_SUBJECT;
use crate::pair::{Call, Op, Role};
use crate::transmit_bytes::{LENGTH_WITH_TREE, Pick, QUEUE_LENGTH};
use crate::tree::MOST_ENTRY;
use emcyphal::marker::{Message, Response};
use emcyphal::registry::probe::{Asked, Report, TxKind};
use emcyphal_core::{Priority, SubjectId};
use emcyphal_driver::frame::{DataSpecifier, Frame, Header};

/// The calls of either kind, by their place among its calls.
pub const OPEN: u8 = 0;
pub const REGISTER: u8 = 1;
pub const UNREGISTER: u8 = 2;
pub const UPDATE: u8 = 3;
pub const PICK: u8 = 4;
pub const SETTLE: u8 = 5;

const fn ops(kind: &'static str, first: u8, register_args: usize) -> [Op; 6] {
    const fn op(kind: &'static str, code: u8, name: &'static str, args: usize, role: Role) -> Op {
        Op {
            code,
            kind,
            name,
            args,
            role,
        }
    }
    [
        op(kind, first + OPEN, "open", 0, Role::Open),
        op(
            kind,
            first + REGISTER,
            "register",
            register_args,
            Role::Grow,
        ),
        op(kind, first + UNREGISTER, "unregister", 1, Role::Shrink),
        op(kind, first + UPDATE, "update", 2, Role::Walk),
        op(kind, first + PICK, "pick", 2, Role::Poll),
        op(kind, first + SETTLE, "settle", 5, Role::Poll),
    ]
}

/// The exports of a kind.
pub struct Exports {
    open: fn(&mut [u8]) -> Answer,
    register: fn(&mut [u8], u32, u32, u8) -> Answer,
    unregister: fn(&mut [u8], u32) -> Answer,
    update: fn(&mut [u8], u32, u8) -> Answer,
    pick: fn(&mut [u8], u8, u32) -> Answer,
    settle: fn(&mut [u8], u8, u8, u32, u32, u8) -> Answer,
}

/// What the two kinds differ in.
pub trait Transmit: TxKind + 'static {
    const OPS: &'static [Op];
    const EXPORTS: Exports;
    /// A registering call names a subject, and no two entries have the same.
    const HAS_SUBJECTS: bool;
    const LENGTH: usize;
}

impl Transmit for Message {
    const OPS: &'static [Op] = &ops("txm", 100, 3);
    const EXPORTS: Exports = Exports {
        open: exports::txm_open,
        register: exports::txm_register,
        unregister: exports::txm_unregister,
        update: exports::txm_update,
        pick: exports::txm_pick,
        settle: exports::txm_settle,
    };
    const HAS_SUBJECTS: bool = true;
    const LENGTH: usize = LENGTH_WITH_TREE;
}

impl Transmit for Response {
    const OPS: &'static [Op] = &ops("txr", 110, 2);
    const EXPORTS: Exports = Exports {
        open: exports::txr_open,
        register: |bytes, entry, _, readiness| exports::txr_register(bytes, entry, readiness),
        unregister: exports::txr_unregister,
        update: exports::txr_update,
        pick: exports::txr_pick,
        settle: exports::txr_settle,
    };
    const HAS_SUBJECTS: bool = false;
    const LENGTH: usize = QUEUE_LENGTH;
}

/// A call by its place among the kind's; a registering one with a subject, which responses drop.
pub fn call<K: Transmit>(place: u8, args: &[u32]) -> Call {
    let op = &K::OPS[usize::from(place)];
    match args {
        &[entry, _, readiness] if !K::HAS_SUBJECTS => Call::new(op, &[entry, readiness]),
        _ => Call::new(op, args),
    }
}

/// An open pick, with what the Rust asks at it.
#[derive(Clone, Copy)]
pub struct Open {
    pub pick: Pick,
    pub asked: Asked,
}

impl Open {
    pub fn priority(&self) -> u32 {
        self.asked.mask.trailing_zeros()
    }
}

/// A settlement's numbers.
#[derive(Clone, Copy)]
pub struct Settled {
    pub frame: u8,
    pub readiness: u8,
    pub priority: u32,
    pub length: u32,
    pub last: u8,
}

impl Settled {
    pub fn report(&self) -> Report {
        Report {
            readiness: self.readiness,
            frame: (self.frame != 0).then(|| self.reported_frame()),
        }
    }

    /// Its data is 0 but for the last byte; nobody looks at the data specifier.
    fn reported_frame(&self) -> Frame {
        let mut data = vec![0; self.length as usize];
        if let Some(last) = data.last_mut() {
            *last = self.last;
        }
        Frame {
            header: Header {
                priority: Priority::try_from_u8(self.priority as u8).expect("a priority"),
                data_spec: DataSpecifier::Message(SubjectId::MAX),
            },
            data,
            loop_back: false,
        }
    }

    /// What 12 is given for.
    pub fn is_wrong(&self, open: Open) -> bool {
        let fits = (1..=open.pick.mtu.into()).contains(&self.length);
        self.frame != 0 && !(fits && self.priority == open.priority())
    }
}

/// A call with its numbers by name.
#[derive(Clone, Copy)]
pub enum Named {
    Open,
    Register {
        entry: u32,
        subject: u32,
        readiness: u8,
    },
    Unregister {
        entry: u32,
    },
    Update {
        entry: u32,
        readiness: u8,
    },
    Pick {
        mask: u8,
        mtu: u32,
    },
    Settle(Settled),
}

impl Named {
    pub fn of<K: Transmit>(call: Call) -> Self {
        let [a, b, c, d, e] = call.args;
        match call.op.code - K::OPS[0].code {
            OPEN => Named::Open,
            REGISTER => {
                let (subject, set) = if K::HAS_SUBJECTS { (b, c) } else { (0, b) };
                let readiness = set as u8;
                Named::Register {
                    entry: a,
                    subject,
                    readiness,
                }
            }
            UNREGISTER => Named::Unregister { entry: a },
            UPDATE => Named::Update {
                entry: a,
                readiness: b as u8,
            },
            PICK => Named::Pick {
                mask: a as u8,
                mtu: b,
            },
            SETTLE => Named::Settle(Settled {
                frame: a as u8,
                readiness: b as u8,
                priority: c,
                length: d,
                last: e as u8,
            }),
            place => unreachable!("call {place}"),
        }
    }

    /// The numbers' refusals: an entry past its end, a subject, a priority, another mtu.
    pub fn past_end(self) -> Option<u8> {
        match self {
            Named::Register { entry, .. }
            | Named::Unregister { entry }
            | Named::Update { entry, .. }
                if entry > MOST_ENTRY =>
            {
                Some(2)
            }
            Named::Register { subject, .. } if subject > MOST_SUBJECT => Some(3),
            Named::Pick { mtu, .. } if !matches!(mtu, 8 | 64) => Some(3),
            Named::Settle(settled) if settled.frame != 0 && settled.priority > 7 => Some(3),
            _ => None,
        }
    }
}

pub fn make<K: Transmit>(call: Call, lent: &mut [u8]) -> Answer {
    match Named::of::<K>(call) {
        Named::Open => (K::EXPORTS.open)(lent),
        Named::Register {
            entry,
            subject,
            readiness,
        } => (K::EXPORTS.register)(lent, entry, subject, readiness),
        Named::Unregister { entry } => (K::EXPORTS.unregister)(lent, entry),
        Named::Update { entry, readiness } => (K::EXPORTS.update)(lent, entry, readiness),
        Named::Pick { mask, mtu } => (K::EXPORTS.pick)(lent, mask, mtu),
        Named::Settle(Settled {
            frame,
            readiness,
            priority,
            length,
            last,
        }) => (K::EXPORTS.settle)(lent, frame, readiness, priority, length, last),
    }
}

/// One call of each, and one of each with a number past its end, opening excepted.
pub fn some_calls<K: Transmit>() -> Vec<Call> {
    let past = MOST_ENTRY + 1;
    let all: [(u8, &[u32]); 10] = [
        (REGISTER, &[0, 0, 1]),
        (REGISTER, &[past, MOST_SUBJECT + 1, 0]),
        (UNREGISTER, &[0]),
        (UNREGISTER, &[past]),
        (UPDATE, &[0, 1]),
        (UPDATE, &[past, 0]),
        (PICK, &[255, 8]),
        (PICK, &[0, 0]),
        (SETTLE, &[0, 0, 0, 0, 0]),
        (SETTLE, &[1, 0, 8, 0, 0]),
    ];
    all.map(|(place, args)| call::<K>(place, args)).to_vec()
}
