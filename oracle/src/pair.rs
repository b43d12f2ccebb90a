//! One state on both sides, ours and the Rust's. Each kind of state implements `Pair` in a file of
//! its own; `runs` drives whatever implements it.

use crate::exports::Answer;
use crate::rng::Rng;
use crate::tally::Expected;
use std::fmt;
use std::ops::{Deref, DerefMut};

/// What a call is for, by which it is drawn.
#[derive(Clone, Copy, PartialEq, Eq)]
pub enum Role {
    Open,
    Read,
    Grow,
    Shrink,
    Poll,
    Walk,
}

/// A call of one kind. `code` is its number in the recorded list.
pub struct Op {
    pub code: u8,
    pub kind: &'static str,
    pub name: &'static str,
    pub args: usize,
    pub role: Role,
}

/// The codes of a kind's calls as constants, a table of the calls, and how to write one.
macro_rules! ops {
    ($kind:literal: $($op:ident = $code:literal $name:literal $args:literal $role:ident;)*) => {
        $(pub const $op: u8 = $code;)*

        pub static OPS: &[$crate::pair::Op] = &[$($crate::pair::Op {
            code: $code, kind: $kind, name: $name, args: $args, role: $crate::pair::Role::$role,
        }),*];

        pub fn call(code: u8, args: &[u32]) -> $crate::pair::Call {
            let op = OPS.iter().find(|op| op.code == code).expect("a code of this kind");
            $crate::pair::Call::new(op, args)
        }
    };
}
pub(crate) use ops;

#[derive(Clone, Copy)]
pub struct Call {
    pub op: &'static Op,
    pub args: [u32; MOST_ARGS],
}

const MOST_ARGS: usize = 5;

impl Call {
    pub fn new(op: &'static Op, args: &[u32]) -> Self {
        let mut call = Self {
            op,
            args: [0; MOST_ARGS],
        };
        call.args[..args.len()].copy_from_slice(args);
        call
    }

    /// The three numbers of its line in the recorded list: of five, the first two and the next two are
    /// put together.
    pub fn recorded(&self) -> [u32; 3] {
        let [a, b, c, d, e] = self.args;
        if self.op.args == MOST_ARGS {
            [a << 8 | b, c << 16 | d, e]
        } else {
            [a, b, c]
        }
    }
}

impl fmt::Display for Call {
    fn fmt(&self, f: &mut fmt::Formatter) -> fmt::Result {
        write!(f, "{} {}", self.op.kind, self.op.name)?;
        self.args[..self.op.args]
            .iter()
            .try_for_each(|arg| write!(f, " {arg}"))
    }
}

/// Bytes lent to the exports, between margins that nobody may touch.
#[derive(Clone)]
pub struct Lent(Vec<u8>);

impl Lent {
    const MARGIN: usize = 16;
    const FILL: u8 = 0xa5;

    /// Filled from `soil`: opening must not depend on it.
    pub fn new(length: usize, soil: u64) -> Self {
        let mut rng = Rng::new(soil);
        let mut bytes = vec![Self::FILL; length + 2 * Self::MARGIN];
        bytes[Self::MARGIN..][..length].fill_with(|| rng.next() as u8);
        Self(bytes)
    }

    pub fn margins_stand(&self) -> bool {
        let end = self.0.len() - Self::MARGIN;
        self.0[..Self::MARGIN]
            .iter()
            .chain(&self.0[end..])
            .all(|&byte| byte == Self::FILL)
    }
}

impl Deref for Lent {
    type Target = [u8];

    fn deref(&self) -> &[u8] {
        &self.0[Self::MARGIN..self.0.len() - Self::MARGIN]
    }
}

impl DerefMut for Lent {
    fn deref_mut(&mut self) -> &mut [u8] {
        let end = self.0.len() - Self::MARGIN;
        &mut self.0[Self::MARGIN..end]
    }
}

pub trait Pair {
    fn ops(&self) -> &'static [Op];

    /// The call that opens a state of this size.
    fn opening(&self) -> Call;

    /// One in so many random calls is an opening.
    fn openings(&self) -> u64 {
        100
    }

    /// A call of `op` with arguments at random, in and past the limits.
    fn draw(&self, op: &'static Op, rng: &mut Rng) -> Call;

    /// Every call from a small state, with one number past each limit.
    fn every_call(&self) -> Vec<Call>;

    /// What document 01 answers where the Rust is not asked, found from the Rust's own state.
    fn unasked(&self, call: Call) -> Option<Answer>;

    /// Puts the call to the Rust; its answer, packed as the exports pack it.
    fn put(&mut self, call: Call) -> Answer;

    /// Makes the call on the lent bytes through its export.
    fn make(&mut self, call: Call) -> Answer;

    fn lent(&self) -> &Lent;

    /// Lays the Rust's state over the bytes before the call, as docs/ gives the layout.
    fn lay(&self, over: &mut [u8]);

    /// The Rust's state in words.
    fn rust_state(&self) -> String;

    /// The lent bytes in the same words, read by the layout.
    fn our_state(&self) -> String;

    fn ask(&mut self, call: Call) -> Expected {
        match self.unasked(call) {
            Some(answer) => Expected::Unasked(answer),
            None => Expected::Asked(self.put(call)),
        }
    }

    /// Whether the lent bytes mean the Rust's state; it follows from equal bytes if layout and reader are right.
    fn means_the_same(&self) -> bool {
        self.our_state() == self.rust_state()
    }

    /// The state read back, in words where it differs.
    fn read_back(&self) -> Result<(), String> {
        if self.means_the_same() {
            return Ok(());
        }
        Err(format!(
            "state read back\nours:     {}\nthe Rust: {}",
            self.our_state(),
            self.rust_state()
        ))
    }

    /// What must hold besides, after a call that both sides answered alike.
    fn beside(&mut self, _call: Call, _answer: Answer) -> Result<(), String> {
        Ok(())
    }

    /// Both sides once more, ours in other bytes of the same meaning, where the Rust's can be copied.
    fn copied(&self, _soil: u64) -> Option<Box<dyn Pair>> {
        None
    }

    /// Calls that are made on a copy, to show more of this state.
    fn trial(&self) -> Vec<Call> {
        Vec::new()
    }

    /// Calls on other bytes that follow from an answer, with what they answer: for the recorded list.
    fn follow_ups(&mut self, _call: Call, _answer: Answer) -> Vec<(Call, Answer)> {
        Vec::new()
    }

    /// What tells this state from others.
    fn told_by(&self) -> Vec<u8> {
        self.lent().to_vec()
    }

    /// Whether exploring goes on from this state.
    fn is_followed(&self) -> bool {
        true
    }
}

/// A size of a kind at which pairs are run.
pub struct Size {
    pub name: String,
    /// Its part of the random calls, against the other sizes' parts.
    pub share: u64,
    /// Both sides, before their opening, from a soil for ours.
    pub open: Box<dyn Fn(u64) -> Box<dyn Pair>>,
}
