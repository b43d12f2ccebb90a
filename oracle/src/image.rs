//! The filter image, exports `gomxeli_img_..`, against a plain set. The Rust has none: document 01 added it.

use crate::exports::{self, Answer};
use crate::pair::{Call, Lent, Op, Pair, Size, ops};
use crate::rng::Rng;
use crate::tally::Expected;

ops! { "img":
    OPEN = 70 "open" 0 Open;
    ADD_SUBJECT = 71 "add_subject" 1 Grow;
    REMOVE_SUBJECT_RANGE = 72 "remove_subject_range" 2 Shrink;
    HAS_SUBJECT = 73 "has_subject" 1 Read;
}

pub const LENGTH: usize = 1024;
pub const SUBJECTS: usize = 8192;
pub const MOST_SUBJECT: u32 = 8191;

pub fn sizes() -> Vec<Size> {
    vec![
        size::<LENGTH>(2),
        size::<0>(1),
        size::<1023>(1),
        size::<1025>(1),
    ]
}

/// Every call of `every_call`, from every set of its subjects.
pub fn small() -> Vec<Size> {
    vec![size::<LENGTH>(0), size::<0>(0), size::<1023>(0)]
}

fn size<const LENGTH: usize>(share: u64) -> Size {
    Size {
        name: format!("img {LENGTH}"),
        share,
        open: Box::new(|soil| Box::new(Image::new(LENGTH, soil))),
    }
}

/// Which subjects pass.
#[derive(Clone, PartialEq, Eq)]
pub struct Passing(Vec<bool>);

impl Passing {
    pub fn none() -> Self {
        Self(vec![false; SUBJECTS])
    }

    pub fn of(subjects: impl Iterator<Item = u16>) -> Self {
        let mut passing = Self::none();
        subjects.for_each(|subject| passing.add(subject));
        passing
    }

    pub fn add(&mut self, subject: u16) {
        self.0[usize::from(subject)] = true;
    }

    pub fn remove(&mut self, first: u16, last: u16) {
        self.0[usize::from(first)..=usize::from(last)].fill(false);
    }

    fn has(&self, subject: u16) -> bool {
        self.0[usize::from(subject)]
    }

    /// An image's bytes: bit s mod 8 of byte s div 8 for the subject s.
    pub fn bytes(&self) -> Vec<u8> {
        let byte = |eight: &[bool]| (0..8).map(|bit| u8::from(eight[bit]) << bit).sum();
        self.0.chunks_exact(8).map(byte).collect()
    }

    fn read(bytes: &[u8]) -> Self {
        let bit = |&byte: &u8| (0..8).map(move |bit| byte >> bit & 1 == 1);
        Self(bytes.iter().flat_map(bit).collect())
    }

    pub fn words(&self) -> String {
        let passing: Vec<_> = (0..SUBJECTS).filter(|&subject| self.0[subject]).collect();
        format!("{passing:?}")
    }
}

/// A call that changed an image and, of the set that it left, whether the subjects at and beside its ends are in.
pub fn recorded(change: Call, passing: &Passing) -> Vec<(Call, Answer)> {
    let [a, b, ..] = change.args;
    let b = if change.op.code == ADD_SUBJECT { a } else { b };
    let mut asked = vec![a.saturating_sub(1), a, b, (b + 1).min(MOST_SUBJECT)];
    asked.dedup();
    let has = |subject| {
        let answer = Answer::flag(passing.has(subject as u16));
        (call(HAS_SUBJECT, &[subject]), answer)
    };
    let mut lines = vec![(change, Answer::DONE)];
    lines.extend(asked.into_iter().map(has));
    lines
}

struct Image {
    plain: Passing,
    lent: Lent,
}

impl Image {
    fn new(length: usize, soil: u64) -> Self {
        Self {
            plain: Passing::none(),
            lent: Lent::new(length, soil),
        }
    }

    /// What document 01 refuses: 3 before 4.
    fn refused(&self, call: Call) -> Option<Answer> {
        let [a, b, ..] = call.args;
        let past = a > MOST_SUBJECT || b > MOST_SUBJECT;
        if past || call.op.code == REMOVE_SUBJECT_RANGE && a > b {
            Some(Answer::refused(3))
        } else if self.lent.len() != LENGTH {
            Some(Answer::refused(4))
        } else {
            None
        }
    }
}

/// A subject, mostly one of a few, now and then one past the end.
fn draw_subject(rng: &mut Rng) -> u32 {
    if rng.one_in(30) {
        return rng.pick(&[8192, 8193, 65_535, 65_536, 65_536 + 7, u32::MAX]);
    }
    let any = rng.below(SUBJECTS as u64) as u32;
    rng.pick(&[any, any, 0, 1, 7, 8, 9, 15, 16, 8183, 8184, 8190, 8191])
}

/// Makes the call on an image through its export.
pub fn make(call: Call, image: &mut [u8]) -> Answer {
    let [a, b, ..] = call.args;
    match call.op.code {
        OPEN => exports::img_open(image),
        ADD_SUBJECT => exports::img_add_subject(image, a),
        REMOVE_SUBJECT_RANGE => exports::img_remove_subject_range(image, a, b),
        HAS_SUBJECT => exports::img_has_subject(image, a),
        code => unreachable!("call {code}"),
    }
}

impl Pair for Image {
    fn ops(&self) -> &'static [Op] {
        OPS
    }

    fn opening(&self) -> Call {
        call(OPEN, &[])
    }

    fn draw(&self, op: &'static Op, rng: &mut Rng) -> Call {
        let [a, b] = [draw_subject(rng), draw_subject(rng)];
        let near = a.saturating_add(rng.below(20) as u32);
        let last = rng.pick(&[b, near, near, a]);
        Call::new(op, &[a, last][..op.args])
    }

    fn every_call(&self) -> Vec<Call> {
        let ends = [0, 1, 7, 8, 8190, 8191, 8192, 65_536];
        let mut calls = vec![self.opening()];
        for first in ends {
            calls.extend([ADD_SUBJECT, HAS_SUBJECT].map(|code| call(code, &[first])));
            calls.extend(ends.map(|last| call(REMOVE_SUBJECT_RANGE, &[first, last])));
        }
        calls
    }

    fn unasked(&self, call: Call) -> Option<Answer> {
        self.refused(call)
    }

    /// Puts the call to the plain set.
    fn put(&mut self, call: Call) -> Answer {
        let [a, b] = [call.args[0] as u16, call.args[1] as u16];
        match call.op.code {
            OPEN => self.plain = Passing::none(),
            ADD_SUBJECT => self.plain.add(a),
            REMOVE_SUBJECT_RANGE => self.plain.remove(a, b),
            HAS_SUBJECT => return Answer::flag(self.plain.has(a)),
            code => unreachable!("call {code}"),
        }
        Answer::DONE
    }

    fn make(&mut self, call: Call) -> Answer {
        make(call, &mut self.lent)
    }

    fn lent(&self) -> &Lent {
        &self.lent
    }

    fn lay(&self, over: &mut [u8]) {
        if over.len() == LENGTH {
            over.copy_from_slice(&self.plain.bytes());
        }
    }

    fn rust_state(&self) -> String {
        self.plain.words()
    }

    fn our_state(&self) -> String {
        if self.lent.len() != LENGTH {
            return Passing::none().words();
        }
        Passing::read(&self.lent).words()
    }

    /// The Rust is never asked.
    fn ask(&mut self, call: Call) -> Expected {
        let refused = self.refused(call);
        Expected::Unasked(refused.unwrap_or_else(|| self.put(call)))
    }
}
