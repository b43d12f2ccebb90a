//! Demand 3 at run time: document 01's lists *waiting* and *active*, which the calls and their answers alone move, and the filter
//! that the updates make.

use crate::exports::Answer;
use crate::image::{self, MOST_SUBJECT, Passing};
use crate::pair::Call;
use crate::regular::{OPEN, POLL_POP, REGISTER, UNREGISTER};
use emcyphal::registry::probe::{Listed, Seen, State};

#[derive(Clone)]
pub struct Demand {
    waiting: Vec<Listed>,
    active: Vec<Listed>,
    /// Updates of the polls in a row.
    updates: usize,
    pub passing: Passing,
}

fn has_subject(list: &[Listed], subject: u16) -> bool {
    list.iter().any(|listed| listed.1 == subject)
}

impl Demand {
    pub fn new() -> Self {
        Self {
            waiting: Vec::new(),
            active: Vec::new(),
            updates: 0,
            passing: Passing::none(),
        }
    }

    /// After a call: the call on the image that it asks for, or how it breaks demand 3.
    pub fn told(&mut self, call: Call, answer: Answer) -> Result<Option<Call>, String> {
        if answer.number() != 0 {
            return Ok(None);
        }
        if call.op.code == POLL_POP {
            return self.polled(answer);
        }
        self.updates = 0;
        let [a, b, ..] = call.args;
        match call.op.code {
            OPEN => {
                *self = Self::new();
                return Ok(Some(image::call(image::OPEN, &[])));
            }
            REGISTER => self.join((a as u8, b as u16)),
            UNREGISTER => self.leave(a as u8),
            _ => (),
        }
        Ok(None)
    }

    fn join(&mut self, listed: Listed) {
        let subject = listed.1;
        if has_subject(&self.active, subject) && !has_subject(&self.waiting, subject) {
            self.active.push(listed);
        } else {
            self.waiting.push(listed);
        }
    }

    fn leave(&mut self, entry: u8) {
        self.waiting.retain(|listed| listed.0 != entry);
        self.active.retain(|listed| listed.0 != entry);
    }

    /// From the front of waiting to active, until one has brought a subject new there or none is left.
    fn activate(&mut self) {
        let is_known = |&(_, subject): &Listed| has_subject(&self.active, subject);
        let known = self
            .waiting
            .iter()
            .take_while(|listed| is_known(listed))
            .count();
        let moved = (known + 1).min(self.waiting.len());
        self.active.extend(self.waiting.drain(..moved));
    }

    fn polled(&mut self, answer: Answer) -> Result<Option<Call>, String> {
        let (what, first, second) = answer.fields();
        if what == 0 {
            return self.nothing().map(|()| None);
        }
        let entries = self.waiting.len() + self.active.len();
        self.updates += 1;
        if self.updates > entries + 1 {
            return Err(format!(
                "{} updates in a row, {entries} entries",
                self.updates
            ));
        }
        if u32::from(first).max(second) > MOST_SUBJECT {
            return Err("an update past subject 8,191".into());
        }
        if what == 1 {
            self.activate();
            self.passing.add(first);
            return Ok(Some(image::call(image::ADD_SUBJECT, &[first.into()])));
        }
        self.removed(first, second as u16)
    }

    /// No removal covers the subject of an active entry.
    fn removed(&mut self, first: u16, last: u16) -> Result<Option<Call>, String> {
        let covered = |listed: &&Listed| (first..=last).contains(&listed.1);
        if let Some((entry, subject)) = self.active.iter().find(covered) {
            return Err(format!("a removal over {subject}, which entry {entry} has"));
        }
        self.passing.remove(first, last);
        let args = [first, last].map(u32::from);
        Ok(Some(image::call(image::REMOVE_SUBJECT_RANGE, &args)))
    }

    /// At 'nothing' the registered subjects pass, and no other.
    fn nothing(&mut self) -> Result<(), String> {
        self.activate();
        self.updates = 0;
        let registered = self.waiting.iter().chain(&self.active);
        if self.passing == Passing::of(registered.map(|listed| listed.1)) {
            return Ok(());
        }
        Err(format!("at 'nothing' these pass: {}", self.passing.words()))
    }

    /// The lists are the Rust's activation queue and, in any order, its active entries.
    pub fn compare(&self, state: &State) -> Result<(), String> {
        let waiting = self.waiting.iter().map(|listed| listed.0);
        let mut active = self.active.clone();
        let mut rust: Vec<_> = state.active.iter().map(Seen::listed).collect();
        active.sort();
        rust.sort();
        if waiting.eq(state.activation.iter().copied()) && active == rust {
            return Ok(());
        }
        Err(format!("waiting {:?}, active {active:?}", self.waiting))
    }
}
