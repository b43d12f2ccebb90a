//! An answer as the exports pack it, and the one that each of the Rust's results stands for.

use emcyphal::registry::RegistrationError;
use emcyphal_driver::link::FilterUpdate;
use std::fmt;

/// Number, what, first and second, packed as the exports pack them.
#[derive(Clone, Copy, PartialEq, Eq)]
pub struct Answer(pub u64);

impl Answer {
    pub const DONE: Answer = Answer(0);

    pub const fn new(number: u8, what: u8, first: u16, second: u32) -> Self {
        Self(number as u64 | (what as u64) << 8 | (first as u64) << 16 | (second as u64) << 32)
    }

    pub const fn refused(number: u8) -> Self {
        Self::new(number, 0, 0, 0)
    }

    pub const fn flag(what: bool) -> Self {
        Self::new(0, what as u8, 0, 0)
    }

    pub const fn first(first: u16) -> Self {
        Self::new(0, 0, first, 0)
    }

    pub fn found<T: Into<u16>>(found: Option<T>) -> Self {
        found.map_or(Self::DONE, |first| Self::new(0, 1, first.into(), 0))
    }

    pub fn value(found: Option<u32>) -> Self {
        found.map_or(Self::DONE, |second| Self::new(0, 1, 0, second))
    }

    pub fn number(self) -> u8 {
        self.0 as u8
    }

    /// What, first and second.
    pub fn fields(self) -> (u8, u16, u32) {
        let Self(bits) = self;
        ((bits >> 8) as u8, (bits >> 16) as u16, (bits >> 32) as u32)
    }
}

impl fmt::Display for Answer {
    fn fmt(&self, f: &mut fmt::Formatter) -> fmt::Result {
        let (what, first, second) = self.fields();
        write!(
            f,
            "number {} what {what} first {first} second {second}",
            self.number()
        )
    }
}

pub fn registered(result: Result<(), RegistrationError>) -> Answer {
    match result {
        Ok(()) => Answer::DONE,
        Err(RegistrationError::NoSubjectSlotLeft) => Answer::refused(6),
        Err(RegistrationError::DataSpecifierOccupied) => Answer::refused(7),
    }
}

/// The entry that got the frame, and whether more follow.
pub fn pushed((entry, more): (Option<u8>, bool)) -> Answer {
    match entry {
        Some(entry) => Answer::new(0, 1, entry.into(), more.into()),
        None => Answer::new(0, 0, 0, more.into()),
    }
}

pub fn update(update: Option<FilterUpdate>) -> Answer {
    match update {
        None => Answer::DONE,
        Some(FilterUpdate::AddSubject(subject)) => Answer::new(0, 1, subject.into(), 0),
        Some(FilterUpdate::RemoveSubjectRange([first, last])) => {
            Answer::new(0, 2, first.into(), u16::from(last).into())
        }
    }
}
