//! The leaves, over all their inputs: ids, priorities, priority sets, the tail byte, end of transfer.

use crate::exports::{self, Answer};
use crate::pair::ops;
use crate::tally::{Expected, Tally};
use emcyphal::format::{TailByte, is_eot_frame};
use emcyphal_core::{NodeId, Priority, PrioritySet, ServiceId, SubjectId, TransferId};
use emcyphal_driver::frame::{DataSpecifier, Frame, Header};

ops! { "leaves":
    IS_EOT_FRAME = 50 "is_eot_frame" 2 Read;
}

pub fn compare(tally: &mut Tally) -> Result<(), String> {
    let mut leaves = Leaves {
        kind: "leaves",
        tally,
    };
    ids(&mut leaves)?;
    priorities(&mut leaves)?;
    priority_sets(&mut leaves)?;
    tail_bytes(&mut leaves)?;
    frames(&mut leaves)
}

type Compared = Result<(), String>;

/// Compares calls that have no state, and counts them under a kind's name.
pub struct Leaves<'a> {
    pub kind: &'static str,
    pub tally: &'a mut Tally,
}

impl Leaves<'_> {
    /// One call: what was given, what ours answered, what it must answer.
    pub fn check(
        &mut self,
        name: &'static str,
        given: &[u32],
        ours: Answer,
        expected: Expected,
    ) -> Compared {
        if ours != expected.answer() {
            return Err(format!(
                "difference at {name} {given:?}: ours {ours}\n   expected {}",
                expected.answer()
            ));
        }
        self.tally.agreed(self.kind, name, expected);
        Ok(())
    }

    fn each16(
        &mut self,
        name: &'static str,
        ours: fn(u16) -> Answer,
        rust: impl Fn(u16) -> Answer,
    ) -> Compared {
        (0..=u16::MAX)
            .try_for_each(|x| self.check(name, &[x.into()], ours(x), Expected::Asked(rust(x))))
    }

    fn each8(
        &mut self,
        name: &'static str,
        ours: fn(u8) -> Answer,
        rust: impl Fn(u8) -> Answer,
    ) -> Compared {
        (0..=u8::MAX)
            .try_for_each(|x| self.check(name, &[x.into()], ours(x), Expected::Asked(rust(x))))
    }

    fn each_pair(
        &mut self,
        name: &'static str,
        ours: fn(u8, u8) -> Answer,
        rust: impl Fn(u8, u8) -> Expected,
    ) -> Compared {
        for (x, y) in (0..=u8::MAX).flat_map(|x| (0..=u8::MAX).map(move |y| (x, y))) {
            self.check(name, &[x.into(), y.into()], ours(x, y), rust(x, y))?;
        }
        Ok(())
    }

    /// All numbers as a priority; above 7 it is 3, and the Rust's type has no such value.
    fn each_priority(
        &mut self,
        name: &'static str,
        ours: fn(u8) -> Answer,
        rust: impl Fn(Priority) -> Answer,
    ) -> Compared {
        (0..=u8::MAX)
            .try_for_each(|x| self.check(name, &[x.into()], ours(x), with_priority(x, &rust)))
    }
}

fn with_priority(code: u8, rust: impl Fn(Priority) -> Answer) -> Expected {
    match Priority::try_from_u8(code) {
        Some(priority) => Expected::Asked(rust(priority)),
        None => Expected::Unasked(Answer::refused(3)),
    }
}

fn byte(first: u8) -> Answer {
    Answer::first(first.into())
}

fn bits(set: PrioritySet) -> Answer {
    byte(set.into_bits())
}

fn priority(found: Option<Priority>) -> Answer {
    Answer::found(found.map(Priority::into_u8))
}

fn ids(leaves: &mut Leaves) -> Compared {
    use exports as x;
    leaves.each16("subject_id_new", x::subject_id_new, |v| {
        Answer::found(SubjectId::new(v))
    })?;
    leaves.each16("service_id_new", x::service_id_new, |v| {
        Answer::found(ServiceId::new(v))
    })?;
    leaves.each8("node_id_new", x::node_id_new, |v| {
        Answer::found(NodeId::new(v).map(u8::from))
    })?;
    leaves.each8("transfer_id_new", x::transfer_id_new, |v| {
        Answer::found(TransferId::new(v).map(u8::from))
    })?;
    leaves.each16(
        "subject_id_from_u16_truncating",
        x::subject_id_from_u16_truncating,
        |v| Answer::first(SubjectId::from_u16_truncating(v).into()),
    )?;
    leaves.each16(
        "service_id_from_u16_truncating",
        x::service_id_from_u16_truncating,
        |v| Answer::first(ServiceId::from_u16_truncating(v).into()),
    )?;
    leaves.each8(
        "node_id_from_u8_truncating",
        x::node_id_from_u8_truncating,
        |v| byte(NodeId::from_u8_truncating(v).into()),
    )?;
    leaves.each8(
        "transfer_id_from_u8_truncating",
        x::transfer_id_from_u8_truncating,
        |v| byte(TransferId::from_u8_truncating(v).into()),
    )?;
    leaves.each8("transfer_id_next", x::transfer_id_next, |v| {
        byte(TransferId::from_u8_truncating(v).next().into())
    })
}

fn priorities(leaves: &mut Leaves) -> Compared {
    use exports as x;
    leaves.each8("priority_try_from_u8", x::priority_try_from_u8, |v| {
        priority(Priority::try_from_u8(v))
    })?;
    leaves.each8(
        "priority_from_u8_truncating",
        x::priority_from_u8_truncating,
        |v| byte(Priority::from_u8_truncating(v).into()),
    )?;
    leaves.each_priority("priority_next", x::priority_next, |p| priority(p.next()))?;
    leaves.each_priority("priority_prev", x::priority_prev, |p| priority(p.prev()))
}

fn priority_sets(leaves: &mut Leaves) -> Compared {
    use exports as x;
    let set = PrioritySet::from_bits;
    leaves.each_priority("priority_set_new_eq", x::priority_set_new_eq, |p| {
        bits(PrioritySet::new_eq(p))
    })?;
    leaves.each_priority("priority_set_new_ge", x::priority_set_new_ge, |p| {
        bits(PrioritySet::new_ge(p))
    })?;
    leaves.each_priority("priority_set_new_le", x::priority_set_new_le, |p| {
        bits(PrioritySet::new_le(p))
    })?;
    leaves.each_priority("priority_set_new_gt", x::priority_set_new_gt, |p| {
        bits(PrioritySet::new_gt(p))
    })?;
    leaves.each_priority("priority_set_new_lt", x::priority_set_new_lt, |p| {
        bits(PrioritySet::new_lt(p))
    })?;
    leaves.each_pair("priority_set_contains", x::priority_set_contains, |a, p| {
        with_priority(p, |p| Answer::flag(set(a).contains(p)))
    })?;
    leaves.each_pair("priority_set_insert", x::priority_set_insert, |a, p| {
        with_priority(p, |p| changed(a, |set| set.insert(p)))
    })?;
    leaves.each_pair("priority_set_remove", x::priority_set_remove, |a, p| {
        with_priority(p, |p| changed(a, |set| set.remove(p)))
    })?;
    leaves.each8("priority_set_first", x::priority_set_first, |a| {
        priority(set(a).first())
    })?;
    leaves.each8("priority_set_last", x::priority_set_last, |a| {
        priority(set(a).last())
    })?;
    leaves.each8("priority_set_is_empty", x::priority_set_is_empty, |a| {
        Answer::flag(set(a).is_empty())
    })?;
    leaves.each8("priority_set_complement", x::priority_set_complement, |a| {
        bits(set(a).complement())
    })?;
    leaves.each8("priority_set_not", x::priority_set_not, |a| bits(!set(a)))?;
    leaves.each_pair("priority_set_bitand", x::priority_set_bitand, |a, b| {
        Expected::Asked(bits(set(a) & set(b)))
    })?;
    leaves.each_pair("priority_set_bitor", x::priority_set_bitor, |a, b| {
        Expected::Asked(bits(set(a) | set(b)))
    })?;
    leaves.each8(
        "priority_set_iter_next",
        x::priority_set_iter_next,
        iterated,
    )
}

fn changed(a: u8, change: impl Fn(&mut PrioritySet)) -> Answer {
    let mut set = PrioritySet::from_bits(a);
    change(&mut set);
    bits(set)
}

/// The iterator's first priority and, since its field is private, the set of those it gives after.
fn iterated(a: u8) -> Answer {
    let mut rest = PrioritySet::from_bits(a).into_iter();
    rest.next().map_or(Answer::DONE, |first| {
        let left = rest.fold(0, |left, p| left | 1 << p.into_u8());
        Answer::new(0, 1, first.into_u8().into(), left)
    })
}

fn tail_bytes(leaves: &mut Leaves) -> Compared {
    use exports as x;
    let flags = [0, 1, 2, 32, 64, 127, 128, 255];
    for sot in flags {
        for eot in flags {
            for toggle in flags {
                (0..=u8::MAX).try_for_each(|id| tail_byte_new(leaves, sot, eot, toggle, id))?;
            }
        }
    }
    leaves.each8("tail_byte_sot", x::tail_byte_sot, |b| {
        Answer::flag(TailByte::from(b).sot())
    })?;
    leaves.each8("tail_byte_eot", x::tail_byte_eot, |b| {
        Answer::flag(TailByte::from(b).eot())
    })?;
    leaves.each8("tail_byte_toggle", x::tail_byte_toggle, |b| {
        Answer::flag(TailByte::from(b).toggle())
    })?;
    leaves.each8("tail_byte_transfer_id", x::tail_byte_transfer_id, |b| {
        byte(TailByte::from(b).transfer_id().into())
    })
}

/// A flag is set where it is not 0, and the id is truncated.
fn tail_byte_new(leaves: &mut Leaves, sot: u8, eot: u8, toggle: u8, id: u8) -> Compared {
    let rust = TailByte::new(
        sot != 0,
        eot != 0,
        toggle != 0,
        TransferId::from_u8_truncating(id),
    );
    let ours = exports::tail_byte_new(sot, eot, toggle, id);
    let given = [sot, eot, toggle, id].map(u32::from);
    leaves.check(
        "tail_byte_new",
        &given,
        ours,
        Expected::Asked(byte(rust.into())),
    )
}

const LONGEST_FRAME: usize = 64;

fn frames(leaves: &mut Leaves) -> Compared {
    for length in 0..=LONGEST_FRAME {
        for last in 0..=u8::MAX {
            let data = frame_data(length, last);
            let ours = exports::is_eot_frame(&data);
            let given = [length as u32, last.into()];
            leaves.check(
                "is_eot_frame",
                &given,
                ours,
                Expected::Asked(rust_is_eot_frame(&data)),
            )?;
        }
    }
    Ok(())
}

/// A frame whose other bytes say the opposite of its last one.
fn frame_data(length: usize, last: u8) -> Vec<u8> {
    let mut data = vec![!last; length];
    if let Some(place) = data.last_mut() {
        *place = last;
    }
    data
}

fn rust_is_eot_frame(data: &[u8]) -> Answer {
    let header = Header {
        priority: Priority::Nominal,
        data_spec: DataSpecifier::Message(SubjectId::MAX),
    };
    let frame = Frame {
        header,
        data: data.to_vec(),
        loop_back: false,
    };
    Answer::found(is_eot_frame(&frame))
}

/// What the Rust says of a recorded `is_eot_frame LENGTH LAST`.
pub fn recorded_eot(length: u32, last: u32) -> Answer {
    rust_is_eot_frame(&frame_data(length as usize, last as u8))
}
