//! The Rust for driver/bench: each kind of registry and queue, and the leaves, with the calls by the
//! exports' names and on the numbers that these take. Built against the oracle's libraries.
#[allow(dead_code)]
#[path = "../oracle/src/answer.rs"]
mod answer;

use answer::{Answer, pushed, registered, update};
use emcyphal::core::{NodeId, Priority, PrioritySet, ServiceId, SubjectId, TransferId};
use emcyphal::format::{TailByte, is_eot_frame};
use emcyphal::frame::{DataSpecifier, Frame, Header};
use emcyphal::marker::{Message, Response};
use emcyphal::registry::probe::{LoopBack, Regular, Report, Requests, Tree, TxKind, TxSide};
use emcyphal::utils::IndexQueue;
use emcyphal::utils::probe::MultiClassQueue;
use std::cell::RefCell;
use std::ffi::{CStr, c_char, c_void};

const MOST_NUMBERS: usize = 5;
type Numbers = [u32; MOST_NUMBERS];
type Call = extern "C" fn(*mut c_void, &Numbers) -> u64;

/// A kind at one size: how one is made and dropped, and its calls.
#[repr(C)]
pub struct Kind {
    make: extern "C" fn(&Numbers) -> *mut c_void,
    drop: extern "C" fn(*mut c_void),
    call: extern "C" fn(*const c_char) -> Option<Call>,
}

fn text<'a>(name: *const c_char) -> &'a str {
    // Safety: C hands over a literal
    let name = unsafe { CStr::from_ptr(name) };
    name.to_str().expect("letters")
}

/// The state's type, how one is made from the numbers, and what each call answers.
macro_rules! kind {
    ($state:ty, |$n:ident| $made:expr, |$it:ident| { $($name:literal: $answer:expr,)* }) => {{
        #[allow(unused_variables)]
        extern "C" fn make($n: &Numbers) -> *mut c_void {
            let made: $state = $made;
            Box::into_raw(Box::new(made)).cast()
        }
        extern "C" fn drop(made: *mut c_void) {
            // Safety: it comes from `make`, and is dropped once
            let _ = unsafe { Box::from_raw(made.cast::<$state>()) };
        }
        extern "C" fn call(name: *const c_char) -> Option<Call> {
            match text(name) {
                $($name => {
                    #[allow(unused_variables)]
                    extern "C" fn call(made: *mut c_void, $n: &Numbers) -> u64 {
                        // Safety: it comes from `make`, and nobody else has it
                        let $it = unsafe { &mut *made.cast::<$state>() };
                        let Answer(answer) = $answer;
                        answer
                    }
                    Some(call)
                })*
                _ => None,
            }
        }
        &Kind { make, drop, call }
    }};
}

fn done((): ()) -> Answer {
    Answer::DONE
}

fn done_or_no_key<E>(result: Result<(), E>) -> Answer {
    result.map_or(Answer::refused(15), done)
}

// ------------------------------------------------------------------------
// Registries
// ------------------------------------------------------------------------

fn regular() -> &'static Kind {
    kind!(Regular, |n| Regular::new(n[0] as usize), |it| {
        "reg_open": done(it.open(n[0] as usize)),
        "reg_register": registered(it.register(n[0] as u8, n[1] as u16)),
        "reg_unregister": done(it.unregister(n[0] as u8)),
        "reg_poll_pop": update(it.poll_pop()),
        "reg_hub_push_start": Answer::flag(it.hub_push_start(n[0] as u16)),
        "reg_hub_push_next": pushed(it.hub_push_next()),
    })
}

fn loop_back() -> &'static Kind {
    kind!(LoopBack, |n| LoopBack::new(0), |it| {
        "lb_open": done(it.open(0)),
        "lb_register": registered(it.register(n[0] as u8, n[1] as u16)),
        "lb_unregister": done(it.unregister(n[0] as u8)),
        "lb_hub_push_start": Answer::flag(it.hub_push_start(n[0] as u16)),
        "lb_hub_push_next": pushed(it.hub_push_next()),
    })
}

fn requests() -> &'static Kind {
    kind!(Requests, |n| Requests::of(&Tree::default()), |it| {
        "req_open": done(it.open()),
        "req_register": registered(it.register(n[0] as u8, n[1] as u16, false)),
        "req_unregister": done(it.unregister(n[0] as u8)),
        "req_poll_push": Answer::found(it.poll_push(n[0] as u16, n[1] != 0)),
    })
}

/// A frame of a length that every pick allows.
fn frame() -> Frame {
    let header = Header {
        priority: Priority::Nominal,
        data_spec: DataSpecifier::Message(SubjectId::MAX),
    };
    Frame {
        header,
        data: vec![0; FRAME_LENGTH],
        loop_back: false,
    }
}

const FRAME_LENGTH: usize = 8;

/// A transmit registry; the pick whose settlement is awaited, as the Rust makes both in one call;
/// and the frame that goes out again and again, so that none is made anew.
struct Sending<K: TxKind> {
    side: TxSide<K>,
    mask: u8,
    mtu: u8,
    frame: Option<Frame>,
}

impl<K: TxKind> Sending<K> {
    fn new() -> Self {
        Self {
            side: TxSide::new(),
            mask: 0,
            mtu: 0,
            frame: Some(frame()),
        }
    }

    fn pick(&mut self, n: &Numbers) -> Answer {
        (self.mask, self.mtu) = (n[0] as u8, n[1] as u8);
        Answer::DONE
    }

    /// The frame that a settlement reports.
    fn reported(&mut self, n: &Numbers) -> Option<Frame> {
        let [is_frame, _, priority, length, last] = *n;
        if is_frame == 0 {
            return None;
        }
        let mut frame = self.frame.take().expect("it comes back");
        assert_eq!(length as usize, FRAME_LENGTH);
        frame.header.priority = Priority::from_u8_truncating(priority as u8);
        frame.data[FRAME_LENGTH - 1] = last as u8;
        Some(frame)
    }

    /// The pick and its settlement: the entry that was asked.
    fn settle(&mut self, n: &Numbers) -> Answer {
        let report = Report {
            readiness: n[1] as u8,
            frame: self.reported(n),
        };
        let (asked, frame) = self.side.poll_pop(self.mask, self.mtu, report);
        self.frame = frame.or(self.frame.take());
        Answer::first(asked.map_or(0, |asked| asked.entry.into()))
    }
}

fn messages() -> &'static Kind {
    kind!(Sending<Message>, |n| Sending::new(), |it| {
        "txm_open": done(it.side.open()),
        "txm_register": registered(it.side.register(n[0] as u8, n[1] as u16, n[2] as u8)),
        "txm_unregister": done(it.side.unregister(n[0] as u8)),
        "txm_update": done(it.side.update(n[0] as u8, n[1] as u8)),
        "txm_pick": it.pick(n),
        "txm_settle": it.settle(n),
    })
}

fn responses() -> &'static Kind {
    kind!(Sending<Response>, |n| Sending::new(), |it| {
        "txr_open": done(it.side.open()),
        "txr_register": registered(it.side.register(n[0] as u8, 0, n[1] as u8)),
        "txr_unregister": done(it.side.unregister(n[0] as u8)),
        "txr_update": done(it.side.update(n[0] as u8, n[1] as u8)),
        "txr_pick": it.pick(n),
        "txr_settle": it.settle(n),
    })
}

// ------------------------------------------------------------------------
// Queues
// ------------------------------------------------------------------------

macro_rules! lists {
    ($classes:literal, $entries:literal) => {
        kind!(MultiClassQueue<$classes, $entries>, |n| MultiClassQueue::new(), |it| {
            "mcq_open": done(*it = MultiClassQueue::new()),
            "mcq_front": Answer::found(it.front(n[0] as u8)),
            "mcq_back": Answer::found(it.back(n[0] as u8)),
            "mcq_is_empty": Answer::flag(it.is_empty(n[0] as u8)),
            "mcq_is_front": Answer::found(it.is_front(n[0] as u8)),
            "mcq_is_back": Answer::found(it.is_back(n[0] as u8)),
            "mcq_remove": done(it.remove(n[0] as u8)),
            "mcq_move_front": done(it.move_front(n[0] as u8, n[1] as u8)),
            "mcq_move_back": done(it.move_back(n[0] as u8, n[1] as u8)),
        })
    };
}

fn stored(place: Option<&mut u32>, value: u32) -> Answer {
    Answer::flag(place.map(|place| *place = value).is_some())
}

fn inserted(result: Result<Option<u32>, (u16, u32)>) -> Answer {
    match result {
        Ok(handed_back) => Answer::value(handed_back),
        Err((key, value)) => Answer::new(14, 0, key, value),
    }
}

macro_rules! keys {
    ($k_max:literal, $entries:literal) => {
        kind!(IndexQueue<u16, u32, $k_max, $entries>, |n| IndexQueue::new(), |it| {
            "iq_open": done(*it = IndexQueue::new()),
            "iq_contains": Answer::flag(it.contains(n[0] as u16)),
            "iq_get": Answer::value(it.get(n[0] as u16).copied()),
            "iq_get_mut": stored(it.get_mut(n[0] as u16), n[1]),
            "iq_insert": inserted(it.insert(n[0] as u16, n[1])),
            "iq_remove": Answer::value(it.remove(n[0] as u16)),
            "iq_front": Answer::found(it.front()),
            "iq_back": Answer::found(it.back()),
            "iq_enqueue_front": done_or_no_key(it.enqueue_front(n[0] as u16)),
            "iq_enqueue_back": done_or_no_key(it.enqueue_back(n[0] as u16)),
            "iq_dequeue": done_or_no_key(it.dequeue(n[0] as u16)),
        })
    };
}

// ------------------------------------------------------------------------
// Leaves
// ------------------------------------------------------------------------

fn byte(first: u8) -> Answer {
    Answer::first(first.into())
}

fn bits(set: PrioritySet) -> Answer {
    byte(set.into_bits())
}

fn level(number: u32) -> Priority {
    Priority::try_from_u8(number as u8).expect("a priority")
}

fn set(number: u32) -> PrioritySet {
    PrioritySet::from_bits(number as u8)
}

fn changed(mut set: PrioritySet, change: impl FnOnce(&mut PrioritySet)) -> Answer {
    change(&mut set);
    bits(set)
}

fn priority(found: Option<Priority>) -> Answer {
    Answer::found(found.map(Priority::into_u8))
}

fn tail(number: u32) -> TailByte {
    TailByte::from(number as u8)
}

thread_local! {
    static FRAME: RefCell<Frame> = RefCell::new(frame());
}

fn ends(last: u32) -> Answer {
    FRAME.with_borrow_mut(|frame| {
        frame.data[FRAME_LENGTH - 1] = last as u8;
        Answer::found(is_eot_frame(frame))
    })
}

fn leaves() -> &'static Kind {
    kind!((), |n| (), |it| {
        "subject_id_new": Answer::found(SubjectId::new(n[0] as u16)),
        "service_id_new": Answer::found(ServiceId::new(n[0] as u16)),
        "node_id_new": Answer::found(NodeId::new(n[0] as u8).map(u8::from)),
        "transfer_id_new": Answer::found(TransferId::new(n[0] as u8).map(u8::from)),
        "priority_try_from_u8": priority(Priority::try_from_u8(n[0] as u8)),
        "subject_id_from_u16_truncating":
            Answer::first(SubjectId::from_u16_truncating(n[0] as u16).into()),
        "service_id_from_u16_truncating":
            Answer::first(ServiceId::from_u16_truncating(n[0] as u16).into()),
        "node_id_from_u8_truncating": byte(NodeId::from_u8_truncating(n[0] as u8).into()),
        "transfer_id_from_u8_truncating": byte(TransferId::from_u8_truncating(n[0] as u8).into()),
        "priority_from_u8_truncating": byte(Priority::from_u8_truncating(n[0] as u8).into()),
        "transfer_id_next": byte(TransferId::from_u8_truncating(n[0] as u8).next().into()),
        "priority_next": priority(level(n[0]).next()),
        "priority_prev": priority(level(n[0]).prev()),
        "priority_set_new_eq": bits(PrioritySet::new_eq(level(n[0]))),
        "priority_set_new_ge": bits(PrioritySet::new_ge(level(n[0]))),
        "priority_set_new_le": bits(PrioritySet::new_le(level(n[0]))),
        "priority_set_new_gt": bits(PrioritySet::new_gt(level(n[0]))),
        "priority_set_new_lt": bits(PrioritySet::new_lt(level(n[0]))),
        "priority_set_contains": Answer::flag(set(n[0]).contains(level(n[1]))),
        "priority_set_insert": changed(set(n[0]), |set| set.insert(level(n[1]))),
        "priority_set_remove": changed(set(n[0]), |set| set.remove(level(n[1]))),
        "priority_set_first": priority(set(n[0]).first()),
        "priority_set_last": priority(set(n[0]).last()),
        "priority_set_is_empty": Answer::flag(set(n[0]).is_empty()),
        "priority_set_complement": bits(set(n[0]).complement()),
        "priority_set_not": bits(!set(n[0])),
        "priority_set_bitand": bits(set(n[0]) & set(n[1])),
        "priority_set_bitor": bits(set(n[0]) | set(n[1])),
        "priority_set_iter_next": priority(set(n[0]).into_iter().next()),
        "tail_byte_new": byte(TailByte::new(
            n[0] != 0, n[1] != 0, n[2] != 0, TransferId::from_u8_truncating(n[3] as u8),
        ).into()),
        "tail_byte_sot": Answer::flag(tail(n[0]).sot()),
        "tail_byte_eot": Answer::flag(tail(n[0]).eot()),
        "tail_byte_toggle": Answer::flag(tail(n[0]).toggle()),
        "tail_byte_transfer_id": byte(tail(n[0]).transfer_id().into()),
        "is_eot_frame": ends(n[0]),
    })
}

/// The kind of this name, with so many entries at most.
#[unsafe(no_mangle)]
pub extern "C" fn rust_kind(name: *const c_char, entries: u32) -> Option<&'static Kind> {
    Some(match (text(name), entries) {
        ("reg", 128) => regular(),
        ("lb", 128) => loop_back(),
        ("req", 128) => requests(),
        ("txm", 128) => messages(),
        ("txr", 128) => responses(),
        ("mcq", 128) => lists!(16, 128),
        ("mcq", 224) => lists!(32, 224),
        ("iq", 128) => keys!(255, 128),
        ("iq", 222) => keys!(8191, 222),
        ("leaves", _) => leaves(),
        _ => return None,
    })
}
