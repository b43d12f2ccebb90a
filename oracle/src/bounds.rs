//! Sequences at the registries' limits. The regular registry's: all 128 entries inactive, active, on
//! one subject or each on its own, as many marks as there can be, walks over all with removals under
//! way, and the ends of the subjects. The other receivers': what they have of these. The transmitters':
//! all 128 entries in one queue, in all, and in none.

use crate::pair::{Call, Size};
use crate::registry::ALL;
use crate::regular::{
    self, HUB_PUSH_NEXT, HUB_PUSH_START, OPEN, POLL_POP, REGISTER, UNREGISTER, call,
};
use crate::transmit_calls::{self as tx, Transmit};
use crate::{loop_back, requests, transmit};
use emcyphal::marker::{Message, Response};

const ENTRIES: u32 = 128;
const ENDS: [u32; 4] = [0, 1, 8190, 8191];

/// Each sequence with a size at which it is run.
pub fn sequences() -> Vec<(Size, Vec<Call>)> {
    let mut sequences = Vec::new();
    for calls in regular_sequences() {
        let looped_back = calls.iter().filter_map(loop_back_call).collect();
        let requests = calls.iter().filter_map(request_call).collect();
        sequences.push((regular::size::<128, ENTRIES, ALL>(0), calls));
        sequences.push((loop_back::size::<ENTRIES, ALL>(0), looped_back));
        sequences.push((requests::size::<ENTRIES, ALL>(0), requests));
    }
    sequences.extend(transmit_sequences::<Message>());
    sequences.extend(transmit_sequences::<Response>());
    sequences
}

/// The call of that name on loop-back reception, which has no polls.
fn loop_back_call(call: &Call) -> Option<Call> {
    let op = loop_back::OPS.iter().find(|op| op.name == call.op.name)?;
    Some(Call::new(op, &call.args[..op.args]))
}

/// Sixteen subjects make a service, and a walk is a frame.
fn request_call(call: &Call) -> Option<Call> {
    let [a, b, ..] = call.args;
    match call.op.code {
        OPEN => Some(requests::call(requests::OPEN, &[])),
        REGISTER => Some(requests::call(requests::REGISTER, &[a, b / 16])),
        UNREGISTER => Some(requests::call(requests::UNREGISTER, &[a])),
        HUB_PUSH_START => Some(requests::call(requests::POLL_PUSH, &[a / 16, 0])),
        _ => None,
    }
}

fn regular_sequences() -> Vec<Vec<Call>> {
    let mut sequences = vec![
        each_on_its_own(|entry| 64 * entry),
        each_on_its_own(|entry| 8191 - 64 * entry),
        each_on_its_own(|entry| 64 * (entry * 37 % ENTRIES)),
        each_on_its_own(|entry| entry),
        each_on_its_own(|entry| 8064 + entry),
        one_after_another(),
    ];
    sequences.extend(ENDS.map(all_on_one));
    for first in ENDS {
        sequences.extend(ENDS.map(|second| ends(first, second)));
    }
    sequences
}

fn open(slots: u32) -> Call {
    call(OPEN, &[slots])
}

fn polls(times: u32) -> Vec<Call> {
    vec![call(POLL_POP, &[]); times as usize]
}

fn walk(subject: u32, steps: u32) -> Vec<Call> {
    let mut calls = vec![call(HUB_PUSH_NEXT, &[]); steps as usize + 1];
    calls[0] = call(HUB_PUSH_START, &[subject]);
    calls
}

fn removals(entries: impl Iterator<Item = u32>) -> impl Iterator<Item = Call> {
    entries.map(|entry| call(UNREGISTER, &[entry]))
}

/// 128 inactive, then 128 active heads; every other one removed, which marks the rest; those come back behind the marks.
fn each_on_its_own(subject: impl Fn(u32) -> u32) -> Vec<Call> {
    let register = |entry| call(REGISTER, &[entry, subject(entry)]);
    let even = || (0..ENTRIES).step_by(2);
    let odd = || (1..ENTRIES).step_by(2);
    let mut calls = vec![open(ENTRIES)];
    calls.extend((0..ENTRIES).map(register));
    calls.extend(walk(subject(0), 1));
    calls.extend(polls(ENTRIES + 1));
    calls.extend((0..ENTRIES).flat_map(|entry| walk(subject(entry), 2)));
    calls.extend(removals(even()));
    calls.extend(even().map(register));
    calls.extend(walk(subject(ENTRIES - 1), 0));
    calls.extend(polls(ENTRIES + 2));
    calls.extend(removals(odd()));
    calls.extend(polls(3));
    calls.extend(odd().rev().map(register));
    calls.extend(removals((0..ENTRIES).rev()));
    calls.extend(polls(ENTRIES + 2));
    calls
}

/// 128 entries on one subject: one poll adds it, the next finds nothing and makes the other 127 active. Walks over all of them, with
/// removals of the entry pointed at, of others before and after it, and of the head.
fn all_on_one(subject: u32) -> Vec<Call> {
    let mut calls = vec![open(1)];
    calls.extend((0..ENTRIES).map(|entry| call(REGISTER, &[entry, subject])));
    calls.extend(walk(subject, 1));
    calls.extend(polls(1));
    calls.extend(walk(subject, 2));
    calls.extend(polls(2));
    calls.extend(walk(subject, ENTRIES + 1));
    calls.extend(walk(subject, 40));
    calls.extend(removals([40, 39, 42, 41, 0, 43, 1].into_iter()));
    calls.extend(vec![call(HUB_PUSH_NEXT, &[]); 90]);
    calls.push(call(REGISTER, &[40, subject]));
    calls.extend(walk(subject, 0));
    calls.extend(removals(2..ENTRIES));
    calls.extend(polls(3));
    calls
}

/// Entries that come one by one, and go one by one from the front with a walk on the last.
fn one_after_another() -> Vec<Call> {
    let subject = |entry| 60 * (entry / 2) + 3;
    let mut calls = vec![open(65_535)];
    for entry in 0..ENTRIES {
        calls.push(call(REGISTER, &[entry, subject(entry)]));
        calls.extend(polls(1));
    }
    calls.extend(walk(subject(ENTRIES - 1), 1));
    calls.extend(removals(0..ENTRIES));
    calls.extend(polls(2));
    calls
}

/// Two subjects with two entries each, removed in an order that hands marks on.
fn ends(first: u32, second: u32) -> Vec<Call> {
    let mut calls = vec![open(2)];
    for (entry, subject) in [first, second, first, second].into_iter().enumerate() {
        calls.push(call(REGISTER, &[126 - entry as u32, subject]));
    }
    calls.extend(polls(4));
    calls.extend(walk(second, 1));
    calls.extend(removals([126, 124, 125, 123].into_iter()));
    calls.extend(polls(3));
    calls
}

fn transmit_sequences<K: Transmit>() -> impl Iterator<Item = (Size, Vec<Call>)> {
    let mut sequences: Vec<_> = [0, 4, 7].map(in_one_queue::<K>).to_vec();
    sequences.push(in_all_queues::<K>());
    let sized = |calls| (transmit::size::<K>(ENTRIES, ALL, 255, 0), calls);
    sequences.into_iter().map(sized)
}

/// Every entry registered with a readiness, the highest subject first.
fn all_registered<K: Transmit>(readiness: impl Fn(u32) -> u32) -> Vec<Call> {
    let register = |entry| {
        let subject = 8191 - 64 * entry;
        tx::call::<K>(tx::REGISTER, &[entry, subject, readiness(entry)])
    };
    let mut calls = vec![tx::call::<K>(tx::OPEN, &[])];
    calls.extend((0..ENTRIES).map(register));
    calls
}

/// A pick and its settlement with a frame.
fn turn<K: Transmit>(mask: u32, readiness: u32, priority: u32, last: u32) -> [Call; 2] {
    [
        tx::call::<K>(tx::PICK, &[mask, 64]),
        tx::call::<K>(tx::SETTLE, &[1, readiness, priority, 64, last]),
    ]
}

/// Each has its turn, and the first once more, which goes on; some are removed, at the front, at the
/// back and between; all become empty, and ready again.
fn in_one_queue<K: Transmit>(priority: u32) -> Vec<Call> {
    let set = 1 << priority;
    let turns = |count: u32, readiness, last| {
        let turn = move |_| turn::<K>(255, readiness, priority, last);
        (0..count).flat_map(turn)
    };
    let remove = |entry| tx::call::<K>(tx::UNREGISTER, &[entry]);
    let update = |entry| tx::call::<K>(tx::UPDATE, &[entry, set]);
    let mut calls = all_registered::<K>(|_| set);
    calls.extend(turns(ENTRIES + 1, set, 64));
    calls.extend(turns(3, set, 0));
    calls.extend([0, 1, 2, 127, 64].map(remove));
    calls.extend((0..ENTRIES).map(update));
    calls.extend(turns(ENTRIES, 0, 64));
    calls.extend((0..ENTRIES).rev().map(update));
    calls.extend(turns(ENTRIES, 0, 0));
    calls.extend((0..ENTRIES).map(update));
    calls.extend(turns(ENTRIES, set, 64));
    calls
}

/// Sixteen at each priority, of which half go on; all are emptied by single masks, the least urgent
/// first, but fall to the next priority once.
fn in_all_queues<K: Transmit>() -> Vec<Call> {
    let mut calls = all_registered::<K>(|entry| 3 << (entry % 8) & 255);
    for priority in 0..8 {
        let set = 3 << priority & 255;
        let last = |turn: u32| 64 * (turn % 2);
        calls.extend((0..16).flat_map(|i| turn::<K>(1 << priority, set, priority, last(i))));
    }
    for priority in (0..8).rev() {
        let next = 2 << priority & 255;
        calls.extend((0..16).flat_map(|_| turn::<K>(1 << priority, next, priority, 64)));
    }
    for priority in 1..8 {
        calls.extend((0..17).flat_map(|_| turn::<K>(254, 0, priority, 64)));
    }
    calls
}
