//! The regular registry's bytes, by docs/STATES.md: laid out from the Rust's fields, and read back.

use crate::lists::{Cycles, lay_links, links_of, read_links};
use crate::rng::Rng;
use crate::tree::{self, ENTRIES};
use emcyphal::registry::probe::{Listed, Seen, State};

pub const LENGTH: usize = 1036;
const TREE: usize = tree::LENGTH;
const QUEUE_AT: usize = 2 * TREE;
const CLASSES: usize = 2;
const SLOTS_AT: usize = QUEUE_AT + 2 + 2 * (CLASSES + ENTRIES);
const FLAG_AT: usize = SLOTS_AT + 2;
const WALK_AT: usize = FLAG_AT + 1;

/// The state over the bytes before the call.
pub fn lay(state: &State, over: &mut [u8]) {
    tree::lay(&listed(&state.active), &mut over[..TREE]);
    tree::lay(&listed(&state.inactive), &mut over[TREE..QUEUE_AT]);
    let clean_up = state.clean_up.iter().map(|&entry| (0, entry));
    let activation = state.activation.iter().map(|&entry| (1, entry));
    let links = links_of(CLASSES, ENTRIES, clean_up.chain(activation));
    lay_links(CLASSES, &links, &mut over[QUEUE_AT..SLOTS_AT]);
    over[SLOTS_AT..FLAG_AT].copy_from_slice(&(state.slots as u16).to_le_bytes());
    over[FLAG_AT] = match (state.last_gap, over[FLAG_AT]) {
        (false, _) => 0,
        (true, before) => before.max(1),
    };
    tree::lay_walk(state.walk, &mut over[WALK_AT]);
}

pub fn listed(pairs: &[Seen]) -> Vec<Listed> {
    pairs.iter().map(Seen::listed).collect()
}

/// What the bytes mean, and what is wrong with them. A head is the first of its subject, a mark a place in the clean-up queue.
pub fn read(bytes: &[u8]) -> (State, String) {
    let cycles = Cycles::walked(&read_links(&bytes[QUEUE_AT..SLOTS_AT]), CLASSES);
    let mut faults = cycles.faults();
    if bytes[QUEUE_AT..][..2] != [CLASSES as u8, ENTRIES as u8] {
        faults += " FAULT the queue's sizes";
    }
    let mut linked = [false; ENTRIES];
    for &entry in cycles.lists.iter().flatten() {
        linked[usize::from(entry)] = true;
    }
    let mut tree = |bytes: &[u8], is_active: bool| {
        let (listed, fault) = tree::read(bytes);
        faults += fault;
        let mut above = None;
        let mut pairs = Vec::new();
        for (entry, subject) in listed {
            pairs.push(Seen {
                entry,
                subject,
                is_active,
                is_head: is_active && above != Some(subject),
                is_linked: linked.get(usize::from(entry)) == Some(&true),
            });
            above = Some(subject);
        }
        pairs
    };
    let state = State {
        active: tree(&bytes[..TREE], true),
        inactive: tree(&bytes[TREE..QUEUE_AT], false),
        clean_up: cycles.lists[0].clone(),
        activation: cycles.lists[1].clone(),
        last_gap: bytes[FLAG_AT] != 0,
        slots: usize::from(u16::from_le_bytes([bytes[SLOTS_AT], bytes[SLOTS_AT + 1]])),
        walk: tree::read_walk(bytes[WALK_AT]),
    };
    (state, faults)
}

/// The state in words: entry:subject, then A for active, H for a head and Q for a place in a queue.
pub fn words(state: &State) -> String {
    let pairs = |pairs: &[Seen]| {
        let each: Vec<_> = pairs.iter().map(pair_words).collect();
        each.join(",")
    };
    format!(
        "slots={} last_gap={} walk={:?} active=[{}] inactive=[{}] activation={:?} clean_up={:?}",
        state.slots,
        state.last_gap,
        state.walk,
        pairs(&state.active),
        pairs(&state.inactive),
        state.activation,
        state.clean_up
    )
}

fn pair_words(pair: &Seen) -> String {
    let Seen {
        entry,
        subject,
        is_active,
        is_head,
        is_linked,
    } = *pair;
    let mark = |is: bool, letter: &'static str| if is { letter } else { "." };
    let marks = [
        mark(is_active, "A"),
        mark(is_head, "H"),
        mark(is_linked, "Q"),
    ];
    format!("{entry}:{subject}:{}", marks.concat())
}

/// Other bytes of the same meaning.
pub fn disguise(bytes: &mut [u8], rng: &mut Rng) {
    for places in bytes[..QUEUE_AT].chunks_exact_mut(TREE) {
        tree::disguise(places, rng);
    }
    if bytes[FLAG_AT] != 0 {
        bytes[FLAG_AT] = 1 + rng.below(255) as u8;
    }
    tree::disguise_walk(&mut bytes[WALK_AT], rng);
}

/// The meaning in few bytes.
pub fn told_by(state: &State) -> Vec<u8> {
    let mut told = vec![state.last_gap.into()];
    told.extend((state.slots as u16).to_le_bytes());
    for pairs in [&state.active, &state.inactive] {
        told.extend(tree::told_by(&listed(pairs), state.walk));
    }
    for queue in [&state.clean_up, &state.activation] {
        told.push(queue.len() as u8);
        told.extend(queue);
    }
    told
}
