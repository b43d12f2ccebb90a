//! The bytes of the two transmit registries, by docs/STATES.md: laid out from the Rust's fields,
//! and read back. A tree stands before the queue where there are subjects.

use crate::image::MOST_SUBJECT;
use crate::lists::{Cycles, lay_links, links_of, read_links};
use crate::rng::Rng;
use crate::tree::{self, ENTRIES};
use emcyphal::registry::probe::{TxSeen, TxState};

const CLASSES: usize = 16;
const READY_AT: usize = 2 + 2 * (CLASSES + ENTRIES);
const STARTED_AT: usize = READY_AT + ENTRIES;
const FLAG_AT: usize = STARTED_AT + ENTRIES;
const MASK_AT: usize = FLAG_AT + ENTRIES;
const PICK_MASK_AT: usize = MASK_AT + 1;
const PICK_MTU_AT: usize = PICK_MASK_AT + 1;

pub const QUEUE_LENGTH: usize = PICK_MTU_AT + 1;
pub const LENGTH_WITH_TREE: usize = tree::LENGTH + QUEUE_LENGTH;

/// An open pick.
#[derive(Clone, Copy, PartialEq, Eq)]
pub struct Pick {
    pub mask: u8,
    pub mtu: u8,
}

/// What the bytes mean: a registry, and the pick that is open.
#[derive(Clone, Default, PartialEq, Eq)]
pub struct Meaning {
    pub state: TxState,
    pub pick: Option<Pick>,
}

fn has_tree(bytes: &[u8]) -> bool {
    bytes.len() == LENGTH_WITH_TREE
}

fn queue_at(bytes: &[u8]) -> usize {
    if has_tree(bytes) { tree::LENGTH } else { 0 }
}

/// The meaning over the bytes before the call: the sets of an entry that is not registered stay, and
/// the mask of a pick that is not open.
pub fn lay(meaning: &Meaning, over: &mut [u8]) {
    let Meaning { state, pick } = meaning;
    if has_tree(over) {
        tree::lay(&state.tree, &mut over[..tree::LENGTH]);
    }
    let at = queue_at(over);
    let queue = &mut over[at..];
    let links = links_of(CLASSES, ENTRIES, state.queued.iter().copied());
    lay_links(CLASSES, &links, &mut queue[..READY_AT]);
    let mut flags = [0; ENTRIES];
    for seen in &state.entries {
        let entry = usize::from(seen.entry);
        flags[entry] = queue[FLAG_AT + entry].max(1);
        queue[READY_AT + entry] = seen.readiness;
        queue[STARTED_AT + entry] = seen.started;
    }
    queue[FLAG_AT..MASK_AT].copy_from_slice(&flags);
    queue[MASK_AT] = state.mask;
    queue[PICK_MTU_AT] = pick.map_or(0, |pick| pick.mtu);
    if let Some(pick) = pick {
        queue[PICK_MASK_AT] = pick.mask;
    }
}

/// What the bytes mean, and what is wrong with them. An entry's mark is the class it stands in.
pub fn read(bytes: &[u8]) -> (Meaning, String) {
    let queue = &bytes[queue_at(bytes)..];
    let cycles = Cycles::walked(&read_links(&queue[..READY_AT]), CLASSES);
    let mut faults = cycles.faults();
    if queue[..2] != [CLASSES as u8, ENTRIES as u8] {
        faults += " FAULT the queue's sizes";
    }
    let mut tree = Vec::new();
    if has_tree(bytes) {
        let (listed, fault) = tree::read(&bytes[..tree::LENGTH]);
        tree = listed;
        faults += fault;
    }
    let mut marks = [None; ENTRIES];
    let queued = cycles.queued();
    for &(class, entry) in &queued {
        marks[usize::from(entry)] = Some(class);
    }
    let is_registered = |&entry: &usize| queue[FLAG_AT + entry] != 0;
    let see = |entry| TxSeen {
        entry: entry as u8,
        readiness: queue[READY_AT + entry],
        started: queue[STARTED_AT + entry],
        mark: marks[entry],
    };
    let state = TxState {
        tree,
        entries: (0..ENTRIES).filter(is_registered).map(see).collect(),
        queued,
        mask: queue[MASK_AT],
    };
    let (mask, mtu) = (queue[PICK_MASK_AT], queue[PICK_MTU_AT]);
    let pick = (mtu != 0).then_some(Pick { mask, mtu });
    (Meaning { state, pick }, faults)
}

/// A registered entry, with the mark that its sets give.
pub fn placed(entry: u8, readiness: u8, started: u8) -> TxSeen {
    let urgent = (0..8).find(|priority| readiness >> priority & 1 == 1);
    let is_started = |priority| started >> priority & 1 == 1;
    TxSeen {
        entry,
        readiness,
        started,
        mark: urgent.map(|priority| 2 * priority + u8::from(!is_started(priority))),
    }
}

fn is_registered(state: &TxState, entry: u8) -> bool {
    state.entries.iter().any(|seen| seen.entry == entry)
}

/// By docs/STATES.md; what `read` finds wrong excepted.
pub fn is_whole(meaning: &Meaning, has_tree: bool) -> bool {
    let Meaning { state, pick } = meaning;
    let is_placed = |seen: &TxSeen| *seen == placed(seen.entry, seen.readiness, seen.started);
    let mut queued = state.queued.iter();
    state.entries.iter().all(is_placed)
        && queued.all(|&(_, entry)| is_registered(state, entry))
        && pick.is_none_or(|pick| may_be_open(pick, state))
        && (!has_tree || tree_is_whole(state))
}

/// A pick names an entry of a class in its mask.
fn may_be_open(pick: Pick, state: &TxState) -> bool {
    let is_masked = |&(class, _): &(u8, u8)| pick.mask >> (class / 2) & 1 == 1;
    matches!(pick.mtu, 8 | 64) && state.queued.iter().any(is_masked)
}

/// Each registered entry, and no other, has a subject of its own.
fn tree_is_whole(state: &TxState) -> bool {
    let is_listed = |seen: &TxSeen| state.tree.iter().any(|pair| pair.0 == seen.entry);
    let mut pairs = state.tree.iter();
    tree::is_whole(&state.tree, MOST_SUBJECT, |a, b| a < b)
        && pairs.all(|pair| is_registered(state, pair.0))
        && state.entries.iter().all(is_listed)
}

/// In words, queues as class=entry: classes by priority, S or F. Of each entry readiness, started
/// set and mark.
pub fn words(meaning: &Meaning) -> String {
    let Meaning { state, pick } = meaning;
    let name = |class: u8| format!("{}{}", class / 2, ["S", "F"][usize::from(class % 2)]);
    let entry = |seen: &TxSeen| {
        let sets = format!("{:08b}:{:08b}", seen.readiness, seen.started);
        format!(
            "{}:{sets}:{}",
            seen.entry,
            seen.mark.map_or("-".into(), name)
        )
    };
    let queued = state.queued.iter();
    let queued: Vec<_> = queued
        .map(|&(class, e)| format!("{}={e}", name(class)))
        .collect();
    let entries: Vec<_> = state.entries.iter().map(entry).collect();
    let pick = pick.map_or("-".into(), |pick| format!("{:08b}:{}", pick.mask, pick.mtu));
    format!(
        "mask={:08b} pick={pick} queues=[{}] entries=[{}] tree={:?}",
        state.mask,
        queued.join(","),
        entries.join(","),
        state.tree
    )
}

/// Other bytes of the same meaning.
pub fn disguise(bytes: &mut [u8], rng: &mut Rng) {
    if has_tree(bytes) {
        tree::disguise(&mut bytes[..tree::LENGTH], rng);
    }
    let at = queue_at(bytes);
    let queue = &mut bytes[at..];
    for entry in 0..ENTRIES {
        if queue[FLAG_AT + entry] != 0 {
            queue[FLAG_AT + entry] = 1 + rng.below(255) as u8;
        } else {
            queue[READY_AT + entry] = rng.next() as u8;
            queue[STARTED_AT + entry] = rng.next() as u8;
        }
    }
    if queue[PICK_MTU_AT] == 0 {
        queue[PICK_MASK_AT] = rng.next() as u8;
    }
}

/// The meaning in few bytes.
pub fn told_by(meaning: &Meaning) -> Vec<u8> {
    let Meaning { state, pick } = meaning;
    let mut told = tree::told_by(&state.tree, None);
    told.push(state.entries.len() as u8);
    told.extend([
        state.mask,
        pick.map_or(0, |p| p.mask),
        pick.map_or(0, |p| p.mtu),
    ]);
    for seen in &state.entries {
        told.extend([seen.entry, seen.readiness, seen.started]);
    }
    told.extend(
        state
            .queued
            .iter()
            .flat_map(|&(class, entry)| [class, entry]),
    );
    told
}
