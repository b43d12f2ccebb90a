//! Whole bytes of the registries, the regular one excepted, each byte changed in turn: 1 where they
//! are whole no more, else what the Rust answers in the state that they mean.

use crate::exports::Answer;
use crate::one_tree::{self, OneTree};
use crate::pair::{Call, Lent, Pair};
use crate::registry::{ENDS, Range};
use crate::runs;
use crate::tally::{Expected, Tally};
use crate::transmit;
use crate::transmit_bytes::{self, Meaning, Pick};
use crate::transmit_calls::{self, Transmit};
use emcyphal::marker::{Message, Response};
use emcyphal::registry::probe::{LoopBack, Requests, Tree, TxSeen, TxState};

/// A kind of registries.
struct Kind {
    /// Some that are whole.
    whole: Vec<Lent>,
    /// Both sides, where bytes are whole.
    pair_of: fn(Lent) -> Option<Box<dyn Pair>>,
    make: fn(Call, &mut [u8]) -> Answer,
    /// What is called where they are not, also with numbers past their end.
    calls: Vec<Call>,
}

pub fn run(tally: &mut Tally) -> Result<(), String> {
    let kinds = [
        one_tree_kind::<LoopBack>(),
        one_tree_kind::<Requests>(),
        transmit_kind::<Message>(),
        transmit_kind::<Response>(),
    ];
    for kind in &kinds {
        for whole in &kind.whole {
            (0..whole.len()).try_for_each(|at| kind.beside_at(whole, at, tally))?;
        }
    }
    Ok(())
}

/// A meaning laid over other bytes; of their tree, where there is one, no place is taken.
fn laid(length: usize, lay: impl Fn(&mut [u8])) -> Lent {
    let mut whole = Lent::new(length, 1);
    whole[0] = 0;
    lay(&mut whole);
    whole
}

fn one_tree_kind<K: OneTree>() -> Kind {
    let laid_out = |state: &Tree| laid(K::LENGTH, |bytes| one_tree::lay(state, bytes));
    let few = Range {
        entries: 1,
        pool: &[0],
        most: K::MOST,
    };
    Kind {
        whole: trees::<K>().iter().map(laid_out).collect(),
        pair_of: one_tree::pair_of::<K>,
        make: K::make,
        calls: few.every_call(K::OPS),
    }
}

/// No entry, some, and all of them; a kind without walks has no byte for one.
fn trees<K: OneTree>() -> [Tree; 3] {
    let some = [5, 9, 0, 127].into_iter().zip(K::POOLS[ENDS].to_vec());
    let all = (0..128).map(|entry| (127 - entry, 4 * u16::from(entry)));
    [
        Tree::default(),
        Tree {
            listed: some.collect(),
            walk: Some(9),
        },
        Tree {
            listed: all.collect(),
            walk: Some(127),
        },
    ]
}

fn transmit_kind<K: Transmit>() -> Kind {
    let laid_out = |meaning: &Meaning| laid(K::LENGTH, |bytes| transmit_bytes::lay(meaning, bytes));
    Kind {
        whole: meanings().iter().map(laid_out).collect(),
        pair_of: transmit::pair_of::<K>,
        make: transmit_calls::make::<K>,
        calls: transmit_calls::some_calls::<K>(),
    }
}

/// No entry; some, with a pick open in one queue of two; all of them, ready in many ways, and a pick
/// that only the last class may open.
fn meanings() -> [Meaning; 3] {
    let some = [(9, 16, 16), (5, 16, 0), (127, 0, 255), (0, 16, 239)];
    let all = (0..128).map(|entry: u8| (entry, entry, entry.wrapping_mul(3)));
    let last = [(64, 128, 0)];
    [
        Meaning::default(),
        meaning(some, 3, Pick { mask: 144, mtu: 8 }),
        meaning(all.chain(last), 0, Pick { mask: 128, mtu: 64 }),
    ]
}

/// Entries with readiness and started set; a later one takes an earlier one's place.
fn meaning(sets: impl IntoIterator<Item = (u8, u8, u8)>, mask: u8, pick: Pick) -> Meaning {
    let mut entries: Vec<TxSeen> = Vec::new();
    for (entry, readiness, started) in sets {
        entries.retain(|seen| seen.entry != entry);
        entries.push(transmit_bytes::placed(entry, readiness, started));
    }
    let mut state = TxState {
        mask,
        ..TxState::default()
    };
    for (subject, seen) in (0..).zip(&entries) {
        state.tree.push((seen.entry, 64 * subject + 63));
        state
            .queued
            .extend(seen.mark.map(|class| (class, seen.entry)));
    }
    state.queued.sort_by_key(|queued| queued.0);
    entries.sort_by_key(|seen| seen.entry);
    state.entries = entries;
    Meaning {
        state,
        pick: Some(pick),
    }
}

impl Kind {
    fn beside_at(&self, whole: &Lent, at: usize, tally: &mut Tally) -> Result<(), String> {
        let byte = whole[at];
        let near = [byte.wrapping_sub(1), byte.wrapping_add(1), byte ^ 128];
        for changed in [0, 1, 31, 32, 127, 128, 129, 255].into_iter().chain(near) {
            let mut lent = whole.clone();
            lent[at] = changed;
            let kind = self.calls[0].op.kind;
            self.look_at(lent, tally)
                .map_err(|text| format!("{kind} with {changed} at {at}: {text}"))?;
        }
        Ok(())
    }

    fn look_at(&self, lent: Lent, tally: &mut Tally) -> Result<(), String> {
        let Some(mut pair) = (self.pair_of)(lent.clone()) else {
            return self.refused(lent, tally);
        };
        for call in pair.trial() {
            runs::step(&mut *pair, call, tally).map_err(|text| format!("{call}: {text}"))?;
        }
        Ok(())
    }

    /// Every call gets 1, and the bytes stay.
    fn refused(&self, mut lent: Lent, tally: &mut Tally) -> Result<(), String> {
        let before = lent.to_vec();
        let expected = Answer::refused(1);
        for &call in &self.calls {
            let ours = (self.make)(call, &mut lent);
            if ours != expected || lent[..] != before || !lent.margins_stand() {
                return Err(format!(
                    "{call}: {ours}, expected {expected}, and no byte changed"
                ));
            }
            tally.agreed(call.op.kind, call.op.name, Expected::Unasked(expected));
        }
        Ok(())
    }
}
