//! `IndexQueue<u16, u32, ..>` against the exports `gomxeli_iq_..`.

use crate::exports::{self, Answer};
use crate::lists::{Cycles, draw_opening, lay_links, read_links};
use crate::pair::{Call, Lent, Op, Pair, Size, ops};
use crate::rng::Rng;
use emcyphal::utils::IndexQueue;
use emcyphal::utils::probe::Keys as _;

ops! { "iq":
    OPEN = 30 "open" 2 Open;
    CONTAINS = 31 "contains" 1 Read;
    GET = 32 "get" 1 Read;
    GET_MUT = 33 "get_mut" 2 Grow;
    INSERT = 34 "insert" 2 Grow;
    REMOVE = 35 "remove" 1 Shrink;
    FRONT = 36 "front" 0 Read;
    BACK = 37 "back" 0 Read;
    ENQUEUE_FRONT = 38 "enqueue_front" 1 Grow;
    ENQUEUE_BACK = 39 "enqueue_back" 1 Grow;
    DEQUEUE = 40 "dequeue" 1 Shrink;
}

pub fn sizes() -> Vec<Size> {
    vec![
        size::<0, 0>(1),
        size::<0, 1>(1),
        size::<1, 1>(2),
        size::<3, 2>(4),
        size::<7, 3>(4),
        size::<15, 8>(4),
        size::<300, 222>(2),
        size::<8191, 0>(1),
        size::<8191, 16>(2),
        size::<8191, 222>(2),
    ]
}

/// Those of which every state is reached.
pub fn small() -> Vec<Size> {
    vec![
        size::<0, 0>(0),
        size::<0, 1>(0),
        size::<0, 2>(0),
        size::<1, 0>(0),
        size::<1, 1>(0),
        size::<1, 2>(0),
        size::<2, 0>(0),
        size::<2, 1>(0),
        size::<2, 2>(0),
    ]
}

pub fn size<const K_MAX: usize, const N: usize>(share: u64) -> Size {
    Size {
        name: format!("iq {K_MAX} {N}"),
        share,
        open: Box::new(|soil| {
            Box::new(Keys::<K_MAX, N> {
                rust: IndexQueue::new(),
                stored: [u32::MAX; N],
                lent: Lent::new(length(K_MAX as u32, N as u32), soil),
            })
        }),
    }
}

const MOST_K_MAX: u32 = 8191;
const MOST_ENTRIES: u32 = 222;
const CLASSES: usize = 2;
const NO_ENTRY: u8 = 255;
const NO_KEY: u16 = 65_535;
const HANDED_BACK: u16 = 8192;
const KEYLESS: u16 = 16_384;

fn length(k_max: u32, entries: u32) -> usize {
    (11 + 8 * entries + 4 * ((k_max + 1) / 4)) as usize
}

fn opening_refused(lent: &[u8], k_max: u32, entries: u32) -> Option<Answer> {
    if k_max > MOST_K_MAX || entries > MOST_ENTRIES {
        Some(Answer::refused(13))
    } else if lent.len() != length(k_max, entries) {
        Some(Answer::refused(1))
    } else {
        None
    }
}

struct Keys<const K_MAX: usize, const N: usize> {
    rust: IndexQueue<u16, u32, K_MAX, N>,
    /// The value last stored in each entry since opening: what its bytes hold, key or not.
    stored: [u32; N],
    lent: Lent,
}

impl<const K_MAX: usize, const N: usize> Keys<K_MAX, N> {
    const OWN: [u32; 2] = [K_MAX as u32, N as u32];

    fn entry_of(&self, key: u16) -> Option<usize> {
        let &entry = self.rust.index().get(usize::from(key))?;
        (entry != NO_ENTRY).then_some(usize::from(entry))
    }

    /// Where the value of a key was handed back the Rust panics at get, get_mut, insert and remove.
    fn handed_back(&self, key: u16) -> bool {
        self.entry_of(key)
            .is_some_and(|entry| self.rust.values()[entry].is_none())
    }

    /// A key that an entry has, one that none has, or one past `K_MAX`, as fits the call.
    fn draw_key(&self, op: &Op, rng: &mut Rng) -> u16 {
        if rng.one_in(16) {
            let past = K_MAX as u16 + 1;
            return rng
                .pick(&[past, past + 1, 8191, 8192, 16_384, 65_535])
                .max(past);
        }
        // A second insert of a key leaves its entry stuck: seldom.
        let wanted = if op.code == INSERT {
            rng.one_in(12)
        } else {
            !rng.one_in(6)
        };
        let any = |rng: &mut Rng| rng.below(K_MAX as u64 + 1) as u16;
        let near = |rng: &mut Rng| match self.rust.keys().len() {
            0 => None,
            n => self.rust.keys()[rng.below(n as u64) as usize],
        };
        for _ in 0..6 {
            let key = if wanted { near(rng) } else { Some(any(rng)) };
            if let Some(key) = key.filter(|&key| self.entry_of(key).is_some() == wanted) {
                return key;
            }
        }
        any(rng)
    }
}

fn draw_value(rng: &mut Rng) -> u32 {
    let any = rng.next() as u32;
    rng.pick(&[any, any, any, 0, 1, 255, 65_536, u32::MAX])
}

impl<const K_MAX: usize, const N: usize> Pair for Keys<K_MAX, N> {
    fn ops(&self) -> &'static [Op] {
        OPS
    }

    fn opening(&self) -> Call {
        call(OPEN, &Self::OWN)
    }

    fn draw(&self, op: &'static Op, rng: &mut Rng) -> Call {
        if op.code == OPEN {
            return draw_opening(
                self.opening(),
                |k, n| opening_refused(&self.lent, k, n).is_some(),
                rng,
            );
        }
        let args = [self.draw_key(op, rng).into(), draw_value(rng)];
        Call::new(op, &args[..op.args])
    }

    fn every_call(&self) -> Vec<Call> {
        let mut calls = vec![
            self.opening(),
            call(OPEN, &[K_MAX as u32, 223]),
            call(OPEN, &[8192, 0]),
        ];
        calls.extend([FRONT, BACK].map(|code| call(code, &[])));
        for key in (0..=K_MAX as u32 + 1).chain([8192, 65_535]) {
            let alone = [CONTAINS, GET, REMOVE, ENQUEUE_FRONT, ENQUEUE_BACK, DEQUEUE];
            calls.extend(alone.map(|code| call(code, &[key])));
            for value in [7, 9] {
                calls.extend([INSERT, GET_MUT].map(|code| call(code, &[key, value])));
            }
        }
        calls
    }

    fn unasked(&self, call: Call) -> Option<Answer> {
        let [a, b, ..] = call.args;
        match call.op.code {
            OPEN => opening_refused(&self.lent, a, b),
            GET | GET_MUT if self.handed_back(a as u16) => Some(Answer::DONE),
            INSERT | REMOVE if self.handed_back(a as u16) => Some(Answer::refused(16)),
            _ => None,
        }
    }

    fn put(&mut self, call: Call) -> Answer {
        let (key, value) = (call.args[0] as u16, call.args[1]);
        let answer = match call.op.code {
            OPEN => {
                self.rust = IndexQueue::new();
                self.stored = [u32::MAX; N];
                Answer::DONE
            }
            CONTAINS => Answer::flag(self.rust.contains(key)),
            GET => Answer::value(self.rust.get(key).copied()),
            GET_MUT => Answer::flag(self.rust.get_mut(key).map(|place| *place = value).is_some()),
            INSERT => match self.rust.insert(key, value) {
                Ok(old) => Answer::value(old),
                Err((key, value)) => Answer::new(14, 0, key, value),
            },
            REMOVE => Answer::value(self.rust.remove(key)),
            FRONT => Answer::found(self.rust.front()),
            BACK => Answer::found(self.rust.back()),
            ENQUEUE_FRONT => done_or_no_key(self.rust.enqueue_front(key)),
            ENQUEUE_BACK => done_or_no_key(self.rust.enqueue_back(key)),
            DEQUEUE => done_or_no_key(self.rust.dequeue(key)),
            code => unreachable!("call {code}"),
        };
        for (stored, value) in self.stored.iter_mut().zip(self.rust.values()) {
            *stored = value.unwrap_or(*stored);
        }
        answer
    }

    fn make(&mut self, call: Call) -> Answer {
        let [a, b, ..] = call.args;
        let key = a as u16;
        match call.op.code {
            OPEN => exports::iq_open(&mut self.lent, a, b),
            CONTAINS => exports::iq_contains(&self.lent, key),
            GET => exports::iq_get(&self.lent, key),
            GET_MUT => exports::iq_get_mut(&mut self.lent, key, b),
            INSERT => exports::iq_insert(&mut self.lent, key, b),
            REMOVE => exports::iq_remove(&mut self.lent, key),
            FRONT => exports::iq_front(&self.lent),
            BACK => exports::iq_back(&self.lent),
            ENQUEUE_FRONT => exports::iq_enqueue_front(&mut self.lent, key),
            ENQUEUE_BACK => exports::iq_enqueue_back(&mut self.lent, key),
            DEQUEUE => exports::iq_dequeue(&mut self.lent, key),
            code => unreachable!("call {code}"),
        }
    }

    fn lent(&self) -> &Lent {
        &self.lent
    }

    fn lay(&self, over: &mut [u8]) {
        let (sizes, rest) = over.split_at_mut(2);
        let (lists, rest) = rest.split_at_mut(6 + 2 * N);
        let (words, rest) = rest.split_at_mut(2 * N);
        let (values, rest) = rest.split_at_mut(4 * N);
        let (index, rest) = rest.split_at_mut(K_MAX + 1);
        sizes.copy_from_slice(&(K_MAX as u16).to_le_bytes());
        lay_links(CLASSES, &self.rust.links(), lists);
        for (i, word) in words.chunks_exact_mut(2).enumerate() {
            let key_word = match (self.rust.keys()[i], self.rust.values()[i]) {
                (None, _) => NO_KEY,
                (Some(key), Some(_)) => key,
                (Some(key), None) => HANDED_BACK + key,
            };
            word.copy_from_slice(&key_word.to_le_bytes());
        }
        for (value, stored) in values.chunks_exact_mut(4).zip(self.stored) {
            value.copy_from_slice(&stored.to_le_bytes());
        }
        index.copy_from_slice(self.rust.index());
        rest.fill(255);
    }

    fn rust_state(&self) -> String {
        let entries = self
            .rust
            .keys()
            .iter()
            .zip(self.rust.values())
            .map(|(&key, &value)| (key, value));
        words(entries, &self.rust.links(), self.rust.index())
    }

    fn our_state(&self) -> String {
        let (words_at, values_at, index_at) = (8 + 2 * N, 8 + 4 * N, 8 + 8 * N);
        let entries = (0..N).map(|i| {
            let word = &self.lent[words_at + 2 * i..][..2];
            let value = &self.lent[values_at + 4 * i..][..4];
            read_entry(
                u16::from_le_bytes(word.try_into().unwrap()),
                u32::from_le_bytes(value.try_into().unwrap()),
            )
        });
        let index: Vec<_> = self.lent[index_at..=index_at + K_MAX]
            .iter()
            .map(|&entry| read_index(entry, N))
            .collect();
        words(entries, &read_links(&self.lent[2..words_at]), &index)
    }
}

fn done_or_no_key<E>(result: Result<(), E>) -> Answer {
    result.map_or(Answer::refused(15), |()| Answer::DONE)
}

/// The key and the value that an entry's bytes mean.
fn read_entry(word: u16, value: u32) -> (Option<u16>, Option<u32>) {
    if word >= KEYLESS {
        (None, None)
    } else if word >= HANDED_BACK {
        (Some(word - HANDED_BACK), None)
    } else {
        (Some(word), Some(value))
    }
}

fn read_index(entry: u8, entries: usize) -> u8 {
    if usize::from(entry) < entries {
        entry
    } else {
        NO_ENTRY
    }
}

fn words(
    entries: impl Iterator<Item = (Option<u16>, Option<u32>)>,
    links: &[(u8, u8)],
    index: &[u8],
) -> String {
    let keys: Vec<_> = entries
        .enumerate()
        .filter_map(|(i, (key, value))| {
            Some(format!(
                "{i}:{}:{}",
                key?,
                value.map_or("_".into(), |v| v.to_string())
            ))
        })
        .collect();
    let indexed: Vec<_> = index
        .iter()
        .enumerate()
        .filter(|&(_, &entry)| entry != NO_ENTRY)
        .map(|(key, entry)| format!("{key}:{entry}"))
        .collect();
    let cycles = Cycles::walked(links, CLASSES);
    let (queue, free) = (&cycles.lists[0], &cycles.lists[1]);
    let faults = cycles.faults();
    format!(
        "keys={} index={} queue={queue:?} free={free:?}{faults}",
        keys.join(","),
        indexed.join(",")
    )
}
