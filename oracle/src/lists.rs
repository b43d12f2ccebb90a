//! `MultiClassQueue` against the exports `gomxeli_mcq_..`.

use crate::exports::{self, Answer};
use crate::pair::{Call, Lent, Op, Pair, Size, ops};
use crate::rng::Rng;
use emcyphal::utils::probe::{Links, MultiClassQueue};

ops! { "mcq":
    OPEN = 10 "open" 2 Open;
    FRONT = 11 "front" 1 Read;
    BACK = 12 "back" 1 Read;
    IS_EMPTY = 13 "is_empty" 1 Read;
    IS_FRONT = 14 "is_front" 1 Read;
    IS_BACK = 15 "is_back" 1 Read;
    REMOVE = 16 "remove" 1 Shrink;
    MOVE_FRONT = 17 "move_front" 2 Grow;
    MOVE_BACK = 18 "move_back" 2 Grow;
}

pub fn sizes() -> Vec<Size> {
    vec![
        size::<1, 0>(1),
        size::<1, 1>(1),
        size::<1, 2>(2),
        size::<2, 3>(4),
        size::<2, 8>(4),
        size::<3, 5>(4),
        size::<1, 224>(2),
        size::<16, 128>(4),
        size::<32, 0>(1),
        size::<32, 224>(4),
    ]
}

/// Those of which every state is reached.
pub fn small() -> Vec<Size> {
    vec![
        size::<1, 0>(0),
        size::<1, 1>(0),
        size::<1, 2>(0),
        size::<1, 3>(0),
        size::<2, 0>(0),
        size::<2, 1>(0),
        size::<2, 2>(0),
        size::<2, 3>(0),
    ]
}

pub fn size<const C: usize, const E: usize>(share: u64) -> Size {
    Size {
        name: format!("mcq {C} {E}"),
        share,
        open: Box::new(|soil| {
            Box::new(Lists::<C, E> {
                rust: MultiClassQueue::new(),
                lent: Lent::new(length(C as u32, E as u32), soil),
            })
        }),
    }
}

const MOST_CLASSES: u32 = 32;
const MOST_ENTRIES: u32 = 224;

fn length(classes: u32, entries: u32) -> usize {
    2 + 2 * (classes + entries) as usize
}

struct Lists<const C: usize, const E: usize> {
    rust: MultiClassQueue<C, E>,
    lent: Lent,
}

/// What document 01 answers to an opening of lent bytes, where that is a refusal.
fn opening_refused(lent: &[u8], classes: u32, entries: u32) -> Option<Answer> {
    if !(1..=MOST_CLASSES).contains(&classes) || entries > MOST_ENTRIES {
        Some(Answer::refused(13))
    } else if lent.len() != length(classes, entries) {
        Some(Answer::refused(1))
    } else {
        None
    }
}

/// The class and the entry that a call names.
fn named(call: Call) -> (Option<u32>, Option<u32>) {
    let [a, b, ..] = call.args;
    match call.op.code {
        FRONT | BACK | IS_EMPTY => (Some(a), None),
        IS_FRONT | IS_BACK | REMOVE => (None, Some(a)),
        _ => (Some(a), Some(b)),
    }
}

/// A number below the size, now and then one past it, or one that a byte or two would hold wrongly.
pub fn draw_number(size: u32, rng: &mut Rng) -> u32 {
    if size > 0 && !rng.one_in(16) {
        return rng.below(size.into()) as u32;
    }
    rng.pick(&[size, size + 1, 255, 256, 257, 65_535, 65_536, u32::MAX])
        .max(size)
}

/// An opening of this size, or one that is refused.
pub fn draw_opening(own: Call, refused: impl Fn(u32, u32) -> bool, rng: &mut Rng) -> Call {
    let [a, b, ..] = own.args;
    let x = rng.pick(&[0, a, a + 1, 33, 256 + a, 8192, u32::MAX]);
    let y = rng.pick(&[0, b, b + 1, 223, 225, 256 + b, u32::MAX]);
    if refused(x, y) {
        Call::new(own.op, &[x, y])
    } else {
        own
    }
}

impl<const C: usize, const E: usize> Pair for Lists<C, E> {
    fn ops(&self) -> &'static [Op] {
        OPS
    }

    fn opening(&self) -> Call {
        call(OPEN, &[C as u32, E as u32])
    }

    fn draw(&self, op: &'static Op, rng: &mut Rng) -> Call {
        if op.code == OPEN {
            return draw_opening(
                self.opening(),
                |c, e| opening_refused(&self.lent, c, e).is_some(),
                rng,
            );
        }
        let numbers = [draw_number(C as u32, rng), draw_number(E as u32, rng)];
        match named(Call::new(op, &[])) {
            (Some(_), Some(_)) => Call::new(op, &numbers),
            (Some(_), None) => Call::new(op, &numbers[..1]),
            _ => Call::new(op, &numbers[1..]),
        }
    }

    fn every_call(&self) -> Vec<Call> {
        let classes = || (0..=C as u32).chain([256]);
        let entries = || (0..=E as u32).chain([256]);
        let mut calls = vec![
            self.opening(),
            call(OPEN, &[C as u32 + 1, E as u32]),
            call(OPEN, &[0, 0]),
        ];
        for class in classes() {
            calls.extend([FRONT, BACK, IS_EMPTY].map(|code| call(code, &[class])));
            for entry in entries() {
                calls.extend([MOVE_FRONT, MOVE_BACK].map(|code| call(code, &[class, entry])));
            }
        }
        for entry in entries() {
            calls.extend([IS_FRONT, IS_BACK, REMOVE].map(|code| call(code, &[entry])));
        }
        calls
    }

    fn unasked(&self, call: Call) -> Option<Answer> {
        if call.op.code == OPEN {
            return opening_refused(&self.lent, call.args[0], call.args[1]);
        }
        let (class, entry) = named(call);
        let past = class.is_some_and(|class| class >= C as u32)
            || entry.is_some_and(|entry| entry >= E as u32);
        past.then_some(Answer::refused(13))
    }

    fn put(&mut self, call: Call) -> Answer {
        let [a, b] = [call.args[0] as u8, call.args[1] as u8];
        match call.op.code {
            OPEN => self.rust = MultiClassQueue::new(),
            FRONT => return Answer::found(self.rust.front(a)),
            BACK => return Answer::found(self.rust.back(a)),
            IS_EMPTY => return Answer::flag(self.rust.is_empty(a)),
            IS_FRONT => return Answer::found(self.rust.is_front(a)),
            IS_BACK => return Answer::found(self.rust.is_back(a)),
            REMOVE => self.rust.remove(a),
            MOVE_FRONT => self.rust.move_front(a, b),
            MOVE_BACK => self.rust.move_back(a, b),
            code => unreachable!("call {code}"),
        }
        Answer::DONE
    }

    fn make(&mut self, call: Call) -> Answer {
        let [a, b, ..] = call.args;
        match call.op.code {
            OPEN => exports::mcq_open(&mut self.lent, a, b),
            FRONT => exports::mcq_front(&self.lent, a),
            BACK => exports::mcq_back(&self.lent, a),
            IS_EMPTY => exports::mcq_is_empty(&self.lent, a),
            IS_FRONT => exports::mcq_is_front(&self.lent, a),
            IS_BACK => exports::mcq_is_back(&self.lent, a),
            REMOVE => exports::mcq_remove(&mut self.lent, a),
            MOVE_FRONT => exports::mcq_move_front(&mut self.lent, a, b),
            MOVE_BACK => exports::mcq_move_back(&mut self.lent, a, b),
            code => unreachable!("call {code}"),
        }
    }

    fn lent(&self) -> &Lent {
        &self.lent
    }

    fn lay(&self, over: &mut [u8]) {
        lay_links(C, &self.rust.links(), over);
    }

    fn rust_state(&self) -> String {
        Cycles::walked(&self.rust.links(), C).words()
    }

    fn our_state(&self) -> String {
        Cycles::walked(&read_links(&self.lent), C).words()
    }
}

/// Writes a list queue's bytes: its sizes, then next and prev of every node.
pub fn lay_links(classes: usize, links: &[(u8, u8)], over: &mut [u8]) {
    over[0] = classes as u8;
    over[1] = (links.len() - classes) as u8;
    for (i, &(next, prev)) in links.iter().enumerate() {
        over[2 + 2 * i] = next;
        over[3 + 2 * i] = prev;
    }
}

/// Next and prev of every node, each class with the entries that are given for it, from the front.
pub fn links_of(
    classes: usize,
    entries: usize,
    queued: impl Iterator<Item = (u8, u8)>,
) -> Vec<(u8, u8)> {
    let nodes = 0..(classes + entries) as u8;
    let mut links: Vec<_> = nodes.map(|node| (node, node)).collect();
    for (class, entry) in queued {
        let node = classes as u8 + entry;
        let last = links[usize::from(class)].1;
        links[usize::from(last)].0 = node;
        links[usize::from(node)] = (class, last);
        links[usize::from(class)].1 = node;
    }
    links
}

pub fn read_links(bytes: &[u8]) -> Vec<(u8, u8)> {
    bytes[2..]
        .chunks_exact(2)
        .map(|node| (node[0], node[1]))
        .collect()
}

/// The entries of each class in order, and those in none.
pub struct Cycles {
    pub lists: Vec<Vec<u8>>,
    pub lone: Vec<u8>,
    faults: Vec<String>,
}

impl Cycles {
    /// Walks from each class, and looks at every link both ways.
    pub fn walked(links: &[(u8, u8)], classes: usize) -> Self {
        let mut cycles = Cycles {
            lists: Vec::new(),
            lone: Vec::new(),
            faults: Vec::new(),
        };
        let mut met = vec![0; links.len()];
        for class in 0..classes {
            let mut list = Vec::new();
            let mut node = usize::from(links[class].0);
            while node >= classes && node < links.len() && list.len() < links.len() {
                met[node] += 1;
                list.push((node - classes) as u8);
                node = usize::from(links[node].0);
            }
            if node != class {
                cycles.faults.push(format!("class {class} does not close"));
            }
            cycles.lists.push(list);
        }
        for (node, &(next, prev)) in links.iter().enumerate() {
            let closes = |to: u8, back: fn(&(u8, u8)) -> u8| {
                links.get(usize::from(to)).map(back) == Some(node as u8)
            };
            if !closes(next, |link| link.1) || !closes(prev, |link| link.0) {
                cycles
                    .faults
                    .push(format!("node {node} is not linked both ways"));
            }
            if node >= classes && met[node] == 0 && usize::from(next) == node {
                cycles.lone.push((node - classes) as u8);
            } else if node >= classes && met[node] != 1 {
                cycles
                    .faults
                    .push(format!("node {node} is met {} times", met[node]));
            }
        }
        cycles
    }

    fn words(&self) -> String {
        let lists: Vec<_> = self
            .lists
            .iter()
            .enumerate()
            .map(|(c, list)| format!("{c}={list:?}"))
            .collect();
        format!(
            "q={} lone={:?}{}",
            lists.join(";"),
            self.lone,
            self.faults()
        )
    }

    /// Class and entry, class by class, each from the front.
    pub fn queued(&self) -> Vec<(u8, u8)> {
        let of = |(class, list): (u8, &'_ Vec<u8>)| -> Vec<_> {
            list.iter().map(|&entry| (class, entry)).collect()
        };
        (0..).zip(&self.lists).flat_map(of).collect()
    }

    /// Empty where every link stands as it must.
    pub fn faults(&self) -> String {
        self.faults
            .iter()
            .map(|fault| format!(" FAULT {fault}"))
            .collect()
    }
}
