//! Writes the recorded list: calls in `stdin`, the Rust's answers in `stdout`, one to a line, for a
//! replay without Rust. Only calls that are put to the Rust stand in it, and nothing of ours is asked.

use crate::exports::Answer;
use crate::pair::{Call, Pair, Role, Size};
use crate::registry::{ALL, ENDS, NEAR, SOME, THREE};
use crate::rng::Rng;
use crate::runs::Mood;
use crate::tally::Expected;
use crate::{keys, leaves, lists, loop_back, regular, requests, runs, transmit};
use emcyphal::marker::{Message, Response};
use std::path::Path;
use std::{fs, io};

const SEED: u64 = 58_818_510;

/// A state with at most so many reading calls is read whole after each change; of a larger one, FEW.
const SWEEP: usize = 26;
const FEW: usize = 4;

/// Changing calls at most: more growing than shrinking, no reading.
const MOOD: Mood = [0, 4, 2, 3, 4];

/// Sizes, how often each is opened, and how many changing calls follow.
fn plan() -> Vec<(Size, usize, usize)> {
    vec![
        (lists::size::<1, 1>(0), 1, 8),
        (lists::size::<2, 3>(0), 2, 20),
        (lists::size::<3, 5>(0), 1, 40),
        (lists::size::<16, 128>(0), 1, 50),
        (lists::size::<32, 224>(0), 1, 50),
        (keys::size::<0, 1>(0), 3, 8),
        (keys::size::<3, 2>(0), 4, 14),
        (keys::size::<7, 3>(0), 3, 14),
        (keys::size::<300, 222>(0), 1, 80),
        (keys::size::<8191, 16>(0), 2, 40),
        (regular::size::<1, 3, THREE>(0), 2, 60),
        (regular::size::<3, 3, THREE>(0), 3, 120),
        (regular::size::<4, 8, ENDS>(0), 2, 150),
        (regular::size::<8, 16, NEAR>(0), 1, 200),
        (regular::size::<40, 128, SOME>(0), 1, 250),
        (regular::size::<200, 128, ALL>(0), 1, 250),
        (regular::size::<65_535, 3, THREE>(0), 1, 120),
        (loop_back::size::<3, THREE>(0), 3, 60),
        (loop_back::size::<8, ENDS>(0), 2, 100),
        (loop_back::size::<16, NEAR>(0), 1, 150),
        (loop_back::size::<128, SOME>(0), 1, 200),
        (loop_back::size::<128, ALL>(0), 1, 250),
        (requests::size::<3, THREE>(0), 2, 20),
        (requests::size::<8, ENDS>(0), 1, 30),
        (requests::size::<128, SOME>(0), 1, 60),
        (requests::size::<128, ALL>(0), 1, 200),
        (transmit::size::<Message>(3, THREE, 16, 0), 2, 60),
        (transmit::size::<Message>(4, ENDS, 0b1000_0001, 0), 2, 100),
        (transmit::size::<Message>(16, NEAR, 255, 0), 1, 200),
        (transmit::size::<Message>(128, ALL, 255, 0), 1, 400),
        (transmit::size::<Response>(3, ALL, 1, 0), 2, 60),
        (transmit::size::<Response>(4, ALL, 0b0001_0010, 0), 2, 100),
        (transmit::size::<Response>(16, ALL, 255, 0), 1, 200),
        (transmit::size::<Response>(128, ALL, 255, 0), 1, 400),
    ]
}

#[derive(Default)]
struct Lines {
    calls: String,
    answers: String,
    count: usize,
}

impl Lines {
    fn add(&mut self, call: Call, answer: Answer) {
        let [a, b, c] = call.recorded();
        self.calls += &format!("{} {a} {b} {c}\n", call.op.code);
        self.answers += &format!("{}\n", answer.0);
        self.count += 1;
    }

    /// Puts the call to the Rust and records it, where the Rust is to be asked.
    fn ask(&mut self, pair: &mut dyn Pair, call: Call) {
        if let Expected::Asked(answer) = pair.ask(call) {
            self.add(call, answer);
            for (call, answer) in pair.follow_ups(call, answer) {
                self.add(call, answer);
            }
        }
    }
}

fn record_size(size: &Size, changes: usize, rng: &mut Rng, lines: &mut Lines) {
    let mut pair = (size.open)(0);
    let reads: Vec<_> = pair
        .every_call()
        .into_iter()
        .filter(|call| call.op.role == Role::Read)
        .collect();
    let opening = pair.opening();
    lines.ask(&mut *pair, opening);
    for _ in 0..changes {
        let change = runs::draw(&*pair, MOOD, rng);
        lines.ask(&mut *pair, change);
        if reads.len() <= SWEEP {
            reads.iter().for_each(|&read| lines.ask(&mut *pair, read));
        } else {
            for _ in 0..FEW {
                let op = rng.pick(&reads).op;
                let read = pair.draw(op, rng);
                lines.ask(&mut *pair, read);
            }
        }
    }
}

fn record_frames(lines: &mut Lines) {
    for length in [0, 1, 2, 8, 64] {
        for last in (0..=255).step_by(8).chain([64, 191, 255]) {
            let call = leaves::call(leaves::IS_EOT_FRAME, &[length, last]);
            lines.add(call, leaves::recorded_eot(length, last));
        }
    }
}

/// Writes both files; how many calls they hold.
pub fn write(folder: &Path) -> io::Result<usize> {
    let mut rng = Rng::new(SEED);
    let mut lines = Lines::default();
    for (size, times, changes) in plan() {
        (0..times).for_each(|_| record_size(&size, changes, &mut rng, &mut lines));
    }
    record_frames(&mut lines);
    fs::create_dir_all(folder)?;
    fs::write(folder.join("stdin"), lines.calls)?;
    fs::write(folder.join("stdout"), lines.answers)?;
    Ok(lines.count)
}
