//! Drives pairs: random sequences, all sequences of small sizes, and the shortening of a sequence
//! that shows a difference.

use crate::exports::Answer;
use crate::pair::{Call, Op, Pair, Role, Size};
use crate::panics::caught;
use crate::rng::Rng;
use crate::tally::Tally;
use std::collections::{HashSet, VecDeque};
use std::fmt;

/// A sequence of calls on whose last one the two sides differ.
pub struct Difference {
    size: String,
    calls: Vec<Call>,
    text: String,
}

impl fmt::Display for Difference {
    fn fmt(&self, f: &mut fmt::Formatter) -> fmt::Result {
        writeln!(
            f,
            "difference at {}, after {} calls:",
            self.size,
            self.calls.len()
        )?;
        self.calls
            .iter()
            .try_for_each(|call| writeln!(f, "  {call}"))?;
        write!(f, "{}", self.text)
    }
}

/// Makes one call on both sides and compares answers and bytes; what both answer.
pub fn step(pair: &mut dyn Pair, call: Call, tally: &mut Tally) -> Result<Answer, String> {
    let before = pair.lent().to_vec();
    let expected = caught(|| pair.ask(call)).ok_or("the Rust panicked")?;
    let ours = pair.make(call);
    if ours != expected.answer() {
        return Err(format!(
            "answer: ours {ours}\n   expected {}",
            expected.answer()
        ));
    }
    let mut laid = before.clone();
    pair.lay(&mut laid);
    if ours.number() != 0 && laid != before {
        return Err(format!(
            "the Rust changed where it is refused with {}",
            ours.number()
        ));
    }
    compare_bytes(pair, &laid)?;
    pair.beside(call, ours)?;
    tally.agreed(call.op.kind, call.op.name, expected);
    Ok(ours)
}

fn compare_bytes(pair: &dyn Pair, laid: &[u8]) -> Result<(), String> {
    let lent = pair.lent();
    if !lent.margins_stand() {
        return Err("a byte outside of the state was written".into());
    }
    match lent
        .iter()
        .zip(laid)
        .position(|(ours, expected)| ours != expected)
    {
        None => Ok(()),
        Some(at) => Err(format!(
            "byte {at}: ours {}, expected {}\nours:     {}\nthe Rust: {}",
            lent[at],
            laid[at],
            pair.our_state(),
            pair.rust_state()
        )),
    }
}

/// Looks at the state more closely: read back, and by the trial calls on a copy.
fn look(pair: &dyn Pair, soil: u64, tally: &mut Tally) -> Result<(), String> {
    pair.read_back()?;
    let Some(mut copy) = pair.copied(soil) else {
        return Ok(());
    };
    for call in pair.trial() {
        step(&mut *copy, call, tally).map_err(|text| format!("on a copy, at {call}: {text}"))?;
    }
    Ok(())
}

/// Makes the calls on a fresh pair: the pair, or how many calls it took to the difference and what it is.
fn replay(
    size: &Size,
    soil: u64,
    calls: &[Call],
    tally: &mut Tally,
) -> Result<Box<dyn Pair>, (usize, String)> {
    let mut pair = (size.open)(soil);
    for (i, &call) in calls.iter().enumerate() {
        step(&mut *pair, call, tally).map_err(|text| (i + 1, text))?;
    }
    look(&*pair, soil, tally).map_err(|text| (calls.len(), text))?;
    Ok(pair)
}

/// Drops calls, the opening excepted, in ever smaller runs while the rest still shows a difference.
fn shorten(size: &Size, soil: u64, mut calls: Vec<Call>, mut text: String) -> Difference {
    let mut run = calls.len() / 2;
    while run > 0 {
        let mut at = 1;
        while at < calls.len() {
            let mut fewer = calls.clone();
            fewer.drain(at..(at + run).min(calls.len()));
            match replay(size, soil, &fewer, &mut Tally::default()) {
                Ok(_) => at += run,
                Err((length, shown)) => {
                    fewer.truncate(length);
                    (calls, text) = (fewer, shown);
                }
            }
        }
        run /= 2;
    }
    Difference {
        size: size.name.clone(),
        calls,
        text,
    }
}

/// Weights of reading, growing, shrinking, polling and walking calls.
pub type Mood = [u64; 5];

/// One of these holds for a whole sequence.
const MOODS: [Mood; 7] = [
    [4, 4, 2, 3, 2],
    [2, 8, 1, 1, 1],
    [2, 3, 6, 2, 1],
    [9, 3, 1, 2, 6],
    [1, 5, 5, 2, 2],
    [2, 4, 4, 6, 4],
    [1, 4, 4, 16, 1],
];

fn draw_op(ops: &'static [Op], mood: Mood, rng: &mut Rng) -> &'static Op {
    let weight = |role| match role {
        Role::Open => 0,
        Role::Read => mood[0],
        Role::Grow => mood[1],
        Role::Shrink => mood[2],
        Role::Poll => mood[3],
        Role::Walk => mood[4],
    };
    let mut left = rng.below(ops.iter().map(|op| weight(op.role)).sum());
    for op in ops {
        match left.checked_sub(weight(op.role)) {
            Some(rest) => left = rest,
            None => return op,
        }
    }
    unreachable!("the weights add up")
}

/// A call at random: now and then the opening, mostly what the mood asks for.
pub fn draw(pair: &dyn Pair, mood: Mood, rng: &mut Rng) -> Call {
    let op = if rng.one_in(pair.openings()) {
        pair.opening().op
    } else {
        draw_op(pair.ops(), mood, rng)
    };
    pair.draw(op, rng)
}

pub fn draw_mood(rng: &mut Rng) -> Mood {
    rng.pick(&MOODS)
}

/// A sequence is looked at more closely after so many calls, and at its end.
const LOOK: usize = 50;

/// One random sequence; how many calls it had.
fn sequence(size: &Size, rng: &mut Rng, most: u64, tally: &mut Tally) -> Result<u64, Difference> {
    let soil = rng.next();
    let length = 1 + rng.below(most);
    let mood = draw_mood(rng);
    let next = |pair: &dyn Pair, made: usize| match made {
        0 => Some(pair.opening()),
        _ => ((made as u64) < length).then(|| draw(pair, mood, rng)),
    };
    run(size, soil, next, tally)
}

/// A given sequence.
pub fn written(size: &Size, calls: Vec<Call>, tally: &mut Tally) -> Result<u64, Difference> {
    run(size, 0, |_, made| calls.get(made).copied(), tally)
}

/// Calls one after another, each found from the pair and how many were made; how many these are.
fn run(
    size: &Size,
    soil: u64,
    mut next: impl FnMut(&dyn Pair, usize) -> Option<Call>,
    tally: &mut Tally,
) -> Result<u64, Difference> {
    let mut pair = (size.open)(soil);
    let mut calls = Vec::new();
    while let Some(call) = next(&*pair, calls.len()) {
        calls.push(call);
        let mut result = step(&mut *pair, call, tally).map(drop);
        if result.is_ok() && calls.len().is_multiple_of(LOOK) {
            result = look(&*pair, soil, tally);
        }
        result.map_err(|text| shorten(size, soil, calls.clone(), text))?;
    }
    look(&*pair, soil, tally).map_err(|text| shorten(size, soil, calls.clone(), text))?;
    Ok(calls.len() as u64)
}

/// Random sequences at one size, `calls` calls in all or a few more.
pub fn random(size: &Size, calls: u64, rng: &mut Rng, tally: &mut Tally) -> Result<(), Difference> {
    const LONGEST: u64 = 2000;
    let mut made = 0;
    while made < calls {
        let most = if rng.one_in(2) { LONGEST } else { 40 };
        made += sequence(size, rng, most.min(calls - made), tally)?;
    }
    Ok(())
}

/// Every call from every state that is reached from the opening and followed.
pub fn explore(size: &Size, tally: &mut Tally) -> Result<(), Difference> {
    let opening = (size.open)(0).opening();
    let every_call = (size.open)(0).every_call();
    let mut seen = HashSet::new();
    let mut paths = VecDeque::from([vec![opening]]);
    while let Some(path) = paths.pop_front() {
        let mut pair = reach(size, &path)?;
        let state = pair.told_by();
        if !seen.insert(state.clone()) {
            continue;
        }
        for &call in &every_call {
            let mut longer = path.clone();
            longer.push(call);
            let copy = pair.copied(seen.len() as u64);
            step(&mut *pair, call, tally)
                .and_then(|_| pair.read_back())
                .map_err(|text| shorten(size, 0, longer.clone(), text))?;
            let told_by = pair.told_by();
            if told_by == state {
                continue;
            }
            if pair.is_followed() && !seen.contains(&told_by) {
                paths.push_back(longer);
            }
            pair = match copy {
                Some(copy) => copy,
                None => reach(size, &path)?,
            };
        }
    }
    tally.explored(format!(
        "{}: {} states, {} calls from each",
        size.name,
        seen.len(),
        every_call.len()
    ));
    Ok(())
}

/// A pair after the calls, which are not counted again.
fn reach(size: &Size, path: &[Call]) -> Result<Box<dyn Pair>, Difference> {
    replay(size, 0, path, &mut Tally::default())
        .map_err(|(length, text)| shorten(size, 0, path[..length].to_vec(), text))
}
