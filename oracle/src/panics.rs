//! The shortest sequences in which the Rust panics or goes on where document 01 refuses or leaves the
//! answer open, and sizes that 01 does not allow. They are put to the Rust here alone, each in a state
//! of its own.

use crate::exports::{self, Answer};
use crate::pair::{Call, Lent, Size};
use crate::registry::THREE;
use crate::tally::{Expected, Tally};
use crate::transmit_calls::{self as tx, Transmit};
use crate::{keys, lists, loop_back, regular, regular_bytes, requests, transmit};
use emcyphal::marker::{Message, Response};
use emcyphal::registry::probe::{Regular, Requests, Tree};
use emcyphal::utils::IndexQueue;
use emcyphal::utils::probe::MultiClassQueue;
use std::cell::Cell;
use std::panic::{self, AssertUnwindSafe};

thread_local! {
    static QUIET: Cell<bool> = const { Cell::new(false) };
}

/// Lets the panics that `caught` catches print nothing.
pub fn prepare() {
    let loud = panic::take_hook();
    panic::set_hook(Box::new(move |info| {
        if !QUIET.get() {
            loud(info);
        }
    }));
}

/// What `f` answers, or none where it panics.
pub fn caught<T>(f: impl FnOnce() -> T) -> Option<T> {
    QUIET.set(true);
    let result = panic::catch_unwind(AssertUnwindSafe(f));
    QUIET.set(false);
    result.ok()
}

struct Case {
    size: Size,
    /// After the opening.
    calls: Vec<Call>,
    /// What the Rust answers to the last one; none: it panics.
    rust: Option<Answer>,
    ours: Answer,
    /// What the last one leaves of the Rust's state, where that is not what was there before.
    leaves: Option<&'static str>,
}

fn list_cases() -> Vec<Case> {
    use lists::*;
    let past_class = [FRONT, BACK, IS_EMPTY].map(|code| call(code, &[1]));
    let past_entry = [IS_FRONT, IS_BACK, REMOVE].map(|code| call(code, &[1]));
    let past_either =
        [[1, 0], [0, 1]].map(|args| [MOVE_FRONT, MOVE_BACK].map(|code| call(code, &args)));
    let calls = past_class
        .into_iter()
        .chain(past_entry)
        .chain(past_either.into_iter().flatten());
    calls
        .map(|call| Case {
            size: size::<1, 1>(0),
            calls: vec![call],
            rust: None,
            ours: Answer::refused(13),
            leaves: None,
        })
        .collect()
}

fn key_cases() -> Vec<Case> {
    use keys::*;
    let handed_back = [call(INSERT, &[3, 7]), call(INSERT, &[3, 9])];
    let freed = "keys= index= queue=[] free=[1, 0]";
    let last = [
        (call(GET, &[3]), Answer::DONE, None),
        (call(GET_MUT, &[3, 5]), Answer::DONE, None),
        (call(INSERT, &[3, 5]), Answer::refused(16), None),
        (call(REMOVE, &[3]), Answer::refused(16), Some(freed)),
    ];
    let case = |(call, ours, leaves)| {
        let calls = handed_back.into_iter().chain([call]).collect();
        Case {
            size: size::<3, 2>(0),
            calls,
            rust: None,
            ours,
            leaves,
        }
    };
    last.into_iter().map(case).collect()
}

/// An entry registered again: in the Rust, the same place in memory. And a counter past 65,535.
fn registry_cases() -> Vec<Case> {
    use regular::*;
    let (first, second) = (call(REGISTER, &[0, 0]), call(REGISTER, &[1, 0]));
    let poll = call(POLL_POP, &[]);
    let remove = |entry| call(UNREGISTER, &[entry]);
    let headless = "slots=0 last_gap=false walk=None \
        active=[0:0:A..] inactive=[] activation=[] clean_up=[]";
    let passed = "slots=65536 last_gap=true walk=None \
        active=[] inactive=[] activation=[] clean_up=[]";
    let to_the_top = [first, second, poll, remove(0), poll, poll, remove(1)];
    let again = |calls, leaves| Case {
        size: size::<1, 3, THREE>(0),
        calls,
        rust: None,
        ours: Answer::refused(5),
        leaves,
    };
    vec![
        again(vec![first, first], None),
        again(vec![first, poll, first], Some(headless)),
        Case {
            size: size::<65_535, 3, THREE>(0),
            calls: to_the_top.to_vec(),
            rust: Some(Answer::flag(true)),
            ours: Answer::refused(9),
            leaves: Some(passed),
        },
    ]
}

/// An entry registered again, here too. The Rust finds the service taken, by the entry itself.
fn one_tree_cases() -> Vec<Case> {
    let again = |size, register: fn(u8, &[u32]) -> Call, code, rust| Case {
        size,
        calls: vec![register(code, &[0, 0]); 2],
        rust,
        ours: Answer::refused(5),
        leaves: None,
    };
    let occupied = Some(Answer::refused(7));
    vec![
        again(
            loop_back::size::<3, THREE>(0),
            loop_back::call,
            loop_back::REGISTER,
            None,
        ),
        again(
            requests::size::<3, THREE>(0),
            requests::call,
            requests::REGISTER,
            occupied,
        ),
    ]
}

/// An entry registered again; and frames that get 12: the Rust panics when the buffer has given them.
fn transmit_cases<K: Transmit>(again: Answer) -> Vec<Case> {
    let register = tx::call::<K>(tx::REGISTER, &[0, 0, 16]);
    let pick = tx::call::<K>(tx::PICK, &[255, 8]);
    let settle = |priority, length| tx::call::<K>(tx::SETTLE, &[1, 16, priority, length, 64]);
    let case = |calls, rust, number| Case {
        size: transmit::size::<K>(3, THREE, 16, 0),
        calls,
        rust,
        ours: Answer::refused(number),
        leaves: None,
    };
    let mut cases = vec![case(vec![register; 2], Some(again), 5)];
    for wrong in [settle(5, 8), settle(4, 9), settle(4, 0)] {
        cases.push(case(vec![register, pick, wrong], None, 12));
    }
    cases
}

/// An endpoint for requests that are looped back: none of our calls registers one.
fn looped_back_request() -> Result<String, String> {
    let mut requests = Requests::of(&Tree::default());
    let shown = "req register 0 0 for loop-back frames: the Rust";
    let answer = caught(|| requests.register(0, 0, true).is_ok());
    if answer.is_some() || requests.state() != Tree::default() {
        return Err(format!("{shown} does not panic, or registers it"));
    }
    Ok(format!("{shown} panics; ours has no such call"))
}

/// A size that document 01 does not allow. The Rust's `_ASSERT` constants are never evaluated: 256
/// nodes are its only limit, found by `new`.
struct SizeCase {
    opening: Call,
    length: usize,
    open: fn(&mut [u8], u32, u32) -> Answer,
    rust: fn(),
    panics: bool,
    number: u8,
}

/// Any length does for lists and keys: a size not allowed is refused before it.
const ANY_LENGTH: usize = 600;

fn list_size<const C: usize, const E: usize>(panics: bool) -> SizeCase {
    SizeCase {
        opening: lists::call(lists::OPEN, &[C as u32, E as u32]),
        length: ANY_LENGTH,
        open: exports::mcq_open,
        rust: || _ = MultiClassQueue::<C, E>::new(),
        panics,
        number: 13,
    }
}

fn key_size<const K_MAX: usize, const N: usize>(panics: bool) -> SizeCase {
    SizeCase {
        opening: keys::call(keys::OPEN, &[K_MAX as u32, N as u32]),
        length: ANY_LENGTH,
        open: exports::iq_open,
        rust: || _ = IndexQueue::<u16, u32, K_MAX, N>::new(),
        panics,
        number: 13,
    }
}

fn slots_past_the_end() -> SizeCase {
    SizeCase {
        opening: regular::call(regular::OPEN, &[regular::MOST_SLOTS + 1]),
        length: regular_bytes::LENGTH,
        open: |bytes, slots, _| exports::reg_open(bytes, slots),
        rust: || _ = Regular::new(regular::MOST_SLOTS as usize + 1),
        panics: false,
        number: 3,
    }
}

fn size_cases() -> Vec<SizeCase> {
    vec![
        list_size::<0, 1>(false),
        list_size::<33, 1>(false),
        list_size::<1, 225>(false),
        list_size::<32, 225>(true),
        list_size::<256, 1>(true),
        key_size::<8192, 1>(false),
        key_size::<0, 223>(false),
        key_size::<0, 254>(false),
        key_size::<0, 255>(true),
        slots_past_the_end(),
    ]
}

/// Runs every case; with `print`, says what it showed.
pub fn run(print: bool, tally: &mut Tally) -> Result<(), String> {
    let mut told = |shown: String, call: Call, ours: Answer| {
        tally.agreed("panics", call.op.name, Expected::Asked(ours));
        if print {
            println!("{shown}");
        }
    };
    let cases = [
        list_cases(),
        key_cases(),
        registry_cases(),
        one_tree_cases(),
        transmit_cases::<Message>(Answer::refused(7)),
        transmit_cases::<Response>(Answer::DONE),
    ];
    for case in cases.into_iter().flatten() {
        told(show(&case)?, case.calls[case.calls.len() - 1], case.ours);
    }
    for case in size_cases() {
        told(
            show_size(&case)?,
            case.opening,
            Answer::refused(case.number),
        );
    }
    let shown = looped_back_request()?;
    if print {
        println!("{shown}");
    }
    Ok(())
}

fn show_size(case: &SizeCase) -> Result<String, String> {
    let [a, b, ..] = case.opening.args;
    let mut lent = Lent::new(case.length, 0);
    let ours = (case.open)(&mut lent, a, b);
    if ours != Answer::refused(case.number) || lent[..] != Lent::new(case.length, 0)[..] {
        return Err(format!(
            "{}: ours {ours}, expected {}, and no byte changed",
            case.opening, case.number
        ));
    }
    if caught(case.rust).is_none() != case.panics {
        return Err(format!(
            "{}: the Rust panics: {}",
            case.opening, !case.panics
        ));
    }
    let rust = if case.panics { "panics" } else { "makes it" };
    Ok(format!("{}: the Rust {rust}; ours {ours}", case.opening))
}

fn show(case: &Case) -> Result<String, String> {
    let mut pair = (case.size.open)(0);
    let (&last, first) = case.calls.split_last().expect("a call");
    let opening = pair.opening();
    for &call in [opening].iter().chain(first) {
        pair.put(call);
        pair.make(call);
    }
    let sequence: Vec<_> = [opening]
        .iter()
        .chain(&case.calls)
        .map(Call::to_string)
        .collect();
    let sequence = sequence.join("; ");
    let (before, lent) = (pair.rust_state(), pair.lent().to_vec());
    let rust = shown(caught(|| pair.put(last)));
    if rust != shown(case.rust) {
        return Err(format!(
            "{sequence}: the Rust {rust}, expected {}",
            shown(case.rust)
        ));
    }
    let after = pair.rust_state();
    let expected = case.leaves.unwrap_or(&before);
    if after != expected {
        return Err(format!(
            "{sequence}: the Rust's state is then {after}, expected {expected}"
        ));
    }
    let ours = pair.make(last);
    if ours != case.ours || pair.lent()[..] != lent {
        return Err(format!(
            "{sequence}: ours {ours}, expected {}, and no byte changed",
            case.ours
        ));
    }
    Ok(format!(
        "{sequence}: the Rust {rust}, then {}; ours {ours}",
        describe(&before, &after)
    ))
}

fn shown(answer: Option<Answer>) -> String {
    answer.map_or("panics".into(), |answer| format!("answers {answer}"))
}

fn describe(before: &str, after: &str) -> String {
    if before == after {
        "has changed nothing".into()
    } else {
        format!("has {after}, before {before}")
    }
}
