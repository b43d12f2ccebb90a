//! Document 01's cases of the registries with its own expected results, on both sides; sequences at
//! the limits; bytes that are no registry, or another's.

use crate::exports::{self, Answer};
use crate::leaves::Leaves;
use crate::one_tree::OneTree;
use crate::pair::{Call, Lent, Op, Size};
use crate::registry::THREE;
use crate::regular::{self, HUB_PUSH_NEXT, HUB_PUSH_START, OPEN, POLL_POP, REGISTER, UNREGISTER};
use crate::regular_bytes::LENGTH;
use crate::tally::{Expected, Tally};
use crate::transmit_calls::Transmit;
use crate::{bounds, loop_back as lb, requests as req, runs, transmit, transmit_cases, whole};
use emcyphal::marker::{Message, Response};
use emcyphal::registry::probe::{LoopBack, Requests};

/// A call by its code in the recorded list, and what document 01 answers.
type Row = (u8, &'static [u32], Answer);

const NOTHING: Answer = Answer::DONE;
const LATER: Answer = Answer::flag(false);
const WAKE: Answer = Answer::flag(true);

const fn open(slots: &'static [u32]) -> Row {
    (OPEN, slots, Answer::DONE)
}

const fn register(numbers: &'static [u32], answer: Answer) -> Row {
    (REGISTER, numbers, answer)
}

const fn unregister(entry: &'static [u32], answer: Answer) -> Row {
    (UNREGISTER, entry, answer)
}

const fn poll(answer: Answer) -> Row {
    (POLL_POP, &[], answer)
}

const fn add(subject: u16) -> Row {
    poll(Answer::new(0, 1, subject, 0))
}

const fn remove(first: u16, last: u32) -> Row {
    poll(Answer::new(0, 2, first, last))
}

const fn start(subject: &'static [u32], found: bool) -> Row {
    (HUB_PUSH_START, subject, Answer::flag(found))
}

const fn next(entry: u16, more: u32) -> Row {
    (HUB_PUSH_NEXT, &[], Answer::new(0, 1, entry, more))
}

const NO_NEXT: Row = (HUB_PUSH_NEXT, &[], Answer::DONE);

/// In the order of document 01's list; then its program's example, and its ends.
const CASES: &[&[Row]] = &[
    // Fresh poll; 100 by entries 0 and 1, unpolled; then 0 removed.
    &[
        open(&[4]),
        poll(NOTHING),
        register(&[0, 100], WAKE),
        register(&[1, 100], LATER),
        add(100),
        poll(NOTHING),
        unregister(&[0], LATER),
        poll(NOTHING),
        start(&[100], true),
        next(1, 0),
        NO_NEXT,
    ],
    // 100, 200 and 300 active from 3 slots, 200 removed, then 100: the counter is 1.
    &[
        open(&[3]),
        register(&[0, 100], WAKE),
        register(&[1, 200], WAKE),
        register(&[2, 300], WAKE),
        add(100),
        add(200),
        add(300),
        unregister(&[1], WAKE),
        unregister(&[0], LATER),
        remove(0, 299),
        poll(NOTHING),
        register(&[0, 400], WAKE),
        register(&[1, 500], Answer::refused(6)),
    ],
    &[
        open(&[1]),
        register(&[0, 300], WAKE),
        add(300),
        unregister(&[0], WAKE),
        remove(0, 8191),
        poll(NOTHING),
    ],
    &[
        open(&[2]),
        register(&[0, 0], WAKE),
        register(&[1, 1], WAKE),
        add(0),
        add(1),
        unregister(&[0], WAKE),
        remove(0, 0),
        poll(NOTHING),
    ],
    &[
        open(&[2]),
        register(&[0, 8190], WAKE),
        register(&[1, 8191], WAKE),
        add(8190),
        add(8191),
        unregister(&[1], WAKE),
        remove(8191, 8191),
        poll(NOTHING),
    ],
    &[
        open(&[1]),
        register(&[0, 100], WAKE),
        unregister(&[0], LATER),
        register(&[0, 101], Answer::refused(6)),
    ],
    // The walk names 0, 1 is removed, the walk names 2 and ends.
    &[
        open(&[1]),
        register(&[0, 100], WAKE),
        register(&[1, 100], LATER),
        register(&[2, 100], LATER),
        add(100),
        poll(NOTHING),
        start(&[100], true),
        next(0, 1),
        unregister(&[1], LATER),
        next(2, 0),
        NO_NEXT,
    ],
    &[
        open(&[4]),
        register(&[0, 100], WAKE),
        register(&[1, 100], LATER),
        add(100),
        unregister(&[0], WAKE),
        remove(0, 8191),
        add(100),
        poll(NOTHING),
    ],
    &[
        open(&[65_535]),
        register(&[127, 8191], WAKE),
        register(&[126, 8192], Answer::refused(3)),
        register(&[128, 8191], Answer::refused(2)),
        register(&[128, 8192], Answer::refused(2)),
        unregister(&[128], Answer::refused(2)),
        unregister(&[126], Answer::refused(8)),
        register(&[127, 8191], Answer::refused(5)),
        start(&[8191], false),
        (HUB_PUSH_START, &[8192], Answer::refused(3)),
        (OPEN, &[65_536], Answer::refused(3)),
        add(8191),
    ],
];

const LOOP_BACK_CASES: &[&[Row]] = &[
    // 0 on 100, 1 on 200: frame 100 names 0 and 1, frame 150 none.
    &[
        (lb::OPEN, &[], Answer::DONE),
        (lb::REGISTER, &[0, 100], Answer::DONE),
        (lb::REGISTER, &[1, 200], Answer::DONE),
        (lb::HUB_PUSH_START, &[100], Answer::flag(true)),
        (lb::HUB_PUSH_NEXT, &[], Answer::new(0, 1, 0, 1)),
        (lb::HUB_PUSH_NEXT, &[], Answer::new(0, 1, 1, 0)),
        (lb::HUB_PUSH_NEXT, &[], Answer::DONE),
        (lb::HUB_PUSH_START, &[150], Answer::flag(false)),
        (lb::HUB_PUSH_NEXT, &[], Answer::DONE),
    ],
    &[
        (lb::OPEN, &[], Answer::DONE),
        (lb::REGISTER, &[127, 8191], Answer::DONE),
        (lb::REGISTER, &[126, 8192], Answer::refused(3)),
        (lb::REGISTER, &[128, 8192], Answer::refused(2)),
        (lb::REGISTER, &[127, 0], Answer::refused(5)),
        (lb::UNREGISTER, &[128], Answer::refused(2)),
        (lb::UNREGISTER, &[126], Answer::refused(8)),
        (lb::HUB_PUSH_START, &[8192], Answer::refused(3)),
        (lb::HUB_PUSH_START, &[8191], Answer::flag(true)),
        (lb::HUB_PUSH_NEXT, &[], Answer::new(0, 1, 127, 0)),
    ],
];

/// Document 01's sentence on frames: they go to the one entry of the service, never from a loop-back
/// frame. And 7, and the ends.
const REQUEST_CASES: &[&[Row]] = &[&[
    (req::OPEN, &[], Answer::DONE),
    (req::REGISTER, &[0, 0], Answer::DONE),
    (req::REGISTER, &[127, 511], Answer::DONE),
    (req::REGISTER, &[1, 511], Answer::refused(7)),
    (req::REGISTER, &[127, 511], Answer::refused(5)),
    (req::REGISTER, &[1, 512], Answer::refused(3)),
    (req::REGISTER, &[128, 512], Answer::refused(2)),
    (req::UNREGISTER, &[128], Answer::refused(2)),
    (req::UNREGISTER, &[1], Answer::refused(8)),
    (req::POLL_PUSH, &[0, 0], Answer::new(0, 1, 0, 0)),
    (req::POLL_PUSH, &[511, 0], Answer::new(0, 1, 127, 0)),
    (req::POLL_PUSH, &[511, 1], Answer::DONE),
    (req::POLL_PUSH, &[511, 255], Answer::DONE),
    (req::POLL_PUSH, &[510, 0], Answer::DONE),
    (req::POLL_PUSH, &[512, 0], Answer::refused(3)),
    (req::POLL_PUSH, &[512, 1], Answer::refused(3)),
    (req::UNREGISTER, &[127], Answer::DONE),
    (req::POLL_PUSH, &[511, 0], Answer::DONE),
    (req::REGISTER, &[1, 511], Answer::DONE),
    (req::POLL_PUSH, &[511, 0], Answer::new(0, 1, 1, 0)),
]];

pub fn run(tally: &mut Tally) -> Result<(), String> {
    let kinds = [
        (
            regular::size::<4, 3, THREE>(0),
            with_calls(regular::OPS, CASES),
        ),
        (
            lb::size::<3, THREE>(0),
            with_calls(lb::OPS, LOOP_BACK_CASES),
        ),
        (
            req::size::<3, THREE>(0),
            with_calls(req::OPS, REQUEST_CASES),
        ),
        (
            transmit::size::<Message>(3, THREE, 16, 0),
            transmit_cases::cases::<Message>(),
        ),
        (
            transmit::size::<Response>(3, THREE, 16, 0),
            transmit_cases::cases::<Response>(),
        ),
    ];
    for (size, cases) in kinds {
        cases
            .iter()
            .try_for_each(|case| run_case(&size, case, tally))?;
    }
    for (size, calls) in bounds::sequences() {
        runs::written(&size, calls, tally).map_err(|d| d.to_string())?;
    }
    whole::run(tally)?;
    let mut leaves = Leaves {
        kind: "cases",
        tally,
    };
    other_bytes(&mut leaves)
}

/// Calls and what document 01 answers.
type Case = Vec<(Call, Answer)>;

fn with_calls(ops: &'static [Op], cases: &[&[Row]]) -> Vec<Case> {
    let step = |&(code, args, answer): &Row| {
        let op = ops.iter().find(|op| op.code == code);
        (Call::new(op.expect("a code of this kind"), args), answer)
    };
    let case = |case: &&[Row]| case.iter().map(step).collect();
    cases.iter().map(case).collect()
}

fn run_case(size: &Size, case: &Case, tally: &mut Tally) -> Result<(), String> {
    let mut pair = (size.open)(0);
    let mut calls = Vec::new();
    for &(call, expected) in case {
        calls.push(call.to_string());
        let answer = runs::step(&mut *pair, call, tally)
            .map_err(|text| format!("{}: {text}", calls.join("; ")))?;
        if answer != expected {
            return Err(format!(
                "{}: {answer}, document 01: {expected}",
                calls.join("; ")
            ));
        }
    }
    Ok(())
}

/// Bytes of another length, and bytes at random, get 1 whatever the numbers are, and stay.
fn other_bytes(leaves: &mut Leaves) -> Result<(), String> {
    let own = [
        LENGTH,
        LoopBack::LENGTH,
        Requests::LENGTH,
        Message::LENGTH,
        Response::LENGTH,
    ];
    let lengths = own.iter().flat_map(|own| [own - 1, *own, own + 1]);
    for length in lengths.chain([0, 1, 4, 1024]) {
        for number in [0, 1, 127, 128, 8191, 8192, 65_535, 65_536, u32::MAX] {
            let mut lent = Lent::new(length, 1);
            for (name, ours) in refused_calls(&mut lent, number) {
                let given = [length as u32, number];
                leaves.check(name, &given, ours, Expected::Unasked(Answer::refused(1)))?;
            }
            if lent[..] != Lent::new(length, 1)[..] || !lent.margins_stand() {
                return Err(format!(
                    "{length} bytes, number {number}: a byte was written"
                ));
            }
        }
    }
    Ok(())
}

/// Every call of the registries, but an opening where the length is its kind's.
fn refused_calls(lent: &mut Lent, number: u32) -> Vec<(&'static str, Answer)> {
    use exports::*;
    let mut answers = vec![
        ("reg_register", reg_register(lent, number, number)),
        ("reg_unregister", reg_unregister(lent, number)),
        ("reg_poll_pop", reg_poll_pop(lent)),
        ("reg_hub_push_start", reg_hub_push_start(lent, number)),
        ("reg_hub_push_next", reg_hub_push_next(lent)),
        ("lb_register", lb_register(lent, number, number)),
        ("lb_unregister", lb_unregister(lent, number)),
        ("lb_hub_push_start", lb_hub_push_start(lent, number)),
        ("lb_hub_push_next", lb_hub_push_next(lent)),
        ("req_register", req_register(lent, number, number)),
        ("req_unregister", req_unregister(lent, number)),
        ("req_poll_push", req_poll_push(lent, number, number as u8)),
    ];
    answers.extend(refused_by_transmission(lent, number));
    let length = lent.len();
    if length != LENGTH {
        answers.push(("reg_open", reg_open(lent, number)));
    }
    if length != LoopBack::LENGTH {
        answers.push(("lb_open", lb_open(lent)));
    }
    if length != Requests::LENGTH {
        answers.push(("req_open", req_open(lent)));
    }
    if length != Message::LENGTH {
        answers.push(("txm_open", txm_open(lent)));
    }
    if length != Response::LENGTH {
        answers.push(("txr_open", txr_open(lent)));
    }
    answers
}

fn refused_by_transmission(lent: &mut Lent, number: u32) -> [(&'static str, Answer); 10] {
    use exports::*;
    let byte = number as u8;
    [
        ("txm_register", txm_register(lent, number, number, byte)),
        ("txm_unregister", txm_unregister(lent, number)),
        ("txm_update", txm_update(lent, number, byte)),
        ("txm_pick", txm_pick(lent, byte, number)),
        (
            "txm_settle",
            txm_settle(lent, byte, byte, number, number, byte),
        ),
        ("txr_register", txr_register(lent, number, byte)),
        ("txr_unregister", txr_unregister(lent, number)),
        ("txr_update", txr_update(lent, number, byte)),
        ("txr_pick", txr_pick(lent, byte, number)),
        (
            "txr_settle",
            txr_settle(lent, byte, byte, number, number, byte),
        ),
    ]
}
