//! Document 01's cases of transmission, and what its text says besides, with its results.

use crate::exports::Answer;
use crate::pair::Call;
use crate::transmit_calls::{OPEN, PICK, REGISTER, SETTLE, Transmit, UNREGISTER, UPDATE, call};

/// A call by its place among the kind's calls, and what document 01 answers. A registering one has
/// a subject, which responses drop.
type Row = (u8, &'static [u32], Answer);

const START: Row = (OPEN, &[], Answer::DONE);
const NOTHING: Answer = Answer::DONE;
const LATER: Answer = Answer::flag(false);
const WAKE: Answer = Answer::flag(true);

const fn register(numbers: &'static [u32], answer: Answer) -> Row {
    (REGISTER, numbers, answer)
}

const fn update(numbers: &'static [u32], answer: Answer) -> Row {
    (UPDATE, numbers, answer)
}

const fn pick(numbers: &'static [u32], answer: Answer) -> Row {
    (PICK, numbers, answer)
}

const fn settle(numbers: &'static [u32], answer: Answer) -> Row {
    (SETTLE, numbers, answer)
}

const fn named(entry: u16, priority: u32) -> Answer {
    Answer::new(0, 1, entry, priority)
}

const fn of(entry: u16) -> Answer {
    Answer::first(entry)
}

const fn of_and_wake(entry: u16) -> Answer {
    Answer::new(0, 1, entry, 0)
}

const fn refused(number: u8) -> Answer {
    Answer::refused(number)
}

const CASES: &[&[Row]] = &[
    // Transmit 0, 1 ready at 4: pick 0, last frame, still ready, pick 1.
    &[
        START,
        register(&[0, 0, 16], LATER),
        register(&[1, 1, 16], LATER),
        pick(&[255, 64], named(0, 4)),
        settle(&[1, 16, 4, 64, 64], of(0)),
        pick(&[255, 64], named(1, 4)),
    ],
    // Same with a frame that is not last: pick 0 again.
    &[
        START,
        register(&[0, 0, 16], LATER),
        register(&[1, 1, 16], LATER),
        pick(&[255, 64], named(0, 4)),
        settle(&[1, 16, 4, 64, 191], of(0)),
        pick(&[255, 64], named(0, 4)),
        settle(&[1, 16, 4, 64, 191], of(0)),
        pick(&[255, 64], named(0, 4)),
        settle(&[1, 16, 4, 1, 64], of(0)),
        pick(&[255, 64], named(1, 4)),
    ],
    // An entry that gave no frame is not passed over.
    &[
        START,
        register(&[0, 0, 16], LATER),
        register(&[1, 1, 16], LATER),
        pick(&[16, 8], named(0, 4)),
        settle(&[0, 16, 0, 0, 0], of(0)),
        pick(&[16, 8], named(0, 4)),
    ],
    // Started before finished, the most urgent before both; by the mask alone.
    &[
        START,
        register(&[0, 0, 16], LATER),
        register(&[1, 1, 16], LATER),
        register(&[2, 2, 16], LATER),
        pick(&[255, 8], named(0, 4)),
        settle(&[1, 16, 4, 8, 64], of(0)),
        pick(&[255, 8], named(1, 4)),
        settle(&[1, 16, 4, 8, 0], of(1)),
        update(&[2, 17], LATER),
        pick(&[255, 8], named(2, 0)),
        settle(&[1, 16, 0, 8, 64], of(2)),
        pick(&[254, 8], named(1, 4)),
        settle(&[1, 0, 4, 8, 64], of(1)),
        pick(&[255, 8], named(0, 4)),
        settle(&[1, 0, 4, 8, 64], of(0)),
        pick(&[255, 8], named(2, 4)),
    ],
    // 'Nothing' stores its mask, an empty one keeps it; wake where a place changed into the mask.
    &[
        START,
        pick(&[16, 8], NOTHING),
        register(&[0, 0, 16], WAKE),
        pick(&[0, 8], NOTHING),
        update(&[0, 0], LATER),
        update(&[0, 16], WAKE),
        update(&[0, 48], LATER),
        update(&[0, 32], LATER),
        register(&[1, 1, 8], LATER),
        update(&[1, 24], LATER),
        update(&[1, 16], WAKE),
        (UNREGISTER, &[1], LATER),
        pick(&[8, 64], NOTHING),
        register(&[1, 1, 8], WAKE),
    ],
    // A settlement wakes by the mask stored before; with no frame it then stores the pick's.
    &[
        START,
        pick(&[16, 8], NOTHING),
        register(&[0, 0, 8], LATER),
        pick(&[12, 8], named(0, 3)),
        settle(&[0, 16, 0, 0, 0], of_and_wake(0)),
        update(&[0, 4], WAKE),
        pick(&[128, 8], NOTHING),
        pick(&[12, 8], named(0, 2)),
        settle(&[0, 8, 9, 0, 64], of(0)),
        pick(&[255, 8], named(0, 3)),
        settle(&[1, 8, 3, 8, 64], of_and_wake(0)),
        pick(&[255, 8], named(0, 3)),
        settle(&[1, 16, 3, 8, 64], of(0)),
    ],
    // Refusals, the first that applies.
    &[
        START,
        pick(&[255, 9], refused(3)),
        pick(&[0, 0], refused(3)),
        settle(&[1, 0, 8, 0, 0], refused(3)),
        settle(&[1, 0, 7, 0, 0], refused(11)),
        settle(&[0, 0, 8, 0, 0], refused(11)),
        update(&[0, 255], refused(8)),
        (UNREGISTER, &[127], refused(8)),
        (UNREGISTER, &[128], refused(2)),
        update(&[128, 0], refused(2)),
        register(&[128, 0, 0], refused(2)),
        register(&[127, 8191, 128], LATER),
        register(&[127, 8191, 128], refused(5)),
        pick(&[128, 8], named(127, 7)),
        register(&[128, 0, 0], refused(2)),
        register(&[127, 8191, 128], refused(10)),
        register(&[0, 8191, 128], refused(10)),
        (UNREGISTER, &[0], refused(10)),
        update(&[127, 0], refused(10)),
        update(&[0, 0], refused(10)),
        pick(&[0, 8], refused(10)),
        pick(&[0, 7], refused(3)),
        settle(&[1, 0, 8, 0, 0], refused(3)),
        settle(&[1, 0, 7, 0, 64], refused(12)),
        settle(&[1, 0, 7, 9, 64], refused(12)),
        settle(&[1, 0, 6, 8, 64], refused(12)),
        settle(&[255, 128, 7, 8, 64], of(127)),
        settle(&[1, 128, 7, 8, 64], refused(11)),
        pick(&[128, 64], named(127, 7)),
        settle(&[1, 0, 7, 65, 64], refused(12)),
        settle(&[1, 128, 7, 9, 64], of(127)),
        pick(&[128, 64], named(127, 7)),
        START,
        settle(&[0, 0, 0, 0, 0], refused(11)),
        pick(&[255, 64], NOTHING),
    ],
];

const MESSAGE_CASES: &[&[Row]] = &[&[
    START,
    register(&[0, 8191, 1], LATER),
    register(&[1, 8191, 1], refused(7)),
    register(&[1, 8192, 1], refused(3)),
    register(&[128, 8192, 1], refused(2)),
    pick(&[255, 8], named(0, 0)),
    register(&[1, 8192, 1], refused(3)),
    register(&[1, 8191, 1], refused(10)),
    settle(&[0, 1, 0, 0, 0], of(0)),
    (UNREGISTER, &[0], LATER),
    register(&[1, 8191, 1], WAKE),
]];

/// As calls of the kind.
pub fn cases<K: Transmit>() -> Vec<Vec<(Call, Answer)>> {
    let own = if K::HAS_SUBJECTS { MESSAGE_CASES } else { &[] };
    let step = |&(place, args, answer): &Row| (call::<K>(place, args), answer);
    let case = |case: &&[Row]| case.iter().map(step).collect();
    CASES.iter().chain(own).map(case).collect()
}
