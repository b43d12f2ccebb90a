//! Tail bytes and frames with expected results that nobody computed from either side.
//!
//! The Cyphal Specification v1.0 could not be had where this was written. The rows follow from its
//! rule for the tail byte, which document 01 names in part: bit 7 start of transfer, bit 6 end of
//! transfer, bit 5 the toggle, which begins a transfer with 1 and alternates, bits 4 to 0 the transfer
//! id. They are laid out like the specification's examples (four single-frame transfers in a row; a
//! response in eleven frames; a transfer in two), and are not read from it. The two rows of
//! `LAST_BYTES` are document 01's own.

use crate::exports::{self, Answer};
use crate::leaves::Leaves;
use crate::tally::{Expected, Tally};

/// The tail bytes of one transfer's frames in order, with its transfer id.
const TRANSFERS: &[(u8, &[u8])] = &[
    // Single-frame transfers one after another; the id goes from 31 back to 0.
    (0, &[0xe0]),
    (1, &[0xe1]),
    (2, &[0xe2]),
    (3, &[0xe3]),
    (31, &[0xff]),
    (0, &[0xe0]),
    // Two frames, three frames, eleven frames.
    (0, &[0xa0, 0x40]),
    (5, &[0xa5, 0x05, 0x65]),
    (
        1,
        &[
            0xa1, 0x01, 0x21, 0x01, 0x21, 0x01, 0x21, 0x01, 0x21, 0x01, 0x61,
        ],
    ),
    (31, &[0xbf, 0x1f, 0x3f, 0x5f]),
];

/// Document 01: last byte 64 ends a transfer, 191 does not.
const LAST_BYTES: &[(u8, bool)] = &[(64, true), (191, false)];

pub fn run(tally: &mut Tally) -> Result<(), String> {
    let mut leaves = Leaves {
        kind: "vectors",
        tally,
    };
    for &(id, tails) in TRANSFERS {
        for (i, &tail) in tails.iter().enumerate() {
            let (sot, eot, toggle) = (i == 0, i + 1 == tails.len(), i % 2 == 0);
            check_tail(&mut leaves, tail, [sot, eot, toggle], id)?;
        }
    }
    for &(last, ends) in LAST_BYTES {
        let ours = exports::is_eot_frame(&[!last, last]);
        let expected = Answer::found(Some(ends));
        leaves.check(
            "is_eot_frame",
            &[last.into()],
            ours,
            Expected::Unasked(expected),
        )?;
    }
    Ok(())
}

fn check_tail(leaves: &mut Leaves, tail: u8, flags: [bool; 3], id: u8) -> Result<(), String> {
    let [sot, eot, toggle] = flags;
    let first = |number: u8| Answer::first(number.into());
    let rows = [
        (
            "tail_byte_new",
            exports::tail_byte_new(sot.into(), eot.into(), toggle.into(), id),
            first(tail),
        ),
        (
            "tail_byte_sot",
            exports::tail_byte_sot(tail),
            Answer::flag(sot),
        ),
        (
            "tail_byte_eot",
            exports::tail_byte_eot(tail),
            Answer::flag(eot),
        ),
        (
            "tail_byte_toggle",
            exports::tail_byte_toggle(tail),
            Answer::flag(toggle),
        ),
        (
            "tail_byte_transfer_id",
            exports::tail_byte_transfer_id(tail),
            first(id),
        ),
        (
            "is_eot_frame",
            exports::is_eot_frame(&[!tail, tail]),
            Answer::found(Some(eot)),
        ),
    ];
    for (name, ours, expected) in rows {
        leaves.check(name, &[tail.into()], ours, Expected::Unasked(expected))?;
    }
    Ok(())
}
