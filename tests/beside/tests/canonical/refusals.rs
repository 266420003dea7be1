//! What is not written: every number, its place, and which of two goes first.

use beside::lawful::FORM_NUMBERS;
use beside::{at_bit, judge, judge_canonical, judge_form, number, HANDLER, PROOF};
use reference::writer::spelled;
use reference::{Verdict, LONGEST_FILE};
use std::collections::BTreeSet;

/// Refused so in every room, also where there is none, and by the check alike.
fn refused(handler: &[u8], proof: &[u8], verdict: Verdict) {
    for room in [0, 1, 5, 6, 7, 64, LONGEST_FILE] {
        assert_eq!(judge_canonical(handler, proof, room), Err(verdict));
    }
    assert_eq!(judge_form(handler, proof), Err(verdict));
    assert_eq!(judge(handler, proof), verdict);
}

/// Handler files and the refusal of each; the proof is the sample's.
fn handlers() -> Vec<(Vec<u8>, Verdict)> {
    let deep = "100 01 1".repeat(16);
    vec![
        (vec![], at_bit(10, 0)),
        (vec![0x22], at_bit(10, 8)),
        (spelled("000 00010"), at_bit(11, 0)),
        (spelled("101 00010"), at_bit(11, 0)),
        (spelled("001 00001 000"), at_bit(12, 3)),
        (spelled("010 00010 10001 000"), at_bit(12, 8)),
        (spelled("010 01101 00101 000"), at_bit(13, 8)),
        (spelled("001 00010 110"), at_bit(14, 8)),
        (spelled("001 00010 001 00 11 111"), at_bit(14, 15)),
        (spelled("001 00010 001 01 00 00000001"), at_bit(15, 11)),
        (spelled("001 00010 001 00 01 1"), at_bit(16, 13)),
        (spelled(&format!("001 00010 {deep} 000")), at_bit(17, 8 + 16 * 6)),
        (vec![0x22, 0x20, 0x03], at_bit(18, 23)),
        (vec![0x22, 0x20, 0x02, 0x00], at_bit(18, 24)),
    ]
}

/// Proof files over two states and the refusal of each; the handler is the sample's.
fn proofs() -> Vec<(Vec<u8>, Verdict)> {
    let tables = "00001 00001 11 0000";
    let after = |nodes: &str| spelled(&format!("{tables} {nodes}"));
    let weakens = "110 0000 000000000000".repeat(24);
    vec![
        (vec![], at_bit(20, 0)),
        (PROOF[..5].to_vec(), at_bit(20, 40)),
        (spelled("00000 00001"), at_bit(21, 0)),
        (spelled("00001 10001"), at_bit(21, 5)),
        (after("111"), at_bit(22, 16)),
        (after("000 0001"), at_bit(23, 19)),
        (after("000 0000 0000 0001"), at_bit(23, 27)),
        (after("101 0000 0000 0000 0000 0001"), at_bit(23, 35)),
        (after("101 0000 0000 0000 0000 0000 0001"), at_bit(23, 39)),
        (after(&format!("{weakens} 000 0000 000000000000")), at_bit(24, 16 + 24 * 19)),
        (after("000 0000 0000 0000 0000 00001"), at_bit(25, 39)),
        (vec![0x08, 0xF0, 0x45, 0x20, 0x02, 0x40, 0x00], at_bit(25, 48)),
    ]
}

#[test]
fn every_number_of_the_files() {
    let mut seen = BTreeSet::new();
    for (handler, verdict) in handlers() {
        refused(&handler, &PROOF, verdict);
        seen.insert(number(verdict));
    }
    for (proof, verdict) in proofs() {
        refused(&HANDLER, &proof, verdict);
        seen.insert(number(verdict));
    }
    let of_files = FORM_NUMBERS.into_iter().filter(|number| *number >= 10);
    assert!(seen.into_iter().eq(of_files));
}

/// Any fault of the handler file goes before any of the proof file, 16 too.
#[test]
fn the_handler_file_goes_first() {
    for (handler, verdict) in handlers() {
        for (proof, _) in proofs() {
            refused(&handler, &proof, verdict);
        }
    }
    // 16 goes after every other fault of its file.
    refused(&spelled("001 00010 001 00 01 1 00000001"), &[], at_bit(18, 16));
}

/// The length of a file goes before all that is in the files, whichever of the two is too long.
#[test]
fn lengths_go_before_contents() {
    let longer = |file: &[u8], length: usize| {
        let mut bytes = file.to_vec();
        bytes.resize(length, 0);
        bytes
    };
    refused(&longer(&HANDLER, LONGEST_FILE), &PROOF, at_bit(18, 24));
    refused(&HANDLER, &longer(&PROOF, LONGEST_FILE), at_bit(25, 48));
    for (handler, _) in handlers() {
        refused(&handler, &longer(&PROOF, LONGEST_FILE + 1), at_bit(2, 0));
    }
    for (proof, _) in proofs() {
        refused(&longer(&HANDLER, LONGEST_FILE + 1), &proof, at_bit(2, 0));
    }
    let too_long = [0xFF; LONGEST_FILE + 1];
    refused(&too_long, &too_long, at_bit(2, 0));
}
