//! The order of faults within a file, and their places, field by field.

use beside::{at_bit, at_node, judge, HANDLER, PROOF};
use generate::pack::{Packer, What};

/// Puts fields of the given widths one behind the other.
fn packed(fields: &[(u64, usize)]) -> Vec<u8> {
    let mut packer = Packer::new();
    for (value, width) in fields {
        packer.put(What::Constant, *value, *width);
    }
    packer.finish().bytes
}

/// One variable of size 2.
const ONE_BIT: [(u64, usize); 2] = [(1, 3), (2, 5)];

fn after_one_bit(fields: &[(u64, usize)]) -> Vec<u8> {
    packed(&[&ONE_BIT, fields].concat())
}

#[test]
fn the_order_in_the_handler_file() {
    // A size of 17 is no size before it is too much; a size before the one that is missing.
    assert_eq!(judge(&packed(&[(2, 3), (16, 5), (17, 5), (0, 3)]), &PROOF), at_bit(12, 8));
    assert_eq!(judge(&packed(&[(3, 3), (16, 5), (16, 5)]), &PROOF), at_bit(13, 8));
    // Number of variables before anything that is missing behind it.
    assert_eq!(judge(&packed(&[(5, 3)]), &PROOF), at_bit(11, 0));
    // Level 17 is too deep before its code is unused; one level less, it is unused.
    let mut deep = [(4, 3), (1, 2), (1, 1)].repeat(16);
    deep.push((7, 3));
    let place = 8 + 16 * 6;
    assert_eq!(judge(&after_one_bit(&deep), &PROOF), at_bit(17, place));
    deep.drain(0..3);
    assert_eq!(judge(&after_one_bit(&deep), &PROOF), at_bit(14, place - 6));
    // An operation's code field, not its node; a variable's field, not its node.
    assert_eq!(judge(&after_one_bit(&[(1, 3), (0, 2), (3, 2), (7, 3)]), &PROOF), at_bit(14, 15));
    assert_eq!(judge(&after_one_bit(&[(1, 3), (1, 2), (0, 2)]), &PROOF), at_bit(15, 11));
    assert_eq!(judge(&after_one_bit(&[(1, 3), (0, 2), (2, 2), (3, 2)]), &PROOF), at_bit(15, 15));
}

#[test]
fn kinds_come_last() {
    // c ← true, whole: 16 at the expression. With a fill bit or cut short, that goes first.
    let store = [(1, 3), (0, 2), (1, 2), (1, 1)];
    assert_eq!(judge(&after_one_bit(&store), &PROOF), at_bit(16, 13));
    let mut long = after_one_bit(&store);
    long.push(0);
    assert_eq!(judge(&long, &PROOF), at_bit(18, 16));
    let cut = [(2, 3), (1, 3), (0, 2), (1, 2), (1, 1), (4, 3), (0, 2)];
    assert_eq!(judge(&after_one_bit(&cut), &PROOF), at_bit(10, 24));
    // c ← (true < 1): the operation gives the wrong kind, and goes before its operand.
    let whole = [(1, 3), (0, 2), (3, 2), (2, 3), (1, 2), (1, 1), (0, 2), (1, 8)];
    assert_eq!(judge(&after_one_bit(&whole), &PROOF), at_bit(16, 13));
    // c ← (true + 1): the operand is at fault.
    let operand = [(1, 3), (0, 2), (3, 2), (0, 3), (1, 2), (1, 1), (0, 2), (1, 8)];
    assert_eq!(judge(&after_one_bit(&operand), &PROOF), at_bit(16, 18));
    // if 1 then nil.
    assert_eq!(judge(&after_one_bit(&[(4, 3), (0, 2), (1, 8), (0, 3)]), &PROOF), at_bit(16, 11));
}

#[test]
fn the_order_in_the_proof_file() {
    let proof = |fields: &[(u64, usize)]| judge(&HANDLER, &packed(fields));
    assert_eq!(proof(&[]), at_bit(20, 0));
    // Each count by itself: a bad number of sets goes before the missing one of relations.
    assert_eq!(proof(&[(0, 5)]), at_bit(21, 0));
    assert_eq!(proof(&[(17, 5), (17, 5)]), at_bit(21, 0));
    assert_eq!(proof(&[(1, 5)]), at_bit(20, 8));
    assert_eq!(proof(&[(16, 5), (17, 5)]), at_bit(21, 5));
    // One set and one relation over 2 states take the bits 10 to 15.
    let tables = [(1, 5), (1, 5), (3, 2), (0, 4)];
    let behind = |fields: &[(u64, usize)]| proof(&[&tables, fields].concat());
    assert_eq!(behind(&[(7, 3)]), at_bit(22, 16));
    assert_eq!(behind(&[(1, 3), (1, 4)]), at_bit(23, 19));
    assert_eq!(behind(&[(1, 3), (0, 4), (1, 4)]), at_bit(23, 23));
    assert_eq!(behind(&[(1, 3), (0, 4), (0, 4), (0, 4), (15, 4)]), at_bit(23, 31));
    assert_eq!(behind(&[(5, 3), (0, 4), (0, 12), (1, 4), (0, 4)]), at_bit(23, 35));
    assert_eq!(behind(&[(5, 3), (0, 4), (0, 12), (0, 4), (1, 4)]), at_bit(23, 39));
    // Level 25 is too deep before its rule is unused.
    let chain: Vec<(u64, usize)> = [(6, 3), (0, 16)].repeat(24);
    assert_eq!(behind(&[chain, vec![(7, 3)]].concat()), at_bit(24, 16 + 24 * 19));
    // Fill, and a fault of the handler file before any of the proof file.
    let node = [(0, 3), (0, 16)];
    assert_eq!(behind(&node), at_node(30, 0));
    assert_eq!(behind(&[&node[..], &[(1, 5)]].concat()), at_bit(25, 39));
    assert_eq!(judge(&[0x22, 0x20, 0x03], &[]), at_bit(18, 23));
}
