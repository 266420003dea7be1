//! Small proofs and their forms, both spelled out field by field from the request.

use beside::{at_bit, at_node, judge, judge_canonical, judge_form, HANDLER, PROOF};
use generate::{longest, pack, vacuous};
use reference::language::Statement;
use reference::proof_file::Proof;
use reference::writer::spelled;
use reference::Verdict;

/// The proof over the two states of HANDLER has this form, which is its own form.
fn written(proof: &str, form: &str) {
    let (proof, form) = (spelled(proof), spelled(form));
    assert_eq!(judge_form(&HANDLER, &proof), Ok(form.clone()));
    assert_eq!(judge_form(&HANDLER, &form), Ok(form));
}

#[test]
fn bits_as_bytes() {
    let sample = "00001 00011  11  0000 0100 0101  001 0000 0000 0001 0010";
    assert_eq!(spelled(sample), PROOF);
}

/// The sample is in its form. With G as in the refused sample, relation 1 has no mention, and Q
/// becomes relation 1; that the check refuses this proof does not matter.
#[test]
fn the_marked_files() {
    assert_eq!(judge_form(&HANDLER, &PROOF), Ok(PROOF.to_vec()));
    let refused = [0x08, 0xF0, 0x45, 0x20, 0x00, 0x40];
    let form = [0x08, 0xB0, 0x52, 0x00, 0x02];
    assert_eq!(judge_form(&HANDLER, &refused), Ok(form.to_vec()));
    assert_eq!(judge(&HANDLER, &refused), at_node(43, 0));
    assert_eq!(judge(&HANDLER, &form), at_node(43, 0));
}

/// R, G, Q and not their numbers give the order.
#[test]
fn relations_by_first_mention() {
    written(
        "00001 00011  10  0001 0010 0100  000 0000 0010 0000 0001",
        "00001 00011  10  0100 0001 0010  000 0000 0000 0001 0010",
    );
}

/// A while mentions K after its P, and W after its Q, and both before its body mentions anything.
#[test]
fn a_while() {
    written(
        "00011 00101  10 01 11  1000 0000 0010 0100 1111
         101 0010 0010 0010 0001 0001 0000  000 0000 0100 0011 0000",
        "00011 00101  11 01 10  0010 0000 1000 1111 0100
         101 0000 0000 0000 0001 0001 0010  000 0010 0011 0100 0010",
    );
}

/// K may be P, and W any relation that was mentioned before it.
#[test]
fn a_while_without_tables_of_its_own() {
    written(
        "00010 00010  10 01  0000 1111
         101 0001 0001 0000 0001 0001 0001  000 0000 0000 0000 0000",
        "00010 00010  01 10  1111 0000
         101 0000 0000 0001 0000 0000 0000  000 0001 0001 0001 0001",
    );
}

/// Sets 0 and 2 are equal, and so are relations 0 and 2: each keeps the place of its first mention.
#[test]
fn equal_tables_are_merged() {
    written(
        "00011 00011  11 10 11  0101 0000 0101
         010 0010 0010 0001 0000  000 0000 0000 0001 0010  001 0001 0001 0000 0000",
        "00010 00010  11 10  0101 0000
         010 0000 0000 0001 0000  000 0000 0000 0001 0000  001 0001 0001 0000 0000",
    );
}

/// K is equal to P under another number, and W to Q.
#[test]
fn equal_tables_of_a_while_are_merged() {
    written(
        "00010 00011  01 01  0110 0000 0110
         101 0000 0001 0001 0000 0001 0010  000 0001 0001 0001 0010",
        "00001 00010  01  0000 0110
         101 0000 0000 0000 0001 0000 0001  000 0000 0000 0000 0001",
    );
}

/// One of the sets without a mention is equal to the one that has them; so are two relations.
#[test]
fn tables_without_mention_are_dropped() {
    written(
        "00011 00100  10 01 10  0011 0000 0011 0011  000 0010 0011 0011 0011",
        "00001 00001  10  0011  000 0000 0000 0000 0000",
    );
}

/// Sets that differ in the first or in the last state only, and relations that differ in the first
/// or in the last pair only, are all kept.
#[test]
fn tables_that_differ_in_one_member() {
    written(
        "00011 00100  00 10 01  0000 1000 0001 1001
         011 0010 0011 0010 0001  000 0001 0000 0001 0010  001 0000 0011 0011 0000",
        "00011 00100  01 10 00  1001 0001 1000 0000
         011 0000 0000 0001 0010  000 0001 0011 0010 0001  001 0010 0000 0000 0011",
    );
    // Relations that differ in the first row only, in each of its states.
    written(
        "00001 00011  00  0011 1011 0111  000 0000 0010 0001 0000",
        "00001 00011  00  0111 1011 0011  000 0000 0000 0001 0010",
    );
    // And in the last row only.
    written(
        "00001 00011  00  1100 1110 1101  000 0000 0010 0001 0000",
        "00001 00011  00  1101 1110 1100  000 0000 0000 0001 0010",
    );
}

/// The nodes in file order: all below the left child comes before the right child. Every rule has
/// its own code and its own children.
#[test]
fn every_rule_in_file_order() {
    // A weaken over a parallel of an if over a skip, and a sequence of an assignment and a while
    // over a skip. Their P are 6, 5, 4, 3, 2, 1, 0, K is 7, and the last P is 7 again.
    written(
        "01000 00001  00 01 10 11 00 01 10 11  0110
         110 0110 000000000000  011 0101 000000000000  100 0100 000000000000
         000 0011 000000000000  010 0010 000000000000  001 0001 000000000000
         101 0000 000000000000 0111 0000  000 0111 000000000000",
        "00100 00001  10 01 00 11  0110
         110 0000 000000000000  011 0001 000000000000  100 0010 000000000000
         000 0011 000000000000  010 0000 000000000000  001 0001 000000000000
         101 0010 000000000000 0011 0000  000 0011 000000000000",
    );
}

/// With three states no table ends where a byte does.
#[test]
fn three_states() {
    let handler = spelled("001 00011 000");
    let proof =
        spelled("00010 00011  101 110  100000001 010000000 100000001  000 0001 0010 0001 0000");
    let form = spelled("00001 00010  110  100000001 010000000  000 0000 0000 0001 0000");
    assert_eq!(judge_form(&handler, &proof), Ok(form));
}

fn packed(proof: &Proof) -> Vec<u8> {
    pack::proof(proof, 64).bytes
}

/// 16 sets and 16 relations that are alike but for the last four states keep their tables, in the
/// opposite order.
#[test]
fn the_most_tables() {
    let handler = vacuous::pair(&[8, 8], Statement::Nil).handler_file.bytes;
    let form = packed(&longest::form());
    let bits = 10 + 16 * 64 + 16 * 64 * 64 + 127 * 19 + 112 * 8;
    assert_eq!(form.len(), usize::div_ceil(bits, 8));
    assert_eq!(judge_form(&handler, &packed(&longest::proof())), Ok(form));
}

/// All of those tables with the same members become one set and one relation.
#[test]
fn the_most_equal_tables() {
    let handler = vacuous::pair(&[8, 8], Statement::Nil).handler_file.bytes;
    let mut proof = longest::proof();
    proof.sets = vec![proof.sets[3]; 16];
    proof.relations = vec![proof.relations[5].clone(); 16];
    let form = judge_form(&handler, &packed(&proof)).expect("it is well formed");
    let read = reference::proof_file::read(&form, 64).expect("the form is well formed");
    assert_eq!(read.sets, proof.sets[..1]);
    assert_eq!(read.relations, proof.relations[..1]);
}

/// Whatever room there is, the file goes to its start, and only a room too short is refused.
#[test]
fn rooms() {
    for room in 0..6 {
        assert_eq!(judge_canonical(&HANDLER, &PROOF, room), Err(at_bit(3, 0)));
    }
    for room in [6, 7, 8, 40, 16_384, 100_000] {
        assert_eq!(judge_canonical(&HANDLER, &PROOF, room), Ok(PROOF.to_vec()));
    }
    // The form is shorter than the file: five bytes are enough.
    let longer = [0x08, 0xF0, 0x45, 0x20, 0x00, 0x40];
    assert_eq!(judge_canonical(&HANDLER, &longer, 4), Err(at_bit(3, 0)));
    assert!(judge_canonical(&HANDLER, &longer, 5).is_ok_and(|form| form.len() == 5));
}

/// Only N is taken from the handler file: another handler over two states gives the same file.
#[test]
fn another_handler() {
    let nil = [0x22, 0x00];
    assert_eq!(judge_form(&nil, &PROOF), Ok(PROOF.to_vec()));
    assert_eq!(judge(&nil, &PROOF), at_node(30, 0));
    assert_eq!(judge(&HANDLER, &PROOF), Verdict::Accepted(1));
}
