//! Which refusal goes first.

use super::record_of;
use beside::admitted::{judge_call, refused, Admission, Call, Guest};
use beside::{at_bit, at_node, judge_release, HANDLER, PROOF};
use reference::{LONGEST_FILE, TABLE_WORDS};

/// The proof of the worked example with an empty G.
const WITHOUT_GUARANTEE: [u8; 6] = [0x08, 0xF0, 0x45, 0x20, 0x00, 0x40];

/// Everything is in the way at first, and is mended in the order of the refusals.
#[test]
fn one_after_the_other() {
    let long = [0; LONGEST_FILE + 1];
    let mut record = record_of(0, &[(3, 10)]);
    let mut guest = Guest { place: 16, files: (&[], &long), ticks: 0 };
    let mut words = TABLE_WORDS - 1;
    let answer = |record: &mut [u32], guest, words| -> Admission {
        judge_call(record, Call::Admit(guest, words))
    };
    assert_eq!(answer(&mut record, guest, words), refused(100));
    guest.place = 3;
    assert_eq!(answer(&mut record, guest, words), refused(101));
    guest.place = 4;
    assert_eq!(answer(&mut record, guest, words), refused(102));
    record[0] = 11;
    assert_eq!(answer(&mut record, guest, words), refused(104));
    guest.ticks = 2;
    assert_eq!(answer(&mut record, guest, words), refused(1));
    words = TABLE_WORDS;
    assert_eq!(answer(&mut record, guest, words), refused(2));
    guest.files = (&HANDLER[..1], &PROOF[..1]);
    assert_eq!(answer(&mut record, guest, words), Err(at_bit(10, 8)));
    guest.files = (&HANDLER, &PROOF[..1]);
    assert_eq!(answer(&mut record, guest, words), Err(at_bit(20, 8)));
    guest.files = (&HANDLER, &WITHOUT_GUARANTEE);
    assert_eq!(answer(&mut record, guest, words), Err(at_node(43, 0)));
    guest.files = (&HANDLER, &PROOF);
    assert_eq!(answer(&mut record, guest, words), refused(103));
    assert_eq!(record, record_of(11, &[(3, 10)]));
    guest.ticks = 1;
    assert_eq!(answer(&mut record, guest, words), Ok(()));
    assert_eq!(record, record_of(11, &[(3, 10), (4, 1)]));
}

#[test]
fn one_after_the_other_at_release() {
    let mut record = record_of(0, &[(3, 10)]);
    assert_eq!(judge_release(&mut record, 16), refused(100));
    assert_eq!(judge_release(&mut record, 4), refused(101));
    assert_eq!(judge_release(&mut record, 3), refused(102));
    record[0] = 10;
    assert_eq!(judge_release(&mut record, 3), Ok(()));
    assert_eq!(record, record_of(10, &[]));
}

/// Each number of work words that is too few, and each that is enough, with and without room.
#[test]
fn words() {
    for words in [0, 1, TABLE_WORDS - 1, TABLE_WORDS, TABLE_WORDS + 1, 2 * TABLE_WORDS] {
        for (ticks, room) in [(10, Ok(())), (11, refused(103))] {
            let guest = Guest { place: 0, files: (&HANDLER, &PROOF), ticks };
            let answer = judge_call(&mut record_of(10, &[]), Call::Admit(guest, words));
            assert_eq!(answer, if words < TABLE_WORDS { refused(1) } else { room }, "{words}");
        }
    }
}

/// Either file; 16,384 bytes are read.
#[test]
fn lengths_of_files() {
    let longer = |file: &[u8], length: usize| {
        let mut bytes = file.to_vec();
        bytes.resize(length, 0);
        bytes
    };
    let answer = |handler: &[u8], proof: &[u8]| {
        let guest = Guest { place: 0, files: (handler, proof), ticks: 1 };
        judge_call(&mut record_of(10, &[]), Call::Admit(guest, TABLE_WORDS))
    };
    let [most, over] = [LONGEST_FILE, LONGEST_FILE + 1];
    assert_eq!(answer(&longer(&HANDLER, most), &PROOF), Err(at_bit(18, 24)));
    assert_eq!(answer(&HANDLER, &longer(&PROOF, most)), Err(at_bit(25, 48)));
    assert_eq!(answer(&longer(&HANDLER, over), &PROOF), refused(2));
    assert_eq!(answer(&HANDLER, &longer(&PROOF, over)), refused(2));
    assert_eq!(answer(&[], &longer(&PROOF, over)), refused(2));
}
