//! Which refusal goes first, and each of them by itself.

use super::skips::Skip;
use super::{composed, refused, refused_of};
use beside::composed::Sizes;
use beside::{judge_lent, HANDLER, PROOF};
use generate::damage::Files;
use reference::{Composition, LONGEST_FILE, TABLE_WORDS};

/// A composition in the making, and what is lent for it.
struct Call {
    first: Skip,
    second: Skip,
    too_long: [bool; 2],
    further_byte: [bool; 2],
    sizes: Sizes,
}

impl Call {
    /// Two skips with nothing in the way.
    fn of_skips() -> Call {
        let skip = Skip { sizes: vec![2], p: vec![0], r: vec![], g: vec![], weakens: 0 };
        Call {
            first: skip.clone(),
            second: skip,
            too_long: [false; 2],
            further_byte: [false; 2],
            sizes: Sizes::AMPLE,
        }
    }

    fn answer(&self) -> Composition {
        let [first, second] = [(&self.first, 0), (&self.second, 1)].map(|(skip, index)| {
            let (handler, mut proof) = skip.files();
            if self.further_byte[index] {
                proof.push(0);
            }
            if self.too_long[index] {
                proof.resize(LONGEST_FILE + 1, 0);
            }
            (handler, proof)
        });
        judge_lent((&first.0, &first.1), (&second.0, &second.1), self.sizes)
    }
}

/// The bit of a byte after the file.
fn end(skip: &Skip) -> usize {
    skip.files().1.len() * 8
}

/// Everything is in the way at first, and is mended in the order of the refusals.
#[test]
fn one_after_the_other() {
    let skip = Skip { sizes: vec![2, 3], p: vec![0], r: vec![], g: vec![(0, 1)], weakens: 22 };
    let mut call = Call {
        second: Skip { sizes: vec![3, 2], g: vec![(0, 2)], ..skip.clone() },
        first: skip,
        too_long: [true; 2],
        further_byte: [true; 2],
        sizes: Sizes { words: TABLE_WORDS - 1, handler: 0, proof: 0 },
    };
    assert_eq!(call.answer(), refused(1));
    call.sizes.words = TABLE_WORDS;
    assert_eq!(call.answer(), refused_of(1, 2, 0));
    call.too_long[0] = false;
    assert_eq!(call.answer(), refused_of(2, 2, 0));
    call.too_long[1] = false;
    assert_eq!(call.answer(), refused_of(1, 25, end(&call.first)));
    call.further_byte[0] = false;
    assert_eq!(call.answer(), refused_of(2, 25, end(&call.second)));
    call.further_byte[1] = false;
    assert_eq!(call.answer(), refused(90));
    call.second.sizes = vec![2, 3];
    assert_eq!(call.answer(), refused(91));
    call.second.g = vec![];
    assert_eq!(call.answer(), refused(92));
    (call.second.p, call.second.r) = (vec![0, 1], vec![(0, 1)]);
    assert_eq!(call.answer(), refused(93));
    call.first.p = vec![0, 1];
    assert_eq!(call.answer(), refused(94));
    call.first.weakens = 21;
    call.second.weakens = 21;
    assert_eq!(call.answer(), refused(95));
    in_exact_rooms(call);
}

/// It is made in rooms of the lengths of its files, and not with either a byte short.
fn in_exact_rooms(mut call: Call) {
    call.sizes = Sizes::AMPLE;
    let Composition::Made { handler, proof, .. } = call.answer() else { panic!("not made") };
    call.sizes = Sizes { words: TABLE_WORDS, handler: handler.len(), proof: proof.len() };
    assert!(matches!(call.answer(), Composition::Made { steps: 1, .. }));
    call.sizes.handler -= 1;
    assert_eq!(call.answer(), refused(95));
    call.sizes.handler += 1;
    call.sizes.proof -= 1;
    assert_eq!(call.answer(), refused(95));
}

/// Either file of either pair; 16,384 bytes are read.
#[test]
fn lengths() {
    let sample = (HANDLER.to_vec(), PROOF.to_vec());
    let longer = |file: &[u8], length: usize| {
        let mut bytes = file.to_vec();
        bytes.resize(length, 0);
        bytes
    };
    let with = |length| {
        let handler: Files = (longer(&sample.0, length), sample.1.clone());
        [(handler, 18, 24), ((sample.0.clone(), longer(&sample.1, length)), 25, 48)]
    };
    for (files, number, bit) in with(LONGEST_FILE) {
        let own = refused_of(1, number, bit);
        assert_eq!(composed(&[files.clone(), sample.clone()]), own);
        assert_eq!(composed(&[sample.clone(), files]), refused_of(2, number, bit));
    }
    for (files, ..) in with(LONGEST_FILE + 1) {
        assert_eq!(composed(&[files.clone(), sample.clone()]), refused_of(1, 2, 0));
        assert_eq!(composed(&[sample.clone(), files.clone()]), refused_of(2, 2, 0));
        // The length of the second goes before the contents of the first.
        assert_eq!(composed(&[(vec![], vec![]), files]), refused_of(2, 2, 0));
    }
}

/// Every room up to the files and past them, and rooms as long as any file and longer.
#[test]
fn rooms() {
    let call = |handler: usize, proof: usize| Call {
        sizes: Sizes { words: TABLE_WORDS, handler, proof },
        ..Call::of_skips()
    };
    let Composition::Made { handler, proof, .. } = Call::of_skips().answer() else {
        panic!("not made");
    };
    let lengths = |file: &[u8]| (0..file.len() + 3).chain([LONGEST_FILE, LONGEST_FILE + 1]);
    for in_handler in lengths(&handler) {
        for in_proof in lengths(&proof) {
            let made = call(in_handler, in_proof).answer();
            match in_handler >= handler.len() && in_proof >= proof.len() {
                true => assert!(matches!(made, Composition::Made { .. })),
                false => assert_eq!(made, refused(95), "{in_handler} {in_proof}"),
            }
        }
    }
}

/// 1,040 words are enough.
#[test]
fn words() {
    for words in [0, 1, TABLE_WORDS - 1, TABLE_WORDS, TABLE_WORDS + 1, 2 * TABLE_WORDS] {
        let made = Call { sizes: Sizes { words, ..Sizes::AMPLE }, ..Call::of_skips() }.answer();
        match words >= TABLE_WORDS {
            true => assert!(matches!(made, Composition::Made { .. })),
            false => assert_eq!(made, refused(1), "{words}"),
        }
    }
}

/// Sizes differ in their order, in their number, or in one of them, also where N is the same.
#[test]
fn sizes() {
    let over = |sizes: &[usize]| {
        let skip = Skip { sizes: sizes.to_vec(), p: vec![], r: vec![], g: vec![], weakens: 0 };
        skip.files()
    };
    let all: [&[usize]; 8] = [&[2], &[3], &[6], &[2, 3], &[3, 2], &[2, 2], &[2, 2, 3], &[2, 3, 2]];
    for one in all {
        for two in all {
            let composition = composed(&[over(one), over(two)]);
            match one == two {
                true => assert!(matches!(composition, Composition::Made { steps: 1, .. })),
                false => assert_eq!(composition, refused(90)),
            }
        }
    }
}
