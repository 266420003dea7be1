//! The composition of two pairs, by every checker of the build.

use crate::form::{marked, MARGIN};
use crate::{answer, checkers, lent, mark, Checker, SPARE_WORDS};
use reference::compose::{ROOM_TOO_SHORT, TOO_FEW_WORDS};
use reference::{Composition, Fault, TABLE_WORDS};

/// A handler file and its proof file.
pub type Files<'a> = (&'a [u8], &'a [u8]);

/// What a host lends for a composition: the work words and the rooms for both files.
pub struct Lent<'a> {
    pub work: &'a mut [u64],
    pub handler: &'a mut [u8],
    pub proof: &'a mut [u8],
}

impl Lent<'_> {
    pub fn sizes(&self) -> Sizes {
        let Lent { work, handler, proof } = self;
        Sizes { words: work.len(), handler: handler.len(), proof: proof.len() }
    }

    /// Leaves what a call with this outcome leaves.
    pub fn carry_out(&mut self, composition: &Composition) {
        if clears(composition) {
            self.work[..TABLE_WORDS].fill(0);
        }
        if let Composition::Made { handler, proof, .. } = composition {
            self.handler[..handler.len()].copy_from_slice(handler);
            self.proof[..proof.len()].copy_from_slice(proof);
        }
    }
}

/// Whether the table words end as 0: they do but after 1 and 2.
fn clears(composition: &Composition) -> bool {
    !matches!(composition, Composition::Refused { fault: Fault { number: 1 | 2, .. }, .. })
}

/// How much of each a host lends.
#[derive(Clone, Copy, Debug)]
pub struct Sizes {
    pub words: usize,
    pub handler: usize,
    pub proof: usize,
}

impl Sizes {
    /// Enough for whatever is made.
    pub const AMPLE: Sizes =
        Sizes { words: TABLE_WORDS + SPARE_WORDS, handler: 2_000, proof: 9_000 };
}

/// The composition of two pairs by every checker, in rooms of the lengths of its files, in longer
/// ones, with either a byte short and with none. Panics as `judge_lent` does. The reference, whose
/// rooms are not in doubt, is asked once.
pub fn judge_composition(first: Files, second: Files) -> Composition {
    let pairs = [first, second];
    let made = by_reference(pairs, Sizes::AMPLE);
    for sizes in rooms(&made) {
        judge_in(&checkers()[1..], pairs, &made, sizes);
    }
    made
}

/// The composition of two pairs by every checker with so many words and bytes. Panics where one
/// differs from the reference in the answer, in a byte of either room or in a word, or where
/// anything else has changed.
pub fn judge_lent(first: Files, second: Files, sizes: Sizes) -> Composition {
    let pairs = [first, second];
    let made = by_reference(pairs, Sizes::AMPLE);
    judge_in(&checkers(), pairs, &made, sizes);
    within(&made, sizes)
}

pub(crate) fn by_reference([(h1, p1), (h2, p2)]: [Files; 2], sizes: Sizes) -> Composition {
    reference::compose(h1, p1, h2, p2, sizes.words, sizes.handler, sizes.proof)
}

/// The rooms in which a composition is tried.
fn rooms(made: &Composition) -> Vec<Sizes> {
    let sizes = |handler, proof| Sizes { words: TABLE_WORDS + SPARE_WORDS, handler, proof };
    let Composition::Made { handler, proof, .. } = made else {
        return vec![Sizes::AMPLE, Sizes { words: TABLE_WORDS, handler: 0, proof: 0 }];
    };
    let (handler, proof) = (handler.len(), proof.len());
    vec![
        Sizes { words: TABLE_WORDS, handler, proof },
        sizes(handler + 9, proof + 1),
        sizes(handler - 1, proof),
        sizes(handler, proof - 1),
        sizes(0, proof + 9),
        sizes(handler + 9, 0),
    ]
}

/// What is to be expected with so many words and bytes.
fn within(made: &Composition, sizes: Sizes) -> Composition {
    let refused = |number| Composition::Refused { pair: 0, fault: Fault::at_bit(number, 0) };
    match made {
        _ if sizes.words < TABLE_WORDS => refused(TOO_FEW_WORDS),
        Composition::Made { handler, proof, .. }
            if handler.len() > sizes.handler || proof.len() > sizes.proof =>
        {
            refused(ROOM_TOO_SHORT)
        }
        _ => made.clone(),
    }
}

fn judge_in(checkers: &[Box<dyn Checker>], pairs: [Files; 2], made: &Composition, sizes: Sizes) {
    let expected = within(made, sizes);
    let (handler, proof) = match made {
        Composition::Made { handler, proof, .. } => (&handler[..], &proof[..]),
        Composition::Refused { .. } => (&[][..], &[][..]),
    };
    let before = Memory::marked(sizes, handler, proof);
    let after = before.after(&expected);
    for checker in checkers {
        let mut memory = before.clone();
        let [(h1, p1), (h2, p2)] = pairs;
        let answer = lent(h1, p1, |h1, p1| {
            lent(h2, p2, |h2, p2| checker.compose([(h1, p1), (h2, p2)], &mut memory.lend()))
        });
        let Some(answer) = answer else { continue };
        let what = || format!("{} {sizes:?}: {pairs:02X?}", checker.name());
        let word = answer::of_composition(&expected);
        assert_eq!(answer, word, "{answer:X} is not {word:X}: {}", what());
        assert!(memory.work == after.work, "work words: {}", what());
        assert!(memory.handler == after.handler, "handler room: {}", what());
        assert!(memory.proof == after.proof, "proof room: {}", what());
    }
}

/// The three buffers of a call with what is next to them.
#[derive(Clone)]
struct Memory {
    work: Vec<u64>,
    handler: Vec<u8>,
    proof: Vec<u8>,
}

impl Memory {
    /// No word is 0, and no byte of a room is what its file has there.
    fn marked(sizes: Sizes, handler: &[u8], proof: &[u8]) -> Memory {
        let words = sizes.words + 2 * SPARE_WORDS;
        let room = |file: &[u8], length| [&MARGIN, &marked(file, length)[..], &MARGIN].concat();
        Memory {
            work: (0..words as u64).map(mark).collect(),
            handler: room(handler, sizes.handler),
            proof: room(proof, sizes.proof),
        }
    }

    fn lend(&mut self) -> Lent<'_> {
        let (words, margin) = (self.work.len() - SPARE_WORDS, MARGIN.len());
        let (handler, proof) = (self.handler.len() - margin, self.proof.len() - margin);
        Lent {
            work: &mut self.work[SPARE_WORDS..words],
            handler: &mut self.handler[margin..handler],
            proof: &mut self.proof[margin..proof],
        }
    }

    /// What the buffers hold after a call with this outcome.
    fn after(&self, composition: &Composition) -> Memory {
        let mut memory = self.clone();
        memory.lend().carry_out(composition);
        memory
    }
}
