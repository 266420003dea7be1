//! Runs checkers beside each other and against what holds of every call.

pub mod admitted;
pub mod answer;
pub mod composed;
pub mod form;
pub mod lawful;
#[cfg(feature = "proved")]
pub mod proved;

pub use admitted::{judge_admit, judge_release};
pub use composed::{judge_composition, judge_lent};
pub use form::{judge_canonical, judge_form};

use admitted::{Admission, Guest};
use composed::{Files, Lent};
use reference::view::{BIT, NODE};
use reference::{Place, Verdict};

/// The two files of the worked example of docs/FORMAT.md.
pub const HANDLER: [u8; 3] = [0x22, 0x20, 0x02];
pub const PROOF: [u8; 6] = [0x08, 0xF0, 0x45, 0x20, 0x02, 0x40];

/// Something that decides two files and leaves tables in the work words.
pub trait Checker {
    fn name(&self) -> &'static str;
    fn check(&self, handler: &[u8], proof: &[u8], work: &mut [u64]) -> Verdict;
    /// The states that the check's refusal names, packed; none where the checker cannot say.
    fn states(&self, handler: &[u8], proof: &[u8], work: &mut [u64]) -> Option<u64>;
    /// Writes the proof file in its one form, and gives its length or the refusal; none where the
    /// checker cannot.
    fn canonical(&self, handler: &[u8], proof: &[u8], out: &mut [u8]) -> Option<Written>;
    /// Composes two pairs, and gives the one word of the C interface; none where the checker
    /// cannot.
    fn compose(&self, pairs: [Files; 2], lent: &mut Lent) -> Option<u64>;
    /// Admits a guest to the frame of a record; none where the checker cannot.
    fn admit(&self, record: &mut [u32], guest: Guest, work: &mut [u64]) -> Option<Admission>;
    /// Releases the guest of a place; none where the checker cannot.
    fn release(&self, record: &mut [u32], place: u32) -> Option<Admission>;
}

/// The length of a file that was written, or why it was not.
pub type Written = Result<usize, Verdict>;

/// The checker of the crate `reference`.
pub struct Reference;

impl Checker for Reference {
    fn name(&self) -> &'static str {
        "reference"
    }

    fn check(&self, handler: &[u8], proof: &[u8], work: &mut [u64]) -> Verdict {
        reference::check(handler, proof, work)
    }

    fn states(&self, handler: &[u8], proof: &[u8], work: &mut [u64]) -> Option<u64> {
        Some(reference::named_states(handler, proof, work))
    }

    fn canonical(&self, handler: &[u8], proof: &[u8], out: &mut [u8]) -> Option<Written> {
        let form = reference::canonical(handler, proof, out.len());
        if let Ok(bytes) = &form {
            out[..bytes.len()].copy_from_slice(bytes);
        }
        Some(form.map(|bytes| bytes.len()).map_err(Verdict::from))
    }

    fn compose(&self, pairs: [Files; 2], lent: &mut Lent) -> Option<u64> {
        let composition = composed::by_reference(pairs, lent.sizes());
        lent.carry_out(&composition);
        Some(answer::of_composition(&composition))
    }

    fn admit(&self, record: &mut [u32], guest: Guest, work: &mut [u64]) -> Option<Admission> {
        let Guest { place, files: (handler, proof), ticks } = guest;
        let admitted = reference::admit(record, place, handler, proof, ticks, work);
        Some(admitted.map_err(Verdict::from))
    }

    fn release(&self, record: &mut [u32], place: u32) -> Option<Admission> {
        Some(reference::release(record, place).map_err(Verdict::from))
    }
}

/// The verdict on two files and the states that it names: count × 2^24 + first + 2^8 × second +
/// 2^16 × third, 0 for none.
#[derive(Clone, Copy, PartialEq, Eq, Debug)]
pub struct Judgement {
    pub verdict: Verdict,
    pub states: u64,
}

/// Every checker of this build, the reference first.
pub fn checkers() -> Vec<Box<dyn Checker>> {
    vec![
        Box::new(Reference),
        #[cfg(feature = "proved")]
        Box::new(proved::PROVED),
        #[cfg(feature = "former")]
        Box::new(proved::FORMER),
    ]
}

/// The words of a call beyond the tables, which no call may change.
pub const SPARE_WORDS: usize = 8;

/// The verdict of every checker on two files, with room for the tables and a few words more.
pub fn judge(handler: &[u8], proof: &[u8]) -> Verdict {
    judge_states(handler, proof).verdict
}

/// As `judge`, with the states.
pub fn judge_states(handler: &[u8], proof: &[u8]) -> Judgement {
    judge_with(handler, proof, reference::TABLE_WORDS + SPARE_WORDS)
}

/// Decides two files by every checker with so many work words, and panics where a checker
/// breaks what holds of every call, or where two differ in the verdict, the states or any word.
pub fn judge_with(handler: &[u8], proof: &[u8], words: usize) -> Judgement {
    let before: Vec<u64> = (0..words as u64).map(mark).collect();
    let known = alone(&Reference, handler, proof, &before);
    for checker in checkers().into_iter().skip(1) {
        let found = alone(&*checker, handler, proof, &before);
        let files = || in_full(checker.name(), handler, proof);
        assert_eq!(found.verdict, known.verdict, "{}", files());
        assert_eq!(found.states.or(known.states), known.states, "states: {}", files());
        assert!(found.work == known.work, "work words: {}", files());
    }
    let states = known.states.expect("the reference names them");
    Judgement { verdict: known.verdict, states }
}

/// What one checker says of two files, and the work words after it.
struct Outcome {
    verdict: Verdict,
    states: Option<u64>,
    work: Vec<u64>,
}

/// The outcome of one checker. Panics where it breaks what holds of every call, or where the call
/// for the states leaves other words than the check.
fn alone(checker: &dyn Checker, handler: &[u8], proof: &[u8], before: &[u64]) -> Outcome {
    let (mut work, mut again) = (before.to_vec(), before.to_vec());
    let verdict = checker.check(handler, proof, &mut work);
    let states = checker.states(handler, proof, &mut again);
    let call = lawful::call(handler, proof, before, verdict, &work);
    let named = states.map_or(Ok(()), |states| lawful::states(handler, verdict, states));
    let files = || in_full(checker.name(), handler, proof);
    if let Err(why) = call.and(named) {
        panic!("{why}: {verdict:?} {}", files());
    }
    assert!(states.is_none() || again == work, "work words after the states: {}", files());
    Outcome { verdict, states, work }
}

/// What is compared, with both files.
fn in_full(what: &str, handler: &[u8], proof: &[u8]) -> String {
    format!("{what}: handler {handler:02X?} proof {proof:02X?}")
}

/// N and the numbers of the root's tables by every checker. Panics where two differ, or where a
/// byte of the files or next to them has changed.
pub fn judge_root(handler: &[u8], proof: &[u8]) -> u64 {
    let known = reference::root(handler, proof);
    #[cfg(feature = "proved")]
    assert_eq!(lent(handler, proof, proved::root), known, "{}", in_full("root", handler, proof));
    known
}

/// The file and the byte that a number and a place lead to, by every checker. Panics as
/// `judge_root` does, and where there is no such file or byte.
pub fn judge_view(handler: &[u8], proof: &[u8], number: u32, kind: u32, place: u64) -> u64 {
    let known = reference::view(handler, proof, number, kind, place);
    let files = || in_full(&format!("view {number} {kind} {place}"), handler, proof);
    let length = [handler, proof].get((known >> 32) as usize).map(|file| file.len() as u64);
    let index = known & u64::from(u32::MAX);
    assert!(length.is_some_and(|length| index <= length), "{known:X} {}", files());
    #[cfg(feature = "proved")]
    {
        let view = |handler: &[u8], proof: &[u8]| proved::view(handler, proof, number, kind, place);
        assert_eq!(lent(handler, proof, view), known, "{}", files());
    }
    known
}

/// The view of the number and the place of a refusal; an accepted pair has none.
pub fn judge_view_of(handler: &[u8], proof: &[u8], verdict: Verdict) -> Option<u64> {
    let Verdict::Refused { number, place } = verdict else { return None };
    let (kind, place) = match place {
        Place::Bit(bit) => (BIT, bit),
        Place::Node(node) => (NODE, node),
    };
    Some(judge_view(handler, proof, number, kind, u64::from(place)))
}

/// A call that only reads the files, with both between other bytes, none of which may change.
fn lent<T>(handler: &[u8], proof: &[u8], call: impl FnOnce(&[u8], &[u8]) -> T) -> T {
    let margin = [0xB6; 5];
    let before = [&margin[..], handler, &margin, proof, &margin].concat();
    let memory = before.clone();
    let (first, rest) = memory[margin.len()..].split_at(handler.len());
    let answer = call(first, &rest[margin.len()..][..proof.len()]);
    assert!(memory == before, "{}", in_full("bytes have changed", handler, proof));
    answer
}

/// A refusal at a bit.
pub fn at_bit(number: u32, bit: u32) -> Verdict {
    Verdict::Refused { number, place: Place::Bit(bit) }
}

/// A refusal at a node.
pub fn at_node(number: u32, node: u32) -> Verdict {
    Verdict::Refused { number, place: Place::Node(node) }
}

/// The line that the check program prints, without its end.
pub fn line(verdict: Verdict) -> String {
    match verdict {
        Verdict::Accepted(steps) => format!("accepted {steps}"),
        Verdict::Refused { number, place: Place::Bit(bit) } => {
            format!("refused {number} bit {bit}")
        }
        Verdict::Refused { number, place: Place::Node(node) } => {
            format!("refused {number} node {node}")
        }
    }
}

/// The number of a refusal; 0 is acceptance.
pub fn number(verdict: Verdict) -> u32 {
    match verdict {
        Verdict::Accepted(_) => 0,
        Verdict::Refused { number, .. } => number,
    }
}

/// A setting of the environment that is a number, or its default.
pub fn setting(name: &str, default: u64) -> u64 {
    match std::env::var(name) {
        Ok(text) => text.parse().unwrap_or_else(|_| panic!("{name} is a number, not {text}")),
        Err(_) => default,
    }
}

/// The text of a page of docs/.
pub fn page(name: &str) -> String {
    let path = format!("{}/../../docs/{name}", env!("CARGO_MANIFEST_DIR"));
    std::fs::read_to_string(&path).unwrap_or_else(|why| panic!("{path}: {why}"))
}

/// What word `index` holds before a call: never 0, and no two alike.
fn mark(index: u64) -> u64 {
    (index + 1).wrapping_mul(0x9E37_79B9_7F4A_7C15) | 1
}

#[cfg(test)]
mod tests {
    use super::*;

    #[test]
    fn lines() {
        assert_eq!(line(Verdict::Accepted(28)), "accepted 28");
        assert_eq!(line(at_bit(10, 2000)), "refused 10 bit 2000");
        assert_eq!(line(at_node(35, 126)), "refused 35 node 126");
    }
}
