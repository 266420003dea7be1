//! A second checker of handover handlers, written separately from the proved one.
//!
//! It builds ordinary trees from the two files and tries each condition as docs/RULES.md
//! words it. It shares no code with the proved checker, so that agreement means something.

pub mod admission;
pub mod canonical;
pub mod compose;
pub mod conditions;
pub mod fault;
pub mod former;
pub mod handler_file;
pub mod handler_writer;
pub mod language;
pub mod proof_file;
pub mod reader;
pub mod space;
pub mod states;
pub mod step_number;
pub mod view;
pub mod writer;

pub use admission::{admit, release};
pub use canonical::canonical;
pub use compose::{compose, Composition};
pub use fault::{Fault, Place, Verdict};
pub use view::view;

use language::Handler;
use proof_file::Proof;

/// The words of the tables: 16 sets, then 16 relations of 64 rows.
pub const TABLE_WORDS: usize = 16 + 16 * 64;

/// The longest file that is read.
pub const LONGEST_FILE: usize = 16_384;

/// Decides a handler and its proof, and leaves the proof's tables in `work`.
///
/// Faults of the host (1 and 2) leave `work` as it was. Every other refusal clears the table
/// words, so that no half-read table outlives the call. Words past the tables never change.
pub fn check(handler: &[u8], proof: &[u8], work: &mut [u64]) -> Verdict {
    match decide(handler, proof, work) {
        Ok(steps) => Verdict::Accepted(steps),
        Err(fault) => fault.into(),
    }
}

/// The states that the refusal of a pair names, as one number (`Fault::named`): 0 where it names
/// none and where the pair is accepted. `work` ends as after `check`.
pub fn named_states(handler: &[u8], proof: &[u8], work: &mut [u64]) -> u64 {
    match decide(handler, proof, work) {
        Ok(_) => 0,
        Err(fault) => fault.named(),
    }
}

/// What a host must know of a pair: N + 2^8 × P + 2^16 × R + 2^24 × G + 2^32 × Q, the numbers
/// of the root's tables, or 0 where a file is ill-formed. No condition is looked at.
pub fn root(handler: &[u8], proof: &[u8]) -> u64 {
    let Ok((handler, proof)) = read(handler, proof) else {
        return 0;
    };
    let node = &proof.root;
    let bytes = [handler.space.states(), node.p, node.r, node.g, node.q];
    bytes.iter().rev().fold(0, |number, byte| number << 8 | *byte as u64)
}

/// Both files, each within its length; the proof is over the handler's states.
fn read(handler: &[u8], proof: &[u8]) -> Result<(Handler, Proof), Fault> {
    if handler.len() > LONGEST_FILE || proof.len() > LONGEST_FILE {
        return Err(Fault::at_bit(2, 0));
    }
    let handler = handler_file::read(handler)?;
    let proof = proof_file::read(proof, handler.space.states())?;
    Ok((handler, proof))
}

/// An accepted pair and its step number.
pub(crate) struct Accepted {
    pub handler: Handler,
    pub proof: Proof,
    pub steps: u32,
}

/// The order of faults (docs/FORMAT.md) without 1: length, handler file, proof file, nodes, and
/// 80 last.
fn accept(handler: &[u8], proof: &[u8]) -> Result<Accepted, Fault> {
    let (handler, proof) = read(handler, proof)?;
    conditions::examine(&handler, &proof)?;
    let steps = step_number::of(&handler.statement, handler.space.states());
    let steps = u32::try_from(steps).map_err(|_| Fault::at_node(80, 0, Vec::new()))?;
    Ok(Accepted { handler, proof, steps })
}

/// Fault 1, and then as above; the words are 0 but after 1, 2 and acceptance.
fn decide(handler: &[u8], proof: &[u8], work: &mut [u64]) -> Result<u32, Fault> {
    if work.len() < TABLE_WORDS {
        return Err(Fault::at_bit(1, 0));
    }
    let accepted = accept(handler, proof);
    if !matches!(accepted, Err(Fault { number: 2, .. })) {
        work[..TABLE_WORDS].fill(0);
    }
    let Accepted { proof, steps, .. } = accepted?;
    write_tables(&proof, work);
    Ok(steps)
}

/// Word i is set i; word 16 + 64r + s is row s of relation r. The caller has cleared the rest.
fn write_tables(proof: &Proof, work: &mut [u64]) {
    for (word, set) in work.iter_mut().zip(&proof.sets) {
        *word = set.0;
    }
    for (number, relation) in proof.relations.iter().enumerate() {
        let first = 16 + 64 * number;
        for (word, row) in work[first..first + 64].iter_mut().zip(relation.rows()) {
            *word = row.0;
        }
    }
}
