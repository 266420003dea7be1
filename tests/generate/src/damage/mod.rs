//! Damage to accepted pairs: in the bytes, in the fields, in the tables and in the handler.

mod loops;
mod readers;
mod tables;
mod text;

use crate::derivation::Derivation;
use crate::pack::{self, Packed, What};
use crate::pairs::Pair;
use crate::random::Random;
use reference::language::Handler;

/// The two files of a damaged pair.
pub type Files = (Vec<u8>, Vec<u8>);

/// One damage, chosen at random. The damage may happen to do no harm.
pub fn damaged(random: &mut Random, pair: &Pair) -> Files {
    let choice = random.below(100);
    let handler = || pair.handler_file.bytes.clone();
    let proof = || pair.proof_file.bytes.clone();
    match choice {
        0..=2 => (bytes(random, &pair.handler_file), proof()),
        3..=5 => (handler(), bytes(random, &pair.proof_file)),
        6..=11 => (field(random, &pair.handler_file, &HANDLER_FIELDS), proof()),
        12..=18 => (handler(), field(random, &pair.proof_file, &PROOF_FIELDS)),
        19..=26 => (handler(), field(random, &pair.proof_file, &[What::Table])),
        27..=65 => tables::changed(random, pair).unwrap_or_else(|| (handler(), proof())),
        66..=71 => text::altered(random, pair).unwrap_or_else(|| (handler(), proof())),
        72..=84 => text::retested(random, pair).unwrap_or_else(|| (handler(), proof())),
        85..=92 => readers::disturbed(random, pair).unwrap_or_else(|| (handler(), proof())),
        _ => loops::disordered(random, pair).unwrap_or_else(|| (handler(), proof())),
    }
}

const HANDLER_FIELDS: [What; 7] = [
    What::Variables,
    What::Size,
    What::Statement,
    What::Variable,
    What::Expression,
    What::Constant,
    What::Operation,
];

const PROOF_FIELDS: [What; 4] = [What::Count, What::Rule, What::SetNumber, What::RelationNumber];

/// A bit flipped, a file cut short or made longer.
fn bytes(random: &mut Random, file: &Packed) -> Vec<u8> {
    let mut bytes = file.bytes.clone();
    match random.below(4) {
        0 => bytes.truncate(random.below(bytes.len())),
        1 => bytes.extend((0..random.between(1, 3)).map(|_| random.word() as u8 & 0x11)),
        2 => {
            let last = bytes.len() - 1;
            bytes[last] ^= 1 << random.below(8);
        }
        _ => {
            let bit = random.below(bytes.len() * 8);
            bytes[bit / 8] ^= 0x80 >> (bit % 8);
        }
    }
    bytes
}

/// Another value in one field. A long field, a set or a row, has one bit flipped instead.
fn field(random: &mut Random, file: &Packed, choices: &[What]) -> Vec<u8> {
    let fields = loop {
        let fields = file.that_say(*random.pick(choices));
        if !fields.is_empty() {
            break fields;
        }
        if choices.iter().all(|what| file.that_say(*what).is_empty()) {
            return file.bytes.clone();
        }
    };
    let chosen = *random.pick(&fields);
    if chosen.what != What::Table {
        return file.with_field(chosen, random.word());
    }
    let mut bytes = file.bytes.clone();
    let bit = chosen.bit + random.below(chosen.width);
    bytes[bit / 8] ^= 0x80 >> (bit % 8);
    bytes
}

/// None where the tables are more than a file holds.
fn repack(handler: &Handler, derivation: &Derivation) -> Option<Files> {
    let proof = derivation.proof()?;
    let proof_file = pack::proof(&proof, handler.space.states());
    Some((pack::handler(handler).bytes, proof_file.bytes))
}
