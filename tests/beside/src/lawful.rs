//! What docs/FORMAT.md says of every call, whatever its files are.

use crate::Written;
use reference::canonical::ROOM_TOO_SHORT;
use reference::{Place, Verdict, TABLE_WORDS};
use std::collections::BTreeSet;

/// The numbers that a refusal of a check can have.
pub const NUMBERS: [u32; 48] = [
    1, 2, 10, 11, 12, 13, 14, 15, 16, 17, 18, 20, 21, 22, 23, 24, 25, 30, 31, 32, 33, 34, 35, 36,
    37, 38, 41, 42, 43, 45, 46, 50, 51, 52, 53, 54, 55, 56, 57, 60, 61, 65, 66, 70, 71, 72, 73, 80,
];

/// The numbers that a refusal to write the form of a proof can have, in the order of the numbers.
pub const FORM_NUMBERS: [u32; 17] =
    [2, ROOM_TOO_SHORT, 10, 11, 12, 13, 14, 15, 16, 17, 18, 20, 21, 22, 23, 24, 25];

/// The numbers that a refusal to compose two pairs can have besides those of a check.
pub const COMPOSE_NUMBERS: [u32; 6] = [90, 91, 92, 93, 94, 95];

/// The numbers that a refusal to admit or to release a guest can have besides those of a check.
pub const ADMIT_NUMBERS: [u32; 5] = [100, 101, 102, 103, 104];

/// Numbers of refusals that no longer occur; they are not used again.
pub const UNUSED: [u32; 1] = [40];

/// The numbers of all refusals, in order: those that the C header lists.
pub fn all_numbers() -> Vec<u32> {
    let numbers = NUMBERS.into_iter().chain(FORM_NUMBERS).chain(COMPOSE_NUMBERS);
    let all: BTreeSet<u32> = numbers.chain(ADMIT_NUMBERS).collect();
    all.into_iter().collect()
}

/// The numbers that the pages' tables of all numbers list, in order: the unused ones too.
pub fn listed_numbers() -> Vec<u32> {
    let listed: BTreeSet<u32> = all_numbers().into_iter().chain(UNUSED).collect();
    listed.into_iter().collect()
}

/// How many states a refusal of this number names.
pub fn states_named(number: u32) -> u64 {
    match number {
        35 | 46 | 51 | 52 => 1,
        31 | 42 | 43 | 53..=56 | 60 | 66 => 2,
        32 | 33 | 57 | 61 => 3,
        _ => 0,
    }
}

/// Whether a call may end so, with the reason where it may not.
pub fn call(
    handler: &[u8],
    proof: &[u8],
    before: &[u64],
    verdict: Verdict,
    after: &[u64],
) -> Result<(), String> {
    match verdict {
        Verdict::Accepted(_) => tables(handler, proof, after)?,
        Verdict::Refused { number: 1 | 2, .. } if before != after => {
            return Err("a fault of the host left other words".into());
        }
        Verdict::Refused { number, place } => {
            refusal(number, place, handler.len() * 8, proof.len() * 8)?;
            if number > 2 && after[..TABLE_WORDS].iter().any(|word| *word != 0) {
                return Err("a refusal left words that are not 0".into());
            }
        }
    }
    if after.len() > TABLE_WORDS && after[TABLE_WORDS..] != before[TABLE_WORDS..] {
        return Err("words past the tables have changed".into());
    }
    Ok(())
}

/// Whether the number of the states holds as many as the verdict names, each of
/// them a state of the handler, and nothing else.
pub fn states(handler: &[u8], verdict: Verdict, states: u64) -> Result<(), String> {
    let count = states_named(crate::number(verdict));
    let named = |index: u64| (states >> (8 * index) & 0xFF) as usize;
    let fits = (0..3).all(|index| match index < count {
        true => named(index) < state_count(handler),
        false => named(index) == 0,
    });
    if fits && states >> 24 == count {
        Ok(())
    } else {
        Err(format!("{states:X} does not hold {count} states"))
    }
}

/// Whether a call that writes the form of a proof into `before` may end so, with the reason where
/// it may not.
pub fn writing(
    (handler, proof): (&[u8], &[u8]),
    before: &[u8],
    written: Written,
    after: &[u8],
) -> Result<(), String> {
    let length = match written {
        Ok(length) if length > before.len() => return Err("more was written than fits".into()),
        Ok(length) if length > proof.len() => return Err("the form is longer".into()),
        Ok(length) => length,
        Err(refused) => {
            unwritten(handler, proof, refused)?;
            0
        }
    };
    if after[length..] != before[length..] {
        return Err("bytes have changed that are not the form's".into());
    }
    Ok(())
}

/// Whether the number is one of those, and its place of the right sort.
fn unwritten(handler: &[u8], proof: &[u8], refused: Verdict) -> Result<(), String> {
    match refused {
        Verdict::Refused { number: ROOM_TOO_SHORT, place: Place::Bit(0) } => Ok(()),
        Verdict::Refused { number, place } if FORM_NUMBERS.contains(&number) => {
            refusal(number, place, handler.len() * 8, proof.len() * 8)
        }
        _ => Err("no refusal to write a form is so".into()),
    }
}

/// Whether the number exists and its place is of the right sort.
fn refusal(number: u32, place: Place, handler: usize, proof: usize) -> Result<(), String> {
    let fits = match (number, place) {
        (1 | 2 | 11, Place::Bit(bit)) => bit == 0,
        (10, Place::Bit(bit)) => bit as usize == handler,
        (20, Place::Bit(bit)) => bit as usize == proof,
        (21, Place::Bit(bit)) => bit == 0 || bit == 5,
        (12..=18, Place::Bit(bit)) => (bit as usize) < handler,
        (22..=25, Place::Bit(bit)) => (bit as usize) < proof,
        (80, Place::Node(node)) => node == 0,
        (30..=73, Place::Node(node)) => node < 127,
        _ => false,
    };
    if fits && NUMBERS.contains(&number) {
        Ok(())
    } else {
        Err("no fault has such a number and place".into())
    }
}

/// Whether the words are the tables, each bit taken straight from the proof file.
fn tables(handler: &[u8], proof: &[u8], words: &[u64]) -> Result<(), String> {
    let states = state_count(handler);
    let (sets, relations) = (number(proof, 0, 5), number(proof, 5, 5));
    let row = |index: usize| -> u64 {
        let first = 10 + index * states;
        (0..states).map(|state| (number(proof, first + state, 1) as u64) << state).sum()
    };
    for (index, word) in words[..TABLE_WORDS].iter().enumerate() {
        let expected = if index < 16 {
            if index < sets {
                row(index)
            } else {
                0
            }
        } else {
            let (relation, state) = ((index - 16) / 64, (index - 16) % 64);
            let there = relation < relations && state < states;
            if there {
                row(sets + relation * states + state)
            } else {
                0
            }
        };
        if *word != expected {
            return Err(format!("word {index} is {word:X}, not {expected:X}"));
        }
    }
    Ok(())
}

/// N, straight from the handler file.
fn state_count(handler: &[u8]) -> usize {
    (0..number(handler, 0, 3)).map(|variable| number(handler, 3 + 5 * variable, 5)).product()
}

/// The bits from `first` on as a number, most significant first.
fn number(bytes: &[u8], first: usize, width: usize) -> usize {
    let bit = |bit: usize| usize::from(bytes[bit / 8] >> (7 - bit % 8) & 1);
    (first..first + width).fold(0, |number, place| number * 2 + bit(place))
}
