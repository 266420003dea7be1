//! The composition of two pairs: by hand, which refusal goes first, at the limits, generated pairs
//! by both, and compositions composed again.

#[path = "composed/again.rs"]
mod again;
#[path = "composed/by_hand.rs"]
mod by_hand;
#[path = "composed/generated.rs"]
mod generated;
#[path = "composed/order.rs"]
mod order;
#[path = "composed/promise.rs"]
mod promise;
#[path = "composed/skips.rs"]
mod skips;

use beside::judge_composition;
use generate::damage::Files;
use reference::{Composition, Fault};

/// The composition by every checker, held to what must be true of it.
fn composed([first, second]: &[Files; 2]) -> Composition {
    let [first, second] = [first, second].map(|(handler, proof)| (&handler[..], &proof[..]));
    let composition = judge_composition(first, second);
    promise::hold(first, second, &composition);
    composition
}

/// A refusal that is no pair's own.
fn refused(number: u32) -> Composition {
    Composition::Refused { pair: 0, fault: Fault::at_bit(number, 0) }
}

/// A refusal at a bit of the files of a pair.
fn refused_of(pair: u32, number: u32, bit: usize) -> Composition {
    Composition::Refused { pair, fault: Fault::at_bit(number, bit) }
}
