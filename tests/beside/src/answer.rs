//! The one word in which the C interface answers.

use crate::admitted::Admission;
use crate::Written;
use reference::{Composition, Fault, Place, Verdict};

/// Below 2^32 the step number; else, above those 32 bits, twice the number of the fault, and
/// one more where the place is a node; in them the place.
pub fn verdict(answer: u64) -> Verdict {
    let (high, low) = ((answer >> 32) as u32, answer as u32);
    if high == 0 {
        return Verdict::Accepted(low);
    }
    let place = if high % 2 == 1 { Place::Node(low) } else { Place::Bit(low) };
    Verdict::Refused { number: high / 2, place }
}

/// Below 2^32 the length that was written, else a fault as in a verdict.
pub fn written(answer: u64) -> Written {
    match verdict(answer) {
        Verdict::Accepted(length) => Ok(length as usize),
        refused => Err(refused),
    }
}

/// 0 where an admission or a release was done, else a fault as in a verdict.
pub fn admission(answer: u64) -> Admission {
    match answer {
        0 => Ok(()),
        _ => Err(verdict(answer)),
    }
}

/// The answer to a composition: step number + 2^32 × length of the handler file + 2^47 × length of
/// the proof file, or 2^63 + pair × 2^48 + the fault as in a verdict.
pub fn of_composition(composition: &Composition) -> u64 {
    match composition {
        Composition::Made { steps, handler, proof } => {
            u64::from(*steps) | (handler.len() as u64) << 32 | (proof.len() as u64) << 47
        }
        Composition::Refused { pair, fault } => 1 << 63 | u64::from(*pair) << 48 | of_fault(fault),
    }
}

fn of_fault(fault: &Fault) -> u64 {
    let (kind, place) = match fault.place {
        Place::Bit(bit) => (0, bit),
        Place::Node(node) => (1, node),
    };
    (u64::from(fault.number) * 2 + kind) << 32 | u64::from(place)
}

#[cfg(test)]
mod tests {
    use super::*;
    use crate::{at_bit, at_node};

    #[test]
    fn answers() {
        assert_eq!(verdict(0xFFFF_FFFF), Verdict::Accepted(u32::MAX));
        assert_eq!(verdict(2 << 32), at_bit(1, 0));
        assert_eq!(verdict((36 << 32) + 23), at_bit(18, 23));
        assert_eq!(verdict((87 << 32) + 5), at_node(43, 5));
    }

    #[test]
    fn lengths() {
        assert_eq!(written(5), Ok(5));
        assert_eq!(written(6 << 32), Err(at_bit(3, 0)));
        assert_eq!(written((50 << 32) + 48), Err(at_bit(25, 48)));
    }

    #[test]
    fn admissions() {
        assert_eq!(admission(0), Ok(()));
        assert_eq!(admission(208 << 32), Err(at_bit(104, 0)));
        assert_eq!(admission((87 << 32) + 5), Err(at_node(43, 5)));
    }

    #[test]
    fn compositions() {
        let made =
            Composition::Made { steps: u32::MAX, handler: vec![0; 4], proof: vec![0; 16_384] };
        assert_eq!(of_composition(&made), 0x2000_0004_FFFF_FFFF);
        let refused = |pair, fault| of_composition(&Composition::Refused { pair, fault });
        assert_eq!(refused(0, Fault::at_bit(95, 0)), 1 << 63 | 190 << 32);
        assert_eq!(refused(2, Fault::at_node(43, 5, vec![])), 1 << 63 | 2 << 48 | 87 << 32 | 5);
    }
}
