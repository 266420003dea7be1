//! Verdicts, and the faults that refusals carry.

/// Where a fault lies: a bit of the file that has it, or a node of the derivation.
#[derive(Clone, Copy, PartialEq, Eq, Hash, Debug)]
pub enum Place {
    Bit(u32),
    Node(u32),
}

/// A fault: its number, its place, and the states that its condition names, at most three.
#[derive(Clone, PartialEq, Eq, Hash, Debug)]
pub struct Fault {
    pub number: u32,
    pub place: Place,
    pub states: Vec<usize>,
}

impl Fault {
    /// Positions stay far below 2^32: no file that is read has more than 131,072 bits.
    pub fn at_bit(number: u32, bit: usize) -> Fault {
        Fault { number, place: Place::Bit(bit as u32), states: Vec::new() }
    }

    pub fn at_node(number: u32, node: u32, states: Vec<usize>) -> Fault {
        Fault { number, place: Place::Node(node), states }
    }

    /// The states as one number: count × 2^24 + first + 2^8 × second + 2^16 × third, 0 for none.
    pub fn named(&self) -> u64 {
        let shifted = |(index, state): (usize, &usize)| (*state as u64) << (8 * index);
        let count = self.states.len() as u64;
        (count << 24) + self.states.iter().enumerate().map(shifted).sum::<u64>()
    }
}

/// What the checker says of a pair of files.
#[derive(Clone, Copy, PartialEq, Eq, Hash, Debug)]
pub enum Verdict {
    /// Accepted, with the step number.
    Accepted(u32),
    Refused {
        number: u32,
        place: Place,
    },
}

impl From<Fault> for Verdict {
    fn from(fault: Fault) -> Verdict {
        Verdict::Refused { number: fault.number, place: fault.place }
    }
}
