//! The variables, and states by number.

use crate::language::Expression;
use crate::states::StateSet;

/// The values of the variables at one state; those of absent variables are 0.
pub type Values = [i64; 4];

/// The sizes of the variables and, for each state, what they hold there.
#[derive(Clone, PartialEq, Eq, Debug)]
pub struct Space {
    sizes: Vec<usize>,
    values: Vec<Values>,
}

impl Space {
    /// Variable 0 is the most significant in a state's number.
    pub fn new(sizes: &[usize]) -> Space {
        let states = sizes.iter().product();
        let values = (0..states).map(|state| values_of(sizes, state)).collect();
        Space { sizes: sizes.to_vec(), values }
    }

    /// N, the number of states.
    pub fn states(&self) -> usize {
        self.values.len()
    }

    pub fn sizes(&self) -> &[usize] {
        &self.sizes
    }

    pub fn values(&self, state: usize) -> &Values {
        &self.values[state]
    }

    /// The state after a store. A variable counts modulo its size: with size 3, a store of 3 leaves
    /// 0, and a store of −1 leaves 2.
    pub fn store(&self, state: usize, variable: usize, value: i64) -> usize {
        let left = value.rem_euclid(self.sizes[variable] as i64) as usize;
        let stride: usize = self.sizes[variable + 1..].iter().product();
        let present = self.values[state][variable] as usize;
        state - present * stride + left * stride
    }

    /// Whether the two states differ in the variable.
    pub fn differ(&self, variable: usize, s: usize, t: usize) -> bool {
        self.values[s][variable] != self.values[t][variable]
    }

    pub fn all(&self) -> StateSet {
        StateSet::first(self.states())
    }

    /// The states at which a test is true.
    pub fn where_true(&self, test: &Expression) -> StateSet {
        (0..self.states()).filter(|s| test.is_true(&self.values[*s])).collect()
    }
}

fn values_of(sizes: &[usize], state: usize) -> Values {
    let mut values = [0; 4];
    let mut rest = state;
    for (variable, size) in sizes.iter().enumerate().rev() {
        values[variable] = (rest % size) as i64;
        rest /= size;
    }
    values
}
