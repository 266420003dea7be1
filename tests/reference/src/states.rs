//! Sets of at most 64 states, and relations between them.

/// State s is a member when bit s is set.
#[derive(Clone, Copy, PartialEq, Eq, Hash, Debug, Default)]
pub struct StateSet(pub u64);

impl StateSet {
    pub const NONE: StateSet = StateSet(0);

    /// The states below `count`, which is at most 64.
    pub fn first(count: usize) -> StateSet {
        (0..count).collect()
    }

    pub fn has(self, state: usize) -> bool {
        self.0 >> state & 1 == 1
    }

    pub fn with(self, state: usize) -> StateSet {
        StateSet(self.0 | 1 << state)
    }

    pub fn without(self, state: usize) -> StateSet {
        StateSet(self.0 & !(1 << state))
    }

    pub fn meet(self, other: StateSet) -> StateSet {
        StateSet(self.0 & other.0)
    }

    pub fn join(self, other: StateSet) -> StateSet {
        StateSet(self.0 | other.0)
    }

    pub fn minus(self, other: StateSet) -> StateSet {
        StateSet(self.0 & !other.0)
    }

    pub fn lies_in(self, other: StateSet) -> bool {
        self.minus(other) == StateSet::NONE
    }

    /// The least member.
    pub fn least(self) -> Option<usize> {
        self.members().next()
    }

    /// The members, in ascending order.
    pub fn members(self) -> impl Iterator<Item = usize> {
        let mut rest = self.0;
        std::iter::from_fn(move || {
            let next = rest.trailing_zeros() as usize;
            rest &= rest.wrapping_sub(1);
            (next < 64).then_some(next)
        })
    }
}

impl FromIterator<usize> for StateSet {
    fn from_iter<I: IntoIterator<Item = usize>>(states: I) -> StateSet {
        states.into_iter().fold(StateSet::NONE, StateSet::with)
    }
}

/// Row s holds the ends t of the pairs (s,t).
#[derive(Clone, PartialEq, Eq, Hash, Debug)]
pub struct Relation {
    rows: [StateSet; 64],
}

impl Relation {
    pub fn none() -> Relation {
        Relation { rows: [StateSet::NONE; 64] }
    }

    /// The relation with the given rows; those from 64 on are not looked at.
    pub fn of_rows(rows: impl IntoIterator<Item = StateSet>) -> Relation {
        let mut relation = Relation::none();
        for (place, row) in relation.rows.iter_mut().zip(rows) {
            *place = row;
        }
        relation
    }

    pub fn rows(&self) -> &[StateSet; 64] {
        &self.rows
    }

    pub fn row(&self, s: usize) -> StateSet {
        self.rows[s]
    }

    pub fn set_row(&mut self, s: usize, row: StateSet) {
        self.rows[s] = row;
    }

    pub fn has(&self, s: usize, t: usize) -> bool {
        self.rows[s].has(t)
    }

    pub fn join(&self, other: &Relation) -> Relation {
        self.by_rows(other, StateSet::join)
    }

    pub fn meet(&self, other: &Relation) -> Relation {
        self.by_rows(other, StateSet::meet)
    }

    fn by_rows(&self, other: &Relation, f: impl Fn(StateSet, StateSet) -> StateSet) -> Relation {
        Relation::of_rows((0..64).map(|s| f(self.row(s), other.row(s))))
    }

    /// The pairs that end in the set.
    pub fn ending_in(&self, set: StateSet) -> Relation {
        Relation::of_rows(self.rows.iter().map(|row| row.meet(set)))
    }

    pub fn lies_in(&self, other: &Relation) -> bool {
        self.rows.iter().zip(&other.rows).all(|(row, wider)| row.lies_in(*wider))
    }

    /// The ends of the pairs that start in the set.
    pub fn image(&self, set: StateSet) -> StateSet {
        set.members().fold(StateSet::NONE, |ends, s| ends.join(self.row(s)))
    }

    /// Zero or more pairs in a row, by Warshall's method: after round k, paths may pass
    /// through the states up to k.
    pub fn reach(&self) -> Relation {
        let mut reach = self.clone();
        for k in 0..64 {
            let through = reach.row(k);
            for row in reach.rows.iter_mut().filter(|row| row.has(k)) {
                *row = row.join(through);
            }
        }
        for (s, row) in reach.rows.iter_mut().enumerate() {
            *row = row.with(s);
        }
        reach
    }
}
