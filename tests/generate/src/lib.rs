//! What the tests are made of: files packed from trees, accepted pairs built from the
//! semantics, damage to them, constructed faults, and the exploration of runs.

pub mod arbitrary;
pub mod author;
pub mod construct;
pub mod damage;
pub mod derivation;
pub mod derive;
pub mod explore;
pub mod guests;
pub mod longest;
pub mod pack;
pub mod pairs;
pub mod programs;
pub mod random;
pub mod renumber;
pub mod steps;
pub mod vacuous;
pub mod words;
pub mod wraps;
