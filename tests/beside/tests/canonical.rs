//! The one form of a proof file: by hand, its refusals, and generated pairs by both.

#[path = "canonical/by_hand.rs"]
mod by_hand;
#[path = "canonical/generated.rs"]
mod generated;
#[path = "canonical/refusals.rs"]
mod refusals;
#[path = "canonical/tally.rs"]
mod tally;
