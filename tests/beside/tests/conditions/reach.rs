//! 66 where it takes many rounds to find what is reached: along a path, a round adds one state.

use crate::small::*;
use generate::derivation::Derivation;
use generate::programs::parallel;
use reference::handler_file::MOST_STATES;

/// The states of the path: each of the 64 once, in no particular order.
fn state(place: usize) -> usize {
    (27 * place + 5) % MOST_STATES
}

/// Two sides that take the pairs of the path by turns, as far as this place, and Q of these pairs.
fn along(last: usize, q: &[(usize, usize)]) -> Derivation {
    let turns = |first| (first..last).step_by(2).map(|place| (state(place), state(place + 1)));
    let [left, right] = [0, 1].map(|first| pairs(&turns(first).collect::<Vec<_>>()));
    let all: Vec<usize> = (0..MOST_STATES).collect();
    side_by_side(&all, left, right, pairs(q))
}

/// The pairs of states of which the first leads to the second. The pair of the path's first and
/// last state is the last one.
fn reached(last: usize) -> Vec<(usize, usize)> {
    let still = (last + 1..MOST_STATES).map(|place| (place, place));
    let onward = (0..=last).rev().flat_map(|from| (from..=last).map(move |to| (from, to)));
    still.chain(onward).map(|(from, to)| (state(from), state(to))).collect()
}

/// Exactly what is reached is enough for Q; without the path's last state it is refused.
#[test]
fn of_every_length() {
    for last in 1..MOST_STATES {
        let judge = |q| judged(&[8, 8], parallel(nil(), nil()), along(last, q));
        let reached = reached(last);
        assert_eq!(judge(&reached), acceptance(1), "{last}");
        let (missing, fewer) = reached.split_last().expect("a state reaches itself");
        let named = [missing.0 as u64, missing.1 as u64];
        assert_eq!(judge(fewer), refusal(66, 0, &named), "{last}");
    }
}
