//! The numbers of the C header are those that a refusal can have, each with its states, and its
//! limits the reference's.

use beside::lawful::{all_numbers, states_named, ADMIT_NUMBERS, COMPOSE_NUMBERS};
use reference::admission::{MOST_FRAME, MOST_TICKS, PLACES, RECORD_NUMBERS};
use reference::handler_file::MOST_STATES;
use reference::{LONGEST_FILE, TABLE_WORDS};

const HEADER: &str = include_str!("../../../crates/host/include/handover.h");

/// The value of a line `#define NAME VALUE`.
fn limit(name: &str) -> usize {
    let mut lines = HEADER.lines().map(|line| line.split_whitespace().collect::<Vec<_>>());
    let line = lines.find(|words| words.starts_with(&["#define", name]));
    line.and_then(|words| words[2].parse().ok()).unwrap_or_else(|| panic!("no {name}"))
}

/// What the names of the faults of a check, of a composition and of an admission begin with.
const CHECK: &str = "HANDOVER_FAULT_";
const COMPOSE: &str = "HANDOVER_COMPOSE_";
const ADMIT: &str = "HANDOVER_ADMIT_";

/// The numbers of the faults whose names begin so, each with the comment after it.
fn faults(names: &str) -> Vec<(u32, &'static str)> {
    let rest = |line: &'static str| {
        let (_, rest) = line.trim().strip_prefix(names)?.split_once(" = ")?;
        let number = rest.split([',', ' ']).next().and_then(|number| number.parse().ok());
        Some((number.expect("a number follows"), rest))
    };
    HEADER.lines().filter_map(rest).collect()
}

#[test]
fn fault_numbers() {
    let numbers = |names| faults(names).into_iter().map(|(number, _)| number).collect::<Vec<u32>>();
    let (mut all, composing, admitting) = (numbers(CHECK), numbers(COMPOSE), numbers(ADMIT));
    assert_eq!(all.remove(0), 0, "acceptance has the number 0");
    assert_eq!(composing, COMPOSE_NUMBERS);
    assert_eq!(admitting, ADMIT_NUMBERS);
    assert_eq!([all, composing, admitting].concat(), all_numbers());
}

/// The comment of a number that comes with states ends with them, as in `[s, t]`.
#[test]
fn states_of_the_faults() {
    for (number, comment) in [CHECK, COMPOSE, ADMIT].map(faults).concat() {
        let states = comment.strip_suffix("] */").and_then(|text| text.rsplit('[').next());
        let count = states.map_or(0, |states| states.split(", ").count() as u64);
        assert_eq!(count, states_named(number), "{number}: {comment}");
    }
}

#[test]
fn limits() {
    assert_eq!(limit("HANDOVER_WORK_WORDS"), TABLE_WORDS);
    assert_eq!(limit("HANDOVER_MOST_BYTES"), LONGEST_FILE);
    assert_eq!(limit("HANDOVER_MOST_STATES"), MOST_STATES);
    let tables = limit("HANDOVER_MOST_SETS") + limit("HANDOVER_MOST_RELATIONS") * MOST_STATES;
    assert_eq!(tables, TABLE_WORDS);
    assert_eq!(limit("HANDOVER_RECORD_NUMBERS"), RECORD_NUMBERS);
    assert_eq!(limit("HANDOVER_PLACES"), PLACES);
    assert_eq!(limit("HANDOVER_MOST_FRAME"), MOST_FRAME as usize);
    assert_eq!(limit("HANDOVER_MOST_TICKS"), MOST_TICKS as usize);
}
