//! The table of the facts of each number (crates/semantics/specs/Facts.antt) beside the C header
//! and docs/FAULTS.md: where the place of a number is, and how many states come with it.

use std::collections::BTreeMap;

use beside::page;

const FACTS: &str = include_str!("../../../crates/semantics/specs/Facts.antt");
const HEADER: &str = include_str!("../../../crates/host/include/handover.h");

/// Where the place of a number is.
#[derive(Clone, Copy, Debug, PartialEq)]
enum Place {
    Handler,
    Proof,
    Node,
}

/// The numbers of a check that have a place in a file, each with its place and its states.
fn facts() -> BTreeMap<u32, (Place, usize)> {
    let (_, rest) = FACTS.split_once("\nfacts =\n").expect("the table");
    let (table, _) = rest.split_once("∷ []").expect("its end");
    let fact = |entry: &str| match entry.trim().split_once(' ') {
        Some(("node", states)) => Some((Place::Node, states.parse().expect(states))),
        None if entry.trim() == "in_handler" => Some((Place::Handler, 0)),
        None if entry.trim() == "in_proof" => Some((Place::Proof, 0)),
        None if entry.trim() == "no_place" => None,
        _ => panic!("{entry}"),
    };
    let numbered = (0..).zip(table.split('∷').map(fact));
    numbered.filter_map(|(number, fact)| Some((number, fact?))).collect()
}

/// The place that a text names, if it names one.
fn place_in(text: &str) -> Option<Place> {
    let places = [
        ("exporter of the handler file; the place is a bit", Place::Handler),
        ("a bit of handler.bin", Place::Handler),
        ("designer of the proof file; the place is a bit", Place::Proof),
        ("a bit of proof.bin", Place::Proof),
        ("the place is a node", Place::Node),
        ("a node", Place::Node),
        ("node 0", Place::Node),
    ];
    places.into_iter().find(|(words, _)| text.contains(words)).map(|(_, place)| place)
}

#[test]
fn the_header_has_the_facts() {
    let mut found = BTreeMap::new();
    let mut place = None;
    for line in HEADER.lines().map(str::trim) {
        if line.starts_with("/* Caused by") {
            place = place_in(line);
        }
        let Some((_, rest)) = line.strip_prefix("HANDOVER_FAULT_").and_then(|l| l.split_once(" = ")) else {
            continue;
        };
        let number: u32 = rest.split([',', ' ']).next().and_then(|n| n.parse().ok()).expect(rest);
        let named = rest.strip_suffix("] */").and_then(|text| text.rsplit('[').next());
        if let Some(place) = place {
            found.insert(number, (place, named.map_or(0, |states| states.split(", ").count())));
        }
    }
    assert_eq!(found, facts());
}

/// The first cells of the rows of a page's tables, with the other cells.
fn rows(page: &str) -> Vec<Vec<String>> {
    let cells = |row: &str| row.trim_end_matches('|').split('|').map(|c| c.trim().to_string()).collect();
    page.lines().filter_map(|line| line.strip_prefix('|')).map(cells).collect()
}

#[test]
fn the_page_has_the_facts() {
    let (page, facts) = (page("FAULTS.md"), facts());
    // How many states come with each number; those that no check gives are not among the facts.
    for row in rows(&page).iter().filter(|row| row.len() == 4) {
        let Ok(number) = row[0].parse::<u32>() else {
            continue;
        };
        let states = if row[2] == "none" { 0 } else { row[2].split(", ").count() };
        assert_eq!(states, facts.get(&number).map_or(0, |fact| fact.1), "{number}");
    }
    // Where the place of each number is, from the table of who causes it.
    let mut placed = Vec::new();
    for row in rows(&page).iter().filter(|row| row.len() == 3 && place_in(&row[2]).is_some()) {
        for part in row[0].split(", ") {
            let number = |text: &str| text.parse::<u32>().expect(text);
            let (first, last) = part.split_once(" to ").unwrap_or((part, part));
            for (number, fact) in facts.range(number(first)..=number(last)) {
                assert_eq!(Some(fact.0), place_in(&row[2]), "{number}");
                placed.push(*number);
            }
        }
    }
    placed.sort_unstable();
    assert_eq!(placed, facts.keys().copied().collect::<Vec<u32>>());
}
