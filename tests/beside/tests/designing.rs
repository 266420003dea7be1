//! Checks what docs/DESIGNING.md and docs/FAULTS.md state: each claim names a pair, and the line
//! before it is the pair's verdict, or the states that come with it; each block gives a pair's
//! tables; each search says how many of the pairs that it tries are accepted.

#[path = "designing/limits.rs"]
mod limits;
#[path = "designing/loops.rs"]
mod loops;
#[path = "designing/plain.rs"]
mod plain;
#[path = "designing/searches.rs"]
mod searches;
#[path = "designing/underivable.rs"]
mod underivable;
#[path = "designing/words.rs"]
mod words;
#[path = "designing/world.rs"]
mod world;

use beside::lawful::{listed_numbers, UNUSED};
use beside::{line, page};
use std::collections::BTreeSet;
use world::Claim;

const PAGES: [&str; 2] = ["DESIGNING.md", "FAULTS.md"];

fn claims() -> Vec<Claim> {
    [plain::claims(), loops::claims(), underivable::claims(), limits::claims()]
        .into_iter()
        .flatten()
        .collect()
}

/// The name and the line of each mark, which a page writes as ``"`LINE` (MARK: NAME)"``. A page
/// may end a line within it.
fn marked(page: &str, mark: &str) -> Vec<(String, String)> {
    let text = page.split_whitespace().collect::<Vec<_>>().join(" ");
    let mark = format!(" ({mark}: ");
    let parts: Vec<&str> = text.split(mark.as_str()).collect();
    let after = |(before, rest): (&&str, &&str)| {
        let name = rest.split(')').next().expect("split gives a part").to_string();
        let line = before.strip_suffix('`').and_then(|text| text.rsplit('`').next());
        let line = line.unwrap_or_else(|| panic!("no line before the mark of {name}"));
        (name, line.to_string())
    };
    parts.iter().zip(&parts[1..]).map(after).collect()
}

/// The names that the pages give to a mark are those that the test has, and each is there once.
fn same_names(mark: &str, stated: &[(String, String)], known: Vec<&str>) {
    let names: BTreeSet<&str> = known.iter().copied().collect();
    assert_eq!(names.len(), known.len(), "two of {mark} have one name");
    let stated: BTreeSet<&str> = stated.iter().map(|(name, _)| name.as_str()).collect();
    assert_eq!(stated, names, "{mark}: left, the pages; right, the test");
}

fn stated(mark: &str) -> Vec<(String, String)> {
    PAGES.iter().flat_map(|name| marked(&page(name), mark)).collect()
}

#[test]
fn claims_are_verdicts() {
    let (stated, claims) = (stated("claim"), claims());
    same_names("claim", &stated, claims.iter().map(|claim| claim.name).collect());
    for claim in claims {
        let verdict = line(claim.verdict());
        for (_, line) in stated.iter().filter(|(name, _)| name == claim.name) {
            assert_eq!(*line, verdict, "claim {}", claim.name);
        }
    }
}

/// Where a page gives the states of a claim's refusal, they are these.
#[test]
fn states_are_named() {
    let claims = claims();
    let stated = stated("states");
    assert!(!stated.is_empty());
    for (name, states) in stated {
        let claim = claims.iter().find(|claim| claim.name == name).expect("a claim");
        assert_eq!(states, claim.states(), "claim {name}");
    }
}

/// A claim's identifier ends with the number of its refusal, if it is refused.
#[test]
fn names_say_the_number() {
    for (name, line) in stated("claim") {
        let number = name.rsplit('-').next().and_then(|end| end.parse::<u32>().ok());
        let refused = line.strip_prefix("refused ").and_then(|rest| rest.split(' ').next());
        assert_eq!(number, refused.map(|number| number.parse().expect("a number")), "{name}");
    }
}

#[test]
fn blocks_are_tables() {
    let claims = claims();
    let pages = PAGES.map(page).concat();
    let blocks: Vec<&str> = pages.split("```").skip(1).step_by(2).map(str::trim_start).collect();
    assert!(!blocks.is_empty());
    for block in blocks {
        let title = block.lines().next().and_then(|line| line.strip_prefix("claim: "));
        let title = title.unwrap_or_else(|| panic!("a block names no claim: {block}"));
        let claim = claims.iter().find(|claim| claim.name == title);
        let claim = claim.unwrap_or_else(|| panic!("there is no claim {title}"));
        assert_eq!(block, words::block(claim), "claim {title}");
    }
}

#[test]
fn searches_count() {
    let (stated, searches) = (stated("search"), searches::searches());
    same_names("search", &stated, searches.iter().map(|search| search.name).collect());
    for search in searches {
        let found = (search.run)().line();
        for (_, line) in stated.iter().filter(|(name, _)| name == search.name) {
            assert_eq!(*line, found, "search {}", search.name);
        }
    }
}

/// Every number has one row below the page's first heading, and they are in order. The rows of the
/// unused ones say so, and no other row does.
#[test]
fn every_number_has_a_row() {
    let faults = page("FAULTS.md");
    let (_, tables) = faults.split_once("\n## ").expect("the page has headings");
    let number = |row: &str| row.strip_prefix('|')?.split('|').next()?.trim().parse::<u32>().ok();
    let rows = |kept: fn(&&str) -> bool| -> Vec<u32> {
        tables.lines().filter(kept).filter_map(number).collect()
    };
    assert_eq!(rows(|_| true), listed_numbers());
    assert_eq!(rows(|row| row.contains("| unused since ")), UNUSED);
}

/// The name by which a link leads to a heading.
fn anchor(heading: &str) -> String {
    let kept = heading.to_lowercase();
    kept.chars()
        .filter(|letter| letter.is_alphanumeric() || " -".contains(*letter))
        .map(|letter| if letter == ' ' { '-' } else { letter })
        .collect()
}

/// Links within the pages and between them lead to headings.
#[test]
fn links_lead_to_headings() {
    for name in PAGES {
        for link in page(name).split("](").skip(1).filter_map(|rest| rest.split(')').next()) {
            let Some((target, wanted)) = link.split_once('#') else { continue };
            let target = page(if target.is_empty() { name } else { target });
            let headings = target.lines().filter(|line| line.starts_with('#'));
            let found = headings.map(|line| anchor(line.trim_start_matches('#').trim()));
            assert!(found.collect::<Vec<_>>().contains(&wanted.to_string()), "{name}: {link}");
        }
    }
}
