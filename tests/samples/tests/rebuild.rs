//! Both files of every sample are rebuilt from its page alone, byte for byte.

mod page;

use generate::pack;
use reference::step_number;
use samples::folder;

fn text(name: &str) -> String {
    let path = folder().join(name).join("README.md");
    std::fs::read_to_string(&path).unwrap_or_else(|why| panic!("{}: {why}", path.display()))
}

/// The handler file and the proof file that a page gives.
fn files(text: &str) -> Result<[Vec<u8>; 2], String> {
    let page = page::read(text)?;
    let states = page.handler.space.states();
    Ok([pack::handler(&page.handler).bytes, pack::proof(&page.proof, states).bytes])
}

/// The folders of the samples; nothing else is taken from the program that writes them.
fn names() -> Vec<&'static str> {
    samples::all().iter().map(|sample| sample.name).collect()
}

#[test]
fn every_page_gives_its_files() {
    for name in names() {
        let rebuilt = files(&text(name)).unwrap_or_else(|why| panic!("{name}: {why}"));
        for (bytes, file) in rebuilt.iter().zip(["handler.bin", "proof.bin"]) {
            let there = std::fs::read(folder().join(name).join(file)).unwrap_or_default();
            assert!(*bytes == there, "the page of {name} gives another {file}");
        }
    }
}

#[test]
fn every_page_states_the_step_number() {
    for name in names() {
        let page = page::read(&text(name)).unwrap_or_else(|why| panic!("{name}: {why}"));
        let steps = step_number::of(&page.handler.statement, page.handler.space.states());
        assert_eq!(page.steps, steps, "{name}");
    }
}

/// The part of a line that gives something: what a relation's line says in brackets is a remark.
fn given(line: &str) -> &str {
    match line.find(" (") {
        Some(at) if line.ends_with("):") => &line[..at],
        _ => line,
    }
}

/// Every number after the line of the variables counts: with another one in its place, the page
/// gives other files or none.
#[test]
fn every_number_counts() {
    let page = text("counters");
    let files_given = files(&page).expect("the page is read");
    let start = page.find("## Handler").expect("there is a handler");
    let (mut at, mut tried) = (start, 0);
    for line in page[start..].split_inclusive('\n') {
        for (place, digit) in
            given(line.trim_end()).match_indices(|letter: char| letter.is_ascii_digit())
        {
            let other = if digit == "0" { "1" } else { "0" };
            let changed = [&page[..at + place], other, &page[at + place + 1..]].concat();
            assert_ne!(files(&changed).as_ref(), Ok(&files_given), "{line}");
            tried += 1;
        }
        at += line.len();
    }
    assert!(tried > 0, "no number was found");
}

/// What a page must not say, each in place of something that it does say.
const WRONG: [(&str, &str); 24] = [
    ("a of size 4", "a of size 5"),
    ("16 states. Accepted", "16 states, accepted"),
    ("## Handler", "## Program"),
    ("while a > 0 do", "while a > 0"),
    ("while a > 0 do", "while c > 0 do"),
    ("while a > 0 do", "while a ≥ 0 do"),
    ("while b < 3 do", "while b < 3 + 0 do"),
    ("while b < 3 do", "while b < 300 do"),
    ("    a ← a − 1", "   a ← a − 1"),
    ("a ← a − 1", "a := a − 1"),
    ("od\nbeside", "fi\nbeside"),
    ("rap\n", "end\n"),
    ("set 1: (1,0)", "set 1: (1,4)"),
    ("set 1: (1,0)", "set 1: (1,0,0)"),
    ("set 1: (1,0)", "set 1: (1,1)"),
    ("set 1:", "set 2:"),
    ("no pair", "no pairs"),
    ("only raises b):", "only raises b)"),
    ("  (0,0) → (0,1)", "  (0,0) -> (0,1)"),
    ("  (0,1) → (0,2)", "  (0,0) → (0,2)"),
    ("relation 2:", "table 2:"),
    ("node 2: ", "node 3: "),
    ("K 1, W 6", "K 1"),
    ("K 1, W 6", "K 1, W 8"),
];

#[test]
fn an_error_names_the_line() {
    let page = text("counters");
    for (said, wrong) in WRONG {
        let at = page.find(said).unwrap_or_else(|| panic!("the page does not say {said:?}"));
        let line = 1 + page[..at].matches('\n').count();
        let error = files(&page.replacen(said, wrong, 1)).expect_err(wrong);
        assert!(error.starts_with(&format!("line {line}: ")), "{wrong:?}: {error}");
    }
}

#[test]
fn a_page_ends_with_its_derivation() {
    let page = text("counters");
    let last = page.lines().count();
    let longer = files(&format!("{page}more\n")).expect_err("there is a line more");
    assert!(longer.starts_with(&format!("line {}: ", last + 1)), "{longer}");
    let shorter = files(page.trim_end().trim_end_matches('`')).expect_err("there is a line less");
    assert!(shorter.starts_with(&format!("line {last}: ")), "{shorter}");
}
