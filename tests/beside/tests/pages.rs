//! docs/FORMAT.md, docs/RULES.md, docs/COMPOSITION.md and docs/ADMISSION.md: the worked example is
//! true, and every number has an entry, with its states as docs/FAULTS.md has them too.

use std::collections::BTreeSet;

use beside::lawful::{all_numbers, listed_numbers, states_named, ADMIT_NUMBERS, COMPOSE_NUMBERS};
use beside::{judge, judge_view_of, line, page};
use reference::TABLE_WORDS;

/// A table of a page, with the heading of its section.
struct Table {
    heading: String,
    columns: Vec<String>,
    rows: Vec<Vec<String>>,
}

impl Table {
    fn has(&self, column: &str) -> bool {
        self.columns.iter().any(|name| name == column)
    }

    /// A column, without the marks of code.
    fn column(&self, column: &str) -> Vec<String> {
        let index = self.columns.iter().position(|name| name == column).expect(column);
        self.rows.iter().map(|row| row[index].replace('`', "")).collect()
    }

    fn numbers(&self, column: &str) -> Vec<usize> {
        self.column(column).iter().map(|cell| cell.parse().expect(cell)).collect()
    }
}

/// The tables of a page, in order.
fn tables(page: &str) -> Vec<Table> {
    let mut tables: Vec<Table> = Vec::new();
    let (mut heading, mut inside) = (String::new(), false);
    for line in page.lines() {
        if line.starts_with('#') {
            heading = line.trim_start_matches(['#', ' ']).to_string();
        }
        let Some(row) = line.strip_prefix('|') else {
            inside = false;
            continue;
        };
        let cells = row.trim_end_matches('|').split('|').map(|cell| cell.trim().to_string());
        match tables.last_mut() {
            Some(table) if inside => table.rows.push(cells.collect()),
            _ => {
                let (columns, rows) = (cells.collect(), Vec::new());
                tables.push(Table { heading: heading.clone(), columns, rows });
            }
        }
        inside = true;
    }
    // The first row is the line that separates it from the names of the columns.
    tables.iter_mut().for_each(|table| drop(table.rows.remove(0)));
    tables
}

/// Bytes in hexadecimal, with spaces between them.
fn bytes(text: &str) -> Vec<u8> {
    if text == "no bytes" {
        return Vec::new();
    }
    text.split(' ').map(|byte| u8::from_str_radix(byte, 16).expect(text)).collect()
}

/// The bytes of a text of binary digits.
fn packed(bits: &str) -> Vec<u8> {
    assert_eq!(bits.len() % 8, 0, "the fill must end the last byte");
    let byte = |place: usize| u8::from_str_radix(&bits[place..place + 8], 2).expect(bits);
    (0..bits.len()).step_by(8).map(byte).collect()
}

/// The bytes in the heading of a file's table of fields, such as "handler.bin: `22 20 02`".
fn shown(tables: &[Table], file: &str) -> Vec<u8> {
    let start = format!("{file}: ");
    let heading = tables.iter().find_map(|table| table.heading.strip_prefix(&start));
    bytes(&heading.expect(file).replace('`', ""))
}

#[test]
fn the_fields_of_the_example_make_its_bytes() {
    let text = page("FORMAT.md");
    let tables = tables(&text);
    for file in ["handler.bin", "proof.bin"] {
        let mut found = tables.iter().filter(|table| table.heading.starts_with(file));
        let table = found.next().expect(file);
        let (values, widths) = (table.numbers("value"), table.numbers("width"));
        let mut bits = String::new();
        for (row, (value, width)) in values.into_iter().zip(widths).enumerate() {
            let field = format!("{value:0width$b}");
            assert_eq!(table.numbers("first bit")[row], bits.len(), "{file}, row {row}");
            assert_eq!(table.column("bits")[row], field, "{file}, row {row}");
            bits += &field;
        }
        let bytes = shown(&tables, file);
        assert_eq!(packed(&bits), bytes, "{file}");
        let digits: Vec<String> = bytes.iter().map(|byte| format!("{byte:08b}")).collect();
        assert!(text.contains(&format!("In bits: `{}`.", digits.join(" "))), "{file}");
    }
}

#[test]
fn the_lines_of_the_example_are_true() {
    let tables = tables(&page("FORMAT.md"));
    let (handler, proof) = (shown(&tables, "handler.bin"), shown(&tables, "proof.bin"));
    for (file, sample) in [("handler.bin", &handler), ("proof.bin", &proof)] {
        let table = tables.iter().find(|table| table.has(file) && table.has("line")).expect(file);
        let files: Vec<Vec<u8>> = table.column(file).iter().map(|cell| bytes(cell)).collect();
        assert_eq!(files[0], *sample, "the first row is the pair itself");
        let rows = files.iter().zip(table.column("line")).zip(table.column("shown"));
        for ((changed, expected), shown) in rows {
            let (handler, proof) = match file {
                "handler.bin" => (changed, &proof),
                _ => (&handler, changed),
            };
            let verdict = judge(handler, proof);
            assert_eq!(line(verdict), expected, "{file} {changed:02X?}");
            let view = judge_view_of(handler, proof, verdict);
            let seen = view.map_or("–".into(), |view| seen(view, [handler, proof], changed));
            assert_eq!(seen, shown, "{file} {changed:02X?}");
        }
    }
}

/// The bytes that a view of one of two files shows, as the page writes them. They are those of the
/// file that was changed.
fn seen(view: u64, files: [&Vec<u8>; 2], changed: &[u8]) -> String {
    let file = files[(view >> 32) as usize];
    assert_eq!(file, changed, "the other file is shown");
    let digits = |byte: &u8| format!("{byte:02X}");
    match &file[(view & u64::from(u32::MAX)) as usize..] {
        [] => "no bytes".into(),
        bytes => bytes.iter().map(digits).collect::<Vec<_>>().join(" "),
    }
}

#[test]
fn the_work_words_of_the_example_are_true() {
    let tables = tables(&page("FORMAT.md"));
    let mut words = vec![7; TABLE_WORDS];
    reference::check(&shown(&tables, "handler.bin"), &shown(&tables, "proof.bin"), &mut words);
    let table = tables.iter().find(|table| table.has("word")).expect("the table of words");
    let listed: Vec<(usize, u64)> = table
        .numbers("word")
        .into_iter()
        .zip(table.numbers("holds").iter().map(|w| *w as u64))
        .collect();
    let left: Vec<(usize, u64)> =
        words.into_iter().enumerate().filter(|(_, word)| *word != 0).collect();
    assert_eq!(listed, left);
}

/// The numbers that have a row in the tables of a page or of a section, in order.
fn entries<'a>(tables: impl Iterator<Item = &'a Table>) -> Vec<usize> {
    tables.filter(|table| table.has("number")).flat_map(|table| table.numbers("number")).collect()
}

#[test]
fn every_number_has_an_entry() {
    let ([composing, ..], [admitting, ..]) = (COMPOSE_NUMBERS, ADMIT_NUMBERS);
    let pages = [
        ("FORMAT.md", 1..30),
        ("RULES.md", 30..composing),
        ("COMPOSITION.md", composing..admitting),
        ("ADMISSION.md", admitting..u32::MAX),
    ];
    for (name, range) in pages {
        let numbers = all_numbers().into_iter().filter(|number| range.contains(number));
        let numbers: BTreeSet<usize> = numbers.map(|number| number as usize).collect();
        assert_eq!(numbers, entries(tables(&page(name)).iter()).into_iter().collect(), "{name}");
    }
}

/// The first and the last number of each part of a cell such as "34, 36 to 38".
fn ranges(cell: &str) -> Vec<(u32, u32)> {
    let number = |text: &str| text.parse().unwrap_or_else(|_| panic!("{text} in {cell}"));
    let range = |part: &str| match part.split_once(" to ") {
        Some((first, last)) => (number(first), number(last)),
        None => (number(part), number(part)),
    };
    cell.split(", ").map(range).collect()
}

/// The tables of who causes which numbers have each number once, and begin and end with one.
#[test]
fn every_number_has_a_cause() {
    for name in ["FAULTS.md", "../README.md"] {
        let tables = tables(&page(name));
        let table = tables.iter().find(|table| table.has("who causes them")).expect(name);
        let mut found = Vec::new();
        for (first, last) in table.column("numbers").iter().flat_map(|cell| ranges(cell)) {
            let listed = listed_numbers().into_iter();
            let within: Vec<u32> = listed.filter(|n| (first..=last).contains(n)).collect();
            let ends = (within.first().copied(), within.last().copied());
            assert_eq!(ends, (Some(first), Some(last)), "{name}");
            found.extend(within);
        }
        found.sort_unstable();
        assert_eq!(found, listed_numbers(), "{name}");
    }
}

/// The states of a number, as the pages write them.
fn states_in_words(number: u32) -> &'static str {
    match (states_named(number), number) {
        (0, _) => "none",
        (1, _) => "s",
        (2, 42 | 43) => "s, s'",
        (2, _) => "s, t",
        _ => "s, t, u",
    }
}

#[test]
fn every_row_has_the_states_of_its_number() {
    for name in ["RULES.md", "FAULTS.md"] {
        for table in tables(&page(name)).iter().filter(|table| table.has("number")) {
            for (number, states) in table.numbers("number").iter().zip(table.column("states")) {
                let expected = states_in_words(*number as u32);
                assert_eq!(states.replace('′', "'"), expected, "{name}, {number}");
            }
        }
    }
}

#[test]
fn the_order_of_each_rule_has_its_conditions() {
    let text = page("RULES.md");
    let tables = tables(&text);
    let of_section = |name: &str| entries(tables.iter().filter(|table| table.heading == name));
    let (mut heading, mut rules) = ("", 0);
    for line in text.lines() {
        heading = line.strip_prefix("## ").unwrap_or(heading);
        let Some(order) = line.strip_prefix("Order: ") else {
            continue;
        };
        let digits = |part: &str| part.chars().filter(char::is_ascii_digit).collect::<String>();
        let asked: Vec<usize> =
            order.split(',').map(|part| digits(part).parse().expect(part)).collect();
        let (every, own) = (of_section("Conditions on every node"), of_section(heading));
        // An assignment and an if ask the first of their own between 30 and 31.
        let early = usize::from(["Assignment", "If"].contains(&heading));
        let expected = [&every[..1], &own[..early], &every[1..], &own[early..]].concat();
        assert_eq!(asked, expected, "{heading}");
        rules += 1;
    }
    assert_eq!(rules, 7);
}
