//! Medians of the time that each checker takes, all measured in one run so that the machine
//! treats them alike. `arguments.rs` has the flags.

mod arguments;
mod halves;
mod rows;
mod worst;

use arguments::Arguments;
use beside::admitted::Guest;
use beside::composed::Lent;
use beside::{checkers, judge, judge_admit, judge_composition, judge_form, line, Checker};
use reference::admission::{MOST_FRAME, RECORD_NUMBERS};
use reference::{Composition, LONGEST_FILE, TABLE_WORDS};
use rows::{Call, Row};
use std::hint::black_box;
use std::time::Instant;

/// Calls between two looks at the clock, so that the look does not count.
const CALLS: u32 = 8;

fn main() {
    if let Err(said) = arguments::read(std::env::args().skip(1)).and_then(run) {
        eprintln!("{said}");
        std::process::exit(2);
    }
}

/// Measures and prints the wanted rows; an error says that there are none.
fn run(arguments: Arguments) -> Result<(), String> {
    let rounds = if arguments.smoke { 3 } else { 401 };
    let mut groups = if arguments.growth { rows::growth() } else { rows::all() };
    let names: Vec<&str> = groups.iter().flatten().map(|row| row.name).collect();
    if !names.iter().any(|name| name.starts_with(&arguments.row)) {
        return Err(arguments::no_such_row(&arguments.row, &names));
    }
    let checkers = checkers();
    print_head(&checkers);
    for group in &mut groups {
        group.retain(|row| row.name.starts_with(&arguments.row));
        let answers: Vec<String> = group.iter().map(answer).collect();
        let medians = measure(group, &checkers, rounds);
        for ((row, answer), medians) in group.iter().zip(answers).zip(medians) {
            print_row(row, &answer, &medians);
        }
    }
    Ok(())
}

/// What every checker answers, which must be what the row is about.
fn answer(row: &Row) -> String {
    match &row.call {
        Call::Check(expected) => {
            let verdict = judge(&row.handler, &row.proof);
            assert!(expected(verdict), "{}: {}", row.name, line(verdict));
            line(verdict)
        }
        Call::Form(form) => {
            let written = judge_form(&row.handler, &row.proof);
            assert!(written.as_ref() == Ok(form), "{}: another form", row.name);
            format!("written {}", form.len())
        }
        Call::Compose { second, steps, made } => {
            let composition = judge_composition((&row.handler, &row.proof), (&second.0, &second.1));
            let (handler, proof) = made.clone();
            let expected = Composition::Made { steps: *steps, handler, proof };
            assert!(composition == expected, "{}: another composition", row.name);
            format!("composed {steps}")
        }
        Call::Admit { ticks, length } => {
            let mut record = BARE;
            let admission = judge_admit(&mut record, guest(row, *ticks));
            assert!(admission.is_ok() && record[4] == *length, "{}: {admission:?}", row.name);
            format!("admitted {length}")
        }
    }
}

/// The longest frame without guests.
const BARE: [u32; RECORD_NUMBERS] = {
    let mut record = [0; RECORD_NUMBERS];
    record[0] = MOST_FRAME;
    record
};

/// The pair of a row as a guest.
fn guest(row: &Row, ticks: u32) -> Guest<'_> {
    Guest { place: 0, files: (&row.handler, &row.proof), ticks }
}

/// What the calls write to.
struct Buffers {
    words: Vec<u64>,
    bytes: Vec<u8>,
    more_bytes: Vec<u8>,
}

/// For each row the median of each checker in nanoseconds a call; all take turns in every round.
/// None where the checker lacks the function.
fn measure(group: &[Row], checkers: &[Box<dyn Checker>], rounds: usize) -> Vec<Vec<Option<f64>>> {
    let mut times = vec![vec![Vec::with_capacity(rounds); checkers.len()]; group.len()];
    let room = || vec![0; LONGEST_FILE];
    let mut buffers = Buffers { words: vec![0; TABLE_WORDS], bytes: room(), more_bytes: room() };
    for _ in 0..rounds {
        for (row, times) in group.iter().zip(&mut times) {
            for (checker, times) in checkers.iter().zip(times) {
                let start = Instant::now();
                let done = (0..CALLS).all(|_| call(&**checker, row, &mut buffers));
                if done {
                    times.push(start.elapsed().as_nanos() as f64 / f64::from(CALLS));
                }
            }
        }
    }
    times.into_iter().map(|of_row| of_row.into_iter().map(median).collect()).collect()
}

/// One call; false where the checker lacks the function.
fn call(checker: &dyn Checker, row: &Row, buffers: &mut Buffers) -> bool {
    let (handler, proof) = (black_box(&row.handler), black_box(&row.proof));
    let Buffers { words, bytes, more_bytes } = buffers;
    match &row.call {
        Call::Check(_) => {
            black_box(checker.check(handler, proof, words));
            true
        }
        Call::Form(_) => black_box(checker.canonical(handler, proof, bytes)).is_some(),
        Call::Compose { second, .. } => {
            let (handler_2, proof_2) = black_box(second);
            let mut lent = Lent { work: words, handler: bytes, proof: more_bytes };
            let pairs = [(&handler[..], &proof[..]), (handler_2, proof_2)];
            black_box(checker.compose(pairs, &mut lent)).is_some()
        }
        Call::Admit { ticks, .. } => {
            let mut record = black_box(BARE);
            let admission = checker.admit(&mut record, black_box(guest(row, *ticks)), words);
            black_box((admission, record)).0.is_some()
        }
    }
}

fn median(mut times: Vec<f64>) -> Option<f64> {
    times.sort_by(f64::total_cmp);
    times.get(times.len() / 2).copied()
}

/// The checkers with which the second, the proved one, is compared: all others, or none without it.
fn others(checkers: usize) -> impl Iterator<Item = usize> {
    (0..checkers).filter(move |index| checkers > 1 && *index != 1)
}

fn print_head(checkers: &[Box<dyn Checker>]) {
    print!("| row | bytes | answer |");
    for checker in checkers {
        print!(" {} ns |", checker.name());
    }
    for other in others(checkers.len()) {
        print!(" {} / {} |", checkers[1].name(), checkers[other].name());
    }
    println!("\n|---|---|---|{}", "---|".repeat(2 * checkers.len() - 1));
}

fn print_row(row: &Row, answer: &str, medians: &[Option<f64>]) {
    print!("| {} | {} | {answer} |", row.name, row.bytes());
    for median in medians {
        print!(" {} |", median.map_or("–".into(), |median| format!("{median:.0}")));
    }
    for other in others(medians.len()) {
        let ratio = medians[1].zip(medians[other]).map(|(proved, other)| proved / other);
        print!(" {} |", ratio.map_or("–".into(), |ratio| format!("{ratio:.2}")));
    }
    println!();
}
