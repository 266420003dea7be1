//! The samples are accepted, every run of theirs keeps what acceptance promises, and examples/ holds
//! what the program writes.

use generate::explore::{explore, Exploration, Promise};
use generate::wraps::Wraps;
use reference::{check, compose, Composition, Verdict, TABLE_WORDS};
use samples::{all, folder, Sample};

fn steps(sample: &Sample) -> u32 {
    let mut work = vec![0; TABLE_WORDS];
    let pair = &sample.pair;
    match check(&pair.handler_file.bytes, &pair.proof_file.bytes, &mut work) {
        Verdict::Accepted(steps) => steps,
        refused => panic!("{}: {refused:?}", sample.name),
    }
}

#[test]
fn accepted_with_their_step_numbers() {
    let numbers: Vec<(&str, u32)> = all().iter().map(|s| (s.name, steps(s))).collect();
    let known = |name: &str| numbers.iter().find(|(sample, _)| *sample == name).map(|(_, n)| *n);
    assert_eq!(known("first"), Some(1));
    assert_eq!(known("countdown"), Some(28));
    // A loop with N = 12 and E = 2, over two stores of 3 steps and one step between them.
    assert_eq!(known("ring"), Some(12 * 4 + 11 * (3 + 3 + 1 + 1)));
    // Two loops with N = 16 and E = 2, over stores of 3 steps, and one step for the parallel.
    assert_eq!(known("counters"), Some(2 * (16 * 4 + 15 * 4) + 1));
    // A store of a constant. Then a loop with N = 12 and E = 5, an if with E = 2, the sequence.
    assert_eq!(known("producer"), Some(1));
    assert_eq!(known("consumer"), Some((12 * 7 + 11 * 4) + (2 + 1 + 1) + 1));
    assert_eq!(known("guests"), Some(1 + 133 + 1));
}

/// A sample by its name, from the files of its folder.
fn files(name: &str) -> (Vec<u8>, Vec<u8>) {
    let read = |file| std::fs::read(folder().join(name).join(file)).expect("the sample is there");
    (read("handler.bin"), read("proof.bin"))
}

/// The files of `guests` are the composition of the other two, the producer first.
#[test]
fn the_guests_are_composed() {
    let [(h1, p1), (h2, p2), (handler, proof)] = ["producer", "consumer", "guests"].map(files);
    let made = compose(&h1, &p1, &h2, &p2, TABLE_WORDS, handler.len(), proof.len());
    assert_eq!(made, Composition::Made { steps: 135, handler, proof });
}

/// A guest is not composed with itself: what the producer does, its own R does not have.
#[test]
fn a_guest_beside_itself() {
    for name in ["producer", "consumer"] {
        let (handler, proof) = files(name);
        let made = compose(&handler, &proof, &handler, &proof, TABLE_WORDS, 100, 1_000);
        let Composition::Refused { pair: 0, fault } = made else { panic!("{name}: {made:?}") };
        assert_eq!(fault.number, 91, "{name}");
    }
}

/// The bytes are fixed: other pages and tests show them.
#[test]
fn the_bytes_of_the_first_sample() {
    let first = &all()[0].pair;
    assert_eq!(first.handler_file.bytes, [0x22, 0x20, 0x02]);
    assert_eq!(first.proof_file.bytes, [0x08, 0xF0, 0x45, 0x20, 0x02, 0x40]);
}

#[test]
fn files_are_as_written() {
    for sample in all() {
        for (name, bytes) in sample.files() {
            let path = folder().join(sample.name).join(name);
            let there = std::fs::read(&path).unwrap_or_default();
            assert!(there == bytes, "{}: run `cargo run --release -p samples`", path.display());
        }
    }
}

#[test]
fn every_run_keeps_the_promise() {
    for sample in all() {
        let tables = &sample.pair.derivation.tables;
        let promise = Promise {
            p: tables.p,
            r: tables.r.clone(),
            g: tables.g.clone(),
            q: tables.q.clone(),
            steps: steps(&sample),
        };
        let explored = explore(&sample.pair.handler, &promise, 3_000_000);
        let Exploration::Holds { wraps, .. } = explored else {
            panic!("{}: {explored:?}", sample.name);
        };
        assert_eq!(wraps, Wraps { up: sample.name == "ring", down: false }, "{}", sample.name);
    }
}
