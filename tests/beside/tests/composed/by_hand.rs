//! Small compositions spelled out field by field from the request, and 91 to 93 pair by pair.

use super::promise::Trees;
use super::skips::Skip;
use super::{composed, refused};
use generate::damage::Files;
use generate::guests::limits::{self, Limit};
use generate::guests::numbered;
use generate::programs::{in_order, store as store_of, sum};
use generate::random::Random;
use generate::vacuous;
use reference::writer::spelled;
use reference::Composition;

/// c ← 1 over one variable of size 2, with P {0,1}, R none, G {(0,1)} and Q {(0,1), (1,1)}.
fn store() -> Files {
    let proof = "00001 00011  11  0000 0100 0101  001 0000 0000 0001 0010";
    (spelled("001 00010  001 00 00 00000001"), spelled(proof))
}

/// nil with P {0,1}, R {(0,1)}, G none and Q {(0,0), (0,1), (1,1)}.
fn nil() -> Files {
    let proof = "00001 00011  11  0100 0000 1101  000 0000 0000 0001 0010";
    (spelled("001 00010  000"), spelled(proof))
}

fn made(steps: u32, handler: &str, proof: &str) -> Composition {
    Composition::Made { steps, handler: spelled(handler), proof: spelled(proof) }
}

/// R is none, G {(0,1)} and Q {(0,1), (1,1)}, as the store has them; the weaken of nil has R
/// {(0,1)}, and its Q is relation 3.
#[test]
fn a_store_beside_nil() {
    let expected = made(
        2,
        "001 00010  011  001 00 00 00000001  000",
        "00001 00100  11  0000 0100 0101 1101
         011 0000 0000 0001 0010
         110 0000 0000 0001 0010  001 0000 0000 0001 0010
         110 0000 0001 0000 0011  000 0000 0001 0000 0011",
    );
    assert_eq!(composed(&[store(), nil()]), expected);
}

/// The other way round the sides change their places, and with them the numbers of the relations:
/// nil's Q comes after the root's three.
#[test]
fn nil_beside_a_store() {
    let expected = made(
        2,
        "001 00010  011  000  001 00 00 00000001",
        "00001 00100  11  0000 0100 0101 1101
         011 0000 0000 0001 0010
         110 0000 0001 0000 0011  000 0000 0001 0000 0011
         110 0000 0000 0001 0010  001 0000 0000 0001 0010",
    );
    assert_eq!(composed(&[nil(), store()]), expected);
}

/// Two skips with R {(0,0)}, G none, and Q all pairs, P {0} and P {1}: the met P is empty, and so
/// is Q, though both Q have every pair.
#[test]
fn no_state_in_both_p() {
    let skip = |set: &str| {
        let proof = format!("00001 00011  {set}  1000 0000 1111  000 0000 0000 0001 0010");
        (spelled("001 00010 000"), spelled(&proof))
    };
    let expected = made(
        1,
        "001 00010  011 000 000",
        "00011 00011  00 10 01  1000 0000 1111
         011 0000 0000 0001 0001
         110 0000 0000 0001 0010  000 0001 0000 0001 0010
         110 0000 0000 0001 0010  000 0010 0000 0001 0010",
    );
    assert_eq!(composed(&[skip("10"), skip("01")]), expected);
}

/// Both Q have every pair of three states, R is {(0,1)} and a G {(1,2)}: from 0 all is reached, from
/// 1 only 1 and 2, and from 2 only 2.
#[test]
fn a_q_that_is_reached() {
    let handler = "001 00011 000";
    let all = "111111111";
    let proof = |r: &str, g: &str| {
        spelled(&format!("00001 00011  111  {r} {g} {all}  000 0000 0000 0001 0010"))
    };
    let first = (spelled(handler), proof("010000000", "000001000"));
    let second = (spelled(handler), proof("010001000", "000000000"));
    // R {(0,1)}, G {(1,2)}, Q; Q of the sides; the rely with G; no pair.
    let expected = made(
        1,
        "001 00011 011 000 000",
        "00001 00110  111  010000000 000001000 111011001 111111111 010001000 000000000
         011 0000 0000 0001 0010
         110 0000 0000 0001 0011  000 0000 0000 0001 0011
         110 0000 0100 0101 0011  000 0000 0100 0101 0011",
    );
    assert_eq!(composed(&[first, second]), expected);
}

fn skip(p: &[usize], r: &[(usize, usize)], g: &[(usize, usize)]) -> Files {
    Skip { sizes: vec![4], p: p.to_vec(), r: r.to_vec(), g: g.to_vec(), weakens: 0 }.files()
}

/// Every pair of four states as the only one of a G, whether it starts in P or not: the other's R
/// must have it.
#[test]
fn guarantees_in_relies() {
    let all: Vec<(usize, usize)> = (0..16).map(|pair| (pair / 4, pair % 4)).collect();
    for pair in &all {
        let g = [*pair];
        let less: Vec<(usize, usize)> = all.iter().copied().filter(|other| other != pair).collect();
        for p in [&[][..], &[0, 1, 2, 3]] {
            let acts = |r: &[(usize, usize)]| skip(p, r, &g);
            assert_eq!(composed(&[skip(p, &less, &[]), acts(&all)]), refused(91));
            assert_eq!(composed(&[acts(&all), skip(p, &less, &[])]), refused(92));
            // Both are missing: 91 goes first.
            assert_eq!(composed(&[acts(&less), acts(&less)]), refused(91));
            let borne = composed(&[acts(&g), skip(p, &g, &g)]);
            assert!(matches!(borne, Composition::Made { .. }));
        }
    }
}

/// A pair of a G may lead out of one P, from a state that the other P lacks; not out of both.
#[test]
fn guarantees_and_the_met_p() {
    let step = [(0, 1)];
    let still = |p: &[usize]| skip(p, &step, &[]);
    let steps = |p: &[usize]| skip(p, &[], &step);
    // The P of the one that steps, the P of the one that allows it, and whether that is 93.
    let cases: [(&[usize], &[usize], bool); 6] = [
        (&[0], &[0, 1], true),
        (&[0, 1], &[0, 1], false),
        (&[0], &[1], false),
        (&[0, 2], &[1, 2], false),
        (&[0, 2], &[0, 1, 2], true),
        (&[1, 2], &[0, 1, 2], false),
    ];
    for (own, other, leads_out) in cases {
        for pairs in [[steps(own), still(other)], [still(other), steps(own)]] {
            let composition = composed(&pairs);
            match leads_out {
                true => assert_eq!(composition, refused(93), "{own:?} {other:?}"),
                false => assert!(matches!(composition, Composition::Made { .. })),
            }
        }
    }
}

/// At each limit and past it, by one and by as much as can be, with the tables numbered in any way.
#[test]
fn limits() {
    let mut random = Random::new(94);
    for limit in Limit::ALL {
        for round in 0..12 {
            let over = [0, 1, limit.most_over()][round % 3];
            let pairs = limits::pairs(&mut random, limit, over);
            let composition = composed(&pairs.map(|pair| numbered(&mut random, &pair)));
            match over {
                0 => assert_eq!(of_made(limit, &composition), limit.most(), "{limit:?}"),
                _ => assert_eq!(composition, refused(94), "{limit:?} {over}"),
            }
        }
    }
}

/// How much the two files have that were made.
fn of_made(limit: Limit, composition: &Composition) -> u64 {
    let Composition::Made { handler, proof, .. } = composition else {
        panic!("{limit:?}: {composition:?}");
    };
    let trees = Trees::read(handler, proof);
    limit.of(&trees.handler, &trees.proof)
}

/// 32 stores of expressions with as many nodes as there can be, the second 16 of them moved by the
/// bits that come before.
#[test]
fn long_handlers() {
    let stores = |variable: usize| {
        let store = |index: u64| store_of(variable, sum(16, index));
        let pair = vacuous::pair(&[4, 4, 4], in_order((0..16).map(store).collect()));
        (pair.handler_file.bytes, pair.proof_file.bytes)
    };
    let [first, second] = [stores(1), stores(2)];
    let both = first.0.len() + second.0.len();
    let Composition::Made { handler, .. } = composed(&[first, second]) else { panic!("not made") };
    assert!(handler.len() > 700 && handler.len() < both, "{}", handler.len());
}

/// The files of an example.
fn example(name: &str) -> Files {
    let file = |file| {
        let path = format!("{}/../../examples/{name}/{file}", env!("CARGO_MANIFEST_DIR"));
        std::fs::read(&path).unwrap_or_else(|why| panic!("{path}: {why}"))
    };
    (file("handler.bin"), file("proof.bin"))
}

/// The examples that docs/COMPOSITION.md composes.
#[test]
fn worked_examples() {
    let [first, producer, consumer] = ["first", "producer", "consumer"].map(example);
    let (handler, proof) = example("guests");
    let guests = Composition::Made { steps: 135, handler, proof };
    assert_eq!(composed(&[producer, consumer.clone()]), guests);
    assert_eq!(composed(&[first.clone(), first.clone()]), refused(91));
    assert_eq!(composed(&[first, consumer]), refused(90));
}
