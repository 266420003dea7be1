//! The file and the byte that a number and a place lead to: by hand, for every pair of kind and
//! number at the edges of each file, and for every node of generated pairs.

use beside::lawful::NUMBERS;
use beside::{at_bit, at_node, judge, judge_view, judge_view_of, HANDLER, PROOF};
use generate::construct;
use generate::pack::What;
use generate::pairs::{accepted, Pair, Scale};
use generate::random::Random;
use generate::vacuous;
use reference::language::Statement;
use reference::view::{BIT, NODE};
use reference::{Place, Verdict, LONGEST_FILE};

const PROOF_FILE: u64 = 1 << 32;

/// Two files, and the bits at which the nodes begin where both are well-formed.
struct Files {
    handler: Vec<u8>,
    proof: Vec<u8>,
    nodes: Vec<usize>,
}

fn node_bits(pair: &Pair) -> Vec<usize> {
    pair.proof_file.that_say(What::Rule).iter().map(|field| field.bit).collect()
}

fn well_formed(pair: &Pair) -> Files {
    let (handler, proof) = (pair.handler_file.bytes.clone(), pair.proof_file.bytes.clone());
    Files { handler, proof, nodes: node_bits(pair) }
}

fn ill_formed(handler: &[u8], proof: &[u8]) -> Files {
    Files { handler: handler.to_vec(), proof: proof.to_vec(), nodes: vec![] }
}

fn resized(file: &[u8], length: usize) -> Vec<u8> {
    let mut bytes = file.to_vec();
    bytes.resize(length, 0);
    bytes
}

/// What must be shown, written as the page lists it.
fn expected(files: &Files, number: u32, kind: u32, place: u64) -> u64 {
    let Files { handler, proof, nodes } = files;
    let byte_of = |place: u64, file: &[u8]| (place / 8).min(file.len() as u64);
    let of_a_node = number >= 30 && NUMBERS.contains(&number);
    match (kind, number) {
        (0, 10..=18) => byte_of(place, handler),
        (0, 20..=25) => PROOF_FILE + byte_of(place, proof),
        (1, _) if of_a_node => {
            let bit = usize::try_from(place).ok().and_then(|node| nodes.get(node));
            PROOF_FILE + bit.map_or(proof.len() as u64, |bit| *bit as u64 / 8)
        }
        _ => handler.len() as u64,
    }
}

/// A pair with loops, so that not all nodes have the same width.
fn with_loops(random: &mut Random) -> Pair {
    loop {
        let pair = accepted(random, Scale::FULL);
        let widths = node_bits(&pair);
        let differ = |two: &[usize]| two[1] - two[0] == 27;
        if widths.len() > 5 && widths.windows(2).any(differ) {
            return pair;
        }
    }
}

/// A weaken over each of 63 nodes, and one over the root.
fn most_nodes() -> Pair {
    let statement = generate::programs::in_order(vec![Statement::Nil; 32]);
    let pair = vacuous::pair(&[2, 2], statement);
    let root = pair.derivation.doubled().under_weaken();
    Pair::new(pair.handler, root).expect("127 nodes are not too many")
}

/// The pair with a table inverted, so that it is refused by a condition.
fn refused(pair: &Pair) -> Files {
    let inverted = |field| Files {
        proof: pair.proof_file.with_field(field, !pair.proof_file.value(field)),
        ..well_formed(pair)
    };
    let by_a_condition = |files: &Files| {
        let verdict = judge(&files.handler, &files.proof);
        matches!(verdict, Verdict::Refused { place: Place::Node(_), .. })
    };
    let mut tables = pair.proof_file.that_say(What::Table).into_iter().map(inverted);
    tables.find(by_a_condition).expect("some table matters")
}

/// The pair in good order, refused, and with one file cut, too long by a byte, of wrong kinds,
/// empty, or as long as a file may be and longer.
fn versions(random: &mut Random, pair: &Pair) -> Vec<Files> {
    let (handler, proof) = (&pair.handler_file.bytes, &pair.proof_file.bytes);
    let mut versions = vec![
        well_formed(pair),
        refused(pair),
        ill_formed(&[], &[]),
        ill_formed(&[], proof),
        ill_formed(handler, &[]),
    ];
    for length in [handler.len() - 1, handler.len() + 1, LONGEST_FILE, LONGEST_FILE + 1] {
        versions.push(ill_formed(&resized(handler, length), proof));
    }
    for length in [proof.len() - 1, proof.len() + 1, LONGEST_FILE, LONGEST_FILE + 1] {
        versions.push(ill_formed(handler, &resized(proof, length)));
    }
    if let Some(kinds) = construct::fault(random, pair, 16) {
        versions.push(ill_formed(&kinds.handler, &kinds.proof));
    }
    versions
}

/// Places at the edges of both files, at the first and the last node, and far out.
fn places(files: &Files) -> Vec<u64> {
    let mut places = vec![0, 1, 7, 8, 9, 126, 127, 128];
    places.extend([u32::MAX as u64, 1 << 32, (1 << 32) + 8, 1 << 35, 1 << 61, 1 << 63, u64::MAX]);
    let nodes = files.nodes.len() as u64;
    for edge in [8 * files.handler.len() as u64, 8 * files.proof.len() as u64, nodes] {
        places.extend([edge, edge + 1, edge + 7, edge + 8]);
        places.extend([edge.saturating_sub(1), edge.saturating_sub(8), edge.saturating_sub(9)]);
    }
    places.sort_unstable();
    places.dedup();
    places
}

#[test]
fn every_kind_and_number() {
    let mut random = Random::new(0x5EE);
    let pairs = [with_loops(&mut random), accepted(&mut random, Scale::SMALL), most_nodes()];
    let numbers: Vec<u32> =
        (0..=130).chain([255, 256 + 10, 256 + 31, 1 << 16, u32::MAX - 31, u32::MAX]).collect();
    for files in pairs.iter().flat_map(|pair| versions(&mut random.clone(), pair)) {
        for place in places(&files) {
            for number in &numbers {
                for kind in [0, 1, 2, 3, 256, 257, u32::MAX] {
                    let found = judge_view(&files.handler, &files.proof, *number, kind, place);
                    let wanted = expected(&files, *number, kind, place);
                    assert_eq!(found, wanted, "{number} {kind} {place}");
                }
            }
        }
    }
}

/// The view of the refusal that the two files get.
fn viewed(handler: &[u8], proof: &[u8], verdict: Verdict) -> u64 {
    assert_eq!(judge(handler, proof), verdict);
    judge_view_of(handler, proof, verdict).expect("it is refused")
}

#[test]
fn by_hand() {
    // Counts, a set of 2 bits and three relations of 4 bits: node 0 begins at bit 24.
    let without_guarantee = [0x08, 0xF0, 0x45, 0x20, 0x00, 0x40];
    assert_eq!(viewed(&HANDLER, &without_guarantee, at_node(43, 0)), PROOF_FILE + 3);
    assert_eq!(judge_view(&HANDLER, &PROOF, 43, NODE, 1), PROOF_FILE + 6);
    assert_eq!(judge_view(&HANDLER, &PROOF, 80, NODE, 0), PROOF_FILE + 3);
    // An accepted pair is shown as a refused one is.
    assert_eq!(judge_view(&HANDLER, &PROOF, 43, NODE, 0), PROOF_FILE + 3);
    assert_eq!(judge_view(&HANDLER, &PROOF, 18, BIT, 23), 2);
    // A field that runs past the end is at the end, where no byte is.
    assert_eq!(viewed(&[0x22], &PROOF, at_bit(10, 8)), 1);
    assert_eq!(viewed(&[], &PROOF, at_bit(10, 0)), 0);
    assert_eq!(viewed(&HANDLER, &PROOF[..5], at_bit(20, 40)), PROOF_FILE + 5);
    // A fill bit, and a further byte.
    assert_eq!(viewed(&[0x22, 0x20, 0x03], &PROOF, at_bit(18, 23)), 2);
    assert_eq!(viewed(&HANDLER, &resized(&PROOF, 7), at_bit(25, 48)), PROOF_FILE + 6);
    // A file that is not read still has its bits.
    let long = resized(&PROOF, LONGEST_FILE + 1);
    assert_eq!(viewed(&HANDLER, &long, at_bit(2, 0)), 3);
    assert_eq!(judge_view(&HANDLER, &long, 25, BIT, 8 * LONGEST_FILE as u64), PROOF_FILE + 16_384);
    assert_eq!(judge_view(&HANDLER, &long, 43, NODE, 0), PROOF_FILE + 16_385);
    // A node is not shown while the handler file is ill-formed.
    assert_eq!(judge_view(&[0x22, 0x20, 0x03], &PROOF, 43, NODE, 0), PROOF_FILE + 6);
    // A bit with the number of a node, a node with the number of a bit, and no such number.
    for (number, kind) in [(43, BIT), (18, NODE), (25, NODE), (39, NODE), (19, BIT), (0, BIT)] {
        assert_eq!(judge_view(&HANDLER, &PROOF, number, kind, 0), 3);
    }
}

#[test]
fn every_node() {
    let mut random = Random::new(0x0DE);
    let mut shown = 0;
    while shown < 10_000 {
        let files = well_formed(&accepted(&mut random, Scale::FULL));
        let (handler, proof) = (&files.handler, &files.proof);
        for (node, bit) in files.nodes.iter().enumerate() {
            let found = judge_view(handler, proof, 31, NODE, node as u64);
            assert_eq!(found, PROOF_FILE + *bit as u64 / 8, "{node}: {handler:02X?} {proof:02X?}");
            shown += 1;
        }
    }
}
