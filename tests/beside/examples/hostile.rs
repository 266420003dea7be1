//! Writes pairs that are as deep and as large as files can be to standard output, for
//! tests/c/stack.c and bounds.c; also the samples, generated pairs and damaged ones.
//!
//! A pair is the length of the handler and that of the proof, each as four bytes with the least
//! significant first, and then both files.

use generate::author::operate;
use generate::damage::{damaged, Files};
use generate::derive::{least, Demand};
use generate::pack::{self, Packer, What};
use generate::pairs::{accepted, Pair, Scale};
use generate::programs::{self, number, parallel, read, repeat, sequence, store, when};
use generate::random::Random;
use generate::renumber::renumbered;
use generate::{arbitrary, longest, vacuous};
use reference::language::{Expression, Handler, Operation, Statement};
use reference::proof_file::Proof;
use reference::space::Space;
use reference::states::{Relation, StateSet};
use std::io::Write;
use std::path::Path;

/// Three ways to 64 states.
const SIZES: [&[usize]; 3] = [&[8, 8], &[16, 4], &[2, 2, 4, 4]];

fn main() -> std::io::Result<()> {
    let mut random = Random::new(0x5AC7);
    let mut files = samples()?;
    let mut pairs = deep_expressions();
    pairs.extend(deep_statements(&mut random));
    pairs.extend(deep_derivations());
    pairs.extend((0..200).map(|_| accepted(&mut random, Scale::FULL)));
    files.extend(pairs.into_iter().flat_map(|pair| with_damage(&mut random, pair)));
    files.extend(endless());
    files.extend(many_tables(&mut random));
    let mut output = std::io::stdout().lock();
    for (handler, proof) in files {
        for file in [&handler, &proof] {
            output.write_all(&(file.len() as u32).to_le_bytes())?;
        }
        output.write_all(&handler)?;
        output.write_all(&proof)?;
    }
    output.flush()
}

/// The pairs of examples/.
fn samples() -> std::io::Result<Vec<Files>> {
    let folder = Path::new(env!("CARGO_MANIFEST_DIR")).join("../../examples");
    let mut files = Vec::new();
    for entry in std::fs::read_dir(folder)? {
        let sample = entry?.path();
        if sample.join("handler.bin").exists() {
            let read = |name: &str| std::fs::read(sample.join(name));
            files.push((read("handler.bin")?, read("proof.bin")?));
        }
    }
    assert!(!files.is_empty(), "examples/ has no samples");
    Ok(files)
}

fn files(pair: Pair) -> Files {
    (pair.handler_file.bytes, pair.proof_file.bytes)
}

/// A chain of operations over so many leaves, nested on the left, on the right or by turns.
fn chain(operation: Operation, leaves: usize, side: usize, leaf: &Expression) -> Expression {
    (1..leaves).fold(leaf.clone(), |inner, index| {
        let on_left = side == 0 || side == 2 && index % 2 == 0;
        let (left, right) = if on_left { (inner, leaf.clone()) } else { (leaf.clone(), inner) };
        operate(operation, left, right)
    })
}

/// Expressions of up to 31 nodes, the deepest there are, each in a store, an if and a while.
fn deep_expressions() -> Vec<Pair> {
    let mut all = Vec::new();
    for sizes in SIZES {
        for side in 0..3 {
            let zeros = chain(Operation::Add, 16, side, &number(0));
            let reads = chain(Operation::Subtract, 15, side, &read(1));
            let truths = chain(Operation::And, 16, side, &Expression::Truth(true));
            let less = operate(Operation::Less, read(0), number(3));
            let tests = chain(Operation::Or, 8, side, &less);
            let statements =
                [zeros, chain(Operation::Add, 16, side, &read(0))].map(|e| store(0, e));
            let compared = operate(Operation::Greater, reads, number(2));
            all.extend(statements.map(|statement| derived(sizes, statement)));
            for test in [compared, truths, tests] {
                all.push(derived(sizes, when(test.clone(), Statement::Nil)));
                all.push(derived(sizes, repeat(test, store(0, number(0)))));
            }
        }
    }
    all
}

/// The statement derived from every state with nobody else about, or else with an empty P.
fn derived(sizes: &[usize], statement: Statement) -> Pair {
    let space = Space::new(sizes);
    let demand = Demand { p: space.all(), r: &Relation::none(), coarse: false };
    let Some(root) = least(&space, &statement, demand) else {
        return vacuous::pair(sizes, statement);
    };
    let handler = Handler { space, statement: statement.clone() };
    Pair::new(handler, root).unwrap_or_else(|| vacuous::pair(sizes, statement))
}

/// Statements of 16 levels with an expression of 31 nodes at each, and random ones.
fn deep_statements(random: &mut Random) -> Vec<Pair> {
    let mut all = Vec::new();
    let test = |side| {
        let reads = chain(Operation::Add, 15, side, &read(0));
        operate(Operation::Greater, reads, number(100))
    };
    for kind in 0..6 {
        for (side, sizes) in SIZES.into_iter().enumerate() {
            let innermost = store(0, chain(Operation::Add, 16, side, &number(0)));
            let statement = (1..16).fold(innermost, |part, _| match kind {
                0 => sequence(part, Statement::Nil),
                1 => sequence(Statement::Nil, part),
                2 => parallel(part, Statement::Nil),
                3 => parallel(Statement::Nil, part),
                4 => when(test(side), part),
                _ => repeat(test(side), part),
            });
            all.push(vacuous::pair(sizes, statement.clone()));
            // Deriving nested parallels takes a second for each.
            if !(2..=3).contains(&kind) {
                all.push(derived(sizes, statement));
            }
        }
    }
    for _ in 0..100 {
        all.push(vacuous::pair(&[8, 8], programs::deep(random, 16)));
    }
    all
}

/// 24 levels of nodes, and 127 nodes, over 64 states.
fn deep_derivations() -> Vec<Pair> {
    let mut all = Vec::new();
    for sizes in SIZES {
        let every = Relation::of_rows([StateSet::first(64); 64]);
        let loops = parallel(programs::count_down(0), programs::count_up(1, 3));
        for statement in [Statement::Nil, loops.clone(), sequence(loops.clone(), loops.clone())] {
            for rely in [&Relation::none(), &every] {
                let mut root = vacuous::derivation(&statement, rely);
                while root.levels() < 24 {
                    root = root.under_weaken();
                }
                let handler = Handler { space: Space::new(sizes), statement: statement.clone() };
                all.push(Pair::new(handler, root).expect("24 levels fit"));
            }
        }
        let flat = vacuous::pair(sizes, programs::in_order(vec![Statement::Nil; 32]));
        let root = flat.derivation.doubled().under_weaken();
        all.push(Pair::new(flat.handler, root).expect("127 nodes fit"));
    }
    all
}

/// A field and its width.
type Field = (u64, usize);

fn packed(parts: &[&[Field]]) -> Vec<u8> {
    let mut packer = Packer::new();
    for (value, width) in parts.concat() {
        packer.put(What::Constant, value, width);
    }
    packer.finish().bytes
}

/// Statements, expressions and nodes that nest until the reader refuses them.
fn endless() -> Vec<Files> {
    let mut all = Vec::new();
    let sizes: &[Field] = &[(2, 3), (8, 5), (8, 5)];
    let (nil, good) = files(vacuous::pair(&[8, 8], Statement::Nil));
    let repeated = |field: &[Field], times: usize| field.repeat(times);
    let levels: [&[Field]; 4] =
        [&[(2, 3)], &[(3, 3)], &[(4, 3), (1, 2), (1, 1)], &[(5, 3), (1, 2), (1, 1)]];
    for level in levels {
        all.push((packed(&[sizes, &repeated(level, 2000)]), good.clone()));
        for code in 0..7 {
            let nested = repeated(&[(3, 2), (code, 3)], 2000);
            for start in [&[(1, 3), (0, 2)][..], &[(4, 3)], &[(5, 3)]] {
                let parts = [sizes, &repeated(level, 15), start, &nested];
                all.push((packed(&parts), good.clone()));
            }
        }
    }
    let tables: Vec<Field> = [vec![(16, 5), (16, 5)], vec![(u64::MAX, 64); 16 + 16 * 64]].concat();
    let named: [Field; 4] = [(15, 4); 4];
    for rule in 2..7 {
        let more: &[Field] = if rule == 5 { &[(15, 4), (15, 4)] } else { &[] };
        let node = [&[(rule, 3)][..], &named, more].concat();
        all.push((nil.clone(), packed(&[&tables, &repeated(&node, 1000)])));
    }
    all
}

/// Proofs over 64 states with as many tables as a file holds, equal, almost equal or not mentioned.
fn many_tables(random: &mut Random) -> Vec<Files> {
    let nil = vacuous::pair(&[8, 8], Statement::Nil).handler_file.bytes;
    let mut proofs = vec![longest::proof(), longest::form()];
    proofs.extend((0..40).map(|_| arbitrary::proof(random, 64)));
    let more: Vec<Proof> = proofs.iter().map(|proof| renumbered(random, proof, 64)).collect();
    let all = proofs.iter().chain(&more);
    all.map(|proof| (nil.clone(), pack::proof(proof, 64).bytes)).collect()
}

/// The pair and four damaged versions, so that refusals at the deepest places are among them.
fn with_damage(random: &mut Random, pair: Pair) -> Vec<Files> {
    let mut all: Vec<Files> = (0..4).map(|_| damaged(random, &pair)).collect();
    all.push(files(pair));
    all
}
