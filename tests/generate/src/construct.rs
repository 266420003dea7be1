//! Faults whose verdict is known from the way they are made.

use crate::author::operate;
use crate::derivation::Derivation;
use crate::pack::{self, Packed, Packer, What};
use crate::pairs::Pair;
use crate::programs;
use crate::random::Random;
use crate::vacuous;
use reference::language::{Expression, Handler, Kind, Operation, Statement};
use reference::space::Space;
use reference::states::Relation;
use reference::{Place, Verdict};

/// Two files and the verdict on them.
pub struct Constructed {
    pub handler: Vec<u8>,
    pub proof: Vec<u8>,
    pub verdict: Verdict,
}

/// The numbers that `fault` can make.
pub const NUMBERS: [u32; 16] = [10, 11, 12, 13, 14, 15, 16, 17, 18, 20, 21, 22, 23, 24, 25, 80];

/// A fault of the wanted number in an accepted pair, or none where the pair does not lend
/// itself to it (a pair without expressions has no wrong kind).
pub fn fault(random: &mut Random, pair: &Pair, number: u32) -> Option<Constructed> {
    let (file, place) = match number {
        10 | 20 => cut(random, owner(pair, number)),
        18 | 25 => overfull(random, owner(pair, number)),
        13 => too_many_states(random),
        16 => wrong_kind(random, &pair.handler)?,
        17 => too_many_statements(random),
        24 => return Some(too_many_nodes(random)),
        80 => return Some(too_many_steps(random)),
        _ => wrong_field(random, pair, number)?,
    };
    let (handler, proof) = match number {
        10..=18 => (file, pair.proof_file.bytes.clone()),
        _ => (pair.handler_file.bytes.clone(), file),
    };
    Some(Constructed { handler, proof, verdict: refused_at_bit(number, place) })
}

fn refused_at_bit(number: u32, bit: usize) -> Verdict {
    Verdict::Refused { number, place: Place::Bit(bit as u32) }
}

/// The file that has faults of this number.
fn owner(pair: &Pair, number: u32) -> &Packed {
    if number < 20 {
        &pair.handler_file
    } else {
        &pair.proof_file
    }
}

/// A file cut short: its last byte always holds a part of a field.
fn cut(random: &mut Random, file: &Packed) -> (Vec<u8>, usize) {
    let left = random.below(file.bytes.len());
    (file.bytes[..left].to_vec(), left * 8)
}

/// A fill bit that is not zero, or a further byte.
fn overfull(random: &mut Random, file: &Packed) -> (Vec<u8>, usize) {
    let mut bytes = file.bytes.clone();
    let fill = bytes.len() * 8 - file.end();
    if fill == 0 || random.chance(50) {
        bytes.push(random.word() as u8);
        return (bytes, file.bytes.len() * 8);
    }
    let first = file.end() + random.below(fill);
    let last = bytes.len() - 1;
    bytes[last] |= (random.word() as u8 | 0x80) >> (first % 8);
    (bytes, first)
}

/// One field with a value that it cannot have.
fn wrong_field(random: &mut Random, pair: &Pair, number: u32) -> Option<(Vec<u8>, usize)> {
    let variables = pair.handler.space.sizes().len();
    let (sets, relations) = (pair.proof.sets.len(), pair.proof.relations.len());
    let operation = random.chance(50);
    let (what, wrong): (What, Vec<usize>) = match number {
        11 => (What::Variables, vec![0, 5, 6, 7]),
        12 => (What::Size, (0..2).chain(17..32).collect()),
        14 if operation => (What::Operation, vec![7]),
        14 => (What::Statement, vec![6, 7]),
        15 => (What::Variable, (variables..4).collect()),
        21 => (What::Count, (0..1).chain(17..32).collect()),
        22 => (What::Rule, vec![7]),
        23 if random.chance(50) => (What::SetNumber, (sets..16).collect()),
        _ => (What::RelationNumber, (relations..16).collect()),
    };
    let file = owner(pair, number);
    let fields = file.that_say(what);
    if fields.is_empty() || wrong.is_empty() {
        return None;
    }
    let field = *random.pick(&fields);
    Some((file.with_field(field, *random.pick(&wrong) as u64), field.bit))
}

/// Sizes of which one takes N over 64; what stands behind it does not count.
fn too_many_states(random: &mut Random) -> (Vec<u8>, usize) {
    let mut sizes = Vec::new();
    while sizes.iter().product::<usize>() <= 64 {
        if sizes.len() == 4 {
            sizes.clear();
        }
        sizes.push(random.between(2, 16));
    }
    let place = 3 + 5 * (sizes.len() - 1);
    let mut packer = Packer::new();
    let behind = random.between(0, 4 - sizes.len());
    sizes.extend((0..behind).map(|_| random.below(32)));
    packer.sizes(&sizes);
    packer.statement(&Statement::Nil);
    (packer.finish().bytes, place)
}

/// One node of an expression replaced by one of the other kind.
fn wrong_kind(random: &mut Random, handler: &Handler) -> Option<(Vec<u8>, usize)> {
    let count = pack::handler(handler).that_say(What::Expression).len();
    if count == 0 {
        return None;
    }
    let chosen = random.below(count);
    let mut changed = handler.clone();
    change_kind(&mut changed.statement, &mut chosen.clone());
    let file = pack::handler(&changed);
    let place = file.that_say(What::Expression)[chosen].bit;
    Some((file.bytes, place))
}

/// Counts `left` down over the expression nodes in file order and changes the one at 0.
fn change_kind(statement: &mut Statement, left: &mut usize) -> bool {
    match statement {
        Statement::Nil => false,
        Statement::Assignment(_, value) => change_node(value, Kind::Integer, left),
        Statement::Sequence(first, second) | Statement::Parallel(first, second) => {
            change_kind(first, left) || change_kind(second, left)
        }
        Statement::If(test, body) | Statement::While(test, body) => {
            change_node(test, Kind::Truth, left) || change_kind(body, left)
        }
    }
}

fn change_node(expression: &mut Expression, kind: Kind, left: &mut usize) -> bool {
    if *left == 0 {
        *expression = match kind {
            Kind::Integer => Expression::Truth(true),
            Kind::Truth => operate(Operation::Add, Expression::Variable(0), Expression::Integer(1)),
        };
        return true;
    }
    *left -= 1;
    match expression {
        Expression::Operation(operation, one, two) => {
            change_node(one, operation.takes(), left) || change_node(two, operation.takes(), left)
        }
        _ => false,
    }
}

/// Too many statements, too deep a statement, or too large an expression.
fn too_many_statements(random: &mut Random) -> (Vec<u8>, usize) {
    let leaves = random.between(33, 48);
    let (statement, what, index) = match random.below(3) {
        0 => (programs::nils(random, leaves), What::Statement, 63),
        1 => {
            let levels = random.between(17, 30);
            (programs::deep(random, levels), What::Statement, 16)
        }
        _ => {
            let leaves = random.between(17, 40) as u64;
            let value = programs::sum(leaves, leaves / 2);
            (Statement::Assignment(0, value), What::Expression, 31)
        }
    };
    let file = pack::handler(&Handler { space: Space::new(&[2]), statement });
    let place = file.that_say(what)[index].bit;
    (file.bytes, place)
}

/// Weakens over a derivation until it has too many nodes or levels.
fn too_many_nodes(random: &mut Random) -> Constructed {
    let leaves = random.between(26, 32);
    let deep = random.chance(50);
    let statement = if deep { Statement::Nil } else { programs::nils(random, leaves) };
    let mut root = vacuous::derivation(&statement, &Relation::none());
    let most = if deep { 24 } else { 127 };
    if !deep {
        root = root.doubled();
    }
    while root.nodes() <= most || (!deep && random.chance(50)) {
        root = root.under_weaken();
    }
    let handler = Handler { space: Space::new(&[2, 2]), statement };
    let proof = root.proof().expect("there are one set and one relation");
    let file = pack::proof(&proof, 4);
    let place = file.that_say(What::Rule)[first_too_many(&root)].bit;
    Constructed {
        handler: pack::handler(&handler).bytes,
        proof: file.bytes,
        verdict: refused_at_bit(24, place),
    }
}

/// The first node, in file order, that is the 128th or on level 25.
fn first_too_many(root: &Derivation) -> usize {
    let too_deep = root.paths().iter().position(|path| path.len() >= 24);
    too_deep.unwrap_or(127).min(127)
}

/// Nested loops that may take more steps than the limit, by little or by much.
fn too_many_steps(random: &mut Random) -> Constructed {
    let over = [1, random.between(1, 63) as u64, random.below(1 << 40) as u64 + 1];
    let statement = programs::of_steps(u64::from(u32::MAX) + random.pick(&over));
    let pair = vacuous::pair(&[8, 8], statement);
    let verdict = Verdict::Refused { number: 80, place: Place::Node(0) };
    Constructed { handler: pair.handler_file.bytes, proof: pair.proof_file.bytes, verdict }
}
