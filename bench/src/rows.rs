//! The pairs that are measured.

use crate::halves;
use crate::worst::numbered_worst;
use generate::author::operate;
use generate::damage::Files;
use generate::derivation::Derivation;
use generate::derive::{least, Demand};
use generate::pairs::Pair;
use generate::programs::{count_down, count_up, in_order, number, parallel, read, store, when};
use generate::renumber::{agree, MOST_TABLES};
use generate::{longest, pack, vacuous};
use reference::language::{Handler, Operation, Statement};
use reference::space::Space;
use reference::states::{Relation, StateSet};
use reference::{Place, Verdict};

pub struct Row {
    pub name: &'static str,
    pub handler: Vec<u8>,
    pub proof: Vec<u8>,
    pub call: Call,
}

impl Row {
    /// How many bytes all files have that are passed.
    pub fn bytes(&self) -> usize {
        let of_second = match &self.call {
            Call::Compose { second: (handler, proof), .. } => handler.len() + proof.len(),
            Call::Check(_) | Call::Form(_) | Call::Admit { .. } => 0,
        };
        self.handler.len() + self.proof.len() + of_second
    }
}

/// What is measured, with what it must answer.
pub enum Call {
    /// The check, and whether the verdict is the one that the row is about.
    Check(fn(Verdict) -> bool),
    /// The writing of the proof file in its one form, and that form.
    Form(Vec<u8>),
    /// The composition with a second pair, its step number and the two files that it makes.
    Compose { second: Files, steps: u32, made: Files },
    /// The admission to a bare frame with so many ticks per step, and the length of its slot.
    Admit { ticks: u32, length: u32 },
}

/// Rows that are measured together: they take turns, so that they can be compared with each other.
pub type Group = Vec<Row>;

pub fn all() -> Vec<Group> {
    alone(single()).chain([admission()]).collect()
}

/// Each row as a group of its own.
fn alone(rows: Vec<Row>) -> impl Iterator<Item = Group> {
    rows.into_iter().map(|row| vec![row])
}

fn single() -> Vec<Row> {
    let large = large();
    let (handler, proof) = (&large.handler_file.bytes, &large.proof_file.bytes);
    let cut = handler[..handler.len() - 1].to_vec();
    vec![
        accepted("typical: N = 16, about 20 nodes", typical()),
        accepted("large: N = 64, near 127 nodes, parallels and loops", large.clone()),
        accepted(
            "parallel at N = 64, R and each G empty, 64 reaches",
            reached(&Relation::none(), 64),
        ),
        accepted("parallel at N = 64, a chain of 63 pairs, 63 reaches", reached(&chain(), 63)),
        accepted("parallel at N = 64, a ring of 63 pairs, 64 reaches", reached(&ring(), 64)),
        accepted("31 stores of 31-node expressions", expressions()),
        refused_at_last(large.clone()),
        Row {
            name: "large, handler file a byte short",
            handler: cut,
            proof: proof.clone(),
            call: Call::Check(|verdict| matches!(verdict, Verdict::Refused { number: 10, .. })),
        },
        form_of_large(&large),
        form_of_longest(),
        halves::composed(),
    ]
}

/// The typical pair again, admitted and only checked: what an admission costs besides the check.
fn admission() -> Group {
    let check = accepted("admit: typical, the check alone", typical());
    let (handler, proof) = (check.handler.clone(), check.proof.clone());
    let call = Call::Admit { ticks: 1_000, length: 508_000 };
    vec![Row { name: "admit: typical, to a bare frame", handler, proof, call }, check]
}

fn form_of_large(large: &Pair) -> Row {
    let worst = numbered_worst(&large.proof);
    assert!(agree(&worst, &large.proof) && worst.relations.len() == MOST_TABLES);
    Row {
        name: "form: large, its tables numbered worst",
        handler: large.handler_file.bytes.clone(),
        proof: pack::proof(&worst, large.handler.space.states()).bytes,
        call: Call::Form(large.proof_file.bytes.clone()),
    }
}

fn form_of_longest() -> Row {
    let packed = |proof| pack::proof(&proof, 64).bytes;
    Row {
        name: "form: 127 nodes, 16 sets, 16 relations alike up to the last row",
        handler: vacuous::pair(&[8, 8], Statement::Nil).handler_file.bytes,
        proof: packed(longest::proof()),
        call: Call::Form(packed(longest::form())),
    }
}

pub fn files(pair: Pair) -> Files {
    (pair.handler_file.bytes, pair.proof_file.bytes)
}

fn accepted(name: &'static str, pair: Pair) -> Row {
    Row {
        name,
        handler: pair.handler_file.bytes,
        proof: pair.proof_file.bytes,
        call: Call::Check(|verdict| matches!(verdict, Verdict::Accepted(_))),
    }
}

/// The derivation from every state, with the least tables or with coarse postconditions.
pub fn derive(sizes: &[usize], statement: &Statement, r: &Relation, coarse: bool) -> Derivation {
    let space = Space::new(sizes);
    let demand = Demand { p: space.all(), r, coarse };
    least(&space, statement, demand).expect("the row is made to hold")
}

pub fn pair(sizes: &[usize], statement: Statement, derivation: Derivation) -> Pair {
    Pair::new(Handler { space: Space::new(sizes), statement }, derivation)
        .expect("the row is made to fit")
}

fn typical() -> Pair {
    let sizes = [4, 4];
    let guarded = when(operate(Operation::Less, read(0), number(2)), store(0, number(3)));
    let block = parallel(count_down(0), count_up(1, 3));
    let copy = store(1, read(0));
    let statement = in_order(vec![block.clone(), guarded, copy, Statement::Nil, block]);
    let root = derive(&sizes, &statement, &Relation::none(), true);
    pair(&sizes, statement, root)
}

/// The same statement over more and more states, then more and more statements over 64.
pub fn growth() -> Vec<Group> {
    let states: [(&str, &[usize]); 4] = [
        ("10 blocks, N = 8", &[2, 4]),
        ("10 blocks, N = 16", &[4, 4]),
        ("10 blocks, N = 32", &[4, 4, 2]),
        ("10 blocks, N = 64", &[4, 4, 4]),
    ];
    let blocks = [("1 block, N = 64", 1), ("2 blocks, N = 64", 2), ("5 blocks, N = 64", 5)];
    let by_states = states.map(|(name, sizes)| accepted(name, in_blocks(sizes, 10)));
    let by_nodes = blocks.map(|(name, count)| accepted(name, in_blocks(&[4, 4, 4], count)));
    alone(by_states.into_iter().chain(by_nodes).collect()).collect()
}

/// So many parallels of two loops each, 6 statements a block, and a weaken over every node.
fn in_blocks(sizes: &[usize], count: usize) -> Pair {
    let block = parallel(count_down(0), count_up(1, 3));
    let statement = in_order((0..count).map(|_| block.clone()).collect());
    let root = derive(sizes, &statement, &Relation::none(), true).doubled();
    pair(sizes, statement, root)
}

/// Ten parallels of two loops each, and a weaken over every node.
pub fn large() -> Pair {
    let sizes = [4, 4, 4];
    let blocks = [parallel(count_down(0), count_up(1, 3)), parallel(count_down(1), count_up(2, 3))];
    let more = (0..10).map(|index| blocks[index % 2].clone());
    let statement = in_order(more.chain([Statement::Nil, Statement::Nil]).collect());
    let root = derive(&sizes, &statement, &Relation::none(), true).doubled().under_weaken();
    pair(&sizes, statement, root)
}

/// Two sides that do nothing beside others that do this. Each side's Q has all pairs, and the
/// parallel's Q only those that are reached. So 66 asks for the reach from each state that does
/// not reach all others; `asked` is how many these are.
fn reached(r: &Relation, asked: usize) -> Pair {
    let sizes = [8, 8];
    let statement = parallel(Statement::Nil, Statement::Nil);
    let mut root = derive(&sizes, &statement, r, false);
    for side in &mut root.children {
        side.tables.q = Relation::of_rows([StateSet::first(64); 64]);
    }
    assert_eq!(asking(&root), asked);
    pair(&sizes, statement, root)
}

/// From how many states of P both sides' Q lead outside Q.
fn asking(root: &Derivation) -> usize {
    let both = root.children[0].tables.q.meet(&root.children[1].tables.q);
    let outside = |s: &usize| !both.row(*s).lies_in(root.tables.q.row(*s));
    root.tables.p.members().filter(outside).count()
}

/// 0 leads to 1, 1 to 2, and so on up to 63.
fn chain() -> Relation {
    Relation::of_rows((0..63).map(|s| StateSet::NONE.with(s + 1)))
}

/// The states below 63 in a ring. From each of them 62 rounds add a state, and the next one adds
/// none. In an accepted pair, no reach that 66 asks for takes more rounds.
fn ring() -> Relation {
    Relation::of_rows((0..63).map(|s| StateSet::NONE.with((s + 1) % 63)))
}

/// Stores of c + d − d + d − d and so on in c, and the like in d: no value changes.
fn expressions() -> Pair {
    let sizes = [8, 8];
    let still = |variable: usize| {
        let other = 1 - variable;
        let value = (1..16).fold(read(variable), |sum, leaf| match leaf {
            15 => operate(Operation::Add, sum, number(0)),
            leaf if leaf % 2 == 1 => operate(Operation::Add, sum, read(other)),
            _ => operate(Operation::Subtract, sum, read(other)),
        });
        store(variable, value)
    };
    let statement = in_order((0..31).map(|index| still(index % 2)).collect());
    let root = derive(&sizes, &statement, &Relation::none(), true);
    pair(&sizes, statement, root)
}

/// The large pair with a last node that promises nothing.
fn refused_at_last(large: Pair) -> Row {
    let mut root = large.derivation;
    let path = root.paths().pop().expect("there is a root");
    root.at(&path).tables.q = Relation::none();
    let pair = Pair::new(large.handler, root).expect("there is room for one table more");
    Row {
        name: "large, refused at its last node",
        handler: pair.handler_file.bytes,
        proof: pair.proof_file.bytes,
        call: Call::Check(|verdict| {
            verdict == Verdict::Refused { number: 35, place: Place::Node(126) }
        }),
    }
}
