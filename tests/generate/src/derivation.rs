//! Derivations whose nodes hold their tables themselves, and their numbering for a file.

use reference::language::Statement;
use reference::proof_file::{Node, Proof, Rule};
use reference::space::Space;
use reference::states::{Relation, StateSet};

/// A node's four tables.
#[derive(Clone, Debug)]
pub struct Tables {
    pub p: StateSet,
    pub r: Relation,
    pub g: Relation,
    pub q: Relation,
}

impl Tables {
    /// The variables that R moves from a state of P.
    pub fn moved(&self, space: &Space) -> Vec<usize> {
        let pairs = || self.p.members().flat_map(|s| self.r.row(s).members().map(move |t| (s, t)));
        let moves = |v: &usize| pairs().any(|(s, t)| space.differ(*v, s, t));
        (0..space.sizes().len()).filter(moves).collect()
    }
}

/// The rule of a node, a while with its K and W.
#[derive(Clone, Debug)]
pub enum Step {
    Skip,
    Assignment,
    Sequence,
    Parallel,
    If,
    While { k: StateSet, w: Box<Relation> },
    Weaken,
}

impl Step {
    /// The statements at hand at the node's children, where this one is at hand at the node.
    pub fn below<'a>(&self, statement: &'a Statement) -> Vec<&'a Statement> {
        match self {
            Step::Weaken => vec![statement],
            _ => statement.parts(),
        }
    }
}

#[derive(Clone, Debug)]
pub struct Derivation {
    pub step: Step,
    pub tables: Tables,
    pub children: Vec<Derivation>,
}

impl Derivation {
    /// Gives the node G and Q and hands on what 37 and 38 tie to them. The children of a
    /// parallel and of a weaken keep their own: they were settled when they were made.
    pub fn settle(&mut self, g: Relation, q: Relation) {
        let (p, r) = (self.tables.p, self.tables.r.clone());
        match &self.step {
            Step::Sequence => {
                for child in &mut self.children {
                    let own = child.tables.q.clone();
                    child.settle(g.clone(), own);
                }
            }
            Step::If => self.children[0].settle(g.clone(), q.clone()),
            Step::While { w, .. } => {
                let inner = w.ending_in(p);
                self.children[0].settle(g.clone(), inner);
            }
            Step::Skip | Step::Assignment | Step::Parallel | Step::Weaken => {}
        }
        self.tables = Tables { p, r, g, q };
    }

    /// A weaken over this node, with the given P and R; G and Q stay what they are.
    pub fn weakened(mut self, p: StateSet, r: Relation) -> Derivation {
        let (g, q) = (self.tables.g.clone(), self.tables.q.clone());
        self.settle(g.clone(), q.clone());
        Derivation { step: Step::Weaken, tables: Tables { p, r, g, q }, children: vec![self] }
    }

    /// A weaken over this node that weakens nothing.
    pub fn under_weaken(self) -> Derivation {
        Derivation { step: Step::Weaken, tables: self.tables.clone(), children: vec![self] }
    }

    /// A weaken that weakens nothing over every node.
    pub fn doubled(mut self) -> Derivation {
        self.children = self.children.into_iter().map(Derivation::doubled).collect();
        self.under_weaken()
    }

    pub fn nodes(&self) -> usize {
        1 + self.children.iter().map(Derivation::nodes).sum::<usize>()
    }

    pub fn levels(&self) -> usize {
        1 + self.children.iter().map(Derivation::levels).max().unwrap_or(0)
    }

    /// Shows every node, in file order.
    pub fn each(&self, show: &mut impl FnMut(&Derivation)) {
        show(self);
        for child in &self.children {
            child.each(show);
        }
    }

    /// The nodes in file order, by the path that leads to each.
    pub fn paths(&self) -> Vec<Vec<usize>> {
        let mut paths = vec![vec![]];
        for (index, child) in self.children.iter().enumerate() {
            paths.extend(child.paths().into_iter().map(|path| [vec![index], path].concat()));
        }
        paths
    }

    pub fn at(&mut self, path: &[usize]) -> &mut Derivation {
        match path {
            [] => self,
            [first, rest @ ..] => self.children[*first].at(rest),
        }
    }

    /// Puts another set wherever the derivation has this one.
    pub fn replace_set(&mut self, old: StateSet, new: StateSet) {
        let k = match &mut self.step {
            Step::While { k, .. } => Some(k),
            _ => None,
        };
        for set in [Some(&mut self.tables.p), k].into_iter().flatten() {
            if *set == old {
                *set = new;
            }
        }
        for child in &mut self.children {
            child.replace_set(old, new);
        }
    }

    /// Puts another relation wherever the derivation has this one.
    pub fn replace_relation(&mut self, old: &Relation, new: &Relation) {
        let w = match &mut self.step {
            Step::While { w, .. } => Some(&mut **w),
            _ => None,
        };
        let Tables { r, g, q, .. } = &mut self.tables;
        for relation in [Some(r), Some(g), Some(q), w].into_iter().flatten() {
            if relation == old {
                relation.clone_from(new);
            }
        }
        for child in &mut self.children {
            child.replace_relation(old, new);
        }
    }

    /// The proof as the file has it, or none where it takes more than 16 sets or relations.
    pub fn proof(&self) -> Option<Proof> {
        let mut numbering = Numbering { sets: Vec::new(), relations: Vec::new() };
        let root = numbering.node(self);
        let Numbering { sets, relations } = numbering;
        (sets.len() <= 16 && relations.len() <= 16).then_some(Proof { sets, relations, root })
    }
}

struct Numbering {
    sets: Vec<StateSet>,
    relations: Vec<Relation>,
}

impl Numbering {
    fn node(&mut self, derivation: &Derivation) -> Node {
        let tables = &derivation.tables;
        let p = number(&mut self.sets, &tables.p);
        let [r, g, q] =
            [&tables.r, &tables.g, &tables.q].map(|table| number(&mut self.relations, table));
        let rule = match &derivation.step {
            Step::Skip => Rule::Skip,
            Step::Assignment => Rule::Assignment,
            Step::Sequence => Rule::Sequence,
            Step::Parallel => Rule::Parallel,
            Step::If => Rule::If,
            Step::Weaken => Rule::Weaken,
            Step::While { k, w } => {
                Rule::While { k: number(&mut self.sets, k), w: number(&mut self.relations, &**w) }
            }
        };
        let children = derivation.children.iter().map(|child| self.node(child)).collect();
        Node { rule, p, r, g, q, children }
    }
}

/// The number of a table, which is added where it is new.
fn number<T: Clone + PartialEq>(tables: &mut Vec<T>, table: &T) -> usize {
    tables.iter().position(|known| known == table).unwrap_or_else(|| {
        tables.push(table.clone());
        tables.len() - 1
    })
}
