//! The numbering of a proof's tables for which its form takes longest.

use generate::renumber::{with_numbers, Sort, MOST_TABLES};
use reference::proof_file::Proof;
use reference::states::Relation;

/// The same proof, which is in its form, with 16 sets and 16 relations: those it has, from the last
/// to the first, and copies of the one that takes the most comparisons, mentioned by turns. A table
/// is compared with all that were mentioned before it.
pub fn numbered_worst(proof: &Proof) -> Proof {
    let (set_mentions, relation_mentions) = mentions(proof);
    let mut sets = Copies::new(set_mentions, |number| number + 1);
    let mut relations = Copies::new(relation_mentions, |number| rows(&proof.relations, number));
    let root = with_numbers(&proof.root, &mut |sort, old| match sort {
        Sort::Set => sets.next(old),
        Sort::Relation => relations.next(old),
    });
    Proof { sets: sets.tables(&proof.sets), relations: relations.tables(&proof.relations), root }
}

/// How often each set and each relation is mentioned.
fn mentions(proof: &Proof) -> (Vec<usize>, Vec<usize>) {
    let (mut sets, mut relations) = (vec![0; proof.sets.len()], vec![0; proof.relations.len()]);
    with_numbers(&proof.root, &mut |sort, old| {
        match sort {
            Sort::Set => sets[old] += 1,
            Sort::Relation => relations[old] += 1,
        }
        old
    });
    (sets, relations)
}

/// How many rows are compared until it is known that a copy is one of this relation: with each of
/// those before it up to the first row that differs, and then all rows.
fn rows(relations: &[Relation], number: usize) -> usize {
    let own = relations[number].rows();
    let alike = |other: &Relation| {
        let pairs = other.rows().iter().zip(own);
        pairs.take_while(|(row, own)| row == own).count()
    };
    relations[..number].iter().map(|other| alike(other) + 1).sum::<usize>() + own.len()
}

/// The old number of the table in each new place, and how often each old one was mentioned so far.
struct Copies {
    places: Vec<usize>,
    turns: Vec<usize>,
}

impl Copies {
    /// Copies the table of the greatest cost among those with a mention for each copy.
    fn new(mentions: Vec<usize>, cost: impl Fn(usize) -> usize) -> Copies {
        let more = MOST_TABLES - mentions.len();
        let copied = (0..mentions.len())
            .filter(|number| mentions[*number] > more)
            .max_by_key(|number| cost(*number))
            .expect("some table has many mentions");
        let places = (0..mentions.len()).rev().chain(vec![copied; more]).collect();
        Copies { places, turns: vec![0; mentions.len()] }
    }

    /// The place for the next mention of an old number.
    fn next(&mut self, old: usize) -> usize {
        let places = self.places.iter().enumerate().filter(|(_, number)| **number == old);
        let places: Vec<usize> = places.map(|(place, _)| place).collect();
        self.turns[old] += 1;
        places[self.turns[old] % places.len()]
    }

    fn tables<T: Clone>(&self, old: &[T]) -> Vec<T> {
        self.places.iter().map(|number| old[*number].clone()).collect()
    }
}

#[cfg(test)]
mod tests {
    use super::*;
    use generate::longest;
    use generate::renumber::agree;

    /// Of two relations that are alike up to the last row, the second one is copied.
    #[test]
    fn the_costliest_table_is_copied() {
        let mut proof = longest::form();
        proof.sets.truncate(1);
        proof.relations.truncate(2);
        proof.root = with_numbers(&proof.root, &mut |sort, old| match sort {
            Sort::Set => 0,
            Sort::Relation => usize::from(old > 0),
        });
        let worst = numbered_worst(&proof);
        assert!(agree(&worst, &proof));
        assert_eq!((worst.sets.len(), worst.relations.len()), (16, 16));
        assert_eq!(
            worst.relations.iter().filter(|table| **table == proof.relations[1]).count(),
            15
        );
        assert!(mentions(&worst).1.iter().all(|times| *times > 0));
    }

    #[test]
    fn rows_until_they_differ() {
        let form = longest::form();
        assert_eq!(rows(&form.relations, 0), 64);
        assert_eq!(rows(&form.relations, 2), 64 + 64 + 64);
    }
}
