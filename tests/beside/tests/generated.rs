//! Generated pairs, damaged files and constructed faults, counted by number. Each comparison is of
//! the verdict, the work words, the states and, for a refusal, the view of its number and place.
//!
//! `HANDOVER_COMPARISONS` asks for more than the default, `HANDOVER_SEED` for others.

use beside::lawful::{states_named, NUMBERS};
use beside::{at_bit, judge_states, judge_view_of, judge_with, number, setting, Judgement};
use generate::construct::{self, Constructed};
use generate::damage::damaged;
use generate::pairs::{accepted, Pair, Scale};
use generate::random::Random;
use generate::wraps::in_tables;
use reference::{former, Place, Verdict, LONGEST_FILE, TABLE_WORDS};
use std::collections::{BTreeMap, BTreeSet};

const LEAST_EACH: usize = 50;

/// The answers that request A6 changed, from the former number to the present one.
const CHANGED: [(u32, u32); 10] = [
    (31, 41),
    (31, 45),
    (32, 41),
    (32, 45),
    (33, 41),
    (33, 45),
    (34, 45),
    (36, 45),
    (37, 45),
    (38, 45),
];

/// How often each number occurred, 0 being acceptance, and the states that came with it.
#[derive(Default)]
struct Tally {
    counts: BTreeMap<u32, usize>,
    states: BTreeMap<u32, Vec<u64>>,
    /// Accepted pairs with a store that wraps.
    wrap_up: usize,
    wrap_down: usize,
    /// Refusals that had another number before request A6, by that number and the present one.
    changed: BTreeMap<(u32, u32), usize>,
    total: u64,
}

impl Tally {
    /// Compares the checkers on two files.
    fn compare(&mut self, handler: &[u8], proof: &[u8]) -> Verdict {
        self.count(handler, proof, judge_states(handler, proof))
    }

    fn count(&mut self, handler: &[u8], proof: &[u8], judgement: Judgement) -> Verdict {
        let Judgement { verdict, states } = judgement;
        judge_view_of(handler, proof, verdict);
        *self.counts.entry(number(verdict)).or_default() += 1;
        if states != 0 {
            self.states.entry(number(verdict)).or_default().push(states);
        }
        self.count_changed(handler, proof, verdict);
        self.total += 1;
        verdict
    }

    fn count_changed(&mut self, handler: &[u8], proof: &[u8], verdict: Verdict) {
        let Verdict::Refused { number: number @ (41 | 45), place: Place::Node(node) } = verdict
        else {
            return;
        };
        if let Some(former) = former::answer(handler, proof, node) {
            *self.changed.entry((former, number)).or_default() += 1;
        }
    }

    fn of(&self, number: u32) -> usize {
        self.counts.get(&number).copied().unwrap_or(0)
    }

    /// How often the states of this number were compared.
    fn with_states(&self, number: u32) -> usize {
        self.states.get(&number).map_or(0, Vec::len)
    }

    /// How many different states came with this number.
    fn different_states(&self, number: u32) -> usize {
        self.states.get(&number).map_or(0, |states| states.iter().collect::<BTreeSet<_>>().len())
    }

    fn print(&self) {
        println!("{} comparisons, accepted {}", self.total, self.of(0));
        println!("accepted as generated, and wrap: up {}, down {}", self.wrap_up, self.wrap_down);
        print_rows(&NUMBERS, |number| self.of(number).to_string());
        println!("changed by A6, former number to present one: {:?}", self.changed);
        println!("states compared, and how many different ones:");
        print_rows(&with_states(), |number| {
            format!("{} {}", self.with_states(number), self.different_states(number))
        });
    }
}

fn print_rows(numbers: &[u32], cell: impl Fn(u32) -> String) {
    for row in numbers.chunks(7) {
        let cells: Vec<String> =
            row.iter().map(|number| format!("{number:>3}: {:<12}", cell(*number))).collect();
        println!("{}", cells.join(" "));
    }
}

/// The numbers that name states.
fn with_states() -> Vec<u32> {
    NUMBERS.into_iter().filter(|number| states_named(*number) > 0).collect()
}

/// Fails where one of the numbers occurred less often than it must.
fn often_enough(what: &str, numbers: &[u32], times: impl Fn(u32) -> usize) {
    let rare: Vec<u32> =
        numbers.iter().copied().filter(|number| times(*number) < LEAST_EACH).collect();
    assert!(rare.is_empty(), "less than {LEAST_EACH} {what}: {rare:?}");
}

#[test]
fn generated_files() {
    let wanted = setting("HANDOVER_COMPARISONS", 120_000);
    let mut random = Random::new(setting("HANDOVER_SEED", 0x4A4E_D0FE));
    let mut tally = Tally::default();
    while tally.total < wanted {
        let scale = if random.chance(25) { Scale::SMALL } else { Scale::FULL };
        let pair = accepted(&mut random, scale);
        one_pair(&mut random, &pair, &mut tally);
    }
    tally.print();
    often_enough("comparisons", &NUMBERS, |number| tally.of(number));
    often_enough("comparisons of states", &with_states(), |number| tally.with_states(number));
    assert!(tally.changed.keys().copied().eq(CHANGED), "other changes: {:?}", tally.changed);
    assert!(tally.changed.values().all(|times| *times >= LEAST_EACH), "{:?}", tally.changed);
    assert!(tally.wrap_up.min(tally.wrap_down) >= LEAST_EACH, "too few pairs wrap");
}

/// The pair itself, versions with damage, and one fault whose verdict is known.
fn one_pair(random: &mut Random, pair: &Pair, tally: &mut Tally) {
    let verdict = tally.compare(&pair.handler_file.bytes, &pair.proof_file.bytes);
    assert!(matches!(verdict, Verdict::Accepted(_)), "{verdict:?} of {:?}", pair.handler);
    let wraps = in_tables(&pair.handler.space, &pair.derivation, &pair.handler.statement);
    tally.wrap_up += usize::from(wraps.up);
    tally.wrap_down += usize::from(wraps.down);
    for _ in 0..30 {
        let (handler, proof) = damaged(random, pair);
        tally.compare(&handler, &proof);
    }
    let number = *random.pick(&construct::NUMBERS);
    if let Some(Constructed { handler, proof, verdict }) = construct::fault(random, pair, number) {
        assert_eq!(tally.compare(&handler, &proof), verdict, "{handler:02X?} {proof:02X?}");
    }
    if random.chance(10) {
        host_fault(random, pair, tally);
    }
}

/// Too few words or too long a file; 1 goes before 2.
fn host_fault(random: &mut Random, pair: &Pair, tally: &mut Tally) {
    let mut files = [pair.handler_file.bytes.clone(), pair.proof_file.bytes.clone()];
    let short = random.chance(50);
    if !short || random.chance(30) {
        let longer = LONGEST_FILE + random.between(1, 9);
        files[random.below(2)].resize(longer, 0);
    }
    let words = if short { random.below(TABLE_WORDS) } else { TABLE_WORDS + random.below(3) };
    let judgement = judge_with(&files[0], &files[1], words);
    let number = if short { 1 } else { 2 };
    assert_eq!(tally.count(&files[0], &files[1], judgement), at_bit(number, 0));
}
