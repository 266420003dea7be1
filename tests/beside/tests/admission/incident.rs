//! The worked example of docs/ADMISSION.md: three samples that fit into a frame by the steps that
//! they take on average, and not by their step numbers. The section of the page has what is
//! measured here, so the seed is fixed.

use super::{bare, record_of};
use beside::admitted::{refused, Admission, Guest};
use beside::{judge, judge_admit, line, page};
use generate::damage::Files;
use generate::explore::{explore_files, Exploration};
use generate::random::Random;
use generate::steps::turn;
use reference::language::{Handler, Statement};
use reference::states::{Relation, StateSet};
use reference::{handler_file, proof_file, Verdict};

const HEADING: &str = "## Three guests that did not fit\n";
const FRAME: u32 = 1_000;
const NAMES: [&str; 3] = ["countdown", "consumer", "counters"];
const TICKS: [u32; 3] = [30, 1, 4];
const RUNS: u32 = 10_000;
const SEED: u64 = 0x0103;
/// More than the samples have.
const MOST_MOMENTS: usize = 10_000;

/// An accepted pair of examples/, with what its runs depend on.
struct Sample {
    name: &'static str,
    files: Files,
    handler: Handler,
    p: StateSet,
    r: Relation,
    steps: u32,
}

impl Sample {
    fn read(name: &'static str) -> Sample {
        let file = |file| {
            let path = format!("{}/../../examples/{name}/{file}", env!("CARGO_MANIFEST_DIR"));
            std::fs::read(&path).unwrap_or_else(|why| panic!("{path}: {why}"))
        };
        let files = (file("handler.bin"), file("proof.bin"));
        let Verdict::Accepted(steps) = judge(&files.0, &files.1) else { panic!("{name}") };
        let handler = handler_file::read(&files.0).expect("it was accepted");
        let proof = proof_file::read(&files.1, handler.space.states()).expect("it was accepted");
        let (p, r) = (proof.sets[proof.root.p], proof.relations[proof.root.r].clone());
        Sample { name, files, handler, p, r, steps }
    }

    /// The steps of one run from P to the end of the handler, with every choice uniform. Before
    /// about half of its steps others make a change of R, if there is one.
    fn run(&self, random: &mut Random) -> u32 {
        let mut state = some(random, self.p).expect("P has a state");
        let mut remaining = self.handler.statement.clone();
        let mut steps = 0;
        while remaining != Statement::Nil {
            if random.chance(50) {
                state = some(random, self.r.row(state)).unwrap_or(state);
            }
            let mut open = turn(&self.handler.space, &remaining, state).open;
            let chosen = random.below(open.len());
            (remaining, state) = open.swap_remove(chosen);
            steps += 1;
        }
        steps
    }

    /// The most steps that there are in any run.
    fn longest(&self) -> u32 {
        match explore_files(&self.files.0, &self.files.1, MOST_MOMENTS) {
            Some(Exploration::Holds { longest, .. }) => longest,
            other => panic!("{}: {other:?}", self.name),
        }
    }

    fn admit(&self, record: &mut [u32], place: u32, ticks: u32) -> Admission {
        judge_admit(record, Guest { place, files: (&self.files.0, &self.files.1), ticks })
    }
}

/// A member of a set, if it has one.
fn some(random: &mut Random, set: StateSet) -> Option<usize> {
    let members: Vec<usize> = set.members().collect();
    (!members.is_empty()).then(|| *random.pick(&members))
}

fn samples() -> [Sample; 3] {
    NAMES.map(Sample::read)
}

/// The ticks of so many steps of each guest.
fn in_ticks(steps: [u32; 3]) -> [u32; 3] {
    [0, 1, 2].map(|guest| steps[guest] * TICKS[guest])
}

/// What is seen in frames with one run of each guest.
struct Seen {
    /// Over all runs, rounded up.
    means: [u32; 3],
    most: [u32; 3],
    /// The frames that are too short for the three runs.
    lost: u32,
}

fn watched(samples: &[Sample; 3]) -> Seen {
    let mut random = Random::new(SEED);
    let (mut sums, mut most, mut lost) = ([0; 3], [0; 3], 0);
    for _ in 0..RUNS {
        let steps = samples.each_ref().map(|sample| sample.run(&mut random));
        for guest in 0..3 {
            sums[guest] += steps[guest];
            most[guest] = most[guest].max(steps[guest]);
        }
        lost += u32::from(in_ticks(steps).iter().sum::<u32>() > FRAME);
    }
    Seen { means: sums.map(|sum| sum.div_ceil(RUNS)), most, lost }
}

/// The section of the example.
fn section() -> String {
    let page = page("ADMISSION.md");
    let (_, rest) = page.split_once(HEADING).expect(HEADING);
    rest.split("\n## ").next().expect("there is a first part").to_string()
}

/// The rows of the section's table.
fn rows() -> Vec<String> {
    section().lines().filter(|line| line.starts_with('|')).skip(2).map(String::from).collect()
}

/// Panics where the section does not say so. Ends of lines and commas do not count.
fn says(what: &str) {
    let words: Vec<String> = section().split_whitespace().map(|w| w.replace(',', "")).collect();
    assert!(words.join(" ").contains(&what.replace(',', "")), "the section does not say: {what}");
}

#[test]
fn averages_fit_and_worst_cases_do_not() {
    let samples = samples();
    let Seen { means, most, lost } = watched(&samples);
    let (steps, longest) =
        (samples.each_ref().map(|s| s.steps), samples.each_ref().map(|s| s.longest()));
    for guest in 0..3 {
        let ordered = [means[guest], most[guest], longest[guest], steps[guest]];
        assert!(ordered.is_sorted(), "{}: {ordered:?}", NAMES[guest]);
    }
    let (needs, shares) = (in_ticks(steps), in_ticks(means));
    let row = |i: usize| {
        let cells = [steps[i], TICKS[i], needs[i], means[i], shares[i]].map(|n| n.to_string());
        format!("| {} | {} |", NAMES[i], cells.join(" | "))
    };
    assert_eq!(rows(), [0, 1, 2].map(row));
    let [need, share, at_longest] =
        [needs, shares, in_ticks(longest)].map(|ticks| ticks.iter().sum::<u32>());
    assert!(share <= FRAME && at_longest > FRAME && need > FRAME, "{share} {at_longest} {need}");
    assert!(lost > 0);
    says(&format!("they take {share} of {FRAME} ticks"));
    says(&format!("they need {need} ticks"));
    says(&format!("on the core, {lost} of {RUNS} frames"));
    let of_three = |[a, b, c]: [u32; 3]| format!("{a}, {b} and {c} steps");
    says(&format!("at most {}", of_three(most)));
    says(&format!("{}, which is {at_longest} ticks", of_three(longest)));
}

/// The lines of `handover admit`.
#[test]
fn the_third_is_refused() {
    let samples = samples();
    let mut record = bare(FRAME);
    let mut lines = Vec::new();
    for (place, (sample, ticks)) in (0..).zip(samples.iter().zip(TICKS)) {
        let admission = sample.admit(&mut record, place, ticks);
        assert_eq!(admission, if place < 2 { Ok(()) } else { refused(103) });
        lines.push(match admission {
            Ok(()) => {
                let [first, length] = [3, 4].map(|number| record[3 * place as usize + number]);
                format!("place {place} first {first} length {length}")
            }
            Err(verdict) => format!("place {place} {}", line(verdict)),
        });
    }
    let [first, second, _] = in_ticks(samples.each_ref().map(|sample| sample.steps));
    assert_eq!(record, record_of(FRAME, &[(0, first), (1, second)]));
    lines.push(format!("left over {}", FRAME - first - second));
    says(&lines.join(" "));
}

/// A longer frame, fewer ticks per step, and one guest less.
#[test]
fn mended() {
    let samples = samples();
    let left_over = |frame: u32, guests: &[(usize, u32)]| {
        let mut record = bare(frame);
        for (guest, ticks) in guests {
            assert_eq!(samples[*guest].admit(&mut record, *guest as u32, *ticks), Ok(()));
        }
        frame - record[2..].chunks(3).map(|slot| slot[2]).sum::<u32>()
    };
    let [a, b, c] = TICKS;
    let longer = left_over(2 * FRAME, &[(0, a), (1, b), (2, c)]);
    says(&format!(
        "a frame of {} ticks all three are admitted, and {longer} are left over",
        2 * FRAME
    ));
    let fewer = left_over(FRAME, &[(0, 20), (1, 1), (2, 1)]);
    says(&format!(
        "At 20, 1 and 1 ticks per step all three are admitted, and {fewer} are left over"
    ));
    left_over(FRAME, &[(0, a), (1, b)]);
    let alone = left_over(FRAME, &[(2, c)]);
    says(&format!("on another core, {alone} ticks of such a frame are left over there"));
}
