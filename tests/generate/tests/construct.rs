//! The constructed faults and step numbers, against the checker.

use generate::construct::{fault, NUMBERS};
use generate::pairs::{accepted, Scale};
use generate::programs::{of_steps, test_of, value_of};
use generate::random::Random;
use generate::vacuous;
use reference::step_number;
use reference::{check, Verdict, TABLE_WORDS};

/// Every fault that the construction knows gets the verdict that it was made for.
#[test]
fn constructed_faults_get_their_verdict() {
    let mut random = Random::new(0x0C0);
    let mut work = vec![0; TABLE_WORDS];
    for number in NUMBERS {
        let mut made = 0;
        while made < 60 {
            let pair = accepted(&mut random, Scale::FULL);
            let Some(case) = fault(&mut random, &pair, number) else { continue };
            let verdict = check(&case.handler, &case.proof, &mut work);
            assert_eq!(verdict, case.verdict, "{:02X?}\n{:02X?}", case.handler, case.proof);
            made += 1;
        }
    }
}

/// E is what the makers of expressions were asked for.
#[test]
fn expressions_of_a_wanted_e() {
    for e in 0..=31u32 {
        for made in [value_of(u64::from(e)), test_of(u64::from(e))] {
            assert_eq!(made.occurrences(&|_| true) + made.operations(), e);
        }
    }
}

/// The maker of step numbers and the formula agree, at the limit too.
#[test]
fn step_numbers_at_the_limit() {
    let limit = u64::from(u32::MAX);
    for steps in (0..5000).chain(limit - 200..=limit) {
        assert_eq!(step_number::of(&of_steps(steps), 64), u128::from(steps));
    }
    let mut work = vec![0; TABLE_WORDS];
    let pair = vacuous::pair(&[8, 8], of_steps(limit));
    let verdict = check(&pair.handler_file.bytes, &pair.proof_file.bytes, &mut work);
    assert_eq!(verdict, Verdict::Accepted(u32::MAX));
}
