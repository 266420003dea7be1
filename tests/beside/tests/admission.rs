//! Admission to the frame of a core: by hand, which refusal goes first, records that are none,
//! generated calls, and the worked example of docs/ADMISSION.md.

#[path = "admission/by_hand.rs"]
mod by_hand;
#[path = "admission/generated.rs"]
mod generated;
#[path = "admission/history.rs"]
mod history;
#[path = "admission/ill_formed.rs"]
mod ill_formed;
#[path = "admission/incident.rs"]
mod incident;
#[path = "admission/order.rs"]
mod order;
#[path = "admission/pool.rs"]
mod pool;
#[path = "admission/records.rs"]
mod records;
#[path = "admission/tally.rs"]
mod tally;

use beside::admitted::{Admission, Guest};
use beside::{judge_admit, HANDLER, PROOF};
use generate::damage::Files;
use generate::{programs, vacuous};
use reference::admission::RECORD_NUMBERS;

type Record = [u32; RECORD_NUMBERS];

/// A frame of so many ticks with these guests, each a place and a need, in order of admission.
fn record_of(frame: u32, guests: &[(u32, u32)]) -> Record {
    let mut record = [0; RECORD_NUMBERS];
    (record[0], record[1]) = (frame, guests.len() as u32);
    let mut first = 0;
    for (index, (place, need)) in guests.iter().enumerate() {
        record[2 + 3 * index..][..3].copy_from_slice(&[*place, first, *need]);
        first += need;
    }
    record
}

/// A frame without guests.
fn bare(frame: u32) -> Record {
    record_of(frame, &[])
}

/// An accepted pair with this step number.
fn of_steps(steps: u32) -> Files {
    let pair = vacuous::pair(&[8, 8], programs::of_steps(u64::from(steps)));
    (pair.handler_file.bytes, pair.proof_file.bytes)
}

/// Admits the pair of the worked example: it makes one step, so that its need is the ticks.
fn admit_one(record: &mut [u32], place: u32, ticks: u32) -> Admission {
    judge_admit(record, Guest { place, files: (&HANDLER, &PROOF), ticks })
}

/// Admits a pair with this step number.
fn admit_steps(record: &mut [u32], place: u32, steps: u32, ticks: u32) -> Admission {
    let (handler, proof) = of_steps(steps);
    judge_admit(record, Guest { place, files: (&handler, &proof), ticks })
}
