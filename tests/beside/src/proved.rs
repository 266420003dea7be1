//! The proved checker, over its C interface.

use crate::admitted::{Admission, Guest};
use crate::composed::{Files, Lent};
use crate::{answer, Checker, Written};
use reference::Verdict;

extern "C" {
    fn handover_check(
        handler: *const u8,
        handler_len: usize,
        proof: *const u8,
        proof_len: usize,
        work: *mut u64,
        work_len: usize,
    ) -> u64;

    fn handover_states(
        handler: *const u8,
        handler_len: usize,
        proof: *const u8,
        proof_len: usize,
        work: *mut u64,
        work_len: usize,
    ) -> u64;

    fn handover_root(
        handler: *const u8,
        handler_len: usize,
        proof: *const u8,
        proof_len: usize,
    ) -> u64;

    fn handover_view(
        handler: *const u8,
        handler_len: usize,
        proof: *const u8,
        proof_len: usize,
        number: u32,
        kind: u32,
        place: u64,
    ) -> u64;

    fn handover_canonical(
        handler: *const u8,
        handler_len: usize,
        proof: *const u8,
        proof_len: usize,
        out: *mut u8,
        out_len: usize,
    ) -> u64;

    fn handover_compose(
        first_handler: *const u8,
        first_handler_len: usize,
        first_proof: *const u8,
        first_proof_len: usize,
        second_handler: *const u8,
        second_handler_len: usize,
        second_proof: *const u8,
        second_proof_len: usize,
        work: *mut u64,
        work_len: usize,
        handler_out: *mut u8,
        handler_out_len: usize,
        proof_out: *mut u8,
        proof_out_len: usize,
    ) -> u64;

    fn handover_admit(
        record: *mut u32,
        record_len: usize,
        place: u32,
        handler: *const u8,
        handler_len: usize,
        proof: *const u8,
        proof_len: usize,
        ticks: u32,
        work: *mut u64,
        work_len: usize,
    ) -> u64;

    fn handover_release(record: *mut u32, record_len: usize, place: u32) -> u64;
}

#[cfg(feature = "former")]
extern "C" {
    fn former_check(
        handler: *const u8,
        handler_len: usize,
        proof: *const u8,
        proof_len: usize,
        work: *mut u64,
        work_len: usize,
    ) -> u64;
}

/// A function of a library that takes two files and a buffer, of words or of bytes.
type Call<T> = unsafe extern "C" fn(*const u8, usize, *const u8, usize, *mut T, usize) -> u64;

/// A function that admits a guest.
type Admit = fn(&mut [u32], Guest, &mut [u64]) -> u64;

/// A library that is linked, by its functions; that of an earlier checkout may lack some.
pub struct Proved {
    name: &'static str,
    check: Call<u64>,
    states: Option<Call<u64>>,
    canonical: Option<Call<u8>>,
    compose: Option<fn([Files; 2], &mut Lent) -> u64>,
    admit: Option<Admit>,
    release: Option<fn(&mut [u32], u32) -> u64>,
}

/// The library of this checkout.
pub const PROVED: Proved = Proved {
    name: "proved",
    check: handover_check,
    states: Some(handover_states),
    canonical: Some(handover_canonical),
    compose: Some(compose),
    admit: Some(admit),
    release: Some(release),
};

/// The library of an earlier checkout, which `tools/former` puts beside this one's.
#[cfg(feature = "former")]
pub const FORMER: Proved = Proved {
    name: "former",
    check: former_check,
    states: None,
    canonical: None,
    compose: None,
    admit: None,
    release: None,
};

impl Checker for Proved {
    fn name(&self) -> &'static str {
        self.name
    }

    fn check(&self, handler: &[u8], proof: &[u8], work: &mut [u64]) -> Verdict {
        answer::verdict(call(self.check, handler, proof, work))
    }

    fn states(&self, handler: &[u8], proof: &[u8], work: &mut [u64]) -> Option<u64> {
        self.states.map(|function| call(function, handler, proof, work))
    }

    fn canonical(&self, handler: &[u8], proof: &[u8], out: &mut [u8]) -> Option<Written> {
        self.canonical.map(|function| answer::written(call(function, handler, proof, out)))
    }

    fn compose(&self, pairs: [Files; 2], lent: &mut Lent) -> Option<u64> {
        self.compose.map(|function| function(pairs, lent))
    }

    fn admit(&self, record: &mut [u32], guest: Guest, work: &mut [u64]) -> Option<Admission> {
        self.admit.map(|function| answer::admission(function(record, guest, work)))
    }

    fn release(&self, record: &mut [u32], place: u32) -> Option<Admission> {
        self.release.map(|function| answer::admission(function(record, place)))
    }
}

fn call<T>(function: Call<T>, handler: &[u8], proof: &[u8], buffer: &mut [T]) -> u64 {
    // SAFETY: each pointer comes from a slice with the length beside it, and is not null even
    // where the slice is empty; only `buffer` is written, and nothing else holds it.
    unsafe {
        function(
            handler.as_ptr(),
            handler.len(),
            proof.as_ptr(),
            proof.len(),
            buffer.as_mut_ptr(),
            buffer.len(),
        )
    }
}

/// The composition of two pairs, by the library of this checkout.
fn compose([(h1, p1), (h2, p2)]: [Files; 2], lent: &mut Lent) -> u64 {
    // SAFETY: as above; only the three buffers are written, and nothing else holds them.
    unsafe {
        handover_compose(
            h1.as_ptr(),
            h1.len(),
            p1.as_ptr(),
            p1.len(),
            h2.as_ptr(),
            h2.len(),
            p2.as_ptr(),
            p2.len(),
            lent.work.as_mut_ptr(),
            lent.work.len(),
            lent.handler.as_mut_ptr(),
            lent.handler.len(),
            lent.proof.as_mut_ptr(),
            lent.proof.len(),
        )
    }
}

/// The admission of a guest, by the library of this checkout.
fn admit(record: &mut [u32], guest: Guest, work: &mut [u64]) -> u64 {
    let Guest { place, files: (handler, proof), ticks } = guest;
    // SAFETY: as above; only the record and the words are written, and nothing else holds them.
    unsafe {
        handover_admit(
            record.as_mut_ptr(),
            record.len(),
            place,
            handler.as_ptr(),
            handler.len(),
            proof.as_ptr(),
            proof.len(),
            ticks,
            work.as_mut_ptr(),
            work.len(),
        )
    }
}

/// The release of the guest of a place, by the library of this checkout.
fn release(record: &mut [u32], place: u32) -> u64 {
    // SAFETY: as above; only the record is written.
    unsafe { handover_release(record.as_mut_ptr(), record.len(), place) }
}

/// N and the numbers of the root's tables, by the library of this checkout.
pub fn root(handler: &[u8], proof: &[u8]) -> u64 {
    // SAFETY: as above, and nothing is written.
    unsafe { handover_root(handler.as_ptr(), handler.len(), proof.as_ptr(), proof.len()) }
}

/// The file and the byte that a number and a place lead to, by the library of this checkout.
pub fn view(handler: &[u8], proof: &[u8], number: u32, kind: u32, place: u64) -> u64 {
    let (handler, handler_len) = (handler.as_ptr(), handler.len());
    let (proof, proof_len) = (proof.as_ptr(), proof.len());
    // SAFETY: as above, and nothing is written.
    unsafe { handover_view(handler, handler_len, proof, proof_len, number, kind, place) }
}
