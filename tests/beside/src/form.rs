//! The one form of a proof file, by every checker of the build.

use crate::{at_bit, checkers, in_full, lawful, lent, Checker, Written};
use reference::canonical::ROOM_TOO_SHORT;
use reference::Verdict;

/// The file that was written, or why it was not.
pub type Form = Result<Vec<u8>, Verdict>;

/// The form of a proof file by every checker, in a room of its length, in longer ones, in one that
/// is a byte short and in none. Panics as `judge_canonical` does. The reference, whose rooms are
/// not in doubt, is asked once.
pub fn judge_form(handler: &[u8], proof: &[u8]) -> Form {
    let form = reference::canonical(handler, proof, usize::MAX).map_err(Verdict::from);
    let rooms = match &form {
        Ok(bytes) => vec![bytes.len(), bytes.len() - 1, 0, bytes.len() + 1, proof.len() + 9],
        Err(_) => vec![0, proof.len()],
    };
    for room in rooms {
        judge_in_room(&checkers()[1..], handler, proof, &form, room);
    }
    form
}

/// The form of a proof file by every checker in a room of so many bytes. Panics where one differs
/// from the reference in the answer or in any byte, or where it breaks what holds of every call.
pub fn judge_canonical(handler: &[u8], proof: &[u8], room: usize) -> Form {
    let form = reference::canonical(handler, proof, usize::MAX).map_err(Verdict::from);
    judge_in_room(&checkers(), handler, proof, &form, room);
    in_room(&form, room)
}

/// What is to be expected in a room of so many bytes.
fn in_room(form: &Form, room: usize) -> Form {
    match form {
        Ok(bytes) if bytes.len() > room => Err(at_bit(ROOM_TOO_SHORT, 0)),
        _ => form.clone(),
    }
}

fn judge_in_room(
    checkers: &[Box<dyn Checker>],
    handler: &[u8],
    proof: &[u8],
    form: &Form,
    room: usize,
) {
    let before = marked(form.as_deref().unwrap_or(&[]), room);
    let expected = in_room(form, room);
    for checker in checkers {
        let call = |handler: &[u8], proof: &[u8]| in_memory(&**checker, handler, proof, &before);
        let Some((written, after)) = lent(handler, proof, call) else { continue };
        let files = || in_full(&format!("{}, room {room}", checker.name()), handler, proof);
        if let Err(why) = lawful::writing((handler, proof), &before, written, &after) {
            panic!("{why}: {written:?} {}", files());
        }
        let found = written.map(|length| after[..length].to_vec());
        assert_eq!(found, expected, "{}", files());
    }
}

/// The bytes around the room that is lent.
pub(crate) const MARGIN: [u8; 32] = [0x5C; 32];

/// The answer of a checker and the bytes of its room after it. Those next to the room must not
/// change.
fn in_memory(
    checker: &dyn Checker,
    handler: &[u8],
    proof: &[u8],
    before: &[u8],
) -> Option<(Written, Vec<u8>)> {
    let mut memory = [&MARGIN, before, &MARGIN].concat();
    let (start, end) = (MARGIN.len(), MARGIN.len() + before.len());
    let written = checker.canonical(handler, proof, &mut memory[start..end])?;
    let kept = memory[..start] == MARGIN && memory[end..] == MARGIN;
    assert!(kept, "{}", in_full("bytes next to the room have changed", handler, proof));
    Some((written, memory[start..end].to_vec()))
}

/// What the room holds before a call. No byte is what the form has there, so that each byte of it
/// that is written shows.
pub(crate) fn marked(form: &[u8], room: usize) -> Vec<u8> {
    let mark = |index: usize| (index as u8).wrapping_mul(37) ^ 0xA7;
    (0..room).map(|index| form.get(index).map_or(mark(index), |byte| !byte)).collect()
}
