//! The order before request A6, to count the answers that it changed: an assignment asked 41 after
//! 33, and an if 45 after 38.

use crate::conditions::{body_tables, nodes, stable, Outcome, Tables};
use crate::language::{Handler, Statement};
use crate::proof_file::Proof;

/// The number of the condition that was reported before A6 where 41 or 45 is reported at this node;
/// none where it was the same.
pub fn answer(handler: &[u8], proof: &[u8], node: u32) -> Option<u32> {
    let (handler, proof) = crate::read(handler, proof).ok()?;
    asked_before(&handler, &proof, node as usize).err().map(|(number, _)| number)
}

/// The conditions from 31 to 38 of an assignment or an if, of which the first broken one counts.
fn asked_before(handler: &Handler, proof: &Proof, number: usize) -> Outcome {
    let (node, statement) = nodes(handler, proof)[number];
    let own = Tables::of(proof, node);
    stable(&own)?;
    match (statement, node.children.as_slice()) {
        (Statement::If(test, _), [body]) => {
            let holds = handler.space.where_true(test);
            body_tables(&own, &Tables::of(proof, body), own.p.meet(holds), own.q)
        }
        _ => Ok(()),
    }
}
