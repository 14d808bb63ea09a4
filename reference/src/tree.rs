//! Trees in preorder, and their judgement.

use crate::frames::Node;
use crate::refusal::Refusal;
use crate::table::Table;

/// The most nodes that a tree may have.
pub const NODES: usize = 512;

/// Judges nodes that should be one subtree of this symbol, in preorder: at each node its
/// production number first, then its place and symbol, and missing nodes at the end.
pub fn judge(table: &Table, symbol: u8, nodes: &[Node]) -> Result<(), Refusal> {
    // What is still to come, the next symbol on top. A stack, since a tree may be as deep as it
    // has nodes.
    let mut wanted = Vec::with_capacity(nodes.len());
    wanted.push(symbol);
    for node in nodes {
        let production = table.production(node.production).ok_or(Refusal::UnknownProduction)?;
        if wanted.pop() != Some(production.left) {
            return Err(Refusal::WrongShape);
        }
        wanted.extend(production.children.iter().rev());
    }
    if wanted.is_empty() {
        Ok(())
    } else {
        Err(Refusal::WrongShape)
    }
}
