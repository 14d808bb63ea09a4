//! Random trees of a table, and the generator's own idea of which are sound.

use crate::chance::Chance;
use crate::rules::{Production, Rules};

#[derive(Clone, Copy, PartialEq, Eq)]
pub struct Node {
    pub production: u8,
    pub own: u64,
}

/// A tree of this symbol with about `target` nodes: exactly as many where the table has a
/// production to go on with at the end, more only where the symbol has no smaller tree.
pub fn grow(chance: &mut Chance, rules: &Rules, symbol: u8, target: usize) -> Option<Vec<Node>> {
    let mut nodes = Vec::new();
    let mut pending = vec![symbol];
    let mut promised = rules.cheapest[usize::from(symbol)]?;
    while let Some(symbol) = pending.pop() {
        promised -= cost(rules, symbol)?;
        let room = target.saturating_sub(nodes.len() + promised);
        let number = choose(chance, rules, symbol, room, pending.is_empty())?;
        let children = &rules.productions[usize::from(number)].children;
        promised += below(rules, children)?;
        pending.extend(children.iter().rev());
        nodes.push(Node { production: number, own: chance.set() });
    }
    Some(nodes)
}

/// A production of the symbol whose smallest tree fits into the room, or else the cheapest.
/// The last symbol pending goes on as long as there is room.
fn choose(chance: &mut Chance, rules: &Rules, symbol: u8, room: usize, last: bool) -> Option<u8> {
    let of_symbol = |p: &&(u8, &Production)| p.1.left == symbol;
    let all: Vec<(u8, &Production)> = (0..).zip(&rules.productions).collect();
    let mine: Vec<(u8, usize)> = all
        .iter()
        .filter(of_symbol)
        .filter_map(|&(number, p)| Some((number, below(rules, &p.children)? + 1)))
        .collect();
    let fitting: Vec<(u8, usize)> = mine.iter().copied().filter(|p| p.1 <= room).collect();
    let going_on: Vec<(u8, usize)> = fitting.iter().copied().filter(|p| p.1 > 1).collect();
    if fitting.is_empty() {
        return mine.iter().min_by_key(|p| p.1).map(|p| p.0);
    }
    let goes_on = !going_on.is_empty() && (last || !chance.one_in(4));
    Some(chance.pick(if goes_on { &going_on } else { &fitting }).0)
}

fn cost(rules: &Rules, symbol: u8) -> Option<usize> {
    rules.cheapest[usize::from(symbol)]
}

fn below(rules: &Rules, children: &[u8]) -> Option<usize> {
    children.iter().map(|&child| cost(rules, child)).sum()
}

pub fn symbol_of(rules: &Rules, node: Node) -> u8 {
    rules.productions[usize::from(node.production)].left
}

/// Whether the nodes are one tree of this symbol.
pub fn is_sound(rules: &Rules, symbol: u8, nodes: &[Node]) -> bool {
    let mut pending = vec![symbol];
    for node in nodes {
        let Some(production) = rules.productions.get(usize::from(node.production)) else {
            return false;
        };
        if pending.pop() != Some(production.left) {
            return false;
        }
        pending.extend(production.children.iter().rev());
    }
    pending.is_empty()
}

/// One past the last node of the subtree at a node of a sound tree.
pub fn end_of(rules: &Rules, nodes: &[Node], at: usize) -> usize {
    let mut pending = 1;
    let mut end = at;
    while pending > 0 {
        let production = usize::from(nodes[end].production);
        pending = pending - 1 + rules.productions[production].children.len();
        end += 1;
    }
    end
}
