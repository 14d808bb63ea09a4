//! Waivers: op 9 in a table, and the generator's own idea of which trees it allows.

use std::mem;

use crate::chance::Chance;
use crate::growth::{end_of, grow, Node};
use crate::rules::{Equation, Occurrence, Production, Rules, PRODUCTIONS};

/// A production and one of its equations, by their numbers.
type Rule = (usize, usize);

/// Which trees of a table have no waiver inside a circle.
#[derive(Clone, Copy, PartialEq, Eq)]
pub enum Allowed {
    /// Nearly all.
    Most,
    /// Nearly all whose leaves read nothing. Another leaf in the place of such a one may close a
    /// circle through a waiver far away.
    Broken,
    /// A smallest one, so that there is something to correct.
    Smallest,
}

/// Turns some equations of two arguments into waivers. Then trees are drawn that are to be
/// allowed, and what they have inside a circle becomes a join again.
pub fn add(chance: &mut Chance, rules: &mut Rules, allowed: Allowed) {
    let leaves = if allowed == Allowed::Broken { break_leaves(rules) } else { Vec::new() };
    for equation in rules.productions.iter_mut().flat_map(|production| &mut production.equations) {
        match equation.op {
            4..=7 if chance.one_in(3) => (equation.op, equation.c) = (9, 0),
            // An argument counts, whatever the constant lets through of it.
            3 | 6 if chance.one_in(3) => equation.c = 0,
            _ => {}
        }
    }
    let trees = if allowed == Allowed::Smallest { 0 } else { 60 };
    for _ in 0..trees {
        let target = chance.between(2, 24);
        join_inside(chance, rules, target);
    }
    // Behind the broken leaves, since the smallest trees take the first that there are.
    let room = PRODUCTIONS - rules.productions.len();
    rules.productions.extend(leaves.into_iter().take(room));
    while join_inside(chance, rules, 1) {}
}

/// Makes all leaves read nothing; answers what they were.
fn break_leaves(rules: &mut Rules) -> Vec<Production> {
    let own = Equation { op: 1, a: (0, 0), b: (0, 0), c: 0 };
    let mut leaves = Vec::new();
    for leaf in rules.productions.iter_mut().filter(|leaf| leaf.children.is_empty()) {
        leaves.push(leaf.clone());
        leaf.equations.fill(own.clone());
    }
    leaves
}

/// Draws a tree, and turns a waiver that it has inside a circle into a join; answers whether
/// there was one.
fn join_inside(chance: &mut Chance, rules: &mut Rules, target: usize) -> bool {
    let found = grow(chance, rules, 0, target).and_then(|nodes| inside(rules, &nodes));
    if let Some((production, equation)) = found {
        rules.productions[production].equations[equation].op = 4;
    }
    found.is_some()
}

/// A waiver of a sound tree whose b leads back to it.
pub fn inside(rules: &Rules, nodes: &[Node]) -> Option<Rule> {
    let mut reads: Vec<Vec<usize>> = vec![Vec::new(); 8 * nodes.len()];
    let mut waivers: Vec<(usize, usize, Rule)> = Vec::new();
    for (at, node) in nodes.iter().enumerate() {
        let number = usize::from(node.production);
        let places = places(rules, nodes, at);
        let instance =
            |(position, index): Occurrence| 8 * places[usize::from(position)] + usize::from(index);
        let production = &rules.productions[number];
        let targets = rules.targets(production).into_iter().map(instance);
        for (which, (target, equation)) in targets.zip(&production.equations).enumerate() {
            reads[target].extend(equation.arguments().map(instance));
            if equation.op == 9 {
                waivers.push((target, instance(equation.b), (number, which)));
            }
        }
    }
    let found = waivers.into_iter().find(|&(target, b, _)| reaches(&reads, b, target));
    found.map(|(_, _, rule)| rule)
}

/// A node of a sound tree and its children, by position.
fn places(rules: &Rules, nodes: &[Node], at: usize) -> Vec<usize> {
    let mut places = vec![at];
    let mut next = at + 1;
    for _ in &rules.productions[usize::from(nodes[at].production)].children {
        places.push(next);
        next = end_of(rules, nodes, next);
    }
    places
}

/// Whether a set is another, or reads it, be it through others.
fn reaches(reads: &[Vec<usize>], from: usize, to: usize) -> bool {
    let mut seen = vec![false; reads.len()];
    let mut pending = vec![from];
    while let Some(at) = pending.pop() {
        if at == to {
            return true;
        }
        if !mem::replace(&mut seen[at], true) {
            pending.extend(&reads[at]);
        }
    }
    false
}
