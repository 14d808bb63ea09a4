//! A session whose one circle climbs for as long as we know how to make it.
//!
//! Reasons travel down the chain of nodes and up again, twice, and then begin anew. On the way
//! they meet gates: gate k opens when reason k passes and sends reason k + 1 along. The gates
//! stand in the wrong order, so that each journey opens one of them: journeys times their
//! length gives the rounds, which pass 65,535 from some 270 nodes on.

use crate::rules::{Equation, Occurrence, Production, Rules, Symbol};
use crate::text::Text;

/// As many as productions are left for.
const GATES: u64 = 61;

/// Sets of a node of the chain: up for the first and second time, its gate, and what that gives.
const UP: Occurrence = (0, 0);
const UP_AGAIN: Occurrence = (0, 1);
const GATE: Occurrence = (0, 2);
const GIVES: Occurrence = (0, 3);
const DOWN: Occurrence = (0, 4);
const DOWN_AGAIN: Occurrence = (0, 5);

const ROOT: u8 = 0;
const LEAF: u8 = 1;
const PLAIN: u8 = 2;
const FIRST_GATE: u8 = 3;

/// The session of a chain with this many nodes, at least 2.
pub fn make(nodes: usize) -> Vec<u8> {
    let mut text = Text::default();
    rules().write(&mut text);
    let [high, low] = (nodes as u16).to_be_bytes();
    text.frame(&[0x06, high, low]);
    for at in 0..nodes {
        text.frame(&[0x05, production(at, nodes), 0, 0, 0, 0, 0, 0, 0, 0]);
    }
    text.frame(&[0x08]);
    text.bytes()
}

/// The gates stand at the top of the chain, the last one first.
fn production(at: usize, nodes: usize) -> u8 {
    let gates = (GATES as usize).min(nodes - 2);
    match at {
        0 => ROOT,
        _ if at == nodes - 1 => LEAF,
        _ if at <= gates => FIRST_GATE + (gates - at) as u8,
        _ => PLAIN,
    }
}

fn rules() -> Rules {
    let symbols =
        vec![Symbol { synthesized: 1, inherited: 0 }, Symbol { synthesized: 4, inherited: 2 }];
    let child = |(_, index): Occurrence| (1, index);
    let root = vec![copy(child(UP_AGAIN)), add(child(UP_AGAIN), 1), copy(child(UP))];
    let leaf = vec![copy(DOWN), copy(DOWN_AGAIN), constant(0), constant(0)];
    let link = |gate: Equation, gives: u64, down: Equation| {
        let up = [copy(child(UP)), copy(child(UP_AGAIN))];
        [&up[..], &[gate, constant(gives), down, copy(DOWN_AGAIN)]].concat()
    };
    let rule = |left, children: &[u8], equations| {
        let children = children.to_vec();
        Production { left, children, equations }
    };
    let mut productions = vec![
        rule(0, &[1], root),
        rule(1, &[], leaf),
        rule(1, &[1], link(constant(0), 0, copy(DOWN))),
    ];
    for gate in 0..GATES {
        let opens = Equation { op: 6, a: DOWN, b: GIVES, c: 1 << gate };
        let down = Equation { op: 4, a: DOWN, b: GATE, c: 0 };
        productions.push(rule(1, &[1], link(opens, 2 << gate, down)));
    }
    Rules::new(symbols, productions)
}

fn constant(c: u64) -> Equation {
    Equation { op: 0, a: (0, 0), b: (0, 0), c }
}

fn add(a: Occurrence, c: u64) -> Equation {
    Equation { op: 2, a, b: (0, 0), c }
}

fn copy(a: Occurrence) -> Equation {
    add(a, 0)
}
