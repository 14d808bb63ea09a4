//! A settlement day of fixed shape: one load, then corrections of single lines, or of several lines
//! by one command.
//!
//! A day holds groups of accounts, an account a row of lines. Reasons go up from lines to
//! accounts and on to the day; what the day holds against everybody comes down. In a netted
//! account enough reasons on one line hold back the others, so its sets form a circle. In a
//! plain account every set stands alone.

use crate::chance::Chance;
use crate::growth::Node;
use crate::points::POINTS;
use crate::rules::{shuffle, Equation, Occurrence, Production, Rules, Symbol};
use crate::text::Text;

/// Always the same day: instruction counts of two days must be comparable.
const SEED: u64 = 1053;

const DAY: u8 = 0;
const GROUP: u8 = 1;
const ACCOUNT: u8 = 2;
const ROW: u8 = 3;
const LINE: u8 = 4;

/// Production numbers, in the order of `rules`.
mod production {
    pub const DAY: u8 = 0;
    pub const GROUPS: u8 = 1;
    pub const GROUP_OF_ONE: u8 = 2;
    pub const NETTED: u8 = 3;
    pub const PLAIN: u8 = 4;
    pub const ROW: u8 = 5;
    pub const LAST: u8 = 6;
    pub const LINE: u8 = 7;
    pub const FREE_LINE: u8 = 8;
}

/// How a day's lines are corrected.
pub enum Manner {
    /// Each by a command of its own.
    Single,
    /// So many by one command.
    Together(usize),
    /// The same lines as together, each by a command of its own.
    Apart(usize),
}

/// The day's text: a tree of this many nodes (even, from 16 to 512) and this many corrections, of
/// one line each or of several.
pub fn make(nodes: usize, corrections: usize, manner: Manner) -> Vec<u8> {
    let mut chance = Chance::new(SEED);
    let mut text = Text::default();
    rules().write(&mut text);
    let tree = tree(&mut chance, nodes);
    let [high, low] = (tree.len() as u16).to_be_bytes();
    text.frame(&[0x06, high, low]);
    for &node in &tree {
        write_node(&mut text, node);
    }
    let is_line = |&at: &usize| tree[at].production >= production::LINE;
    let lines: Vec<usize> = (0..tree.len()).filter(is_line).collect();
    for _ in 0..corrections {
        match manner {
            Manner::Single => {
                let point = chance.pick(&lines);
                write_single(&mut text, point, line(&mut chance));
            }
            Manner::Together(points) => {
                write_together(&mut text, &several(&mut chance, &lines, points));
            }
            Manner::Apart(points) => {
                for (point, node) in several(&mut chance, &lines, points) {
                    write_single(&mut text, point, node);
                }
            }
        }
    }
    text.frame(&[0x08]);
    text.bytes()
}

/// So many different lines, rising, and what becomes of them. Eight are drawn however many are
/// wanted: days of fewer points then correct some of the lines of days of more.
fn several(chance: &mut Chance, lines: &[usize], points: usize) -> Vec<(usize, Node)> {
    let mut lines = lines.to_vec();
    shuffle(chance, &mut lines);
    let mut drawn: Vec<(usize, Node)> =
        lines.into_iter().take(POINTS).map(|point| (point, line(chance))).collect();
    drawn.truncate(points);
    drawn.sort_by_key(|&(point, _)| point);
    drawn
}

fn write_single(text: &mut Text, point: usize, node: Node) {
    let [p, q] = (point as u16).to_be_bytes();
    text.frame(&[0x07, p, q, 0, 1]);
    write_node(text, node);
}

fn write_together(text: &mut Text, row: &[(usize, Node)]) {
    text.frame(&[0x09, row.len() as u8]);
    for (point, _) in row {
        let [p, q] = (*point as u16).to_be_bytes();
        text.frame(&[0x0b, p, q, 0, 1]);
    }
    for &(_, node) in row {
        write_node(text, node);
    }
}

fn write_node(text: &mut Text, node: Node) {
    text.frame(&[&[0x05, node.production], &node.own.to_be_bytes()[..]].concat());
}

/// Accounts, groups and rows take 3 nodes an account and 2 a line, the day included. About one
/// node in 18 is an account, which gives 1,052 instances to 512 nodes.
fn tree(chance: &mut Chance, nodes: usize) -> Vec<Node> {
    let accounts = 2 * ((nodes + 18) / 36).max(1);
    let lines = (nodes - 3 * accounts) / 2;
    let mut tree = vec![Node { production: production::DAY, own: 1 << 40 }];
    groups(chance, &mut tree, accounts, lines);
    tree
}

/// Groups of two, as even as can be, down to single accounts. The stack holds the accounts and
/// lines of the groups still to be written.
fn groups(chance: &mut Chance, tree: &mut Vec<Node>, accounts: usize, lines: usize) {
    let mut pending = vec![(accounts, lines)];
    while let Some((accounts, lines)) = pending.pop() {
        if accounts > 1 {
            tree.push(Node { production: production::GROUPS, own: 0 });
            let (half, part) = (accounts / 2, lines * (accounts / 2) / accounts);
            pending.push((accounts - half, lines - part));
            pending.push((half, part));
        } else {
            tree.push(Node { production: production::GROUP_OF_ONE, own: 0 });
            account(chance, tree, lines);
        }
    }
}

fn account(chance: &mut Chance, tree: &mut Vec<Node>, lines: usize) {
    let netted = chance.one_in(4);
    let production = if netted { production::NETTED } else { production::PLAIN };
    tree.push(Node { production, own: 1 << chance.between(41, 44) });
    for at in 1..=lines {
        let production = if at < lines { production::ROW } else { production::LAST };
        tree.push(Node { production, own: 0 });
        tree.push(line(chance));
    }
}

/// A line with no reason, one or two; one in eight doesn't care for others' reasons.
fn line(chance: &mut Chance) -> Node {
    let free = chance.one_in(8);
    let one = 1 << chance.below(40);
    let two = one | 1 << chance.below(40);
    let production = if free { production::FREE_LINE } else { production::LINE };
    Node { production, own: chance.pick(&[0, 0, one, one, two]) }
}

fn rules() -> Rules {
    let symbol = |synthesized, inherited| Symbol { synthesized, inherited };
    let symbols = vec![symbol(2, 0), symbol(1, 1), symbol(2, 1), symbol(1, 1), symbol(1, 1)];
    let (first, second, held) = ((1, 0), (2, 0), (0, 4));
    let productions = vec![
        // The day: all reasons; those that count as a pattern; its own set against everybody.
        rule(DAY, &[GROUP], &[copy(first), if_count(first, first, 3), own()]),
        rule(GROUP, &[GROUP, GROUP], &[join(first, second), copy(held), copy(held)]),
        rule(GROUP, &[ACCOUNT], &[copy(first), copy(held)]),
        // Netted: from three reasons on, they hold back every line.
        rule(ACCOUNT, &[ROW], &[add_own(first), if_count(first, first, 3), join((0, 1), held)]),
        rule(ACCOUNT, &[ROW], &[add_own(first), if_count(first, first, 3), copy(held)]),
        rule(ROW, &[LINE, ROW], &[join(first, second), copy(held), copy(held)]),
        rule(ROW, &[LINE], &[copy(first), copy(held)]),
        rule(LINE, &[], &[add_own(held)]),
        rule(LINE, &[], &[own()]),
    ];
    Rules::new(symbols, productions)
}

fn rule(left: u8, children: &[u8], equations: &[Equation]) -> Production {
    Production { left, children: children.to_vec(), equations: equations.to_vec() }
}

fn own() -> Equation {
    Equation { op: 1, a: (0, 0), b: (0, 0), c: 0 }
}

fn copy(a: Occurrence) -> Equation {
    Equation { op: 2, a, b: (0, 0), c: 0 }
}

fn join(a: Occurrence, b: Occurrence) -> Equation {
    Equation { op: 4, a, b, c: 0 }
}

fn if_count(a: Occurrence, b: Occurrence, c: u64) -> Equation {
    Equation { op: 7, a, b, c }
}

fn add_own(a: Occurrence) -> Equation {
    Equation { op: 8, a, b: (0, 0), c: 0 }
}
