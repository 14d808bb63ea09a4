//! The wiring of a tree: for each of its sets the formula that defines it.

use crate::frames::Node;
use crate::rows::{Place, Row, NOWHERE};
use crate::sets::{Formula, Op, Set};
use crate::table::{Equation, Production, Spot, Table};
use crate::tree::NODES;

/// Where the sets of a node start: its first place, and 8 × node.
#[derive(Clone, Copy)]
struct Start {
    place: Place,
    instance: u16,
}

/// The starts of a production's left node and children, by position. Behind them nowhere: that
/// is where an unused argument points.
type Starts = [Start; 6];

pub struct Wiring {
    nodes: usize,
    /// Each node's first place, and behind the last node the number of places.
    first: [Place; NODES + 1],
    /// How many nodes each node's subtree has.
    span: [u16; NODES],
    formulas: Row<Formula<Place>>,
    instances: Row<u16>,
}

impl Wiring {
    pub fn new() -> Self {
        Wiring {
            nodes: 0,
            first: [0; NODES + 1],
            span: [0; NODES],
            formulas: Row::new(),
            instances: Row::new(),
        }
    }

    /// Wires a sound tree anew.
    ///
    /// From the last node to the first, so that a node's children are found by the spans that
    /// its descendants already have.
    pub fn rebuild(&mut self, table: &Table, nodes: &[Node]) {
        self.number(table, nodes);
        self.instances.reach(self.places(), 0);
        let none = Formula { op: Op::Constant, a: NOWHERE, b: NOWHERE, c: 0 };
        self.formulas.reach(self.places(), none);
        for (at, node) in nodes.iter().enumerate().rev() {
            let production = table.production_of(node);
            let starts = self.find_children(at, production);
            self.define(production, node.own, starts);
        }
    }

    pub fn places(&self) -> Place {
        self.first[self.nodes]
    }

    /// The first place of a node, or behind the last node the number of places.
    pub fn first(&self, node: usize) -> Place {
        self.first[node]
    }

    pub fn span(&self, node: usize) -> usize {
        usize::from(self.span[node])
    }

    pub fn formulas(&self) -> &Row<Formula<Place>> {
        &self.formulas
    }

    /// The instance numbers of the places: 8 × node + index.
    pub fn instances(&self) -> &Row<u16> {
        &self.instances
    }

    pub fn reads_itself(&self, place: Place) -> bool {
        let Formula { a, b, .. } = self.formulas[place];
        a == place || b == place
    }

    fn number(&mut self, table: &Table, nodes: &[Node]) {
        self.nodes = nodes.len();
        let mut place = 0;
        for (first, node) in self.first.iter_mut().zip(nodes) {
            *first = place;
            place += table.production_of(node).sets;
        }
        self.first[nodes.len()] = place;
    }

    /// Where a node's and its children's sets start; also sets the node's span.
    fn find_children(&mut self, at: usize, production: &Production) -> Starts {
        let mut starts = [Start { place: NOWHERE, instance: 0 }; 6];
        starts[0] = self.start(at);
        let mut child = at + 1;
        for start in &mut starts[1..=production.children.len()] {
            *start = self.start(child);
            child += usize::from(self.span[child]);
        }
        self.span[at] = (child - at) as u16;
        starts
    }

    fn start(&self, node: usize) -> Start {
        Start { place: self.first[node], instance: 8 * node as u16 }
    }

    fn define(&mut self, production: &Production, own: Set, starts: Starts) {
        let place =
            |spot: Spot| starts[usize::from(spot.position)].place + Place::from(spot.offset);
        for Equation { target, formula, own_constant } in &production.equations {
            let defined = place(*target);
            let start = starts[usize::from(target.position)].instance;
            self.instances[defined] = start + u16::from(target.index);
            self.formulas[defined] = Formula {
                op: formula.op,
                a: place(formula.a),
                b: place(formula.b),
                c: if *own_constant { own } else { formula.c },
            };
        }
    }
}

impl Default for Wiring {
    fn default() -> Self {
        Wiring::new()
    }
}
