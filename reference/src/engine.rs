//! The held tree and its sets: load, replacement and rounds.

use std::mem;
use std::ops::Range;

use crate::circles::{Circle, Circles};
use crate::frames::{Done, Node, Point, Round};
use crate::ranks::Ranks;
use crate::refusal::Refusal;
use crate::rows::{Place, Row};
use crate::sets::{Formula, Op, Set};
use crate::table::Table;
use crate::tree::{judge, NODES};
use crate::wiring::Wiring;

/// The most points that a replacement may have.
const POINTS: usize = 8;

/// The nodes that a command hands in, of several points one part behind the other. Those behind
/// the limit are counted and not kept: they would pass it in any tree, whatever they say.
#[derive(Default)]
pub struct Part {
    pub count: usize,
    pub nodes: Vec<Node>,
}

pub enum Step {
    Round(Round),
    Done(Done),
}

/// What one point exchanges.
struct Graft {
    /// The nodes of its old part, in the tree as it was.
    old: Range<usize>,
    /// The nodes of its new part, among those handed in.
    new: Range<usize>,
}

/// How far the open update has come.
#[derive(Default)]
struct Update {
    /// The places that didn't exist before: all in a load, those below the points in a
    /// replacement. What lies outside survives.
    new: Vec<Range<Place>>,
    rank: usize,
    round: u32,
    circles: u16,
    evaluations: u32,
    changed: u16,
}

pub struct Engine {
    table: Table,
    /// Whether the table has a waiver: without one no tree is searched for them.
    waives: bool,
    nodes: Vec<Node>,
    wiring: Wiring,
    circles: Circles,
    ranks: Ranks,
    sets: Row<Set>,
    update: Update,
    /// By circle: whether it is due.
    due: Vec<bool>,
    /// What the members of the circle at work had before the update. Only worked circles
    /// alter, so nothing else needs a before value.
    before: Vec<Set>,
    /// What a round has computed: stored together, when all is computed.
    computed: Vec<Set>,
}

impl Engine {
    pub fn new(table: Table) -> Self {
        Engine {
            waives: table.waives(),
            table,
            nodes: Vec::new(),
            wiring: Wiring::new(),
            circles: Circles::default(),
            ranks: Ranks::default(),
            sets: Row::new(),
            update: Update::default(),
            due: Vec::new(),
            before: Vec::new(),
            computed: Vec::new(),
        }
    }

    pub fn load(&mut self, part: &Part) -> Result<(), Refusal> {
        if part.count > NODES {
            return Err(Refusal::TooManyNodes);
        }
        judge(&self.table, 0, &part.nodes)?;
        self.hold(part.nodes.clone())?;
        self.sets.clear(self.wiring.places(), 0);
        let all = 0..self.wiring.places();
        self.open(vec![all]);
        Ok(())
    }

    /// Exchanges the subtrees at these points, which go by the old tree's numbers.
    pub fn replace(&mut self, points: &[Point], part: &Part) -> Result<(), Refusal> {
        if !(1..=POINTS).contains(&points.len()) {
            return Err(Refusal::PointsOutsideLimit);
        }
        if self.nodes.is_empty() {
            return Err(Refusal::NoTree);
        }
        let grafts = self.grafts(points)?;
        self.judge_parts(&grafts, part)?;
        let old: Vec<_> = grafts.iter().map(|graft| self.below(&graft.old)).collect();
        let places = self.wiring.places();
        let (nodes, parts) = self.splice(&grafts, &part.nodes);
        self.hold(nodes)?;
        let new: Vec<_> = parts.iter().map(|part| self.below(part)).collect();
        self.arrange(&old, &new, places);
        self.open(new);
        for part in parts {
            self.sow(self.synthesized(part.start));
        }
        Ok(())
    }

    /// One round of the first due circle, or done.
    pub fn step(&mut self) -> Step {
        let Some(circle) = self.next_due() else {
            let Update { circles, evaluations, changed, .. } = self.update;
            return Step::Done(Done { circles, evaluations, changed });
        };
        let least = self.circles.least(circle);
        let size = self.circles.members(circle).len() as u16;
        self.update.round += 1;
        self.update.evaluations += u32::from(size);
        let round = self.update.round;
        let closed = if size == 1 && !self.wiring.reads_itself(least) {
            self.work_lone(least);
            true
        } else {
            self.climb(circle)
        };
        if closed {
            self.update.circles += 1;
            self.update.rank += 1;
            self.update.round = 0;
        }
        Step::Round(Round { least: self.wiring.instances()[least], round, size, closed })
    }

    /// Whether a tree is held.
    pub fn holds(&self) -> bool {
        !self.nodes.is_empty()
    }

    /// The instances and their values, rising.
    pub fn readings(&self) -> impl Iterator<Item = (u16, Set)> + '_ {
        let places = 0..self.wiring.places();
        places.map(|place| (self.wiring.instances()[place], self.sets[place]))
    }

    /// Takes a sound tree for the held one, unless a waiver stands inside a circle of it. The tree
    /// must be wired to tell; a refused one makes room again for the one that was held.
    fn hold(&mut self, nodes: Vec<Node>) -> Result<(), Refusal> {
        let held = mem::replace(&mut self.nodes, nodes);
        self.rewire();
        if self.waives && self.waives_inside() {
            self.nodes = held;
            self.rewire();
            return Err(Refusal::WaiverInCircle);
        }
        Ok(())
    }

    fn rewire(&mut self) {
        self.wiring.rebuild(&self.table, &self.nodes);
        let (formulas, places) = (self.wiring.formulas(), self.wiring.places());
        self.circles.rebuild(formulas, places);
        self.ranks.rebuild(formulas, &self.circles, places);
    }

    /// Whether some waiver and its b lie in one circle: that couldn't climb, since what it finds
    /// it would also lose.
    fn waives_inside(&self) -> bool {
        (0..self.wiring.places()).any(|place| {
            let Formula { op, b, .. } = self.wiring.formulas()[place];
            op == Op::Except && self.circles.of(b) == self.circles.of(place)
        })
    }

    /// What the points exchange, if all are nodes of the tree and each lies behind the old part of
    /// the one before.
    fn grafts(&self, points: &[Point]) -> Result<Vec<Graft>, Refusal> {
        if points.iter().any(|point| usize::from(point.node) >= self.nodes.len()) {
            return Err(Refusal::PointOutsideTree);
        }
        let mut grafts = Vec::with_capacity(points.len());
        let (mut behind, mut handed) = (0, 0);
        for &Point { node, count } in points {
            let start = usize::from(node);
            if start < behind {
                return Err(Refusal::PointsOverlap);
            }
            behind = start + self.wiring.span(start);
            let end = handed + usize::from(count);
            grafts.push(Graft { old: start..behind, new: handed..end });
            handed = end;
        }
        Ok(grafts)
    }

    /// Judges the number of nodes that the tree would have at the end, and then part by part.
    fn judge_parts(&self, grafts: &[Graft], part: &Part) -> Result<(), Refusal> {
        let gone: usize = grafts.iter().map(|graft| graft.old.len()).sum();
        if self.nodes.len() - gone + part.count > NODES {
            return Err(Refusal::TooManyNodes);
        }
        for Graft { old, new } in grafts {
            let symbol = self.table.production_of(&self.nodes[old.start]).left;
            judge(&self.table, symbol, &part.nodes[new.clone()])?;
        }
        Ok(())
    }

    /// The tree with all parts exchanged, and where in it the new ones are. Front to back and at
    /// once: with some parts exchanged and others not, a tree may pass the limit.
    fn splice(&self, grafts: &[Graft], handed: &[Node]) -> (Vec<Node>, Vec<Range<usize>>) {
        let mut nodes = Vec::with_capacity(NODES);
        let mut parts = Vec::with_capacity(grafts.len());
        let mut behind = 0;
        for Graft { old, new } in grafts {
            nodes.extend_from_slice(&self.nodes[behind..old.start]);
            parts.push(nodes.len()..nodes.len() + new.len());
            nodes.extend_from_slice(&handed[new.clone()]);
            behind = old.end;
        }
        nodes.extend_from_slice(&self.nodes[behind..]);
        (nodes, parts)
    }

    /// The places of all nodes of a subtree but its root.
    fn below(&self, subtree: &Range<usize>) -> Range<Place> {
        self.wiring.first(subtree.start + 1)..self.wiring.first(subtree.end)
    }

    fn synthesized(&self, node: usize) -> Range<Place> {
        let symbol = self.table.symbol_of(self.table.production_of(&self.nodes[node]));
        let first = self.wiring.first(node);
        first..first + Place::from(symbol.synthesized)
    }

    /// Moves the sets of the nodes that stay to where those nodes now are; below the points all
    /// start empty. Of the old tree it needs the places that go, and how many it had.
    fn arrange(&mut self, old: &[Range<Place>], new: &[Range<Place>], places: Place) {
        let mut sets = Vec::with_capacity(self.wiring.places().into());
        let mut behind = 0;
        for (old, new) in old.iter().zip(new) {
            sets.extend_from_slice(self.sets.part(behind, old.start));
            sets.resize(new.end.into(), 0);
            behind = old.end;
        }
        sets.extend_from_slice(self.sets.part(behind, places));
        self.sets = Row::from(sets);
    }

    fn open(&mut self, new: Vec<Range<Place>>) {
        self.due.clear();
        self.due.resize(self.circles.count().into(), false);
        for places in &new {
            self.sow(places.clone());
        }
        self.update = Update { new, ..Update::default() };
    }

    fn sow(&mut self, places: Range<Place>) {
        for place in places {
            self.due[usize::from(self.circles.of(place))] = true;
        }
    }

    /// The first due circle from the recorded rank on, which becomes its rank.
    fn next_due(&mut self) -> Option<Circle> {
        loop {
            let circle = self.ranks.circle(self.update.rank)?;
            if self.due[usize::from(circle)] {
                return Some(circle);
            }
            self.update.rank += 1;
        }
    }

    /// The only round of a lone circle: what it reads is finished.
    fn work_lone(&mut self, place: Place) {
        let value = self.wiring.formulas()[place].value(|argument| self.sets[argument]);
        let before = self.sets[place];
        self.sets[place] = value;
        if value != before {
            self.tell(place);
        }
    }

    /// One round of another circle; answers whether it closes.
    fn climb(&mut self, circle: Circle) -> bool {
        if self.update.round == 1 {
            self.begin(circle);
        }
        let members = self.circles.members(circle);
        compute(members, self.wiring.formulas(), &self.sets, &mut self.computed);
        let closed = !store(members, &self.computed, &mut self.sets);
        if closed {
            self.finish(circle);
        }
        closed
    }

    /// Keeps a circle's before values and empties it: a climb from the values held would keep
    /// reasons that only hold each other up.
    fn begin(&mut self, circle: Circle) {
        let members = self.circles.members(circle);
        self.before.clear();
        self.before.extend(members.iter().map(|&member| self.sets[member]));
        for &member in members {
            self.sets[member] = 0;
        }
        self.computed.resize(members.len(), 0);
    }

    fn finish(&mut self, circle: Circle) {
        for at in 0..self.before.len() {
            let member = self.circles.members(circle)[at];
            if self.sets[member] != self.before[at] {
                self.tell(member);
            }
        }
    }

    /// A finished set isn't as before: it counts as changed, and those who read it are due.
    fn tell(&mut self, place: Place) {
        if !self.update.new.iter().any(|new| new.contains(&place)) {
            self.update.changed += 1;
        }
        for reader in self.ranks.readers(place) {
            self.due[usize::from(self.circles.of(reader))] = true;
        }
    }
}

/// Computes each member from the values before this round.
fn compute(members: &[Place], formulas: &[Formula<Place>], sets: &[Set], computed: &mut [Set]) {
    for (value, &member) in computed.iter_mut().zip(members) {
        *value = formulas[usize::from(member)].value(|place| sets[usize::from(place)]);
    }
}

/// Stores what a round computed; answers whether anything altered.
fn store(members: &[Place], computed: &[Set], sets: &mut [Set]) -> bool {
    let mut altered = false;
    for (&value, &member) in computed.iter().zip(members) {
        let set = &mut sets[usize::from(member)];
        altered |= *set != value;
        *set = value;
    }
    altered
}
