//! Corrections of several points in one command: which points, with which parts, and how such a
//! row goes wrong.

use crate::chance::Chance;
use crate::commands::{Desk, NODES};
use crate::growth::Node;
use crate::rules::shuffle;
use crate::session::Size;

/// The most points that a command may have.
pub const POINTS: usize = 8;
/// The most that its frame can announce.
const ANNOUNCED: usize = 255;

/// A point of the held tree, and the part that it is to have.
#[derive(Clone)]
pub struct Exchange {
    pub point: usize,
    pub part: Vec<Node>,
}

/// What the generator thinks that a session's rows of two or more points met.
#[derive(Clone, Copy, Default)]
pub struct Met {
    /// An accepted row with a point right behind another's old part.
    pub behind: bool,
    /// An accepted row where the tree has too many nodes while some parts are old and some new.
    pub on_the_way: bool,
    /// A row refused for a waiver inside a circle, though no point alone would be.
    pub together: bool,
    /// An accepted row with a point that alone would be refused so.
    pub made_good: bool,
}

/// What a command exchanges, in the order of its text.
pub type Row = Vec<Exchange>;

type Fault = fn(&Desk, &mut Chance, &mut Row);

/// Faults of parts come most often: any other hides them.
const FAULTS: [Fault; 20] = [
    spoil_part,
    spoil_part,
    spoil_some_parts,
    spoil_some_parts,
    spoil_some_parts,
    no_nodes,
    cut_elsewhere,
    cut_elsewhere,
    past_the_limit_by_one,
    too_many_nodes,
    point_inside,
    point_inside,
    point_twice,
    points_swapped,
    points_swapped,
    point_outside,
    point_outside,
    point_more_outside,
    too_many_points,
    no_points,
];

impl Desk<'_> {
    pub fn correct_several(&mut self, chance: &mut Chance) {
        if self.held.is_empty() {
            return self.poor_row(chance);
        }
        // A trade makes a tree of 512 nodes, which takes long.
        let trade = if self.size == Size::Small { 10 } else { 2 };
        let trades = chance.one_in(trade);
        let row = if trades { self.trade(chance, Self::points) } else { self.row(chance) };
        self.replace(chance, &row);
    }

    pub fn made_good_row(&mut self, chance: &mut Chance) {
        match self.made_good(chance, Self::row) {
            Some(row) => self.replace(chance, &row),
            None => self.correct_several(chance),
        }
    }

    /// A row with a point that alone would be refused for a waiver inside a circle, which the
    /// others break; if some tries find one.
    pub fn made_good(
        &self,
        chance: &mut Chance,
        draw: fn(&Self, &mut Chance) -> Row,
    ) -> Option<Row> {
        let tries = if self.rules.waives() && !self.held.is_empty() { 40 } else { 0 };
        let is_such = |row: &Row| self.allows(&self.corrected(row)) && !self.allows_each(row);
        (0..tries).map(|_| draw(self, chance)).find(is_such)
    }

    /// Whether no point alone would put a waiver inside a circle.
    fn allows_each(&self, row: &[Exchange]) -> bool {
        !self.rules.waives() || row.chunks(1).all(|one| self.allows(&self.corrected(one)))
    }

    /// A row with one fault or more: with two, their order is shown.
    pub fn poor_row(&mut self, chance: &mut Chance) {
        let mut row = if self.held.is_empty() { self.nowhere(chance) } else { self.row(chance) };
        for _ in 0..chance.pick(&[1, 1, 2, 2, 3]) {
            chance.pick(&FAULTS)(self, chance, &mut row);
        }
        row.truncate(ANNOUNCED);
        self.replace(chance, &row);
    }

    /// Points apart with parts that fit.
    pub fn row(&self, chance: &mut Chance) -> Row {
        let points = self.points(chance);
        self.with_parts(chance, points)
    }

    /// The points with parts that fit. These are drawn in any order, so that one may grow by what
    /// another gives up, wherever that stands.
    pub fn with_parts(&self, chance: &mut Chance, mut row: Row) -> Row {
        let mut order: Vec<usize> = (0..row.len()).collect();
        shuffle(chance, &mut order);
        let mut nodes = self.held.len();
        for at in order {
            let part = self.part(chance, row[at].point, nodes);
            nodes = nodes + part.len() - row[at].part.len();
            row[at].part = part;
        }
        row
    }

    /// One part gives up all but what it must have, and another takes all the room that there is
    /// then, or rarely one node more. In between the tree may have too many nodes.
    pub fn trade(&self, chance: &mut Chance, points: fn(&Self, &mut Chance) -> Row) -> Row {
        let mut row = points(self, chance);
        for _ in 0..10 {
            if row.len() > 1 && row.iter().any(|exchange| exchange.part.len() > 1) {
                break;
            }
            row = points(self, chance);
        }
        let size = |at: &usize| row[*at].part.len();
        let Some(giver) = (0..row.len()).max_by_key(size).filter(|_| row.len() > 1) else {
            return row;
        };
        let taker = (giver + chance.between(1, row.len() - 1)) % row.len();
        let Some(given) = self.grown(chance, row[giver].point, 1) else { return row };
        row[giver].part = given;
        let kept = self.corrected(&row).len() - row[taker].part.len();
        let past = usize::from(chance.one_in(4));
        if let Some(taken) = self.grown(chance, row[taker].point, NODES + past - kept) {
            row[taker].part = taken;
        }
        row
    }

    fn points(&self, chance: &mut Chance) -> Row {
        let wanted = chance.pick(&[1, 2, 2, 2, 3, 3, 4, 5, 6, 7, 8, 8]);
        self.some_points(chance, wanted)
    }

    /// Up to so many points, rising and apart, with their old parts. One in two is looked for right
    /// behind an old part.
    pub fn some_points(&self, chance: &mut Chance, wanted: usize) -> Row {
        let mut row = Row::new();
        for _ in 0..4 * wanted {
            let point = match &row[..] {
                [] => self.point_below(chance),
                found if chance.one_in(2) => {
                    let Exchange { point, part } = &found[chance.below(found.len())];
                    point + part.len()
                }
                _ => self.point_below(chance),
            };
            if row.len() == wanted || point >= self.held.len() {
                continue;
            }
            let mut more = row.clone();
            more.push(Exchange { point, part: self.held[point..self.end(point)].to_vec() });
            more.sort_by_key(|exchange| exchange.point);
            if self.is_apart(&more) {
                row = more;
            }
        }
        row
    }

    /// A point that isn't the first node, if there is one: beside that there is room for no other.
    fn point_below(&self, chance: &mut Chance) -> usize {
        let point = self.point(chance);
        if point == 0 && self.held.len() > 1 {
            return chance.between(1, self.held.len() - 1);
        }
        point
    }

    /// Whether all points are nodes of the held tree, each behind the old part of the one before.
    pub fn is_apart(&self, row: &[Exchange]) -> bool {
        row.iter().all(|exchange| exchange.point < self.held.len())
            && row.windows(2).all(|pair| self.end(pair[0].point) <= pair[1].point)
    }

    /// Points of no tree.
    fn nowhere(&self, chance: &mut Chance) -> Row {
        let node = Node { production: 0, own: chance.set() };
        let count = chance.between(0, POINTS + 1);
        let exchange = |point| Exchange { point, part: vec![node; chance.below(3)] };
        (0..count).map(exchange).collect()
    }

    /// Keeps what a row that fits has met. `nodes` is the tree with all its parts.
    pub fn note(&mut self, row: &[Exchange], nodes: &[Node]) {
        if row.len() < 2 {
            return;
        }
        let each = self.allows_each(row);
        if !self.allows(nodes) {
            self.met.together |= each;
            return;
        }
        let passes = |cut: usize| {
            let (front, back) = row.split_at(cut);
            [front, back].iter().any(|some| self.corrected(some).len() > NODES)
        };
        let behind = row.windows(2).any(|pair| self.end(pair[0].point) == pair[1].point);
        let on_the_way = (1..row.len()).any(passes);
        self.met.behind |= behind;
        self.met.on_the_way |= on_the_way;
        self.met.made_good |= !each;
    }
}

pub fn spoil_part(desk: &Desk, chance: &mut Chance, row: &mut Row) {
    if let Some(exchange) = any(chance, row) {
        exchange.part = desk.spoilt(chance, exchange.part.clone());
    }
}

fn spoil_some_parts(desk: &Desk, chance: &mut Chance, row: &mut Row) {
    for exchange in row {
        if !chance.one_in(3) {
            exchange.part = desk.spoilt(chance, exchange.part.clone());
        }
    }
}

fn too_many_nodes(desk: &Desk, chance: &mut Chance, row: &mut Row) {
    if let Some(exchange) = any(chance, row) {
        exchange.part = desk.too_many(chance);
    }
}

/// A part with which the tree would have just one node too many, if the table can.
fn past_the_limit_by_one(desk: &Desk, chance: &mut Chance, row: &mut Row) {
    if !desk.is_apart(row) {
        return;
    }
    let nodes = desk.corrected(row).len();
    if let Some(exchange) = any(chance, row) {
        let target = (NODES + 1 + exchange.part.len()).saturating_sub(nodes);
        exchange.part = desk.grown(chance, exchange.point, target).unwrap_or_default();
    }
}

/// A point of the old part of another, behind that one or rarely in front of it.
fn point_inside(desk: &Desk, chance: &mut Chance, row: &mut Row) {
    let pairs: Vec<(usize, usize)> = (0..row.len())
        .flat_map(|at| nested(desk, row[at].point).into_iter().map(move |other| (at, other)))
        .collect();
    if pairs.is_empty() {
        return points_swapped(desk, chance, row);
    }
    let (at, point) = chance.pick(&pairs);
    let part = desk.part(chance, point, desk.held.len());
    let behind = (point > row[at].point) != chance.one_in(4);
    row.insert(at + usize::from(behind), Exchange { point, part });
}

/// The nodes inside the old part at a point, and those in whose old parts it lies.
fn nested(desk: &Desk, point: usize) -> Vec<usize> {
    let count = desk.held.len();
    if point >= count {
        return Vec::new();
    }
    let around = (0..point).filter(|&at| desk.end(at) > point);
    around.chain(point + 1..desk.end(point)).collect()
}

/// Mostly the last point, which alone leaves the row rising.
fn point_outside(desk: &Desk, chance: &mut Chance, row: &mut Row) {
    let outside = outside(desk, chance);
    let last = !chance.one_in(3);
    let found = if last { row.last_mut() } else { any(chance, row) };
    if let Some(exchange) = found {
        exchange.point = outside;
    }
}

/// Beside points that may have faults of their own.
fn point_more_outside(desk: &Desk, chance: &mut Chance, row: &mut Row) {
    let exchange = Exchange { point: outside(desk, chance), part: Vec::new() };
    row.insert(chance.below(row.len() + 1), exchange);
}

fn outside(desk: &Desk, chance: &mut Chance) -> usize {
    let count = desk.held.len();
    chance.pick(&[count, count, count + 1, NODES, 0xffff])
}

fn any<'a>(chance: &mut Chance, row: &'a mut [Exchange]) -> Option<&'a mut Exchange> {
    let count = row.len().max(1);
    row.get_mut(chance.below(count))
}

fn no_nodes(_: &Desk, chance: &mut Chance, row: &mut Row) {
    if let Some(exchange) = any(chance, row) {
        exchange.part.clear();
    }
}

/// A node goes over to the part before or behind: the nodes are the same, cut at another place.
fn cut_elsewhere(_: &Desk, chance: &mut Chance, row: &mut Row) {
    if row.len() < 2 {
        return;
    }
    let at = chance.below(row.len() - 1);
    if chance.one_in(2) {
        let node = row[at].part.pop();
        row[at + 1].part.splice(0..0, node);
    } else if !row[at + 1].part.is_empty() {
        let node = row[at + 1].part.remove(0);
        row[at].part.push(node);
    }
}

fn point_twice(_: &Desk, chance: &mut Chance, row: &mut Row) {
    if !row.is_empty() {
        let at = chance.below(row.len());
        row.insert(at, row[at].clone());
    }
}

fn points_swapped(desk: &Desk, chance: &mut Chance, row: &mut Row) {
    if row.len() < 2 {
        return point_twice(desk, chance, row);
    }
    let one = chance.below(row.len());
    let other = (one + chance.between(1, row.len() - 1)) % row.len();
    row.swap(one, other);
}

/// The row again and again, rarely as long as can be announced. What comes again of a long row has
/// no nodes, or texts would be long for one refusal.
fn too_many_points(_: &Desk, chance: &mut Chance, row: &mut Row) {
    if row.is_empty() {
        return;
    }
    let any = chance.between(POINTS + 1, ANNOUNCED);
    let count = chance.pick(&[POINTS + 1, POINTS + 1, POINTS + 1, POINTS + 2, 16, any, ANNOUNCED]);
    let mut more = row.clone();
    let nodes: usize = row.iter().map(|exchange| exchange.part.len()).sum();
    if count > 16 || nodes > 100 {
        more.iter_mut().for_each(|exchange| exchange.part.clear());
    }
    *row = row.iter().chain(more.iter().cycle()).take(count).cloned().collect();
}

fn no_points(_: &Desk, _: &mut Chance, row: &mut Row) {
    row.clear();
}
