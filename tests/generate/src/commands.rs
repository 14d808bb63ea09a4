//! Random rows of commands over a table, some of which are to be refused.

use crate::chance::Chance;
use crate::growth::{end_of, grow, is_sound, symbol_of, Node};
use crate::points::{spoil_part, Exchange, Met, Row, POINTS};
use crate::rules::Rules;
use crate::session::Size;
use crate::text::Text;
use crate::waivers;

/// The most nodes that a tree may have.
pub const NODES: usize = 512;

/// What the generator thinks the session holds, so that it can draw corrections of it.
pub struct Desk<'a> {
    pub rules: &'a Rules,
    pub size: Size,
    pub held: Vec<Node>,
    pub text: &'a mut Text,
    pub met: Met,
}

/// Writes commands; answers what their rows of points should have met.
pub fn write(chance: &mut Chance, rules: &Rules, size: Size, text: &mut Text) -> Met {
    let mut desk = Desk::new(rules, size, text);
    desk.draw(chance);
    if !chance.one_in(3) {
        desk.dump();
    }
    desk.met
}

impl<'a> Desk<'a> {
    pub fn new(rules: &'a Rules, size: Size, text: &'a mut Text) -> Self {
        Desk { rules, size, held: Vec::new(), text, met: Met::default() }
    }
}

impl Desk<'_> {
    fn draw(&mut self, chance: &mut Chance) {
        // Most sessions load first; the others show what is refused with no tree.
        if !chance.one_in(10) {
            self.good_load(chance);
        }
        for _ in 0..chance.between(0, self.size.commands()) {
            match chance.below(24) {
                0 => self.good_load(chance),
                1 => self.poor_load(chance),
                2..=7 => self.correct(chance),
                8 | 9 => self.poor_correction(chance),
                10 => self.circular_correction(chance, Self::single),
                11..=14 => self.correct_several(chance),
                15 | 16 => self.poor_row(chance),
                17 | 18 => self.circular_correction(chance, Self::row),
                19 => self.made_good_row(chance),
                _ => self.dump(),
            }
        }
    }

    fn good_load(&mut self, chance: &mut Chance) {
        match self.tree(chance) {
            Some(nodes) => self.load(&nodes),
            None => self.poor_load(chance),
        }
    }

    /// A sound tree of the desk's size, if the table can.
    pub fn tree(&self, chance: &mut Chance) -> Option<Vec<Node>> {
        let mut target = self.size.nodes(chance);
        let mut nodes = grow(chance, self.rules, 0, target)?;
        // A tree with a waiver inside a circle mostly gives way to smaller ones, so that there is
        // something to correct; now and then it is loaded, to be refused.
        while target > 1 && !self.allows(&nodes) && !chance.one_in(6) {
            target /= 2;
            nodes = grow(chance, self.rules, 0, target).unwrap_or(nodes);
        }
        Some(nodes)
    }

    fn poor_load(&mut self, chance: &mut Chance) {
        let nodes = match chance.below(4) {
            0 => self.too_many(chance),
            _ => {
                let target = self.size.nodes(chance);
                let nodes = grow(chance, self.rules, 0, target).unwrap_or_default();
                self.spoilt(chance, nodes)
            }
        };
        self.load(&nodes);
    }

    fn correct(&mut self, chance: &mut Chance) {
        if self.held.is_empty() {
            return self.poor_correction(chance);
        }
        let row = self.single(chance);
        self.replace(chance, &row);
    }

    /// A row of one point.
    fn single(&self, chance: &mut Chance) -> Row {
        let point = self.point(chance);
        vec![Exchange { point, part: self.part(chance, point, self.held.len()) }]
    }

    fn poor_correction(&mut self, chance: &mut Chance) {
        let count = self.held.len();
        let point = match chance.below(3) {
            0 => chance.pick(&[count, count + 1, NODES, 0xffff]),
            _ => chance.below(count + 1),
        };
        let part = match chance.below(4) {
            0 if chance.one_in(4) => self.too_many(chance),
            0 if point < count => self.past_the_limit(chance, point),
            1 => vec![Node { production: self.any_production(chance), own: chance.set() }],
            _ if point < count => {
                let part = self.part(chance, point, count);
                self.spoilt(chance, part)
            }
            _ => self.spoilt(chance, Vec::new()),
        };
        self.replace(chance, &[Exchange { point, part }]);
    }

    /// A correction with which the tree would have a waiver inside a circle, if some tries find
    /// one: of those that only have to fit few are such.
    fn circular_correction(&mut self, chance: &mut Chance, draw: fn(&Self, &mut Chance) -> Row) {
        if self.held.is_empty() {
            return self.poor_correction(chance);
        }
        for _ in 0..30 {
            let mut row = draw(self, chance);
            if !self.allows(&self.corrected(&row)) {
                // With a fault of a part's own besides, that one counts.
                if chance.one_in(3) {
                    spoil_part(self, chance, &mut row);
                }
                return self.replace(chance, &row);
            }
        }
        self.correct(chance);
    }

    pub fn dump(&mut self) {
        self.text.frame(&[0x08]);
    }

    /// Any node, but often one near the leaves, as a clerk's corrections are.
    pub fn point(&self, chance: &mut Chance) -> usize {
        let count = self.held.len();
        let mut point = chance.below(count);
        if chance.one_in(2) {
            let is_leaf = |&at: &usize| self.end(at) == at + 1;
            point = (point..count).find(is_leaf).unwrap_or(point);
        }
        chance.pick(&[point, point, point, point, point, point, point, 0, count - 1])
    }

    /// A part that fits at the point of a tree which has this many nodes, be it by other points.
    pub fn part(&self, chance: &mut Chance, point: usize, nodes: usize) -> Vec<Node> {
        let old = self.held[point..self.end(point)].to_vec();
        let room = (NODES + old.len()).saturating_sub(nodes).max(1);
        let target = match chance.below(8) {
            0 => return old,
            1 | 2 => return with_other_owns(chance, old),
            3 | 4 => 1,
            5 => old.len(),
            6 if self.size != Size::Small => room,
            _ => chance.between(1, (2 * old.len() + 3).min(room)),
        };
        let symbol = symbol_of(self.rules, old[0]);
        grow(chance, self.rules, symbol, target).unwrap_or(old)
    }

    /// A sound part with which the tree would have just one node too many, if the table can.
    fn past_the_limit(&self, chance: &mut Chance, point: usize) -> Vec<Node> {
        let kept = self.held.len() - (self.end(point) - point);
        self.grown(chance, point, NODES + 1 - kept).unwrap_or_default()
    }

    /// A part of the symbol at the point with about so many nodes.
    pub fn grown(&self, chance: &mut Chance, point: usize, target: usize) -> Option<Vec<Node>> {
        grow(chance, self.rules, symbol_of(self.rules, self.held[point]), target)
    }

    /// One past the last node of the old part at a point.
    pub fn end(&self, point: usize) -> usize {
        end_of(self.rules, &self.held, point)
    }

    /// More nodes than a tree may have, sound or not; rarely as many as a frame can announce.
    pub fn too_many(&self, chance: &mut Chance) -> Vec<Node> {
        let count = match chance.below(60) {
            0 => 0xffff,
            1..=9 => chance.between(NODES + 1, 2000),
            _ => chance.between(NODES + 1, NODES + 3),
        };
        if chance.one_in(2) {
            let node = Node { production: self.any_production(chance), own: 0 };
            return vec![node; count];
        }
        grow(chance, self.rules, 0, count.min(2000)).unwrap_or_default()
    }

    /// The nodes with one fault: none, one lost, one more, one left over, another production, or
    /// one that the table doesn't have.
    pub fn spoilt(&self, chance: &mut Chance, mut nodes: Vec<Node>) -> Vec<Node> {
        if nodes.is_empty() || chance.one_in(8) {
            return Vec::new();
        }
        let at = chance.below(nodes.len());
        let other = Node { production: self.any_production(chance), own: 1 };
        match chance.below(5) {
            0 => drop(nodes.remove(at)),
            1 => nodes.truncate(at),
            2 => nodes.insert(at + 1, other),
            3 => nodes.push(other),
            _ => nodes[at] = other,
        }
        nodes
    }

    fn any_production(&self, chance: &mut Chance) -> u8 {
        let count = self.rules.productions.len() as u8;
        let known = chance.below(count.into()) as u8;
        let any = chance.byte();
        chance.pick(&[known, known, known, count, count, count + 1, 0xff, any])
    }

    pub fn load(&mut self, nodes: &[Node]) {
        let [high, low] = (nodes.len() as u16).to_be_bytes();
        self.text.frame(&[0x06, high, low]);
        self.write_nodes(nodes);
        if nodes.len() <= NODES && is_sound(self.rules, 0, nodes) {
            self.hold(nodes.to_vec());
        }
    }

    /// One point may be written as a row of one, which means the same.
    pub fn replace(&mut self, chance: &mut Chance, row: &[Exchange]) {
        match row {
            [exchange] if !chance.one_in(4) => self.write_single(exchange),
            _ => self.write_several(row),
        }
        if self.fits(row) {
            let nodes = self.corrected(row);
            self.note(row, &nodes);
            self.hold(nodes);
        }
    }

    /// Writes a correction of one point, and holds what was held.
    pub fn write_single(&mut self, exchange: &Exchange) {
        self.text.frame(&[&[0x07], &point_fields(exchange)[..]].concat());
        self.write_nodes(&exchange.part);
    }

    fn write_several(&mut self, row: &[Exchange]) {
        self.text.frame(&[0x09, row.len() as u8]);
        for exchange in row {
            self.text.frame(&[&[0x0b], &point_fields(exchange)[..]].concat());
        }
        for exchange in row {
            self.write_nodes(&exchange.part);
        }
    }

    /// Whether nothing but a waiver inside a circle can refuse the row.
    fn fits(&self, row: &[Exchange]) -> bool {
        (1..=POINTS).contains(&row.len())
            && self.is_apart(row)
            && self.corrected(row).len() <= NODES
            && row.iter().all(|Exchange { point, part }| {
                is_sound(self.rules, symbol_of(self.rules, self.held[*point]), part)
            })
    }

    /// The held tree with all parts of a row, from the last to the first: so the points before
    /// keep their numbers.
    pub fn corrected(&self, row: &[Exchange]) -> Vec<Node> {
        let mut nodes = self.held.clone();
        for Exchange { point, part } in row.iter().rev() {
            nodes.splice(*point..self.end(*point), part.iter().copied());
        }
        nodes
    }

    /// A sound tree is held unless it has a waiver inside a circle.
    fn hold(&mut self, nodes: Vec<Node>) {
        if self.allows(&nodes) {
            self.held = nodes;
        }
    }

    pub fn allows(&self, nodes: &[Node]) -> bool {
        waivers::inside(self.rules, nodes).is_none()
    }

    fn write_nodes(&mut self, nodes: &[Node]) {
        for node in nodes {
            self.text.frame(&[&[0x05, node.production], &node.own.to_be_bytes()[..]].concat());
        }
    }
}

/// The fields of a point: its number and the count of its part.
fn point_fields(exchange: &Exchange) -> [u8; 4] {
    let [p, q] = (exchange.point as u16).to_be_bytes();
    let [high, low] = (exchange.part.len() as u16).to_be_bytes();
    [p, q, high, low]
}

fn with_other_owns(chance: &mut Chance, mut nodes: Vec<Node>) -> Vec<Node> {
    let at = chance.below(nodes.len());
    nodes[at].own = chance.set();
    nodes
}

#[cfg(test)]
mod tests {
    use super::Desk;
    use crate::chance::Chance;
    use crate::growth::Node;
    use crate::points::Met;
    use crate::rules::Rules;
    use crate::session::Size;
    use crate::text::Text;

    /// The tree that we think is held after some commands and what their rows met, and the twin's
    /// answer to them and to a dump behind them.
    fn answer(rules: &Rules, commands: impl FnOnce(&mut Desk)) -> (Vec<Node>, Met, Vec<String>) {
        let mut text = Text::default();
        rules.write(&mut text);
        let mut desk = Desk::new(rules, Size::Small, &mut text);
        commands(&mut desk);
        desk.dump();
        let (held, met) = (desk.held, desk.met);
        let mut answer = Vec::new();
        thrummisk_reference::session::run(&text.bytes()[..], &mut answer).unwrap();
        (held, met, String::from_utf8(answer).unwrap().lines().map(str::to_string).collect())
    }

    /// The sets at a session's end are those that a load of the tree gives which we think is held.
    /// Else we are wrong about what is refused, or the twin about what a refusal leaves.
    #[test]
    fn the_session_holds_what_we_think() {
        let (mut waived, mut behind, mut way) = (0, 0, 0);
        for seed in 1..=500 {
            let mut chance = Chance::new(seed);
            let rules = Rules::draw(&mut chance, Size::Small);
            let (held, met, lines) = answer(&rules, |desk| desk.draw(&mut chance));
            behind += usize::from(met.behind);
            way += usize::from(met.on_the_way);
            waived += usize::from(lines.iter().any(|line| line.starts_with("1f15")));
            if !held.is_empty() {
                let (_, _, cold) = answer(&rules, |desk| desk.load(&held));
                let sets: Vec<_> = cold.into_iter().filter(|line| line.starts_with("13")).collect();
                assert!(lines.ends_with(&sets), "seed {seed}");
            }
        }
        assert!(waived >= 10, "only {waived} sessions with a waiver inside a circle");
        assert!(behind >= 10, "only {behind} sessions with points right behind each other");
        assert!(way >= 5, "only {way} sessions with a tree too large on the way");
    }
}
