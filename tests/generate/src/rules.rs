//! Random sound rule tables.

use crate::chance::Chance;
use crate::session::Size;
use crate::text::Text;
use crate::waivers::{self, Allowed};

/// The most productions that a table may have.
pub const PRODUCTIONS: usize = 64;

#[derive(Clone, Copy)]
pub struct Symbol {
    pub synthesized: u8,
    pub inherited: u8,
}

impl Symbol {
    fn indices(self) -> impl Iterator<Item = u8> {
        (0..self.synthesized).chain(4..4 + self.inherited)
    }
}

/// Position and index.
pub type Occurrence = (u8, u8);

#[derive(Clone)]
pub struct Equation {
    pub op: u8,
    pub a: Occurrence,
    pub b: Occurrence,
    pub c: u64,
}

impl Equation {
    /// The arguments that its operation reads.
    pub fn arguments(&self) -> impl Iterator<Item = Occurrence> {
        let count = match self.op {
            0 | 1 => 0,
            2 | 3 | 8 => 1,
            _ => 2,
        };
        [self.a, self.b].into_iter().take(count)
    }
}

#[derive(Clone)]
pub struct Production {
    pub left: u8,
    pub children: Vec<u8>,
    pub equations: Vec<Equation>,
}

pub struct Rules {
    pub symbols: Vec<Symbol>,
    pub productions: Vec<Production>,
    /// By symbol: how many nodes its smallest tree has, if there is any.
    pub cheapest: Vec<Option<usize>>,
}

/// Which arguments a table's equations like to name.
#[derive(Clone, Copy)]
enum Net {
    /// Any declared one: circles of all sizes by chance.
    Any,
    /// Synthesized sets read children and what is inherited, inherited ones read the parent's:
    /// mostly lone circles.
    Downhill,
    /// As downhill, but children also inherit what is synthesized around them: sets go down and
    /// come back, so a circle may span the tree.
    Around,
    /// As around, with nothing but operations that read, and along lanes from the top of the
    /// tree to its leaves and back: great circles.
    Ring,
    /// Often the defined set itself.
    Itself,
}

impl Rules {
    pub fn new(symbols: Vec<Symbol>, productions: Vec<Production>) -> Self {
        let cheapest = cheapest(symbols.len(), &productions);
        Rules { symbols, productions, cheapest }
    }

    pub fn draw(chance: &mut Chance, size: Size) -> Self {
        if size != Size::Limit && chance.one_in(10) {
            return Self::relay(chance);
        }
        let rules = match size {
            Size::Limit => Self::full(chance),
            _ if chance.one_in(5) => Self::spine(chance),
            _ => Self::free(chance),
        };
        let Rules { symbols, productions, .. } = rules;
        let net = match size {
            Size::Limit => chance.pick(&[Net::Ring, Net::Ring, Net::Ring, Net::Around, Net::Any]),
            _ => chance.pick(&[Net::Any, Net::Downhill, Net::Around, Net::Ring, Net::Itself]),
        };
        let productions = productions
            .into_iter()
            .map(|production| with_equations(chance, net, &symbols, production))
            .collect();
        let mut rules = Self::new(symbols, productions);
        if chance.one_in(2) {
            let allowed = match net {
                // A table at the limit is there for its great circles: no leaf should break them.
                _ if size == Size::Limit => Allowed::Most,
                Net::Around | Net::Ring => {
                    chance.pick(&[Allowed::Most, Allowed::Broken, Allowed::Broken])
                }
                _ => chance.pick(&[Allowed::Most, Allowed::Smallest, Allowed::Smallest]),
            };
            waivers::add(chance, &mut rules, allowed);
        }
        rules
    }

    /// The sets that a production defines, in the order of its equations.
    pub fn targets(&self, production: &Production) -> Vec<Occurrence> {
        targets(&declared(&self.symbols, production))
    }

    /// Whether an equation is a waiver.
    pub fn waives(&self) -> bool {
        let equations = self.productions.iter().flat_map(|production| &production.equations);
        equations.into_iter().any(|equation| equation.op == 9)
    }

    pub fn write(&self, text: &mut Text) {
        text.frame(&[0x01, self.symbols.len() as u8, self.productions.len() as u8]);
        for symbol in &self.symbols {
            text.frame(&[0x02, symbol.synthesized, symbol.inherited]);
        }
        for Production { left, children, equations } in &self.productions {
            text.frame(&[&[0x03, *left, children.len() as u8], &children[..]].concat());
            for Equation { op, a, b, c } in equations {
                let head = [0x04, *op, a.0, a.1, b.0, b.1];
                text.frame(&[&head[..], &c.to_be_bytes()].concat());
            }
        }
    }

    /// Every node but the first has eight sets, so that 512 of them have 4,092; any number of
    /// nodes can be reached.
    fn full(chance: &mut Chance) -> Self {
        let symbols =
            vec![Symbol { synthesized: 4, inherited: 0 }, Symbol { synthesized: 4, inherited: 4 }];
        let mut productions = vec![bare(0, &[1]), bare(1, &[]), bare(1, &[1])];
        for _ in 0..chance.below(4) {
            productions.push(bare(1, &vec![1; chance.below(5)]));
        }
        Self::new(symbols, productions)
    }

    /// A few symbols, each of which can go on below itself: trees of any number of nodes.
    fn spine(chance: &mut Chance) -> Self {
        let symbols = symbols(chance, 1, 4);
        let count = symbols.len();
        let mut productions = vec![bare(0, &[chance.below(count) as u8])];
        for left in 0..count as u8 {
            productions.push(bare(left, &[]));
            productions.push(bare(left, &[left]));
            productions.push(bare(left, &some_symbols(chance, 0, count, 4)));
        }
        Self::new(symbols, productions)
    }

    /// The first node waives what it handed down itself, if that comes back: down one child and up,
    /// then down the next. A leaf passes it on or not, so that it may take several leaves to close
    /// the circle, and any one breaks it.
    fn relay(chance: &mut Chance) -> Self {
        let sets = |chance: &mut Chance| chance.between(1, 2) as u8;
        let symbols = vec![
            Symbol { synthesized: sets(chance), inherited: 0 },
            Symbol { synthesized: sets(chance), inherited: sets(chance) },
        ];
        let mut productions = vec![bare(0, &vec![1; chance.between(2, 3)])];
        productions.extend([0, 0, 0, 0, 1, 2, 2, 3].map(|children| bare(1, &vec![1; children])));
        let relayed = |production| {
            let production = with_equations(chance, Net::Downhill, &symbols, production);
            with_relay(chance, &symbols, production)
        };
        let productions = productions.into_iter().map(relayed).collect();
        Self::new(symbols, productions)
    }

    fn free(chance: &mut Chance) -> Self {
        let most = if chance.one_in(20) { 32 } else { 5 };
        let symbols = symbols(chance, 1, most);
        let count = symbols.len();
        let mut productions = Vec::new();
        // Children of higher symbols only: such a tree ends. Rarely a symbol goes without, and
        // some trees can't be made then.
        for left in 0..count {
            if !chance.one_in(40) {
                productions.push(bare(left as u8, &some_symbols(chance, left + 1, count, 3)));
            }
        }
        let room = PRODUCTIONS - productions.len();
        let more = if chance.one_in(20) { room } else { chance.below(room.min(9) + 1) };
        for _ in 0..more.max(usize::from(productions.is_empty())) {
            let left = chance.below(count) as u8;
            productions.push(bare(left, &some_symbols(chance, 0, count, 4)));
        }
        shuffle(chance, &mut productions);
        Self::new(symbols, productions)
    }
}

fn symbols(chance: &mut Chance, least: usize, most: usize) -> Vec<Symbol> {
    let sets = |chance: &mut Chance| chance.pick(&[0, 1, 1, 1, 2, 2, 3, 4]);
    let mut symbols: Vec<Symbol> = (0..chance.between(least, most))
        .map(|_| Symbol { synthesized: sets(chance), inherited: sets(chance) })
        .collect();
    symbols[0].inherited = 0;
    symbols
}

fn bare(left: u8, children: &[u8]) -> Production {
    Production { left, children: children.to_vec(), equations: Vec::new() }
}

/// Up to `most` symbols from `low` to below `end`; none where there are no such symbols.
fn some_symbols(chance: &mut Chance, low: usize, end: usize, most: usize) -> Vec<u8> {
    if low >= end {
        return Vec::new();
    }
    (0..chance.between(0, most)).map(|_| chance.between(low, end - 1) as u8).collect()
}

pub fn shuffle<T>(chance: &mut Chance, row: &mut [T]) {
    for end in (1..row.len()).rev() {
        row.swap(end, chance.below(end + 1));
    }
}

fn cheapest(symbols: usize, productions: &[Production]) -> Vec<Option<usize>> {
    let mut cheapest: Vec<Option<usize>> = vec![None; symbols];
    loop {
        let mut settled = true;
        for Production { left, children, .. } in productions {
            let below: Option<usize> =
                children.iter().map(|&child| cheapest[usize::from(child)]).sum();
            let known = &mut cheapest[usize::from(*left)];
            if let Some(below) = below {
                if known.is_none_or(|cost| below + 1 < cost) {
                    *known = Some(below + 1);
                    settled = false;
                }
            }
        }
        if settled {
            return cheapest;
        }
    }
}

fn with_equations(
    chance: &mut Chance,
    net: Net,
    symbols: &[Symbol],
    production: Production,
) -> Production {
    let declared = declared(symbols, &production);
    let targets = targets(&declared).into_iter();
    let equations = targets.map(|target| equation(chance, net, target, &declared)).collect();
    Production { equations, ..production }
}

/// The production as one of a relay, by the first synthesized and the first inherited sets. A
/// childless one passes on what it is handed, or only has an own set.
fn with_relay(chance: &mut Chance, symbols: &[Symbol], mut production: Production) -> Production {
    let children = production.children.len();
    let broken = children == 0 && chance.one_in(2);
    let targets = targets(&declared(symbols, &production));
    for (equation, target) in production.equations.iter_mut().zip(targets) {
        let Some(from) = relay_before(production.left, children as u8, target) else { continue };
        *equation = match target {
            (0, 0) if production.left == 0 => {
                let child = chance.between(1, children) as u8;
                Equation { op: 9, a: (child, 0), b: from, c: 0 }
            }
            (0, 0) if broken => Equation { op: 1, a: (0, 0), b: (0, 0), c: 0 },
            _ => Equation { op: 8, a: from, b: (0, 0), c: 0 },
        };
    }
    production
}

/// From which set a relay hands on to this one, if it is part of it.
fn relay_before(left: u8, children: u8, target: Occurrence) -> Option<Occurrence> {
    match target {
        (0, 0) if children == 0 => Some((0, 4)),
        (0, 0) => Some((children, 0)),
        (1, 4) if left == 0 => Some((0, 0)),
        (1, 4) => Some((0, 4)),
        (child, 4) => Some((child - 1, 0)),
        _ => None,
    }
}

/// The sets of a production's left symbol and children.
fn declared(symbols: &[Symbol], production: &Production) -> Vec<Occurrence> {
    let row = [&[production.left], &production.children[..]].concat();
    let sets = |(position, symbol): (u8, u8)| {
        symbols[usize::from(symbol)].indices().map(move |index| (position, index))
    };
    (0..).zip(row).flat_map(sets).collect()
}

/// Those of the declared sets that the production itself defines.
fn targets(declared: &[Occurrence]) -> Vec<Occurrence> {
    let is_defined = |&(position, index): &Occurrence| (position == 0) == (index < 4);
    declared.iter().copied().filter(is_defined).collect()
}

/// An equation for this set. Joins and own sets come more often than the rest: they let sets
/// grow and travel.
fn equation(
    chance: &mut Chance,
    net: Net,
    target: Occurrence,
    declared: &[Occurrence],
) -> Equation {
    let aside = chance.one_in(12);
    let liked = liked(if aside { Net::Any } else { net }, target, declared);
    let Net::Ring = net else {
        let op = chance.pick(&[0, 1, 2, 2, 3, 4, 4, 4, 4, 5, 6, 7, 8, 8, 8]);
        return with_op(chance, op, &liked);
    };
    let op = chance.pick(&[2, 2, 3, 4, 4, 4, 4, 5, 6, 7, 8, 8]);
    let mut equation = with_op(chance, op, &liked);
    equation.a = lane(chance, target, declared).unwrap_or(equation.a);
    equation
}

/// The arguments that a net likes for the equation of this set. Never none: at the worst all.
fn liked(net: Net, target: Occurrence, declared: &[Occurrence]) -> Vec<Occurrence> {
    let those = |wanted: fn(Occurrence) -> bool| {
        declared.iter().copied().filter(|&occurrence| wanted(occurrence)).collect::<Vec<_>>()
    };
    let from_above = those(|(position, index)| position == 0 && index >= 4);
    let from_below = those(|(position, index)| position > 0 && index < 4);
    let goes_down = target.0 > 0;
    let liked = match net {
        Net::Any => declared.to_vec(),
        Net::Itself => [from_above, vec![target]].concat(),
        Net::Downhill if goes_down => from_above,
        Net::Downhill | Net::Around | Net::Ring => [from_above, from_below].concat(),
    };
    if liked.is_empty() {
        declared.to_vec()
    } else {
        liked
    }
}

/// The next set on the lane of a set's index: down by inherited sets, at a leaf over to the
/// synthesized one, up by those, and at the top over to the inherited one.
fn lane(chance: &mut Chance, target: Occurrence, declared: &[Occurrence]) -> Option<Occurrence> {
    let (position, index) = target;
    let known = |occurrence: &Occurrence| declared.contains(occurrence);
    if position > 0 {
        return [(0, index), (position, index - 4)].into_iter().find(known);
    }
    let below: Vec<Occurrence> = (1..=4).map(|child| (child, index)).filter(known).collect();
    if below.is_empty() {
        return Some((0, index + 4)).filter(known);
    }
    Some(chance.pick(&below))
}

/// An equation with this op and arguments among the liked ones.
fn with_op(chance: &mut Chance, op: u8, liked: &[Occurrence]) -> Equation {
    let none = (0, 0);
    let a = chance.pick(liked);
    let b = chance.pick(liked);
    let c = chance.set();
    match op {
        0 => Equation { op, a: none, b: none, c },
        1 => Equation { op, a: none, b: none, c: 0 },
        2 | 3 => Equation { op, a, b: none, c },
        4 | 5 => Equation { op, a, b, c: 0 },
        6 => Equation { op, a, b, c: chance.pick(&[0, 1, 2, c & 15, c]) },
        7 => {
            let any = chance.between(0, 56) as u64;
            Equation { op, a, b, c: chance.pick(&[0, 1, 2, 3, 54, 55, 56, any]) }
        }
        _ => Equation { op: 8, a, b: none, c: 0 },
    }
}
