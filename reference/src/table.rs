//! Rule tables, judged frame by frame as they are read.

use std::io::Read;

use crate::frames::{EquationFields, Frame, Frames, Node, Occurrence};
use crate::refusal::{Halt, Refusal};
use crate::sets::{Formula, Op, COUNTED};

const SYMBOLS: u8 = 32;
const PRODUCTIONS: u8 = 64;
const SETS: u8 = 4;
const CHILDREN: u8 = 4;
/// The least index of an inherited set.
const INHERITED: u8 = 4;

#[derive(Clone, Copy)]
pub struct Symbol {
    pub synthesized: u8,
    pub inherited: u8,
}

impl Symbol {
    /// Where the set of this index stands in the row of the node's declared sets.
    fn offset(self, index: u8) -> Option<u8> {
        if index < self.synthesized {
            Some(index)
        } else if (INHERITED..INHERITED + self.inherited).contains(&index) {
            Some(self.synthesized + index - INHERITED)
        } else {
            None
        }
    }
}

/// A declared occurrence, and where its set stands in the row of the node's declared sets.
#[derive(Clone, Copy, Debug)]
pub struct Spot {
    pub position: u8,
    pub index: u8,
    pub offset: u8,
}

impl Spot {
    /// An argument that the operation doesn't use: behind every position of a production.
    const UNUSED: Spot = Spot { position: CHILDREN + 1, index: 0, offset: 0 };
}

#[derive(Clone, Copy)]
pub struct Equation {
    pub target: Spot,
    pub formula: Formula<Spot>,
    /// Whether the left node's own set is the constant.
    pub own_constant: bool,
}

pub struct Production {
    pub left: u8,
    pub children: Vec<u8>,
    /// How many sets a node of the left symbol has.
    pub sets: u16,
    pub equations: Vec<Equation>,
}

pub struct Table {
    symbols: Vec<Symbol>,
    productions: Vec<Production>,
}

impl Table {
    /// Reads a table. It is judged in frame order, so the first bad frame ends the reading.
    pub fn read<R: Read>(frames: &mut Frames<R>) -> Result<Table, Halt> {
        let Frame::Counts { symbols, productions } = frames.inside()? else {
            return Err(frames.misplaced());
        };
        if !(1..=SYMBOLS).contains(&symbols) || !(1..=PRODUCTIONS).contains(&productions) {
            return Err(frames.refuse(Refusal::CountOutsideLimit));
        }
        let mut table = Table { symbols: Vec::new(), productions: Vec::new() };
        for _ in 0..symbols {
            table.read_symbol(frames)?;
        }
        for _ in 0..productions {
            table.read_production(frames)?;
        }
        Ok(table)
    }

    pub fn production(&self, number: u8) -> Option<&Production> {
        self.productions.get(usize::from(number))
    }

    /// The production of a node that has been judged.
    pub fn production_of(&self, node: &Node) -> &Production {
        &self.productions[usize::from(node.production)]
    }

    /// Whether some equation waives.
    pub fn waives(&self) -> bool {
        let mut equations = self.productions.iter().flat_map(|production| &production.equations);
        equations.any(|equation| equation.formula.op == Op::Except)
    }

    /// The symbol on the left of a production.
    pub fn symbol_of(&self, production: &Production) -> Symbol {
        self.symbols[usize::from(production.left)]
    }

    fn read_symbol<R: Read>(&mut self, frames: &mut Frames<R>) -> Result<(), Halt> {
        let Frame::Symbol { synthesized, inherited } = frames.inside()? else {
            return Err(frames.misplaced());
        };
        if synthesized > SETS || inherited > SETS {
            return Err(frames.refuse(Refusal::CountOutsideLimit));
        }
        if self.symbols.is_empty() && inherited > 0 {
            return Err(frames.refuse(Refusal::StartInherits));
        }
        self.symbols.push(Symbol { synthesized, inherited });
        Ok(())
    }

    fn read_production<R: Read>(&mut self, frames: &mut Frames<R>) -> Result<(), Halt> {
        let mut production = self.read_shape(frames)?;
        for target in self.targets(&production) {
            let Frame::Equation(fields) = frames.inside()? else {
                return Err(frames.misplaced());
            };
            let equation = self.judge(&production, target, fields);
            let equation = equation.map_err(|refusal| frames.refuse(refusal))?;
            production.equations.push(equation);
        }
        self.productions.push(production);
        Ok(())
    }

    /// A production that has no equations yet.
    fn read_shape<R: Read>(&self, frames: &mut Frames<R>) -> Result<Production, Halt> {
        let Frame::Production { left, count, children } = frames.inside()? else {
            return Err(frames.misplaced());
        };
        if count > CHILDREN {
            return Err(frames.refuse(Refusal::CountOutsideLimit));
        }
        let children = children[..usize::from(count)].to_vec();
        let known = |&symbol: &u8| usize::from(symbol) < self.symbols.len();
        if !known(&left) || !children.iter().all(known) {
            return Err(frames.refuse(Refusal::UnknownSymbol));
        }
        let Symbol { synthesized, inherited } = self.symbols[usize::from(left)];
        let sets = u16::from(synthesized + inherited);
        Ok(Production { left, children, sets, equations: Vec::new() })
    }

    /// The sets that a production defines, in the order of its equations: synthesized ones of
    /// the left symbol, then inherited ones child by child.
    fn targets(&self, production: &Production) -> Vec<Spot> {
        let Symbol { synthesized, .. } = self.symbol_of(production);
        let here = (0..synthesized).map(|index| Spot { position: 0, index, offset: index });
        let mut targets: Vec<Spot> = here.collect();
        for (position, &child) in (1..).zip(&production.children) {
            let Symbol { synthesized, inherited } = self.symbols[usize::from(child)];
            let row = (INHERITED..INHERITED + inherited).zip(synthesized..);
            targets.extend(row.map(|(index, offset)| Spot { position, index, offset }));
        }
        targets
    }

    /// The equation that defines this set. An unused argument is zero and judged no further.
    fn judge(
        &self,
        of: &Production,
        target: Spot,
        fields: EquationFields,
    ) -> Result<Equation, Refusal> {
        let op = operation(fields).ok_or(Refusal::UnsoundOperation)?;
        let spot = |used: bool, occurrence: Occurrence| match used {
            true => self.spot(of, occurrence).ok_or(Refusal::UndeclaredArgument),
            false => Ok(Spot::UNUSED),
        };
        let (a, b) = (spot(op.uses_a(), fields.a)?, spot(op.uses_b(), fields.b)?);
        let formula = Formula { op, a, b, c: fields.c };
        let own_constant = matches!(fields.op, 1 | 8);
        Ok(Equation { target, formula, own_constant })
    }

    fn spot(&self, of: &Production, occurrence: Occurrence) -> Option<Spot> {
        let Occurrence { position, index } = occurrence;
        let symbol = match position {
            0 => of.left,
            _ => *of.children.get(usize::from(position) - 1)?,
        };
        let offset = self.symbols[usize::from(symbol)].offset(index)?;
        Some(Spot { position, index, offset })
    }
}

/// The operation of an equation: none where it is unknown, an unused field isn't zero, or op 7
/// asks for more members than it counts.
fn operation(fields: EquationFields) -> Option<Op> {
    let EquationFields { op: number, a, b, c } = fields;
    let op = match number {
        0 | 1 => Op::Constant,
        2 | 8 => Op::Add,
        3 => Op::Keep,
        4 => Op::Join,
        5 => Op::Meet,
        6 => Op::IfAll,
        7 if c <= COUNTED.into() => Op::IfCount,
        9 => Op::Except,
        _ => return None,
    };
    let zero = Occurrence { position: 0, index: 0 };
    let uses_c = matches!(number, 0 | 2 | 3 | 6 | 7);
    let unused_are_zero =
        (op.uses_a() || a == zero) && (op.uses_b() || b == zero) && (uses_c || c == 0);
    unused_are_zero.then_some(op)
}
