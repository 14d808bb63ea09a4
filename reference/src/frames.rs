//! Frames: what a good line says, and the frames that a session prints.

use std::io::{self, Read, Write};

use crate::lines::Lines;
use crate::refusal::{Halt, Refusal};

/// A position of a production (0 the left symbol, then its children) and a set index there.
#[derive(Clone, Copy, Debug, PartialEq, Eq)]
pub struct Occurrence {
    pub position: u8,
    pub index: u8,
}

/// The fields of an equation's frame, not yet judged.
#[derive(Clone, Copy, Debug)]
pub struct EquationFields {
    pub op: u8,
    pub a: Occurrence,
    pub b: Occurrence,
    pub c: u64,
}

/// A node of a tree: its production and its own set.
#[derive(Clone, Copy, Debug, Default)]
pub struct Node {
    pub production: u8,
    pub own: u64,
}

/// A point of a replacement: a node of the tree as it was, and how many nodes its new part has.
#[derive(Clone, Copy, Debug)]
pub struct Point {
    pub node: u16,
    pub count: u16,
}

#[derive(Clone, Copy, Debug)]
pub enum Frame {
    Counts {
        symbols: u8,
        productions: u8,
    },
    Symbol {
        synthesized: u8,
        inherited: u8,
    },
    /// Children behind the fourth are not kept: such a count is refused before they matter.
    Production {
        left: u8,
        count: u8,
        children: [u8; 4],
    },
    Equation(EquationFields),
    Node(Node),
    Load {
        count: u16,
    },
    Replace(Point),
    Dump,
    ReplaceAll {
        points: u8,
    },
    Point(Point),
}

impl Frame {
    /// The frame that these bytes are, unless its type is unknown or its length wrong.
    fn parse(bytes: &[u8]) -> Option<Frame> {
        let frame = match *bytes {
            [0x01, symbols, productions] => Frame::Counts { symbols, productions },
            [0x02, synthesized, inherited] => Frame::Symbol { synthesized, inherited },
            [0x03, left, count, ref row @ ..] if row.len() == usize::from(count) => {
                Frame::Production { left, count, children: first_four(row) }
            }
            [0x04, op, a, a_index, b, b_index, ref c @ ..] => Frame::Equation(EquationFields {
                op,
                a: Occurrence { position: a, index: a_index },
                b: Occurrence { position: b, index: b_index },
                c: set(c)?,
            }),
            [0x05, production, ref own @ ..] => Frame::Node(Node { production, own: set(own)? }),
            [0x06, high, low] => Frame::Load { count: u16::from_be_bytes([high, low]) },
            [0x07, ref rest @ ..] => Frame::Replace(point(rest)?),
            [0x08] => Frame::Dump,
            [0x09, points] => Frame::ReplaceAll { points },
            [0x0b, ref rest @ ..] => Frame::Point(point(rest)?),
            _ => return None,
        };
        Some(frame)
    }
}

fn set(bytes: &[u8]) -> Option<u64> {
    Some(u64::from_be_bytes(bytes.try_into().ok()?))
}

fn point(bytes: &[u8]) -> Option<Point> {
    let [r, s, high, low] = bytes.try_into().ok()?;
    Some(Point { node: u16::from_be_bytes([r, s]), count: u16::from_be_bytes([high, low]) })
}

fn first_four(row: &[u8]) -> [u8; 4] {
    let mut children = [0; 4];
    for (child, &byte) in children.iter_mut().zip(row) {
        *child = byte;
    }
    children
}

/// The frames of a text, in order.
pub struct Frames<R> {
    lines: Lines<R>,
}

impl<R: Read> Frames<R> {
    pub fn new(input: R) -> Self {
        Frames { lines: Lines::new(input) }
    }

    /// The line of the frame handed out last.
    pub fn line(&self) -> u32 {
        self.lines.line()
    }

    pub fn is_dry(&self) -> bool {
        self.lines.is_dry()
    }

    /// The next frame where the text may end instead.
    pub fn next_frame(&mut self) -> Result<Option<Frame>, Halt> {
        let Some(bytes) = self.lines.next_line()? else {
            return Ok(None);
        };
        match Frame::parse(bytes.as_slice()) {
            Some(frame) => Ok(Some(frame)),
            None => Err(self.misplaced()),
        }
    }

    /// The next frame inside a table or a command, where the text must go on.
    pub fn inside(&mut self) -> Result<Frame, Halt> {
        match self.next_frame()? {
            Some(frame) => Ok(frame),
            None => Err(Halt::Refused(Refusal::BadFrame, self.lines.line_after())),
        }
    }

    /// The last frame stands where another kind belongs.
    pub fn misplaced(&self) -> Halt {
        self.refuse(Refusal::BadFrame)
    }

    /// The last frame is refused.
    pub fn refuse(&self, refusal: Refusal) -> Halt {
        Halt::Refused(refusal, self.line())
    }
}

/// One round of one circle, as printed.
#[derive(Clone, Copy, Debug, PartialEq, Eq)]
pub struct Round {
    pub least: u16,
    pub round: u32,
    pub size: u16,
    pub closed: bool,
}

/// What an update that is done answers.
#[derive(Clone, Copy, Debug, PartialEq, Eq)]
pub struct Done {
    pub circles: u16,
    pub evaluations: u32,
    pub changed: u16,
}

/// Prints frames, one a line.
pub struct Printer<W> {
    output: W,
}

impl<W: Write> Printer<W> {
    pub fn new(output: W) -> Self {
        Printer { output }
    }

    pub fn flush(&mut self) -> io::Result<()> {
        self.output.flush()
    }

    pub fn round(&mut self, round: Round) -> io::Result<()> {
        let [l, m] = round.least.to_be_bytes();
        let [_, r, s, t] = round.round.to_be_bytes();
        let [y, z] = round.size.to_be_bytes();
        self.print(&[0x11, l, m, r, s, t, y, z, u8::from(round.closed)])
    }

    pub fn done(&mut self, done: Done) -> io::Result<()> {
        let [c, d] = done.circles.to_be_bytes();
        let [e, f, g, h] = done.evaluations.to_be_bytes();
        let [y, z] = done.changed.to_be_bytes();
        self.print(&[0x12, c, d, e, f, g, h, y, z])
    }

    pub fn reading(&mut self, instance: u16, value: u64) -> io::Result<()> {
        let mut bytes = [0x13; 11];
        bytes[1..3].copy_from_slice(&instance.to_be_bytes());
        bytes[3..].copy_from_slice(&value.to_be_bytes());
        self.print(&bytes)
    }

    pub fn refusal(&mut self, refusal: Refusal, line: u32) -> io::Result<()> {
        let [a, b, c, d] = line.to_be_bytes();
        self.print(&[0x1f, refusal.number(), a, b, c, d])
    }

    fn print(&mut self, bytes: &[u8]) -> io::Result<()> {
        const HEX: &[u8; 16] = b"0123456789abcdef";
        let mut text = [b'\n'; 23];
        for (pair, &byte) in text.chunks_exact_mut(2).zip(bytes) {
            pair[0] = HEX[usize::from(byte >> 4)];
            pair[1] = HEX[usize::from(byte & 15)];
        }
        self.output.write_all(&text[..2 * bytes.len() + 1])
    }
}
