//! The session: one table, then commands, each answered before the next is read.

use std::io::{self, Read, Write};

use crate::engine::{Engine, Part, Step};
use crate::frames::{Frame, Frames, Point, Printer};
use crate::refusal::{Halt, Refusal};
use crate::table::Table;
use crate::tree::NODES;

/// Reads a session and prints its answers. An error is one of reading or writing; a refused
/// text is an answer.
pub fn run(input: impl Read, output: impl Write) -> io::Result<()> {
    let mut frames = Frames::new(input);
    let mut printer = Printer::new(output);
    match answer(&mut frames, &mut printer) {
        Ok(()) => {}
        Err(Halt::Refused(refusal, line)) => printer.refusal(refusal, line)?,
        Err(Halt::Failed(error)) => return Err(error),
    }
    printer.flush()
}

fn answer<R: Read, W: Write>(frames: &mut Frames<R>, printer: &mut Printer<W>) -> Result<(), Halt> {
    let mut engine = Engine::new(Table::read(frames)?);
    let mut part = Part::default();
    let mut points = Vec::new();
    loop {
        // Nobody should wait for answers that we hold back while we wait for text.
        if frames.is_dry() {
            printer.flush()?;
        }
        let Some(command) = frames.next_frame()? else {
            return Ok(());
        };
        let line = frames.line();
        let opened = match command {
            Frame::Load { count } => {
                read_part(frames, count.into(), &mut part)?;
                engine.load(&part)
            }
            Frame::Replace(point) => {
                read_part(frames, point.count.into(), &mut part)?;
                engine.replace(&[point], &part)
            }
            Frame::ReplaceAll { points: count } => {
                read_points(frames, count, &mut points)?;
                let nodes = points.iter().map(|point| usize::from(point.count)).sum();
                read_part(frames, nodes, &mut part)?;
                engine.replace(&points, &part)
            }
            Frame::Dump => {
                dump(&engine, line, printer)?;
                continue;
            }
            _ => return Err(frames.misplaced()),
        };
        match opened {
            Ok(()) => run_to_done(&mut engine, printer)?,
            Err(refusal) => printer.refusal(refusal, line)?,
        }
    }
}

/// A bad line comes before whatever else is wrong with a command, so all its points and nodes
/// are read even where it is sure to be refused.
fn read_points<R: Read>(
    frames: &mut Frames<R>,
    count: u8,
    points: &mut Vec<Point>,
) -> Result<(), Halt> {
    points.clear();
    for _ in 0..count {
        let Frame::Point(point) = frames.inside()? else {
            return Err(frames.misplaced());
        };
        points.push(point);
    }
    Ok(())
}

fn read_part<R: Read>(frames: &mut Frames<R>, count: usize, part: &mut Part) -> Result<(), Halt> {
    part.count = count;
    part.nodes.clear();
    for _ in 0..count {
        let Frame::Node(node) = frames.inside()? else {
            return Err(frames.misplaced());
        };
        if part.nodes.len() < NODES {
            part.nodes.push(node);
        }
    }
    Ok(())
}

fn run_to_done<W: Write>(engine: &mut Engine, printer: &mut Printer<W>) -> io::Result<()> {
    loop {
        match engine.step() {
            Step::Round(round) => printer.round(round)?,
            Step::Done(done) => return printer.done(done),
        }
    }
}

fn dump<W: Write>(engine: &Engine, line: u32, printer: &mut Printer<W>) -> io::Result<()> {
    if !engine.holds() {
        return printer.refusal(Refusal::NoTree, line);
    }
    for (instance, value) in engine.readings() {
        printer.reading(instance, value)?;
    }
    Ok(())
}
