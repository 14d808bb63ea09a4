//! What a run of random sessions met: shows that it wasn't all small or all refused.

use std::collections::BTreeMap;
use std::fmt;

use thrummisk_reference::frames::Frames;
use thrummisk_reference::table::Table;

use crate::points::Met;
use crate::session::{Session, Size};
use crate::text::frame_of;

/// Counts by what was counted, and greatest values by what was measured.
#[derive(Default)]
pub struct Survey {
    counts: BTreeMap<String, u64>,
    greatest: BTreeMap<&'static str, u64>,
}

impl Survey {
    /// Takes in a session and the answer to it.
    pub fn add(&mut self, session: &Session, answer: &[u8]) {
        let (text, answers) = (frames(&session.text), frames(answer));
        let of_kind = |kind: u8| answers.iter().filter(move |frame| frame.first() == Some(&kind));
        let greatest = |kind: u8, from: usize, to: usize| {
            of_kind(kind).map(|frame| number(frame.get(from..to))).max().unwrap_or(0)
        };
        let (rounds, updates) = (of_kind(0x11).count(), of_kind(0x12).count());
        let (round, size) = (greatest(0x11, 3, 6), greatest(0x11, 6, 8));
        self.count("sessions", 1);
        self.count("sessions damaged", session.damaged.into());
        self.count("sessions at the limit of instances", (session.size == Size::Limit).into());
        self.count("sessions with an update done", (updates > 0).into());
        self.count("sessions with a circle of 1,000 or more", (size >= 1000).into());
        self.count("sessions with a dump", (of_kind(0x13).count() > 0).into());
        self.count_limits(&text);
        self.count_points(&text, &answers);
        if !session.damaged {
            self.count_met(session.met);
        }
        if table_waives(session) {
            self.count_waivers(&text, updates > 0);
        }
        self.count("updates done", updates as u64);
        self.count("rounds made", rounds as u64);
        self.measure("bytes of a text", session.text.len() as u64);
        self.measure("instances of a circle", size);
        self.measure("rounds of a circle", round);
        self.measure("evaluations of an update", greatest(0x12, 3, 7));
        self.count_refusals(of_kind(0x1f).flat_map(|frame| refusal(frame, &text)).collect());
    }

    /// A session counts once for each c that its op 7 asks for about the limit, and once if
    /// there are notes for op 7 to leave out.
    fn count_limits(&mut self, text: &[Vec<u8>]) {
        let mut asked = asked(text);
        asked.sort_unstable();
        asked.dedup();
        for c in asked.iter().filter(|c| (54..=58).contains(*c)) {
            self.count(&format!("sessions where op 7 asks for {c}"), 1);
        }
        let noted = |frame: &Vec<u8>| frame.len() == 10 && frame[0] == 0x05 && frame[2] != 0;
        let notes = !asked.is_empty() && text.iter().any(noted);
        self.count("sessions with op 7 and a node with notes", notes.into());
    }

    /// A session counts once for each number of points that a command of several points had which
    /// was accepted.
    fn count_points(&mut self, text: &[Vec<u8>], answers: &[Vec<u8>]) {
        let accepted = accepted(text, answers);
        for points in 1..=8 {
            let has = accepted.contains(&points);
            self.count(&format!("sessions with 09 accepted, {points} points"), has.into());
        }
        let several = accepted.iter().any(|&points| points > 1);
        self.count("sessions with 09 accepted, 2 or more points", several.into());
        self.count("commands 09 accepted", accepted.len() as u64);
    }

    /// What can't be told from text and answer alone.
    fn count_met(&mut self, met: Met) {
        self.count("sessions with 09, one right behind another", met.behind.into());
        self.count("sessions with 09, past 512 on the way", met.on_the_way.into());
        self.count("sessions with 09, 21 by all together alone", met.together.into());
        self.count("sessions with 09, 21 by one alone made good", met.made_good.into());
    }

    /// For a session whose table has a waiver and is accepted.
    fn count_waivers(&mut self, text: &[Vec<u8>], done: bool) {
        let near = asked(text).iter().any(|c| (54..=56).contains(c));
        self.count("sessions with op 9 in an accepted table", 1);
        self.count("sessions with op 9 and an update done", done.into());
        self.count("sessions with op 9 and op 7 near its limit", near.into());
    }

    pub fn join(&mut self, other: Survey) {
        for (what, count) in other.counts {
            self.count(&what, count);
        }
        for (what, value) in other.greatest {
            self.measure(what, value);
        }
    }

    /// A session counts once for each refusal that it was given.
    fn count_refusals(&mut self, mut refusals: Vec<String>) {
        refusals.sort_unstable();
        refusals.dedup();
        self.count("sessions with no refusal", refusals.is_empty().into());
        for refusal in refusals {
            self.count(&format!("sessions with refusal {refusal}"), 1);
        }
    }

    pub fn count(&mut self, what: &str, count: u64) {
        *self.counts.entry(what.to_string()).or_default() += count;
    }

    fn measure(&mut self, what: &'static str, value: u64) {
        let greatest = self.greatest.entry(what).or_default();
        *greatest = value.max(*greatest);
    }
}

/// A refusal by its number, and again by what it was given to where that is counted apart.
fn refusal(frame: &[u8], text: &[Vec<u8>]) -> Vec<String> {
    let (refusal, line) = (number(frame.get(1..2)), number(frame.get(2..6)) as usize);
    let refused = line.checked_sub(1).and_then(|at| text.get(at));
    let what = match (refusal, refused.map(|frame| &frame[..])) {
        (4, Some([0x04, 10, ..])) => Some("op 10"),
        (21, Some([0x06, ..])) => Some("a load"),
        (21, Some([0x07, ..])) => Some("a replacement"),
        (6..=9 | 16 | 21, Some([0x09, ..])) => Some("a 09"),
        (22, Some([0x09, 0])) => Some("no points"),
        (13 | 14, Some([0x09 | 0x0b, ..])) => Some("a line of points"),
        _ => None,
    };
    let apart = what.map(|what| format!("{refusal:2} of {what}"));
    [Some(format!("{refusal:2}")), apart].into_iter().flatten().collect()
}

/// The numbers of points of those commands of several points that weren't refused. Before the line
/// that ends a session every such frame is a command.
fn accepted(text: &[Vec<u8>], answers: &[Vec<u8>]) -> Vec<usize> {
    let refused: Vec<(u64, usize)> = answers
        .iter()
        .filter(|frame| frame.first() == Some(&0x1f))
        .map(|frame| (number(frame.get(1..2)), number(frame.get(2..6)) as usize))
        .collect();
    let ends = |refusal: u64| matches!(refusal, 1..=5 | 13 | 14);
    let end = refused.iter().find(|(refusal, _)| ends(*refusal)).map_or(usize::MAX, |last| last.1);
    let mut accepted = Vec::new();
    for (line, frame) in (1..).zip(text).take_while(|(line, _)| *line < end) {
        let &[0x09, points] = &frame[..] else { continue };
        let points = usize::from(points);
        let rows = text.iter().skip(line).take(points);
        let nodes: usize = rows.map(|row| number(row.get(3..5)) as usize).sum();
        if line + points + nodes < end && refused.iter().all(|refusal| refusal.1 != line) {
            accepted.push(points);
        }
    }
    accepted
}

fn frames(text: &[u8]) -> Vec<Vec<u8>> {
    text.split(|&byte| byte == b'\n').map(frame_of).collect()
}

/// The numbers of members that a table's op 7 asks for.
fn asked(text: &[Vec<u8>]) -> Vec<u64> {
    let counting = |frame: &&Vec<u8>| frame.len() == 14 && frame.starts_with(&[0x04, 0x07]);
    text.iter().filter(counting).map(|frame| number(frame.get(6..14))).collect()
}

fn table_waives(session: &Session) -> bool {
    Table::read(&mut Frames::new(&session.text[..])).is_ok_and(|table| table.waives())
}

fn number(bytes: Option<&[u8]>) -> u64 {
    bytes.unwrap_or_default().iter().fold(0, |number, &byte| number << 8 | u64::from(byte))
}

impl fmt::Display for Survey {
    fn fmt(&self, to: &mut fmt::Formatter) -> fmt::Result {
        for (what, count) in &self.counts {
            writeln!(to, "{what:45}{count:>12}")?;
        }
        for (what, value) in &self.greatest {
            writeln!(to, "most {what:40}{value:>12}")?;
        }
        Ok(())
    }
}
