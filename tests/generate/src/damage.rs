//! Damage to a session's text, from one digit to whole lines.

use crate::chance::Chance;
use crate::text::{frame_of, line, Text};

type Damage = fn(&mut Chance, &mut Text);

const KINDS: [Damage; 44] = [
    // A field changed inside a good frame is how tables come to be refused: so, several times.
    another_field,
    another_field,
    another_field,
    another_field,
    another_field,
    another_field,
    counts_at_limits,
    members_at_limit,
    members_at_limit,
    members_at_limit,
    operation_at_limit,
    operation_at_limit,
    another_argument,
    another_argument,
    points_line,
    points_line,
    points_line,
    points_line,
    points_line,
    points_line,
    points_line,
    points_line,
    more_children,
    another_digit,
    another_digit,
    another_byte,
    another_type,
    upper_case,
    digit_lost,
    digit_more,
    byte_lost,
    byte_more,
    line_lost,
    line_twice,
    lines_swapped,
    line_from_elsewhere,
    strange_line,
    long_line,
    broken_line,
    joined_lines,
    carriage_returns,
    stray_byte,
    cut_short,
    something_behind,
];

pub fn damage(chance: &mut Chance, text: &mut Text) {
    let times = chance.pick(&[1, 1, 1, 1, 2, 3]);
    for _ in 0..times {
        if !text.lines.is_empty() {
            chance.pick(&KINDS)(chance, text);
        }
    }
}

/// Any line, but half the time one of the later half, behind commands that were answered.
fn any_line(chance: &mut Chance, text: &Text) -> usize {
    let count = text.lines.len();
    let first = if chance.one_in(2) { count / 2 } else { 0 };
    chance.between(first, count - 1)
}

fn any_place(chance: &mut Chance, text: &Text) -> (usize, usize) {
    let at = any_line(chance, text);
    (at, chance.below(text.lines[at].len().max(1)))
}

/// A field of some frame gets another value, often one beside a limit. The frame's type is
/// drawn before the frame, since most frames are equations and nodes.
fn another_field(chance: &mut Chance, text: &mut Text) {
    let kinds = [1, 2, 2, 3, 3, 4, 4, 4, 5, 6, 7, 9, 9, 0x0b, 0x0b];
    let kind = chance.pick(&kinds);
    let of_kind = lines_of(text, |first| first == kind);
    if of_kind.is_empty() {
        return;
    }
    // The first of its kind is symbol 0 or production 0, and has rules of its own.
    let at = if chance.one_in(3) { of_kind[0] } else { chance.pick(&of_kind) };
    let mut frame = frame_of(&text.lines[at]);
    if frame.len() < 2 {
        return;
    }
    let field = if chance.one_in(3) { frame.len() - 1 } else { chance.between(1, frame.len() - 1) };
    let beside = [0, 1, 2, 3, 4, 5, 6, 7, 8, 9, 10, 31, 32, 33, 55, 56, 57, 63, 64, 65, 255];
    frame[field] = match chance.below(3) {
        0 => frame[field].wrapping_add(1),
        1 => frame[field].wrapping_sub(1),
        _ => chance.pick(&beside),
    };
    text.lines[at] = line(&frame);
}

/// The lines whose frames have such a type.
fn lines_of(text: &Text, wanted: impl Fn(u8) -> bool) -> Vec<usize> {
    let fits = |&at: &usize| frame_of(&text.lines[at]).first().is_some_and(|&kind| wanted(kind));
    (0..text.lines.len()).filter(fits).collect()
}

/// A header whose counts lie on or beside their limits.
fn counts_at_limits(chance: &mut Chance, text: &mut Text) {
    let symbols = chance.pick(&[0, 1, 31, 32, 33, 64, 255]);
    let productions = chance.pick(&[0, 1, 32, 63, 64, 65, 255]);
    let mut header = frame_of(&text.lines[0]);
    if let [0x01, before, after] = &mut header[..] {
        (*before, *after) = match chance.below(3) {
            0 => (symbols, productions),
            1 => (symbols, *after),
            _ => (*before, productions),
        };
        text.lines[0] = line(&header);
    }
}

/// An equation with op 7 that asks for about as many members as it can count.
fn members_at_limit(chance: &mut Chance, text: &mut Text) {
    let wanted: u64 = chance.pick(&[54, 55, 56, 57, 57, 58, 58, 64, 256, 1 << 32, u64::MAX]);
    let Some((at, mut frame)) = an_equation(chance, text, |frame| frame[1] == 7) else { return };
    frame[6..].copy_from_slice(&wanted.to_be_bytes());
    text.lines[at] = line(&frame);
}

/// An equation without a constant that gets one of the last operations or one past them, and
/// rarely a constant besides.
fn operation_at_limit(chance: &mut Chance, text: &mut Text) {
    let found = an_equation(chance, text, |frame| frame[6..] == [0; 8]);
    let Some((at, mut frame)) = found else { return };
    frame[1] = chance.pick(&[8, 9, 9, 10, 10, 10, 11]);
    if chance.one_in(6) {
        frame[chance.between(6, 13)] = 1;
    }
    text.lines[at] = line(&frame);
}

/// An equation, one in two a waiver, whose a or b names something else, declared or not.
fn another_argument(chance: &mut Chance, text: &mut Text) {
    let any = chance.one_in(2);
    let found = an_equation(chance, text, |frame| any || frame[1] == 9);
    let Some((at, mut frame)) = found else { return };
    let position = chance.pick(&[2, 4]);
    if chance.one_in(2) {
        frame[position] = chance.between(0, 5) as u8;
    } else {
        frame[position + 1] = chance.between(0, 8) as u8;
    }
    text.lines[at] = line(&frame);
}

/// One line less or more among the points of a command, or one of another length or type, or no
/// line at all.
fn points_line(chance: &mut Chance, text: &mut Text) {
    let found = lines_of(text, |kind| matches!(kind, 0x09 | 0x0b));
    if found.is_empty() {
        return;
    }
    let at = chance.pick(&found);
    let frame = frame_of(&text.lines[at]);
    let (kind, fields) = (frame[0], &frame[1..]);
    let other = chance.pick(&[0x05, 0x07, 0x07, 0x07, 0x08, 0x09, 0x0a, 0x0b, 0x0c]);
    match chance.below(12) {
        0 => drop(text.lines.remove(at)),
        1 => text.lines.insert(at, text.lines[at].clone()),
        2 => text.lines[at] = line(&frame[..frame.len() - 1]),
        3 => text.lines[at] = line(&[&frame[..], &[other]].concat()),
        4..=6 => text.lines[at] = line(&[&[other], fields].concat()),
        7 => text.lines[at][0] = b'g',
        8 => text.lines[at].make_ascii_uppercase(),
        9 => drop(text.lines[at].remove(0)),
        10 => text.lines.truncate(at + chance.below(2)),
        _ => text.lines.insert(at + 1, line(&[&[kind ^ 2], fields].concat())),
    }
}

/// The line and the frame of a whole equation that fits.
fn an_equation(
    chance: &mut Chance,
    text: &Text,
    fits: impl Fn(&[u8]) -> bool,
) -> Option<(usize, Vec<u8>)> {
    let is_whole = |frame: &[u8]| frame.len() == 14 && frame[0] == 0x04;
    let mut found: Vec<(usize, Vec<u8>)> = text
        .lines
        .iter()
        .map(|line| frame_of(line))
        .enumerate()
        .filter(|(_, frame)| is_whole(frame) && fits(frame))
        .collect();
    if found.is_empty() {
        return None;
    }
    Some(found.swap_remove(chance.below(found.len())))
}

/// A production frame with more children than it may have, and as long as it then should be.
fn more_children(chance: &mut Chance, text: &mut Text) {
    let Some(at) = text.lines.iter().position(|line| line.starts_with(b"03")) else { return };
    let count = chance.between(4, 13) as u8;
    let mut frame = vec![0x03, chance.byte() % 2, count];
    frame.extend((0..count).map(|_| chance.byte() % 2));
    text.lines[at] = line(&frame);
}

fn another_digit(chance: &mut Chance, text: &mut Text) {
    let (at, place) = any_place(chance, text);
    if let Some(byte) = text.lines[at].get_mut(place).filter(|byte| **byte != b'\n') {
        *byte = chance.pick(b"0123456789abcdef");
    }
}

fn another_byte(chance: &mut Chance, text: &mut Text) {
    let (at, place) = any_place(chance, text);
    let beside = chance.pick(b"/:`g@GAF \x00\xff\n\r");
    let any = chance.byte();
    if let Some(byte) = text.lines[at].get_mut(place) {
        *byte = chance.pick(&[beside, any]);
    }
}

fn another_type(chance: &mut Chance, text: &mut Text) {
    let at = any_line(chance, text);
    let mut frame = frame_of(&text.lines[at]);
    if let Some(kind) = frame.first_mut() {
        let any = chance.byte();
        *kind = chance.pick(&[0, 1, 2, 3, 4, 5, 6, 7, 8, 9, 0x0b, 0x11, 0x12, 0x13, 0x1f, any]);
        text.lines[at] = line(&frame);
    }
}

fn upper_case(chance: &mut Chance, text: &mut Text) {
    let from = any_line(chance, text);
    let has_letter = |line: &&mut Vec<u8>| line.iter().any(u8::is_ascii_lowercase);
    if let Some(line) = text.lines[from..].iter_mut().find(has_letter) {
        line.make_ascii_uppercase();
    }
}

fn digit_lost(chance: &mut Chance, text: &mut Text) {
    let (at, place) = any_place(chance, text);
    if place < text.lines[at].len() {
        text.lines[at].remove(place);
    }
}

fn digit_more(chance: &mut Chance, text: &mut Text) {
    let (at, place) = any_place(chance, text);
    text.lines[at].insert(place, chance.pick(b"0123456789abcdef"));
}

fn byte_lost(chance: &mut Chance, text: &mut Text) {
    let at = any_line(chance, text);
    let mut frame = frame_of(&text.lines[at]);
    frame.pop();
    text.lines[at] = line(&frame);
}

fn byte_more(chance: &mut Chance, text: &mut Text) {
    let at = any_line(chance, text);
    let mut frame = frame_of(&text.lines[at]);
    frame.push(chance.pick(&[0, 1, 0xff]));
    text.lines[at] = line(&frame);
}

fn line_lost(chance: &mut Chance, text: &mut Text) {
    let at = any_line(chance, text);
    text.lines.remove(at);
}

fn line_twice(chance: &mut Chance, text: &mut Text) {
    let at = any_line(chance, text);
    text.lines.insert(at, text.lines[at].clone());
}

fn lines_swapped(chance: &mut Chance, text: &mut Text) {
    let (one, other) = (any_line(chance, text), any_line(chance, text));
    text.lines.swap(one, other);
}

fn line_from_elsewhere(chance: &mut Chance, text: &mut Text) {
    let (at, from) = (any_line(chance, text), any_line(chance, text));
    text.lines.insert(at, text.lines[from].clone());
}

/// A line more: a good one of any type and length, an empty one, or spaces.
fn strange_line(chance: &mut Chance, text: &mut Text) {
    let at = any_line(chance, text);
    let bytes: Vec<u8> = (0..chance.between(1, 15)).map(|_| chance.byte()).collect();
    let strange = match chance.below(4) {
        0 => b"\n".to_vec(),
        1 => b" 08 \n".to_vec(),
        2 => line(&[&[chance.between(0, 11) as u8], &bytes[..]].concat()),
        _ => line(&bytes),
    };
    text.lines.insert(at, strange);
}

/// More digits than a line may have: just more, or far more than any window holds.
fn long_line(chance: &mut Chance, text: &mut Text) {
    let at = any_line(chance, text);
    let digits = match chance.below(8) {
        0 => chance.between(10_000, 100_000),
        1 | 2 => chance.between(100, 2000),
        _ => chance.between(26, 34),
    };
    let mut long = frame_of(&text.lines[at]);
    long.resize(digits / 2, 0);
    text.lines[at] = line(&long);
}

fn broken_line(chance: &mut Chance, text: &mut Text) {
    let (at, place) = any_place(chance, text);
    text.lines[at].insert(place, b'\n');
}

fn joined_lines(chance: &mut Chance, text: &mut Text) {
    let at = any_line(chance, text);
    text.lines[at].pop();
}

fn carriage_returns(chance: &mut Chance, text: &mut Text) {
    let at = any_line(chance, text);
    let end = if chance.one_in(2) { at + 1 } else { text.lines.len() };
    for line in &mut text.lines[at..end] {
        let place = line.len().saturating_sub(1);
        line.insert(place, b'\r');
    }
}

/// A byte that no text should hold.
fn stray_byte(chance: &mut Chance, text: &mut Text) {
    let (at, place) = any_place(chance, text);
    let high = 128 | chance.byte();
    let stray = chance.pick(&[0, 0, high, high, b' ', b'\t', b'-', b'x']);
    text.lines[at].insert(place, stray);
}

/// The text ends at any of its bytes, before its first one too.
fn cut_short(chance: &mut Chance, text: &mut Text) {
    let at = any_line(chance, text);
    let place = chance.below(text.lines[at].len() + 1);
    text.lines.truncate(at + 1);
    text.lines[at].truncate(place);
    if chance.one_in(20) {
        text.lines.clear();
    }
}

fn something_behind(chance: &mut Chance, text: &mut Text) {
    let tails: [&[u8]; 12] = [
        b"\n",
        b"0",
        b"08",
        b"\r\n",
        b"\0",
        b"060001\n",
        b"0700000001",
        b"0900\n08\n",
        b"09\n",
        b"0901\n",
        b"0901\n0b00000001\n",
        b"0b00000001\n",
    ];
    text.lines.push(chance.pick(&tails).to_vec());
}
