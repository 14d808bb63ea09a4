//! Days of two clerks, of whom each corrects a point of the same tree: whoever comes first, the
//! tree and all its sets are to be the same at the end.
//!
//! The session of a day has both orders, each with a load and a dump of its own. We draw it, and
//! judge the answer to it.

use std::iter::{self, Peekable};
use std::slice;

use crate::chance::Chance;
use crate::commands::{Desk, NODES};
use crate::growth::{symbol_of, Node};
use crate::points::{Exchange, Row};
use crate::rules::Rules;
use crate::session::Size;
use crate::survey::Survey;
use crate::text::{frame_of, Text};

/// All that a tree may be refused by which two clerks make of parts that fit.
const TOO_MANY_NODES: u8 = 8;
const WAIVER_IN_CIRCLE: u8 = 21;

/// A way to draw two corrections, rising and apart, if the tree has such.
type Sought = fn(&Desk, &mut Chance) -> Option<Row>;

/// What a day is about. Growth comes most often: without it, either order has the same numbers.
const SOUGHT: [Sought; 12] = [
    anything,
    anything,
    growth_in_front,
    growth_in_front,
    growth_in_front,
    growth_at_both,
    growth_at_both,
    growth_at_both,
    growth_at_both,
    trade,
    trade,
    made_good,
];

/// The number that the clerk who comes second writes for a point: by its number in the tree as it
/// was, by the first one's point, and by the growth there.
pub type Numbering = fn(point: usize, first: usize, growth: isize) -> usize;

pub struct Day {
    pub text: Vec<u8>,
    /// Whether clerk one's point stands before clerk two's.
    one_before: bool,
    /// Whether in some order the second has another number than in the tree as it was.
    shifted: bool,
    /// Whether the table has a waiver.
    waives: bool,
    /// How many sets the tree has at the end.
    sets: usize,
    /// By what the tree between is to be refused: with clerk one first, and with clerk two.
    between: [Option<u8>; 2],
    /// By what the tree at the end is to be refused, in either order.
    last: Option<u8>,
}

/// How a day went on which nothing is wrong.
#[derive(Debug, PartialEq, Eq)]
pub enum End {
    /// Both orders were accepted and ended alike, with so many evaluations each.
    Alike([u64; 2]),
    /// Only one order was refused, by this number.
    OneRefused(u8),
    BothRefused,
}

/// The day of a seed, with the second clerk's points numbered in this way.
pub fn draw(seed: u64, numbering: Numbering) -> Day {
    let mut chance = Chance::new(seed);
    let size = size(&mut chance);
    let sought = chance.pick(&SOUGHT);
    loop {
        let rules = Rules::draw(&mut chance, size);
        let mut text = Text::default();
        rules.write(&mut text);
        let mut desk = Desk::new(&rules, size, &mut text);
        if let Some(clerks) = clerks(&mut desk, &mut chance, sought) {
            let day = write(&mut desk, &clerks, numbering);
            return Day { text: text.bytes(), ..day };
        }
    }
}

/// Mostly small: large trees take long.
fn size(chance: &mut Chance) -> Size {
    match chance.below(10) {
        0..7 => Size::Small,
        7..9 => Size::Middle,
        _ => Size::Large,
    }
}

/// The right numbering. Neither point lies inside the other's old part, so whatever has a higher
/// number stands behind that.
pub fn shifted(point: usize, first: usize, growth: isize) -> usize {
    if point > first {
        point.saturating_add_signed(growth)
    } else {
        point
    }
}

/// Lets the desk hold a tree, and draws a correction for each clerk; unless the tree is to be
/// refused or hasn't what is sought.
fn clerks(desk: &mut Desk, chance: &mut Chance, sought: Sought) -> Option<[Exchange; 2]> {
    let tree = desk.tree(chance)?;
    if refusal(desk, &tree).is_some() {
        return None;
    }
    desk.held = tree;
    let mut row = sought(desk, chance)?;
    if chance.one_in(2) {
        row.reverse();
    }
    row.try_into().ok()
}

fn anything(desk: &Desk, chance: &mut Chance) -> Option<Row> {
    Some(pair(desk, chance))
}

/// The point behind gets another number, if it comes second.
fn growth_in_front(desk: &Desk, chance: &mut Chance) -> Option<Row> {
    let is_such = |row: &Row| row.len() == 2 && growth(desk, &row[0]) != 0;
    (0..10).map(|_| pair(desk, chance)).find(is_such)
}

/// Besides, the point in front keeps its number though the tree behind it grew or shrank.
fn growth_at_both(desk: &Desk, chance: &mut Chance) -> Option<Row> {
    let is_such = |row: &Row| growth(desk, &row[1]) != 0;
    (0..10).find_map(|_| growth_in_front(desk, chance).filter(is_such))
}

/// Room that one clerk gives up and the other takes, who can't come first then.
fn trade(desk: &Desk, chance: &mut Chance) -> Option<Row> {
    Some(desk.trade(chance, |desk, chance| desk.some_points(chance, 2)))
}

/// A waiver inside a circle in a tree between, and none at the end. In trees that aren't small such
/// are too rare to wait for.
fn made_good(desk: &Desk, chance: &mut Chance) -> Option<Row> {
    let found = desk.made_good(chance, pair);
    if desk.size == Size::Small {
        return found;
    }
    found.or_else(|| anything(desk, chance))
}

/// Two points apart with parts that fit, or a point alone where no other is found.
fn pair(desk: &Desk, chance: &mut Chance) -> Row {
    let points = desk.some_points(chance, 2);
    desk.with_parts(chance, points)
}

/// How many nodes more the new part has than the old one.
fn growth(desk: &Desk, Exchange { point, part }: &Exchange) -> isize {
    part.len() as isize - (desk.end(*point) - point) as isize
}

/// What a sound tree is to be refused by.
fn refusal(desk: &Desk, nodes: &[Node]) -> Option<u8> {
    if nodes.len() > NODES {
        return Some(TOO_MANY_NODES);
    }
    (!desk.allows(nodes)).then_some(WAIVER_IN_CIRCLE)
}

/// Writes both orders; answers what we think of them.
fn write(desk: &mut Desk, clerks: &[Exchange; 2], numbering: Numbering) -> Day {
    let [one, two] = clerks;
    let mut row = clerks.to_vec();
    row.sort_by_key(|exchange| exchange.point);
    let last = desk.corrected(&row);
    let between = clerks.each_ref().map(|first| desk.corrected(slice::from_ref(first)));
    let shifted = [(one, two), (two, one)].map(|(first, second)| {
        let number = numbering(second.point, first.point, growth(desk, first));
        write_order(desk, first, &Exchange { point: number, part: second.part.clone() });
        number != second.point
    });
    Day {
        text: Vec::new(),
        one_before: one.point < two.point,
        shifted: shifted.contains(&true),
        waives: desk.rules.waives(),
        sets: last.iter().map(|&node| sets(desk.rules, node)).sum(),
        between: between.map(|nodes| refusal(desk, &nodes)),
        last: refusal(desk, &last),
    }
}

fn write_order(desk: &mut Desk, first: &Exchange, second: &Exchange) {
    let tree = desk.held.clone();
    desk.load(&tree);
    desk.write_single(first);
    desk.write_single(second);
    desk.dump();
}

fn sets(rules: &Rules, node: Node) -> usize {
    let symbol = rules.symbols[usize::from(symbol_of(rules, node))];
    usize::from(symbol.synthesized + symbol.inherited)
}

/// What a load or a correction was answered.
enum Update {
    Done { evaluations: u64 },
    Refused { by: u8 },
}

/// What became of one order.
struct Order<'a> {
    refused: Option<Refused>,
    /// Those of its corrections.
    evaluations: u64,
    dump: Vec<&'a [u8]>,
}

/// The refusal that an order is judged by. Behind a first correction that is refused the second
/// may meet another node or none: whatever it is answered says nothing.
#[derive(Clone, Copy)]
enum Refused {
    AtFirst { by: u8 },
    AtSecond { by: u8 },
}

/// How the day went by the answer to its text, or what is wrong.
pub fn judge(day: &Day, answer: &[u8]) -> Result<End, String> {
    let [one, two] = read(answer)?;
    match (one.refused, two.refused) {
        (None, None) => judge_dumps(day, &one, &two),
        (Some(refused), None) => judge_one_refused(day, 0, refused),
        (None, Some(refused)) => judge_one_refused(day, 1, refused),
        (Some(refused), Some(other)) => {
            judge_cause(day, 0, refused)?;
            judge_cause(day, 1, other)?;
            Ok(End::BothRefused)
        }
    }
}

fn judge_dumps(day: &Day, one: &Order, two: &Order) -> Result<End, String> {
    let differs = one.dump.iter().zip(&two.dump).position(|(line, other)| line != other);
    if let Some(at) = differs {
        return Err(format!("the dumps differ in line {}", at + 1));
    }
    let counts = [one.dump.len(), two.dump.len()];
    if counts != [day.sets; 2] {
        return Err(format!("the dumps have {counts:?} sets, and the tree {}", day.sets));
    }
    Ok(End::Alike([one.evaluations, two.evaluations]))
}

/// Both orders end with the same tree: only on the way can one be refused and the other not.
fn judge_one_refused(day: &Day, order: usize, refused: Refused) -> Result<End, String> {
    match refused {
        Refused::AtFirst { by } => judge_cause(day, order, refused).map(|()| End::OneRefused(by)),
        Refused::AtSecond { by } => {
            Err(format!("one order is accepted, and the other's second correction refused by {by}"))
        }
    }
}

/// A program that refuses whatever it likes would pass if we didn't look for the cause.
fn judge_cause(day: &Day, order: usize, refused: Refused) -> Result<(), String> {
    let (by, cause, at) = match refused {
        Refused::AtFirst { by } => (by, day.between[order], "first"),
        Refused::AtSecond { by } => (by, day.last, "second"),
    };
    if cause == Some(by) {
        return Ok(());
    }
    let clerk = ["one", "two"][order];
    Err(format!("with clerk {clerk} first, the {at} correction is refused by {by} for no cause"))
}

/// Both orders by the answer, if it is one to the commands of a day.
fn read(answer: &[u8]) -> Result<[Order<'_>; 2], String> {
    let answer = answer.strip_suffix(b"\n").ok_or("the answer's last line has no end")?;
    let mut lines = answer.split(|&byte| byte == b'\n').peekable();
    let orders = [read_order(&mut lines)?, read_order(&mut lines)?];
    match lines.next() {
        Some(line) => Err(format!("behind the last dump comes {}", line.escape_ascii())),
        None => Ok(orders),
    }
}

fn read_order<'a, I>(lines: &mut Peekable<I>) -> Result<Order<'a>, String>
where
    I: Iterator<Item = &'a [u8]>,
{
    if let Update::Refused { by } = read_update(lines)? {
        return Err(format!("a load is refused by {by}"));
    }
    let (refused, evaluations) = match (read_update(lines)?, read_update(lines)?) {
        (Update::Refused { by }, _) => (Some(Refused::AtFirst { by }), 0),
        (_, Update::Refused { by }) => (Some(Refused::AtSecond { by }), 0),
        (Update::Done { evaluations: first }, Update::Done { evaluations: second }) => {
            (None, first + second)
        }
    };
    Ok(Order { refused, evaluations, dump: read_row(lines, b"13") })
}

fn read_update<'a, I>(lines: &mut Peekable<I>) -> Result<Update, String>
where
    I: Iterator<Item = &'a [u8]>,
{
    let rounds = read_row(lines, b"11");
    let line = lines.next().ok_or("the answer ends early")?;
    match frame_of(line)[..] {
        [0x12, _, _, a, b, c, d, _, _] => {
            Ok(Update::Done { evaluations: u32::from_be_bytes([a, b, c, d]).into() })
        }
        [0x1f, by, _, _, _, _] if rounds.is_empty() => Ok(Update::Refused { by }),
        _ => Err(format!("a load or correction ends with {}", line.escape_ascii())),
    }
}

/// The lines of this kind that come next.
fn read_row<'a, I>(lines: &mut Peekable<I>, kind: &[u8]) -> Vec<&'a [u8]>
where
    I: Iterator<Item = &'a [u8]>,
{
    iter::from_fn(|| lines.next_if(|line| line.starts_with(kind))).collect()
}

/// Takes in a day and how it went.
pub fn count(survey: &mut Survey, day: &Day, end: &End) {
    let accepted = matches!(end, End::Alike(_));
    let otherwise = matches!(end, End::Alike([one, two]) if one != two);
    survey.count("days", 1);
    survey.count("days accepted in both orders", accepted.into());
    for (what, is_such) in [
        ("a shifted number", day.shifted),
        ("p before q", day.one_before),
        ("q before p", !day.one_before),
        ("op 9 in the table", day.waives),
        ("other evaluations", otherwise),
    ] {
        survey.count(&format!("days accepted in both, {what}"), (accepted && is_such).into());
    }
    for by in [TOO_MANY_NODES, WAIVER_IN_CIRCLE] {
        let is_such = *end == End::OneRefused(by);
        survey.count(&format!("days refused in one order, by {by:2}"), is_such.into());
    }
    survey.count("days refused in both orders", (*end == End::BothRefused).into());
}

#[cfg(test)]
mod tests {
    use super::{draw, judge, shifted, Day, End, Numbering};

    const DONE: &str = "120001000000010001";
    const ROUND: &str = "110000000001000101";
    const SET: &str = "1300000000000000000001";
    const OTHER_SET: &str = "1300000000000000000002";

    /// A day whose tree has one set at the end, and of which we think this.
    fn day(between: [Option<u8>; 2], last: Option<u8>) -> Day {
        let (one_before, shifted, waives) = (true, true, false);
        Day { text: Vec::new(), one_before, shifted, waives, sets: 1, between, last }
    }

    fn refused(by: u8) -> String {
        format!("1f{by:02x}00000009")
    }

    fn judge_lines(day: &Day, orders: [&[&str]; 2]) -> Result<End, String> {
        judge(day, format!("{}\n", orders.concat().join("\n")).as_bytes())
    }

    /// How the days of the first 300 seeds go with the twin.
    fn ends(numbering: Numbering) -> impl Iterator<Item = Result<End, String>> {
        (1..=300).map(move |seed| {
            let day = draw(seed, numbering);
            let mut answer = Vec::new();
            thrummisk_reference::session::run(&day.text[..], &mut answer).unwrap();
            judge(&day, &answer)
        })
    }

    #[test]
    fn dumps_must_be_alike_and_whole() {
        let day = day([None; 2], None);
        let accepted = [ROUND, DONE, ROUND, ROUND, DONE, DONE, SET];
        let other = [DONE, DONE, DONE, OTHER_SET];
        let less = [DONE, DONE, DONE];
        let more = [DONE, DONE, DONE, SET, SET];
        assert_eq!(judge_lines(&day, [&accepted, &accepted]), Ok(End::Alike([2, 2])));
        for order in [&other[..], &less, &more] {
            assert!(judge_lines(&day, [&accepted, order]).is_err());
            assert!(judge_lines(&day, [order, &accepted]).is_err());
        }
        assert!(judge_lines(&day, [&less, &less]).is_err());
    }

    #[test]
    fn an_order_is_refused_by_its_cause_alone() {
        let accepted = [DONE, DONE, DONE, SET];
        for cause in [8, 21] {
            let day = day([Some(cause), None], None);
            for by in 0..=255 {
                // The second may be answered anything then.
                for second in [DONE, &refused(7), &refused(9)] {
                    let end = judge_lines(&day, [&[DONE, &refused(by), second, SET], &accepted]);
                    assert_eq!(end.ok(), (by == cause).then_some(End::OneRefused(cause)));
                }
                // The other order has no cause.
                let end = judge_lines(&day, [&accepted, &[DONE, &refused(by), DONE, SET]]);
                assert!(end.is_err());
            }
        }
    }

    #[test]
    fn with_one_order_accepted_no_second_correction_is_refused() {
        let accepted = [DONE, DONE, DONE, SET];
        for by in [7, 8, 9, 21] {
            for last in [None, Some(by)] {
                let day = day([None; 2], last);
                let refused = [DONE, DONE, &refused(by), SET];
                assert!(judge_lines(&day, [&accepted, &refused]).is_err());
                assert!(judge_lines(&day, [&refused, &accepted]).is_err());
            }
        }
    }

    #[test]
    fn both_orders_are_refused_by_their_causes() {
        let day = day([Some(8), None], Some(21));
        let [by_7, by_8, by_9, by_21] = [7, 8, 9, 21].map(refused);
        let end = |[a, b]: [&str; 2], [c, d]: [&str; 2]| {
            judge_lines(&day, [&[DONE, a, b, SET], &[DONE, c, d, SET]])
        };
        assert_eq!(end([&by_8, &by_9], [DONE, &by_21]), Ok(End::BothRefused));
        assert!(end([&by_21, DONE], [DONE, &by_21]).is_err());
        assert!(end([&by_8, DONE], [DONE, &by_8]).is_err());
        assert!(end([&by_8, DONE], [DONE, &by_7]).is_err());
        assert!(end([&by_8, DONE], [&by_21, DONE]).is_err());
    }

    #[test]
    fn an_answer_is_one_to_the_commands_of_a_day() {
        let day = day([None; 2], None);
        let accepted = [DONE, DONE, DONE, SET];
        let orders: [&[&str]; 7] = [
            &[],
            &[DONE, DONE, SET],
            &[DONE, DONE, DONE, DONE, SET],
            &[DONE, DONE, DONE, SET, DONE],
            &[DONE, DONE, DONE, &refused(16)],
            &[&refused(8), DONE, DONE, SET],
            &[DONE, ROUND, &refused(8), DONE, SET],
        ];
        for order in orders {
            assert!(judge_lines(&day, [&accepted, order]).is_err());
            assert!(judge_lines(&day, [order, &accepted]).is_err());
        }
        assert!(judge(&day, b"").is_err());
        assert!(judge(&day, [accepted, accepted].concat().join("\n").as_bytes()).is_err());
    }

    #[test]
    fn days_end_alike_and_meet_all_that_is_sought() {
        let ends: Vec<End> = ends(shifted).map(Result::unwrap).collect();
        let count = |is_such: fn(&End) -> bool| ends.iter().filter(|end| is_such(end)).count();
        assert!(count(|end| matches!(end, End::Alike(_))) >= 200);
        assert!(count(|end| matches!(end, End::Alike([one, two]) if one != two)) >= 10);
        assert!(count(|end| *end == End::OneRefused(8)) >= 10);
        assert!(count(|end| *end == End::OneRefused(21)) >= 10);
        assert!(count(|end| *end == End::BothRefused) >= 5);
    }

    #[test]
    fn a_point_behind_must_shift() {
        assert!(ends(|point, _, _| point).any(|end| end.is_err()));
    }

    #[test]
    fn a_point_before_must_not_shift() {
        let always: Numbering = |point, _, growth| point.saturating_add_signed(growth);
        assert!(ends(always).any(|end| end.is_err()));
    }
}
