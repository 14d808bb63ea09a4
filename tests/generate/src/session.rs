//! A whole random session from a seed.

use crate::chance::Chance;
use crate::climb;
use crate::commands;
use crate::damage;
use crate::points::Met;
use crate::rules::Rules;
use crate::text::Text;

/// How large a session's trees may be. Of 1,000 sessions 800 are small, 140 middling, 50 large,
/// 9 at the limit and 1 is a long climb: a run over many seeds should be quick, and still meet
/// every limit often.
#[derive(Clone, Copy, PartialEq, Eq)]
pub enum Size {
    /// Up to 12 nodes.
    Small,
    /// Up to 64 nodes.
    Middle,
    /// Up to 512 nodes, one in four with as many as the table allows.
    Large,
    /// 512 nodes with eight sets each: 4,092 instances, and circles of thousands.
    Limit,
    /// One circle that takes up to some 70,000 rounds.
    Climb,
}

impl Size {
    fn draw(chance: &mut Chance) -> Self {
        match chance.below(1000) {
            0..800 => Size::Small,
            800..940 => Size::Middle,
            940..990 => Size::Large,
            990..999 => Size::Limit,
            _ => Size::Climb,
        }
    }

    /// How many nodes a tree of this size should have.
    pub fn nodes(self, chance: &mut Chance) -> usize {
        match self {
            Size::Small => chance.between(1, 12),
            Size::Middle => chance.between(1, 64),
            Size::Large if chance.one_in(4) => 512,
            Size::Large => chance.between(65, 512),
            Size::Limit => 512,
            Size::Climb if chance.one_in(3) => 280,
            Size::Climb => chance.between(2, 279),
        }
    }

    /// How many commands a session has at most: large trees take long.
    pub fn commands(self) -> usize {
        match self {
            Size::Small => 12,
            Size::Middle => 8,
            Size::Large => 5,
            Size::Limit | Size::Climb => 3,
        }
    }
}

pub struct Session {
    pub size: Size,
    pub damaged: bool,
    pub met: Met,
    pub text: Vec<u8>,
}

/// The session of a seed. One in three is damaged.
pub fn make(seed: u64) -> Session {
    let mut chance = Chance::new(seed);
    let size = Size::draw(&mut chance);
    if size == Size::Climb {
        let nodes = size.nodes(&mut chance);
        let (met, text) = (Met::default(), climb::make(nodes));
        return Session { size, damaged: false, met, text };
    }
    let rules = Rules::draw(&mut chance, size);
    let mut text = Text::default();
    rules.write(&mut text);
    let met = commands::write(&mut chance, &rules, size, &mut text);
    let damaged = chance.one_in(3);
    if damaged {
        damage::damage(&mut chance, &mut text);
    }
    Session { size, damaged, met, text: text.bytes() }
}
