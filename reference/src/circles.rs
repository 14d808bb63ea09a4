//! The circles of a wiring: which places all reach each other.
//!
//! Tarjan's walk along what each place reads. It keeps its own path instead of calling itself,
//! since a path may be as long as there are places.

use crate::rows::{Place, Row, NOWHERE};
use crate::sets::Formula;

/// Circles are numbered as they are found.
pub type Circle = u16;

/// Seen times begin at 1.
const UNSEEN: u16 = 0;
/// The seen time of a place whose circle is found: no path counts as earlier through it.
const FOUND: u16 = u16::MAX;

/// A place on the path.
#[derive(Clone, Copy)]
struct Visit {
    place: Place,
    /// The arguments that are still to be looked at.
    next: Place,
    then: Place,
    /// The earliest seen time that the place is known to reach.
    low: u16,
}

#[derive(Default)]
pub struct Circles {
    /// By place: its circle.
    of: Row<Circle>,
    /// The members of all circles, those of one circle side by side: a round walks over its
    /// circle and over nothing else.
    members: Vec<Place>,
    /// By circle: where its members end, and the least of them.
    ends: Vec<Place>,
    least: Vec<Place>,
    seen: Row<u16>,
    clock: u16,
    path: Vec<Visit>,
    /// Places seen whose circle isn't found yet, in the order they were seen.
    open: Vec<Place>,
}

impl Circles {
    pub fn rebuild(&mut self, formulas: &Row<Formula<Place>>, places: Place) {
        self.of.reach(places, 0);
        self.members.clear();
        self.ends.clear();
        self.least.clear();
        self.seen.clear(places, UNSEEN);
        self.clock = UNSEEN;
        for place in 0..places {
            if self.seen[place] == UNSEEN {
                self.walk(formulas, place);
            }
        }
    }

    pub fn count(&self) -> Circle {
        self.least.len() as Circle
    }

    /// The circle that a place is in.
    pub fn of(&self, place: Place) -> Circle {
        self.of[place]
    }

    pub fn least(&self, circle: Circle) -> Place {
        self.least[usize::from(circle)]
    }

    pub fn members(&self, circle: Circle) -> &[Place] {
        let at = usize::from(circle);
        let start = if at == 0 { 0 } else { self.ends[at - 1] };
        &self.members[usize::from(start)..usize::from(self.ends[at])]
    }

    fn walk(&mut self, formulas: &Row<Formula<Place>>, seed: Place) {
        let mut visit = self.enter(formulas, seed);
        loop {
            let argument = visit.next;
            if argument != NOWHERE {
                visit.next = visit.then;
                visit.then = NOWHERE;
                match self.seen[argument] {
                    UNSEEN => {
                        self.path.push(visit);
                        visit = self.enter(formulas, argument);
                    }
                    seen => visit.low = seen.min(visit.low),
                }
                continue;
            }
            if visit.low == self.seen[visit.place] {
                self.close(visit.place);
            }
            let Some(reader) = self.path.pop() else { return };
            visit = Visit { low: visit.low.min(reader.low), ..reader };
        }
    }

    fn enter(&mut self, formulas: &Row<Formula<Place>>, place: Place) -> Visit {
        self.clock += 1;
        self.seen[place] = self.clock;
        self.open.push(place);
        let Formula { a, b, .. } = formulas[place];
        Visit { place, next: a, then: b, low: self.clock }
    }

    /// All that was seen since the root and is still open is the root's circle.
    fn close(&mut self, root: Place) {
        let circle = self.count();
        let mut least = root;
        while let Some(place) = self.open.pop() {
            self.seen[place] = FOUND;
            self.of[place] = circle;
            self.members.push(place);
            least = least.min(place);
            if place == root {
                break;
            }
        }
        self.ends.push(self.members.len() as Place);
        self.least.push(least);
    }
}
