//! The circles in rank order, and who reads a place from another circle.

use crate::circles::{Circle, Circles};
use crate::ready::Ready;
use crate::rows::{Place, Row, NOWHERE};
use crate::sets::Formula;

/// For each place the arguments that name it, chained. The argument a of a reader goes by the
/// number 2 × reader, b by the next.
#[derive(Default)]
struct Readers {
    last: Row<u16>,
    earlier: Row<[u16; 2]>,
}

impl Readers {
    fn add(&mut self, place: Place, reader: Place, which: usize) {
        self.earlier[reader][which] = self.last[place];
        self.last[place] = 2 * reader + which as u16;
    }

    fn of(&self, place: Place) -> impl Iterator<Item = Place> + '_ {
        let mut link = self.last[place];
        std::iter::from_fn(move || {
            if link == NOWHERE {
                return None;
            }
            let reader = link / 2;
            link = self.earlier[reader][usize::from(link % 2)];
            Some(reader)
        })
    }
}

/// Circle by circle: next comes the one with the smallest least place among those that read
/// nothing outside themselves but what has come already.
#[derive(Default)]
pub struct Ranks {
    order: Vec<Circle>,
    readers: Readers,
    /// By circle: how many arguments from circles not yet taken it has.
    waiting: Vec<u16>,
    ready: Ready,
}

impl Ranks {
    pub fn rebuild(&mut self, formulas: &Row<Formula<Place>>, circles: &Circles, places: Place) {
        self.order.clear();
        self.waiting.clear();
        self.waiting.resize(circles.count().into(), 0);
        self.readers.last.clear(places, NOWHERE);
        self.readers.earlier.reach(places, [NOWHERE; 2]);
        for reader in 0..places {
            self.link(formulas, circles, reader);
        }
        for circle in 0..circles.count() {
            if self.waiting[usize::from(circle)] == 0 {
                self.ready.insert(circles.least(circle));
            }
        }
        while let Some(least) = self.ready.take_least() {
            self.take(circles, circles.of(least));
        }
    }

    /// The circle with this rank; nothing past the last.
    pub fn circle(&self, rank: usize) -> Option<Circle> {
        self.order.get(rank).copied()
    }

    /// Who reads a place from another circle. A reader with both arguments there comes twice.
    pub fn readers(&self, place: Place) -> impl Iterator<Item = Place> + '_ {
        self.readers.of(place)
    }

    fn link(&mut self, formulas: &Row<Formula<Place>>, circles: &Circles, reader: Place) {
        let Formula { a, b, .. } = formulas[reader];
        let circle = circles.of(reader);
        for (which, argument) in [a, b].into_iter().enumerate() {
            if argument != NOWHERE && circles.of(argument) != circle {
                self.readers.add(argument, reader, which);
                self.waiting[usize::from(circle)] += 1;
            }
        }
    }

    fn take(&mut self, circles: &Circles, circle: Circle) {
        self.order.push(circle);
        for &member in circles.members(circle) {
            for reader in self.readers.of(member) {
                let reader = circles.of(reader);
                let waiting = &mut self.waiting[usize::from(reader)];
                *waiting -= 1;
                if *waiting == 0 {
                    self.ready.insert(circles.least(reader));
                }
            }
        }
    }
}
