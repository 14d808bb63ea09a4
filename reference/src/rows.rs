//! Rows: something for each set of a tree.
//!
//! Declared instances are numbered through without gaps, in the order of their instance numbers.
//! Such a number is a place. Every pass then costs the sets that exist, and not eight a node.

use std::ops::{Deref, DerefMut, Index, IndexMut};

/// Below 4,092: no tree has more sets.
pub type Place = u16;

/// Stands where a place would, if there is none.
pub const NOWHERE: Place = Place::MAX;

/// One entry a place. A row reaches as far as the largest tree so far, and no further: small
/// sessions shouldn't pay for clearing memory that they never use.
pub struct Row<T>(Vec<T>);

impl<T: Copy> Row<T> {
    pub fn new() -> Self {
        Row(Vec::new())
    }

    /// Makes room for this many places.
    pub fn reach(&mut self, places: Place, value: T) {
        if self.0.len() < usize::from(places) {
            self.0.resize(usize::from(places), value);
        }
    }

    /// Gives each of the first places this value.
    pub fn clear(&mut self, places: Place, value: T) {
        self.reach(places, value);
        self.0[..usize::from(places)].fill(value);
    }

    pub fn part(&self, start: Place, end: Place) -> &[T] {
        &self.0[usize::from(start)..usize::from(end)]
    }
}

impl<T> From<Vec<T>> for Row<T> {
    fn from(entries: Vec<T>) -> Self {
        Row(entries)
    }
}

impl<T: Copy> Default for Row<T> {
    fn default() -> Self {
        Row::new()
    }
}

impl<T> Deref for Row<T> {
    type Target = [T];

    fn deref(&self) -> &[T] {
        &self.0
    }
}

impl<T> DerefMut for Row<T> {
    fn deref_mut(&mut self) -> &mut [T] {
        &mut self.0
    }
}

impl<T> Index<Place> for Row<T> {
    type Output = T;

    fn index(&self, place: Place) -> &T {
        &self.0[usize::from(place)]
    }
}

impl<T> IndexMut<Place> for Row<T> {
    fn index_mut(&mut self, place: Place) -> &mut T {
        &mut self.0[usize::from(place)]
    }
}
