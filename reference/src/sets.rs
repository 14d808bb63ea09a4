//! Reason sets and the operations on them.

/// A set of reasons: reason n is bit n.
pub type Set = u64;

/// How many reasons op 7 counts. Those from this one on are notes.
pub const COUNTED: u32 = 56;

/// What an equation does. Op 1 and op 8 are no cases of their own: for a given node they are
/// `Constant` and `Add` with the node's own set as the constant.
#[derive(Clone, Copy, Debug, PartialEq, Eq)]
pub enum Op {
    Constant,
    Add,
    Keep,
    Join,
    Meet,
    IfAll,
    IfCount,
    Except,
}

impl Op {
    pub fn uses_a(self) -> bool {
        self != Op::Constant
    }

    pub fn uses_b(self) -> bool {
        matches!(self, Op::Join | Op::Meet | Op::IfAll | Op::IfCount | Op::Except)
    }
}

/// One operation with its arguments and its constant. `A` says how an argument is named: by its
/// spot in a production, or by its place in a tree.
#[derive(Clone, Copy, Debug)]
pub struct Formula<A> {
    pub op: Op,
    pub a: A,
    pub b: A,
    pub c: Set,
}

impl<A: Copy> Formula<A> {
    /// The value, given each argument's value.
    #[inline]
    pub fn value(&self, set: impl Fn(A) -> Set) -> Set {
        let Formula { op, a, b, c } = *self;
        match op {
            Op::Constant => c,
            Op::Add => set(a) | c,
            Op::Keep => set(a) & c,
            Op::Join => set(a) | set(b),
            Op::Meet => set(a) & set(b),
            Op::IfAll => when(set(a) & c == c, set(b)),
            Op::IfCount => when(count(set(a)) >= c, set(b)),
            Op::Except => set(a) & !set(b),
        }
    }
}

/// How many members op 7 counts: the notes are shifted out.
#[inline]
fn count(a: Set) -> u64 {
    (a << (Set::BITS - COUNTED)).count_ones().into()
}

fn when(open: bool, value: Set) -> Set {
    if open {
        value
    } else {
        0
    }
}

#[cfg(test)]
mod tests {
    use super::{Formula, Op, Set};

    fn value(op: Op, a: Set, b: Set, c: Set) -> Set {
        Formula { op, a, b, c }.value(|argument| argument)
    }

    #[test]
    fn on_either_side_of_each_line() {
        let b = 1 << 40;
        assert_eq!(value(Op::IfAll, 0, b, 0), b);
        assert_eq!(value(Op::IfAll, 1, b, 3), 0);
        assert_eq!(value(Op::IfAll, 3, b, 3), b);
        assert_eq!(value(Op::IfCount, 0, b, 0), b);
        assert_eq!(value(Op::IfCount, 5, b, 2), b);
        assert_eq!(value(Op::IfCount, 4, b, 2), 0);
        assert_eq!(value(Op::IfCount, Set::MAX, b, 56), b);
        assert_eq!(value(Op::IfCount, Set::MAX - 1, b, 56), 0);
        assert_eq!(value(Op::IfCount, 3 | 1 << 56, b, 2), b);
        assert_eq!(value(Op::IfCount, 1 | 1 << 56, b, 2), 0);
        assert_eq!(value(Op::IfCount, 1 | 1 << 55, b, 2), b);
        assert_eq!(value(Op::Keep, 7, 0, 5), 5);
        assert_eq!(value(Op::Add, 1, 0, 2), 3);
        assert_eq!(value(Op::Except, 7, 5, 0), 2);
        assert_eq!(value(Op::Except, 7, 8, 0), 7);
    }
}
