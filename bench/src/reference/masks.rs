//! Sets of masks, and the unions of every mask of one set with every mask of another.

/// Distinct masks, in the order in which they came, and a bit for each that is there.
#[derive(Clone, Default)]
pub struct Masks {
    bits: Vec<u64>,
    pub list: Vec<u16>,
}

impl Masks {
    /// True if the mask was not there.
    pub fn insert(&mut self, mask: u16) -> bool {
        let (at, bit) = (usize::from(mask >> 6), 1 << (mask & 63));
        if at >= self.bits.len() {
            self.bits.resize(at + 1, 0);
        }
        let new = self.bits[at] & bit == 0;
        if new {
            self.bits[at] |= bit;
            self.list.push(mask);
        }
        new
    }
}

/// Two sets whose masks are joined, each pair once.
#[derive(Clone, Default)]
pub struct Join {
    left: Masks,
    right: Masks,
    left_done: usize,
    right_done: usize,
}

impl Join {
    /// True if the join had nothing new before, and has now.
    pub fn insert_left(&mut self, mask: u16) -> bool {
        let idle = self.is_idle();
        self.left.insert(mask) && idle
    }

    /// True if the join had nothing new before, and has now.
    pub fn insert_right(&mut self, mask: u16) -> bool {
        let idle = self.is_idle();
        self.right.insert(mask) && idle
    }

    fn is_idle(&self) -> bool {
        self.left_done == self.left.list.len() && self.right_done == self.right.list.len()
    }

    /// Adds to `out` the unions of all pairs with a mask that is new since the last time; how many pairs.
    pub fn new_unions(&mut self, out: &mut Masks) -> usize {
        let (old, new) = self.left.list.split_at(self.left_done);
        let right_new = &self.right.list[self.right_done..];
        for l in new {
            for r in &self.right.list {
                out.insert(l | r);
            }
        }
        for r in right_new {
            for l in old {
                out.insert(l | r);
            }
        }
        let pairs = new.len() * self.right.list.len() + old.len() * right_new.len();
        self.left_done = self.left.list.len();
        self.right_done = self.right.list.len();
        pairs
    }
}
