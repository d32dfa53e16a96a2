//! Sets of features as numbers: equal sets have equal numbers.

/// A set of features: `EMPTY`; a feature alone, with the top bit; or the number of a tree.
pub type Set = u32;

pub const EMPTY: Set = u32::MAX;
pub const ALONE: u32 = 1 << 31;
const NONE: u32 = u32::MAX;

/// Two parts that aren't empty: the features of a set without and with its highest bit in which they differ.
#[derive(Clone, Copy)]
struct Tree {
    low: Set,
    high: Set,
    least: u32,
    bit: u32,
    size: u32,
}

/// All trees that were made, none twice, and a table that finds them by their parts.
pub struct Sets {
    trees: Vec<Tree>,
    table: Vec<u32>,
}

impl Sets {
    pub fn new() -> Sets {
        Sets { trees: Vec::new(), table: vec![NONE; 1 << 10] }
    }

    pub fn trees(&self) -> usize {
        self.trees.len()
    }

    /// The least feature of a set that isn't empty, and the bit at which it parts: 0 for a feature alone.
    #[inline(always)]
    fn head(&self, set: Set) -> (u32, u32) {
        if set & ALONE != 0 {
            (set & !ALONE, 0)
        } else {
            let tree = &self.trees[set as usize];
            (tree.least, tree.bit)
        }
    }

    pub fn size(&self, set: Set) -> u32 {
        match set {
            EMPTY => 0,
            _ if set & ALONE != 0 => 1,
            _ => self.trees[set as usize].size,
        }
    }

    #[inline(always)]
    fn place(low: Set, high: Set, mask: usize) -> usize {
        let mixed = ((low as u64) << 32 | high as u64).wrapping_mul(0x9E37_79B9_7F4A_7C15);
        ((mixed ^ (mixed >> 29)).wrapping_mul(0xBF58_476D_1CE4_E5B9) >> 32) as usize & mask
    }

    /// The set of two parts, either of which may be empty; they are the two halves of a bit.
    fn both(&mut self, low: Set, high: Set) -> Set {
        if low == EMPTY {
            return high;
        }
        if high == EMPTY {
            return low;
        }
        let mask = self.table.len() - 1;
        let mut place = Sets::place(low, high, mask);
        while self.table[place] != NONE {
            let found = self.table[place];
            let tree = &self.trees[found as usize];
            if tree.low == low && tree.high == high {
                return found;
            }
            place = (place + 1) & mask;
        }
        let (least, other) = (self.head(low).0, self.head(high).0);
        let tree = Tree { low, high, least, bit: highest(least ^ other), size: self.size(low) + self.size(high) };
        self.table[place] = self.trees.len() as u32;
        self.trees.push(tree);
        if 2 * self.trees.len() > self.table.len() {
            self.grow();
        }
        self.trees.len() as u32 - 1
    }

    fn grow(&mut self) {
        let mask = 4 * self.table.len() - 1;
        self.table.clear();
        self.table.resize(mask + 1, NONE);
        for (number, tree) in self.trees.iter().enumerate() {
            let mut place = Sets::place(tree.low, tree.high, mask);
            while self.table[place] != NONE {
                place = (place + 1) & mask;
            }
            self.table[place] = number as u32;
        }
    }

    /// The set of ascending features.
    pub fn of(&mut self, features: &[u32]) -> Set {
        match *features {
            [] => EMPTY,
            [feature] => feature | ALONE,
            [first, .., last] => {
                let bit = highest(first ^ last);
                let (low, high) = features.split_at(features.partition_point(|feature| feature & bit == 0));
                let (low, high) = (self.of(low), self.of(high));
                self.both(low, high)
            }
        }
    }

    /// The features of one of the two and not of both: what lies beyond a border.
    pub fn beyond(&mut self, a: Set, b: Set) -> Set {
        if a == EMPTY || b == EMPTY {
            return a & b; // every bit of EMPTY is 1
        }
        if a == b {
            return EMPTY;
        }
        let ((least_of_a, bit_of_a), (least_of_b, bit_of_b)) = (self.head(a), self.head(b));
        let bit = bit_of_a.max(bit_of_b);
        if bit == 0 || highest((least_of_a ^ least_of_b) | 1) > bit {
            return if least_of_a < least_of_b { self.both(a, b) } else { self.both(b, a) };
        }
        if bit_of_a == bit_of_b {
            let (one, other) = (self.trees[a as usize], self.trees[b as usize]);
            let (low, high) = (self.beyond(one.low, other.low), self.beyond(one.high, other.high));
            return self.both(low, high);
        }
        let (wide, narrow, least) = if bit_of_a > bit_of_b { (a, b, least_of_b) } else { (b, a, least_of_a) };
        let tree = self.trees[wide as usize];
        if least & bit == 0 {
            let low = self.beyond(tree.low, narrow);
            self.both(low, tree.high)
        } else {
            let high = self.beyond(tree.high, narrow);
            self.both(tree.low, high)
        }
    }

    /// The features of a set, ascending.
    pub fn list(&self, set: Set) -> Vec<u32> {
        let (mut found, mut left) = (Vec::with_capacity(self.size(set) as usize), vec![set]);
        while let Some(set) = left.pop() {
            if set == EMPTY {
            } else if set & ALONE != 0 {
                found.push(set & !ALONE);
            } else {
                let tree = &self.trees[set as usize];
                left.extend([tree.high, tree.low]);
            }
        }
        found
    }

    /// Takes in the sets of another one, and answers the new numbers of its trees.
    pub fn take(&mut self, other: &Sets) -> Vec<Set> {
        let mut numbers: Vec<Set> = Vec::with_capacity(other.trees.len());
        for tree in &other.trees {
            let (low, high) = (renumbered(&numbers, tree.low), renumbered(&numbers, tree.high));
            numbers.push(self.both(low, high));
        }
        numbers
    }
}

/// A set by the new numbers of the trees.
pub fn renumbered(numbers: &[Set], set: Set) -> Set {
    if set & ALONE != 0 {
        set
    } else {
        numbers[set as usize]
    }
}

/// The highest bit of a number that isn't 0.
#[inline(always)]
fn highest(number: u32) -> u32 {
    1 << (31 - number.leading_zeros())
}
