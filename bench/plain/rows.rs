//! The rows: the sets that occur, in order, and the directed edges that bound each.
use crate::borders::Borders;
use crate::cover::{renumbered, Set, Sets, ALONE, EMPTY};
use crate::cover_sweep::{Swept, NONE};
use crate::hands::Hands;
use crate::point::Point;
use std::collections::HashMap;

/// The most features that all rows together may have.
const MOST: u64 = 1 << 28;

/// The features of all rows, row by row, and for each edge the rows on its two sides.
pub struct Rows {
    features: Vec<u32>,
    begins: Vec<usize>,
    sides: [Vec<u32>; 2],
}

impl Rows {
    /// The rows of all strips, or how many features they would have if these are too many.
    pub fn of(swept: &[Swept], hands: Hands) -> Result<Rows, u64> {
        let mut sets = Sets::new();
        let numbers: Vec<Vec<Set>> = swept.iter().map(|strip| sets.take(&strip.sets)).collect();
        let mut found = Found { in_trees: vec![NONE; sets.trees()], alone: HashMap::new(), sets: Vec::new() };
        let mut sides = [Vec::new(), Vec::new()];
        for (strip, numbers) in swept.iter().zip(&numbers) {
            for (side, held) in sides.iter_mut().zip([&strip.left, &strip.right]) {
                side.extend(held.iter().map(|&set| if set == EMPTY { NONE } else { found.number(renumbered(numbers, set)) }));
            }
        }
        let count = found.sets.iter().map(|&set| sets.size(set) as u64).sum();
        if count > MOST {
            return Err(count);
        }
        Ok(ordered(found.sets, &sets, count as usize, sides, hands))
    }

    pub fn len(&self) -> usize {
        self.begins.len() - 1
    }

    pub fn features(&self, row: usize) -> &[u32] {
        &self.features[self.begins[row]..self.begins[row + 1]]
    }

    /// The directed edges of all rows, row by row, and where those of each begin.
    pub fn directed(&self, borders: &Borders) -> (Vec<(Point, Point)>, Vec<usize>) {
        let mut begins = vec![0usize; self.len() + 1];
        self.sides.iter().flatten().filter(|&&row| row != NONE).for_each(|&row| begins[row as usize + 1] += 1);
        (0..self.len()).for_each(|row| begins[row + 1] += begins[row]);
        let mut places = begins.clone();
        let mut directed = vec![(Point::LAST, Point::LAST); begins[self.len()]];
        for (number, edge) in borders.edges.iter().enumerate() {
            for (side, ends) in self.sides.iter().zip([(edge.p, edge.q), (edge.q, edge.p)]) {
                if side[number] != NONE {
                    let place = &mut places[side[number] as usize];
                    directed[*place] = ends;
                    *place += 1;
                }
            }
        }
        (directed, begins)
    }
}

/// The sets that were found, none of them empty, in the order in which they were.
struct Found {
    in_trees: Vec<u32>,
    alone: HashMap<Set, u32>,
    sets: Vec<Set>,
}

impl Found {
    fn number(&mut self, set: Set) -> u32 {
        let number = if set & ALONE != 0 { self.alone.entry(set).or_insert(NONE) } else { &mut self.in_trees[set as usize] };
        if *number == NONE {
            *number = self.sets.len() as u32;
            self.sets.push(set);
        }
        *number
    }
}

/// The rows in the order of their lists of features.
fn ordered(found: Vec<Set>, sets: &Sets, count: usize, mut sides: [Vec<u32>; 2], hands: Hands) -> Rows {
    let lists = hands.each(|hand| hands.part(found.len(), hand).map(|number| sets.list(found[number])).collect::<Vec<_>>());
    let lists: Vec<Vec<u32>> = lists.into_iter().flatten().collect();
    let mut order: Vec<u32> = (0..found.len() as u32).collect();
    order.sort_unstable_by(|&a, &b| lists[a as usize].cmp(&lists[b as usize]));
    let mut rank = vec![0u32; found.len()];
    let (mut features, mut begins) = (Vec::with_capacity(count), vec![0]);
    for (row, &number) in order.iter().enumerate() {
        rank[number as usize] = row as u32;
        features.extend_from_slice(&lists[number as usize]);
        begins.push(features.len());
    }
    sides.iter_mut().flatten().filter(|row| **row != NONE).for_each(|row| *row = rank[*row as usize]);
    Rows { features, begins, sides }
}
