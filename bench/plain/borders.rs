//! Edges with the features whose border they are.
use crate::edges::Strips;
use crate::hands::{Hands, Places};
use crate::point::{Point, Segment};
use crate::records::{sort_along, Routes};
use std::ops::Range;

/// A step of a route: its ends, the lesser one first, and the feature.
type Link = (Point, Point, u32);

/// An edge, and where in its strip's list the features stand in which it occurs an odd number of times.
#[derive(Clone, Copy)]
pub struct Edge {
    pub p: Point,
    pub q: Point,
    from: u32,
    to: u32,
}

/// All edges that are some feature's border, in order, and the features of those of each strip.
pub struct Borders {
    pub edges: Vec<Edge>,
    features: Vec<Vec<u32>>,
    begins: Vec<usize>,
}

impl Borders {
    pub fn of(routes: Routes, segments: &[Segment], strips: &Strips, hands: Hands) -> Borders {
        let links = links(routes, segments, strips, hands);
        let made = hands.tasks(strips.len(), |strip| {
            let mut sorted: Vec<Link> = Vec::with_capacity(links.iter().map(|found| found[strip].len()).sum());
            links.iter().for_each(|found| sorted.extend_from_slice(&found[strip]));
            sorted.sort_unstable();
            odd(&sorted)
        });
        let (parts, features): (Vec<Vec<Edge>>, Vec<Vec<u32>>) = made.into_iter().unzip();
        let mut begins = vec![0];
        parts.iter().for_each(|part| begins.push(begins.last().unwrap() + part.len()));
        Borders { edges: parts.concat(), features, begins }
    }

    /// The edges that begin in a strip.
    pub fn in_strip(&self, strip: usize) -> Range<usize> {
        self.begins[strip]..self.begins[strip + 1]
    }

    /// The features whose border an edge is, which is looked for from a strip on.
    #[inline(always)]
    pub fn features(&self, edge: usize, strip: usize) -> &[u32] {
        let strip = if edge >= self.begins[strip] { strip } else { self.begins.partition_point(|&begin| begin <= edge) - 1 };
        &self.features[strip][self.edges[edge].from as usize..self.edges[edge].to as usize]
    }
}

/// The links of all routes, for each hand and strip.
fn links(mut routes: Routes, segments: &[Segment], strips: &Strips, hands: Hands) -> Vec<Vec<Vec<Link>>> {
    let pixels = Places(routes.pixels.as_mut_ptr());
    let room = routes.pixels.len() / hands.0 / strips.len() + 64;
    let routes = &routes;
    hands.each(|hand| {
        let pixels = pixels;
        let mut found: Vec<Vec<Link>> = (0..strips.len()).map(|_| Vec::with_capacity(room)).collect();
        for number in hands.part(segments.len(), hand) {
            let route = unsafe { pixels.part(routes.of(number)) };
            sort_along(route);
            for step in route.windows(2) {
                let (c, d) = (step[0].1, step[1].1);
                let (p, q) = if c < d { (c, d) } else { (d, c) };
                found[strips.of_point(p)].push((p, q, segments[number].owner));
            }
        }
        found
    })
}

/// Of sorted links the edges with the features that have them an odd number of times, where there are such.
fn odd(links: &[Link]) -> (Vec<Edge>, Vec<u32>) {
    let (mut edges, mut features) = (Vec::with_capacity(links.len()), Vec::with_capacity(links.len()));
    for of_edge in links.chunk_by(|a, b| (a.0, a.1) == (b.0, b.1)) {
        let from = features.len() as u32;
        let odd = of_edge.chunk_by(|a, b| a.2 == b.2).filter(|run| run.len() % 2 == 1);
        features.extend(odd.map(|run| run[0].2));
        let to = features.len() as u32;
        if to > from {
            edges.push(Edge { p: of_edge[0].0, q: of_edge[0].1, from, to });
        }
    }
    (edges, features)
}
