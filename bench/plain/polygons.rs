//! Rings cut into pieces that visit no vertex twice, and the order of polygons.
use crate::hands::Hands;
use crate::labels::Directed;
use crate::point::{turn, Point};
use crate::rings::Rings;

const NONE: u32 = u32::MAX;

/// A ring of the text, read from its least vertex; whose polygon it belongs to, and whether it is that one's shell.
pub struct Piece {
    pub owner: u32,
    pub is_shell: bool,
    pub points: Vec<Point>,
}

/// The pieces of all rings, as each hand made them.
pub fn pieces(directed: &Directed, rings: &Rings, owners: &[u32], hands: Hands) -> Vec<Vec<Piece>> {
    hands.each(|hand| {
        let (mut found, mut cutter) = (Vec::new(), Cutter::default());
        for ring in hands.part(rings.len(), hand) {
            let edges = rings.of(ring);
            let points: Vec<Point> = edges.iter().map(|&edge| directed.edges[edge as usize].0).collect();
            let (owner, is_hole) = (owners[ring], rings.is_hole(ring));
            if !rings.is_branching(ring) {
                found.push(Piece { owner, is_shell: !is_hole, points });
                continue;
            }
            let least = points[0];
            let last = highest_arrival(directed, edges, least);
            for points in cutter.cut(&points) {
                let is_shell = !is_hole && points[0] == least && points[points.len() - 1] == last;
                found.push(Piece { owner, is_shell, points });
            }
        }
        found
    })
}

/// Where the edge comes from that arrives at the least vertex by the greatest angle.
fn highest_arrival(directed: &Directed, edges: &[u32], least: Point) -> Point {
    let arriving = edges.iter().map(|&edge| directed.edges[edge as usize]).filter(|edge| edge.1 == least).map(|edge| edge.0);
    arriving.reduce(|best, u| if turn(least, best, u) > 0 { u } else { best }).unwrap()
}

/// The working space for cutting a ring.
#[derive(Default)]
struct Cutter {
    sorted: Vec<(Point, u32)>,
    /// Points that are the same have one number; where it stands on the stack.
    number: Vec<u32>,
    standing: Vec<u32>,
}

impl Cutter {
    /// The pieces, each from its least vertex: a vertex that stands on the stack already ends the piece that begins there.
    fn cut(&mut self, points: &[Point]) -> Vec<Vec<Point>> {
        self.name(points);
        let (mut stack, mut pieces): (Vec<u32>, Vec<Vec<u32>>) = (Vec::new(), Vec::new());
        for place in 0..points.len() as u32 {
            let number = self.number[place as usize] as usize;
            if self.standing[number] != NONE {
                let piece = stack.split_off(self.standing[number] as usize);
                piece.iter().for_each(|&place| self.standing[self.number[place as usize] as usize] = NONE);
                pieces.push(piece);
            }
            self.standing[number] = stack.len() as u32;
            stack.push(place);
        }
        pieces.push(stack);
        pieces.iter().map(|piece| from_least(piece.iter().map(|&place| points[place as usize]).collect())).collect()
    }

    fn name(&mut self, points: &[Point]) {
        self.sorted.clear();
        self.sorted.extend(points.iter().zip(0..).map(|(&point, place)| (point, place)));
        self.sorted.sort_unstable();
        self.number.clear();
        self.number.resize(points.len(), 0);
        let mut number = 0;
        for pair in 0..self.sorted.len() {
            number += (pair > 0 && self.sorted[pair - 1].0 != self.sorted[pair].0) as u32;
            self.number[self.sorted[pair].1 as usize] = number;
        }
        self.standing.clear();
        self.standing.resize(points.len(), NONE);
    }
}

fn from_least(mut ring: Vec<Point>) -> Vec<Point> {
    let least = (0..ring.len()).min_by_key(|&place| ring[place]).unwrap();
    ring.rotate_left(least);
    ring
}

/// Where a piece stands in the text: after its shell, by its first two points; the hand that made it, and its number there.
#[derive(Clone, Copy, PartialEq, Eq, PartialOrd, Ord)]
pub struct Placed {
    shell: (Point, Point),
    pub is_hole: bool,
    ring: (Point, Point),
    pub hand: u32,
    pub number: u32,
}

/// The pieces in the order of the text. The first two points are enough: an edge belongs to one ring.
pub fn order(pieces: &[Vec<Piece>], rings: usize) -> Vec<Placed> {
    let first_edge = |piece: &Piece| (piece.points[0], piece.points[1]);
    let mut shells = vec![(Point::default(), Point::default()); rings];
    for piece in pieces.iter().flatten().filter(|piece| piece.is_shell) {
        shells[piece.owner as usize] = first_edge(piece);
    }
    let mut order = Vec::new();
    for (hand, list) in pieces.iter().enumerate() {
        for (number, piece) in list.iter().enumerate() {
            let shell = shells[piece.owner as usize];
            order.push(Placed { shell, is_hole: !piece.is_shell, ring: first_edge(piece), hand: hand as u32, number: number as u32 });
        }
    }
    order.sort_unstable();
    order
}
