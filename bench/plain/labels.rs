//! Labels by a sweep, a strip a task, and the directed edges of the result.
use crate::edges::{Counted, Strips};
use crate::hands::Hands;
use crate::point::Point;
use crate::sweep::{Edge, Plane};

/// From so many edges on that leave one vertex, they are no longer looked at one by one.
pub const FEW: usize = 32;

/// Directed edges, ascending, and where each strip's begin.
pub struct Directed {
    pub edges: Vec<(Point, Point)>,
    pub begins: Vec<usize>,
}

impl Directed {
    /// The edges that leave a vertex.
    pub fn leaving(&self, vertex: Point, strips: &Strips) -> std::ops::Range<usize> {
        let strip = strips.of_point(vertex);
        let here = self.begins[strip]..self.begins[strip + 1];
        let from = here.start + self.edges[here.clone()].partition_point(|edge| edge.0 < vertex);
        let is_of = |edge: &(Point, Point)| edge.0 == vertex;
        let few = self.edges[from..].iter().take(FEW).take_while(|edge| is_of(edge)).count();
        from..from + if few < FEW { few } else { self.edges[from..here.end].partition_point(is_of) }
    }
}

/// Whether the operation holds, by the layers that do.
fn holds(operation: &str, layers: u8) -> bool {
    let (a, b) = (layers & 1 != 0, layers & 2 != 0);
    match operation {
        "union" => a || b,
        "intersection" => a && b,
        "difference" => a && !b,
        "symdifference" => a != b,
        _ => panic!("unknown command"),
    }
}

/// Those that have the result on their left and not on their right.
pub fn directed(counted: Vec<Vec<Counted>>, operation: &str, strips: &Strips, hands: Hands) -> Directed {
    let odd: Vec<Vec<Edge>> = hands.tasks(strips.len(), |strip| {
        let layers = |edge: &Counted| (edge.counts[0] & 1) as u8 | ((edge.counts[1] & 1) << 1) as u8;
        let changing = counted[strip].iter().filter(|edge| layers(edge) != 0);
        changing.map(|edge| Edge { p: edge.p, q: edge.q, layers: layers(edge), number: 0 }).collect()
    });
    drop(counted);
    let plane = Plane::of(&odd, strips, hands);
    let found = hands.tasks(strips.len(), |number| {
        let strip = plane.strip(number, std::iter::empty());
        let sides = strip.sweep(|_, _| {});
        let mut found: Vec<Vec<(Point, Point)>> = vec![Vec::new(); strips.len()];
        for place in strip.reaching..strip.edges.len() {
            let Edge { p, q, .. } = strip.edges[place];
            match (holds(operation, sides.above[place]), holds(operation, sides.below[place])) {
                (true, false) => found[number].push((p, q)),
                (false, true) => found[strips.of_point(q)].push((q, p)),
                _ => {}
            }
        }
        found
    });
    let sorted: Vec<Vec<(Point, Point)>> = hands.tasks(strips.len(), |strip| {
        let mut edges: Vec<(Point, Point)> = found.iter().flat_map(|found| &found[strip]).copied().collect();
        edges.sort_unstable();
        edges
    });
    let mut begins = vec![0];
    sorted.iter().for_each(|edges| begins.push(begins.last().unwrap() + edges.len()));
    Directed { edges: sorted.concat(), begins }
}
