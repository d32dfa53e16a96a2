//! Which features cover what: the rows of all layers, as `overlay faces` writes them.
//!
//! The features' borders are swept with the sets of features that lie on their two sides; the sets that occur are the rows, and each
//! row's directed edges give its polygons.
use crate::borders::Borders;
use crate::cover_sweep::{self, Swept};
use crate::edges::Strips;
use crate::hands::{Hands, Places};
use crate::point::{Point, Segment};
use crate::row_polygons::{polygons, twice_area, Directed, Piece};
use crate::rows::Rows;
use crate::text::{push_number, push_point};
use crate::Laps;

/// Parts of the text for each hand.
const PARTS: usize = 8;

/// The text of all rows, in parts, or how many features the rows would have where these are too many. `firsts` are the numbers of
/// the layers' first features.
pub fn texts(segments: &[Segment], firsts: &[u32], side: Option<i64>, hands: Hands, laps: &mut Laps) -> Result<Vec<Vec<u8>>, u64> {
    let (_, routes) = crate::routes(segments, side, hands, laps);
    let strips = Strips::of(segments, hands);
    let borders = Borders::of(routes, segments, &strips, hands);
    laps.lap("borders");
    let swept = cover_sweep::sweep(&borders, &strips, hands);
    laps.lap("sweep");
    let rows = Rows::of(&swept, hands)?;
    laps.lap("rows");
    let (mut directed, begins) = rows.directed(&borders);
    laps.lap("directed");
    let below = |v: Point| below(&borders, &strips, &swept, v);
    let parts = parts(&begins, hands);
    let edges = Places(directed.as_mut_ptr());
    let texts = hands.tasks(parts.len() - 1, |part| {
        let edges = edges;
        let mut text = Vec::new();
        for row in parts[part]..parts[part + 1] {
            let own = unsafe { edges.part(begins[row]..begins[row + 1]) };
            own.sort_unstable();
            push_row(&mut text, twice_area(own), rows.features(row), firsts, &polygons(own, below));
        }
        text
    });
    laps.lap("polygons");
    std::mem::forget((borders, swept, rows, directed));
    Ok(texts)
}

/// The edge below a vertex at which none ends, directed from its lesser end: it bounds the row that has the vertex on its left.
fn below(borders: &Borders, strips: &Strips, swept: &[Swept], v: Point) -> Directed {
    let strip = strips.of_point(v);
    let own = borders.in_strip(strip);
    let first = borders.edges[own].partition_point(|edge| edge.p < v);
    let edge = &borders.edges[swept[strip].below[first] as usize];
    (edge.p, edge.q)
}

/// Rows in parts of about as many edges each: where these begin, and the last one's end.
fn parts(begins: &[usize], hands: Hands) -> Vec<usize> {
    let (rows, edges) = (begins.len() - 1, begins[begins.len() - 1]);
    let mut found = vec![0];
    for row in 1..=rows {
        if begins[row] >= found.len() * edges / (PARTS * hands.0) {
            found.push(row);
        }
    }
    if found.last() != Some(&rows) {
        found.push(rows);
    }
    found
}

/// A line: twice the area, each layer's features from 1, and the polygons, with tabs between.
fn push_row(text: &mut Vec<u8>, twice: i64, features: &[u32], firsts: &[u32], pieces: &[Piece]) {
    push_number(text, twice);
    let mut left = features;
    for (layer, first) in firsts.iter().enumerate() {
        let end = firsts.get(layer + 1).map_or(left.len(), |end| left.partition_point(|feature| feature < end));
        for (place, feature) in left[..end].iter().enumerate() {
            text.push(if place == 0 { b'\t' } else { b',' });
            push_number(text, (feature - first + 1) as i64);
        }
        if end == 0 {
            text.push(b'\t');
        }
        left = &left[end..];
    }
    text.extend_from_slice(b"\tMULTIPOLYGON (");
    for (place, piece) in pieces.iter().enumerate() {
        text.extend_from_slice(match (place, piece.is_shell) {
            (0, _) => b"((" as &[u8],
            (_, true) => b"), ((",
            (_, false) => b", (",
        });
        for &point in &piece.points {
            push_point(text, point);
            text.extend_from_slice(b", ");
        }
        push_point(text, piece.points[0]);
        text.push(b')');
    }
    text.extend_from_slice(b"))\n");
}
