//! The texts, in parts that many hands make.
use crate::edges::Counted;
use crate::hands::Hands;
use crate::point::Point;
use crate::polygons::{Piece, Placed};

pub const EMPTY: &[u8] = b"MULTIPOLYGON EMPTY\n";
/// Parts of a result's text.
const PARTS: usize = 16;

pub fn push_number(text: &mut Vec<u8>, value: i64) {
    if value < 0 {
        text.push(b'-');
    }
    let (mut rest, mut digits, mut first) = (value.unsigned_abs(), [0u8; 20], 20);
    loop {
        first -= 1;
        digits[first] = b'0' + (rest % 10) as u8;
        rest /= 10;
        if rest == 0 {
            break;
        }
    }
    text.extend_from_slice(&digits[first..]);
}

pub fn push_point(text: &mut Vec<u8>, point: Point) {
    push_number(text, point.x() as i64);
    text.push(b' ');
    push_number(text, point.y() as i64);
}

/// One line for each edge, strip by strip.
pub fn edges(counted: &[Vec<Counted>], hands: Hands) -> Vec<Vec<u8>> {
    hands.tasks(counted.len(), |strip| {
        let mut text = Vec::with_capacity(counted[strip].len() * 44);
        for edge in &counted[strip] {
            push_point(&mut text, edge.p);
            text.push(b' ');
            push_point(&mut text, edge.q);
            for count in edge.counts {
                text.push(b' ');
                push_number(&mut text, count as i64);
            }
            text.push(b'\n');
        }
        text
    })
}

/// The line of the polygons, in parts with about as many points each.
pub fn polygons(pieces: &[Vec<Piece>], order: &[Placed], points: usize, hands: Hands) -> Vec<Vec<u8>> {
    if order.is_empty() {
        return vec![EMPTY.to_vec()];
    }
    let points_of = |placed: &Placed| &pieces[placed.hand as usize][placed.number as usize].points;
    let (mut cuts, mut passed) = (vec![0], 0);
    for (place, placed) in order.iter().enumerate() {
        passed += points_of(placed).len();
        if passed * PARTS >= points * cuts.len() && cuts.len() < PARTS {
            cuts.push(place + 1);
        }
    }
    cuts.push(order.len());
    let parts = hands.tasks(cuts.len() - 1, |part| {
        let mut text = Vec::new();
        for place in cuts[part]..cuts[part + 1] {
            let before: &[u8] = match (order[place].is_hole, place) {
                (true, _) => b", (",
                (false, 0) => b"((",
                (false, _) => b", ((",
            };
            text.extend_from_slice(before);
            let ring = points_of(&order[place]);
            for &point in ring {
                push_point(&mut text, point);
                text.extend_from_slice(b", ");
            }
            push_point(&mut text, ring[0]);
            text.push(b')');
            if order.get(place + 1).is_none_or(|next| !next.is_hole) {
                text.push(b')');
            }
        }
        text
    });
    let mut texts = vec![b"MULTIPOLYGON (".to_vec()];
    texts.extend(parts);
    texts.push(b")\n".to_vec());
    texts
}
