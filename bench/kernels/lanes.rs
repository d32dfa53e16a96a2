// The same loops as in speed.rt.txt, in plain Rust without lanes, without branches over the items and without tests of bounds.
// `rustc` makes vector code of `odd_above`.
use std::time::Instant;

const ITEMS: u32 = 1_000_000;
const ROUNDS: u32 = 7;
const ASKS: u32 = 20;

type Pt = (i32, i32);

#[derive(Default)]
struct Columns {
    px: Vec<i32>,
    py: Vec<i32>,
    qx: Vec<i32>,
    qy: Vec<i32>,
}

impl Columns {
    fn push(&mut self, p: Pt, q: Pt) {
        self.px.push(p.0);
        self.py.push(p.1);
        self.qx.push(q.0);
        self.qy.push(q.1);
    }
}

struct Probe {
    x2: i32,
    y2: i32,
    dx: i32,
    dy: i32,
}

fn step(x: u64) -> u64 {
    x.wrapping_mul(6364136223846793005).wrapping_add(1442695040888963407)
}

fn coordinate(x: u64) -> i32 {
    ((x >> 40) as i32) - 8_388_608
}

fn point(x: u64) -> Pt {
    (coordinate(x), coordinate(step(x)))
}

fn beside(p: Pt, x: u64) -> Pt {
    (p.0.saturating_add((x >> 52) as i32), p.1.saturating_add((x >> 53) as i32))
}

fn in_limit(p: Pt) -> bool {
    p.0.abs() <= 268_435_456 && p.1.abs() <= 268_435_456
}

fn fill(edges: &mut Columns, boxes: &mut Columns, short: bool) {
    let mut x = 1u64;
    for _ in 0..ITEMS {
        x = step(x);
        let p = point(x);
        x = step(step(x));
        let q = if short { beside(p, x) } else { point(x) };
        if p != q && in_limit(p) && in_limit(q) {
            edges.push(p.min(q), p.max(q));
        }
        boxes.push((p.0.min(q.0), p.1.min(q.1)), (p.0.max(q.0), p.1.max(q.1)));
    }
}

#[inline(never)]
fn odd_above(edges: &Columns, z: &Probe) -> bool {
    let column = (if z.dx < 0 { z.x2 - 1 } else { z.x2 }) >> 1;
    let length = edges.px.len();
    let (pxs, pys, qxs, qys) = (&edges.px[..length], &edges.py[..length], &edges.qx[..length], &edges.qy[..length]);
    let mut count = 0u32;
    for i in 0..length {
        let (px, py, qx, qy) = (pxs[i], pys[i], qxs[i], qys[i]);
        let covers = (px <= column) & (column < qx);
        let run = (qx - px) as i64;
        let rise = (qy - py) as i64;
        let over = run * ((z.y2 - 2 * py) as i64);
        let under = rise * ((z.x2 - 2 * px) as i64);
        let leans = run * (z.dy as i64) < rise * (z.dx as i64);
        count += (covers & ((over < under) | ((over == under) & leans))) as u32;
    }
    count % 2 == 1
}

// How many numbers were found; they stand in front of the others.
#[inline(never)]
fn meet_boxes(boxes: &Columns, lo: Pt, hi: Pt, found: &mut Vec<u32>) -> usize {
    let length = boxes.px.len();
    let (pxs, pys, qxs, qys) = (&boxes.px[..length], &boxes.py[..length], &boxes.qx[..length], &boxes.qy[..length]);
    if found.len() <= length {
        found.resize(length + 1, 0);
    }
    // each number is written, and the next one in its place where its box doesn't meet the rectangle
    let mut count = 0;
    for i in 0..length {
        let meets = (pxs[i] <= hi.0) & (pys[i] <= hi.1) & (lo.0 <= qxs[i]) & (lo.1 <= qys[i]);
        // at most i numbers were found before, and there is room for one more than there are boxes
        unsafe { *found.get_unchecked_mut(count) = i as u32 };
        count += meets as usize;
    }
    count
}

fn ask(edges: &Columns) -> u32 {
    let mut odd = 0;
    let mut x = 7u64;
    for _ in 0..ASKS {
        x = step(x);
        let z = Probe {
            x2: coordinate(x),
            y2: coordinate(step(x)),
            dx: coordinate(step(step(x))),
            dy: coordinate(step(step(step(x)))),
        };
        odd += odd_above(edges, &z) as u32;
    }
    odd
}

fn meet(boxes: &Columns, found: &mut Vec<u32>, half: bool) -> usize {
    let mut sum = 0;
    let mut x = 7u64;
    for _ in 0..ASKS {
        x = step(x);
        let lo = point(x);
        x = step(step(x));
        sum += if half {
            meet_boxes(boxes, (0, -8_388_608), (8_388_607, 8_388_607), found)
        } else {
            meet_boxes(boxes, lo, beside(lo, x), found)
        };
    }
    sum
}

fn measure(name: &str, short: bool) {
    let mut edges = Columns::default();
    let mut boxes = Columns::default();
    fill(&mut edges, &mut boxes, short);
    let mut found = Vec::new();
    for _ in 0..ROUNDS {
        let start = Instant::now();
        let odd = ask(&edges);
        println!("odd_above_{name} {} {odd}", start.elapsed().as_micros());
        let start = Instant::now();
        let sum = meet(&boxes, &mut found, false);
        println!("meet_boxes_{name} {} {sum}", start.elapsed().as_micros());
        let start = Instant::now();
        let sum = meet(&boxes, &mut found, true);
        println!("meet_boxes_half_of_{name} {} {sum}", start.elapsed().as_micros());
    }
}

fn main() {
    measure("wide", false);
    measure("short", true);
}
