// The same as speed.rt, in plain Rust.
use std::time::Instant;

#[derive(Clone, Copy, PartialEq)]
struct Pt {
    x: i32,
    y: i32,
}

#[derive(Clone, Copy)]
struct Seg {
    a: Pt,
    b: Pt,
    #[allow(dead_code)]
    layer: u8,
}

fn vector(a: Pt, b: Pt) -> (i64, i64) {
    (i64::from(b.x) - i64::from(a.x), i64::from(b.y) - i64::from(a.y))
}

fn determinant(u: (i64, i64), v: (i64, i64)) -> i64 {
    u.0 * v.1 - u.1 * v.0
}

fn nearest(z: i128, n: i64) -> i32 {
    let width = i128::from(n);
    (2 * z + width).div_euclid(2 * width) as i32
}

fn at(start: i32, end: i32, det: i64, e: i64) -> i32 {
    let run = i64::from(end) - i64::from(start);
    nearest(i128::from(det) * i128::from(start) + i128::from(e) * i128::from(run), det)
}

fn cross(s: &Seg, t: &Seg) -> Option<Pt> {
    let mut det = determinant(vector(s.a, s.b), vector(t.a, t.b));
    let mut e = determinant(vector(t.a, t.b), vector(t.a, s.a));
    let mut f = -determinant(vector(s.a, s.b), vector(s.a, t.a));
    if det < 0 {
        det = -det;
        e = -e;
        f = -f;
    }
    if det == 0 || e < 0 || e > det || f < 0 || f > det {
        return None;
    }
    Some(Pt { x: at(s.a.x, s.b.x, det, e), y: at(s.a.y, s.b.y, det, e) })
}

fn meets(s: &Seg, c: Pt) -> bool {
    let in_box = s.a.x.min(s.b.x) <= c.x && c.x <= s.a.x.max(s.b.x) && s.a.y.min(s.b.y) <= c.y && c.y <= s.a.y.max(s.b.y);
    if !in_box {
        return false;
    }
    let run = vector(s.a, s.b);
    let twice = 2 * determinant(run, vector(s.a, c));
    let size = run.0.abs() + run.1.abs();
    if twice == size {
        return run.0 > 0 && run.1 < 0;
    }
    if twice == -size {
        return run.0 < 0 && run.1 > 0;
    }
    -size < twice && twice < size
}

fn step(x: u64) -> u64 {
    x.wrapping_mul(6364136223846793005).wrapping_add(1442695040888963407)
}

fn point(x: u64, range: u64) -> Pt {
    Pt { x: ((x >> 36) % range) as i32, y: ((step(x) >> 36) % range) as i32 }
}

fn samples(n: u32, range: u64) -> Vec<Seg> {
    let mut all = Vec::new();
    let mut x = 1u64;
    for _ in 0..n {
        x = step(x);
        let a = point(x, range);
        x = step(step(x));
        let b = point(x, range);
        if a != b {
            all.push(Seg { a, b, layer: 0 });
        }
    }
    all
}

/// The sum of a term over pairs of segments that are few places apart.
#[inline(always)]
fn sum_over_pairs(all: &[Seg], rounds: usize, term: impl Fn(&Seg, &Seg) -> u64) -> u64 {
    let mut sum = 0u64;
    for round in 1..rounds {
        for (s, t) in all.iter().zip(all.iter().skip(round)) {
            sum = sum.wrapping_add(term(s, t));
        }
    }
    sum
}

#[inline(never)]
fn cross_all(all: &[Seg], rounds: usize) -> u64 {
    sum_over_pairs(all, rounds, |s, t| cross(s, t).map_or(0, |pixel| u64::from(pixel.x.unsigned_abs())))
}

#[inline(never)]
fn meet_all(all: &[Seg], rounds: usize) -> u64 {
    sum_over_pairs(all, rounds, |s, t| u64::from(meets(s, t.a)))
}

fn main() {
    for (name, range) in [("near", 64), ("far", 268_435_456)] {
        let all = samples(4096, range);
        let start = Instant::now();
        let sum = cross_all(&all, 1000);
        println!("cross_{name} {} {sum}", start.elapsed().as_micros());
        let start = Instant::now();
        let sum = meet_all(&all, 1000);
        println!("meets_{name} {} {sum}", start.elapsed().as_micros());
    }
}
