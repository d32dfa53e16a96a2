// A plain parse of one layer text into vectors of points, as one writes it without contracts: no offsets, no limits, no
// check that rings close. The measure for check_layer and read_layer.
use std::time::Instant;

struct Parser<'a> {
    text: &'a [u8],
    at: usize,
}

impl<'a> Parser<'a> {
    fn space(&mut self) {
        while self.at < self.text.len() && matches!(self.text[self.at], b' ' | b'\t' | b'\r' | b'\n') {
            self.at += 1;
        }
    }

    fn expect(&mut self, byte: u8) -> Option<()> {
        self.space();
        if *self.text.get(self.at)? == byte {
            self.at += 1;
            return Some(());
        }
        None
    }

    fn comma(&mut self) -> bool {
        self.space();
        if self.text.get(self.at) == Some(&b',') {
            self.at += 1;
            return true;
        }
        false
    }

    fn word(&mut self, word: &[u8]) -> bool {
        self.space();
        let end = self.at + word.len();
        if end <= self.text.len() && self.text[self.at..end].eq_ignore_ascii_case(word) {
            self.at = end;
            return true;
        }
        false
    }

    fn number(&mut self) -> Option<i32> {
        self.space();
        let negative = self.text.get(self.at) == Some(&b'-');
        if negative {
            self.at += 1;
        }
        let start = self.at;
        let mut value: i32 = 0;
        while self.at < self.text.len() && self.text[self.at].is_ascii_digit() {
            value = value.checked_mul(10)?.checked_add((self.text[self.at] - b'0') as i32)?;
            self.at += 1;
        }
        if self.at == start {
            return None;
        }
        Some(if negative { -value } else { value })
    }

    fn ring(&mut self) -> Option<Vec<(i32, i32)>> {
        self.expect(b'(')?;
        let mut points = Vec::new();
        loop {
            points.push((self.number()?, self.number()?));
            if !self.comma() {
                break;
            }
        }
        self.expect(b')')?;
        Some(points)
    }

    fn body(&mut self, rings: &mut Vec<Vec<(i32, i32)>>) -> Option<()> {
        self.expect(b'(')?;
        loop {
            rings.push(self.ring()?);
            if !self.comma() {
                break;
            }
        }
        self.expect(b')')
    }

    fn layer(&mut self) -> Option<Vec<Vec<(i32, i32)>>> {
        let mut rings = Vec::new();
        loop {
            self.space();
            if self.at == self.text.len() {
                return Some(rings);
            }
            let multi = self.word(b"MULTIPOLYGON");
            if !multi && !self.word(b"POLYGON") {
                return None;
            }
            if self.word(b"EMPTY") {
                continue;
            }
            if !multi {
                self.body(&mut rings)?;
                continue;
            }
            self.expect(b'(')?;
            loop {
                self.body(&mut rings)?;
                if !self.comma() {
                    break;
                }
            }
            self.expect(b')')?;
        }
    }
}

fn main() {
    let text = std::fs::read(std::env::args().nth(1).unwrap()).unwrap();
    for _ in 0..5 {
        let start = Instant::now();
        let rings = Parser { text: &text, at: 0 }.layer().unwrap();
        let points: usize = rings.iter().map(|ring| ring.len()).sum();
        println!("parse {} {}", start.elapsed().as_micros(), points - rings.len());
    }
}
