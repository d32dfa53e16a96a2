//! Reading both layers; the texts are taken as they should be.
use crate::hands::Hands;
use crate::point::Segment;

/// The segments of both layers, in text order, the first layer's first.
pub fn layers(files: &[String], hands: Hands) -> Vec<Segment> {
    let read = |layer: usize| segments(&std::fs::read(&files[layer]).unwrap(), layer as u32, false).0;
    together(if hands.0 > 1 { Hands(2).each(read) } else { vec![read(0), read(1)] })
}

/// The same of texts.
pub fn both(texts: &[Vec<u8>; 2]) -> Vec<Segment> {
    together(vec![segments(&texts[0], 0, false).0, segments(&texts[1], 1, false).0])
}

/// The segments of all layers, each with the number of its feature, in text order; and the number of each layer's first feature.
pub fn features(files: &[String], hands: Hands) -> (Vec<Segment>, Vec<u32>) {
    let read = hands.tasks(files.len(), |layer| segments(&std::fs::read(&files[layer]).unwrap(), 0, true));
    let (mut all, mut firsts, mut features) = (Vec::new(), Vec::new(), 0);
    for (segments, count) in read {
        firsts.push(features);
        all.extend(segments.into_iter().map(|segment| Segment { owner: segment.owner + features, ..segment }));
        features += count;
    }
    (all, firsts)
}

fn together(mut both: Vec<Vec<Segment>>) -> Vec<Segment> {
    let second = both.pop().unwrap();
    let mut all = both.pop().unwrap();
    all.extend(second);
    all
}

struct Numbers<'a> {
    text: &'a [u8],
    at: usize,
}

impl Numbers<'_> {
    #[inline(always)]
    fn next(&mut self) -> i32 {
        while self.text[self.at].is_ascii_whitespace() {
            self.at += 1;
        }
        let negative = self.text[self.at] == b'-';
        self.at += negative as usize;
        let mut value = 0i32;
        while self.at < self.text.len() && self.text[self.at].is_ascii_digit() {
            value = value * 10 + (self.text[self.at] - b'0') as i32;
            self.at += 1;
        }
        if negative {
            -value
        } else {
            value
        }
    }
}

/// The segments of one text, those between neighbours of a ring that differ, and how many features it has. They are the owner's,
/// or each is its own feature's, whose numbers begin with 0.
fn segments(text: &[u8], owner: u32, by_features: bool) -> (Vec<Segment>, u32) {
    let mut found = Vec::with_capacity(text.len() / 18);
    let mut numbers = Numbers { text, at: 0 };
    let mut last: Option<(i32, i32)> = None;
    let mut features = 0;
    while numbers.at < text.len() {
        match text[numbers.at] {
            b'(' => last = None,
            b'-' | b'0'..=b'9' => {
                let point = (numbers.next(), numbers.next());
                if let Some(last) = last.filter(|last| *last != point) {
                    let (p, q) = if last < point { (last, point) } else { (point, last) };
                    found.push(Segment { px: p.0, py: p.1, qx: q.0, qy: q.1, owner: if by_features { features - 1 } else { owner } });
                }
                last = Some(point);
                continue;
            }
            letter if letter.is_ascii_alphabetic() => {
                // each geometry begins with its name, and EMPTY is none
                features += !letter.eq_ignore_ascii_case(&b'E') as u32;
                while numbers.at < text.len() && text[numbers.at].is_ascii_alphabetic() {
                    numbers.at += 1;
                }
                continue;
            }
            _ => {}
        }
        numbers.at += 1;
    }
    (found, features)
}
