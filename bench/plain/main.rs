//! The run of `overlay` as a plain Rust program: the same rules and the same bytes, with nothing proved and nothing refused.
//! It is the yardstick for speed, and a second opinion on large layers.
//!
//!     plain COMMAND A B [--workers=N] [--tile=SIDE] [--report] [--times]
//!     plain faces A [B ..] [--workers=N] [--tile=SIDE] [--times]
//!     plain pipe
//!
//! The third way answers many pairs, see `pipe.rs`. The report is one line on standard error, the number of records. Of refusals it
//! knows that of `faces` for too many features in all rows.
//!
//! The stages are those of the modules: read, bins, tiles (hot pixels and records), records by segment, links, counted edges,
//! then their text; or labels, directed edges, next edges, rings and holes, polygons and their text. For `faces` it is borders
//! behind the records, then the sweep with sets of features, the rows, and each one's polygons and text.
mod bins;
mod borders;
mod cover;
mod cover_sweep;
mod crossing;
mod edges;
mod faces;
mod hands;
mod labels;
mod pipe;
mod point;
mod polygons;
mod reading;
mod records;
mod ribbon;
mod rings;
mod row_polygons;
mod rows;
mod stretches;
mod sweep;
mod text;
mod tiles;

use hands::Hands;
use std::io::Write;
use std::time::Instant;

/// What the command line asks for.
struct Request {
    command: String,
    files: Vec<String>,
    workers: usize,
    side: Option<i64>,
    report: bool,
    times: bool,
}

impl Request {
    fn read() -> Request {
        let mut words: Vec<String> = Vec::new();
        let mut request = Request { command: String::new(), files: Vec::new(), workers: 4, side: None, report: false, times: false };
        for word in std::env::args().skip(1) {
            if let Some(number) = word.strip_prefix("--workers=") {
                request.workers = number.parse().unwrap();
            } else if let Some(number) = word.strip_prefix("--tile=") {
                request.side = Some(number.parse().unwrap());
            } else if word == "--report" {
                request.report = true;
            } else if word == "--times" {
                request.times = true;
            } else {
                words.push(word);
            }
        }
        request.files = words.split_off(1.min(words.len()));
        request.command = words.pop().unwrap_or_default();
        assert!(request.files.len() == 2 || request.command == "faces" && !request.files.is_empty(), "a command and its files");
        request
    }
}

/// Prints what each stage took.
struct Laps {
    shown: bool,
    last: Instant,
}

impl Laps {
    fn lap(&mut self, stage: &str) {
        if self.shown {
            eprintln!("{stage:9} {:.4}", self.last.elapsed().as_secs_f64());
        }
        self.last = Instant::now();
    }
}

/// Both layers up to their counted edges.
struct Rounded {
    records: usize,
    counted: Vec<Vec<edges::Counted>>,
    strips: edges::Strips,
}

/// The number of records, and the routes of at least one segment.
fn routes(segments: &[point::Segment], side: Option<i64>, hands: Hands, laps: &mut Laps) -> (usize, records::Routes) {
    let grid = bins::Grid::over(segments, side, hands);
    let bins = bins::Bins::build(&grid, segments, hands);
    laps.lap("bins");
    let found = tiles::records(&grid, bins, segments, hands);
    laps.lap("tiles");
    let records = found.iter().map(Vec::len).sum();
    let routes = records::Routes::gather(found, segments.len(), hands);
    laps.lap("records");
    (records, routes)
}

/// The rounded edges of at least one segment.
fn round(segments: &[point::Segment], side: Option<i64>, hands: Hands, laps: &mut Laps) -> Rounded {
    let (records, routes) = routes(segments, side, hands, laps);
    let strips = edges::Strips::of(segments, hands);
    let links = edges::links(routes, segments, &strips, hands);
    laps.lap("links");
    let counted = edges::count(links, &strips, hands);
    laps.lap("count");
    Rounded { records, counted, strips }
}

/// The text of a command, in parts, and what it was made of: the program ends without letting go of that, which would take time.
struct Made {
    records: usize,
    texts: Vec<Vec<u8>>,
    _of: Option<(labels::Directed, rings::Rings, Vec<Vec<polygons::Piece>>)>,
}

fn made(rounded: Rounded, command: &str, hands: Hands, laps: &mut Laps) -> Made {
    let Rounded { records, counted, strips } = rounded;
    if command == "edges" {
        let texts = text::edges(&counted, hands);
        laps.lap("format");
        return Made { records, texts, _of: None };
    }
    let directed = labels::directed(counted, command, &strips, hands);
    laps.lap("labels");
    let next = rings::next_edges(&directed, &strips, hands);
    laps.lap("next");
    let rings = rings::Rings::walk(&directed, &next, hands);
    let owners = rings::owners(&directed, &rings, &strips, hands);
    laps.lap("rings");
    let pieces = polygons::pieces(&directed, &rings, &owners, hands);
    let order = polygons::order(&pieces, rings.len());
    laps.lap("polygons");
    let texts = text::polygons(&pieces, &order, directed.edges.len(), hands);
    laps.lap("format");
    Made { records, texts, _of: Some((directed, rings, pieces)) }
}

/// The same where no layer has a segment.
fn made_of_nothing(command: &str) -> Made {
    Made { records: 0, texts: vec![if command == "edges" { Vec::new() } else { text::EMPTY.to_vec() }], _of: None }
}

/// Writes the faces of all layers; the program ends without letting go of what they were made of.
fn write_faces(request: &Request) {
    let mut laps = Laps { shown: request.times, last: Instant::now() };
    let (segments, firsts) = reading::features(&request.files, Hands(request.workers));
    laps.lap("read");
    if segments.is_empty() {
        return;
    }
    let texts = faces::texts(&segments, &firsts, request.side, Hands(request.workers), &mut laps).unwrap_or_else(|count| {
        eprintln!("overlay: 12 too many ids: {count}");
        std::process::exit(3)
    });
    let mut output = std::io::stdout().lock();
    texts.iter().for_each(|text| output.write_all(text).unwrap());
    laps.lap("write");
    std::mem::forget((segments, texts));
}

fn main() {
    if std::env::args().nth(1).as_deref() == Some("pipe") {
        return pipe::answer_all();
    }
    let request = Request::read();
    if request.command == "faces" {
        return write_faces(&request);
    }
    let hands = Hands(request.workers);
    let mut laps = Laps { shown: request.times, last: Instant::now() };
    let segments = reading::layers(&request.files, hands);
    laps.lap("read");
    let found = if segments.is_empty() {
        made_of_nothing(&request.command)
    } else {
        made(round(&segments, request.side, hands, &mut laps), &request.command, hands, &mut laps)
    };
    let mut output = std::io::stdout().lock();
    for text in &found.texts {
        output.write_all(text).unwrap();
    }
    laps.lap("write");
    if request.report {
        eprintln!("records {}", found.records);
    }
    std::mem::forget((segments, found));
}
