//! The commands on files of texts, by the engine's calls: COMMAND A [B ..] [--workers=N] [--tile=SIDE] [--segments=N] [--report] [--areas] [--covered].

use engine::{FacesFault, FacesLimits, Limits, Plan, Report};
use geom::{Op, RunFault};
use kit::alloc::Global;
use kit::prelude::Vec;
use tile_book::OpenGate;

/// Standard output.
struct Output;

impl engine::Sink for Output {
    fn write(&mut self, bytes: &[u8]) -> Result<usize, engine::SinkFault> {
        ::std::io::Write::write(&mut ::std::io::stdout(), bytes).map_err(|_| engine::SinkFault)
    }

    fn finish(&mut self) -> Result<(), engine::SinkFault> {
        ::std::io::Write::flush(&mut ::std::io::stdout()).map_err(|_| engine::SinkFault)
    }

    fn failures(&self) -> u64 {
        0
    }
}

/// What is said of a run, and its exit status.
type Said = (Vec<u8>, u8);

fn operation(name: &str) -> Option<Op> {
    match name {
        "union" => Some(Op::Union),
        "intersection" => Some(Op::Intersection),
        "difference" => Some(Op::Difference),
        "symdifference" => Some(Op::SymDifference),
        _ => None,
    }
}

fn words_of(report: Result<Report<Global>, RunFault>) -> Said {
    match report {
        Ok(report) => (engine::report_text(Global, &report).unwrap(), 0),
        Err(fault) => (engine::line(Global, &fault).unwrap(), engine::status(&fault)),
    }
}

fn measured(op: Op, a: &[u8], b: &[u8], plan: Plan, limits: Limits, reports: bool) -> Said {
    match engine::run_measured_within(&(), Global, op, a, b, plan, limits, &OpenGate, &mut Output) {
        Ok(told) => {
            let mut text = Vec::new(Global);
            if reports {
                text = engine::report_text(Global, &told.answer).unwrap();
            }
            text.extend_from_slice(&engine::measures_text(Global, &told.measures).unwrap())
                .unwrap();
            (text, 0)
        }
        Err(fault) => words_of(Err(fault)),
    }
}

fn refused(fault: FacesFault) -> Said {
    (engine::faces_line(Global, &fault).unwrap(), engine::faces_status(&fault))
}

fn covered(op: Op, a: &[u8], b: &[u8], plan: Plan, limits: Limits) -> Said {
    let told = engine::run_covered_within(&(), Global, op, a, b, plan, limits, &OpenGate, &mut Output);
    told.map_or_else(refused, |report| words_of(Ok(report)))
}

fn faces(layers: &[&[u8]], plan: Plan, limits: Limits) -> Said {
    let limits = FacesLimits { segments: limits.segments, ..FacesLimits::default() };
    let told = engine::faces_within(&(), Global, layers, plan, limits, &OpenGate, &mut Output);
    told.map_or_else(refused, |report| (engine::faces_report_text(Global, &report).unwrap(), 0))
}

fn main() {
    let (options, words): (::std::vec::Vec<_>, ::std::vec::Vec<_>) = ::std::env::args().skip(1).partition(|word| word.starts_with("--"));
    let number = |name: &str| {
        options
            .iter()
            .find_map(|word| word.strip_prefix(name))
            .map(|number| number.parse().unwrap())
    };
    let is_asked = |name: &str| options.iter().any(|word| word == name);
    let texts: ::std::vec::Vec<_> = words[1..].iter().map(|file| ::std::fs::read(file).unwrap()).collect();
    let layers: ::std::vec::Vec<&[u8]> = texts.iter().map(|text| text.as_slice()).collect();
    let side: Option<u32> = number("--tile=");
    let workers = number("--workers=").unwrap_or(1);
    let limits = number("--segments=").map_or(Limits::default(), |segments| Limits { segments });
    let reports = is_asked("--report");
    let answer = |side| {
        let plan = Plan { side, workers };
        match (operation(&words[0]), layers.as_slice()) {
            (Some(op), [a, b]) if is_asked("--covered") => covered(op, a, b, plan, limits),
            (Some(op), [a, b]) if is_asked("--areas") => measured(op, a, b, plan, limits, reports),
            (Some(op), [a, b]) => words_of(engine::run_within(&(), Global, op, a, b, plan, limits, &OpenGate, &mut Output)),
            (None, [a, b]) if words[0] == "edges" => words_of(engine::edges_within(&(), Global, a, b, plan, limits, &OpenGate, &mut Output)),
            _ => faces(&layers, plan, limits),
        }
    };
    let (mut said, mut status) = answer(side.unwrap_or(grid::DEFAULT_SIDE));
    // What is refused may want a greater side, as the program knows.
    if status != 0 && side.is_none() {
        (said, status) = answer(engine::fitting_side_over(&layers));
    }
    if status != 0 || reports || is_asked("--areas") {
        ::std::io::Write::write_all(&mut ::std::io::stderr(), &said).unwrap();
    }
    ::std::process::exit(status.into());
}
