//! Many pairs in one process: on standard input a line with the lengths of both texts, then the texts; on standard output a line
//! with the lengths of the five answers, then the answers, in the order of `COMMANDS`. It ends where the input ends.
use crate::hands::Hands;
use crate::{made, made_of_nothing, reading, round, Laps, Rounded};
use std::io::{BufRead, Write};
use std::time::Instant;

const COMMANDS: [&str; 5] = ["edges", "union", "intersection", "difference", "symdifference"];

/// The next pair of texts; none at the end of the input.
fn next_pair(input: &mut impl BufRead) -> Option<[Vec<u8>; 2]> {
    let mut line = String::new();
    if input.read_line(&mut line).unwrap() == 0 {
        return None;
    }
    let mut lengths = line.split_whitespace().map(|length| length.parse().unwrap());
    Some([(); 2].map(|_| {
        let mut text = vec![0; lengths.next().unwrap()];
        input.read_exact(&mut text).unwrap();
        text
    }))
}

/// The five answers, which share the rounding.
fn answers(pair: &[Vec<u8>; 2]) -> Vec<Vec<u8>> {
    let (hands, mut laps) = (Hands(1), Laps { shown: false, last: Instant::now() });
    let segments = reading::both(pair);
    if segments.is_empty() {
        return COMMANDS.iter().map(|command| made_of_nothing(command).texts.concat()).collect();
    }
    let Rounded { records, counted, strips } = round(&segments, None, hands, &mut laps);
    let again = || Rounded { records, counted: counted.clone(), strips: strips.clone() };
    COMMANDS.iter().map(|command| made(again(), command, hands, &mut laps).texts.concat()).collect()
}

pub fn answer_all() {
    let (mut input, mut output) = (std::io::stdin().lock(), std::io::stdout().lock());
    while let Some(pair) = next_pair(&mut input) {
        let found = answers(&pair);
        let lengths: Vec<String> = found.iter().map(|text| text.len().to_string()).collect();
        writeln!(output, "{}", lengths.join(" ")).unwrap();
        found.iter().for_each(|text| output.write_all(text).unwrap());
        output.flush().unwrap();
    }
}
