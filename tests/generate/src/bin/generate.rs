//! Writes one session to standard output: the random one of a seed, a settlement day, or a long
//! climb.

use std::env;
use std::io::{self, Write};
use std::process::ExitCode;

use thrummisk_generate::day::{self, Manner};
use thrummisk_generate::points::POINTS;
use thrummisk_generate::{climb, session};

const USAGE: &str = "\
usage: generate SEED
       generate day NODES CORRECTIONS               (NODES even, from 16 to 512)
       generate day NODES CORRECTIONS POINTS        (of 1 to 8 lines by one command each)
       generate day NODES CORRECTIONS POINTS apart  (the same lines, by a command each)
       generate climb NODES                         (NODES from 2 to 512)";

fn main() -> ExitCode {
    let words: Vec<String> = env::args().skip(1).collect();
    let words: Vec<&str> = words.iter().map(String::as_str).collect();
    let Some(text) = make(&words) else {
        eprintln!("{USAGE}");
        return ExitCode::from(2);
    };
    match io::stdout().lock().write_all(&text) {
        Ok(()) => ExitCode::SUCCESS,
        Err(error) => {
            eprintln!("generate: {error}");
            ExitCode::FAILURE
        }
    }
}

fn make(words: &[&str]) -> Option<Vec<u8>> {
    match words {
        ["day", nodes, corrections, ref manner @ ..] => {
            let nodes: usize = nodes.parse().ok()?;
            let in_range = (16..=512).contains(&nodes) && nodes.is_multiple_of(2);
            let corrections = corrections.parse().ok()?;
            let manner = manner_of(manner)?;
            in_range.then(|| day::make(nodes, corrections, manner))
        }
        ["climb", nodes] => {
            let nodes: usize = nodes.parse().ok()?;
            (2..=512).contains(&nodes).then(|| climb::make(nodes))
        }
        [seed] => Some(session::make(seed.parse().ok()?).text),
        _ => None,
    }
}

fn manner_of(words: &[&str]) -> Option<Manner> {
    let points = |word: &str| word.parse().ok().filter(|points| (1..=POINTS).contains(points));
    match words {
        [] => Some(Manner::Single),
        [word] => points(word).map(Manner::Together),
        [word, "apart"] => points(word).map(Manner::Apart),
        _ => None,
    }
}
