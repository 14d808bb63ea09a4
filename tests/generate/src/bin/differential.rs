//! Compares a session program with the twin on random sessions.
//!
//! The twin is called in this process, so that a session costs one new process and not three;
//! with a third argument, another program takes its place.

use std::env;
use std::panic;
use std::path::PathBuf;
use std::process::ExitCode;

use thrummisk_generate::chance::Chance;
use thrummisk_generate::seeds::{Seeds, ENOUGH};
use thrummisk_generate::session;
use thrummisk_generate::survey::Survey;
use thrummisk_generate::trial;

const USAGE: &str = "usage: differential N PROGRAM [TWIN]";
const KEPT: &str = "target/differential";

struct Programs {
    program: PathBuf,
    twin: Option<PathBuf>,
}

fn main() -> ExitCode {
    let words: Vec<String> = env::args().skip(1).collect();
    let Some((count, programs)) = read(&words) else {
        eprintln!("{USAGE}");
        return ExitCode::from(2);
    };
    let seeds = match Seeds::new(count, KEPT) {
        Ok(seeds) => seeds,
        Err(error) => {
            eprintln!("differential: {KEPT}: {error}");
            return ExitCode::from(2);
        }
    };
    let survey = seeds.try_all(|seed, survey| {
        let compared = programs.compare(&seeds, seed, survey);
        compared.map_err(|difference| format!("differs: {difference}"))
    });
    let (agreed, differed) = (seeds.passed(), seeds.failed());
    print!("{survey}");
    if differed >= ENOUGH {
        println!("stopped after {differed} differences");
    }
    println!("{agreed} of {count} random sessions agree");
    ExitCode::from(u8::from(agreed < count))
}

fn read(words: &[String]) -> Option<(u64, Programs)> {
    let (count, program, twin) = match words {
        [count, program] => (count, program, None),
        [count, program, twin] => (count, program, Some(twin.into())),
        _ => return None,
    };
    let count = count.parse().ok().filter(|&count| count > 0)?;
    Some((count, Programs { program: program.into(), twin }))
}

impl Programs {
    fn compare(&self, seeds: &Seeds, seed: u64, survey: &mut Survey) -> Result<(), String> {
        let session = session::make(seed);
        let keep = |ending: &str, bytes: &[u8]| seeds.keep(seed, ending, bytes);
        let twin = match self.twin_answer(&session.text) {
            Ok(answer) => answer,
            Err(fault) => {
                keep("in", &session.text)?;
                return Err(format!("the twin {fault}"));
            }
        };
        survey.add(&session, &twin);
        // One in 16 arrives in pieces: no answer may depend on that.
        let mut chance = Chance::new(!seed);
        let pieces = chance.one_in(16).then_some(chance);
        let answer = trial::run(&self.program, &session.text, twin.len() + 1, pieces);
        if answer.as_ref() == Ok(&twin) {
            return Ok(());
        }
        keep("in", &session.text)?;
        keep("twin", &twin)?;
        match answer {
            Err(fault) => Err(format!("the program {fault}")),
            Ok(answer) => {
                keep("program", &answer)?;
                Err(first_difference(&twin, &answer))
            }
        }
    }

    fn twin_answer(&self, text: &[u8]) -> Result<Vec<u8>, String> {
        if let Some(twin) = &self.twin {
            return trial::run(twin, text, usize::MAX, None);
        }
        let answer = panic::catch_unwind(|| {
            let mut answer = Vec::new();
            thrummisk_reference::session::run(text, &mut answer).map(|()| answer)
        });
        match answer {
            Ok(Ok(answer)) => Ok(answer),
            Ok(Err(error)) => Err(format!("fails: {error}")),
            Err(_) => Err("panics".to_string()),
        }
    }
}

fn first_difference(twin: &[u8], program: &[u8]) -> String {
    let lines = |bytes: &[u8]| -> Vec<String> {
        let line = |line: &[u8]| line.escape_ascii().to_string();
        bytes.split(|&byte| byte == b'\n').map(line).collect()
    };
    let (twin, program) = (lines(twin), lines(program));
    let same = twin.iter().zip(&program).take_while(|(one, other)| one == other).count();
    let at = |lines: &[String]| lines.get(same).cloned().unwrap_or("(nothing)".to_string());
    format!("line {}: twin {:?}, program {:?}", same + 1, at(&twin), at(&program))
}
