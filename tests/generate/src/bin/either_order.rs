//! Runs a session program on random days of two clerks, and judges whether they end alike in
//! either order.

use std::env;
use std::path::Path;
use std::process::ExitCode;

use thrummisk_generate::orders;
use thrummisk_generate::seeds::{Seeds, ENOUGH};
use thrummisk_generate::survey::Survey;
use thrummisk_generate::trial;

const USAGE: &str = "usage: either_order N PROGRAM";
const KEPT: &str = "target/either_order";
/// Longer than any answer to a day should be, by far, and short enough to keep some.
const MOST: usize = 1 << 23;

fn main() -> ExitCode {
    let words: Vec<String> = env::args().skip(1).collect();
    let Some((count, program)) = read(&words) else {
        eprintln!("{USAGE}");
        return ExitCode::from(2);
    };
    let seeds = match Seeds::new(count, KEPT) {
        Ok(seeds) => seeds,
        Err(error) => {
            eprintln!("either_order: {KEPT}: {error}");
            return ExitCode::from(2);
        }
    };
    let survey = seeds.try_all(|seed, survey| try_day(&seeds, program, seed, survey));
    let (passed, failed) = (seeds.passed(), seeds.failed());
    print!("{survey}");
    if failed >= ENOUGH {
        println!("stopped after {failed} days that fail");
    }
    println!("{passed} of {count} days end alike in either order");
    ExitCode::from(u8::from(passed < count))
}

fn read(words: &[String]) -> Option<(u64, &Path)> {
    let [count, program] = words else { return None };
    let count = count.parse().ok().filter(|&count| count > 0)?;
    Some((count, Path::new(program)))
}

fn try_day(seeds: &Seeds, program: &Path, seed: u64, survey: &mut Survey) -> Result<(), String> {
    let day = orders::draw(seed, orders::shifted);
    let answer = trial::run(program, &day.text, MOST, None);
    let end = match &answer {
        Ok(answer) if answer.len() == MOST => Err("the program doesn't stop answering".to_string()),
        Ok(answer) => orders::judge(&day, answer),
        Err(fault) => Err(format!("the program {fault}")),
    };
    match end {
        Ok(end) => {
            orders::count(survey, &day, &end);
            Ok(())
        }
        Err(why) => {
            seeds.keep(seed, "in", &day.text)?;
            seeds.keep(seed, "out", &answer.unwrap_or_default())?;
            Err(format!("fails: {why}"))
        }
    }
}
