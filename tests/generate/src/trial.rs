//! One run of a session program, however it may fail.

use std::io::{Read, Write};
use std::path::Path;
use std::process::{Child, ChildStdin, Command, ExitStatus, Stdio};
use std::sync::mpsc;
use std::thread;
use std::time::{Duration, Instant};

use crate::chance::Chance;

/// Longer than any session of ours should take, by far.
const PATIENCE: Duration = Duration::from_secs(60);
/// Long enough for a waiting program to be woken and to read what there is.
const PAUSE: Duration = Duration::from_micros(20);
/// Long enough for most programs to have begun to read.
const START: Duration = Duration::from_millis(2);

/// Runs a program over a text. At most `most` bytes of its answer are read, so that one that
/// never stops talking doesn't stop us. In pieces, the text arrives bit by bit.
pub fn run(
    program: &Path,
    text: &[u8],
    most: usize,
    pieces: Option<Chance>,
) -> Result<Vec<u8>, String> {
    let mut child = Command::new(program)
        .stdin(Stdio::piped())
        .stdout(Stdio::piped())
        .stderr(Stdio::null())
        .spawn()
        .map_err(|error| format!("cannot be run: {error}"))?;
    // Threads of their own, and not joined: a program may neither read nor write nor end.
    if let Some(stdin) = child.stdin.take() {
        let text = text.to_vec();
        thread::spawn(move || hand_over(stdin, &text, pieces));
    }
    let (answered, answers) = mpsc::channel();
    if let Some(stdout) = child.stdout.take() {
        thread::spawn(move || {
            let mut answer = Vec::new();
            let read = stdout.take(most as u64).read_to_end(&mut answer);
            // Nobody listens any more where we have lost patience.
            let _ = answered.send(read.map(|_| answer));
        });
    }
    let answer = answers.recv_timeout(PATIENCE);
    let status = end(&mut child);
    let answer = answer.map_err(|_| "hangs".to_string())?;
    let answer = answer.map_err(|error| format!("cannot be read from: {error}"))?;
    match status {
        // Cut off by us: how it then ends says nothing.
        _ if answer.len() == most => Ok(answer),
        None => Err("answers, but does not end".to_string()),
        Some(status) if !status.success() => Err(format!("ends with {status}")),
        Some(_) => Ok(answer),
    }
}

/// Waits a little for the program to end by itself.
fn end(child: &mut Child) -> Option<ExitStatus> {
    let since = Instant::now();
    while since.elapsed() < Duration::from_secs(2) {
        if let Ok(Some(status)) = child.try_wait() {
            return Some(status);
        }
        thread::sleep(PAUSE);
    }
    // It is ended by force; whether that works can't be told and doesn't matter here.
    let _ = child.kill();
    let _ = child.wait();
    None
}

/// Writes the text; in pieces, from its start or from somewhere in it, as many as take a moment
/// and no more. A program may stop reading early, which is no fault.
fn hand_over(mut stdin: ChildStdin, text: &[u8], pieces: Option<Chance>) {
    let Some(mut chance) = pieces else {
        let _ = stdin.write_all(text);
        return;
    };
    thread::sleep(START);
    let single = chance.one_in(2);
    let whole = if chance.one_in(2) { chance.below(text.len() + 1) } else { 0 };
    let (front, mut rest) = text.split_at(whole);
    if stdin.write_all(front).is_err() {
        return;
    }
    for _ in 0..400 {
        let size = if single { 1 } else { chance.between(1, 40) };
        let (piece, behind) = rest.split_at(size.min(rest.len()));
        if stdin.write_all(piece).is_err() {
            return;
        }
        rest = behind;
        thread::sleep(PAUSE);
    }
    let _ = stdin.write_all(rest);
}
