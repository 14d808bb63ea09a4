//! Session text on standard input, session frames on standard output.

use std::io::{self, BufWriter};
use std::process::ExitCode;

use thrummisk_reference::session;

fn main() -> ExitCode {
    // Stdout of its own would look for the end of a line in every frame.
    let output = BufWriter::with_capacity(1 << 14, io::stdout().lock());
    match session::run(io::stdin().lock(), output) {
        Ok(()) => ExitCode::SUCCESS,
        Err(error) => {
            eprintln!("thrummisk-reference: {error}");
            ExitCode::FAILURE
        }
    }
}
