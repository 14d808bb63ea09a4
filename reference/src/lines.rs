//! Lines of hex digits out of a stream, through a window of fixed size.

use std::io::{self, ErrorKind, Read};

use crate::refusal::{Halt, Refusal};

/// The longest good line holds 28 digits, so a byte behind them decides any line.
const DIGITS: usize = 28;
const WINDOW: usize = 1 << 14;

/// The bytes that one good line stands for: 1 to 14.
#[derive(Clone, Copy)]
pub struct Bytes {
    room: [u8; DIGITS / 2],
    count: usize,
}

impl Bytes {
    pub fn as_slice(&self) -> &[u8] {
        &self.room[..self.count]
    }
}

/// What the first bytes of a text say about its first line.
enum Look {
    Good(Bytes),
    Bad,
    /// All right so far, but the LF has not come.
    Open,
}

pub struct Lines<R> {
    input: R,
    window: Box<[u8; WINDOW]>,
    at: usize,
    end: usize,
    over: bool,
    line: u32,
}

impl<R: Read> Lines<R> {
    pub fn new(input: R) -> Self {
        Lines { input, window: Box::new([0; WINDOW]), at: 0, end: 0, over: false, line: 0 }
    }

    /// The number of the line handed out last.
    pub fn line(&self) -> u32 {
        self.line
    }

    /// Line numbers stay at their limit: a session may be longer than 32 bits can count.
    pub fn line_after(&self) -> u32 {
        self.line.saturating_add(1)
    }

    /// Whether the next line needs bytes that have not been read yet.
    pub fn is_dry(&self) -> bool {
        !self.over && !self.window[self.at..self.end].contains(&b'\n')
    }

    /// The next line, or nothing where the text ends before one begins.
    ///
    /// A line is answered as soon as its LF is there: waiting for a fuller window would leave
    /// a caller without an answer who waits for it before sending more.
    pub fn next_line(&mut self) -> Result<Option<Bytes>, Halt> {
        loop {
            match look(&self.window[self.at..self.end]) {
                Look::Good(bytes) => {
                    self.at += 2 * bytes.count + 1;
                    self.line = self.line_after();
                    return Ok(Some(bytes));
                }
                Look::Bad => return Err(self.bad()),
                Look::Open if !self.over => self.refill()?,
                Look::Open if self.at == self.end => return Ok(None),
                Look::Open => return Err(self.bad()),
            }
        }
    }

    fn bad(&self) -> Halt {
        Halt::Refused(Refusal::BadLine, self.line_after())
    }

    /// Moves what is left, less than a line, to the front and reads behind it.
    fn refill(&mut self) -> io::Result<()> {
        self.window.copy_within(self.at..self.end, 0);
        self.end -= self.at;
        self.at = 0;
        loop {
            match self.input.read(&mut self.window[self.end..]) {
                Ok(0) => self.over = true,
                Ok(count) => self.end += count,
                Err(error) if error.kind() == ErrorKind::Interrupted => continue,
                Err(error) => return Err(error),
            }
            return Ok(());
        }
    }
}

fn look(text: &[u8]) -> Look {
    let mut bytes = Bytes { room: [0; DIGITS / 2], count: 0 };
    for (i, &byte) in text.iter().take(DIGITS + 1).enumerate() {
        if byte == b'\n' {
            bytes.count = i / 2;
            return if i >= 2 && i % 2 == 0 { Look::Good(bytes) } else { Look::Bad };
        }
        let digit = match byte {
            b'0'..=b'9' => byte - b'0',
            b'a'..=b'f' => byte - b'a' + 10,
            _ => return Look::Bad,
        };
        let Some(room) = bytes.room.get_mut(i / 2) else {
            return Look::Bad;
        };
        *room = *room << 4 | digit;
    }
    Look::Open
}

#[cfg(test)]
mod tests {
    use super::*;

    #[test]
    fn line_numbers_stay_at_their_limit() {
        let mut lines = Lines::new(&b"08\n08\n0\n"[..]);
        lines.line = u32::MAX - 1;
        assert!(lines.next_line().is_ok());
        assert_eq!(lines.line(), u32::MAX);
        assert!(lines.next_line().is_ok());
        assert!(matches!(lines.next_line(), Err(Halt::Refused(Refusal::BadLine, u32::MAX))));
    }
}
