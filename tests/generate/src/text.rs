//! The text of a session while it is made: lines that can still be damaged.

/// Lines with their endings. A damaged line may have any bytes, also no ending or several.
#[derive(Default)]
pub struct Text {
    pub lines: Vec<Vec<u8>>,
}

impl Text {
    pub fn frame(&mut self, bytes: &[u8]) {
        self.lines.push(line(bytes));
    }

    pub fn bytes(self) -> Vec<u8> {
        self.lines.concat()
    }
}

/// One frame as a good line.
pub fn line(bytes: &[u8]) -> Vec<u8> {
    let digit = |number: u8| char::from_digit(number.into(), 16).map_or(b'0', |digit| digit as u8);
    let mut line: Vec<u8> =
        bytes.iter().flat_map(|&byte| [digit(byte >> 4), digit(byte & 15)]).collect();
    line.push(b'\n');
    line
}

/// The bytes of a good line; of a damaged one those of its leading pairs of digits.
pub fn frame_of(line: &[u8]) -> Vec<u8> {
    let digit = |byte: u8| (byte as char).to_digit(16).map(|digit| digit as u8);
    line.chunks_exact(2).map_while(|pair| Some(digit(pair[0])? << 4 | digit(pair[1])?)).collect()
}
