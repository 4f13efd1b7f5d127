//! Message lines: a letter, a space and hexadecimal digits.

/// The digits' values; 255 for every other byte.
static DIGIT: [u8; 256] = digits();

const fn digits() -> [u8; 256] {
    let mut table = [255; 256];
    let mut value = 0;
    while value < 16 {
        table[b"0123456789abcdef"[value] as usize] = value as u8;
        table[b"0123456789ABCDEF"[value] as usize] = value as u8;
        value += 1;
    }
    table
}

/// The longest message: a length of two bytes and 64 bytes after it.
const LONGEST: usize = 66;

/// A message line as read.
pub struct Line {
    pub letter: u8,
    front: [u8; LONGEST],
    /// How many bytes the line's digits spell, those past the front too.
    pub count: usize,
}

impl Line {
    /// The line's first bytes, at most as many as a message has.
    pub fn front(&self) -> &[u8] {
        &self.front[..self.count.min(LONGEST)]
    }
}

/// Reads one line after another, each in one pass over its bytes.
pub struct Lines<'a> {
    input: &'a [u8],
    at: usize,
}

impl<'a> Lines<'a> {
    pub fn new(input: &'a [u8]) -> Self {
        Lines { input, at: 0 }
    }

    /// The next line as text, without its line feed.
    pub fn next_text(&mut self) -> Option<&'a [u8]> {
        if self.at == self.input.len() {
            return None;
        }
        let start = self.at;
        self.skip_line();
        let line = &self.input[start..self.at];
        Some(line.strip_suffix(b"\n").unwrap_or(line))
    }

    /// The next line as a message line; `Err` if it is none.
    pub fn next_message(&mut self, line: &mut Line) -> Option<Result<(), ()>> {
        let rest = &self.input[self.at..];
        if rest.is_empty() {
            return None;
        }
        if rest.len() < 2 || !rest[0].is_ascii_uppercase() || rest[1] != b' ' {
            self.skip_line();
            return Some(Err(()));
        }
        line.letter = rest[0];
        line.count = decode(&rest[2..], &mut line.front);
        self.at += 2 + 2 * line.count;
        match self.input.get(self.at) {
            None => Some(Ok(())),
            Some(b'\n') => {
                self.at += 1;
                Some(Ok(()))
            }
            Some(_) => {
                self.skip_line();
                Some(Err(()))
            }
        }
    }

    fn skip_line(&mut self) {
        let rest = &self.input[self.at..];
        let line = rest.iter().position(|byte| *byte == b'\n');
        self.at += line.map_or(rest.len(), |end| end + 1);
    }
}

impl Default for Line {
    fn default() -> Self {
        Line {
            letter: 0,
            front: [0; LONGEST],
            count: 0,
        }
    }
}

/// Decodes pairs of digits up to the first that is none, and counts them, those past the front too.
fn decode(text: &[u8], front: &mut [u8; LONGEST]) -> usize {
    let mut count = 0;
    for (place, pair) in front.iter_mut().zip(text.chunks_exact(2)) {
        let Some(byte) = byte(pair) else {
            return count;
        };
        *place = byte;
        count += 1;
    }
    let behind = text[2 * count..].chunks_exact(2);
    count + behind.map_while(byte).count()
}

/// The byte that two digits spell.
fn byte(pair: &[u8]) -> Option<u8> {
    let high = DIGIT[usize::from(pair[0])];
    let low = DIGIT[usize::from(pair[1])];
    (high | low < 16).then_some(high << 4 | low)
}
