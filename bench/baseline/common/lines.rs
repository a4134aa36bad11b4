//! Line files: their lines that tell something, fields, numbers and names.
use super::lex::Keyword;

/// The lines that aren't blank and no comments, each with its number.
pub struct Lines<'a> {
    rest: &'a [u8],
    at: usize,
}

impl<'a> Lines<'a> {
    pub fn new(text: &'a [u8]) -> Self {
        Lines { rest: text, at: 0 }
    }

    /// The number after that of the last line, once there are no more.
    pub fn past(&self) -> usize {
        self.at + 1
    }

    /// The next line, whatever it holds.
    pub fn any(&mut self) -> Option<&'a [u8]> {
        if self.rest.is_empty() {
            return None;
        }
        self.at += 1;
        let Some(end) = find(self.rest, b'\n') else {
            return Some(std::mem::take(&mut self.rest));
        };
        let line = &self.rest[..end];
        self.rest = &self.rest[end + 1..];
        Some(line.strip_suffix(b"\r").unwrap_or(line))
    }
}

/// The place of a byte, eight bytes at a time.
fn find(text: &[u8], byte: u8) -> Option<usize> {
    const ONES: u64 = 0x0101_0101_0101_0101;
    let mut at = 0;
    for chunk in text.chunks_exact(8) {
        let word = u64::from_le_bytes(chunk.try_into().unwrap()) ^ (ONES * byte as u64);
        let zeros = word.wrapping_sub(ONES) & !word & (ONES << 7);
        if zeros != 0 {
            return Some(at + zeros.trailing_zeros() as usize / 8);
        }
        at += 8;
    }
    text[at..].iter().position(|b| *b == byte).map(|k| at + k)
}

impl<'a> Iterator for Lines<'a> {
    type Item = (usize, &'a [u8]);

    fn next(&mut self) -> Option<Self::Item> {
        while let Some(line) = self.any() {
            let rest = trimmed(line);
            if !rest.is_empty() && rest[0] != b'#' {
                return Some((self.at, rest));
            }
        }
        None
    }
}

/// A text without the spaces before it.
pub fn trimmed(text: &[u8]) -> &[u8] {
    let spaces = text.iter().take_while(|b| **b == b' ').count();
    &text[spaces..]
}

/// Splits off the first field, and the spaces behind it; nothing where there is none.
pub fn field<'a>(rest: &mut &'a [u8]) -> Option<&'a [u8]> {
    let end = rest.iter().position(|b| *b == b' ').unwrap_or(rest.len());
    let (field, after) = rest.split_at(end);
    *rest = trimmed(after);
    (!field.is_empty()).then_some(field)
}

/// A number without a sign or a leading zero.
pub fn number(field: &[u8]) -> Option<u64> {
    if field.is_empty() || (field[0] == b'0' && field.len() > 1) {
        return None;
    }
    let mut value = 0u64;
    for b in field {
        let digit = b.wrapping_sub(b'0');
        if digit > 9 {
            return None;
        }
        value = value.checked_mul(10)?.checked_add(digit as u64)?;
    }
    Some(value)
}

pub fn small(field: &[u8]) -> Option<u32> {
    number(field)?.try_into().ok()
}

pub fn is_name(field: &[u8]) -> bool {
    let tail = |b: &u8| b.is_ascii_lowercase() || b.is_ascii_digit() || *b == b'_';
    (1..=32).contains(&field.len())
        && field[0].is_ascii_lowercase()
        && field.iter().all(tail)
        && Keyword::of(field).is_none()
}
