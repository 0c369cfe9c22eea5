//! Reading input line by line, and the numbers of a line.

use std::io::{ErrorKind, Read, Result};

/// Most bytes of a line; the newline isn't counted.
pub const LINE: usize = 128;

const CHUNK: usize = 1 << 16;

/// Hands each line of the input to `visit`, without its newline. The last may lack one.
/// Of a line above the limit only the first bytes are handed on, one more than the limit.
pub fn each_line(mut input: impl Read, mut visit: impl FnMut(&[u8]) -> Result<()>) -> Result<()> {
    let mut chunk = vec![0; CHUNK];
    let mut begun = Vec::with_capacity(LINE + 1);
    loop {
        let mut rest = match input.read(&mut chunk) {
            Ok(0) => break,
            Ok(length) => &chunk[..length],
            Err(error) if error.kind() == ErrorKind::Interrupted => continue,
            Err(error) => return Err(error),
        };
        while let Some(end) = rest.iter().position(|&byte| byte == b'\n') {
            let (line, after) = rest.split_at(end);
            if begun.is_empty() {
                visit(&line[..line.len().min(LINE + 1)])?;
            } else {
                extend(&mut begun, line);
                visit(&begun)?;
                begun.clear();
            }
            rest = &after[1..];
        }
        extend(&mut begun, rest);
    }
    if begun.is_empty() {
        return Ok(());
    }
    visit(&begun)
}

/// Appends what still has room in a line.
fn extend(line: &mut Vec<u8>, more: &[u8]) {
    let room = LINE + 1 - line.len();
    line.extend_from_slice(&more[..more.len().min(room)]);
}

/// The decimal number that the bytes spell, with no leading zeros and at most `limit`.
pub fn number(bytes: &[u8], limit: u64) -> Option<u64> {
    if bytes.is_empty() || bytes.len() > 1 && bytes[0] == b'0' {
        return None;
    }
    let mut value: u64 = 0;
    for &byte in bytes {
        if !byte.is_ascii_digit() {
            return None;
        }
        value = value.checked_mul(10)?.checked_add(u64::from(byte - b'0'))?;
        if value > limit {
            return None;
        }
    }
    Some(value)
}

/// The letter of a line and the numbers after it, each behind a single space.
/// At most as many numbers as there is room for; answers how many there are.
pub fn letter_and_numbers(line: &[u8], limit: u64, numbers: &mut [u64]) -> Option<(u8, usize)> {
    let (&letter, rest) = line.split_first()?;
    if line.len() > LINE {
        return None;
    }
    let Some((&space, rest)) = rest.split_first() else {
        return Some((letter, 0));
    };
    if space != b' ' {
        return None;
    }
    Some((letter, numbers_of(rest, limit, numbers)?))
}

/// The numbers that the bytes spell, single spaces between them, one at least. At most as many as there is room for;
/// answers how many there are.
pub fn numbers_of(bytes: &[u8], limit: u64, numbers: &mut [u64]) -> Option<usize> {
    let mut count = 0;
    for part in bytes.split(|&byte| byte == b' ') {
        *numbers.get_mut(count)? = number(part, limit)?;
        count += 1;
    }
    Some(count)
}
