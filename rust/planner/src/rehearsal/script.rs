//! A script's lines and the commands in them.

/// The longest line.
const LONGEST: usize = 128;
/// The largest number.
const MOST: u32 = 65535;
/// How many message slots there are.
pub const SLOTS: usize = 4;
/// The most weights that a founding names.
const WEIGHTS: usize = 8;

/// What a line asks for.
#[derive(Clone, Debug, PartialEq)]
pub enum Command {
    Found { n: u32, weights: Vec<u16> },
    Issue { office: usize, line: u32, code: u32 },
    Send { office: usize, slot: usize },
    Take { office: usize, slot: usize },
    Elect { office: usize },
    View { office: usize, line: u32 },
}

/// The lines of a script; the last one may lack its newline.
pub fn lines(script: &[u8]) -> Vec<&[u8]> {
    let mut lines: Vec<&[u8]> = script.split(|&byte| byte == b'\n').collect();
    if lines.last().is_some_and(|last| last.is_empty()) {
        lines.pop();
    }
    lines
}

/// The line's command; none where it is of another form. Slots are those that are there.
pub fn command(line: &[u8]) -> Option<Command> {
    if line.len() > LONGEST {
        return None;
    }
    let (letter, rest) = line.split_first()?;
    let numbers = numbers(rest)?;
    let command = match (letter, &numbers[..]) {
        (b'f', [n, weights @ ..]) if weights.len() <= WEIGHTS => {
            Command::Found { n: *n, weights: weights.iter().map(|&weight| weight as u16).collect() }
        }
        (b'i', [office, line, code]) => Command::Issue { office: *office as usize, line: *line, code: *code },
        (b's', [office, slot]) => Command::Send { office: *office as usize, slot: slot_there(*slot)? },
        (b't', [office, slot]) => Command::Take { office: *office as usize, slot: slot_there(*slot)? },
        (b'e', [office]) => Command::Elect { office: *office as usize },
        (b'v', [office, line]) => Command::View { office: *office as usize, line: *line },
        _ => return None,
    };
    Some(command)
}

fn slot_there(slot: u32) -> Option<usize> {
    Some(slot as usize).filter(|&slot| slot < SLOTS)
}

/// Numbers, each after a single space.
fn numbers(mut rest: &[u8]) -> Option<Vec<u32>> {
    let mut numbers = Vec::new();
    while let Some((b' ', after)) = rest.split_first() {
        let end = after.iter().position(|&byte| byte == b' ').unwrap_or(after.len());
        numbers.push(number(&after[..end])?);
        rest = &after[end..];
    }
    rest.is_empty().then_some(numbers)
}

/// A decimal number without leading zeros, up to the largest.
fn number(digits: &[u8]) -> Option<u32> {
    let leading = digits.len() > 1 && digits[0] == b'0';
    if leading || digits.is_empty() || digits.len() > 5 || !digits.iter().all(u8::is_ascii_digit) {
        return None;
    }
    let value = digits.iter().fold(0, |value, digit| 10 * value + u32::from(digit - b'0'));
    (value <= MOST).then_some(value)
}

#[cfg(test)]
mod tests {
    use super::{command, lines, Command};

    #[test]
    fn commands_are_read() {
        assert_eq!(command(b"f 3 40 35 25"), Some(Command::Found { n: 3, weights: vec![40, 35, 25] }));
        assert_eq!(command(b"f 3"), Some(Command::Found { n: 3, weights: vec![] }));
        assert_eq!(command(b"i 0 5 120"), Some(Command::Issue { office: 0, line: 5, code: 120 }));
        assert_eq!(command(b"t 1 3"), Some(Command::Take { office: 1, slot: 3 }));
    }

    #[test]
    fn other_forms_are_not() {
        let others: [&[u8]; 12] = [
            b"",
            b"f",
            b"i 0 05 120",
            b"i 0 5 65536",
            b"i  0 5 120",
            b"i 0 5",
            b"e 0 ",
            b"s 0 4",
            b"x 0",
            b"e 0\r",
            b"e a",
            b"f 1 1 1 1 1 1 1 1 1 1",
        ];
        assert!(others.iter().all(|line| command(line).is_none()));
        assert!(command(&[b"i 0 5 120", [b' '; 128].as_slice()].concat()).is_none());
    }

    #[test]
    fn the_last_newline_may_be_missing() {
        assert_eq!(lines(b"e 0\n\ne 1"), [&b"e 0"[..], b"", b"e 1"]);
        assert_eq!(lines(b"e 0\n"), [b"e 0"]);
        assert!(lines(b"").is_empty());
    }
}
