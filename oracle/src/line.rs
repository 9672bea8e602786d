//! The lines of a case: what they ask for, and their text (oracle/README.md has the format).

use crate::rules::{self, PAYLOAD_LIMIT};

#[derive(Clone)]
pub enum Line {
    First {
        level: u8,
        name: Vec<u8>,
    },
    Call {
        flags: u8,
        more: bool,
        bytes: Vec<u8>,
    },
    /// prf, send_mac and ratchet
    Count {
        flags: u8,
        more: bool,
        count: u32,
    },
    Save(Vec<u8>),
    Load(Vec<u8>),
    /// out of shape, as it stands
    Bad(Vec<u8>),
}

pub fn hexadecimal(bytes: &[u8], text: &mut Vec<u8>) {
    const DIGITS: &[u8; 16] = b"0123456789abcdef";
    for byte in bytes {
        text.push(DIGITS[usize::from(byte >> 4)]);
        text.push(DIGITS[usize::from(byte & 15)]);
    }
}

fn value(digit: u8) -> Option<u8> {
    match digit {
        b'0'..=b'9' => Some(digit - b'0'),
        b'a'..=b'f' => Some(digit - b'a' + 10),
        _ => None,
    }
}

fn octets(text: &[u8]) -> Option<Vec<u8>> {
    if text.len() % 2 != 0 {
        return None;
    }
    text.chunks_exact(2).map(|two| Some(value(two[0])? << 4 | value(two[1])?)).collect()
}

fn first(text: &[u8]) -> Option<Line> {
    let bytes = octets(text)?;
    let (level, name) = bytes.split_first()?;
    (name.len() <= PAYLOAD_LIMIT).then(|| Line::First { level: *level, name: name.to_vec() })
}

fn count(payload: &[u8], flags: u8) -> Option<u32> {
    let count = u32::from_be_bytes(payload.try_into().ok()?);
    let fits = rules::plain(flags) == rules::RATCHET || count as usize <= PAYLOAD_LIMIT;
    fits.then_some(count)
}

fn later(text: &[u8]) -> Option<Line> {
    let letter = text.first()?;
    if [b's', b'l'].contains(letter) {
        let bytes = octets(&text[1..])?;
        let line = if *letter == b's' { Line::Save } else { Line::Load };
        return (bytes.len() <= PAYLOAD_LIMIT).then(|| line(bytes));
    }
    let bytes = octets(text)?;
    let (&flags, behind) = bytes.split_first()?;
    let (&more, payload) = behind.split_first()?;
    if more > 1 || payload.len() > PAYLOAD_LIMIT {
        return None;
    }
    let more = more == 1;
    if rules::is_counted(flags) {
        return Some(Line::Count { flags, more, count: count(payload, flags)? });
    }
    Some(Line::Call { flags, more, bytes: payload.to_vec() })
}

impl Line {
    /// An operation on these bytes, or, where it takes a count, with this one.
    pub fn of(flags: u8, more: bool, bytes: &[u8], count: usize) -> Line {
        if rules::is_counted(flags) {
            Line::Count { flags, more, count: count as u32 }
        } else {
            Line::Call { flags, more, bytes: bytes.to_vec() }
        }
    }

    /// Goes on with an operation.
    pub fn has_more(&self) -> bool {
        matches!(self, Line::Call { more: true, .. } | Line::Count { more: true, .. })
    }

    /// Of a text without its newline.
    pub fn read(text: &[u8], is_first: bool) -> Line {
        let line = if is_first { first(text) } else { later(text) };
        line.unwrap_or_else(|| Line::Bad(text.to_vec()))
    }

    /// Without a newline.
    pub fn write(&self, text: &mut Vec<u8>) {
        match self {
            Line::First { level, name } => {
                hexadecimal(&[*level], text);
                hexadecimal(name, text);
            }
            Line::Call { flags, more, bytes } => {
                hexadecimal(&[*flags, u8::from(*more)], text);
                hexadecimal(bytes, text);
            }
            Line::Count { flags, more, count } => {
                hexadecimal(&[*flags, u8::from(*more)], text);
                hexadecimal(&count.to_be_bytes(), text);
            }
            Line::Save(bytes) => {
                text.push(b's');
                hexadecimal(bytes, text);
            }
            Line::Load(bytes) => {
                text.push(b'l');
                hexadecimal(bytes, text);
            }
            Line::Bad(line) => text.extend(line),
        }
    }
}

/// Each line with its newline.
pub fn text_of(lines: &[Line]) -> Vec<u8> {
    let mut text = Vec::new();
    for line in lines {
        line.write(&mut text);
        text.push(b'\n');
    }
    text
}

/// An empty line stands between two cases.
pub fn text_of_all(cases: &[Vec<Line>]) -> Vec<u8> {
    cases.iter().map(|lines| text_of(lines)).collect::<Vec<_>>().join(&b'\n')
}

/// The cases of a file: an empty line stands between two.
pub fn cases_in(text: &[u8]) -> Vec<Vec<Line>> {
    let mut cases = vec![Vec::new()];
    for line in text.strip_suffix(b"\n").unwrap_or(text).split(|byte| *byte == b'\n') {
        let case: &mut Vec<Line> = cases.last_mut().unwrap();
        if line.is_empty() {
            cases.push(Vec::new());
        } else {
            case.push(Line::read(line, case.is_empty()));
        }
    }
    cases
}
