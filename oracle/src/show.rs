//! Both sides of a case, line by line.

use crate::compare::{differing_ending, Programs};
use crate::line::{text_of, Line};
use crate::ours::{journal, journal_of, Trace};
use crate::pen::answered;
use std::borrow::Cow;
use std::io;

/// Prints the lines of cases, and where one differs what each side wrote; whether all is the same.
pub fn both_sides(programs: Programs, cases: &[Vec<Line>]) -> io::Result<bool> {
    let asked: Vec<&[Line]> = cases.iter().map(Vec::as_slice).collect();
    let given = Trace::start(programs.trace)?.answers(&asked)?;
    let mut same = true;
    for (lines, ours) in cases.iter().zip(given) {
        let texts: Vec<Vec<u8>> = lines.iter().map(|line| text_of(std::slice::from_ref(line))).collect();
        same &= beside("", &texts, &ours, &answered(lines).records);
        same &= journal_sides(programs, lines, &texts)?;
    }
    Ok(same)
}

fn journal_sides(programs: Programs, lines: &[Line], texts: &[Vec<u8>]) -> io::Result<bool> {
    let ending = match differing_ending(programs.journal, lines)? {
        Some(ending) => ending,
        None => return Ok(true),
    };
    let ours = journal(programs.journal, lines, ending)?.unwrap_or_else(|| b"it ended badly".to_vec());
    Ok(beside("journal, ", texts, &split(&ours), &split(&journal_of(&answered(lines), ending))))
}

fn split(text: &[u8]) -> Vec<Vec<u8>> {
    text.split_inclusive(|byte| *byte == b'\n').map(<[u8]>::to_vec).collect()
}

fn beside(what: &str, texts: &[Vec<u8>], ours: &[Vec<u8>], theirs: &[Vec<u8>]) -> bool {
    for at in 0..ours.len().max(theirs.len()) {
        let line = shown(texts, at);
        if ours.get(at) == theirs.get(at) {
            println!("{what}same: {line}");
        } else {
            println!("{what}DIFFERENT: {line}");
            println!("  ours      {}\n  strobe-rs {}", shown(ours, at), shown(theirs, at));
        }
    }
    ours == theirs
}

fn shown(lines: &[Vec<u8>], at: usize) -> Cow<'_, str> {
    lines.get(at).map_or("nothing".into(), |line| String::from_utf8_lossy(line.strip_suffix(b"\n").unwrap_or(line)))
}
