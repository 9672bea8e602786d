//! The smallest case that still shows a difference, by trying smaller ones.

use crate::line::Line;
use std::io;

/// Whether a candidate still shows the difference.
type Differs<'a, T> = dyn FnMut(&[T]) -> io::Result<bool> + 'a;

/// Leaves items out, in ever shorter runs, but for those before `kept`. Whether any could be.
fn fewer<T: Clone>(items: &mut Vec<T>, kept: usize, shortest: usize, differs: &mut Differs<T>) -> io::Result<bool> {
    let before = items.len();
    let mut size = before / 2;
    while size >= shortest {
        let mut at = kept;
        while at + size <= items.len() {
            let mut candidate = items.clone();
            candidate.drain(at..at + size);
            if differs(&candidate)? {
                *items = candidate;
            } else {
                at += size;
            }
        }
        size /= 2;
    }
    Ok(items.len() < before)
}

/// Shorter bytes, or bytes that are zero.
fn smaller_bytes(bytes: &[u8]) -> Vec<Vec<u8>> {
    let mut smaller = shorter(bytes);
    if bytes.iter().any(|byte| *byte != 0) {
        smaller.push(vec![0; bytes.len()]);
    }
    smaller
}

fn shorter(bytes: &[u8]) -> Vec<Vec<u8>> {
    let n = bytes.len();
    let lengths = [0, n / 2, n.saturating_sub(8), n.saturating_sub(1)];
    lengths.iter().filter(|length| **length < n).map(|length| bytes[..*length].to_vec()).collect()
}

fn smaller_counts(count: u32) -> Vec<u32> {
    let mut smaller = vec![0, count / 2, count.saturating_sub(1)];
    smaller.retain(|fewer| *fewer < count);
    smaller
}

/// The lines that are a step smaller than this one.
fn smaller(line: &Line, is_first: bool) -> Vec<Line> {
    match line.clone() {
        Line::First { level, name } => {
            smaller_bytes(&name).into_iter().map(|name| Line::First { level, name }).collect()
        }
        Line::Call { flags, more, bytes } => smaller_bytes(&bytes)
            .into_iter()
            .map(|bytes| Line::Call { flags, more, bytes })
            .chain(more.then(|| Line::Call { flags, more: false, bytes: bytes.clone() }))
            .collect(),
        Line::Count { flags, more, count } => smaller_counts(count)
            .into_iter()
            .map(|count| Line::Count { flags, more, count })
            .chain(more.then_some(Line::Count { flags, more: false, count }))
            .collect(),
        Line::Save(bytes) => smaller_bytes(&bytes).into_iter().map(Line::Save).collect(),
        Line::Load(bytes) => smaller_bytes(&bytes).into_iter().map(Line::Load).collect(),
        // Cut shorter it may be in shape, so it is read again. An empty line would end the case.
        Line::Bad(text) => {
            shorter(&text).iter().filter(|text| !text.is_empty()).map(|text| Line::read(text, is_first)).collect()
        }
    }
}

fn with_smaller_lines(lines: &mut [Line], differs: &mut Differs<Line>) -> io::Result<bool> {
    let mut shrunk = false;
    for at in 0..lines.len() {
        for line in smaller(&lines[at], at == 0) {
            let mut candidate = lines.to_vec();
            candidate[at] = line;
            if differs(&candidate)? {
                lines.clone_from_slice(&candidate);
                shrunk = true;
                break;
            }
        }
    }
    Ok(shrunk)
}

/// From cases of which the last differs only behind the others: not one by one, since each trial runs them all.
pub fn fewer_cases(mut cases: Vec<Vec<Line>>, differs: &mut Differs<Vec<Line>>) -> io::Result<Vec<Vec<Line>>> {
    let shortest = 1 + cases.len() / 32;
    fewer(&mut cases, 0, shortest, differs)?;
    Ok(cases)
}

/// From a case that differs: no line can be left out, and none made smaller by a step. The first line stays.
pub fn smallest(mut lines: Vec<Line>, differs: &mut Differs<Line>) -> io::Result<Vec<Line>> {
    loop {
        let fewer_lines = fewer(&mut lines, 1, 1, differs)?;
        let smaller_lines = with_smaller_lines(&mut lines, differs)?;
        if !fewer_lines && !smaller_lines {
            return Ok(lines);
        }
    }
}
