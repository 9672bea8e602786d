//! A sample of the cases: those that have a line unlike all lines of the cases kept before.

use crate::cases;
use crate::line::Line;
use crate::pen::Case;
use crate::report::Kind;
use crate::rules::{is_accepted, last_in, rate, EDITIONS};
use std::collections::BTreeSet;

/// Bytes to load: the first one and the size, each of an edition, if not of the same one; and whether they have a last operation, unless its byte is wrong.
type Shape = (u8, usize, Option<bool>);

/// What two like lines share.
#[derive(PartialEq, Eq, PartialOrd, Ord)]
enum Look {
    /// the kind of call, the answer, the level; of accepted calls also `more`, and whether it has a block or more
    Call(Kind, u8, Option<u8>, Option<(bool, bool)>),
    /// of a load, and of an accepted call that goes on right behind one: the same three, and what was loaded
    Loaded(Kind, u8, Option<u8>, Shape),
}

/// A case of more lines is not kept, so that the sample stays small.
const LINES: usize = 20;

fn length(line: &Line) -> usize {
    match line {
        Line::First { name, .. } => name.len(),
        Line::Call { bytes, .. } | Line::Save(bytes) | Line::Load(bytes) => bytes.len(),
        Line::Count { count, .. } => *count as usize,
        Line::Bad(text) => text.len(),
    }
}

fn shape(line: &Line) -> Option<Shape> {
    let bytes = if let Line::Load(bytes) = line { bytes } else { return None };
    let number = EDITIONS.iter().find(|edition| bytes.first() == Some(&edition.number))?.number;
    let size = EDITIONS.iter().find(|edition| bytes.len() == edition.size)?.size;
    Some((number, size, last_in(bytes).map(|last| last.is_some())))
}

fn looks(case: &Case) -> BTreeSet<Look> {
    let mut looks = BTreeSet::new();
    let mut before = None;
    for ((line, answer), level) in case.lines.iter().zip(&case.answers).zip(&case.levels) {
        let (kind, number) = (Kind::of(line), answer.number);
        let accepted = level.filter(|_| is_accepted(number));
        let detail = accepted.map(|level| (line.has_more(), length(line) >= rate(level)));
        looks.insert(Look::Call(kind, number, *level, detail));
        let loaded = shape(line);
        let behind = before.filter(|_| line.has_more() && accepted.is_some());
        looks.extend(loaded.or(behind).map(|shape| Look::Loaded(kind, number, *level, shape)));
        before = loaded;
    }
    looks
}

/// The kept cases.
pub fn sample() -> Vec<Vec<Line>> {
    let mut seen = BTreeSet::new();
    let mut kept = Vec::new();
    cases::each(cases::ALL, &mut |_, case| {
        let looks = looks(&case);
        if !looks.is_subset(&seen) && case.lines.len() <= LINES {
            seen.extend(looks);
            kept.push(case.lines);
        }
        true
    });
    kept
}
