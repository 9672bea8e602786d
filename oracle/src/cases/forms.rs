//! Saved forms: buffers of every length near theirs, and damaged copies of good ones, in both editions.

use super::{begun, Offering, LEVELS};
use crate::draw::Draw;
use crate::line::Line;
use crate::pen::Pen;
use crate::rules::{in_edition, Edition, Form, EDITIONS, NEWEST, NO_LAST, PRF, STATE};

/// A few bytes more than a form has.
const LENGTHS: usize = NEWEST.size + 5;

/// Saves into a buffer that is so many bytes too long, and gives the form.
pub fn save(draw: &mut Draw, pen: &mut Pen, too_long: usize) -> Form {
    let form = pen.session().form().expect("a session");
    pen.write(Line::Save(draw.bytes(NEWEST.size + too_long)));
    form
}

/// Loads these bytes, goes on with the last operation, and draws. Where a load sets none it is the one before the save.
fn load(draw: &mut Draw, pen: &mut Pen, before: u8, bytes: Vec<u8>) {
    pen.write(Line::Load(bytes));
    let last = pen.session().last().unwrap_or(before);
    pen.operation(draw, last, true, 2);
    pen.operation(draw, PRF, false, 4);
}

/// Saved, loaded from a damaged copy, and loaded again from the good one.
fn loaded(offering: &mut Offering, level: u8, edition: &Edition, damage: impl Fn(&mut Vec<u8>)) {
    offering.offer(|draw| {
        let mut pen = begun(draw, level);
        let before = pen.session().last().expect("a session's name is an operation");
        let good = in_edition(edition, &save(draw, &mut pen, 0));
        let mut bytes = good.clone();
        damage(&mut bytes);
        load(draw, &mut pen, before, bytes);
        load(draw, &mut pen, before, good);
        pen.case()
    });
}

/// Each value of each byte beside the state; one bit of each byte of the state; each length up to a few bytes more, and those whose low byte is right. What
/// is too long for edition 1 ends as edition 2 may, so that only its length is wrong.
fn damaged(offering: &mut Offering, level: u8, edition: &Edition) {
    for at in (0..edition.size).filter(|at| !STATE.contains(at)) {
        for value in 0..=255 {
            loaded(offering, level, edition, |bytes| bytes[at] = value);
        }
    }
    for at in STATE {
        loaded(offering, level, edition, |bytes| bytes[at] ^= 1 << (at % 8));
    }
    for length in (0..LENGTHS).chain(EDITIONS.map(|edition| edition.size + 256)) {
        loaded(offering, level, edition, |bytes| bytes.resize(length, NO_LAST));
    }
}

/// Buffers of each length up to a few bytes more.
fn buffers(offering: &mut Offering, level: u8) {
    for length in 0..LENGTHS {
        offering.offer(|draw| {
            let mut pen = begun(draw, level);
            let buffer = draw.bytes(length);
            pen.write(Line::Save(buffer));
            pen.operation(draw, PRF, true, 4);
            let too_long = draw.below(300);
            save(draw, &mut pen, too_long);
            pen.case()
        });
    }
}

pub fn forms(offering: &mut Offering) {
    for level in LEVELS {
        for edition in EDITIONS {
            damaged(offering, level, &edition);
        }
        buffers(offering, level);
    }
}
