//! Long sequences of drawn lines.

use super::boundaries::around;
use super::lines::later_line;
use super::{Offering, LEVELS};
use crate::draw::Draw;
use crate::line::Line;
use crate::pen::Pen;
use crate::rules::{
    in_edition, operations, plain, Form, EDITION_1, MAC_LIMIT, NEWEST, RATCHET, RATCHET_LIMIT, RECV_MAC,
};

const CASES: usize = 11_500;
const LINES: usize = 80;

/// Mostly few bytes, at times more than a block, seldom many.
fn length(draw: &mut Draw, level: u8) -> usize {
    let limit = draw.pick(&[1, 4, 20, 40, 40, 80, 180, 400]);
    if draw.once_in(60) {
        draw.pick(&around(level))
    } else {
        draw.below(limit)
    }
}

/// A MAC or a ratchet is now and then longer than it may be.
fn operation(draw: &mut Draw, pen: &mut Pen, flags: u8, more: bool, level: u8) {
    let length = match plain(flags) {
        RECV_MAC => draw.pick(&[0, 1, 8, 16, 16, 32, MAC_LIMIT, MAC_LIMIT + 1]),
        RATCHET if draw.once_in(20) => RATCHET_LIMIT + 1 + draw.below(9),
        _ => length(draw, level),
    };
    pen.operation(draw, flags, more, length);
}

/// The last operation gone on with, one of the twenty, or any flag byte.
fn call(draw: &mut Draw, pen: &mut Pen, level: u8) {
    let more = draw.once_in(3);
    let last = pen.session().last();
    let flags = match last {
        Some(last) if more && !draw.once_in(6) => last,
        _ if draw.once_in(12) => draw.number() as u8,
        _ => draw.pick(&operations()),
    };
    operation(draw, pen, flags, more, level);
}

/// What was saved is loaded later, mostly in the newest edition; at times it is damaged, so that all is refused until a good one is loaded.
fn overnight(draw: &mut Draw, pen: &mut Pen, kept: &mut Form) {
    if draw.once_in(2) {
        let buffer = NEWEST.size - 2 + draw.below(6);
        let buffer = draw.bytes(buffer);
        if let Some(form) = pen.session().form() {
            *kept = form;
        }
        return pen.write(Line::Save(buffer));
    }
    let edition = if draw.once_in(4) { EDITION_1 } else { NEWEST };
    let mut form = in_edition(&edition, kept);
    if draw.once_in(3) {
        let at = draw.pick(&[0, 1, 2, 3, 4, 5, edition.size - 1]);
        form[at] = form[at].wrapping_add(draw.number() as u8);
    }
    pen.write(Line::Load(form));
}

/// With saves and loads, or without, as a journal is.
fn sequence(draw: &mut Draw, level: u8, saves: bool) -> Pen {
    let name = length(draw, level);
    let mut pen = Pen::of(level, draw.bytes(name));
    let mut kept = pen.session().form().expect("a session");
    for _ in 0..LINES {
        match draw.below(24) {
            0 => later_line(draw, &mut pen),
            1 | 2 if saves => overnight(draw, &mut pen, &mut kept),
            _ => call(draw, &mut pen, level),
        }
    }
    pen
}

pub fn sequences(offering: &mut Offering) {
    for number in 0..CASES * offering.share.times {
        let level = LEVELS[number % 2];
        offering.offer(|draw| sequence(draw, level, number % 4 < 2).case());
    }
}
