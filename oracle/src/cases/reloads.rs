//! Saves and loads between the pieces of an operation. A load of edition 2 lets it go on; behind one of edition 1 the next piece is refused.

use super::boundaries::left;
use super::forms::save;
use super::{begun, Offering, LEVELS};
use crate::draw::Draw;
use crate::line::Line;
use crate::pen::Pen;
use crate::rules::{in_edition, operations, plain, rate, EDITIONS, EDITION_1, MAC_LIMIT, PRF, RECV_MAC};

const TIMES: usize = 24;

/// Nothing, few bytes, or up to the end of the block, one byte less or more. A MAC is no longer than it may be.
fn piece(draw: &mut Draw, pen: &mut Pen, level: u8, flags: u8, more: bool) {
    let position = pen.session().position().expect("a session");
    let left = if more { rate(level) - position } else { left(level, position, flags) };
    let length = match draw.below(4) {
        0 => 0,
        1 => draw.below(40),
        _ => left - 1 + draw.below(3),
    };
    let limit = if plain(flags) == RECV_MAC { MAC_LIMIT } else { length };
    pen.operation(draw, flags, more, length.min(limit));
}

fn reload(draw: &mut Draw, pen: &mut Pen) {
    let too_long = draw.below(3);
    let form = save(draw, pen, too_long);
    pen.write(Line::Load(form.to_vec()));
}

/// One save, and a load of it in each edition.
fn cut_once(draw: &mut Draw, level: u8, flags: u8) -> Pen {
    let mut pen = begun(draw, level);
    piece(draw, &mut pen, level, flags, false);
    let form = save(draw, &mut pen, 0);
    for edition in &EDITIONS {
        pen.write(Line::Load(in_edition(edition, &form)));
        piece(draw, &mut pen, level, flags, true);
        pen.operation(draw, PRF, false, 4);
    }
    pen
}

/// Some reloads, at times two with nothing between them.
fn cut_often(draw: &mut Draw, level: u8, flags: u8) -> Pen {
    let mut pen = begun(draw, level);
    piece(draw, &mut pen, level, flags, false);
    for _ in 0..2 + draw.below(4) {
        reload(draw, &mut pen);
        if draw.once_in(4) {
            reload(draw, &mut pen);
        }
        piece(draw, &mut pen, level, flags, true);
    }
    pen.operation(draw, PRF, false, 4);
    pen
}

/// Loaded from edition 1 and saved, it has no last operation in edition 2 either, until there is one again.
fn cleared(draw: &mut Draw, level: u8, flags: u8) -> Pen {
    let mut pen = begun(draw, level);
    piece(draw, &mut pen, level, flags, false);
    let form = save(draw, &mut pen, 0);
    pen.write(Line::Load(in_edition(&EDITION_1, &form)));
    for more in [true, false, true] {
        reload(draw, &mut pen);
        piece(draw, &mut pen, level, flags, more);
    }
    pen.operation(draw, PRF, false, 4);
    pen
}

/// Behind the load another operation is refused with `more` on, and leaves the one that was cut as it was.
fn interrupted(draw: &mut Draw, level: u8, flags: u8, other: u8) -> Pen {
    let mut pen = begun(draw, level);
    piece(draw, &mut pen, level, flags, false);
    let form = save(draw, &mut pen, 0);
    for edition in &EDITIONS {
        pen.write(Line::Load(in_edition(edition, &form)));
        piece(draw, &mut pen, level, other, true);
        piece(draw, &mut pen, level, flags, true);
    }
    pen.operation(draw, PRF, false, 4);
    pen
}

pub fn reloads(offering: &mut Offering) {
    for level in LEVELS {
        for flags in operations() {
            for _ in 0..TIMES {
                offering.offer(|draw| cut_once(draw, level, flags).case());
                offering.offer(|draw| cut_often(draw, level, flags).case());
                offering.offer(|draw| cleared(draw, level, flags).case());
            }
            for other in operations().into_iter().filter(|other| *other != flags) {
                offering.offer(|draw| interrupted(draw, level, flags, other).case());
            }
        }
    }
}
