//! Operations cut into pieces.

use super::boundaries::around;
use super::{Offering, LEVELS};
use crate::draw::Draw;
use crate::pen::Pen;
use crate::rules::{operations, plain, K, M, PRF, RECV_MAC};

const TIMES: usize = 60;

/// A flag byte that is none of the twenty.
const NO_OPERATION: u8 = 0x05;

/// Short, some blocks, or around a boundary.
fn length(draw: &mut Draw, level: u8) -> usize {
    match draw.below(3) {
        0 => draw.below(40),
        1 => draw.below(1000),
        _ => draw.pick(&around(level)),
    }
}

/// A call that is refused, and after which the stream goes on.
fn refused(draw: &mut Draw, pen: &mut Pen, flags: u8) {
    match draw.below(4) {
        0 => pen.operation(draw, flags | K, true, 3),
        1 => pen.operation(draw, flags ^ M, true, 3),
        2 => pen.operation(draw, NO_OPERATION, true, 3),
        _ => pen.operation(draw, RECV_MAC, true, 3),
    }
}

/// So many bytes; a piece may be empty.
fn in_pieces(draw: &mut Draw, pen: &mut Pen, flags: u8, whole: usize) {
    let mut done = draw.below(whole + 1);
    pen.operation(draw, flags, false, done);
    while done < whole {
        if draw.once_in(4) {
            refused(draw, pen, flags);
        }
        let piece = draw.below(whole - done + 1);
        pen.operation(draw, flags, true, piece);
        done += piece;
    }
}

/// Each operation but a received MAC, which can't be cut.
pub fn streams(offering: &mut Offering) {
    for level in LEVELS {
        for flags in operations().repeat(TIMES) {
            if plain(flags) == RECV_MAC {
                continue;
            }
            offering.offer(|draw| {
                let name = draw.below(200);
                let mut pen = Pen::of(level, draw.bytes(name));
                let whole = length(draw, level);
                in_pieces(draw, &mut pen, flags, whole);
                pen.operation(draw, PRF, false, 8);
                pen.case()
            });
        }
    }
}
