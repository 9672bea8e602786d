//! Short inputs, all of them.

use super::{Offering, LEVELS};
use crate::line::Line;
use crate::pen::Pen;
use crate::rules::{operations, PRF};

/// Every pair of operations with 0 to 3 bytes each, then both again with `more` on.
pub fn pairs(offering: &mut Offering) {
    for level in LEVELS {
        for (one, m) in short_operations() {
            for (other, n) in short_operations() {
                offering.offer(|draw| {
                    let mut pen = Pen::of(level, Vec::new());
                    pen.operation(draw, one, false, m);
                    pen.operation(draw, other, false, n);
                    pen.operation(draw, other, true, n);
                    pen.operation(draw, one, true, m);
                    pen.operation(draw, PRF, false, 4);
                    pen.case()
                });
            }
        }
    }
}

fn short_operations() -> impl Iterator<Item = (u8, usize)> {
    operations().into_iter().flat_map(|flags| (0..4).map(move |length| (flags, length)))
}

/// All 256, with `more` off and on and 0 to 3 bytes, behind an operation of the twenty.
pub fn flag_bytes(offering: &mut Offering) {
    for level in LEVELS {
        for flags in 0..=255 {
            for more in [false, true] {
                for length in 0..4 {
                    offering.offer(|draw| {
                        let mut pen = Pen::of(level, draw.bytes(3));
                        let before = draw.pick(&operations());
                        pen.operation(draw, before, false, 3);
                        pen.operation(draw, flags, more, length);
                        pen.operation(draw, PRF, false, 4);
                        pen.case()
                    });
                }
            }
        }
    }
}

/// Each operation on each byte alone. Where it takes a count, the value is the count.
pub fn byte_values(offering: &mut Offering) {
    for level in LEVELS {
        for flags in operations() {
            for value in 0..=255 {
                offering.offer(|draw| {
                    let mut pen = Pen::of(level, draw.bytes(1));
                    pen.write(Line::of(flags, false, &[value], usize::from(value)));
                    pen.operation(draw, PRF, false, 4);
                    pen.case()
                });
            }
        }
    }
}
