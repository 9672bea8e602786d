//! Where a block ends, and where a call or a line is as long as it may be.

use super::{Offering, LEVELS};
use crate::draw::Draw;
use crate::pen::Pen;
use crate::rules::{operations, rate, AD, C, M, MAC_LIMIT, PAYLOAD_LIMIT, PRF, RATCHET, RATCHET_LIMIT, RECV_MAC};

/// A session at this position. Its begin position is that of the name, or of an ad behind an empty name.
fn at(draw: &mut Draw, level: u8, position: usize) -> Pen {
    let rate = rate(level);
    if draw.once_in(2) {
        return Pen::of(level, draw.bytes((position + rate - 2) % rate));
    }
    let mut pen = Pen::of(level, Vec::new());
    pen.operation(draw, AD, false, (position + rate - 4) % rate);
    pen
}

/// What is left of the block when an operation is opened at this position: it mixes two bytes in, and C closes the block.
pub fn left(level: u8, position: usize, flags: u8) -> usize {
    let opened = if flags & C != 0 { 0 } else { (position + 2) % rate(level) };
    rate(level) - opened
}

/// Each operation from each position, empty, short, and up to the end of the block, one byte less and one more.
pub fn positions(offering: &mut Offering) {
    for level in LEVELS {
        for position in 0..rate(level) {
            for flags in operations() {
                let left = left(level, position, flags);
                for length in [0, 1, left - 1, left, left + 1] {
                    offering.offer(|draw| {
                        let mut pen = at(draw, level, position);
                        pen.operation(draw, flags, false, length);
                        pen.operation(draw, PRF, false, 4);
                        pen.case()
                    });
                }
            }
        }
    }
}

/// From three bytes less to two more, for one block and two, and up to the longest payload.
pub fn around(level: u8) -> Vec<usize> {
    let rate = rate(level);
    let blocks = [rate, 2 * rate].into_iter().flat_map(|end| end - 3..=end + 2);
    blocks.chain(PAYLOAD_LIMIT - 3..=PAYLOAD_LIMIT).collect()
}

/// Names and data of these lengths, the operation done twice, then gone on with.
pub fn lengths(offering: &mut Offering) {
    for level in LEVELS {
        for flags in operations() {
            for length in around(level).repeat(4) {
                offering.offer(|draw| {
                    let name = draw.pick(&around(level));
                    let mut pen = Pen::of(level, draw.bytes(name));
                    pen.operation(draw, flags, false, length);
                    let next = draw.pick(&around(level));
                    pen.operation(draw, flags, false, next);
                    let last = draw.below(4);
                    pen.operation(draw, flags, true, last);
                    pen.operation(draw, PRF, false, 4);
                    pen.case()
                });
            }
        }
    }
}

/// Counts of ratchets and lengths of MACs, with `more` off and on.
pub fn limits(offering: &mut Offering) {
    let counts = [RATCHET_LIMIT - 1, RATCHET_LIMIT, RATCHET_LIMIT + 1, 1 << 24, u32::MAX as usize];
    let macs = (0..=MAC_LIMIT + 2).chain([128, PAYLOAD_LIMIT]);
    let ratchets = counts.into_iter().map(|count| (RATCHET, count));
    let calls: Vec<_> = ratchets.chain(macs.map(|length| (RECV_MAC, length))).collect();
    for level in LEVELS {
        for (plain, length) in calls.repeat(4) {
            for more in [false, true] {
                offering.offer(|draw| {
                    let flags = plain | draw.pick(&[0, M]);
                    let mut pen = Pen::of(level, draw.bytes(5));
                    let before = draw.pick(&[flags, flags, flags ^ M]);
                    pen.operation(draw, before, false, 16);
                    pen.operation(draw, flags, more, length);
                    pen.operation(draw, PRF, false, 4);
                    pen.case()
                });
            }
        }
    }
}
