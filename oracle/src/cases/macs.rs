//! Received MACs: the right one, and damaged copies of it.

use super::{begun, Offering, LEVELS};
use crate::draw::Draw;
use crate::line::Line;
use crate::pen::Pen;
use crate::rules::{I, M, MAC_LIMIT, PRF, RECV_MAC};

/// A copy without its last byte, with one byte more, as the other form of the operation would have it, of zeros, or with one bit other.
fn damaged(draw: &mut Draw, pen: &Pen, flags: u8, length: usize) -> Vec<u8> {
    let mut mac = pen.session().right_mac(flags, length);
    match draw.below(8) {
        0 => drop(mac.pop()),
        1 => mac.push(draw.number() as u8),
        2 => mac = pen.session().right_mac(flags ^ M, length),
        3 => mac.fill(0),
        _ if length > 0 => {
            let at = draw.below(length);
            mac[at] ^= 1 << draw.below(8);
        }
        _ => {}
    }
    mac
}

/// Of each length: a wrong one, then a right one, whose session has taken the wrong one in.
pub fn macs(offering: &mut Offering) {
    for level in LEVELS {
        for length in (0..=MAC_LIMIT).collect::<Vec<_>>().repeat(12) {
            for flags in [RECV_MAC, RECV_MAC | M] {
                offering.offer(|draw| {
                    let mut pen = begun(draw, level);
                    let wrong = damaged(draw, &pen, flags, length);
                    pen.write(Line::Call { flags, more: false, bytes: wrong });
                    let right = pen.session().right_mac(flags, length);
                    pen.write(Line::Call { flags, more: false, bytes: right });
                    pen.operation(draw, flags & !I, false, length);
                    pen.operation(draw, PRF, false, 4);
                    pen.case()
                });
            }
        }
    }
}
