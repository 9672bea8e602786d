//! First lines, and lines that are out of shape.

use super::Offering;
use crate::draw::Draw;
use crate::line::Line;
use crate::pen::Pen;
use crate::rules::{in_edition, operations, EDITIONS, META_AD, NEWEST, PAYLOAD_LIMIT, PRF};

/// What a changed character becomes: a digit, or one that is near the digits.
const CHARACTERS: &[u8] = b"0123456789abcdef/:@AFG`gxz \t\r\0\x80\xff";

/// Of short cases with spoilt lines.
const SPOILT: usize = 1_500;

/// Every level byte with names of some lengths. A refused one leaves a blank, which refuses all, until a load.
pub fn first_lines(offering: &mut Offering) {
    for level in 0..=255 {
        for length in [0, 1, 20, 163, 164] {
            offering.offer(|draw| {
                let mut pen = Pen::of(level, draw.bytes(length));
                let flags = draw.pick(&operations());
                let more = draw.once_in(2);
                pen.operation(draw, flags, more, 3);
                let any = draw.number() as u8;
                pen.operation(draw, any, false, 3);
                let buffer = draw.below(2 * NEWEST.size);
                pen.write(Line::Save(draw.bytes(buffer)));
                pen.write(Line::Load(draw.bytes(NEWEST.size)));
                let form = Pen::of(1 + level % 2, draw.bytes(4)).session().form().expect("a session");
                let edition = draw.pick(&EDITIONS);
                pen.write(Line::Load(in_edition(&edition, &form)));
                pen.operation(draw, META_AD, true, 3);
                pen.operation(draw, PRF, false, 4);
                pen.case()
            });
        }
    }
}

/// A first line and some later ones, of which about every second is spoilt.
pub fn spoilt_lines(offering: &mut Offering) {
    for number in 0..SPOILT {
        offering.offer(|draw| {
            let level = if draw.once_in(4) { draw.number() as u8 } else { 1 + (number % 2) as u8 };
            let name = draw.pick(&[0, 1, 9, 40, PAYLOAD_LIMIT]);
            let first = Line::First { level, name: draw.bytes(name) };
            let mut pen = Pen::new();
            pen.write(if draw.once_in(4) { spoilt(draw, first, true) } else { first });
            for _ in 0..draw.below(5) {
                later_line(draw, &mut pen);
            }
            pen.operation(draw, PRF, false, 4);
            pen.case()
        });
    }
}

/// A call with few bytes, spoilt or not.
pub fn later_line(draw: &mut Draw, pen: &mut Pen) {
    let flags = draw.pick(&operations());
    let length = draw.below(20);
    let bytes = draw.bytes(length);
    let line = Line::of(flags, draw.once_in(3), &bytes, length);
    pen.write(if draw.once_in(3) { line } else { spoilt(draw, line, false) });
}

/// A line with a character dropped, changed or doubled, cut off, or with more bytes than it may have. It may still be in shape.
fn spoilt(draw: &mut Draw, line: Line, is_first: bool) -> Line {
    let mut text = Vec::new();
    line.write(&mut text);
    let at = draw.below(text.len());
    match draw.below(16) {
        0 => text.resize(2 * PAYLOAD_LIMIT + 3 + draw.below(6), b'0'),
        1..=4 if text.len() > 1 => drop(text.remove(at)),
        5..=8 => text.insert(at, text[at]),
        9..=11 => text.truncate(at.max(1)),
        _ => text[at] = draw.pick(CHARACTERS),
    }
    Line::read(&text, is_first)
}
