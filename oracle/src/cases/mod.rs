//! The cases to compare, by families. Each case is drawn from numbers of its own, so a part of them can be taken.

mod boundaries;
mod drawn;
mod forms;
mod lines;
mod macs;
mod reloads;
mod short;
mod streams;

use crate::draw::Draw;
use crate::pen::{Case, Pen};
use crate::rules::operations;

/// How many cases are wanted: one of so many, by lot, and of the drawn sequences so many times as many.
#[derive(Clone, Copy)]
pub struct Share {
    pub one_of: usize,
    pub times: usize,
}

/// All of them.
pub const ALL: Share = Share { one_of: 1, times: 1 };

pub struct Family {
    /// what its cases are drawn from; a new family takes the next number, so that the cases of the others stay as they are
    number: u64,
    pub name: &'static str,
    /// its cases without saves and loads go through the journal program too
    pub is_journal: bool,
    offer: fn(&mut Offering),
}

static FAMILIES: [Family; 13] = [
    Family { number: 0, name: "pairs of operations of 0 to 3 bytes", is_journal: false, offer: short::pairs },
    Family { number: 1, name: "every flag byte", is_journal: false, offer: short::flag_bytes },
    Family { number: 2, name: "every value of a byte", is_journal: false, offer: short::byte_values },
    Family { number: 3, name: "every position", is_journal: false, offer: boundaries::positions },
    Family { number: 4, name: "lengths around the boundaries", is_journal: false, offer: boundaries::lengths },
    Family { number: 5, name: "the limits of a call", is_journal: false, offer: boundaries::limits },
    Family { number: 6, name: "operations in pieces", is_journal: false, offer: streams::streams },
    Family { number: 7, name: "MACs, right and damaged", is_journal: false, offer: macs::macs },
    Family { number: 12, name: "saves and loads between pieces", is_journal: false, offer: reloads::reloads },
    Family { number: 8, name: "saved forms, right and damaged", is_journal: false, offer: forms::forms },
    Family { number: 9, name: "first lines", is_journal: false, offer: lines::first_lines },
    Family { number: 10, name: "lines out of shape", is_journal: true, offer: lines::spoilt_lines },
    Family { number: 11, name: "drawn sequences", is_journal: true, offer: drawn::sequences },
];

/// Offers the cases of one family.
pub struct Offering<'a> {
    share: Share,
    family: &'static Family,
    seed: u64,
    /// gets a case with its family, and says whether it wants another
    take: &'a mut dyn FnMut(&'static Family, Case) -> bool,
    wants: &'a mut bool,
}

impl Offering<'_> {
    fn offer(&mut self, make: impl FnOnce(&mut Draw) -> Case) {
        self.seed += 1;
        let mut draw = Draw::new(self.seed);
        if *self.wants && draw.below(self.share.one_of) == 0 {
            *self.wants = (self.take)(self.family, make(&mut draw));
        }
    }
}

/// The cases of all families, as long as they are wanted.
pub fn each(share: Share, take: &mut dyn FnMut(&'static Family, Case) -> bool) {
    let mut wants = true;
    for family in &FAMILIES {
        let seed = family.number << 32;
        (family.offer)(&mut Offering { share, family, seed, take: &mut *take, wants: &mut wants });
    }
}

const LEVELS: [u8; 2] = [1, 2];

/// A session behind up to two operations, so that it may be a sender, a receiver or neither.
fn begun(draw: &mut Draw, level: u8) -> Pen {
    let name = draw.below(180);
    let mut pen = Pen::of(level, draw.bytes(name));
    for _ in 0..draw.below(3) {
        let flags = draw.pick(&operations());
        let length = draw.below(60);
        pen.operation(draw, flags, false, length);
    }
    pen
}
