//! A case as it is written: each line is answered at once, so that the next can depend on what the session holds.

use crate::draw::Draw;
use crate::line::Line;
use crate::oracle::{Answer, Oracle};
use crate::rules;

/// A case: its lines, and for each the answer and the record that the trace has to write.
pub struct Case {
    pub lines: Vec<Line>,
    pub answers: Vec<Answer>,
    pub records: Vec<Vec<u8>>,
    /// the level of the session behind each line, if there is one
    pub levels: Vec<Option<u8>>,
}

pub struct Pen {
    oracle: Oracle,
    case: Case,
}

/// The answers to lines that are there already.
pub fn answered(lines: &[Line]) -> Case {
    let mut pen = Pen::new();
    for line in lines {
        pen.write(line.clone());
    }
    pen.case()
}

impl Pen {
    pub fn new() -> Pen {
        let case = Case { lines: Vec::new(), answers: Vec::new(), records: Vec::new(), levels: Vec::new() };
        Pen { oracle: Oracle::blank(), case }
    }

    /// A case that begins with a session of this level and name.
    pub fn of(level: u8, name: Vec<u8>) -> Pen {
        let mut pen = Pen::new();
        pen.write(Line::First { level, name });
        pen
    }

    pub fn case(self) -> Case {
        self.case
    }

    /// What the next line finds.
    pub fn session(&self) -> &Oracle {
        &self.oracle
    }

    pub fn write(&mut self, line: Line) {
        let answer = self.oracle.answer(&line);
        self.case.levels.push(self.oracle.level());
        self.case.records.push(self.oracle.record(&answer));
        self.case.answers.push(answer);
        self.case.lines.push(line);
    }

    /// An operation on so many drawn bytes, or with this count. A received MAC is right at every second time.
    pub fn operation(&mut self, draw: &mut Draw, flags: u8, more: bool, length: usize) {
        let bytes = if rules::is_counted(flags) {
            Vec::new()
        } else if rules::plain(flags) == rules::RECV_MAC && draw.once_in(2) {
            self.oracle.right_mac(flags, length)
        } else {
            draw.bytes(length)
        };
        self.write(Line::of(flags, more, &bytes, length));
    }
}
