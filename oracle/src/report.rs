//! What was compared, in figures.

use crate::cases::Share;
use crate::line::Line;
use crate::pen::Case;
use crate::rules::{is_accepted, plain, KEY_FLAG, NAMED, NOT_THE_LAST, RECV_MAC};
use std::collections::BTreeMap;
use std::fmt;

const ANSWERS: [&str; 12] = [
    "done",
    "the flag K",
    "no operation",
    "not the last operation",
    "a cut MAC",
    "too long",
    "no level",
    "a bad line",
    "not a session",
    "MAC not equal",
    "bad saved form",
    "a short buffer to save into",
];

/// What a line is a call of.
#[derive(Clone, Copy, PartialEq, Eq, PartialOrd, Ord)]
pub enum Kind {
    Creation,
    /// one of the twenty
    Operation(usize),
    OtherFlags,
    Save,
    Load,
    BadLine,
}

impl Kind {
    pub fn of(line: &Line) -> Kind {
        match line {
            Line::First { .. } => Kind::Creation,
            Line::Call { flags, .. } | Line::Count { flags, .. } => {
                NAMED.iter().position(|(operation, _)| operation == flags).map_or(Kind::OtherFlags, Kind::Operation)
            }
            Line::Save(_) => Kind::Save,
            Line::Load(_) => Kind::Load,
            Line::Bad(_) => Kind::BadLine,
        }
    }

    /// strobe-rs has a creation and the operations, and a panic for K and for `more`.
    fn is_answered(self, answer: u8) -> bool {
        matches!(self, Kind::Creation | Kind::Operation(_) | Kind::OtherFlags)
            && (is_accepted(answer) || [KEY_FLAG, NOT_THE_LAST].contains(&answer))
    }

    fn name(self) -> &'static str {
        match self {
            Kind::Creation => "a creation",
            Kind::Operation(at) => NAMED[at].1,
            Kind::OtherFlags => "a flag byte outside the twenty",
            Kind::Save => "a save",
            Kind::Load => "a load",
            Kind::BadLine => "a line out of shape",
        }
    }
}

/// What a run of all cases has to reach: calls that strobe-rs answers, and of each operation at each level and each answer.
const CALLS: usize = 1_000_000;
const TIMES: usize = 1_000;

/// And pieces right behind a load, of each operation that can be cut at each level.
const PIECES: usize = 100;

/// How often a kind was called. What is by level has 128 first.
#[derive(Clone, Copy, Default)]
struct Times {
    accepted: [usize; 2],
    refused: usize,
    /// of the accepted those that go on with an operation right behind a load
    gone_on: [usize; 2],
}

impl Times {
    /// With the level byte of an accepted call.
    fn add(&mut self, level: Option<u8>, goes_on: bool) {
        match level {
            Some(level) => {
                let at = usize::from(level) - 1;
                self.accepted[at] += 1;
                self.gone_on[at] += usize::from(goes_on);
            }
            None => self.refused += 1,
        }
    }
}

#[derive(Default)]
pub struct Report {
    /// by family: cases and lines
    families: Vec<(&'static str, usize, usize)>,
    kinds: BTreeMap<Kind, Times>,
    answers: [usize; ANSWERS.len()],
    /// calls that strobe-rs answers: it returns, or panics
    answered: usize,
    /// the runs of the journal, and their lines
    pub journals: usize,
    pub journal_lines: usize,
}

impl Report {
    pub fn add(&mut self, family: &'static str, case: &Case) {
        if self.families.last().map(|(name, ..)| *name) != Some(family) {
            self.families.push((family, 0, 0));
        }
        let (_, cases, lines) = self.families.last_mut().expect("a family");
        *cases += 1;
        *lines += case.lines.len();
        let mut behind_load = false;
        for ((line, answer), level) in case.lines.iter().zip(&case.answers).zip(&case.levels) {
            // A number that is none of the answers is about to differ.
            if let Some(times) = self.answers.get_mut(usize::from(answer.number)) {
                *times += 1;
            }
            let kind = Kind::of(line);
            if kind.is_answered(answer.number) {
                self.answered += 1;
            }
            let goes_on = behind_load && line.has_more();
            self.kinds.entry(kind).or_default().add(level.filter(|_| is_accepted(answer.number)), goes_on);
            behind_load = kind == Kind::Load;
        }
    }

    fn times(&self, kind: Kind) -> Times {
        self.kinds.get(&kind).copied().unwrap_or_default()
    }

    /// Lines out of shape are no calls.
    fn calls(&self) -> usize {
        self.answers.iter().sum::<usize>() - self.times(Kind::BadLine).refused
    }

    /// What a run lacks, if anything. A part of the cases has to reach half of its share.
    pub fn lacks(&self, share: Share) -> Vec<String> {
        let part = if share.one_of == 1 { 1 } else { 2 * share.one_of };
        let (calls, times, pieces) = (CALLS / part, TIMES / part, PIECES / part);
        let mut lacks = Vec::new();
        if self.answered < calls {
            lacks.push(format!("strobe-rs answered {} calls, not {calls}", self.answered));
        }
        for (number, given) in self.answers.iter().enumerate() {
            if *given < times {
                lacks.push(format!("answer {number} was given {given} times, not {times}"));
            }
        }
        for (at, (flags, name)) in NAMED.iter().enumerate() {
            let Times { accepted: [low, high], gone_on, .. } = self.times(Kind::Operation(at));
            if low.min(high) < times {
                lacks.push(format!("{name} was done {low} and {high} times, not {times}"));
            }
            let [low, high] = gone_on;
            if low.min(high) < pieces && plain(*flags) != RECV_MAC {
                lacks.push(format!("{name} went on behind a load {low} and {high} times, not {pieces}"));
            }
        }
        lacks
    }
}

impl fmt::Display for Report {
    fn fmt(&self, out: &mut fmt::Formatter) -> fmt::Result {
        writeln!(out, "## Cases\n\n| Cases | Lines | |\n|---|---|---|")?;
        for (name, cases, lines) in &self.families {
            writeln!(out, "| {cases} | {lines} | {name} |")?;
        }
        writeln!(out, "\n## Calls\n\nThe last two columns count those accepted with `more` on right behind a load.\n")?;
        writeln!(out, "| Call | Accepted at 128 | Accepted at 256 | Refused | Gone on at 128 | Gone on at 256 |")?;
        writeln!(out, "|---|---|---|---|---|---|")?;
        for (kind, Times { accepted: [low, high], refused, gone_on }) in &self.kinds {
            let name = kind.name();
            writeln!(out, "| {name} | {low} | {high} | {refused} | {} | {} |", gone_on[0], gone_on[1])?;
        }
        writeln!(out, "\n## Answers\n\n| Answer | | Times |\n|---|---|---|")?;
        for (number, times) in self.answers.iter().enumerate() {
            writeln!(out, "| {number} | {} | {times} |", ANSWERS[number])?;
        }
        writeln!(
            out,
            "\nCalls: {}, of which strobe-rs answered {}. Nothing is different.",
            self.calls(),
            self.answered
        )?;
        writeln!(out, "Journals: {}, with {} lines in all.", self.journals, self.journal_lines)
    }
}
