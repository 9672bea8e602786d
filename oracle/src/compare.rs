//! Both sides on the same cases, line by line; and, where they differ, the smallest case that shows it.

use crate::cases::{self, Family, Share};
use crate::line::Line;
use crate::ours::{is_journal, journal, journal_of, Ending, Trace, Words, ENDINGS};
use crate::pen::{answered, Case};
use crate::report::Report;
use crate::shrink::{fewer_cases, smallest};
use std::io;

/// The commands of our two programs.
#[derive(Clone, Copy)]
pub struct Programs<'a> {
    pub trace: &'a Words,
    pub journal: &'a Words,
}

/// Which of our programs differs, and the smallest case; more than one where it differs only behind others.
pub struct Difference {
    pub program: &'static str,
    pub cases: Vec<Vec<Line>>,
}

/// As many lines as are sent at once.
const BATCH: usize = 20_000;

pub struct Comparison<'a> {
    programs: Programs<'a>,
    trace: Trace,
    waiting: Vec<(&'static Family, Case)>,
    pub report: Report,
    pub difference: Option<Difference>,
}

/// A program of its own for each trial, since it may end.
fn trace_differs(words: &Words, cases: &[Vec<Line>]) -> io::Result<bool> {
    let asked: Vec<&[Line]> = cases.iter().map(Vec::as_slice).collect();
    let given = Trace::start(words)?.answers(&asked)?;
    Ok(cases.iter().zip(given).any(|(lines, records)| records != answered(lines).records))
}

/// Whether the journal writes something else than it has to, or ends badly.
fn journal_differs(words: &Words, case: &Case, ending: Ending) -> io::Result<bool> {
    Ok(journal(words, &case.lines, ending)? != Some(journal_of(case, ending)))
}

/// The ending with which the journal differs on a case, if it is one for the journal.
pub fn differing_ending(words: &Words, lines: &[Line]) -> io::Result<Option<Ending>> {
    let case = answered(lines);
    for ending in ENDINGS {
        if is_journal(lines) && !lines.is_empty() && journal_differs(words, &case, ending)? {
            return Ok(Some(ending));
        }
    }
    Ok(None)
}

impl<'a> Comparison<'a> {
    pub fn new(programs: Programs<'a>) -> io::Result<Comparison<'a>> {
        let trace = Trace::start(programs.trace)?;
        let (report, waiting, difference) = (Report::default(), Vec::new(), None);
        Ok(Comparison { programs, trace, waiting, report, difference })
    }

    /// The cases of all families, up to the first difference.
    pub fn run(&mut self, share: Share) -> io::Result<()> {
        let mut result = Ok(());
        cases::each(share, &mut |family, case| {
            self.report.add(family.name, &case);
            self.waiting.push((family, case));
            result = self.compare_if(BATCH);
            result.is_ok() && self.difference.is_none()
        });
        result?;
        if self.difference.is_none() {
            self.compare_if(0)?;
        }
        Ok(())
    }

    /// Compares what is waiting, if it is so many lines.
    fn compare_if(&mut self, lines: usize) -> io::Result<()> {
        let waiting: usize = self.waiting.iter().map(|(_, case)| case.lines.len()).sum();
        if waiting < lines {
            return Ok(());
        }
        let cases = std::mem::take(&mut self.waiting);
        let asked: Vec<&[Line]> = cases.iter().map(|(_, case)| case.lines.as_slice()).collect();
        let given = self.trace.answers(&asked)?;
        let differing = cases.iter().zip(given).position(|((_, case), records)| records != case.records);
        if let Some(at) = differing {
            return self.found_in_trace(asked[..=at].iter().map(|lines| lines.to_vec()).collect());
        }
        for (family, case) in &cases {
            if family.is_journal && is_journal(&case.lines) && self.difference.is_none() {
                self.compare_journal(case)?;
            }
        }
        Ok(())
    }

    /// One of the endings for each journal, in turn.
    fn compare_journal(&mut self, case: &Case) -> io::Result<()> {
        let words = self.programs.journal;
        let ending = ENDINGS[self.report.journals % ENDINGS.len()];
        if journal_differs(words, case, ending)? {
            let lines = smallest(case.lines.clone(), &mut |lines| journal_differs(words, &answered(lines), ending))?;
            self.difference = Some(Difference { program: "journal", cases: vec![lines] });
        }
        self.report.journals += 1;
        self.report.journal_lines += case.lines.len();
        Ok(())
    }

    /// In the last of these cases, alone or behind the others.
    fn found_in_trace(&mut self, mut cases: Vec<Vec<Line>>) -> io::Result<()> {
        let words = self.programs.trace;
        let last = cases[cases.len() - 1..].to_vec();
        if trace_differs(words, &last)? {
            cases = vec![smallest(last.concat(), &mut |lines| trace_differs(words, &[lines.to_vec()]))?];
        } else {
            cases = fewer_cases(cases, &mut |cases| trace_differs(words, cases))?;
        }
        self.difference = Some(Difference { program: "trace", cases });
        Ok(())
    }

    /// The trace has to end well when its input does.
    pub fn ends(&mut self) -> io::Result<bool> {
        self.trace.ends()
    }
}
