//! Our programs: the trace, which stays open and answers case after case, and the journal, which is run for one.

use crate::line::{hexadecimal, text_of, Line};
use crate::pen::Case;
use crate::rules;
use std::io::{self, BufRead, BufReader, Read, Write};
use std::process::{Child, ChildStdin, ChildStdout, Command, Stdio};
use std::thread;

/// The words of a command.
pub type Words = [String];

fn start(words: &Words) -> io::Result<Child> {
    let child = Command::new(&words[0]).args(&words[1..]).stdin(Stdio::piped()).stdout(Stdio::piped()).spawn();
    child.map_err(|error| io::Error::new(error.kind(), format!("{}: {error}", words[0])))
}

pub struct Trace {
    child: Child,
    /// until its end
    input: Option<ChildStdin>,
    output: BufReader<ChildStdout>,
}

/// The lines up to the empty one that ends a case, or up to where the program ended.
fn records(output: &mut impl BufRead) -> io::Result<Vec<Vec<u8>>> {
    let mut records = Vec::new();
    loop {
        let mut record = Vec::new();
        output.read_until(b'\n', &mut record)?;
        let is_whole = record.pop() == Some(b'\n');
        if !is_whole || record.is_empty() {
            return Ok(records);
        }
        records.push(record);
    }
}

impl Trace {
    pub fn start(words: &Words) -> io::Result<Trace> {
        let mut child = start(words)?;
        let input = child.stdin.take();
        let output = BufReader::with_capacity(1 << 18, child.stdout.take().expect("a pipe"));
        Ok(Trace { child, input, output })
    }

    /// What it writes for each of the cases.
    pub fn answers(&mut self, cases: &[&[Line]]) -> io::Result<Vec<Vec<Vec<u8>>>> {
        let mut text = Vec::new();
        for lines in cases {
            text.extend(text_of(lines));
            text.push(b'\n');
        }
        let Trace { input, output, .. } = self;
        thread::scope(|both| {
            // Where this fails the program has ended, and that is seen in what it wrote.
            both.spawn(|| input.as_mut().map(|input| input.write_all(&text)));
            cases.iter().map(|_| records(output)).collect()
        })
    }

    /// Closes its input, and tells whether it ended well and wrote nothing more.
    pub fn ends(&mut self) -> io::Result<bool> {
        self.input = None;
        let mut rest = Vec::new();
        self.output.read_to_end(&mut rest)?;
        Ok(self.child.wait()?.success() && rest.is_empty())
    }
}

impl Drop for Trace {
    fn drop(&mut self) {
        // It may have ended already.
        let _ = self.child.kill();
        let _ = self.child.wait();
    }
}

/// How a journal ends: as it stands, without its last newline, or with an empty line, which is out of shape.
#[derive(Clone, Copy)]
pub enum Ending {
    Newline,
    NoNewline,
    EmptyLine,
}

pub const ENDINGS: [Ending; 3] = [Ending::Newline, Ending::NoNewline, Ending::EmptyLine];

/// A case has no empty line, and a save or a load is no line of a journal.
pub fn is_journal(lines: &[Line]) -> bool {
    !lines.iter().any(|line| matches!(line, Line::Save(_) | Line::Load(_)))
}

/// What the journal has to write for a case.
pub fn journal_of(case: &Case, ending: Ending) -> Vec<u8> {
    let mut text = Vec::new();
    for (at, (line, answer)) in case.lines.iter().zip(&case.answers).enumerate() {
        text.extend(format!("{:02}", answer.number).bytes());
        if let Line::Call { flags, .. } | Line::Count { flags, .. } = line {
            if answer.number == rules::DONE && rules::is_shown(*flags) {
                hexadecimal(&answer.lent, &mut text);
            }
        }
        text.push(b'\n');
        // A first line that is refused ends the run.
        if at == 0 && answer.number != rules::DONE {
            return text;
        }
    }
    if let Ending::EmptyLine = ending {
        text.extend(format!("{:02}\n", rules::BAD_LINE).bytes());
    }
    text
}

/// What one run of the journal writes, if it ends well.
pub fn journal(words: &Words, lines: &[Line], ending: Ending) -> io::Result<Option<Vec<u8>>> {
    let mut text = text_of(lines);
    match ending {
        Ending::Newline => {}
        Ending::NoNewline => drop(text.pop()),
        Ending::EmptyLine => text.push(b'\n'),
    }
    let mut child = start(words)?;
    let mut input = child.stdin.take().expect("a pipe");
    let output = thread::scope(|both| {
        // Dropped when it is written, so that the journal sees the end.
        both.spawn(move || input.write_all(&text));
        let mut output = Vec::new();
        child.stdout.take().expect("a pipe").read_to_end(&mut output).map(|_| output)
    })?;
    Ok(child.wait()?.success().then_some(output))
}
