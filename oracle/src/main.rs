//! The oracle: strobe-rs answers cases, and the answers of our programs are compared with its. oracle/README.md has the commands; the scripts beside it
//! build this program and call it.

mod calls;
mod cases;
mod compare;
mod draw;
mod line;
mod oracle;
mod ours;
mod pen;
mod report;
mod rules;
mod sample;
mod show;
mod shrink;

use cases::Share;
use compare::{Comparison, Difference, Programs};
use show::both_sides;
use std::io::{self, Read, Write};
use std::process::ExitCode;
use std::time::Instant;
use std::{env, fs};

const USAGE: &str = "usage: oracle run ONE_OF TIMES KEPT -- TRACE.. -- JOURNAL.. | file FILE -- TRACE.. -- JOURNAL.. \
                     | sample | answers";

/// Writes the smallest case to a file, says what it is, and shows both sides.
fn keep(difference: &Difference, kept: &str, programs: Programs) -> io::Result<()> {
    let text = line::text_of_all(&difference.cases);
    fs::write(kept, &text)?;
    println!("{} differs from strobe-rs. The smallest case, kept as {kept}:\n", difference.program);
    println!("{}", String::from_utf8_lossy(&text));
    // As it is read again, so that it is known to differ when it is run again.
    if both_sides(programs, &line::cases_in(&text))? {
        println!("It differed only once.");
    }
    Ok(())
}

fn run(share: Share, kept: &str, programs: Programs) -> io::Result<bool> {
    let begun = Instant::now();
    let mut comparison = Comparison::new(programs)?;
    comparison.run(share)?;
    if let Some(difference) = &comparison.difference {
        keep(difference, kept, programs)?;
        return Ok(false);
    }
    let report = &comparison.report;
    println!("{report}");
    println!("Seconds: {:.1}.", begun.elapsed().as_secs_f64());
    let lacks = report.lacks(share);
    for lack in &lacks {
        println!("too few: {lack}");
    }
    let ends = comparison.ends()?;
    if !ends {
        println!("the trace wrote more than it was asked for, or did not end well");
    }
    Ok(ends && lacks.is_empty())
}

/// The cases of a file, each side beside the other.
fn file(name: &str, programs: Programs) -> io::Result<bool> {
    let cases = line::cases_in(&fs::read(name)?);
    if cases.iter().all(Vec::is_empty) {
        return Err(io::Error::new(io::ErrorKind::InvalidData, format!("{name} has no case")));
    }
    both_sides(programs, &cases)
}

/// strobe-rs's answers to the cases on standard input.
fn answers() -> io::Result<bool> {
    let mut text = Vec::new();
    io::stdin().read_to_end(&mut text)?;
    let mut out = Vec::new();
    for (number, lines) in line::cases_in(&text).iter().enumerate() {
        if number > 0 {
            out.push(b'\n');
        }
        for record in pen::answered(lines).records {
            out.extend(record);
            out.push(b'\n');
        }
    }
    io::stdout().write_all(&out)?;
    Ok(true)
}

fn bad_usage() -> io::Error {
    io::Error::new(io::ErrorKind::InvalidInput, USAGE)
}

fn number(word: &str) -> io::Result<usize> {
    word.parse().ok().filter(|n| *n > 0).ok_or_else(bad_usage)
}

fn done(words: &[String]) -> io::Result<bool> {
    let parts: Vec<&[String]> = words.split(|word| word == "--").collect();
    let named: Vec<&str> = parts[0].iter().map(String::as_str).collect();
    match (&named[..], &parts[1..]) {
        (["run", one_of, times, kept], [trace, journal]) if !trace.is_empty() && !journal.is_empty() => {
            let share = Share { one_of: number(one_of)?, times: number(times)? };
            run(share, kept, Programs { trace, journal })
        }
        (["file", name], [trace, journal]) if !trace.is_empty() && !journal.is_empty() => {
            file(name, Programs { trace, journal })
        }
        (["sample"], []) => io::stdout().write_all(&line::text_of_all(&sample::sample())).map(|()| true),
        (["answers"], []) => answers(),
        _ => Err(bad_usage()),
    }
}

fn main() -> ExitCode {
    calls::hush_caught_panics();
    let words: Vec<String> = env::args().skip(1).collect();
    match done(&words) {
        Ok(true) => ExitCode::SUCCESS,
        Ok(false) => ExitCode::FAILURE,
        Err(error) => {
            eprintln!("oracle: {error}");
            ExitCode::from(2)
        }
    }
}
