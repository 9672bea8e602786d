//! strobe-rs as the oracle: a session of it, and its answer to each line of a case.

use crate::calls::{call, operate, ratchet_call};
use crate::line::{hexadecimal, Line};
use crate::rules;
use strobe_rs::{Parts, SecParam, Strobe};

/// What the buffer of a prf, a sent MAC or a ratchet holds before the call.
const FILL: u8 = 0xa5;

pub struct Answer {
    pub number: u8,
    /// the lent bytes after the call
    pub lent: Vec<u8>,
}

/// A session, or a blank.
pub struct Oracle {
    session: Option<Strobe>,
    /// the saved forms of this case in both editions, each with the session that it gives
    saved: Vec<(Vec<u8>, Strobe)>,
}

fn level_of(byte: u8) -> Option<SecParam> {
    match byte {
        1 => Some(SecParam::B128),
        2 => Some(SecParam::B256),
        _ => None,
    }
}

fn level_byte(session: &Strobe) -> u8 {
    if &session.version_str()[14..17] == b"128" {
        1
    } else {
        2
    }
}

fn direction_byte(is_receiver: Option<bool>) -> u8 {
    match is_receiver {
        None => 0,
        Some(false) => 1,
        Some(true) => 2,
    }
}

fn form_of(session: &Strobe) -> rules::Form {
    let parts = session.parts();
    let mut form = [0; rules::NEWEST.size];
    form[0] = rules::NEWEST.number;
    form[1] = level_byte(session);
    form[2] = parts.position as u8;
    form[3] = parts.begin as u8;
    form[4] = direction_byte(parts.is_receiver);
    form[rules::STATE].copy_from_slice(&parts.state);
    form[rules::LAST] = parts.last.unwrap_or(rules::NO_LAST);
    form
}

/// What a well-formed saved form holds.
fn in_form(form: &[u8]) -> Strobe {
    let level = level_of(form[1]).expect("a level");
    Strobe::new(b"", level).with_parts(&Parts {
        state: form[rules::STATE].try_into().unwrap(),
        position: usize::from(form[2]),
        begin: usize::from(form[3]),
        is_receiver: [None, Some(false), Some(true)][usize::from(form[4])],
        last: rules::last_in(form).expect("FF or an operation"),
    })
}

/// A clone with the last operation cleared.
fn without_last(session: &Strobe) -> Strobe {
    session.with_parts(&Parts { last: None, ..session.parts() })
}

impl Oracle {
    pub fn blank() -> Oracle {
        Oracle { session: None, saved: Vec::new() }
    }

    pub fn answer(&mut self, line: &Line) -> Answer {
        match line {
            Line::First { level, name } => self.create(*level, name),
            Line::Call { flags, more, bytes } => {
                self.work(bytes.clone(), |session, buf| call(session, *flags, *more, buf))
            }
            Line::Count { flags, more, count } => self.count(*flags, *more, *count as usize),
            Line::Save(buffer) => self.save(buffer.clone()),
            Line::Load(bytes) => self.load(bytes.clone()),
            Line::Bad(_) => Answer { number: rules::BAD_LINE, lent: Vec::new() },
        }
    }

    /// The trace has no buffer for a longer ratchet.
    fn count(&mut self, flags: u8, more: bool, count: usize) -> Answer {
        let buffer = vec![FILL; if count <= rules::PAYLOAD_LIMIT { count } else { 0 }];
        if rules::plain(flags) == rules::RATCHET {
            return self.work(buffer, |session, _| ratchet_call(session, flags, more, count));
        }
        self.work(buffer, |session, buf| call(session, flags, more, buf))
    }

    fn create(&mut self, level: u8, name: &[u8]) -> Answer {
        self.session = level_of(level).map(|level| Strobe::new(name, level));
        let number = if self.session.is_some() { rules::DONE } else { rules::NO_LEVEL };
        Answer { number, lent: name.to_vec() }
    }

    fn work(&mut self, mut lent: Vec<u8>, work: impl FnOnce(&mut Strobe, &mut [u8]) -> u8) -> Answer {
        let number = match &mut self.session {
            None => rules::NOT_A_SESSION,
            Some(session) => work(session, &mut lent),
        };
        Answer { number, lent }
    }

    fn save(&mut self, mut lent: Vec<u8>) -> Answer {
        let number = match &self.session {
            None => rules::NOT_A_SESSION,
            Some(_) if lent.len() < rules::NEWEST.size => rules::SHORT_BUFFER,
            Some(session) => {
                let form = form_of(session);
                lent[..form.len()].copy_from_slice(&form);
                self.saved.push((form.to_vec(), session.clone()));
                self.saved.push((rules::in_edition(&rules::EDITION_1, &form), without_last(session)));
                rules::DONE
            }
        };
        Answer { number, lent }
    }

    /// A form that was saved in this case gives a clone, and other bytes in the right form a session with just these parts.
    fn load(&mut self, lent: Vec<u8>) -> Answer {
        let saved = self.saved.iter().find(|(form, _)| *form == lent);
        self.session = match saved {
            Some((_, session)) => Some(session.clone()),
            None => rules::is_form(&lent).then(|| in_form(&lent)),
        };
        let number = if self.session.is_some() { rules::DONE } else { rules::BAD_SAVED };
        Answer { number, lent }
    }

    /// The line that the trace has to write for an answer.
    pub fn record(&self, answer: &Answer) -> Vec<u8> {
        let mut text = format!("{:02} ", answer.number).into_bytes();
        let blank = Parts {
            state: [0; 200],
            position: rules::BLANK_POSITION,
            begin: rules::BLANK_POSITION,
            is_receiver: None,
            last: None,
        };
        let parts = self.session.as_ref().map_or(blank, Strobe::parts);
        text.extend(self.session.as_ref().map_or(*rules::BLANK_VERSION, Strobe::version_str));
        let last = parts.last.map_or("--".to_string(), |flags| format!("{flags:02x}"));
        let direction = direction_byte(parts.is_receiver);
        text.extend(format!(" {:02x} {:02x} {direction} {last} ", parts.position, parts.begin).bytes());
        hexadecimal(&answer.lent, &mut text);
        text.push(b' ');
        hexadecimal(&parts.state, &mut text);
        text
    }

    /// The level byte of the session, if there is one.
    pub fn level(&self) -> Option<u8> {
        self.session.as_ref().map(level_byte)
    }

    /// The position of the session, if there is one.
    pub fn position(&self) -> Option<usize> {
        self.session.as_ref().map(|session| session.parts().position)
    }

    /// The last operation.
    pub fn last(&self) -> Option<u8> {
        self.session.as_ref().and_then(|session| session.parts().last)
    }

    /// The saved form of the session, if there is one.
    pub fn form(&self) -> Option<rules::Form> {
        self.session.as_ref().map(form_of)
    }

    /// The MAC that the session accepts next: the one that the other end would send.
    pub fn right_mac(&self, flags: u8, length: usize) -> Vec<u8> {
        let mut mac = vec![0; length];
        if let Some(session) = &self.session {
            let parts = session.parts();
            let other_end = parts.is_receiver.map(|is_receiver| !is_receiver);
            let mut other = session.with_parts(&Parts { is_receiver: other_end, ..parts });
            operate(&mut other, flags & !rules::I, false, &mut mac).expect("a sent MAC");
        }
        mac
    }
}
