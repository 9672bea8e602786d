//! What docs/RULES.md, docs/FORMATS.md and docs/JOURNAL.md fix and strobe-rs does not have: the flag bytes by number, the answers, the limits, and which
//! bytes are a saved form.

use std::ops::Range;

pub const I: u8 = 0x01;
pub const C: u8 = 0x04;
pub const M: u8 = 0x10;
pub const K: u8 = 0x20;

pub const AD: u8 = 0x02;
pub const RATCHET: u8 = 0x04;
pub const KEY: u8 = 0x06;
pub const PRF: u8 = 0x07;
pub const SEND_CLR: u8 = 0x0a;
pub const RECV_CLR: u8 = 0x0b;
pub const SEND_MAC: u8 = 0x0c;
pub const RECV_MAC: u8 = 0x0d;
pub const SEND_ENC: u8 = 0x0e;
pub const RECV_ENC: u8 = 0x0f;
pub const META_AD: u8 = M | AD;
pub const META_RATCHET: u8 = M | RATCHET;
pub const META_KEY: u8 = M | KEY;
pub const META_PRF: u8 = M | PRF;
pub const META_SEND_CLR: u8 = M | SEND_CLR;
pub const META_RECV_CLR: u8 = M | RECV_CLR;
pub const META_SEND_MAC: u8 = M | SEND_MAC;
pub const META_RECV_MAC: u8 = M | RECV_MAC;
pub const META_SEND_ENC: u8 = M | SEND_ENC;
pub const META_RECV_ENC: u8 = M | RECV_ENC;

/// The twenty operations with their names.
pub const NAMED: [(u8, &str); 20] = [
    (AD, "ad"),
    (RATCHET, "ratchet"),
    (KEY, "key"),
    (PRF, "prf"),
    (SEND_CLR, "send_clr"),
    (RECV_CLR, "recv_clr"),
    (SEND_MAC, "send_mac"),
    (RECV_MAC, "recv_mac"),
    (SEND_ENC, "send_enc"),
    (RECV_ENC, "recv_enc"),
    (META_AD, "meta_ad"),
    (META_RATCHET, "meta_ratchet"),
    (META_KEY, "meta_key"),
    (META_PRF, "meta_prf"),
    (META_SEND_CLR, "meta_send_clr"),
    (META_RECV_CLR, "meta_recv_clr"),
    (META_SEND_MAC, "meta_send_mac"),
    (META_RECV_MAC, "meta_recv_mac"),
    (META_SEND_ENC, "meta_send_enc"),
    (META_RECV_ENC, "meta_recv_enc"),
];

/// Their flag bytes alone.
pub fn operations() -> [u8; 20] {
    NAMED.map(|(flags, _)| flags)
}

// The answers.
pub const DONE: u8 = 0;
pub const KEY_FLAG: u8 = 1;
pub const NO_OPERATION: u8 = 2;
pub const NOT_THE_LAST: u8 = 3;
pub const CUT_MAC: u8 = 4;
pub const TOO_LONG: u8 = 5;
pub const NO_LEVEL: u8 = 6;
pub const BAD_LINE: u8 = 7;
pub const NOT_A_SESSION: u8 = 8;
pub const MAC_UNEQUAL: u8 = 9;
pub const BAD_SAVED: u8 = 10;
pub const SHORT_BUFFER: u8 = 11;

/// A wrong MAC is an answer, and no refusal.
pub fn is_accepted(answer: u8) -> bool {
    [DONE, MAC_UNEQUAL].contains(&answer)
}

// The limits of one call, and of a line's name or payload.
pub const RATCHET_LIMIT: usize = 65_536;
pub const MAC_LIMIT: usize = 64;
pub const PAYLOAD_LIMIT: usize = 4_096;

/// By level byte: 1 is 128, 2 is 256.
pub fn rate(level: u8) -> usize {
    if level == 1 {
        166
    } else {
        134
    }
}

/// The position of a blank, and its begin position.
pub const BLANK_POSITION: usize = 166;

/// The version text of a blank.
pub const BLANK_VERSION: &[u8; 29] = b"Strobe-Keccak-128/1600-v1.0.2";

pub fn plain(flags: u8) -> u8 {
    flags & !M
}

/// The payload is a count, in place of bytes.
pub fn is_counted(flags: u8) -> bool {
    [PRF, SEND_MAC, RATCHET].contains(&plain(flags))
}

/// The journal shows the buffer.
pub fn is_shown(flags: u8) -> bool {
    [PRF, SEND_MAC, SEND_ENC, RECV_ENC].contains(&plain(flags))
}

pub fn is_operation(flags: u8) -> bool {
    operations().contains(&flags)
}

/// Above the limit of its operation.
pub fn is_too_long(flags: u8, length: usize) -> bool {
    match plain(flags) {
        RATCHET => length > RATCHET_LIMIT,
        RECV_MAC => length > MAC_LIMIT,
        _ => false,
    }
}

/// An edition of the saved form: its first byte, and how many there are.
#[derive(Clone, Copy)]
pub struct Edition {
    pub number: u8,
    pub size: usize,
}

/// Ends with the state. It is loaded, and no longer saved.
pub const EDITION_1: Edition = Edition { number: 1, size: 205 };

/// Has the last operation's flag byte behind the state.
pub const EDITION_2: Edition = Edition { number: 2, size: 206 };

pub const EDITIONS: [Edition; 2] = [EDITION_1, EDITION_2];

/// The one that a save writes.
pub const NEWEST: Edition = EDITION_2;

/// Where both have the state, and where edition 2 has the last operation.
pub const STATE: Range<usize> = 5..205;
pub const LAST: usize = 205;

/// Stands there for none.
pub const NO_LAST: u8 = 0xff;

/// What a save writes.
pub type Form = [u8; NEWEST.size];

/// The same form in this edition.
pub fn in_edition(edition: &Edition, form: &Form) -> Vec<u8> {
    let mut bytes = form[..edition.size].to_vec();
    bytes[0] = edition.number;
    bytes
}

/// The last operation, if there is one, unless its byte is wrong. Edition 1 ends before it.
pub fn last_in(form: &[u8]) -> Option<Option<u8>> {
    match form.get(LAST) {
        None | Some(&NO_LAST) => Some(None),
        Some(&flags) => is_operation(flags).then_some(Some(flags)),
    }
}

/// A session's saved form, in one of the editions.
pub fn is_form(bytes: &[u8]) -> bool {
    EDITIONS.iter().any(|edition| bytes.len() == edition.size && bytes[0] == edition.number)
        && (bytes[1] == 1 || bytes[1] == 2)
        && usize::from(bytes[2]) < rate(bytes[1])
        && bytes[3] <= bytes[2]
        && bytes[4] <= 2
        && last_in(bytes).is_some()
}
