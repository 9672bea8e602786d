//! The calls of strobe-rs by number. Where it panics the panic is caught, and its text is the answer. What strobe-rs does not have is refused by rules.rs, in
//! the order of docs/RULES.md, section 7: 8 (oracle.rs), 1, 2, 4, 3, 5.

use crate::rules::*;
use std::any::Any;
use std::cell::Cell;
use std::panic::{catch_unwind, set_hook, take_hook, AssertUnwindSafe};
use strobe_rs::{AuthError, Strobe};

/// For a panic that strobe-rs should not have: no answer of ours.
const OTHER_PANIC: u8 = 99;

thread_local! {
    static CATCHING: Cell<bool> = const { Cell::new(false) };
}

/// From here on a panic that is caught is not told.
pub fn hush_caught_panics() {
    let tell = take_hook();
    set_hook(Box::new(move |panic| {
        if !CATCHING.with(Cell::get) {
            tell(panic);
        }
    }));
}

/// strobe-rs has two panics, told apart by their texts.
fn number_of_panic(panic: &(dyn Any + Send)) -> u8 {
    let borrowed = panic.downcast_ref::<&str>().copied();
    let text = panic.downcast_ref::<String>().map(String::as_str).or(borrowed).unwrap_or("");
    if text.contains("Op flag K not implemented") {
        KEY_FLAG
    } else if text.contains("`more` can only be used when this operation is the same") {
        NOT_THE_LAST
    } else {
        OTHER_PANIC
    }
}

/// What the work gives, or the number of its panic.
fn caught<T>(work: impl FnOnce() -> T) -> Result<T, u8> {
    CATCHING.with(|catching| catching.set(true));
    let result = catch_unwind(AssertUnwindSafe(work));
    CATCHING.with(|catching| catching.set(false));
    result.map_err(|panic| number_of_panic(&*panic))
}

/// strobe-rs knows the length of a MAC when it is compiled.
fn recv_mac(session: &mut Strobe, flags: u8, mac: &[u8]) -> Result<(), AuthError> {
    macro_rules! of_length {
        ($($n:literal)*) => {
            match mac.len() {
                $($n => {
                    let mac: &[u8; $n] = mac.try_into().unwrap();
                    if flags == RECV_MAC { session.recv_mac(mac) } else { session.meta_recv_mac(mac) }
                })*
                n => unreachable!("a MAC of {n} bytes is above the limit"),
            }
        };
    }
    of_length!(
        0 1 2 3 4 5 6 7 8 9 10 11 12 13 14 15 16 17 18 19 20 21 22 23 24 25 26 27 28 29 30 31 32
        33 34 35 36 37 38 39 40 41 42 43 44 45 46 47 48 49 50 51 52 53 54 55 56 57 58 59 60 61 62
        63 64
    )
}

/// One of the twenty by its name, but a ratchet.
pub fn operate(s: &mut Strobe, flags: u8, more: bool, buf: &mut [u8]) -> Result<(), AuthError> {
    match flags {
        AD => s.ad(buf, more),
        KEY => s.key(buf, more),
        PRF => s.prf(buf, more),
        SEND_CLR => s.send_clr(buf, more),
        RECV_CLR => s.recv_clr(buf, more),
        SEND_MAC => s.send_mac(buf, more),
        SEND_ENC => s.send_enc(buf, more),
        RECV_ENC => s.recv_enc(buf, more),
        META_AD => s.meta_ad(buf, more),
        META_KEY => s.meta_key(buf, more),
        META_PRF => s.meta_prf(buf, more),
        META_SEND_CLR => s.meta_send_clr(buf, more),
        META_RECV_CLR => s.meta_recv_clr(buf, more),
        META_SEND_MAC => s.meta_send_mac(buf, more),
        META_SEND_ENC => s.meta_send_enc(buf, more),
        META_RECV_ENC => s.meta_recv_enc(buf, more),
        RECV_MAC | META_RECV_MAC => return recv_mac(s, flags, buf),
        _ => unreachable!("{flags:02x} is none of these"),
    }
    Ok(())
}

fn ratchet(session: &mut Strobe, flags: u8, more: bool, count: usize) {
    if flags == RATCHET {
        session.ratchet(count, more)
    } else {
        session.meta_ratchet(count, more)
    }
}

/// What is refused before the work, and with which number.
fn refusal(session: &Strobe, flags: u8, more: bool, length: usize) -> Option<u8> {
    if !is_operation(flags) {
        return Some(NO_OPERATION);
    }
    if more && plain(flags) == RECV_MAC {
        return Some(CUT_MAC);
    }
    if !is_too_long(flags, length) {
        return None;
    }
    // 3 comes before 5: strobe-rs is asked, on a copy, for a ratchet of nothing. A MAC has `more` off here.
    let mut copy = session.clone();
    let asked = if plain(flags) == RATCHET { caught(|| ratchet(&mut copy, flags, more, 0)) } else { Ok(()) };
    Some(asked.err().unwrap_or(TOO_LONG))
}

fn number_of(result: Result<Result<(), AuthError>, u8>) -> u8 {
    match result {
        Ok(Ok(())) => DONE,
        Ok(Err(AuthError)) => MAC_UNEQUAL,
        Err(panic) => panic,
    }
}

pub fn call(session: &mut Strobe, flags: u8, more: bool, buf: &mut [u8]) -> u8 {
    if flags & K != 0 {
        return number_of(caught(|| session.operate_by_number(flags, buf, more)).map(Ok));
    }
    refusal(session, flags, more, buf.len()).unwrap_or_else(|| number_of(caught(|| operate(session, flags, more, buf))))
}

pub fn ratchet_call(session: &mut Strobe, flags: u8, more: bool, count: usize) -> u8 {
    refusal(session, flags, more, count)
        .unwrap_or_else(|| number_of(caught(|| ratchet(session, flags, more, count)).map(Ok)))
}
