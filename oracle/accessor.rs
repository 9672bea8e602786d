
// ---- appended to a copy of strobe-rs's strobe.rs: what a session holds, and how to make one that holds it

#[derive(Clone, Copy)]
pub struct Parts {
    pub state: [u8; 8 * KECCAK_BLOCK_SIZE],
    pub position: usize,
    pub begin: usize,
    pub is_receiver: Option<bool>,
    pub last: Option<u8>,
}

impl Strobe {
    pub fn parts(&self) -> Parts {
        Parts {
            state: self.st.0,
            position: self.pos,
            begin: self.pos_begin,
            is_receiver: self.is_receiver,
            last: self.prev_flags.map(|flags| flags.bits()),
        }
    }

    /// A session with these parts, of the level and rate of this one.
    pub fn with_parts(&self, parts: &Parts) -> Strobe {
        Strobe {
            st: AlignedKeccakState(parts.state),
            sec: self.sec,
            rate: self.rate,
            pos: parts.position,
            pos_begin: parts.begin,
            is_receiver: parts.is_receiver,
            prev_flags: parts.last.map(OpFlags::from_bits_retain),
        }
    }

    /// `operate`, whose flags are private to the crate.
    pub fn operate_by_number(&mut self, flags: u8, bytes: &mut [u8], more: bool) {
        self.operate(OpFlags::from_bits_retain(flags), bytes, more)
    }
}
