//! What a run answers, as our side counts it (crates/bench_calls).

#[derive(Clone, Copy, Debug, Default, PartialEq)]
pub struct Tally {
    pub messages: u64,
    pub bytes: u64,
    pub sum: u64,
}

impl Tally {
    pub fn mix(&mut self, x: u32) {
        self.sum = self.sum % (1 << 32) * 31 + u64::from(x);
    }

    /// Every so many of the bytes, the first and the last among them.
    pub fn probe(&mut self, bytes: &[u8], every: usize) {
        for byte in bytes.iter().step_by(every) {
            self.mix(u32::from(*byte));
        }
        if let Some(last) = bytes.last() {
            self.mix(u32::from(*last));
        }
    }
}
