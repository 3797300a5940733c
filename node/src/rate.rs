//! How many frames a second are taken from a partner: what comes faster waits in its socket. A partner with desks alone needs few, and must not fill
//! the others' logs.

use crate::bucket::Bucket;
use std::time::{Duration, Instant};

/// Frames at any speed, before the limit counts.
const AT_ONCE: f64 = 10_000.0;
/// A message's type and length.
const HEAD: usize = 4;
const DATA: u8 = b'D';

pub struct Rate {
    bucket: Bucket,
    /// The front of the next message, as far as it has come, and the bytes of a message's body that are still to come.
    head: Vec<u8>,
    body: usize,
}

impl Rate {
    pub fn new(frames_a_second: f64, now: Instant) -> Rate {
        Rate { bucket: Bucket::new(AT_ONCE, frames_a_second, now), head: vec![], body: 0 }
    }

    /// A new link begins with a message.
    pub fn begin(&mut self) {
        self.head.clear();
        self.body = 0;
    }

    /// How long nothing is to be taken.
    pub fn pause(&mut self, now: Instant) -> Duration {
        self.bucket.fill(now);
        self.bucket.debt()
    }

    /// Counts the frames in what was taken, wherever it is cut.
    pub fn count(&mut self, mut bytes: &[u8]) {
        while !bytes.is_empty() {
            let skipped = self.body.min(bytes.len());
            self.body -= skipped;
            bytes = &bytes[skipped..];
            let wanted = (HEAD - self.head.len()).min(bytes.len());
            self.head.extend_from_slice(&bytes[..wanted]);
            bytes = &bytes[wanted..];
            if let [kind, a, b, c] = self.head[..] {
                self.body = u32::from_be_bytes([0, a, b, c]) as usize;
                self.head.clear();
                self.bucket.spend(if kind == DATA { 1.0 } else { 0.0 });
            }
        }
    }
}

#[cfg(test)]
mod tests {
    use super::*;

    #[test]
    fn frames_are_counted_however_they_are_cut() {
        let mut bytes = vec![];
        for i in 0..12_000u32 {
            let length = i % 300;
            bytes.extend_from_slice(&(u32::from(if i % 2 == 0 { DATA } else { b'A' }) << 24 | length).to_be_bytes());
            bytes.extend(std::iter::repeat_n(DATA, length as usize));
        }
        let now = Instant::now();
        for piece in [1, 3, 7, 1000, bytes.len()] {
            let mut rate = Rate::new(500.0, now);
            bytes.chunks(piece).for_each(|c| rate.count(c));
            assert_eq!(rate.pause(now), Duration::ZERO, "6,000 frames are below 10,000");
            bytes.chunks(piece).for_each(|c| rate.count(c));
            assert_eq!(rate.pause(now), Duration::from_secs(4), "2,000 frames are too many");
            assert_eq!(rate.pause(now + Duration::from_secs(4)), Duration::ZERO);
        }
    }
}
