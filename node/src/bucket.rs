//! A limit on how often: so many things a second, after some at any speed.

use std::time::{Duration, Instant};

pub struct Bucket {
    tokens: f64,
    most: f64,
    a_second: f64,
    filled: Instant,
}

impl Bucket {
    pub fn new(most: f64, a_second: f64, now: Instant) -> Bucket {
        Bucket { tokens: most, most, a_second, filled: now }
    }

    pub fn fill(&mut self, now: Instant) {
        let passed = now.saturating_duration_since(self.filled).as_secs_f64();
        self.tokens = (self.tokens + passed * self.a_second).min(self.most);
        self.filled = now;
    }

    pub fn has_token(&self) -> bool {
        self.tokens >= 1.0
    }

    pub fn spend(&mut self, tokens: f64) {
        self.tokens -= tokens;
    }

    /// How long until nothing is owed any more.
    pub fn debt(&self) -> Duration {
        Duration::from_secs_f64((-self.tokens).max(0.0) / self.a_second)
    }

    /// Takes a token, and says how long it takes until it is there.
    pub fn take(&mut self, now: Instant) -> Duration {
        self.fill(now);
        self.spend(1.0);
        self.debt()
    }
}

#[cfg(test)]
mod tests {
    use super::*;

    #[test]
    fn one_a_second_after_a_few() {
        let now = Instant::now();
        let mut links = Bucket::new(4.0, 1.0, now);
        for _ in 0..4 {
            assert_eq!(links.take(now), Duration::ZERO);
        }
        assert_eq!(links.take(now), Duration::from_secs(1));
        assert_eq!(links.take(now + Duration::from_secs(1)), Duration::from_secs(1));
        assert_eq!(links.take(now + Duration::from_secs(60)), Duration::ZERO);
    }
}
