//! A random clock: it stands still, moves on a little, jumps by days or goes back.

use crate::connection::{Connection, OUTDATED_AFTER};
use crate::random::Random;

const DAY: u64 = 24 * 60 * 60 * 1_000;

/// The clock of the calls made so far.
#[derive(Default)]
pub struct Clock {
    now: u64,
}

impl Clock {
    /// Starts the clock of a new connection.
    pub fn set(&mut self, now: u64) {
        self.now = now;
    }

    /// The clock of the next call; most calls move it on, some only glance elsewhere.
    pub fn next(&mut self, random: &mut Random, connection: &Connection) -> u64 {
        let recent = connection.ts_recent_clock;
        // A glance ahead that set TS.Recent moves the clock on, or all that follows would be refused.
        self.now = self.now.max(recent);
        match random.below(200) {
            0..=3 => return recent.wrapping_sub(1),
            4..=5 => return random.below(recent.max(1)),
            6 => return random.pick(&[0, u64::MAX, 1 << 32]),
            7..=8 => return recent,
            9..=18 => return recent.saturating_add(OUTDATED_AFTER + random.below(4) - 1),
            19..=20 => self.advance(1 + random.below(60) * DAY),
            21..=22 => self.advance(random.below(1_200_000)),
            23..=110 => self.advance(1 + random.below(60)),
            _ => {}
        }
        self.now
    }

    fn advance(&mut self, milliseconds: u64) {
        self.now = self.now.saturating_add(milliseconds);
    }
}

/// A clock to open a connection at.
pub fn opening_clock(random: &mut Random) -> u64 {
    match random.below(10) {
        0 => 0,
        1 => (1 << 32) - 1 - random.below(300),
        2 => u64::MAX - random.below(3_000),
        3 => u64::MAX - OUTDATED_AFTER - random.below(3),
        4 => random.next_u64(),
        _ => random.below(1 << 40),
    }
}
