//! The settings of a machine and questions 1 to 3.

use crate::point::Point;

/// "Settings: p, pulses per millimetre; w, clock ticks per second; a lower and an upper
/// travel bound per axis."
#[derive(Clone, Copy, PartialEq, Eq, Debug)]
pub struct Settings {
    pub p: u64,
    pub w: u64,
    pub x_lower: i64,
    pub x_upper: i64,
    pub y_lower: i64,
    pub y_upper: i64,
}

const WIDEST: i64 = 1_000_000;

/// How many feed numbers are a pulse per minute. 02 §4: "The feed number becomes thousandths of a pulse per minute".
pub const FEED_UNIT: u64 = 1_000;

/// "p 50, w 5,000 and the widest travel"
pub const USUAL: Settings = Settings { p: 50, w: 5_000, x_lower: -WIDEST, x_upper: WIDEST, y_lower: -WIDEST, y_upper: WIDEST };

impl Settings {
    /// The first no among questions 1 to 3.
    pub fn refusal(&self) -> Option<u32> {
        // "is p in 1..1,000? 1."
        if !(1..=1_000).contains(&self.p) {
            return Some(1);
        }
        // "Is w in 1,000..20,000? 2."
        if !(1_000..=20_000).contains(&self.w) {
            return Some(2);
        }
        // "Is each axis -1,000,000 ≤ lower ≤ 0 ≤ upper ≤ 1,000,000? 3."
        let axis = |lower: i64, upper: i64| (-WIDEST..=0).contains(&lower) && (0..=WIDEST).contains(&upper);
        if !(axis(self.x_lower, self.x_upper) && axis(self.y_lower, self.y_upper)) {
            return Some(3);
        }
        None
    }

    /// "and q0 becomes 60,000 × w" (02 §4). Only asked of settings that pass question 2.
    pub fn q0(&self) -> u64 {
        self.q0_in(FEED_UNIT)
    }

    /// "Capacity q0 = 60 × w", where feed numbers of so many are a pulse per minute.
    pub fn q0_in(&self, unit: u64) -> u64 {
        self.w.saturating_mul(60 * unit)
    }

    pub fn in_travel(&self, at: Point) -> bool {
        (self.x_lower..=self.x_upper).contains(&at.x) && (self.y_lower..=self.y_upper).contains(&at.y)
    }
}
