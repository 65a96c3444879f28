//! 02 §2, "Arcs cut too fast at 45 degrees": what a cycle is charged, and what a tick pays.

use crate::point::Point;

/// "a straight arc step is charged 1,000 and a diagonal one 1,414"
pub const STRAIGHT: u64 = 1_000;
pub const DIAGONAL: u64 = 1_414;

/// "Line cycles are charged 1,000": all of them, also those with a pulse on both axes or on none.
pub const LINE_CYCLE: u64 = 1_000;

/// "A tick adds 1,000 × f."
pub const PAID_PER_FEED: u64 = 1_000;

/// A step is diagonal where both X and Y change.
pub fn of_arc_step(from: Point, to: Point) -> u64 {
    if from.x != to.x && from.y != to.y {
        DIAGONAL
    } else {
        STRAIGHT
    }
}

/// "A sound remainder is below 1,414 × q0", whatever is in work.
pub fn is_sound_remainder(remainder: u64, q0: u64) -> bool {
    remainder < DIAGONAL * q0
}
