//! A point of the plane in whole pulses. "Lengths are whole pulses."

#[derive(Clone, Copy, PartialEq, Eq, Hash, Debug)]
pub struct Point {
    pub x: i64,
    pub y: i64,
}

pub const ORIGIN: Point = Point { x: 0, y: 0 };

impl Point {
    pub fn new(x: i64, y: i64) -> Point {
        Point { x, y }
    }

    /// This point "seen from the centre". Made-up records may hold any number, so the
    /// difference stops at the ends of 64 bits: a far point stays far.
    pub fn seen_from(self, centre: Point) -> Point {
        Point::new(self.x.saturating_sub(centre.x), self.y.saturating_sub(centre.y))
    }

    /// The way back from `seen_from`; also the centre from the start and (I, J).
    pub fn moved_by(self, by: Point) -> Point {
        Point::new(self.x.saturating_add(by.x), self.y.saturating_add(by.y))
    }
}
