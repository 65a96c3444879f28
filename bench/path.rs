//! Lines and arcs of the plain Rust machine: their part of the test of the record, and one cycle onward.
use crate::Block as _;

pub const TRAVEL: i64 = 1_000_000;
const MOST_CYCLES: i64 = 4_000_000;
const FARTHEST_CENTRE: i64 = 2_000_000;
const LARGEST_SQUARE: i64 = 2_000_000_000_000;

#[derive(Clone, Copy, PartialEq)]
pub struct Point {
    pub x: i64,
    pub y: i64,
}

#[derive(Clone, Copy)]
pub struct Range {
    pub lower: i64,
    pub upper: i64,
}

#[derive(Clone, Copy)]
pub struct Settings {
    pub p: i64,
    pub w: i64,
    pub x: Range,
    pub y: Range,
}

#[derive(Clone, Copy)]
pub struct Line {
    pub start: Point,
    pub end: Point,
    pub feed: i64,
    pub cycles: i64,
    pub done: i64,
}

#[derive(Clone, Copy)]
pub struct Arc {
    pub centre: Point,
    pub square: i64,
    pub clockwise: bool,
    pub end: Point,
    pub feed: i64,
}

impl Range {
    pub fn has(self, v: i64) -> bool {
        (self.lower..=self.upper).contains(&v)
    }

    pub fn right(self) -> bool {
        (-TRAVEL..=0).contains(&self.lower) && (0..=TRAVEL).contains(&self.upper)
    }
}

impl Settings {
    pub fn right(&self) -> bool {
        (1..=1000).contains(&self.p) && (1000..=20000).contains(&self.w) && self.x.right() && self.y.right()
    }

    pub fn inside(&self, p: Point) -> bool {
        self.x.has(p.x) && self.y.has(p.y)
    }

    pub fn capacity(&self) -> i64 {
        60_000 * self.w
    }
}

impl Line {
    /// What an axis' register holds after the cycles done; not in 0..cycles where the axis has not gone so far.
    fn register(&self, way: i64, gone: i64) -> i64 {
        let gone = if way < 0 { -gone } else { gone };
        self.cycles / 2 + way.abs() * self.done - self.cycles * gone
    }

    fn registers(&self, at: Point) -> (i64, i64) {
        let (a, b) = (self.end.x - self.start.x, self.end.y - self.start.y);
        (self.register(a, at.x - self.start.x), self.register(b, at.y - self.start.y))
    }

    pub fn sound(&self, s: &Settings, at: Point) -> bool {
        if !s.inside(self.start) || !s.inside(self.end) {
            return false;
        }
        let (a, b, q) = (self.end.x - self.start.x, self.end.y - self.start.y, self.cycles);
        let sum = a * a + b * b;
        if !(1..=MOST_CYCLES).contains(&q) || sum <= (q - 1) * (q - 1) || sum > q * q || !(0..q).contains(&self.done) {
            return false;
        }
        let (x, y) = self.registers(at);
        (0..q).contains(&x) && (0..q).contains(&y)
    }

    pub fn step(&self, at: Point) -> u8 {
        let (a, b) = (self.end.x - self.start.x, self.end.y - self.start.y);
        let (x, y) = self.registers(at);
        crate::Line {
            q: self.cycles as u64,
            a: a.unsigned_abs(),
            b: b.unsigned_abs(),
            register_x: x as u64,
            register_y: y as u64,
            done: self.done as u64,
            code_x: if a < 0 { 2 } else { 1 },
            code_y: if b < 0 { 8 } else { 4 },
        }
        .cycle()
    }
}

impl Arc {
    /// Seen from the centre; clockwise is counterclockwise in the mirror of the X axis.
    fn seen(&self, p: Point) -> Point {
        let y = p.y - self.centre.y;
        Point { x: p.x - self.centre.x, y: if self.clockwise { -y } else { y } }
    }

    /// -m <= F < m
    pub fn has(&self, p: Point) -> bool {
        let Point { x, y } = self.seen(p);
        let (larger, f) = (x.abs().max(y.abs()), x * x + y * y - self.square);
        -larger <= f && f < larger
    }

    pub fn place(&self, at: Point) -> crate::Arc {
        let Point { x, y } = self.seen(at);
        let (quadrant, along, across) = match (x, y) {
            (1.., 0..) => (0, x, y),
            (..=0, 1..) => (1, y, -x),
            (..=-1, _) => (2, -x, -y),
            _ => (3, -y, x),
        };
        crate::Arc { along, across, excess: x * x + y * y - self.square, left: 0, quadrant, clockwise: u64::from(self.clockwise) }
    }

    /// Question 16 without walking there: of the axes that the way passes, each circle point is in travel.
    pub fn stays(&self, s: &Settings, at: Point) -> bool {
        let (from, to) = (self.place(at), self.place(self.end));
        let (up, down) = (s.y.upper - self.centre.y, self.centre.y - s.y.lower);
        let (up, down) = if self.clockwise { (down, up) } else { (up, down) };
        let room = [s.x.upper - self.centre.x, up, self.centre.x - s.x.lower, down];
        let passed = match (to.quadrant + 4 - from.quadrant) & 3 {
            0 if to.across - to.along <= from.across - from.along => 4,
            other => other,
        };
        (1..=passed).all(|k| {
            let r = room[(from.quadrant + k) as usize & 3];
            r >= 0 && self.square <= r * r + r
        })
    }

    /// A place's number on the way round: each quadrant has `quarter` points, the first half counted by across, the second by along.
    fn rank(&self, quarter: i64, p: Point) -> i64 {
        let place = self.place(p);
        place.quadrant as i64 * quarter + if place.across <= place.along { place.across } else { quarter - place.along }
    }

    /// The cycles from here to the end where a quarter turn has so many; a whole turn where the arc is already there.
    pub fn cycles(&self, at: Point, quarter: i64) -> i64 {
        match self.rank(quarter, self.end) - self.rank(quarter, at) {
            n @ 1.. => n,
            n => n + 4 * quarter,
        }
    }

    pub fn sound(&self, s: &Settings, at: Point) -> bool {
        let centres = Range { lower: -FARTHEST_CENTRE, upper: FARTHEST_CENTRE };
        centres.has(self.centre.x)
            && centres.has(self.centre.y)
            && (1..=LARGEST_SQUARE).contains(&self.square)
            && s.inside(self.end)
            && self.has(at)
            && self.has(self.end)
            && self.stays(s, at)
    }
}
