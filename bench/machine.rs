//! The machine in plain Rust: the test of the record (01, "sound", and 02 §3), tick, load and stop, in place.
use crate::path::{Arc, Line, Point, Range, Settings, TRAVEL};
use crate::{rust_root, Block as _, DIAGONAL, PER_FEED, STRAIGHT};

#[derive(Clone, Copy)]
pub enum Work {
    Nothing,
    Line(Line),
    Arc(Arc),
}

#[derive(Clone, Copy)]
pub struct Machine {
    pub settings: Settings,
    pub at: Point,
    pub held: bool,
    pub remainder: i64,
    pub work: Work,
}

/// A block as a load is given it: kind 1 a line, 2 an arc clockwise, 3 counterclockwise.
#[repr(C)]
#[derive(Clone, Copy)]
pub struct Block {
    pub kind: i64,
    pub x: i64,
    pub y: i64,
    pub feed: i64,
    pub i: i64,
    pub j: i64,
}

/// A block that waits, with its root: of a line its cycles, of an arc those of a quarter turn.
#[repr(C)]
#[derive(Clone, Copy)]
pub struct Waiting {
    pub block: Block,
    pub root: i64,
}

pub const QUEUE: usize = 16;

/// Words 19 on of a record: the root of the block in work, the cycles still to do, how many blocks wait, and these.
#[repr(C)]
pub struct Queue {
    pub root: i64,
    pub left: i64,
    pub waiting: i64,
    pub first: [Waiting; QUEUE],
}

fn root(v: i64) -> i64 {
    rust_root(v as u64) as i64
}

/// The root of a whole number never lies halfway.
fn nearest_root(n: i64) -> i64 {
    ((n as f64).sqrt() + 0.5) as i64
}

fn width(v: i64) -> i64 {
    64 - i64::from(v.leading_zeros())
}

fn square_of(a: i64, b: i64) -> i64 {
    a * a + b * b
}

const MOST_ROOT: i64 = 4_000_000;

fn is_least_root(n: i64, r: i64) -> bool {
    (1..=MOST_ROOT).contains(&r) && (r - 1) * (r - 1) < n && n <= r * r
}

fn is_nearest_root(n: i64, r: i64) -> bool {
    (1..=MOST_ROOT).contains(&r) && r * r - r < n && n <= r * r + r
}

impl Block {
    fn end(&self) -> Point {
        Point { x: self.x, y: self.y }
    }

    fn arc(&self, start: Point) -> Arc {
        let (centre, square) = (Point { x: start.x + self.i, y: start.y + self.j }, square_of(self.i, self.j));
        Arc { centre, square, clockwise: self.kind == 2, end: self.end(), feed: self.feed }
    }

    /// Minus the first question from 11 to 16 that says no, or 0.
    fn no(&self, s: &Settings, start: Point) -> i64 {
        if !(1..=s.capacity()).contains(&self.feed) {
            return -11;
        }
        if !s.inside(self.end()) {
            return -12;
        }
        if self.kind == 1 {
            return if start == self.end() { -13 } else { 0 };
        }
        let offsets = Range { lower: -TRAVEL, upper: TRAVEL };
        if !offsets.has(self.i) || !offsets.has(self.j) || (self.i == 0 && self.j == 0) {
            return -14;
        }
        let a = self.arc(start);
        if !a.has(a.end) {
            return -15;
        }
        if a.stays(s, start) {
            0
        } else {
            -16
        }
    }

    /// The number whose root it is: rounded up of a line, to the nearest of an arc.
    fn rooted(&self, start: Point) -> i64 {
        if self.kind == 1 {
            square_of(self.x - start.x, self.y - start.y)
        } else {
            2 * square_of(self.i, self.j)
        }
    }

    fn cycles(&self, start: Point, root: i64) -> i64 {
        if self.kind == 1 {
            root
        } else {
            self.arc(start).cycles(start, root)
        }
    }

    /// The register width that a load answers, and the root.
    fn measure(&self, start: Point) -> (i64, i64) {
        if self.kind == 1 {
            let (x, y) = (self.x - start.x, self.y - start.y);
            (width(x.abs().max(y.abs())), root(self.rooted(start)))
        } else {
            (width(nearest_root(square_of(self.i, self.j))), nearest_root(self.rooted(start)))
        }
    }

    fn begin(&self, start: Point, root: i64) -> Work {
        if self.kind == 1 {
            Work::Line(Line { start, end: self.end(), feed: self.feed, cycles: root, done: 0 })
        } else {
            Work::Arc(self.arc(start))
        }
    }
}

impl Waiting {
    fn sound(&self, s: &Settings, start: Point) -> bool {
        let b = &self.block;
        match b.kind {
            1 => b.i == 0 && b.j == 0 && b.no(s, start) == 0 && is_least_root(b.rooted(start), self.root),
            2 | 3 => b.no(s, start) == 0 && is_nearest_root(b.rooted(start), self.root),
            _ => false,
        }
    }
}

impl Work {
    fn root_right(&self, root: i64) -> bool {
        match self {
            Work::Nothing => root == 0,
            Work::Line(l) => root == l.cycles,
            Work::Arc(a) => is_nearest_root(2 * a.square, root),
        }
    }

    fn cycles_left(&self, at: Point, root: i64) -> i64 {
        match self {
            Work::Nothing => 0,
            Work::Line(l) => l.cycles - l.done,
            Work::Arc(a) => a.cycles(at, root),
        }
    }

    fn end(&self, at: Point) -> Point {
        match self {
            Work::Nothing => at,
            Work::Line(l) => l.end,
            Work::Arc(a) => a.end,
        }
    }
}

impl Machine {
    fn work_sound(&self) -> bool {
        let s = &self.settings;
        if !s.right() || !s.inside(self.at) || !(0..DIAGONAL as i64 * s.capacity()).contains(&self.remainder) {
            return false;
        }
        let feeds = 1..=s.capacity();
        match &self.work {
            Work::Nothing => true,
            Work::Line(l) => feeds.contains(&l.feed) && l.sound(s, self.at),
            Work::Arc(a) => feeds.contains(&a.feed) && a.sound(s, self.at),
        }
    }

    /// Each block that waits would be taken where the one before it ends, and the cycles of all are those still to do.
    fn queue_sound(&self, q: &Queue) -> bool {
        let most = if matches!(self.work, Work::Nothing) { 0 } else { QUEUE as i64 };
        if q.left < 0 || !(0..=most).contains(&q.waiting) || !self.work.root_right(q.root) {
            return false;
        }
        let (mut start, mut left) = (self.work.end(self.at), q.left - self.work.cycles_left(self.at, q.root));
        for w in &q.first[..q.waiting as usize] {
            if !w.sound(&self.settings, start) {
                return false;
            }
            left -= w.block.cycles(start, w.root);
            start = w.block.end();
        }
        left == 0
    }

    fn sound(&self, q: &Queue) -> bool {
        self.work_sound() && self.queue_sound(q)
    }

    /// One working tick: the byte.
    fn work_tick(&mut self, feed: i64) -> u8 {
        let straight = STRAIGHT as i64 * self.settings.capacity();
        self.remainder += PER_FEED as i64 * feed;
        if self.remainder < straight {
            return 0;
        }
        let mut byte = match &mut self.work {
            Work::Nothing => 0,
            Work::Line(l) => {
                let byte = l.step(self.at);
                l.done += 1;
                self.remainder -= straight;
                byte
            }
            Work::Arc(a) => {
                let mut place = a.place(self.at);
                let due = place.due(straight as u64) as i64;
                if self.remainder < due {
                    return 0;
                }
                self.remainder -= due;
                place.cycle()
            }
        };
        self.at.x += i64::from(byte & 1) - i64::from(byte >> 1 & 1);
        self.at.y += i64::from(byte >> 2 & 1) - i64::from(byte >> 3 & 1);
        if matches!(&self.work, Work::Arc(a) if a.end == self.at) {
            byte |= crate::LAST;
        }
        byte
    }

    /// The first block that waits comes into work, and the others move up.
    fn bring_in(&mut self, q: &mut Queue) {
        self.work = Work::Nothing;
        q.root = 0;
        if q.waiting == 0 {
            return;
        }
        let Waiting { block, root } = q.first[0];
        self.work = block.begin(self.at, root);
        q.root = root;
        q.first.copy_within(1..q.waiting as usize, 0);
        q.waiting -= 1;
    }

    pub fn tick(&mut self, q: &mut Queue) -> i64 {
        if !self.sound(q) {
            return -9;
        }
        if self.held {
            return 0;
        }
        let byte = match self.work {
            Work::Nothing => 0,
            Work::Line(l) => self.work_tick(l.feed),
            Work::Arc(a) => self.work_tick(a.feed),
        };
        if byte & crate::CYCLE != 0 {
            q.left -= 1;
        }
        if byte & crate::LAST != 0 {
            self.bring_in(q);
        }
        i64::from(byte)
    }

    /// The end of the last block that waits, else of the one in work, else the point.
    fn start(&self, q: &Queue) -> Point {
        match q.waiting {
            0 => self.work.end(self.at),
            n => q.first[n as usize - 1].block.end(),
        }
    }

    pub fn load(&mut self, q: &mut Queue, b: &Block) -> i64 {
        if !self.sound(q) {
            return -9;
        }
        if q.waiting == QUEUE as i64 {
            return -10;
        }
        let start = self.start(q);
        let no = b.no(&self.settings, start);
        if no != 0 {
            return no;
        }
        let (bits, root) = b.measure(start);
        q.left += b.cycles(start, root);
        if matches!(self.work, Work::Nothing) {
            self.work = b.begin(start, root);
            q.root = root;
        } else {
            q.first[q.waiting as usize] = Waiting { block: *b, root };
            q.waiting += 1;
        }
        bits
    }

    pub fn stop(&mut self, q: &mut Queue) -> i64 {
        if !self.sound(q) {
            return -9;
        }
        self.work = Work::Nothing;
        self.remainder = 0;
        (q.root, q.left, q.waiting) = (0, 0, 0);
        0
    }
}
