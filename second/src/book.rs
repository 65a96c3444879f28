//! "The book of a history", with load's questions 10 to 16, the charges of 02 §2, the waiting blocks of 02 §3 and the feeds of 02 §4: "A
//! rule changed later changes in the book too." Question 9 is in machine.rs.

use std::collections::VecDeque;

use crate::arc::{self, Circle, Kind, Walker};
use crate::charge;
use crate::line;
use crate::point::{Point, ORIGIN};
use crate::settings::{Settings, FEED_UNIT, USUAL};

/// "A load is given the kind, the end in absolute pulses, f and, for an arc, I and J."
#[derive(Clone, Copy, PartialEq, Eq, Debug)]
pub enum Load {
    Line { end: Point, f: u64 },
    Arc { kind: Kind, end: Point, f: u64, i: i64, j: i64 },
}

impl Load {
    pub fn end(&self) -> Point {
        match *self {
            Load::Line { end, .. } | Load::Arc { end, .. } => end,
        }
    }

    pub fn feed(&self) -> u64 {
        match *self {
            Load::Line { f, .. } | Load::Arc { f, .. } => f,
        }
    }
}

#[derive(Clone, Copy, PartialEq, Eq, Debug)]
pub enum Path {
    Line,
    Arc { kind: Kind, centre: Point, n: i64 },
}

/// "the block in work with its start and its cycles done c"; k is all its cycles, "q for a line,
/// the number of visited points for an arc". Of both the charges: C, "the sum of its charges", and that of the cycles done.
#[derive(Clone, Copy, PartialEq, Eq, Debug)]
pub struct Block {
    pub path: Path,
    pub start: Point,
    pub end: Point,
    pub f: u64,
    pub k: u64,
    pub c: u64,
    pub charges: u64,
    pub charged: u64,
}

impl Block {
    pub fn width(&self) -> u32 {
        match self.path {
            Path::Line => line::width(self.start, self.end),
            Path::Arc { n, .. } => arc::width(n),
        }
    }

    /// The load that gave this block.
    pub fn given(&self) -> Load {
        let Block { path, start, end, f, .. } = *self;
        match path {
            Path::Line => Load::Line { end, f },
            Path::Arc { kind, centre, .. } => {
                let Point { x: i, y: j } = centre.seen_from(start);
                Load::Arc { kind, end, f, i, j }
            }
        }
    }

    /// Its cycles still to do.
    pub fn left(&self) -> u64 {
        self.k - self.c
    }

    /// A line not begun: "Line cycles are charged 1,000."
    pub fn line(start: Point, end: Point, f: u64) -> Block {
        let k = line::cycles(start, end);
        Block { path: Path::Line, start, end, f, k, c: 0, charges: charge::LINE_CYCLE * k, charged: 0 }
    }

    /// "the point becomes the one of "Lines" or "Arcs" after c cycles": the one of the cycle about to be done. On an arc it is the
    /// point next to the one where the machine stands.
    fn next_point(&self, stands: Point) -> Point {
        match self.path {
            Path::Line => line::point_after(self.start, self.end, self.k, self.c + 1),
            Path::Arc { kind, centre, n } => {
                let next = Circle::of(n).next(kind, stands.seen_from(centre));
                next.map_or(stands, |next| next.moved_by(centre))
            }
        }
    }

    /// What the step between these points is charged.
    fn charge_of(&self, from: Point, to: Point) -> u64 {
        match self.path {
            Path::Line => charge::LINE_CYCLE,
            Path::Arc { .. } => charge::of_arc_step(from, to),
        }
    }
}

#[derive(Clone, Copy, PartialEq, Eq, Debug)]
pub enum Why {
    Idle,
    Held,
    Ended,
    Spent,
    Full,
}

/// "It holds a point, a mark, a remainder and the block in work with its start and its cycles
/// done c."
#[derive(Clone, Debug)]
pub struct Book {
    pub settings: Settings,
    /// How many feed numbers are a pulse per minute: FEED_UNIT, but where units.rs tries 1, as it was before 02 §4.
    pub unit: u64,
    pub point: Point,
    pub held: bool,
    pub remainder: u64,
    pub block: Option<Block>,
    /// "first come first cut"
    pub waiting: VecDeque<Block>,
    /// "The record keeps the cycles still to do over the block in work and all waiting": a load adds those of its block, a cycle takes
    /// one off. That this is the count made afresh is tried in demand3.rs.
    pub left: u64,
    walker: Walker,
}

/// "The machine shall hold up to 16 blocks after the one in work"
pub const MOST_WAITING: usize = 16;

/// "32 if the block ended"
const END: u8 = 32;

/// No question of the paper has this number. It would come out if the order of the circle
/// points had a gap, so that a comparison shows it.
const GAP_IN_THE_ORDER: u32 = 0;

impl Book {
    /// "A fresh machine stands at (0, 0), idle, not held, remainder 0."
    fn fresh(settings: Settings) -> Book {
        Book::opened(settings, ORIGIN, false, 0, None)
    }

    /// "A refused make answers the number and the fresh machine with p 50, w 5,000 and the
    /// widest travel."
    pub fn make(settings: Settings) -> (Book, Option<u32>) {
        match settings.refusal() {
            None => (Book::fresh(settings), None),
            Some(number) => (Book::fresh(USUAL), Some(number)),
        }
    }

    /// A book opened in the middle, for a sound made-up record whose waiting blocks are then loaded. The cycles and charges of an arc are
    /// counted from where it stands.
    pub fn opened(settings: Settings, point: Point, held: bool, remainder: u64, block: Option<Block>) -> Book {
        let left = block.map_or(0, |block| block.left());
        Book { settings, unit: FEED_UNIT, point, held, remainder, block, waiting: VecDeque::new(), left, walker: Walker::default() }
    }

    fn q0(&self) -> u64 {
        self.settings.q0_in(self.unit)
    }

    /// "The block's feed number f is pulses per minute: millimetres per minute times p", and by 02 §4 "thousandths of a pulse per
    /// minute": of an F in thousandths exact. At unit 1 it is asked of whole F alone.
    pub fn feed_number(&self, thousandths: u64) -> u64 {
        thousandths.saturating_mul(self.settings.p) / (1_000 / self.unit)
    }

    /// "The other load questions, and what a text line leaves out, start from the end of the last waiting block, else of the block in
    /// work, else from the point"
    pub fn place(&self) -> Point {
        let last = self.waiting.back().or(self.block.as_ref());
        last.map_or(self.point, |last| last.end)
    }

    /// "Load: the first no among 10 to 16, put to the book, is the answer and nothing changes.
    /// Else the block comes into work with c 0, and the answer is its register width." Behind a block in work it waits.
    pub fn load(&mut self, load: &Load) -> Result<u32, u32> {
        let block = self.asked(load)?;
        self.left += block.k;
        match self.block {
            None => self.block = Some(block),
            Some(_) => self.waiting.push_back(block),
        }
        Ok(block.width())
    }

    fn asked(&mut self, load: &Load) -> Result<Block, u32> {
        // 02 §3: "Question 10 becomes: are fewer than 16 waiting?" None waits where nothing is in work.
        if self.block.is_some() && self.waiting.len() >= MOST_WAITING {
            return Err(10);
        }
        // "Is f in 1..q0? 11."
        if !(1..=self.q0()).contains(&load.feed()) {
            return Err(11);
        }
        // "Is the end in travel? 12."
        if !self.settings.in_travel(load.end()) {
            return Err(12);
        }
        match *load {
            Load::Line { end, f } => self.asked_line(end, f),
            Load::Arc { kind, end, f, i, j } => self.asked_arc(kind, end, f, i, j),
        }
    }

    fn asked_line(&self, end: Point, f: u64) -> Result<Block, u32> {
        // "Line: do start and end differ? 13."
        let start = self.place();
        if start == end {
            return Err(13);
        }
        Ok(Block::line(start, end, f))
    }

    fn asked_arc(&mut self, kind: Kind, end: Point, f: u64, i: i64, j: i64) -> Result<Block, u32> {
        // "Arc: are I and J within ±1,000,000 and not both 0? 14."
        let within = |v: i64| (-1_000_000..=1_000_000).contains(&v);
        if !(within(i) && within(j)) || (i == 0 && j == 0) {
            return Err(14);
        }
        // "(I, J) is the centre seen from the start; N = I² + J²."
        let start = self.place();
        let centre = start.moved_by(Point::new(i, j));
        let n = i * i + j * j;
        // "Is the end a circle point? 15."
        if !arc::is_circle_point(n, end.seen_from(centre)) {
            return Err(15);
        }
        // "Is every visited point in travel? 16." Travel is a box, so it holds all visited points
        // if it holds both corners of their box.
        let walked = self.walker.walk(n, kind, start.seen_from(centre), end.seen_from(centre)).ok_or(GAP_IN_THE_ORDER)?;
        let (lowest, highest) = (walked.lowest.moved_by(centre), walked.highest.moved_by(centre));
        if !(self.settings.in_travel(lowest) && self.settings.in_travel(highest)) {
            return Err(16);
        }
        let path = Path::Arc { kind, centre, n };
        Ok(Block { path, start, end, f, k: walked.cycles, c: 0, charges: walked.charges, charged: 0 })
    }

    /// "Hold sets the mark, release takes it off."
    pub fn hold(&mut self) {
        self.held = true;
    }

    pub fn release(&mut self) {
        self.held = false;
    }

    /// "Stop drops the block and makes the remainder 0." "Stop empties the queue".
    pub fn stop(&mut self) {
        self.block = None;
        self.waiting.clear();
        self.left = 0;
        self.remainder = 0;
    }

    /// "Tick: with a block and no mark it is a working tick. ... Any other tick gives 0 and changes
    /// nothing."
    pub fn tick(&mut self) -> u8 {
        let q0 = self.q0();
        let Some(block) = self.block.as_mut().filter(|_| !self.held) else {
            return 0;
        };
        // "A tick adds 1,000 × f." No step is charged less than a straight one, so below that the next point need not be looked for.
        self.remainder += charge::PAID_PER_FEED * block.f;
        if self.remainder < charge::STRAIGHT * q0 {
            return 0;
        }
        // "A cycle is due when the remainder reaches its charge times q0, at most one a tick."
        let stood = self.point;
        let next = block.next_point(stood);
        let charge = block.charge_of(stood, next);
        if self.remainder < charge * q0 {
            return 0;
        }
        self.remainder -= charge * q0;
        block.charged += charge;
        block.c += 1;
        let ended = block.c == block.k;
        self.left -= 1;
        self.point = next;
        // "At c = k the block has ended". "When a block ends, the first waiting one becomes the one in work".
        if ended {
            self.block = self.waiting.pop_front();
        }
        // "X code + 4 × Y code + 16 if a cycle was done + 32 if the block ended"
        code(stood.x, self.point.x) + 4 * code(stood.y, self.point.y) + 16 + if ended { END } else { 0 }
    }

    /// "Run: ticks until the budget or the buffer is used up or the block ends, none if idle or
    /// held. It answers their number and the report, and its tick bytes are theirs." "and a run still stops there": at the end of the
    /// block that was in work, though another is in work then.
    pub fn run(&mut self, budget: u64, length: u64, mut write: impl FnMut(u8)) -> (Why, u64) {
        // "It answers idle or held (idle first) with 0 ticks"
        if self.block.is_none() {
            return (Why::Idle, 0);
        }
        if self.held {
            return (Why::Held, 0);
        }
        let (mut ticks, mut ended) = (0, false);
        while ticks < budget && ticks < length && !ended {
            let byte = self.tick();
            write(byte);
            ticks += 1;
            ended = byte & END != 0;
        }
        // "else ended, spent or full, the first that is true"
        if ended {
            (Why::Ended, ticks)
        } else if ticks == budget {
            (Why::Spent, ticks)
        } else {
            (Why::Full, ticks)
        }
    }

    /// "A block ends on the tick that stepping by this rule gives; in a history that is its working tick
    /// ⌈(C × q0 - r) / (1,000 × f)⌉, C being the sum of its charges." In the middle of a block C is what is left of it. A made-up
    /// record may have so great a remainder that one cycle a tick is later: from then on every tick does one.
    pub fn ticks_to_the_end(&self) -> u128 {
        let Some(block) = self.block else { return 0 };
        let due = u128::from(block.charges - block.charged) * u128::from(self.q0());
        let by_feed = due.saturating_sub(self.remainder.into()).div_ceil(u128::from(charge::PAID_PER_FEED * block.f.max(1)));
        by_feed.max(u128::from(block.left()))
    }

    /// Does all working ticks to the block's end at once and answers their number; the first waiting block is then the one in work.
    pub fn finish_at_once(&mut self) -> u128 {
        let ticks = self.ticks_to_the_end();
        if let Some(block) = self.block.take() {
            let fed = u128::from(self.remainder) + ticks * u128::from(charge::PAID_PER_FEED * block.f);
            let taken = u128::from(block.charges - block.charged) * u128::from(self.q0());
            self.remainder = u64::try_from(fed - taken).unwrap_or(u64::MAX);
            self.point = block.end;
            self.left -= block.left();
            self.block = self.waiting.pop_front();
        }
        ticks
    }
}

/// "code 0 none, 1 plus, 2 minus"
fn code(from: i64, to: i64) -> u8 {
    match to.cmp(&from) {
        std::cmp::Ordering::Equal => 0,
        std::cmp::Ordering::Greater => 1,
        std::cmp::Ordering::Less => 2,
    }
}

#[cfg(test)]
mod tests {
    use super::*;

    fn usual() -> Book {
        Book::make(USUAL).0
    }

    fn line(x: i64, y: i64, f: u64) -> Load {
        Load::Line { end: Point::new(x, y), f }
    }

    fn arc(kind: u64, x: i64, y: i64, f: u64, i: i64, j: i64) -> Load {
        Load::Arc { kind: Kind::of_number(kind).unwrap(), end: Point::new(x, y), f, i, j }
    }

    fn bytes(book: &mut Book) -> Vec<u8> {
        let mut all = Vec::new();
        book.run(1_000_000, 1_000_000, |byte| all.push(byte));
        all
    }

    #[test]
    fn make_asks_1_to_3_in_order() {
        let bad = Settings { p: 0, w: 0, x_lower: 1, ..USUAL };
        assert_eq!(bad.refusal(), Some(1));
        assert_eq!(Settings { p: 1000, ..bad }.refusal(), Some(2));
        assert_eq!(Settings { p: 1, w: 1000, ..bad }.refusal(), Some(3));
        assert_eq!(Settings { p: 1001, ..USUAL }.refusal(), Some(1));
        assert_eq!(Settings { w: 20_001, ..USUAL }.refusal(), Some(2));
        assert_eq!(Settings { y_upper: 1_000_001, ..USUAL }.refusal(), Some(3));
        assert_eq!(Settings { y_upper: -1, ..USUAL }.refusal(), Some(3));
        let (book, number) = Book::make(bad);
        assert_eq!((book.settings, number), (USUAL, Some(1)));
    }

    #[test]
    fn load_asks_10_to_16_in_order() {
        let mut book = usual();
        assert_eq!(book.load(&line(0, 0, 0)), Err(11));
        assert_eq!(book.load(&line(0, 1_000_001, 300_000_001)), Err(11));
        assert_eq!(book.load(&line(0, 1_000_001, 300_000_000)), Err(12));
        assert_eq!(book.load(&line(0, 0, 1)), Err(13));
        assert_eq!(book.load(&arc(2, i64::MAX, i64::MIN, 1, 0, 0)), Err(12));
        assert_eq!(book.load(&arc(2, 0, 0, 1, 0, 0)), Err(14));
        assert_eq!(book.load(&arc(2, 0, 0, 1, i64::MIN, 1)), Err(14));
        assert_eq!(book.load(&arc(2, 0, 0, 1, 1_000_001, 1)), Err(14));
        // "N 2: end (0, 1) has F -1, accepted; (0, 2) has F 2, gives 15", centre (1, 1).
        assert_eq!(book.load(&arc(3, 1, 3, 1, 1, 1)), Err(15));
        assert_eq!(book.clone().load(&arc(3, 1, 2, 1, 1, 1)), Ok(1));
    }

    /// "are fewer than 16 waiting?": 17 blocks in all, and then 10 whatever else is wrong. A block that ends makes room.
    #[test]
    fn sixteen_wait() {
        let mut book = usual();
        book.hold();
        for x in 1..=17 {
            assert_eq!(book.load(&line(x, 0, 300_000_000)), Ok(1));
            assert_eq!((book.waiting.len() as i64, book.left as i64, book.place()), (x - 1, x, Point::new(x, 0)));
        }
        for load in [line(18, 0, 300_000_000), line(0, 0, 0), line(17, 0, 1), line(1_000_001, 0, 1), arc(2, 0, 0, 0, 0, 0)] {
            assert_eq!(book.load(&load), Err(10));
        }
        book.release();
        assert_eq!((book.tick(), book.waiting.len(), book.left), (49, 15, 16));
        assert_eq!(book.load(&line(17, 0, 300_000_000)), Err(13));
        assert_eq!(book.load(&line(0, 0, 300_000_000)), Ok(5));
        assert_eq!((book.waiting.len(), book.left), (16, 33));
        assert_eq!(book.load(&line(1, 0, 300_000_000)), Err(10));
        // "first come first cut"
        for x in 2..=17 {
            assert_eq!((book.tick(), book.point), (49, Point::new(x, 0)));
        }
        assert_eq!((book.waiting.len(), book.left), (0, 17));
    }

    /// "The other load questions .. start from the end of the last waiting block, else of the block in work, else from the point".
    #[test]
    fn where_a_waiting_block_starts() {
        let mut book = Book::make(Settings { x_upper: 13, ..USUAL }).0;
        book.load(&line(3, 4, 300_000_000)).unwrap();
        book.tick();
        assert_eq!((book.point, book.place()), (Point::new(1, 1), Point::new(3, 4)));
        assert_eq!(book.load(&line(3, 4, 1)), Err(13));
        // Half a turn about (8, 4), seen from (3, 4); from the point it would be no circle point.
        assert_eq!(book.clone().load(&arc(3, 13, 4, 1, 5, 0)), Ok(3));
        assert_eq!(book.load(&arc(3, 11, 1, 1, 5, 0)), Err(15));
        assert_eq!(book.load(&arc(3, 4, 4, 1, 0, 10)), Ok(4));
        assert_eq!(book.clone().load(&arc(3, 4, 4, 1, 0, 9)), Ok(4), "as far as X 13");
        assert_eq!(book.load(&arc(3, 4, 4, 1, 0, 10)), Err(16), "as far as X 14");
        // Back to the point: 3 by 3 pulses.
        assert_eq!(book.load(&line(1, 1, 1)), Ok(2));
        assert_eq!(book.load(&line(1, 1, 1)), Err(13));
        let waiting: Vec<Load> = book.waiting.iter().map(Block::given).collect();
        assert_eq!(waiting, [arc(3, 4, 4, 1, 0, 10), line(1, 1, 1)]);
    }

    /// "When a block ends, the first waiting one becomes the one in work, and a run still stops there. Its end tick counts from there, with
    /// the remainder then": two thirds of q0 a tick, the second block with one third at its start.
    #[test]
    fn runs_over_ends() {
        let mut book = usual();
        for x in 1..=2 {
            book.load(&line(x, 0, 200_000_000)).unwrap();
        }
        book.load(&line(2, 1, 1)).unwrap();
        assert_eq!(book.ticks_to_the_end(), 2);
        assert_eq!(book.run(9, 9, |_| ()), (Why::Ended, 2));
        assert_eq!((book.point, book.remainder, book.left), (Point::new(1, 0), 100_000_000_000, 2));
        assert_eq!(book.ticks_to_the_end(), 1);
        assert_eq!(book.run(1, 1, |_| ()), (Why::Ended, 1));
        assert_eq!((book.point, book.remainder, book.left), (Point::new(2, 0), 0, 1));
        assert_eq!(book.run(3, 9, |_| ()), (Why::Spent, 3));
        assert_eq!(book.run(9, 3, |_| ()), (Why::Full, 3));
        book.hold();
        assert_eq!(book.run(9, 3, |_| ()), (Why::Held, 0));
        assert_eq!((book.remainder, book.left), (6_000, 1));
    }

    /// "at most one a tick" where a block waits too: the tick that ends one does nothing for the next, though its cycle could be paid.
    #[test]
    fn one_cycle_a_tick_into_a_waiting_block() {
        let mut book = Book { remainder: 1_400 * 300_000_000, ..usual() };
        for x in 1..=3 {
            book.load(&line(x, 0, 300_000_000)).unwrap();
        }
        for x in 1..=3 {
            assert_eq!((book.tick(), book.point, book.remainder), (49, Point::new(x, 0), 1_400 * 300_000_000));
        }
        assert_eq!((book.tick(), book.left), (0, 0));
    }

    /// "Stop empties the queue": the mark and the point stay.
    #[test]
    fn stop_with_blocks_waiting() {
        let mut book = usual();
        for x in [3, 0, 3] {
            book.load(&line(x, 0, 200_000_000)).unwrap();
        }
        book.run(3, 3, |_| ());
        book.hold();
        assert_eq!((book.point, book.left, book.waiting.len()), (Point::new(2, 0), 7, 2));
        book.stop();
        assert_eq!((book.point, book.held, book.remainder, book.left), (Point::new(2, 0), true, 0, 0));
        assert!(book.block.is_none() && book.waiting.is_empty());
        assert_eq!(book.load(&line(2, 0, 1)), Err(13));
    }

    /// "From (0, 0), I 0, J 5, kind 3, to (0, 10): upper X bound 5 accepted, 14 cycles; bound 4
    /// gives 16."
    #[test]
    fn travel_is_tried_at_every_visited_point() {
        let half = arc(3, 0, 10, 300_000_000, 0, 5);
        let mut book = Book::make(Settings { x_upper: 5, ..USUAL }).0;
        assert_eq!(book.load(&half), Ok(3));
        assert_eq!(bytes(&mut book).into_iter().filter(|byte| byte & 16 != 0).count(), 14);
        assert_eq!(book.point, Point::new(0, 10));
        assert_eq!(Book::make(Settings { x_upper: 4, ..USUAL }).0.load(&half), Err(16));
    }

    /// "f equal to q0 accepted; q0 + 1 gives 11."
    #[test]
    fn f_up_to_q0() {
        assert_eq!(usual().load(&line(1, 0, 300_000_000)), Ok(1));
        assert_eq!(usual().load(&line(1, 0, 300_000_001)), Err(11));
    }

    /// "q0 300,000, r 0, k 1: f 150,000 ends on tick 2, 149,999 on tick 3." 02 §4: "In 01's worked tick case q0 and f count a
    /// thousandfold."
    #[test]
    fn the_last_tick() {
        assert_eq!(USUAL.q0(), 300_000_000);
        let worked = [(150_000_000, 2), (149_999_000, 3), (149_999_999, 3)];
        for (f, expected) in worked.into_iter().chain([(300_000_000, 1), (299_999_999, 2), (1_000, 300_000), (999, 300_301)]) {
            let mut book = usual();
            assert_eq!(book.load(&line(0, -1, f)), Ok(1));
            assert_eq!(book.ticks_to_the_end(), expected);
            let sent = bytes(&mut book);
            assert_eq!(sent.len() as u128, expected);
            assert_eq!(sent.last(), Some(&(8 + 16 + 32)));
        }
    }

    /// "Thin foil needs 0.75 mm per minute": 37,500 thousandths of a pulse, so that a pulse comes every 8,000 ticks. F0.001 is 50, and
    /// its pulse comes after 6,000,000 ticks.
    #[test]
    fn slow_feeds() {
        let mut book = usual();
        assert_eq!((book.feed_number(750), book.feed_number(1), book.feed_number(9_999_999_999)), (37_500, 50, 499_999_999_950));
        book.load(&line(2, 0, book.feed_number(750))).unwrap();
        assert_eq!(book.ticks_to_the_end(), 16_000);
        let cycles: Vec<usize> = bytes(&mut book).iter().enumerate().filter(|(_, byte)| **byte != 0).map(|(at, _)| at + 1).collect();
        assert_eq!((cycles, book.remainder), (vec![8_000, 16_000], 0));
        book.load(&line(3, 0, book.feed_number(1))).unwrap();
        assert_eq!(book.finish_at_once(), 6_000_000);
        assert_eq!((book.point, book.remainder), (Point::new(3, 0), 0));
    }

    /// A feed number that is no multiple of 1,000 leaves such remainders, to the last thousandth: 3 pulses at 299,999,999 end on tick 4.
    #[test]
    fn remainders_of_thousandths() {
        let mut book = usual();
        book.load(&line(3, 0, 299_999_999)).unwrap();
        let after: Vec<(u8, u64)> = (0..4).map(|_| (book.tick(), book.remainder)).collect();
        assert_eq!(after, [(0, 299_999_999_000), (17, 299_999_998_000), (17, 299_999_997_000), (49, 299_999_996_000)]);
        // Made up: with 1 more than a line of 1 thousandth needs, and with 1 less.
        for (remainder, byte, left) in [(299_999_999_001, 49, 1), (299_999_999_000, 49, 0), (299_999_998_999, 0, 299_999_999_999)] {
            let mut book = Book { remainder, ..usual() };
            book.load(&line(1, 0, 1)).unwrap();
            assert_eq!((book.tick(), book.remainder), (byte, left));
        }
    }

    /// The greatest sums and products: a full turn as great as the travel at the slowest feed of the fastest clock.
    #[test]
    fn the_longest_block() {
        let mut book = Book::make(Settings { p: 1, w: 20_000, ..USUAL }).0;
        book.load(&line(-1_000_000, 0, 1_200_000_000)).unwrap();
        book.finish_at_once();
        book.load(&arc(2, -1_000_000, 0, 1, 1_000_000, 0)).unwrap();
        let charges = book.block.unwrap().charges;
        assert!(charges > 6_600_000_000 && u128::from(charges) * 1_200_000_000 > 1 << 62);
        assert_eq!(book.finish_at_once(), u128::from(charges) * 1_200_000);
        assert_eq!((book.point, book.remainder), (Point::new(-1_000_000, 0), 0));
    }

    /// N 25 from (5, 0) kind 3 to (0, 5), at f = q0. The steps to (5, 1), (5, 2) are straight, to (4, 3), (3, 4), (2, 5) diagonal, to
    /// (1, 5), (0, 5) straight: their charges sum up to 1,000, 2,000, 3,414, 4,828, 6,242, 7,242, 8,242. A tick adds 1,000 × q0, so
    /// that the cycles come on ticks 1, 2, 4, 5, 7, 8, 9, and 9,000 - 8,242 = 758 × q0 are left over.
    #[test]
    fn the_quarter_of_n_25() {
        let mut book = usual();
        book.load(&arc(3, -5, 5, 300_000_000, -5, 0)).unwrap();
        assert_eq!(book.ticks_to_the_end(), 9);
        let (up, diagonal, left) = (16 + 4, 16 + 4 + 2, 16 + 2);
        assert_eq!(bytes(&mut book), [up, up, 0, diagonal, diagonal, 0, diagonal, left, left + 32]);
        assert_eq!((book.point, book.remainder), (Point::new(-5, 5), 758 * 300_000_000));
        // The other way at half the feed, 500 × q0 a tick. With 758 at its start the sums 242, 1,242, 2,656, 4,070, 5,484, 6,484, 7,484
        // are to be fed: ticks 1, 3, 6, 9, 11, 13, 15.
        book.load(&arc(2, 0, 0, 150_000_000, 0, -5)).unwrap();
        assert_eq!(book.ticks_to_the_end(), 15);
        let cycles: Vec<usize> = bytes(&mut book).iter().enumerate().filter(|(_, byte)| *byte & 16 != 0).map(|(at, _)| at + 1).collect();
        assert_eq!(cycles, [1, 3, 6, 9, 11, 13, 15]);
        assert_eq!((book.point, book.remainder), (ORIGIN, (7_500 - 7_484) * 300_000_000));
    }

    /// Reaching counts for a diagonal step too: here N 1, where each step is one.
    #[test]
    fn a_diagonal_step_is_due_at_its_charge() {
        let q0 = 300_000_000;
        for (remainder, byte, after) in [(1_414 * q0 - 1_000 * q0, 21, 0), (1_414 * q0 - 1_000 * q0 - 1, 0, 1_414 * q0 - 1)] {
            let mut book = Book { remainder, ..usual() };
            book.load(&arc(3, 0, 0, q0, 0, 1)).unwrap();
            assert_eq!((book.tick(), book.remainder), (byte, after));
        }
    }

    /// "Line cycles are charged 1,000": (2, 2) has q 3 and the points (1, 1), (1, 1), (2, 2), two cycles with both pulses and one with
    /// none, and ends on tick 3.
    #[test]
    fn diagonal_cycles_of_a_line() {
        let mut book = usual();
        book.load(&line(2, 2, 300_000_000)).unwrap();
        assert_eq!(book.ticks_to_the_end(), 3);
        assert_eq!(bytes(&mut book), [16 + 5, 16, 48 + 5]);
        assert_eq!(book.remainder, 0);
    }

    /// "at most one a tick": 3 line cycles, f = q0, r = 1,400 × q0. The ceiling says ⌈(3,000 - 1,400) / 1,000⌉ = 2, and it is tick 3.
    #[test]
    fn a_made_up_remainder() {
        let mut book = Book { remainder: 1_400 * 300_000_000, ..usual() };
        book.load(&line(3, 0, 300_000_000)).unwrap();
        assert_eq!(book.ticks_to_the_end(), 3);
        let mut at_once = book.clone();
        assert_eq!(at_once.finish_at_once(), 3);
        assert_eq!(bytes(&mut book), [17, 17, 49]);
        assert_eq!((book.point, book.remainder), (Point::new(3, 0), 1_400 * 300_000_000));
        assert_eq!((at_once.point, at_once.remainder), (book.point, book.remainder));
    }

    /// Over a block's end too: the tick that ends a block does nothing for the next one, though its cycle could be paid.
    #[test]
    fn one_cycle_a_tick_over_an_end() {
        let mut book = Book { remainder: 1_400 * 300_000_000, ..usual() };
        book.load(&line(1, 0, 300_000_000)).unwrap();
        assert_eq!(book.ticks_to_the_end(), 1);
        assert_eq!((book.tick(), book.tick()), (49, 0));
        assert_eq!((book.point, book.remainder), (Point::new(1, 0), 1_400 * 300_000_000));
        // A third of q0: 1,400 and 333 pay the first cycle and leave 733, with 333 more the second.
        book.load(&line(3, 0, 100_000_000)).unwrap();
        assert_eq!(book.ticks_to_the_end(), 2);
        assert_eq!((book.tick(), book.remainder), (17, 220_000_000_000));
        assert_eq!((book.tick(), book.remainder), (49, 20_000_000_000));
    }

    /// A cycle without a pulse (docs/DECISIONS.md, "Tick bytes"): (1, 1) has the bytes 21, 48.
    #[test]
    fn bytes_of_the_diagonal() {
        let mut book = usual();
        book.load(&line(1, 1, 300_000_000)).unwrap();
        assert_eq!(bytes(&mut book), [21, 48]);
    }

    /// docs/DECISIONS.md, "A run with nothing to do".
    #[test]
    fn reports_of_runs() {
        let mut book = usual();
        book.hold();
        assert_eq!(book.run(0, 0, |_| ()), (Why::Idle, 0));
        book.load(&line(5, 0, 300_000_000)).unwrap();
        assert_eq!(book.run(0, 0, |_| ()), (Why::Held, 0));
        assert_eq!(book.tick(), 0);
        book.release();
        assert_eq!(book.run(0, 0, |_| ()), (Why::Spent, 0));
        assert_eq!(book.run(1, 0, |_| ()), (Why::Full, 0));
        assert_eq!(book.run(2, 2, |_| ()), (Why::Spent, 2));
        assert_eq!(book.run(2, 1, |_| ()), (Why::Full, 1));
        assert_eq!(book.run(2, 2, |_| ()), (Why::Ended, 2));
        assert_eq!(book.run(2, 2, |_| ()), (Why::Idle, 0));
    }

    /// "Stop drops the block in work, keeps the point and the mark and sets the remainder to 0, also
    /// when idle."; "The remainder goes over to the next block."
    #[test]
    fn remainder_and_stop() {
        let mut book = usual();
        book.load(&line(1, 0, 200_000_000)).unwrap();
        bytes(&mut book);
        assert_eq!(book.remainder, 100_000_000_000);
        book.load(&line(2, 0, 200_000_000)).unwrap();
        assert_eq!(book.ticks_to_the_end(), 1);
        assert_eq!(book.tick(), 1 + 16 + 32);
        assert_eq!(book.remainder, 0);
        book.load(&line(9, 0, 299_999_999)).unwrap();
        book.tick();
        book.hold();
        book.stop();
        assert_eq!((book.point, book.held, book.remainder), (Point::new(2, 0), true, 0));
        assert!(book.block.is_none());
        // Also while a diagonal step waits with more than a straight one is charged.
        book.release();
        book.load(&arc(3, 2, 0, 300_000_000, 0, 1)).unwrap();
        assert_eq!((book.tick(), book.remainder), (0, 300_000_000_000));
        book.stop();
        assert_eq!((book.point, book.remainder), (Point::new(2, 0), 0));
    }
}
