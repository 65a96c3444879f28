//! A machine record as anybody may make it up, and question 9: "is it sound?"

use crate::arc::{self, is_circle_point, Kind, LARGEST_N};
use crate::book::{Block, Book, Load, Path, MOST_WAITING};
use crate::charge;
use crate::line;
use crate::point::Point;
use crate::settings::Settings;

/// "What is in work is nothing, a line with its numbers or an arc with its numbers."
#[derive(Clone, Copy, PartialEq, Eq, Debug)]
pub enum Work {
    Nothing,
    Line { start: Point, end: Point, f: u64, c: u64 },
    Arc { kind: Kind, centre: Point, n: u64, end: Point, f: u64 },
}

#[derive(Clone, PartialEq, Eq, Debug)]
pub struct Record {
    pub settings: Settings,
    pub point: Point,
    pub held: bool,
    pub remainder: u64,
    pub work: Work,
    /// "the cycles still to do over the block in work and all waiting"
    pub left: u64,
    /// How many wait, by the record's own word, which may be more than it has places for.
    pub waiting: u64,
    /// Those that wait, "first come first cut": so many, sixteen where the word is more.
    pub blocks: Vec<Load>,
}

impl Record {
    /// With these blocks waiting.
    pub fn with_blocks(self, blocks: Vec<Load>) -> Record {
        Record { waiting: blocks.len() as u64, blocks, ..self }
    }
}

/// The book of a sound record, none for an unsound one. "A sound record has this figure right, only waiting blocks that would be accepted
/// in turn, and none waiting when nothing is in work."
pub fn book_of(record: &Record) -> Option<Book> {
    let Record { work, left, waiting, ref blocks, .. } = *record;
    if waiting > MOST_WAITING as u64 || work == Work::Nothing && waiting > 0 {
        return None;
    }
    let mut book = without_queue(record)?;
    for block in blocks {
        book.load(block).ok()?;
    }
    (book.left == left).then_some(book)
}

/// The book of a record whose waiting blocks and figure are not looked at.
/// "A record is sound if settings pass questions 1 to 3; the point is in travel;" the remainder is sound (02 §2) and so is
/// what is in work.
pub fn without_queue(record: &Record) -> Option<Book> {
    let Record { settings, point, held, remainder, work, .. } = *record;
    if settings.refusal().is_some() || !settings.in_travel(point) || !charge::is_sound_remainder(remainder, settings.q0()) {
        return None;
    }
    let block = match work {
        Work::Nothing => None,
        Work::Line { start, end, f, c } => Some(sound_line(record, start, end, f, c)?),
        Work::Arc { kind, centre, n, end, f } => Some(sound_arc(record, kind, centre, n, end, f)?),
    };
    Some(Book::opened(settings, point, held, remainder, block))
}

/// "a line in work has start and end in travel and different, feed in 1..q0, cycles done in 0..q-1
/// and the point that "Lines" gives"
fn sound_line(record: &Record, start: Point, end: Point, f: u64, c: u64) -> Option<Block> {
    let settings = &record.settings;
    let in_travel = settings.in_travel(start) && settings.in_travel(end);
    if !in_travel || start == end || !(1..=settings.q0()).contains(&f) {
        return None;
    }
    let line = Block::line(start, end, f);
    if c >= line.k || record.point != line::point_after(start, end, line.k, c) {
        return None;
    }
    Some(Block { c, charged: charge::LINE_CYCLE * c, ..line })
}

/// "an arc in work has feed in 1..q0, N in 1..2,000,000,000,000, point and end both circle points of
/// N about a centre within ±2,000,000, and every point still to visit in travel. Point equal to end
/// then means a full turn not begun."
fn sound_arc(record: &Record, kind: Kind, centre: Point, n: u64, end: Point, f: u64) -> Option<Block> {
    let settings = &record.settings;
    let n = i64::try_from(n).ok().filter(|n| (1..=LARGEST_N).contains(n))?;
    let within = |v: i64| (-2_000_000..=2_000_000).contains(&v);
    if !(1..=settings.q0()).contains(&f) || !within(centre.x) || !within(centre.y) {
        return None;
    }
    let (here, last) = (record.point.seen_from(centre), end.seen_from(centre));
    if !is_circle_point(n, here) || !is_circle_point(n, last) {
        return None;
    }
    let walked = arc::walk(n, kind, here, last, |_| ())?;
    let in_travel = settings.in_travel(walked.lowest.moved_by(centre)) && settings.in_travel(walked.highest.moved_by(centre));
    if !in_travel {
        return None;
    }
    let path = Path::Arc { kind, centre, n };
    Some(Block { path, start: record.point, end, f, k: walked.cycles, c: 0, charges: walked.charges, charged: 0 })
}

/// The record of a book, as the machine would hold it.
pub fn record_of(book: &Book) -> Record {
    let work = match book.block {
        None => Work::Nothing,
        Some(Block { path: Path::Line, start, end, f, c, .. }) => Work::Line { start, end, f, c },
        Some(Block { path: Path::Arc { kind, centre, n }, end, f, .. }) => Work::Arc { kind, centre, n: n as u64, end, f },
    };
    let Book { settings, point, held, remainder, left, .. } = *book;
    let idle = Record { settings, point, held, remainder, work, left, waiting: 0, blocks: Vec::new() };
    idle.with_blocks(book.waiting.iter().map(Block::given).collect())
}

#[cfg(test)]
mod tests {
    use super::*;
    use crate::gen;
    use crate::point::ORIGIN;
    use crate::settings::USUAL;

    fn idle() -> Record {
        record_of(&Book::make(USUAL).0)
    }

    /// With the right figure, so that all hangs on the rest.
    fn sound(record: Record) -> bool {
        book_of(&Record { left: gen::counted(&record), ..record }).is_some()
    }

    fn line(x: i64, y: i64) -> Load {
        Load::Line { end: Point::new(x, y), f: 300_000_000 }
    }

    fn arc(kind: Kind, end: Point, i: i64, j: i64) -> Load {
        Load::Arc { kind, end, f: 300_000_000, i, j }
    }

    /// The line (3, 4) in work, one cycle of five done, and these waiting.
    fn waiting(blocks: &[Load]) -> Record {
        let work = Work::Line { start: ORIGIN, end: Point::new(3, 4), f: 300_000_000, c: 1 };
        Record { point: Point::new(1, 1), work, ..idle() }.with_blocks(blocks.to_vec())
    }

    #[test]
    fn idle_records() {
        assert!(sound(idle()));
        assert!(!sound(Record { point: Point::new(1_000_001, 0), ..idle() }));
        assert!(!sound(Record { settings: Settings { p: 0, ..USUAL }, ..idle() }));
        assert!(!sound(Record { settings: Settings { w: u64::MAX, ..USUAL }, ..idle() }));
    }

    /// "A sound remainder is below 1,414 × q0": 424,200,000,000 at w 5,000, whatever is in work.
    #[test]
    fn remainders() {
        let of_line = Work::Line { start: ORIGIN, end: Point::new(3, 4), f: 60_000_000, c: 0 };
        let of_arc = Work::Arc { kind: Kind::Clockwise, centre: Point::new(0, 5), n: 25, end: ORIGIN, f: 1 };
        for work in [Work::Nothing, of_line, of_arc] {
            let with = |settings, remainder| sound(Record { settings, remainder, work, ..idle() });
            for remainder in [0, 299_999_999, 300_000_000, 299_999_999_999, 300_000_000_000, 424_199_999_999] {
                assert!(with(USUAL, remainder), "{remainder}");
            }
            for remainder in [424_200_000_000, 424_200_000_001, 1 << 40, 1 << 63, u64::MAX] {
                assert!(!with(USUAL, remainder), "{remainder}");
            }
            for w in [1_000, 20_000] {
                let settings = Settings { w, ..USUAL };
                assert!(with(settings, 1_414 * 60_000 * w - 1) && !with(settings, 1_414 * 60_000 * w));
            }
        }
    }

    #[test]
    fn records_with_a_line() {
        let line = |end: Point, f, c| Work::Line { start: ORIGIN, end, f, c };
        let with = |point: Point, work| sound(Record { point, work, ..idle() });
        let end = Point::new(3, 4);
        assert!(with(ORIGIN, line(end, 1, 0)));
        assert!(with(Point::new(1, 2), line(end, 300_000_000, 2)));
        assert!(!with(Point::new(1, 2), line(end, 300_000_000, 1)));
        assert!(!with(end, line(end, 300_000_000, 5)));
        assert!(!with(ORIGIN, line(end, 0, 0)));
        assert!(!with(ORIGIN, line(end, 300_000_001, 0)));
        assert!(!with(ORIGIN, line(ORIGIN, 1, 0)));
        assert!(!with(ORIGIN, line(Point::new(i64::MIN, i64::MAX), 1, 0)));
        assert!(!with(ORIGIN, line(end, 1, u64::MAX)));
    }

    #[test]
    fn records_with_an_arc() {
        let arc = |centre: Point, n, end: Point, f| Work::Arc { kind: Kind::OtherWay, centre, n, end, f };
        let with = |point: Point, work| sound(Record { point, work, ..idle() });
        let (one, minus) = (Point::new(1, 1), Point::new(-1, 0));
        assert!(with(one, arc(ORIGIN, 3, one, 1)));
        assert!(with(one, arc(ORIGIN, 2, minus, 1)));
        assert!(!with(one, arc(ORIGIN, 4, one, 1)), "F = -2 < -m");
        assert!(!with(one, arc(ORIGIN, 0, one, 1)));
        assert!(!with(one, arc(ORIGIN, u64::MAX, one, 1)));
        assert!(!with(one, arc(ORIGIN, 3, one, 0)));
        assert!(!with(one, arc(ORIGIN, 3, Point::new(i64::MIN, i64::MAX), 1)));
        assert!(!with(one, arc(Point::new(i64::MIN, 0), 3, one, 1)));
        let full_turn = Record { point: one, work: arc(ORIGIN, 3, one, 1), left: 8, ..idle() };
        assert_eq!(book_of(&full_turn).unwrap().block.unwrap().k, 8);
    }

    /// "A sound record has this figure right": 4 cycles of the line, 1 to (3, 5), and of the full turn of N 25 all 28.
    #[test]
    fn the_figure() {
        let queued = waiting(&[line(3, 5), arc(Kind::OtherWay, Point::new(3, 5), 0, 5)]);
        for left in [0, 4, 5, 28, 29, 32, 33, 34, 37, u64::MAX, 33 + (1 << 32), 33 + (1 << 63)] {
            assert_eq!(book_of(&Record { left, ..queued.clone() }).is_some(), left == 33, "{left}");
        }
        for left in [0, 1, u64::MAX] {
            assert_eq!(book_of(&Record { left, ..idle() }).is_some(), left == 0, "{left}");
        }
    }

    /// "only waiting blocks that would be accepted in turn": 11 to 16 from the end of the one before, with the record's settings.
    #[test]
    fn waiting_blocks() {
        let with = |blocks: &[Load]| sound(waiting(blocks));
        let (end, half) = (Point::new(3, 4), arc(Kind::OtherWay, Point::new(13, 4), 5, 0));
        assert!(with(&[]) && with(&[line(3, 5)]) && with(&[half]) && with(&[half, line(3, 4)]));
        assert!(with(&[line(1, 1)]), "back to the point");
        assert!(with(&[line(0, 0), line(3, 4), line(0, 0)]));
        assert!(!with(&[line(3, 4)]), "13 from the line's end");
        assert!(!with(&[line(3, 5), line(3, 5)]), "13 from the end of the one before");
        for f in [0, 300_000_001, u64::MAX] {
            assert!(!with(&[Load::Line { end: ORIGIN, f }]), "11");
        }
        assert!(with(&[line(1_000_000, -1_000_000)]) && !with(&[line(1_000_001, 0)]) && !with(&[line(i64::MIN, i64::MAX)]), "12");
        for (i, j) in [(0, 0), (1_000_001, 0), (0, i64::MIN)] {
            assert!(!with(&[arc(Kind::Clockwise, end, i, j)]), "14");
        }
        assert!(!with(&[arc(Kind::OtherWay, Point::new(11, 1), 5, 0)]), "15, though a half turn from the point");
        let narrow = |x_upper, blocks: &[Load]| sound(Record { settings: Settings { x_upper, ..USUAL }, ..waiting(blocks) });
        assert!(narrow(13, &[half]) && !narrow(12, &[half]));
        let other = arc(Kind::OtherWay, Point::new(3, 14), 0, 5);
        assert!(narrow(8, &[other]) && !narrow(7, &[other]), "16");
    }

    /// "none waiting when nothing is in work"
    #[test]
    fn nothing_waits_behind_nothing() {
        let blocks = vec![line(1, 0)];
        assert!(!sound(idle().with_blocks(blocks.clone())));
        assert!(!sound(Record { left: 0, ..idle().with_blocks(blocks) }));
        assert!(sound(idle()));
    }

    /// Sixteen wait, and a seventeenth has no place.
    #[test]
    fn sixteen_places() {
        let blocks: Vec<Load> = (0..16).map(|at| line(at, 9)).collect();
        let full = waiting(&blocks);
        assert!(sound(full.clone()) && sound(waiting(&blocks[..15])));
        for waiting in [17, 18, 32, 16 + (1 << 32), u64::MAX] {
            assert!(!sound(Record { waiting, ..full.clone() }), "{waiting}");
        }
        let book = book_of(&Record { left: gen::counted(&full), ..full.clone() }).unwrap();
        assert_eq!(record_of(&book), Record { left: gen::counted(&full), ..full });
    }

    #[test]
    fn points_still_to_visit_are_in_travel() {
        // N 25 about (0, 0); upper X bound 4: (5, 0) is left out.
        let settings = Settings { x_upper: 4, ..USUAL };
        let with =
            |kind, point, end| sound(Record { settings, point, work: Work::Arc { kind, centre: ORIGIN, n: 25, end, f: 1 }, ..idle() });
        let (up, down) = (Point::new(0, 5), Point::new(0, -5));
        assert!(with(Kind::OtherWay, up, down));
        assert!(!with(Kind::Clockwise, up, down));
        assert!(with(Kind::Clockwise, down, up));
        assert!(!with(Kind::Clockwise, up, up), "a full turn not begun visits all");
    }

    #[test]
    fn a_centre_may_be_two_million_away() {
        let far = Point::new(2_000_000, 0);
        let edge = Point::new(1_000_000, 0);
        let work = |centre| Work::Arc { kind: Kind::Clockwise, centre, n: 1_000_000_000_000, end: Point::new(1_000_001 - 1, 1), f: 1 };
        assert!(sound(Record { point: edge, work: work(far), ..idle() }));
        assert!(!sound(Record { point: edge, work: work(Point::new(2_000_001, 0)), ..idle() }));
    }
}
