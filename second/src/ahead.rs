//! 02 §1, "Where will it be?": the look-ahead, by ticking a copy and adding up its tick bytes; no closed form.

use crate::book::Book;
use crate::point::{Point, ORIGIN};

/// "Add a look-ahead of up to 1,000,000 ticks."
pub const MOST_TICKS: u64 = 1_000_000;

/// "It gives the record and the signed pulse sum per axis that the same ticks would give on a copy."
/// "38: more than 1,000,000 ticks, checked after 9." Question 9 is in machine.rs.
pub fn ahead(book: &Book, ticks: u64) -> Result<(Book, Point), u32> {
    if ticks > MOST_TICKS {
        return Err(38);
    }
    let (mut copy, mut sums) = (book.clone(), ORIGIN);
    for _ in 0..ticks {
        let byte = copy.tick();
        sums = sums.moved_by(Point::new(pulse(byte), pulse(byte >> 2)));
    }
    Ok((copy, sums))
}

/// "Pulses sent are their codes, 1 as plus one and 2 as minus one"
fn pulse(code: u8) -> i64 {
    match code & 3 {
        1 => 1,
        2 => -1,
        _ => 0,
    }
}

#[cfg(test)]
mod tests {
    use super::*;
    use crate::arc::Kind;
    use crate::book::Load;
    use crate::settings::{Settings, USUAL};
    use crate::sound::record_of;

    /// A machine with q0 60,000,000 and this block in work.
    fn with(load: Load) -> Book {
        let mut book = Book::make(Settings { w: 1_000, ..USUAL }).0;
        book.load(&load).unwrap();
        book
    }

    fn line(f: u64) -> Book {
        with(Load::Line { end: Point::new(-3, 4), f })
    }

    /// After so many ticks: the sums, the point, the remainder, and whether the block is still in work.
    fn seen(book: &Book, ticks: u64) -> (Point, Point, u64, bool) {
        let (then, sums) = ahead(book, ticks).unwrap();
        (sums, then.point, then.remainder, then.block.is_some())
    }

    /// Line (3, 4), here to the left: "(1, 1), (1, 2), (2, 2), (2, 3), (3, 4)"; ticks after its end change nothing.
    #[test]
    fn a_line_cycle_by_cycle() {
        let book = line(60_000_000);
        for (ticks, (x, y)) in [(0, 0), (-1, 1), (-1, 2), (-2, 2), (-2, 3), (-3, 4), (-3, 4)].into_iter().enumerate() {
            let at = Point::new(x, y);
            assert_eq!(seen(&book, ticks as u64), (at, at, 0, ticks < 5));
        }
        assert_eq!(seen(&book, MOST_TICKS), (Point::new(-3, 4), Point::new(-3, 4), 0, false));
    }

    /// In millions 40,000 a tick: 2 cycles in 3 ticks; 5 cycles are 300,000, so the 8th tick ends the line with 20,000 left over.
    #[test]
    fn a_line_with_ticks_between_its_cycles() {
        let book = line(40_000_000);
        let at = |x, y| Point::new(x, y);
        assert_eq!(seen(&book, 1), (ORIGIN, ORIGIN, 40_000_000_000, true));
        assert_eq!(seen(&book, 2), (at(-1, 1), at(-1, 1), 20_000_000_000, true));
        assert_eq!(seen(&book, 7), (at(-2, 3), at(-2, 3), 40_000_000_000, true));
        assert_eq!(seen(&book, 8), (at(-3, 4), at(-3, 4), 20_000_000_000, false));
        assert_eq!(seen(&book, 9), (at(-3, 4), at(-3, 4), 20_000_000_000, false));
    }

    /// Sums count from where the machine stands, and an arc's too: a full turn about (0, 5) sums to 0. Each quarter is charged 8,242: its
    /// cycles sum up to 1,000, 2,000, 3,414, 4,828, 6,242, 7,242, 8,242, all four to 32,968, of which a tick pays 1,000. So tick 3 waits
    /// for a diagonal step, tick 7 has 758 left over, and tick 33 ends the turn with 32.
    #[test]
    fn an_arc_from_its_middle() {
        let mut book = with(Load::Arc { kind: Kind::OtherWay, end: ORIGIN, f: 60_000_000, i: 0, j: 5 });
        book.tick();
        assert_eq!(book.point, Point::new(1, 0));
        assert_eq!(seen(&book, 1), (Point::new(1, 0), Point::new(2, 0), 0, true));
        assert_eq!(seen(&book, 2), (Point::new(1, 0), Point::new(2, 0), 1_000 * 60_000_000, true));
        assert_eq!(seen(&book, 6), (Point::new(4, 3), Point::new(5, 3), 758 * 60_000_000, true));
        assert_eq!(seen(&book, 8), (Point::new(4, 5), Point::new(5, 5), 758 * 60_000_000, true));
        assert_eq!(seen(&book, 31), (Point::new(-2, 0), Point::new(-1, 0), 32 * 60_000_000, true));
        assert_eq!(seen(&book, 32), (Point::new(-1, 0), ORIGIN, 32 * 60_000_000, false));
    }

    /// A million ticks of feed 1,000 at q0 60,000,000 do 16 cycles and leave 40,000 millions. Of a feed of one more, or less, they leave
    /// 1,000 millions more, or less.
    #[test]
    fn the_most_ticks() {
        let line = |f| with(Load::Line { end: Point::new(0, -17), f });
        let (book, at) = (line(1_000), Point::new(0, -16));
        assert_eq!(seen(&book, MOST_TICKS), (at, at, 40_000_000_000, true));
        assert_eq!(seen(&line(1_001), MOST_TICKS), (at, at, 41_000_000_000, true));
        assert_eq!(seen(&line(999), MOST_TICKS), (at, at, 39_000_000_000, true));
        assert_eq!(seen(&line(1), MOST_TICKS), (ORIGIN, ORIGIN, 1_000_000_000, true));
        assert_eq!(ahead(&book, MOST_TICKS + 1).map(|_| ()), Err(38));
        assert_eq!(ahead(&book, u64::MAX).map(|_| ()), Err(38));
    }

    /// Through waiting blocks: the line of 5 cycles, 4 back along X and a full turn of N 1, whose 4 steps are charged 5,656. Tick 10
    /// waits for its first step; tick 15 ends it with 344 × q0.
    #[test]
    fn through_waiting_blocks() {
        let mut book = line(60_000_000);
        book.load(&Load::Line { end: Point::new(1, 4), f: 60_000_000 }).unwrap();
        book.load(&Load::Arc { kind: Kind::Clockwise, end: Point::new(1, 4), f: 60_000_000, i: 1, j: 0 }).unwrap();
        let waiting = |ticks| {
            let (then, _) = ahead(&book, ticks).unwrap();
            (then.waiting.len(), then.left)
        };
        let at = |x, y| Point::new(x, y);
        for (ticks, place, remainder, waits) in [
            (4, at(-2, 3), 0, (2, 9)),
            (5, at(-3, 4), 0, (1, 8)),
            (6, at(-2, 4), 0, (1, 7)),
            (9, at(1, 4), 0, (0, 4)),
            (10, at(1, 4), 60_000_000_000, (0, 4)),
            (11, at(2, 5), 35_160_000_000, (0, 3)),
            (15, at(1, 4), 344 * 60_000_000, (0, 0)),
            (MOST_TICKS, at(1, 4), 344 * 60_000_000, (0, 0)),
        ] {
            assert_eq!(seen(&book, ticks), (place, place, remainder, ticks < 15), "{ticks}");
            assert_eq!(waiting(ticks), waits, "{ticks}");
        }
    }

    /// Idle and held machines stay as they are, and are asked 38 too.
    #[test]
    fn idle_and_held() {
        let mut held = line(60_000_000);
        held.tick();
        held.hold();
        for book in [Book::make(USUAL).0, held] {
            for ticks in [0, 1, 5, MOST_TICKS] {
                let (then, sums) = ahead(&book, ticks).unwrap();
                assert_eq!((record_of(&then), sums), (record_of(&book), ORIGIN));
            }
            assert_eq!(ahead(&book, MOST_TICKS + 1).map(|_| ()), Err(38));
        }
    }
}
