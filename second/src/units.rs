//! 02 §4: "Jobs whose F words have no point must, from a fresh machine, give the same pulses on the same ticks as before." Before is a
//! book with feeds in whole pulses per minute and q0 = 60 × w; all that the book of thousandths keeps of feeds is then a thousandfold.

use crate::ahead::ahead;
use crate::book::{Book, Load};
use crate::calls::Call;
use crate::gen;
use crate::gen_jobs;
use crate::job::Reader;
use crate::listing::{check_by, lines, Pace, LONGEST_TEXT};
use crate::point::Point;
use crate::settings::{Settings, FEED_UNIT, USUAL};
use crate::sound::{record_of, Record, Work};

fn before(settings: Settings) -> Book {
    let mut book = Book::make(settings).0;
    book.unit = 1;
    book
}

/// Both books, each with the G and F known beside it.
struct Both {
    before: (Book, Reader),
    after: (Book, Reader),
}

impl Both {
    fn made(settings: Settings) -> Both {
        Both { before: (before(settings), Reader::default()), after: (Book::make(settings).0, Reader::default()) }
    }

    /// What both books answer.
    fn same<T: PartialEq + std::fmt::Debug>(&mut self, mut call: impl FnMut(&mut Book) -> T) -> T {
        let told = call(&mut self.before.0);
        assert_eq!(told, call(&mut self.after.0));
        told
    }

    fn line(&mut self, line: &[u8]) {
        let meanings = [&mut self.before, &mut self.after].map(|(book, known)| known.line(book, line));
        assert_eq!((meanings[0], self.before.1), (meanings[1], self.after.1));
    }

    fn load(&mut self, load: Load) {
        assert_eq!(self.before.0.load(&load), self.after.0.load(&thousandfold(load)));
    }

    fn alike(&self) {
        alike(&self.before.0, &self.after.0);
    }
}

fn thousandfold(load: Load) -> Load {
    with_feed(load, |f| f.saturating_mul(FEED_UNIT))
}

fn with_feed(load: Load, feed: impl Fn(u64) -> u64) -> Load {
    match load {
        Load::Line { end, f } => Load::Line { end, f: feed(f) },
        Load::Arc { kind, end, f, i, j } => Load::Arc { kind, end, f: feed(f), i, j },
    }
}

/// One has the record of the other, with the remainder and every feed a thousandfold.
fn alike(before: &Book, after: &Book) {
    let mut record = record_of(before);
    let Record { remainder, work, blocks, .. } = &mut record;
    *remainder *= FEED_UNIT;
    match work {
        Work::Nothing => (),
        Work::Line { f, .. } | Work::Arc { f, .. } => *f *= FEED_UNIT,
    }
    blocks.iter_mut().for_each(|block| *block = thousandfold(*block));
    assert_eq!(record, record_of(after));
}

/// A text without what stands behind the whole number of an F.
fn without_points(text: &[u8]) -> Vec<u8> {
    let (mut kept, mut in_feed, mut behind_point) = (Vec::new(), false, false);
    for &byte in text {
        behind_point = in_feed && (byte == b'.' && kept.last() != Some(&b'F') || behind_point && byte.is_ascii_digit());
        in_feed = byte == b'F' || in_feed && (byte.is_ascii_digit() || behind_point);
        if !behind_point {
            kept.push(byte);
        }
    }
    kept
}

/// The first ticks of a job, byte by byte, then each block's number of them; how many were ticked, and how many of these did a cycle.
fn ticked(settings: Settings, text: &[u8]) -> (u64, u64) {
    let (mut both, mut ticks, mut cycles) = (Both::made(settings), 0, 0);
    for line in lines(text) {
        both.line(line);
        while both.after.0.block.is_some() && ticks < 4_000 {
            ticks += 1;
            cycles += u64::from(both.same(Book::tick) != 0);
        }
        both.same(Book::finish_at_once);
        both.alike();
    }
    (ticks, cycles)
}

/// On the same ticks the same bytes, and the same listing.
#[test]
fn jobs_without_a_point_in_f() {
    let (mut jobs, mut all_ticks, mut all_cycles) = (0, 0, 0);
    for index in 0..1_500 {
        let (settings, text) = if index % 2 == 0 { (USUAL, gen_jobs::job(21, index)) } else { gen_jobs::job_at(21, index) };
        let text = without_points(&text);
        let listing = |book: Book| {
            let mut out = Vec::new();
            check_by(book, &text, Pace::AtOnce, &mut out).unwrap();
            out
        };
        assert_eq!(listing(before(settings)), listing(Book::make(settings).0), "job {index}");
        if text.len() < LONGEST_TEXT - 100 {
            let (ticks, cycles) = ticked(settings, &text);
            (jobs, all_ticks, all_cycles) = (jobs + u64::from(ticks > 0), all_ticks + ticks, all_cycles + cycles);
        }
    }
    println!("{jobs} jobs, {all_ticks} ticks, {all_cycles} cycles");
    assert!(jobs > 1_000 && all_ticks > 2_000_000 && all_cycles > 500_000);
}

/// Not jobs alone: every history from a make, where each feed is a thousandfold.
#[test]
fn histories_of_whole_feeds() {
    let mut followed = 0;
    for index in 0..1_500 {
        let calls = gen::history(21, index);
        let Some(Call::Make(settings)) = calls.first() else { continue };
        let mut both = Both::made(*settings);
        for call in &calls[1..] {
            match *call {
                Call::Make(settings) => both = Both::made(settings),
                Call::Record(_) => break,
                Call::Load(load) => both.load(with_feed(load, |f| f / FEED_UNIT)),
                Call::Text(ref line) => both.line(&without_points(line.as_bytes())),
                Call::Tick => drop(both.same(Book::tick)),
                Call::Hold => both.same(Book::hold),
                Call::Release => both.same(Book::release),
                Call::Stop => both.same(Book::stop),
                Call::Run { budget, length, .. } => run(&mut both, budget, length),
                Call::Ahead(ticks) => drop(look(&both, ticks)),
                Call::Jump(ticks) => {
                    if let Some((then_before, then_after)) = look(&both, ticks) {
                        (both.before.0, both.after.0) = (then_before, then_after);
                    }
                }
            }
            both.alike();
            followed += 1;
        }
    }
    assert!(followed > 15_000, "{followed}");
}

fn run(both: &mut Both, budget: u64, length: u64) {
    both.same(|book| {
        let mut bytes = Vec::new();
        (book.run(budget, length, |byte| bytes.push(byte)), bytes)
    });
}

/// The books ahead, none where 38 refuses it.
fn look(both: &Both, ticks: u64) -> Option<(Book, Book)> {
    match (ahead(&both.before.0, ticks), ahead(&both.after.0, ticks)) {
        (Ok((before, sums_before)), Ok((after, sums_after))) => {
            assert_eq!(sums_before, sums_after);
            alike(&before, &after);
            Some((before, after))
        }
        (before, after) => {
            assert_eq!(before.err(), after.err());
            None
        }
    }
}

/// What stood in 01 before: "q0 300,000, r 0, k 1: f 150,000 ends on tick 2, 149,999 on tick 3."
#[test]
fn whole_pulses_per_minute() {
    for (f, expected) in [(150_000, 2), (149_999, 3), (300_000, 1)] {
        let mut book = before(USUAL);
        assert_eq!(book.load(&Load::Line { end: Point::new(1, 0), f }), Ok(1));
        assert_eq!(book.finish_at_once(), expected);
    }
    assert_eq!(before(USUAL).load(&Load::Line { end: Point::new(1, 0), f: 300_001 }), Err(11));
    assert_eq!((before(USUAL).feed_number(6_000_000), Book::make(USUAL).0.feed_number(6_000_000)), (300_000, 300_000_000));
    assert_eq!(without_points(b"F1.5X1.5F10.F.5 F6000.000\nX2.F0.1.5"), b"F1X1.5F10F.5 F6000\nX2.F0");
}
