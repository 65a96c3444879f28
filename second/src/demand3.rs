//! Demand 3 on made-up histories: what was done adds up, and the claims of the paper hold after every
//! call. The sums are kept beside the book, from its answers only.

use std::collections::VecDeque;

use crate::ahead::{ahead, MOST_TICKS};
use crate::arc::Kind;
use crate::book::{Block, Book, Load, Path, MOST_WAITING};
use crate::calls::Call;
use crate::gen;
use crate::job::{Meaning, Reader};
use crate::point::{Point, ORIGIN};
use crate::rng::Rng;
use crate::settings::{Settings, USUAL};
use crate::sound::{book_of, record_of, without_queue, Record, Work};

/// "less than t half pulses means that 4 × F - t², where positive, has a square below 16 × t² × N, and
/// -4 × F - t², where positive, one below 16 × t² × (x² + y²)"
fn less_than_half_pulses(t: i128, n: i128, x: i128, y: i128) -> bool {
    let f = x * x + y * y - n;
    let below = |d: i128, bound: i128| d <= 0 || d * d < bound;
    below(4 * f - t * t, 16 * t * t * n) && below(-4 * f - t * t, 16 * t * t * (x * x + y * y))
}

/// What is kept beside the book; the blocks are the loads that were accepted and have neither ended nor been stopped.
struct Sums {
    sent: Point,
    fed: u128,
    charged: u128,
    working_ticks_of_block: u128,
    end_tick_of_block: u128,
    blocks: VecDeque<Load>,
}

impl Sums {
    fn none() -> Sums {
        Sums { sent: ORIGIN, fed: 0, charged: 0, working_ticks_of_block: 0, end_tick_of_block: 0, blocks: VecDeque::new() }
    }

    /// From the byte alone a line's cycle with two pulses and a diagonal step look alike: what it is charged goes by the block.
    fn take_byte(&mut self, byte: u8, path: Option<Path>) {
        let pulse = |code: u8| match code & 3 {
            0 => 0,
            1 => 1,
            2 => -1,
            _ => panic!("code 3"),
        };
        assert!(byte < 64);
        self.sent = self.sent.moved_by(Point::new(pulse(byte), pulse(byte >> 2)));
        let diagonal = byte & 3 != 0 && byte & 12 != 0 && matches!(path, Some(Path::Arc { .. }));
        self.charged += match (byte & 16 != 0, diagonal) {
            (true, true) => 1_414,
            (true, false) => 1_000,
            (false, _) => 0,
        };
    }
}

/// "On a line the point is at most half a pulse per axis from the exact point for the cycles done, and its
/// squared distance from the line is at most one half. On an arc it is less than half a pulse from the
/// circle."
fn near_its_path(block: &Block, at: Point) {
    let start = block.start;
    match block.path {
        Path::Line => {
            let (a, b) = (i128::from(block.end.x - start.x), i128::from(block.end.y - start.y));
            let (x, y) = (i128::from(at.x - start.x), i128::from(at.y - start.y));
            let (q, c) = (i128::from(block.k), i128::from(block.c));
            assert!(2 * (x * q - a * c).abs() <= q && 2 * (y * q - b * c).abs() <= q);
            assert!(2 * (a * y - b * x).pow(2) <= a * a + b * b);
        }
        Path::Arc { centre, n, .. } => {
            let seen = at.seen_from(centre);
            assert!(less_than_half_pulses(1, n.into(), seen.x.into(), seen.y.into()));
        }
    }
}

/// One tick of a history, run or tick, with what demand 3 says of it.
fn one_tick(book: &mut Book, sums: &mut Sums) -> u8 {
    let before = book.block;
    let working = before.is_some() && !book.held;
    if let Some(block) = before.filter(|_| working) {
        sums.fed += 1_000 * u128::from(block.f);
        sums.working_ticks_of_block += 1;
    }
    let byte = book.tick();
    sums.take_byte(byte, before.map(|block| block.path));
    if working {
        // "A block not stopped has ended exactly when it has had the working ticks that the feed gives; the
        // last of them leaves the point on the block's commanded end."
        let ended = sums.working_ticks_of_block == sums.end_tick_of_block;
        assert_eq!(ended, byte & 32 != 0);
        if let Some(block) = before.filter(|_| ended) {
            assert_eq!(book.point, block.end);
            assert_eq!(sums.blocks.pop_front().map(|load| load.end()), Some(block.end));
            begins(book, sums);
        }
    } else {
        assert_eq!(byte, 0);
    }
    byte
}

fn adds_up(book: &Book, sums: &Sums) {
    assert_eq!(sums.sent, book.point, "pulses sent sum to the point");
    let q0 = u128::from(book.settings.q0());
    // "In the feed sum charges replace cycles and 1,000 × f replaces f."
    assert_eq!(sums.charged * q0 + u128::from(book.remainder), sums.fed, "charges times feed capacity plus remainder");
    match &book.block {
        Some(block) => near_its_path(block, book.point),
        // Between two blocks of a history less is left over than any cycle is charged.
        None => assert!(u128::from(book.remainder) < 1_000 * q0),
    }
    queued(book, sums);
}

/// "first come first cut": of the loads that were accepted those not ended and not stopped, the first of them in work, the others waiting.
/// "this figure equals the count made afresh".
fn queued(book: &Book, sums: &Sums) {
    let waiting: Vec<Load> = book.waiting.iter().map(Block::given).collect();
    assert!(waiting.len() <= MOST_WAITING && sums.blocks.iter().skip(1).eq(&waiting));
    let first = sums.blocks.front().map(|load| (load.end(), load.feed()));
    assert_eq!(first, book.block.map(|block| (block.end, block.f)));
    let ways = book.block.iter().chain(&book.waiting);
    assert_eq!(book.left, ways.clone().map(Block::left).sum(), "cycles still to do");
    // Each begins where the one before it ends.
    assert!(ways.clone().zip(&book.waiting).all(|(before, next)| before.end == next.start && next.c == 0));
    assert_eq!(book.place(), ways.last().map_or(book.point, |last| last.end));
}

/// What has come into work, if anything has: its end tick counts from here.
fn begins(book: &Book, sums: &mut Sums) {
    sums.working_ticks_of_block = 0;
    assert!(book.remainder < 1_000 * book.settings.q0());
    if let Some(block) = &book.block {
        assert_eq!((block.start, block.c), (book.point, 0));
        // "in a history that is its working tick ⌈(C × q0 - r) / (1,000 × f)⌉, C being the sum of its charges"
        let left = u128::from(block.charges) * u128::from(book.settings.q0()) - u128::from(book.remainder);
        sums.end_tick_of_block = left.div_ceil(1_000 * u128::from(block.f));
    }
}

/// A block that was accepted is the last to wait, or comes into work where nothing was.
fn after_load(was_busy: bool, book: &Book, sums: &mut Sums) {
    let last = book.waiting.back().or(book.block.as_ref()).expect("a block was loaded");
    sums.blocks.push_back(last.given());
    if !was_busy {
        begins(book, sums);
    }
}

fn stopped(sums: &mut Sums) {
    (sums.fed, sums.charged) = (0, 0);
    sums.blocks.clear();
}

/// A sound record's call answers a sound record, whose figure is counted afresh; asked where the walks are short.
fn still_sound(book: &Book) {
    let ways = book.block.iter().chain(&book.waiting);
    if ways.filter(|block| block.path != Path::Line).map(|block| block.k).sum::<u64>() < 300 {
        let record = record_of(book);
        assert_eq!(record.left, gen::counted(&record));
        let again = book_of(&record).expect("sound");
        assert_eq!((again.point, again.remainder, again.held), (book.point, book.remainder, book.held));
        let left = |block: Block| (block.left(), block.charges - block.charged);
        assert_eq!(again.block.map(left), book.block.map(left));
        assert_eq!((again.waiting, again.left), (book.waiting.clone(), book.left));
    }
}

/// A line of text is a load where it makes a block; where it does not, it changes nothing of the record.
fn follow_text(line: &str, known: &mut Reader, book: &mut Book, sums: &mut Sums) {
    let (before, known_before, was_busy) = (record_of(book), *known, book.block.is_some());
    match known.line(book, line.as_bytes()) {
        Meaning::Loaded { bits } => {
            assert!((1..=21).contains(&bits));
            after_load(was_busy, book, sums);
        }
        Meaning::NoBlock => assert_eq!(before, record_of(book)),
        Meaning::Refused(number) => {
            assert!((31..=37).contains(&number) || (10..=16).contains(&number) && number != 13);
            assert_eq!((before, known_before), (record_of(book), *known));
        }
    }
}

fn follow_load(load: &Load, book: &mut Book, sums: &mut Sums) {
    let (before, was_busy) = (record_of(book), book.block.is_some());
    match book.load(load) {
        Ok(bits) => {
            assert!((1..=21).contains(&bits));
            after_load(was_busy, book, sums);
            assert_eq!(sums.blocks.back(), Some(load));
        }
        Err(number) => {
            assert!((10..=16).contains(&number));
            assert_eq!(number == 10, was_busy && before.waiting == MOST_WAITING as u64);
            assert_eq!(before, record_of(book));
        }
    }
}

fn follow(calls: &[Call]) {
    let (mut book, mut known, mut sums) = (Book::make(USUAL).0, Reader::default(), Sums::none());
    for call in calls {
        match *call {
            Call::Make(settings) => (book, known, sums) = (Book::make(settings).0, Reader::default(), Sums::none()),
            // A history starts from a make; a made-up record has no place in it.
            Call::Record(_) => return,
            Call::Load(ref load) => follow_load(load, &mut book, &mut sums),
            Call::Text(ref line) => follow_text(line, &mut known, &mut book, &mut sums),
            Call::Tick => drop(one_tick(&mut book, &mut sums)),
            Call::Hold => book.hold(),
            Call::Release => book.release(),
            Call::Stop => {
                book.stop();
                stopped(&mut sums);
            }
            Call::Run { budget, length, .. } => run(&mut book, &mut sums, budget, length),
            Call::Ahead(ticks) => drop(look(&book, ticks)),
            Call::Jump(ticks) => jump(&mut book, &mut sums, ticks),
        }
        adds_up(&book, &sums);
        still_sound(&book);
    }
}

/// The run's bytes and number against single ticks from the same book.
fn run(book: &mut Book, sums: &mut Sums, budget: u64, length: u64) {
    let mut by_run = book.clone();
    let to_the_end = book.ticks_to_the_end();
    let allowed = if book.held { 0 } else { to_the_end.min(budget.into()).min(length.into()) };
    let mut bytes = Vec::new();
    let (_, ticks) = by_run.run(budget, length, |byte| bytes.push(byte));
    assert_eq!(u128::from(ticks), allowed, "the least of budget, buffer and ticks to the end");
    assert_eq!(bytes.len() as u64, ticks);
    for byte in bytes {
        assert_eq!(byte, one_tick(book, sums));
    }
    assert_eq!(record_of(book), record_of(&by_run));
}

/// The book ahead, none where 38 refuses it. What is asked of it needs no tick: which blocks have ended, and that the sums lead to its
/// point and the feeds to its remainder.
fn look(book: &Book, ticks: u64) -> Option<Book> {
    let looked = ahead(book, ticks);
    assert_eq!(looked.as_ref().err(), (ticks > MOST_TICKS).then_some(&38));
    let (then, sums) = looked.ok()?;
    assert_eq!(book.point.moved_by(sums), then.point, "sums are the point ahead less the point");
    still_sound(&then);
    if book.held {
        assert_eq!(record_of(&then), record_of(book));
        return Some(then);
    }
    // The blocks that end on the way, by their tick numbers: each begins on the tick after the end of the one before it.
    let (mut last, mut left) = (book.clone(), u128::from(ticks));
    while last.block.is_some() && last.ticks_to_the_end() <= left {
        left -= last.finish_at_once();
    }
    match (last.block, then.block) {
        (Some(block), Some(there)) => {
            assert_eq!((block.start, block.path, block.end, &last.waiting), (there.start, there.path, there.end, &then.waiting));
            let fed = u128::from(last.remainder) + left * 1_000 * u128::from(block.f);
            let charged = u128::from(there.charged - block.charged);
            assert_eq!(charged * u128::from(book.settings.q0()) + u128::from(then.remainder), fed);
            assert_eq!(then.left, last.left - (there.c - block.c));
        }
        _ => assert_eq!(record_of(&last), record_of(&then)),
    }
    Some(then)
}

/// A jump is the ticks that it looks over.
fn jump(book: &mut Book, sums: &mut Sums, ticks: u64) {
    let Some(then) = look(book, ticks) else { return };
    for _ in 0..ticks {
        one_tick(book, sums);
    }
    assert_eq!(record_of(book), record_of(&then));
}

#[test]
fn demand_3_on_random_histories() {
    let mut followed = 0;
    for index in 0..5_000 {
        let calls = gen::history(1, index);
        if matches!(calls.first(), Some(Call::Make(_))) {
            follow(&calls);
            followed += 1;
        }
    }
    assert!(followed > 3_000);
}

/// Long histories of short blocks, where every block is run to its end.
#[test]
fn demand_3_on_long_histories() {
    for index in 0..45 {
        let mut calls = Vec::new();
        for piece in 0..60 {
            let history = gen::history(900 + index, piece).into_iter();
            calls.extend(history.filter(|call| !matches!(call, Call::Make(_) | Call::Record(_))));
            calls.push(Call::Release);
            calls.push(Call::Run { budget: u64::MAX, length: 100_000, fill: 0 });
        }
        follow(&calls);
    }
}

/// The end tick by its number, the end and what is left over, against ticking. Whether the ceiling alone would say fewer ticks.
fn ends_as_ticked(mut ticked: Book) -> bool {
    let block = ticked.block.expect("a block in work");
    let due = u128::from(block.charges - block.charged) * u128::from(ticked.settings.q0());
    let ceiling = due.saturating_sub(ticked.remainder.into()).div_ceil(1_000 * u128::from(block.f));
    let mut at_once = ticked.clone();
    let (_, ticks) = ticked.run(u64::MAX, u64::MAX, |_| ());
    assert_eq!(u128::from(ticks), at_once.finish_at_once());
    assert_eq!(record_of(&ticked), record_of(&at_once));
    still_sound(&ticked);
    ceiling < ticks.into()
}

/// For remainders up to the greatest sound one, lines and arcs of few cycles and edges of f.
#[test]
fn the_end_tick_formula() {
    let settings = Settings { w: 1_000, ..USUAL };
    let q0 = settings.q0();
    let idle = record_of(&Book::make(settings).0);
    let (mut tried, mut later) = (0, 0);
    for f in [7_001, 29_999_999, 30_000_000, 30_000_001, 42_420_000, q0 - 1, q0] {
        let lines = [(1, 0), (0, -2), (2, 2), (-3, 0), (3, 4)].map(|(x, y)| Work::Line { start: ORIGIN, end: Point::new(x, y), f, c: 0 });
        // (0, 0) is a point of both circles; the second is one that no load gives.
        let arcs = [(Point::new(0, 5), 25), (Point::new(-1, 1), 3)].into_iter().flat_map(|(centre, n)| {
            let ends = crate::arc::all_circle_points(n).into_iter().map(move |at| at.moved_by(centre));
            ends.map(move |end| Work::Arc { kind: Kind::Clockwise, centre, n: n as u64, end, f })
        });
        let few = if f == 7_001 { 3 } else { 40 };
        for work in lines.into_iter().chain(arcs.take(few)) {
            for charges in [0, 1_000, 1_400, 1_414, 2_000, 2_414] {
                for less in [0, 1, 1_000 * f, 1_000 * f + 1] {
                    let Some(remainder) = (charges * q0).checked_sub(less) else { continue };
                    let Some(book) = without_queue(&Record { remainder, work, ..idle.clone() }) else {
                        assert!(remainder >= 1_414 * q0);
                        continue;
                    };
                    tried += 1;
                    later += u64::from(ends_as_ticked(book));
                }
            }
        }
    }
    assert!(tried > 3_000 && later > 100, "{tried} {later}");
}

/// Made-up records that are sound: they end on their tick, and every call on them leaves a sound one.
#[test]
fn made_up_records_end_on_their_tick() {
    let (mut tried, mut later, mut waited) = (0, 0, 0);
    for record in (0..3_000).map(|index| gen::record(&mut Rng::new(2, index))) {
        let Some(mut book) = book_of(&record).filter(|book| book.block.is_some() && book.ticks_to_the_end() < 50_000) else { continue };
        book.release();
        let mut by_blocks = book.clone();
        for _ in 0..20 {
            book.tick();
            still_sound(&book);
        }
        // One after the other, each with the remainder that the one before has left.
        while by_blocks.block.is_some() && by_blocks.ticks_to_the_end() < 50_000 {
            let is_later = ends_as_ticked(by_blocks.clone());
            let has_waited = by_blocks.waiting.len() < record.blocks.len();
            tried += 1;
            waited += u64::from(has_waited);
            later += u64::from(is_later);
            by_blocks.finish_at_once();
        }
    }
    assert!(tried > 2_000 && waited > 1_000 && later > 30, "{tried} {waited} {later}");
}

/// Circle points are less than half a pulse from the circle. The root-free form is exact for odd t and says "less" for an
/// equal distance at (0, 0) with t even and 4N = t² (docs/DECISIONS.md, "less than t half pulses means that ..").
#[test]
fn distance_from_the_circle() {
    for n in 1..=1_000 {
        for at in crate::arc::all_circle_points(n) {
            assert!(less_than_half_pulses(1, n.into(), at.x.into(), at.y.into()));
        }
    }
    assert!(less_than_half_pulses(2, 1, 0, 0) && less_than_half_pulses(4, 4, 0, 0));
    assert!(!less_than_half_pulses(1, 2, 2, 0));
    assert!(!less_than_half_pulses(2, 1, 2, 0), "one pulse away is not less than two half pulses");
}

/// Great circles in windows: 2,000 points on from chance points, N up to 2 × 10¹².
#[test]
fn great_circles() {
    let mut rng = Rng::new(11, 0);
    for _ in 0..300 {
        let n = rng.between(1, crate::arc::LARGEST_N);
        let Some(mut here) = gen::circle_point(&mut rng, n) else { continue };
        let circle = crate::arc::Circle::of(n);
        for _ in 0..2_000 {
            let next = circle.next(Kind::OtherWay, here).expect("a next point");
            assert_eq!(circle.next(Kind::Clockwise, next), Some(here), "the way back");
            assert!(less_than_half_pulses(1, n.into(), next.x.into(), next.y.into()));
            here = next;
        }
    }
}
