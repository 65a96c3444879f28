//! Made-up call files. The generator keeps a machine of its own beside, so that loads begin where the
//! last block will end and runs stop at, just before and just after the block's end.

use std::io::{self, Write};

use crate::ahead::MOST_TICKS;
use crate::arc::{self, is_circle_point, Circle, Kind, LARGEST_N};
use crate::book::{Block, Book, Load, MOST_WAITING};
use crate::calls::{Call, Runner};
use crate::charge::{self, DIAGONAL, LINE_CYCLE, PAID_PER_FEED, STRAIGHT};
use crate::gen_jobs;
use crate::job::Reader;
use crate::line;
use crate::point::{Point, ORIGIN};
use crate::rng::Rng;
use crate::root::root_up;
use crate::settings::{Settings, FEED_UNIT, USUAL};
use crate::sound::{without_queue, Record, Work};

pub fn write_calls(seed: u64, count: u64, out: &mut impl Write) -> io::Result<()> {
    writeln!(out, "# level 4")?;
    for index in 0..count {
        writeln!(out, "# history {index} of seed {seed}")?;
        for call in history(seed, index) {
            writeln!(out, "{call}")?;
        }
    }
    Ok(())
}

/// How the sender keeps up with the knife: in time, so that few blocks wait, or ahead of it, so that all sixteen places fill up; with
/// blocks of all sizes or with short and quick ones, so that looks come to the end of all.
#[derive(Clone, Copy, PartialEq, Eq)]
enum Sender {
    InTime,
    Ahead,
    AheadWithShort,
}

/// One history: a make or a made-up record, then up to 40 calls, or 60 where the sender is ahead.
pub fn history(seed: u64, index: u64) -> Vec<Call> {
    let rng = &mut Rng::new(seed, index);
    let first = if rng.percent(70) { Call::Make(settings(rng)) } else { Call::Record(record(rng)) };
    let mut runner = Runner::fresh();
    runner.answer(&first);
    let mut calls = vec![first];
    let sender = rng.one_of(&[Sender::InTime, Sender::InTime, Sender::InTime, Sender::Ahead, Sender::AheadWithShort], Sender::InTime);
    let most = if sender == Sender::InTime { 40 } else { 60 };
    for _ in 0..rng.between(2, most) {
        let call = match runner.machine.book() {
            Some(book) => next_call(rng, sender, book, &runner.known),
            None => call_on_unsound(rng),
        };
        // A look leaves the machine; its ticks need not be done here.
        if !matches!(call, Call::Ahead(_)) {
            runner.answer(&call);
        }
        calls.push(call);
    }
    calls
}

fn next_call(rng: &mut Rng, sender: Sender, book: &Book, known: &Reader) -> Call {
    let chance = rng.below(100);
    if book.held && chance < 30 {
        return Call::Release;
    }
    // One more where no more can wait is tried too, but not all the time.
    let full = book.waiting.len() == MOST_WAITING;
    if sender != Sender::InTime && book.block.is_some() && rng.percent(if full { 25 } else { 75 }) {
        let of_text = if full || sender == Sender::Ahead { 30 } else { 1 };
        return if rng.percent(of_text) { Call::Text(text(rng, book, known)) } else { Call::Load(sent(rng, sender, book)) };
    }
    let busy = book.block.is_some();
    match (busy, chance) {
        (_, 0..=2) => Call::Hold,
        (_, 3..=4) => Call::Release,
        (false, 5..=6) | (true, 5..=7) => Call::Stop,
        (false, 7..=10) | (true, 8..=20) => Call::Tick,
        (false, 11..=14) | (true, 21..=54) => run(rng, book),
        (false, 15..=16) | (true, 55..=66) => Call::Ahead(ticks_ahead(rng, book)),
        (false, 17..=18) | (true, 67..=78) => Call::Jump(ticks_ahead(rng, book)),
        (false, 19..=58) | (true, 79..=90) => Call::Load(sent(rng, sender, book)),
        (false, 59..=97) | (true, _) => Call::Text(text(rng, book, known)),
        (false, 98) => Call::Make(settings(rng)),
        (false, _) => Call::Record(record(rng)),
    }
}

/// Lines that chance hardly makes: refused by 34, 37 or 14, and three by 36 where no G or no F is known.
const ASKED: [&str; 8] = ["G4", "G0 X1 F1", "X0.0", "Y0 F1", "J1", "G1 I0 F1", "G2 Y0 F1", "G3 I0 J0 F1"];

/// A line of a job text for this machine, at times damaged, in the bytes that a call file may have.
fn text(rng: &mut Rng, book: &Book, known: &Reader) -> String {
    if rng.percent(8) {
        return rng.one_of(&ASKED, "").to_string();
    }
    let at = start(rng, book);
    let mut line = gen_jobs::line(rng, known, &book.settings, at);
    if rng.percent(35) {
        gen_jobs::damage(rng, &mut line);
    }
    line.into_iter().filter(|byte| (32..=126).contains(byte)).map(char::from).collect()
}

fn call_on_unsound(rng: &mut Rng) -> Call {
    match rng.below(17) {
        0 => Call::Tick,
        1 => Call::Hold,
        2 => Call::Release,
        3 => Call::Stop,
        4 => Call::Run { budget: rng.below(3), length: rng.below(60), fill: rng.below(256) as u8 },
        5 => Call::Load(Load::Line { end: Point::new(1, 0), f: rng.below(3) }),
        6 => Call::Load(Load::Arc { kind: kind(rng), end: ORIGIN, f: 1, i: 1, j: 0 }),
        7..=8 => Call::Text(rng.one_of(&["G1 X1 F100", "", "N1", "G9", "?"], "X1").to_string()),
        9..=11 => Call::Record(record(rng)),
        12..=13 => Call::Ahead(rng.one_of(&TICKS_AHEAD, 0)),
        14 => Call::Jump(rng.one_of(&TICKS_AHEAD, 0)),
        _ => Call::Make(settings(rng)),
    }
}

/// The ends of what question 38 allows and of 64 bits.
const TICKS_AHEAD: [u64; 7] = [0, 1, MOST_TICKS - 1, MOST_TICKS, MOST_TICKS + 1, 1 << 63, u64::MAX];

/// Numbers at the ends of what questions allow and of 64 bits.
const EDGES: [i64; 16] = [
    0,
    1,
    -1,
    2,
    1_000_000,
    -1_000_000,
    1_000_001,
    -1_000_001,
    2_000_000,
    -2_000_000,
    2_000_001,
    -2_000_001,
    i64::MAX,
    i64::MIN,
    3_037_000_500,
    -3_037_000_500,
];

/// The least and the greatest q0 there may be.
const LEAST_Q0: u64 = 60_000_000;
const GREATEST_Q0: u64 = 1_200_000_000;

/// Among them these, what they would be in whole pulses per minute, and such by the charge of a diagonal step.
const UNSIGNED_EDGES: [u64; 18] = [
    0,
    1,
    2,
    LEAST_Q0 / 1_000,
    LEAST_Q0 - 1,
    LEAST_Q0,
    GREATEST_Q0 / 1_000,
    GREATEST_Q0,
    GREATEST_Q0 + 1,
    DIAGONAL * LEAST_Q0 / 1_000,
    DIAGONAL * LEAST_Q0,
    DIAGONAL * GREATEST_Q0,
    2_000_000_000_000,
    2_000_000_000_001,
    u64::MAX,
    1 << 63,
    1 << 32,
    1 << 31,
];

fn edge(rng: &mut Rng) -> i64 {
    rng.one_of(&EDGES, 0)
}

fn unsigned_edge(rng: &mut Rng) -> u64 {
    rng.one_of(&UNSIGNED_EDGES, 0)
}

fn kind(rng: &mut Rng) -> Kind {
    rng.one_of(&[Kind::Clockwise, Kind::OtherWay], Kind::Clockwise)
}

fn sign(rng: &mut Rng) -> i64 {
    rng.one_of(&[1, -1], 1)
}

/// A size: mostly small, at times up to a million.
fn size(rng: &mut Rng) -> i64 {
    match rng.below(10_000) {
        0..=4_999 => rng.between(0, 6),
        5_000..=7_999 => rng.between(0, 40),
        8_000..=9_699 => rng.between(0, 700),
        9_700..=9_979 => rng.between(0, 6_000),
        9_980..=9_997 => rng.between(0, 60_000),
        _ => rng.between(0, 1_000_000),
    }
}

fn settings(rng: &mut Rng) -> Settings {
    let mut made = sound_settings(rng);
    if rng.percent(12) {
        match rng.below(8) {
            0 => made.p = rng.one_of(&[0, 1_001, u64::MAX], 0),
            1 => made.w = rng.one_of(&[0, 999, 20_001, u64::MAX], 0),
            2 => made.x_lower = rng.one_of(&[1, -1_000_001, i64::MIN, i64::MAX], 1),
            3 => made.x_upper = rng.one_of(&[-1, 1_000_001, i64::MIN, i64::MAX], -1),
            4 => made.y_lower = rng.one_of(&[1, -1_000_001, i64::MIN, i64::MAX], 1),
            5 => made.y_upper = rng.one_of(&[-1, 1_000_001, i64::MIN, i64::MAX], -1),
            6 => (made.p, made.w) = (1_001, 999),
            _ => (made.w, made.y_upper) = (20_001, -5),
        }
    }
    made
}

fn sound_settings(rng: &mut Rng) -> Settings {
    let p = if rng.percent(50) { 50 } else { rng.one_of(&[1, 2, 3, 7, 10, 40, 80, 999, 1_000], 1) };
    let w = if rng.percent(40) { 5_000 } else { rng.one_of(&[1_000, 20_000, 1_001, 19_999, 7_777], 1_000) };
    let mut bound = || match rng.below(10) {
        0 => 0,
        1..=2 => rng.between(0, 9),
        3 => rng.between(0, 99),
        4 => rng.between(0, 9_999),
        _ => 1_000_000,
    };
    Settings { p, w, x_lower: -bound(), x_upper: bound(), y_lower: -bound(), y_upper: bound() }
}

/// Mostly quick ones, so that many cycles are seen; at times slow, edges and refused ones.
fn feed(rng: &mut Rng, q0: u64) -> u64 {
    match rng.below(40) {
        0 => 0,
        1 => q0 + rng.one_of(&[1, 1, 1_000], 1),
        2 => unsigned_edge(rng),
        _ => sound_feed(rng, q0),
    }
}

/// Half of those between are whole pulses per minute, which leave no thousandths over.
fn sound_feed(rng: &mut Rng, q0: u64) -> u64 {
    match rng.below(20) {
        0..=6 => q0,
        7..=8 => q0 - rng.one_of(&[1, 1, 999, 1_000], 1),
        9 => q0 / 2,
        10 => q0 / 2 + rng.one_of(&[1, 1_000], 1),
        11 => q0 / 3,
        12 => {
            let few = rng.one_of(&[2, 1_000, 1_000_000], 1);
            1 + rng.below(few)
        }
        13 => 1 + rng.below(q0 / 50),
        14..=16 => FEED_UNIT * (1 + rng.below(q0 / FEED_UNIT)),
        _ => 1 + rng.below(q0),
    }
}

fn to_the_end(book: &Book) -> u64 {
    u64::try_from(book.ticks_to_the_end()).unwrap_or(u64::MAX)
}

/// The working ticks to the end of the block in work and of each that waits.
fn to_the_ends(book: &Book) -> Vec<u64> {
    let (mut copy, mut all, mut ends) = (book.clone(), 0, Vec::new());
    while copy.block.is_some() {
        all += copy.finish_at_once();
        ends.push(u64::try_from(all).unwrap_or(u64::MAX));
    }
    ends
}

/// How far to look: not at all, some ticks, into a block, about an end, about the most there may be. Every tick of a look is done, so
/// that long ones are seldom.
fn ticks_ahead(rng: &mut Rng, book: &Book) -> u64 {
    let ends = to_the_ends(book);
    let end = match rng.below(10) {
        0..=3 => ends.first().copied().unwrap_or(0),
        4..=6 => ends.last().copied().unwrap_or(0),
        _ => rng.one_of(&ends, 0),
    };
    let near = if end < 6_000 || rng.percent(3) { end } else { rng.below(6_000) };
    match rng.below(1_000) {
        0..=79 => 0,
        80..=179 => 1,
        180..=279 => 1 + rng.below(20),
        280..=379 => near.saturating_add(rng.below(60)),
        380..=679 => rng.below(near.saturating_add(2)),
        680..=769 => near,
        770..=839 => near.saturating_sub(1),
        840..=909 => near.saturating_add(1),
        910..=959 => MOST_TICKS + 1,
        960..=996 => rng.one_of(&[MOST_TICKS + 2, 1 << 63, u64::MAX], 0),
        997..=998 => rng.one_of(&[MOST_TICKS - 1, MOST_TICKS, MOST_TICKS], 0),
        _ => rng.below(MOST_TICKS),
    }
}

fn run(rng: &mut Rng, book: &Book) -> Call {
    let to_the_end = to_the_end(book);
    let mut amount = || match rng.below(16) {
        0 => 0,
        1..=3 => to_the_end,
        4 => to_the_end.saturating_sub(1),
        5 => to_the_end.saturating_add(1),
        6..=7 => 1 + rng.below(4),
        8..=10 => rng.below(47),
        11..=12 => 47 + rng.below(4),
        13 => rng.below(5_000),
        14 => u64::MAX,
        _ => rng.below(300),
    };
    let (budget, length) = (amount(), amount());
    // A buffer must be lent in earnest, so its length has an end.
    let longest = if rng.percent(2) { 60_000 } else { 3_000 };
    Call::Run { budget, length: length.min(longest), fill: rng.one_of(&[0, 255, 170, 16, 48], 1) }
}

/// Where a block is meant to start: mostly where it would, at times where it would not, at the point or at another block's end.
fn start(rng: &mut Rng, book: &Book) -> Point {
    match rng.below(100) {
        0..=4 => book.point,
        5..=7 => book.block.map_or(book.point, |block| block.end),
        8 => book.waiting.get(rng.below(book.waiting.len() as u64) as usize).map_or(book.point, |block| block.end),
        _ => book.place(),
    }
}

fn sent(rng: &mut Rng, sender: Sender, book: &Book) -> Load {
    if sender == Sender::AheadWithShort && rng.percent(98) {
        short_load(rng, book)
    } else {
        load(rng, book)
    }
}

fn load(rng: &mut Rng, book: &Book) -> Load {
    let (f, start) = (feed(rng, book.settings.q0()), start(rng, book));
    if rng.percent(45) {
        Load::Line { end: line_end(rng, &book.settings, start), f }
    } else {
        arc_load(rng, start, f)
    }
}

/// A few cycles, about one a tick.
fn short_load(rng: &mut Rng, book: &Book) -> Load {
    let (q0, at) = (book.settings.q0(), book.place());
    let f = rng.one_of(&[q0, q0, q0 - 1, q0 / 2, q0 / 3], q0);
    let (i, j) = (rng.between(-3, 3), rng.between(-3, 3));
    if (i, j) == (0, 0) || rng.percent(50) {
        return Load::Line { end: into_travel(&book.settings, at.moved_by(Point::new(i, j))), f };
    }
    let (kind, start) = (kind(rng), Point::new(-i, -j));
    let seen = if rng.percent(20) { start } else { steps_on(rng, i * i + j * j, kind, start) };
    Load::Arc { kind, end: seen.seen_from(start).moved_by(at), f, i, j }
}

/// Lines in all directions: along an axis, diagonal, nearly so, worked ones, to the bounds, to nowhere.
fn line_end(rng: &mut Rng, settings: &Settings, at: Point) -> Point {
    let long = size(rng);
    let (a, b) = match rng.below(16) {
        0 => (long, 0),
        1 => (0, long),
        2 => (long, long),
        3 => (long, long - 1),
        4 => (long, 1),
        5 => (3, 4),
        6 => (108, 95),
        7 => return Point::new(settings.x_lower, settings.y_upper),
        8 => return Point::new(settings.x_upper + rng.between(-1, 1), settings.y_lower + rng.between(-1, 1)),
        9 if rng.percent(30) => return Point::new(edge(rng), edge(rng)),
        10 if rng.percent(30) => (0, 0),
        _ => (long, rng.between(0, long)),
    };
    let (a, b) = if rng.percent(50) { (a, b) } else { (b, a) };
    let end = at.moved_by(Point::new(a * sign(rng), b * sign(rng)));
    if rng.percent(85) {
        into_travel(settings, end)
    } else {
        end
    }
}

pub fn into_travel(settings: &Settings, at: Point) -> Point {
    Point::new(at.x.max(settings.x_lower).min(settings.x_upper), at.y.max(settings.y_lower).min(settings.y_upper))
}

fn arc_load(rng: &mut Rng, at: Point, f: u64) -> Load {
    let kind = kind(rng);
    if rng.percent(2) {
        let (i, j) = rng.one_of(&NO_CENTRES, (0, 0));
        return Load::Arc { kind, end: at, f, i, j };
    }
    let (i, j) = centre(rng);
    let n = i * i + j * j;
    let start = Point::new(-i, -j);
    let seen = arc_end(rng, n, kind, start);
    let end = seen.moved_by(Point::new(i, j)).moved_by(at);
    Load::Arc { kind, end, f, i, j }
}

/// (I, J) that question 14 refuses.
const NO_CENTRES: [(i64, i64); 5] = [(0, 0), (1_000_001, 0), (0, -1_000_001), (i64::MIN, i64::MAX), (1, 3_037_000_500)];

/// (I, J): along an axis, diagonal or any.
fn centre(rng: &mut Rng) -> (i64, i64) {
    let long = size(rng).max(1);
    let short = match rng.below(6) {
        0 | 1 => 0,
        2 => long,
        _ => rng.between(0, long),
    };
    let (i, j) = if rng.percent(50) { (long, short) } else { (short, long) };
    (i * sign(rng), j * sign(rng))
}

/// An end seen from the centre: full turns, some steps on, anywhere on the circle, at the ends of F,
/// and one pulse beside.
fn arc_end(rng: &mut Rng, n: i64, kind: Kind, start: Point) -> Point {
    match rng.below(20) {
        0..=3 => start,
        4..=9 => steps_on(rng, n, kind, start),
        10..=14 => circle_point(rng, n).unwrap_or(start),
        15..=17 => point_at_the_ends_of_f(rng, n).unwrap_or(start),
        18 => beside(rng, start),
        _ => circle_point(rng, n).map_or(start, |at| beside(rng, at)),
    }
}

fn beside(rng: &mut Rng, at: Point) -> Point {
    at.moved_by(Point::new(rng.between(-1, 1), rng.between(-1, 1)))
}

fn steps_on(rng: &mut Rng, n: i64, kind: Kind, start: Point) -> Point {
    let circle = Circle::of(n);
    let mut here = start;
    for _ in 0..rng.between(1, 60) {
        here = circle.next(kind, here).unwrap_or(here);
    }
    here
}

/// A circle point anywhere: the shorter coordinate by chance, the longer one by trying.
pub fn circle_point(rng: &mut Rng, n: i64) -> Option<Point> {
    for _ in 0..50 {
        let root = root_up(n.unsigned_abs().into()) as i64;
        let short = rng.between(0, root);
        let rest = (n - short * short).max(0);
        let about = root_up(rest.unsigned_abs().into()) as i64;
        let long = (about - 1).max(short)..=about + 1;
        let found = long.map(|long| Point::new(long, short)).find(|&at| is_circle_point(n, at));
        if let Some(found) = found {
            return Some(turned(rng, found));
        }
    }
    None
}

pub fn turned(rng: &mut Rng, at: Point) -> Point {
    let (x, y) = if rng.percent(50) { (at.x, at.y) } else { (at.y, at.x) };
    Point::new(x * sign(rng), y * sign(rng))
}

/// A point with F = -m, F = m - 1 or F = m, if this N has one: "An end test on F from -m to m with both
/// ends allowed" is a plausible slip. Only the last is no circle point.
pub fn point_at_the_ends_of_f(rng: &mut Rng, n: i64) -> Option<Point> {
    let which = rng.below(3);
    let root = root_up(n.unsigned_abs().into()) as i64;
    let first = rng.between(0, root);
    for at in 0..=root.min(3_000) {
        let short = (first + at) % (root + 1);
        let about = root_up((n - short * short).max(0).unsigned_abs().into()) as i64;
        for m in (about - 2).max(short)..=about + 2 {
            let f = m * m + short * short - n;
            let wanted = match which {
                0 => -m,
                1 => m - 1,
                _ => m,
            };
            if f == wanted {
                return Some(turned(rng, Point::new(m, short)));
            }
        }
    }
    None
}

/// A made-up record: a sound one as far as its arc stays in travel, or one with a number or two wrong.
pub fn record(rng: &mut Rng) -> Record {
    let settings = sound_settings(rng);
    let (remainder, point, held) = (remainder(rng, settings.q0()), in_travel(rng, &settings), rng.percent(20));
    let idle = Record { settings, point, held, remainder, work: Work::Nothing, left: 0, waiting: 0, blocks: Vec::new() };
    let mut made = match rng.below(10) {
        0..=1 => idle,
        2..=5 => with_line(rng, idle),
        _ => with_arc(rng, idle),
    };
    if rng.percent(65) {
        made = with_queue(rng, made);
    }
    made.left = counted(&made);
    if rng.percent(45) {
        damage(rng, &mut made);
        if rng.percent(10) {
            damage(rng, &mut made);
        }
    }
    made
}

/// Any sound one, those that no history leaves between two blocks as often as others, and at times one beyond.
fn remainder(rng: &mut Rng, q0: u64) -> u64 {
    let (straight, diagonal) = (STRAIGHT * q0, DIAGONAL * q0);
    match rng.below(20) {
        0..=1 => 0,
        2 => straight - 1,
        3 => straight,
        4..=9 => straight + rng.below(diagonal - straight),
        10..=11 => diagonal - 1,
        12 => diagonal,
        13 => diagonal + rng.below(straight),
        _ => rng.below(straight),
    }
}

/// At times one that a tick or some of this feed bring to the charge of the next step exactly, or to one less: "reaching counts", and
/// by chance a diagonal step is hardly ever just reached.
fn nearly_due(rng: &mut Rng, idle: &Record, f: u64, charge: u64) -> u64 {
    let ticks = rng.one_of(&[1, 1, 1, 1, 3], 1);
    let found = (charge * idle.settings.q0()).checked_sub(PAID_PER_FEED * f * ticks + rng.below(2));
    found.filter(|_| rng.percent(60)).unwrap_or(idle.remainder)
}

fn in_travel(rng: &mut Rng, settings: &Settings) -> Point {
    let any = Point::new(size(rng) * sign(rng), size(rng) * sign(rng));
    match rng.below(5) {
        0 => Point::new(settings.x_upper, settings.y_lower),
        1 => any_in_travel(rng, settings),
        _ => into_travel(settings, any),
    }
}

pub fn any_in_travel(rng: &mut Rng, settings: &Settings) -> Point {
    Point::new(rng.between(settings.x_lower, settings.x_upper), rng.between(settings.y_lower, settings.y_upper))
}

fn with_line(rng: &mut Rng, idle: Record) -> Record {
    let (start, end) = (idle.point, in_travel(rng, &idle.settings));
    if start == end {
        return idle;
    }
    let q = line::cycles(start, end);
    let c = match rng.below(4) {
        0 => 0,
        1 => q - 1,
        _ => rng.below(q),
    };
    let f = sound_feed(rng, idle.settings.q0());
    let remainder = nearly_due(rng, &idle, f, LINE_CYCLE);
    Record { point: line::point_after(start, end, q, c), remainder, work: Work::Line { start, end, f, c }, ..idle }
}

/// Also circles that no load gives: N no sum of two squares, points with any F, full turns from them.
fn with_arc(rng: &mut Rng, idle: Record) -> Record {
    let n = match rng.below(1_000) {
        0..=599 => rng.between(1, 60),
        600..=899 => rng.between(1, 3_000),
        900..=997 => rng.between(1, 2_000_000),
        998 => LARGEST_N - rng.between(0, 3),
        _ => rng.between(1, LARGEST_N),
    };
    let Some(here) = circle_point(rng, n) else { return idle };
    // In a narrow travel hardly any circle has room.
    let settings = if rng.percent(60) { Settings { p: idle.settings.p, w: idle.settings.w, ..USUAL } } else { idle.settings };
    let kind = kind(rng);
    let centre = idle.point.seen_from(here);
    let end = match rng.below(5) {
        0 => here,
        1..=2 => steps_on(rng, n, kind, here),
        3 => circle_point(rng, n).unwrap_or(here),
        _ => point_at_the_ends_of_f(rng, n).unwrap_or(here),
    };
    let f = sound_feed(rng, idle.settings.q0());
    let charge = Circle::of(n).next(kind, here).map_or(STRAIGHT, |next| charge::of_arc_step(here, next));
    let remainder = nearly_due(rng, &idle, f, charge);
    Record { settings, remainder, work: Work::Arc { kind, centre, n: n.unsigned_abs(), end: end.moved_by(centre), f }, ..idle }
}

/// Behind what is in work some blocks, or as many as there may be, each accepted from the end of the one before it.
fn with_queue(rng: &mut Rng, made: Record) -> Record {
    // A remainder beyond what is sound hinders no load.
    let Some(mut book) = without_queue(&Record { remainder: 0, ..made.clone() }) else { return made };
    let most = match rng.below(10) {
        0..=3 => 1 + rng.below(3) as usize,
        4..=6 => 1 + rng.below(16) as usize,
        7 => MOST_WAITING - 1,
        _ => MOST_WAITING,
    };
    for _ in 0..5 * most {
        if book.block.is_none() || book.waiting.len() == most {
            break;
        }
        let load = load(rng, &book);
        let _ = book.load(&load);
    }
    made.with_blocks(book.waiting.iter().map(Block::given).collect())
}

/// The cycles still to do, counted afresh, of a record sound or not: what is no line and no arc has none.
pub fn counted(record: &Record) -> u64 {
    let (mut all, mut place) = match record.work {
        Work::Nothing => (0, record.point),
        Work::Line { start, end, c, .. } => (line_counted(start, end).saturating_sub(c), end),
        Work::Arc { kind, centre, n, end, .. } => (arc_counted(n, kind, record.point.seen_from(centre), end.seen_from(centre)), end),
    };
    for block in &record.blocks {
        all += match *block {
            Load::Line { end, .. } => line_counted(place, end),
            Load::Arc { kind, end, i, j, .. } => {
                let centre = place.moved_by(Point::new(i, j));
                let n = i.saturating_mul(i).saturating_add(j.saturating_mul(j));
                arc_counted(n.unsigned_abs(), kind, place.seen_from(centre), end.seen_from(centre))
            }
        };
        place = block.end();
    }
    all
}

/// None has more than four million pulses on an axis.
fn line_counted(start: Point, end: Point) -> u64 {
    if start.x.abs_diff(end.x).max(start.y.abs_diff(end.y)) > 4_000_000 {
        return 0;
    }
    line::cycles(start, end)
}

fn arc_counted(n: u64, kind: Kind, here: Point, end: Point) -> u64 {
    let n = i64::try_from(n).unwrap_or(0);
    if !(1..=LARGEST_N).contains(&n) || !is_circle_point(n, here) || !is_circle_point(n, end) {
        return 0;
    }
    arc::walk(n, kind, here, end, |_| ()).map_or(0, |told| told.cycles)
}

/// One number of the record off by one, or at an edge; or one thing wrong with what waits. The cycles still to do are then mostly those
/// of what is there now, so that nothing else is wrong.
fn damage(rng: &mut Rng, made: &mut Record) {
    // The last ones are of what waits.
    let which = if made.waiting > 0 && rng.percent(50) { 15 } else { rng.below(16) };
    match which {
        0 => hurt_settings(rng, &mut made.settings),
        1 => hurt(rng, &mut made.point.x),
        2 => hurt(rng, &mut made.point.y),
        3 => hurt_unsigned(rng, &mut made.remainder),
        4..=6 => hurt_work(rng, &mut made.work),
        7..=8 => return hurt_figure(rng, made),
        9..=10 => *made = with_nothing_in_work(made),
        11 if made.work != Work::Nothing => {
            fill_up(made);
            made.waiting = rng.one_of(&[17, 17, 17, 18, 32, (1 << 32) + 16, u64::MAX], 17);
        }
        _ => hurt_queue(rng, made),
    }
    if rng.percent(85) {
        made.left = counted(made);
    }
}

/// The figure off by one or at an edge; that of the block in work alone, or of those that wait alone; too great for so many bits.
fn hurt_figure(rng: &mut Rng, made: &mut Record) {
    let in_work = counted(&made.clone().with_blocks(Vec::new()));
    made.left = match rng.below(8) {
        0..=1 => made.left.saturating_add(1),
        2..=3 => made.left.saturating_sub(1),
        4 => in_work,
        5 => made.left.saturating_sub(in_work),
        6 => made.left | rng.one_of(&[1 << 32, 1 << 63], 0),
        _ => unsigned_edge(rng),
    };
}

/// "none waiting when nothing is in work": all would be accepted in turn from where the machine stands.
fn with_nothing_in_work(made: &Record) -> Record {
    let point = match made.work {
        Work::Nothing => made.point,
        Work::Line { end, .. } | Work::Arc { end, .. } => end,
    };
    Record { point, work: Work::Nothing, ..made.clone() }
}

/// Where the first so many of those that wait end.
fn place_behind(made: &Record, count: usize) -> Point {
    let last = count.checked_sub(1).and_then(|at| made.blocks.get(at));
    last.map_or(with_nothing_in_work(made).point, Load::end)
}

/// Lines to and fro in the places that are left.
fn fill_up(made: &mut Record) {
    let (there, f) = (place_behind(made, made.blocks.len()), made.settings.q0());
    let beside = Point::new(if there.x < made.settings.x_upper { there.x + 1 } else { there.x.saturating_sub(1) }, there.y);
    let ends = [beside, there].into_iter().cycle().take(MOST_WAITING.saturating_sub(made.blocks.len()));
    made.blocks.extend(ends.map(|end| Load::Line { end, f }));
}

/// Something wrong with one of those that wait, or two of them in the wrong order.
fn hurt_queue(rng: &mut Rng, made: &mut Record) {
    let count = made.blocks.len();
    let at = rng.below(count as u64) as usize;
    let (start, point, q0) = (place_behind(made, at), made.point, made.settings.q0());
    match rng.below(9) {
        0 if count > 1 => made.blocks.swap(at, (at + 1) % count),
        1 => made.blocks.get_mut(at).into_iter().for_each(|block| *block = out_of_travel(&made.settings, start, q0)),
        _ => made.blocks.get_mut(at).into_iter().for_each(|block| hurt_block(rng, block, start, point, q0)),
    }
}

/// A full turn that leaves the travel at the bound nearest to its start, if a turn that small is there.
fn out_of_travel(settings: &Settings, start: Point, f: u64) -> Load {
    let room = [start.x.abs_diff(settings.x_lower), start.x.abs_diff(settings.x_upper)].map(|room| room.clamp(1, 20_000) as i64);
    let i = if room[0] < room[1] { -room[0] } else { room[1] };
    Load::Arc { kind: Kind::OtherWay, end: start, f, i, j: 0 }
}

/// One thing wrong with a block that starts here.
fn hurt_block(rng: &mut Rng, block: &mut Load, start: Point, point: Point, q0: u64) {
    let which = rng.below(10);
    match block {
        Load::Line { f, .. } | Load::Arc { f, .. } if which == 0 => *f = rng.one_of(&[0, q0.saturating_add(1), u64::MAX, 1 << 63], 0),
        Load::Line { end, .. } | Load::Arc { end, .. } if which == 1 => hurt(rng, &mut end.x),
        Load::Line { end, .. } | Load::Arc { end, .. } if which == 2 => hurt(rng, &mut end.y),
        // To where it starts: a line only where it would start at the point.
        Load::Line { end, .. } if which < 8 => *end = start,
        // As it would be if it started at the point.
        Load::Line { end, .. } => *end = end.seen_from(start).moved_by(point),
        Load::Arc { end, .. } if which < 5 => *end = end.seen_from(start).moved_by(point),
        Load::Arc { kind, .. } if which == 5 => *kind = if *kind == Kind::Clockwise { Kind::OtherWay } else { Kind::Clockwise },
        Load::Arc { i, .. } if which == 6 => hurt(rng, i),
        Load::Arc { j, .. } if which == 7 => hurt(rng, j),
        Load::Arc { i, j, .. } => (*i, *j) = rng.one_of(&NO_CENTRES, (0, 0)),
    }
}

pub fn hurt_settings(rng: &mut Rng, settings: &mut Settings) {
    match rng.below(6) {
        0 => settings.p = rng.one_of(&[0, 1_001, u64::MAX], 0),
        1 => settings.w = rng.one_of(&[0, 999, 20_001, u64::MAX, u64::MAX / 60_000 + 1], 0),
        2 => hurt(rng, &mut settings.x_lower),
        3 => hurt(rng, &mut settings.x_upper),
        4 => hurt(rng, &mut settings.y_lower),
        _ => hurt(rng, &mut settings.y_upper),
    }
}

fn hurt_work(rng: &mut Rng, work: &mut Work) {
    match work {
        Work::Nothing => (),
        Work::Line { start, end, f, c } => match rng.below(8) {
            0 => hurt(rng, &mut start.x),
            1 => hurt(rng, &mut start.y),
            2 => hurt(rng, &mut end.x),
            3 => hurt(rng, &mut end.y),
            4 => hurt_unsigned(rng, f),
            5 => *end = *start,
            _ => hurt_unsigned(rng, c),
        },
        Work::Arc { centre, n, end, f, .. } => match rng.below(8) {
            0 => hurt(rng, &mut centre.x),
            1 => hurt(rng, &mut centre.y),
            2 => hurt(rng, &mut end.x),
            3 => hurt(rng, &mut end.y),
            4 => hurt_unsigned(rng, f),
            _ => hurt_unsigned(rng, n),
        },
    }
}

fn hurt(rng: &mut Rng, number: &mut i64) {
    *number = match rng.below(3) {
        0 => number.saturating_add(1),
        1 => number.saturating_sub(1),
        _ => edge(rng),
    };
}

fn hurt_unsigned(rng: &mut Rng, number: &mut u64) {
    *number = match rng.below(3) {
        0 => number.saturating_add(1),
        1 => number.saturating_sub(1),
        _ => unsigned_edge(rng),
    };
}

#[cfg(test)]
mod tests {
    use super::*;
    use crate::book::Path;
    use crate::sound::book_of;
    use std::collections::HashMap;
    use std::sync::OnceLock;

    /// Which counts a call goes into: that of all, those of what is left over, and those of loads, lines of text, runs and looks by where
    /// they are asked.
    fn counts(call: &Call, runner: &Runner) -> Vec<&'static str> {
        let mut all = vec!["any"];
        all.extend(runner.machine.book().into_iter().flat_map(counts_of_remainder));
        all.extend(runner.machine.book().into_iter().flat_map(|book| counts_of_feed(call, book, &runner.known)));
        let waiting = runner.machine.book().map_or(0, |book| book.waiting.len());
        let full = waiting == MOST_WAITING;
        match (call, runner.machine.book()) {
            (Call::Text(_), book) => {
                all.push("text");
                all.extend(book.filter(|book| book.settings.p != 50).map(|_| "text at another p"));
                all.extend(book.filter(|book| book.block.is_some()).map(|_| if full { "text, full" } else { "text at work" }));
            }
            (Call::Load(load), Some(book)) if book.block.is_some() => {
                all.push(if full { "load, full" } else { "load at work" });
                all.extend((waiting == 15).then_some("load to the last place"));
                all.extend((load.end() == book.point && load.end() != book.place()).then_some("load to the point"));
                all.extend((load.end() == book.place() && load.end() != book.point).then_some("load to the place"));
                all.extend(book.held.then_some("load, held"));
            }
            (Call::Record(record), _) if record.waiting > 0 => {
                all.push(if book_of(record).is_some() { "a sound queue" } else { "an unsound queue" })
            }
            (Call::Run { .. }, Some(_)) if waiting > 0 => all.push("run, waiting"),
            (Call::Tick, Some(_)) if waiting > 0 => all.push("tick, waiting"),
            (Call::Stop, Some(_)) if waiting > 0 => all.push("stop, waiting"),
            (Call::Hold, Some(_)) if waiting > 0 => all.push("hold, waiting"),
            (Call::Ahead(_), None) => all.push("ahead of an unsound record"),
            (Call::Jump(_), None) => all.push("jump of an unsound record"),
            (Call::Ahead(ticks), Some(book)) => all.extend(["ahead"].into_iter().chain(counts_of_look(book, *ticks))),
            (Call::Jump(ticks), Some(book)) => all.extend(["jump"].into_iter().chain(counts_of_look(book, *ticks))),
            _ => (),
        }
        all
    }

    /// Loads by their feed; lines of text by the point of their F, or by the F that they take over.
    fn counts_of_feed(call: &Call, book: &Book, known: &Reader) -> Vec<&'static str> {
        let q0 = book.settings.q0();
        match call {
            Call::Load(load) => vec![match load.feed() {
                1 => "load at 1",
                f if f == q0 => "load at q0",
                f if f == q0 + 1 => "load above q0",
                f if f % 1_000 > 0 => "load with thousandths",
                _ => "load without thousandths",
            }],
            Call::Text(line) if line.contains('F') => {
                let feed = line.split('F').nth(1).unwrap_or("").trim_start_matches(|byte: char| byte.is_ascii_digit());
                vec![if feed.starts_with('.') { "text with a point in F" } else { "text without a point in F" }]
            }
            Call::Text(_) if known.f.is_some_and(|f| f % 1_000 > 0) => vec!["text at a known F with thousandths"],
            Call::Text(_) if known.f == Some(0) => vec!["text at a known F of 0"],
            _ => Vec::new(),
        }
    }

    /// Whether more is left over than a straight step is charged, and whether a diagonal step of an arc is just due on the next tick,
    /// or one short of it.
    fn counts_of_remainder(book: &Book) -> Vec<&'static str> {
        let (q0, mut all) = (book.settings.q0(), Vec::new());
        let path = book.block.map(|block| block.path);
        all.extend((!book.remainder.is_multiple_of(1_000_000)).then_some("thousandths left over"));
        all.extend((!book.remainder.is_multiple_of(1_000)).then_some("what no feed leaves"));
        if book.remainder >= 1_000 * q0 {
            all.push(match path {
                None => "much left over, idle",
                Some(Path::Line) => "much left over, on a line",
                Some(Path::Arc { .. }) => "much left over, on an arc",
            });
        }
        if let (Some(Path::Arc { .. }), false) = (path, book.held) {
            let mut next = book.clone();
            match (next.tick(), next.remainder) {
                (byte, 0) if byte & 3 != 0 && byte & 12 != 0 => all.push("a diagonal step just due"),
                (0, left) if left == 1_414 * q0 - 1 => all.push("a diagonal step one short of due"),
                _ => (),
            }
        }
        all
    }

    /// From where a look goes, how far, and how near to the block's end.
    fn counts_of_look(book: &Book, ticks: u64) -> Vec<&'static str> {
        let from = match book.block {
            None => "from idle",
            Some(_) if book.held => "from held",
            Some(block) if book.settings.q0() / block.f >= 100 => "at a slow feed",
            Some(Block { path: Path::Line, .. }) => "on a line",
            Some(Block { path: Path::Arc { .. }, .. }) => "on an arc",
        };
        let far = match ticks {
            0 => "of none",
            1 => "of one",
            999_999 => "of one less than the most",
            1_000_000 => "of the most",
            1_000_001 => "of one too many",
            u64::MAX => "of the greatest number",
            _ => "of some",
        };
        let ends = if book.held { Vec::new() } else { to_the_ends(book) };
        let near = match ends.iter().copied().min_by_key(|end| end.abs_diff(ticks)) {
            Some(end) if end == ticks => "to an end",
            Some(end) if end.abs_diff(ticks) == 1 && ticks < end => "to just before an end",
            Some(end) if end.abs_diff(ticks) == 1 => "to just after an end",
            _ => "to elsewhere",
        };
        let through = match ends.iter().filter(|&&end| end <= ticks).count() {
            0 => "through no end",
            1 if ends.len() > 1 => "through one end",
            1 => "through the one end",
            many if many < ends.len() => "through many ends",
            17 => "through seventeen ends",
            _ => "through all ends",
        };
        vec![from, far, near, through]
    }

    type Met = HashMap<(&'static str, String), u64>;

    /// How often each answer turns up in each count.
    fn times(count: &'static str, key: &str) -> u64 {
        static MET: OnceLock<Met> = OnceLock::new();
        MET.get_or_init(meet).get(&(count, key.to_string())).copied().unwrap_or(0)
    }

    /// By its first word, a refusal by its number too.
    fn meet() -> Met {
        let mut met = HashMap::new();
        for index in 0..4_000 {
            let mut runner = Runner::fresh();
            for call in history(1, index) {
                let counts = counts(&call, &runner);
                let told = runner.answer(&call);
                let mut words = told.split(' ').skip(1);
                let first = words.next().unwrap_or("").to_string();
                let key = if first == "refused" { format!("refused {}", words.next().unwrap_or("")) } else { first };
                counts.into_iter().for_each(|count| *met.entry((count, key.clone())).or_default() += 1);
            }
        }
        println!("{met:?}");
        met
    }

    /// Every answer of the paper turns up in a modest number of histories; a line of text meets its own questions and load's but
    /// 13, at a p other than 50 too.
    #[test]
    fn histories_meet_every_answer() {
        for number in [1, 2, 3, 9, 10, 11, 12, 13, 14, 15, 16].map(|n| format!("refused {n}")) {
            assert!(times("any", &number) > 50, "{number}");
        }
        for word in ["made", "set", "bits", "none", "byte", "done", "idle", "held", "ended", "spent", "full"] {
            assert!(times("any", word) > 100, "{word}");
        }
        for number in
            (31..=37).chain([10, 11, 12, 14, 15, 16]).map(|n| format!("refused {n}")).chain(["bits".to_string(), "none".to_string()])
        {
            assert!(times("text", &number) > 50 && times("text at another p", &number) > 20, "{number}");
        }
        assert!(times("text", "refused 9") > 100);
        assert_eq!((times("text", "refused 13"), times("text, full", "bits"), times("any", "refused 0")), (0, 0, 0));
        assert_eq!(times("text at work", "refused 10"), 0);
    }

    /// Lines of text at a machine at work: where no more can wait they meet those that stand before 10, and else load's too.
    #[test]
    fn histories_hold_text_at_work() {
        for number in (31..=37).chain([10]).map(|n| format!("refused {n}")) {
            assert!(times("text, full", &number) > 10, "{number}");
        }
        for number in (31..=37).chain([11, 12, 14, 15, 16]).map(|n| format!("refused {n}")) {
            assert!(times("text at work", &number) > 10, "{number}");
        }
        assert!(times("text at work", "none") > 100 && times("text, full", "none") > 20 && times("text at work", "bits") > 1_000);
    }

    /// Loads behind a block in work, up to the sixteenth that waits and beyond; every other call with blocks waiting.
    #[test]
    fn histories_hold_queues() {
        for number in (11..=16).map(|n| format!("refused {n}")).chain(["bits".to_string()]) {
            assert!(times("load at work", &number) > 100, "{number}");
        }
        assert!(times("load, full", "refused 10") > 500 && times("load to the last place", "bits") > 100);
        assert_eq!(times("load at work", "refused 10"), 0);
        assert!((11..=16).all(|n| times("load, full", &format!("refused {n}")) == 0));
        assert!(times("load to the point", "bits") > 50 && times("load to the place", "refused 13") > 50);
        assert!(times("load, held", "bits") > 100 && times("load, held", "refused 10") > 20);
        for word in ["ended", "spent", "full", "held"] {
            assert!(times("run, waiting", word) > 100, "{word}");
        }
        assert!(times("tick, waiting", "byte") > 500 && times("stop, waiting", "done") > 100 && times("hold, waiting", "done") > 100);
        assert!(times("a sound queue", "set") > 200 && times("an unsound queue", "set") > 200);
    }

    /// How many histories have so many blocks at once, the one in work counted too, and not more: of every number up to seventeen.
    #[test]
    fn histories_hold_up_to_seventeen_blocks() {
        let mut met = [0; 18];
        for index in 0..2_000 {
            let (mut runner, mut most) = (Runner::fresh(), 0);
            for call in history(1, index).iter().filter(|call| !matches!(call, Call::Ahead(_))) {
                runner.answer(call);
                let blocks = runner.machine.book().map_or(0, |book| book.waiting.len() + usize::from(book.block.is_some()));
                most = most.max(blocks);
            }
            met[most] += 1;
        }
        println!("{met:?}");
        assert!(met[1..].iter().all(|&times| times > 10) && met[2..17].iter().sum::<u64>() > 800 && met[17] > 300);
    }

    /// Looks and jumps from everywhere and of every length, refused ones too.
    #[test]
    fn histories_hold_every_look() {
        for count in ["ahead", "jump", "from idle", "from held", "at a slow feed", "on a line", "on an arc"] {
            assert!(times(count, "ahead") > 50 && times(count, "refused 38") > 20, "{count}");
        }
        for count in ["of none", "of one", "of some", "to an end", "to just before an end", "to just after an end"] {
            assert!(times(count, "ahead") > 100, "{count}");
        }
        assert!(times("of one less than the most", "ahead") > 2 && times("of the most", "ahead") > 5);
        assert!(times("of one too many", "refused 38") > 100 && times("of the greatest number", "refused 38") > 50);
        assert!(times("ahead of an unsound record", "refused 9") > 50 && times("jump of an unsound record", "refused 9") > 20);
        for count in ["through no end", "through one end", "through the one end", "through many ends", "through all ends"] {
            assert!(times(count, "ahead") > 100, "{count}");
        }
        assert!(times("through seventeen ends", "ahead") > 20);
    }

    /// Calls of all kinds where more is left over than a straight step is charged, and where a diagonal one is just due or just not.
    #[test]
    fn histories_hold_what_is_left_over() {
        for count in ["much left over, on a line", "much left over, on an arc"] {
            for word in ["byte", "ended", "spent", "full", "ahead", "done", "bits"] {
                assert!(times(count, word) > 10, "{count} {word}");
            }
        }
        assert!(times("much left over, idle", "bits") > 50 && times("much left over, idle", "done") > 5);
        for count in ["a diagonal step just due", "a diagonal step one short of due"] {
            let ticking = ["byte", "ended", "spent", "full", "ahead"].map(|word| times(count, word));
            assert!(ticking.iter().sum::<u64>() > 10, "{count} {ticking:?}");
        }
    }

    /// Feeds at their ends and with thousandths of a pulse, given by a load, by an F with a point, and by one known from an earlier line;
    /// what they leave over, and what no feed leaves.
    #[test]
    fn histories_hold_feeds_with_thousandths() {
        assert!(times("load at q0", "bits") > 1_000 && times("load at 1", "bits") > 20 && times("load above q0", "refused 11") > 100);
        assert!(times("load with thousandths", "bits") > 1_000 && times("load without thousandths", "bits") > 1_000);
        assert_eq!((times("load above q0", "bits"), times("load at q0", "refused 11")), (0, 0));
        for word in ["bits", "none", "refused 11", "refused 32", "refused 33"] {
            assert!(times("text with a point in F", word) > 50 && times("text without a point in F", word) > 50, "{word}");
        }
        for word in ["bits", "none", "refused 32"] {
            assert!(times("text at a known F with thousandths", word) > 100, "{word}");
        }
        assert!(times("text at a known F of 0", "refused 11") > 10 && times("text at a known F of 0", "bits") == 0);
        for count in ["thousandths left over", "what no feed leaves"] {
            assert!(["byte", "ended", "spent", "full", "ahead", "done", "bits"].iter().all(|word| times(count, word) > 100), "{count}");
        }
    }

    /// Made-up records but for those on great circles, whose walks take long.
    fn records(seed: u64, count: u64) -> impl Iterator<Item = Record> {
        let all = (0..count).map(move |index| record(&mut Rng::new(seed, index)));
        all.filter(|record| !matches!(record.work, Work::Arc { n, .. } if n > 10_000_000_000))
    }

    /// Made-up remainders of every size, with nothing, a line and an arc in work: sound below what a straight step is charged and from
    /// there on, and beyond, where 9 is answered for that alone.
    #[test]
    fn made_up_remainders() {
        let mut met: HashMap<(&str, &str), u64> = HashMap::new();
        // What else may be wrong with a record is not counted.
        for record in records(8, 2_500).filter(|record| book_of(&Record { remainder: 0, ..record.clone() }).is_some()) {
            let work = match record.work {
                Work::Nothing => "idle",
                Work::Line { .. } => "line",
                Work::Arc { .. } => "arc",
            };
            let q0 = record.settings.q0();
            let size = match record.remainder {
                small if small < 1_000 * q0 => "small",
                great if great < 1_414 * q0 => "great",
                _ => "beyond",
            };
            assert_eq!(size != "beyond", book_of(&record).is_some());
            *met.entry((work, size)).or_default() += 1;
        }
        println!("{met:?}");
        for work in ["idle", "line", "arc"] {
            assert!(["small", "great"].iter().all(|size| met[&(work, *size)] > 30) && met[&(work, "beyond")] > 10, "{work}");
        }
    }

    /// What is wrong with a made-up record's waiting blocks or figure alone, none where nothing is, and "else" where something else is.
    fn fault(record: &Record) -> Option<String> {
        if book_of(record).is_some() {
            return None;
        }
        let figure_right = record.left == counted(record);
        let Some(mut book) = without_queue(record) else { return Some("else".to_string()) };
        let (idle, places) = (book.block.is_none(), record.waiting <= 16);
        let mut refused = None;
        for load in &record.blocks {
            let at_the_point = Book::opened(book.settings, record.point, false, 0, None).load(load).is_ok();
            refused =
                refused.or(book.load(load).err().map(|number| format!("{number}{}", if at_the_point { ", not at the point" } else { "" })));
        }
        Some(match (refused, figure_right) {
            (None, true) if !places => "more than sixteen".to_string(),
            (None, true) if idle => "behind nothing".to_string(),
            (None, false) if idle && record.waiting == 0 => "figure of nothing".to_string(),
            (None, false) if places && !idle => match record.left.abs_diff(counted(record)) {
                1 if record.waiting > 0 => "figure off by one, waiting".to_string(),
                1 => "figure off by one".to_string(),
                _ => "figure".to_string(),
            },
            // Where a seventeenth is refused, the first sixteen are not.
            (Some(number), true) if places && !idle => number,
            _ => "else".to_string(),
        })
    }

    /// Whether all that wait would be accepted if two of them stood the other way round. Great circles, whose walks take long, are left
    /// out.
    fn in_the_wrong_order(record: &Record) -> bool {
        let short = |block: &Load| !matches!(*block, Load::Arc { i, j, .. } if i.unsigned_abs().max(j.unsigned_abs()) > 500);
        let swapped = |at: usize| {
            let mut other = record.clone();
            other.blocks.swap(at, (at + 1) % record.blocks.len());
            Record { left: counted(&other), ..other }
        };
        record.blocks.iter().all(short) && (0..record.blocks.len()).any(|at| book_of(&swapped(at)).is_some())
    }

    /// Made-up queues: sound ones of every length, and ones with each single fault.
    #[test]
    fn made_up_queues() {
        let (mut sound, mut faults, mut wrong_order) = ([0; 17], HashMap::<String, u64>::new(), 0);
        for record in records(9, 3_000) {
            match fault(&record) {
                None => sound[record.blocks.len()] += 1,
                Some(fault) => {
                    let refused = fault.starts_with(|first: char| first.is_ascii_digit());
                    wrong_order += u64::from(refused && in_the_wrong_order(&record));
                    *faults.entry(fault).or_default() += 1;
                }
            }
        }
        println!("{sound:?} {faults:?} {wrong_order}");
        assert!(wrong_order > 20);
        let times = |fault: &str| faults.get(fault).copied().unwrap_or(0);
        assert!(sound.iter().all(|&times| times > 5) && sound[15] > 50 && sound[16] > 100);
        for fault in
            ["more than sixteen", "behind nothing", "figure of nothing", "figure", "figure off by one", "figure off by one, waiting"]
        {
            assert!(times(fault) > 10, "{fault}");
        }
        for number in 11..=16 {
            let (all, beside) = (number.to_string(), format!("{number}, not at the point"));
            assert!(times(&all) + times(&beside) > 8, "{number}");
        }
        assert!(times("13, not at the point") > 30 && times("15, not at the point") > 5);
    }

    /// What is generated says of which level it is.
    #[test]
    fn the_level_stands_first() {
        let mut out = Vec::new();
        write_calls(1, 2, &mut out).unwrap();
        let text = String::from_utf8(out).unwrap();
        assert!(text.starts_with("# level 4\n# history 0 of seed 1\n> "));
        assert_eq!(text.matches("# level").count(), 1);
    }

    #[test]
    fn the_same_seed_gives_the_same() {
        assert_eq!(history(5, 9), history(5, 9));
        assert_ne!(history(5, 9), history(6, 9));
    }
}
