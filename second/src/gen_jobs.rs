//! Made-up job texts, valid and damaged, for p 50, w 5,000 and the widest travel or for settings made up too.

use std::io::{self, Write};
use std::ops::Range;

use crate::book::Book;
use crate::gen::{any_in_travel, circle_point, hurt_settings, into_travel, point_at_the_ends_of_f, turned};
use crate::job::Reader;
use crate::listing::LONGEST_TEXT;
use crate::point::{Point, ORIGIN};
use crate::rng::Rng;
use crate::settings::{Settings, USUAL};
use crate::stream;

/// Many texts for the usual settings in one stream.
pub fn write_jobs(seed: u64, count: u64, out: &mut impl Write) -> io::Result<()> {
    (0..count).try_for_each(|index| stream::write(index, None, &job(seed, index), out))
}

/// The same with settings of their own.
pub fn write_jobs_at(seed: u64, numbers: Range<u64>, out: &mut impl Write) -> io::Result<()> {
    for index in numbers {
        let (settings, text) = job_at(seed, index);
        stream::write(index, Some(settings), &text, out)?;
    }
    Ok(())
}

/// The job of this number: the worked ones first, then made-up ones, every sixteenth about the clock.
pub fn job(seed: u64, index: u64) -> Vec<u8> {
    let rng = &mut Rng::new(seed, index);
    worked(index).unwrap_or_else(|| if index.is_multiple_of(16) { of_the_clock(rng, USUAL) } else { made_up(rng, USUAL) })
}

/// The job of this number and its settings: first the one of the most ticks; then the worked texts, which at another p mean another thing;
/// then made-up ones, every sixteenth about the clock, in the widest travel.
pub fn job_at(seed: u64, index: u64) -> (Settings, Vec<u8>) {
    let Some(before) = index.checked_sub(1) else { return longest() };
    let rng = &mut Rng::new(seed, index);
    let settings = table(rng);
    if let Some(text) = worked(before) {
        return (settings, text);
    }
    if index.is_multiple_of(16) {
        let wide = Settings { p: settings.p, w: settings.w, ..USUAL };
        return (wide, of_the_clock(rng, wide));
    }
    (settings, made_up(rng, settings))
}

/// The text of the most ticks, more than 64 bits count: full turns as great as the travel at feed number 1, the slowest, and w 20,000.
pub fn longest() -> (Settings, Vec<u8>) {
    let mut text = b"G1 X-1000000 F1200000\nG2 F0.001\n".to_vec();
    let turn = b"I1000000\n";
    let turns = (LONGEST_TEXT - text.len()) / turn.len();
    text.extend(turn.iter().cycle().take(turns * turn.len()));
    (Settings { p: 1, w: 20_000, ..USUAL }, text)
}

/// The settings of a table: any p, narrow and one-sided travel, once in a while refused ones.
fn table(rng: &mut Rng) -> Settings {
    let p = rng.one_of(&[1, 2, 3, 7, 8, 10, 40, 50, 80, 125, 999, 1_000], 50);
    let w = if rng.percent(50) { rng.one_of(&[1_000, 1_001, 5_000, 19_999, 20_000], 5_000) } else { 1_000 + rng.below(19_001) };
    let mut bound = || match rng.below(8) {
        0 => 0,
        1 => rng.between(0, 99),
        2..=3 => rng.between(100, 9_999),
        4 => rng.between(10_000, 999_999),
        _ => 1_000_000,
    };
    let mut made = Settings { p, w, x_lower: -bound(), x_upper: bound(), y_lower: -bound(), y_upper: bound() };
    if rng.percent(8) {
        hurt_settings(rng, &mut made);
    }
    made
}

/// Texts that each aim at one rule.
const WORKED: [&str; 112] = [
    "",
    "\n",
    "N20 G01 X20 Y40 F100\nN30 X50 Y80\n",
    "N20 G01 X20 Y40 F100\nN30 X50 Y80",
    // 11
    "G1 X1 F0",
    "G1 X1 F6001",
    "G1 X1 F6000",
    "G1 X1 F9999999",
    "F0\nG1\nX1\n",
    "G1 X0 F0\nX1",
    "G1 X0 F0\nF6000 X1",
    "G1 X1 F0.000",
    "G1 X1 F6000.001",
    "G1 X1 F6000.000",
    "G1 X1 F9999999.999",
    "F0.000\nG1\nX0\nX1\n",
    "G1 F9999999.999\nX0\nF0.001\nX0\nX1 F6000.0",
    // feeds with a point
    "G1 X1 F0.75",
    "G1 X0.02 F0.001",
    "G1 X1 F5999.999",
    "F600.5 G1 X1\nX2 F0000600.050\nY1 F600\nF599.9\nG3 J1",
    "G1F1000.25X1Y1F2",
    "G1 F7.5\nX0.02\nX0.04 F7.55\nX0.06 F7.555\nX0.08\nX0.1 F7.\nX0.12",
    // 12
    "G1 X20000.02 F100",
    "G1 X-20000.02 F100",
    "G1 Y20000.02 F100",
    "G1 X20000 Y-20000 F6000\n",
    "G1 X9999999.999 F1",
    "G1 X9999999.98 F1",
    // 14
    "G2 I0 F1",
    "G3 I0 J0 X1 F1",
    "G2 I20000.02 F1",
    "G2 J-20000.02 F1",
    "G3 I9999999.98 F1",
    "G2 X9999999.98 I9999999.98 F1",
    // 15
    "G3 X1 I2 F1",
    "G2 X0.02 Y0.06 I0.02 J0.02 F6000",
    "G3 X0.02 Y0.04 I0.02 J0.02 F6000",
    "G2 X0.02 Y0.06 I0.02 J0.02 F0",
    // 16
    "G3 J20000 F100",
    "G2 I-20000 F100",
    "G1 X19999.98 F6000\nG3 J1 F6000",
    "G1 X19999.9 F6000\nG3 J0.1 F6000",
    "G1 X19999.88 F6000\nG3 J0.1 F6000",
    // worked arcs
    "G3 J0.1 Y0.2 F6000\n",
    "G2 J0.1 Y0.2 F6000\n",
    "G3 J0.1 F6000\n",
    "G3 J0.02 F6000\nG2 I0.02 J0.02\n",
    "G2 I0.14 J0.06 F1",
    "G2 I0.14 J0.02 F1",
    "G3 I1000 F6000",
    // 32
    "G1 G1 ?",
    "X.5",
    "X5.",
    "X5.1234",
    "X12345678",
    "X 5",
    "G 1",
    "F1.",
    "F.5",
    "F-1",
    "F+1",
    "F-0.5",
    "F1.2345",
    "F12345678",
    "F12345678.5",
    "F1.5.5",
    "F1. 5",
    "F1,5",
    "N1.5",
    "G1.0",
    "G1. X1 F1",
    "G1 X1 F1.\nX2",
    "G+1",
    "N-1",
    "X--5",
    "X",
    "x5",
    "G1X5F1\r\n",
    "\tG1X5F1",
    "Z1",
    "%\n",
    "G1 X5 F100 ;c",
    "G1,X5",
    "g1 X5 F100",
    // 33
    "G9 G9",
    "N1 N1",
    "G1 X1 X1 F1",
    "F1 F1",
    // 34
    "G4 X0.01",
    "G0",
    "G4",
    "G1234567",
    "G0000001 X1 F1",
    // 35
    "X0.01",
    "G1 F1 X0.01",
    "G1 F1 X0.02",
    "G1 F1 X0.02 J0.001",
    "G1 X0.030 F1",
    // 36
    "X1",
    "G1 X1",
    "F1 X1",
    "G1 I1",
    "I1 F5",
    // 37
    "G1 I1 F0",
    "G1 I0 F1",
    "G2 X1 F1",
    "G2 I1 F100\nX5",
    "G1 F1\nX1\nJ0",
    // modality
    "G1\nF600\nX1\nY1\nG2 I1\nJ1\nG1 X0\n",
    "F100 G1\n\nN5\n   \nX1.5Y-2.25F60\nN7Y0",
    "X+5Y-0G1F6000\nX-0.000Y+0.020\n",
];

fn worked(index: u64) -> Option<Vec<u8>> {
    let index = usize::try_from(index).ok()?;
    if let Some(text) = WORKED.get(index) {
        return Some(text.as_bytes().to_vec());
    }
    match index - WORKED.len() {
        0 => Some(vec![b' '; 80]),
        1 => Some(vec![b' '; 81]),
        2 => Some(padded("G1 X1 F100", 80)),
        3 => Some(padded("G1 X1 F100", 81)),
        4 => Some(padded("G1 X1 F100 ?", 81)),
        5 => Some([padded("G1 X1 F100", 80), b"\r\nX5\n".to_vec()].concat()),
        6 => Some([padded("G1 X1 F100", 79), b"\r\nX5\n".to_vec()].concat()),
        7 => Some([padded("G1 X1 F100", 80), b"\nX5\n".to_vec()].concat()),
        8 => Some(vec![b'\n'; 65_536]),
        9 => Some(vec![b'\n'; 65_537]),
        10 => Some(filled(65_536, b"G1 X1 F100\n")),
        11 => Some(filled(65_537, b"G1 X1 F100\n")),
        12 => Some(filled(65_536, b"?\n")),
        13 => Some(filled(65_537, b"?\n")),
        14 => Some(filled(65_535, b"")),
        15 => Some(vec![b'?'; 65_536]),
        16 => Some(vec![b'?'; 65_537]),
        17 => Some(vec![b'G', b'1', 0, b'X']),
        18 => Some(vec![0xEF, 0xBB, 0xBF, b'G', b'1']),
        19 => Some(vec![b'G', b'1', 0xA0, b'X', b'1']),
        20 => Some([filled(65_500, b"G1 F100\n"), b"X1\nX2\nX3 I1\n".to_vec()].concat()),
        _ => None,
    }
}

/// The largest F that these settings accept and one thousandth more, with and without a point, known before or from its own line on.
fn of_the_clock(rng: &mut Rng, settings: Settings) -> Vec<u8> {
    // Of refused ones the machine has the usual ones.
    let settings = Book::make(settings).0.settings;
    let most = settings.q0() / settings.p;
    let with_point = |thousandths: u64| format!("{}.{:03}", thousandths / 1_000, thousandths % 1_000);
    let (most, more, whole) = (with_point(most), with_point(most + 1), most / 1_000);
    let text = match rng.below(6) {
        0 => format!("G1 X1 F{most}\n"),
        1 => format!("G1 X1 F{more}\n"),
        2 => format!("G1 F{more}\nX0\nF{most}\nX1\nX0 F{more}\n"),
        3 => format!("G1 F{whole}\nX1\nY-1 F{most}\nX0Y0F{}\n", whole + 1),
        4 => format!("G3 I1 F{most}\nG1 Y1\nG2 J-1 F{more}\n"),
        _ => format!("F{most} G2 X2 I1\nG1 X1 Y1 F0.001"),
    };
    text.into_bytes()
}

/// A line with blanks after it, so many bytes in all.
fn padded(line: &str, bytes: usize) -> Vec<u8> {
    let mut text = line.as_bytes().to_vec();
    text.resize(bytes, b' ');
    text
}

/// A text of so many bytes: the first line, then short moves to and fro, the last line an N word without LF.
fn filled(bytes: usize, first: &[u8]) -> Vec<u8> {
    let mut text = first.to_vec();
    let moves: [&[u8]; 3] = if first.starts_with(b"G1 X") { [b"X2 Y4\n", b"X-1 Y1\n", b"N7\n"] } else { [b"N1\n", b"\n", b"G1 N5\n"] };
    for line in moves.iter().cycle() {
        if text.len() + line.len() + 2 > bytes {
            break;
        }
        text.extend_from_slice(line);
    }
    text.resize(bytes, b' ');
    text
}

fn made_up(rng: &mut Rng, settings: Settings) -> Vec<u8> {
    let mut text = Vec::new();
    let (mut reader, mut book) = (Reader::default(), Book::make(settings).0);
    for _ in 0..rng.between(1, 14) {
        let line = line(rng, &reader, &book.settings, book.point);
        reader.line(&mut book, &line);
        book.finish_at_once();
        text.extend_from_slice(&line);
        text.push(b'\n');
    }
    if rng.percent(45) {
        damage(rng, &mut text);
    }
    if rng.percent(30) && text.last() == Some(&b'\n') {
        text.pop();
    }
    text
}

/// A line that is good where the reader stands and the block starts, now and then aimed at a refusal.
pub fn line(rng: &mut Rng, reader: &Reader, settings: &Settings, at: Point) -> Vec<u8> {
    let mut words = Vec::new();
    let g = match reader.g {
        Some(g) if rng.percent(50) => g,
        // No circle fits where the machine stands at an edge.
        _ if clearance(settings, at) < 2 && rng.percent(80) => 1,
        _ => 1 + rng.below(3),
    };
    if reader.g != Some(g) || rng.percent(20) {
        words.push(format!("G{}", digits(rng, g)));
    }
    if (reader.f.is_none() && !rng.percent(2)) || rng.percent(25) {
        let f = feed(rng, settings);
        words.push(format!("F{}", decimal(rng, f)));
    }
    if rng.percent(30) {
        let n = rng.below(10_000_000);
        words.push(format!("N{}", digits(rng, n)));
    }
    if !rng.percent(8) {
        words.extend(if g == 1 { straight(rng, settings, at) } else { round(rng, g, settings, at) });
    }
    joined(rng, words)
}

/// "F" in thousandths: 6000 is the most at p 50, w 5,000. Below a millimetre per minute hardly a pulse comes in as many ticks as are
/// compared, so that these are few.
fn feed(rng: &mut Rng, settings: &Settings) -> u64 {
    let most = settings.q0() / settings.p;
    match rng.below(40) {
        0 => 0,
        1 => most + rng.one_of(&[1, 1, 1_000], 1),
        2 => rng.one_of(&[9_999_999_000, 9_999_999_999], 0),
        3..=7 => most,
        8 => most - rng.one_of(&[1, 999, 1_000], 1),
        9 => rng.one_of(&[1, 2, 10, 75, 750, 751, 999], 1),
        10..=11 => feed_up_to(rng, 50_000),
        _ => feed_up_to(rng, most),
    }
}

/// From a millimetre per minute on, as often without decimals as with 1 to 3.
fn feed_up_to(rng: &mut Rng, most: u64) -> u64 {
    let step = rng.one_of(&[1_000, 1_000, 1_000, 100, 10, 1], 1);
    (1_000 + rng.below(most - 999)) / step * step
}

/// From one position that thousandths of a millimetre can say to the next, in pulses: p over what it shares with 1,000.
fn step(settings: &Settings) -> i64 {
    let p = settings.p as i64;
    let shared = (1..=p).filter(|by| p % by == 0 && 1_000 % by == 0).max();
    p / shared.unwrap_or(1)
}

/// In a narrow travel most ways are bent into it, so that a job goes on.
fn is_narrow(settings: &Settings) -> bool {
    Settings { p: USUAL.p, w: USUAL.w, ..*settings } != USUAL
}

/// The way to the nearest bound, in steps.
fn clearance(settings: &Settings, at: Point) -> i64 {
    let x = (at.x - settings.x_lower).min(settings.x_upper - at.x);
    let y = (at.y - settings.y_lower).min(settings.y_upper - at.y);
    x.min(y) / step(settings)
}

fn pulses(rng: &mut Rng) -> i64 {
    let most = match rng.below(100) {
        0..=39 => 5,
        40..=69 => 60,
        70..=89 => 900,
        90..=97 => 20_000,
        98 => 1_000_000,
        _ => 1_000_003,
    };
    rng.between(-most, most)
}

/// Mostly small; 0 once in a while, a very great circle hardly ever.
fn radius(rng: &mut Rng) -> i64 {
    let most = match rng.below(10_000) {
        0..=399 => 0,
        400..=4_999 => 9,
        5_000..=7_999 => 90,
        8_000..=9_799 => 900,
        9_800..=9_998 => 9_000,
        _ => 1_000_000,
    };
    rng.between(most.min(1), most)
}

fn straight(rng: &mut Rng, settings: &Settings, at: Point) -> Vec<String> {
    let step = step(settings);
    let way = |rng: &mut Rng| Point::new(pulses(rng) * step, pulses(rng) * step);
    let mut end = match rng.below(12) {
        0 => at,
        1 => ORIGIN,
        2 => way(rng),
        _ => at.moved_by(way(rng)),
    };
    if is_narrow(settings) && rng.percent(90) {
        let inside = if rng.percent(50) { any_in_travel(rng, settings) } else { into_travel(settings, end) };
        end = Point::new(inside.x / step * step, inside.y / step * step);
    }
    let mut words = Vec::new();
    if end.x != at.x || rng.percent(30) {
        words.push(length(rng, 'X', end.x, settings.p));
    }
    if end.y != at.y || rng.percent(30) {
        words.push(length(rng, 'Y', end.y, settings.p));
    }
    words
}

/// (I, J). In a narrow travel mostly such that the whole circle is in it, if one can be.
fn centre(rng: &mut Rng, settings: &Settings, at: Point) -> Point {
    let step = step(settings);
    let room = clearance(settings, at) / 3;
    let mut long = radius(rng);
    if is_narrow(settings) && long > room && rng.percent(90) {
        long = 1 + long % room.max(1);
    }
    let short = if rng.percent(40) { 0 } else { rng.between(-long, long) };
    let (i, j) = if rng.percent(50) { (long, short) } else { (short, -long) };
    Point::new(i * step, j * step)
}

/// An end seen from the centre: full turns, anywhere on the circle, at the ends of F, and one pulse beside.
fn arc_end(rng: &mut Rng, n: i64, start: Point, step: i64) -> Point {
    match rng.below(10) {
        0..=3 => start,
        // Of the points of the circle a coarse step says hardly any but the mirror images of the start.
        4..=7 if step > 1 => turned(rng, start),
        4..=7 => circle_point(rng, n.max(1)).unwrap_or(start),
        8..=9 if rng.percent(50) => point_at_the_ends_of_f(rng, n.max(1)).unwrap_or(start),
        _ if rng.percent(20) => start,
        _ => Point::new(start.x + rng.between(-1, 1), start.y + rng.between(-1, 1)),
    }
}

fn round(rng: &mut Rng, g: u64, settings: &Settings, at: Point) -> Vec<String> {
    let p = settings.p;
    let Point { x: i, y: j } = centre(rng, settings, at);
    let seen = arc_end(rng, i * i + j * j, Point::new(-i, -j), step(settings));
    let (x, y) = (at.x + i + seen.x, at.y + j + seen.y);
    let mut words = Vec::new();
    if x != at.x || rng.percent(20) {
        words.push(length(rng, 'X', x, p));
    }
    if y != at.y || rng.percent(20) {
        words.push(length(rng, 'Y', y, p));
    }
    if i != 0 || rng.percent(20) {
        words.push(length(rng, 'I', i, p));
    }
    if j != 0 || (i == 0 && g == 2) || rng.percent(20) {
        words.push(length(rng, 'J', j, p));
    }
    words
}

/// Up to 7 digits, at times with zeros before.
fn digits(rng: &mut Rng, value: u64) -> String {
    match rng.below(6) {
        0 => format!("{value:02}"),
        1 => format!("{value:07}"),
        _ => format!("{value}"),
    }
}

/// Thousandths with a point and up to 3 digits after it, at times with zeros on either side.
fn decimal(rng: &mut Rng, thousandths: u64) -> String {
    let whole = digits(rng, thousandths / 1_000);
    let part = format!("{:03}", thousandths % 1_000);
    let short = part.trim_end_matches('0');
    let part = match (short.is_empty(), rng.below(4)) {
        (true, 1..) => String::new(),
        (true, 0) => rng.one_of(&[".0", ".00", ".000"], ".0").to_string(),
        (false, 0) => format!(".{part}"),
        (false, _) => format!(".{short}"),
    };
    whole + &part
}

/// Pulses as millimetres; at p 50 a pulse is 20 thousandths.
fn length(rng: &mut Rng, letter: char, pulses: i64, p: u64) -> String {
    let number = decimal(rng, pulses.unsigned_abs() * 1_000 / p);
    let sign = match (pulses < 0, rng.below(8)) {
        (true, _) => "-",
        (false, 0) => "+",
        (false, 1) if pulses == 0 => "-",
        _ => "",
    };
    format!("{letter}{sign}{number}")
}

/// The words in any order, with or without blanks.
fn joined(rng: &mut Rng, mut words: Vec<String>) -> Vec<u8> {
    let mut line = Vec::new();
    let blanks = rng.below(3);
    while !words.is_empty() {
        let at = if rng.percent(70) { 0 } else { rng.below(words.len() as u64) as usize };
        line.extend(words.remove(at).bytes());
        let count = if words.is_empty() { 0 } else { blanks.min(1 + rng.below(3)) };
        line.extend(std::iter::repeat_n(b' ', count as usize));
    }
    line
}

/// One thing wrong somewhere in the text.
pub fn damage(rng: &mut Rng, text: &mut Vec<u8>) {
    let at = rng.below(text.len() as u64 + 1) as usize;
    let end_of_line = text.iter().skip(at).position(|&byte| byte == b'\n').map_or(text.len(), |more| at + more);
    match rng.below(17) {
        0 => text.insert(at, rng.one_of(b"\t\r.?-+ xgZ09\0\xff(", b'?')),
        1 => insert(text, at, b"\n"),
        2 => drop(text.splice(at..text.len().min(at + 1), [])),
        3 => text.truncate(at),
        4 => lower(text, at),
        5 => {
            let length = rng.one_of(&[79, 80, 81, 82], 80);
            insert(text, end_of_line, &vec![b' '; length]);
        }
        6 => fill_line(rng, text, end_of_line),
        7 => insert(text, end_of_line, b"\r"),
        8 => insert(text, end_of_line, rng.one_of(&[b"G4".as_slice(), b"G0", b"G2", b"G1"], b"G9")),
        9 => insert(text, end_of_line, rng.one_of(&[b"X0.01".as_slice(), b"Y0.001", b"I0.013", b"J5.5"], b"X0.01")),
        10 => insert(text, end_of_line, rng.one_of(&[b"X1".as_slice(), b"Y-2", b"I3", b"J4"], b"X1")),
        11 => insert(text, end_of_line, rng.one_of(&[b"X12345678".as_slice(), b"N00000001", b"X0.0200", b"F12345678"], b"X12345678")),
        12 => insert(text, end_of_line, rng.one_of(&[b"X".as_slice(), b"Y-", b"I.", b"J5.", b"N", b"F"], b"X")),
        13 => insert(text, end_of_line, rng.one_of(&[b"F0".as_slice(), b"F0.000", b"F6001", b"F6000.001", b"F9999999.999"], b"F0")),
        14 => insert(
            text,
            end_of_line,
            rng.one_of(&[b"\nX30000".as_slice(), b"\nG1X19999.9F6000\nG3J0.1", b"\nG2 I30000 F5", b"\nG2 X1 I7 F5"], b""),
        ),
        15 => insert(text, end_of_line, rng.one_of(&NO_FEEDS, b"F1.")),
        _ => insert(text, end_of_line, b"N1"),
    }
}

/// A point or a sign where none may stand.
const NO_FEEDS: [&[u8]; 9] = [b"F1.", b"F.5", b"F-1", b"F+0.5", b"F1.2345", b"F1.5.5", b"F12345678.5", b"N1.5", b"G1.0"];

fn insert(text: &mut Vec<u8>, at: usize, what: &[u8]) {
    drop(text.splice(at..at, what.iter().copied()));
}

fn lower(text: &mut [u8], at: usize) {
    if let Some(letter) = text.iter_mut().skip(at).find(|byte| byte.is_ascii_uppercase()) {
        letter.make_ascii_lowercase();
    }
}

/// Blanks so that the line ending here has 80 or 81 bytes.
fn fill_line(rng: &mut Rng, text: &mut Vec<u8>, end_of_line: usize) {
    let begin = text[..end_of_line].iter().rposition(|&byte| byte == b'\n').map_or(0, |lf| lf + 1);
    let wanted = 80 + rng.below(2) as usize;
    let blanks = wanted.saturating_sub(end_of_line - begin);
    insert(text, end_of_line, &vec![b' '; blanks]);
}

#[cfg(test)]
mod tests {
    use super::*;
    use crate::listing::{check, Pace};
    use std::collections::HashMap;

    /// How often each last line turns up: the number of a refusal, or `total`.
    fn met(jobs: impl Iterator<Item = (Settings, Vec<u8>)>) -> HashMap<String, u64> {
        let mut met: HashMap<String, u64> = HashMap::new();
        for (settings, text) in jobs {
            let mut out = Vec::new();
            check(&text, &settings, Pace::AtOnce, &mut out).unwrap();
            let out = String::from_utf8(out).unwrap();
            let last: Vec<&str> = out.lines().last().unwrap().split(' ').collect();
            let key = if last[0] == "line" { last[3].to_string() } else { last[0].to_string() };
            *met.entry(key).or_default() += 1;
        }
        println!("{met:?}");
        met
    }

    fn every_refusal(met: &HashMap<String, u64>) {
        for number in [11, 12, 14, 15, 16, 30, 31, 32, 33, 34, 35, 36, 37] {
            assert!(met.contains_key(&number.to_string()), "{number}");
        }
        for never in [0, 9, 10, 13] {
            assert!(!met.contains_key(&never.to_string()), "{never} cannot come out of the check program");
        }
    }

    #[test]
    fn jobs_meet_every_refusal() {
        let met = met((0..2_000).map(|index| (USUAL, job(1, index))));
        every_refusal(&met);
        assert!(met["total"] > 500);
    }

    /// At settings of their own too, those refused included, and a good part of the jobs is read to its end.
    #[test]
    fn jobs_at_other_settings() {
        let met = met((0..2_000).map(|index| job_at(1, index)));
        every_refusal(&met);
        assert!(met["total"] > 500);
        for number in 1..=3 {
            assert!((0..2_000).any(|index| job_at(1, index).0.refusal() == Some(number)), "{number}");
        }
    }

    /// Seed 9 is one of tests/second: among its jobs are long listings at another p, which come in many pieces: of lines, and of the most
    /// ticks.
    #[test]
    fn long_listings() {
        for index in [0, WORKED.len() as u64 + 11] {
            let (settings, text) = job_at(9, index);
            let mut out = Vec::new();
            check(&text, &settings, Pace::AtOnce, &mut out).unwrap();
            assert!(settings.refusal().is_none() && settings.p != USUAL.p && text.len() > 65_500 && text.len() <= LONGEST_TEXT, "{index}");
            assert!(out.iter().filter(|&&byte| byte == b'\n').count() > 5_000, "{index}");
        }
    }

    /// The F words of a text, without their letter.
    fn feeds(text: &[u8]) -> Vec<String> {
        let behind =
            |at: usize| text[at + 1..].iter().take_while(|byte| b".+-0123456789".contains(byte)).copied().map(char::from).collect();
        text.iter().enumerate().filter(|(_, &byte)| byte == b'F').map(|(at, _)| behind(at)).collect()
    }

    /// What a feed is to a machine of these settings.
    fn kind(feed: &str, settings: &Settings) -> &'static str {
        let (whole, part) = feed.split_once('.').unwrap_or((feed, ""));
        let digits = format!("{whole}{part:0<3}");
        let is_word = (1..=7).contains(&whole.len()) && part.len() <= 3 && !feed.ends_with('.');
        let thousandths = digits.parse::<u64>().ok().filter(|_| is_word && digits.bytes().all(|byte| byte.is_ascii_digit()));
        match thousandths.map(|f| (f, f * settings.p)) {
            None => "no word",
            Some((0, _)) => "zero",
            Some((1..=999, _)) => "slow",
            Some((_, f)) if f == settings.q0() => "q0",
            Some((f, _)) if f == settings.q0() / settings.p + 1 => "a thousandth more",
            Some((9_999_999_999, _)) => "seven digits and three",
            Some(_) => ["no decimals", "one", "two", "three"][part.len()],
        }
    }

    fn kinds(jobs: impl Iterator<Item = (Settings, Vec<u8>)>) -> HashMap<&'static str, u64> {
        let mut met = HashMap::new();
        for (settings, text) in jobs {
            // Of refused ones the machine has the usual ones.
            let settings = Book::make(settings).0.settings;
            feeds(&text).iter().for_each(|feed| *met.entry(kind(feed, &settings)).or_default() += 1);
        }
        println!("{met:?}");
        met
    }

    /// Feeds with and without decimals, slow ones, the largest of the clock and one thousandth more, and such as are no words. Seeds 4 and
    /// 9 are those of tests/second.
    #[test]
    fn feeds_of_all_kinds() {
        for seed in [4, 9] {
            let at_usual = kinds((0..500).map(|index| (USUAL, job(seed, index))));
            let at_others = kinds((0..500).map(|index| job_at(seed, index)));
            for kind in ["no word", "zero", "slow", "a thousandth more", "seven digits and three"] {
                assert!(at_usual[kind] >= 5 && at_others[kind] >= 5, "{kind}");
            }
            for kind in ["q0", "no decimals", "one", "two", "three"] {
                assert!(at_usual[kind] >= 30 && at_others[kind] >= 30, "{kind}");
            }
        }
    }

    #[test]
    fn edge_lengths_are_there() {
        let lengths: Vec<usize> = (0..130).map(|index| job(0, index).len()).collect();
        assert!(lengths.contains(&65_536) && lengths.contains(&65_537) && lengths.contains(&80) && lengths.contains(&81));
    }
}
