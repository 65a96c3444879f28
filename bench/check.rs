//! A plain check program, for timing beside the proved one: the same questions and the same listing, with the settings that 01 gives it.
//! Its own digits, in one buffer that goes out in large pieces; the hardware's root; arcs counted and tested without a walk.
use std::io::{self, Read, Write};

const P: i64 = 50;
const TRAVEL: i64 = 1_000_000;
const CAPACITY: i64 = 60_000 * 5_000;
/// Charges, and what a tick pays for each unit of feed.
const STRAIGHT: i64 = 1_000;
const DIAGONAL: i64 = 1_414;
const PER_FEED: i64 = 1_000;
const PIECE: usize = 8192;
const LETTERS: &[u8; 7] = b"NGFXYIJ";
const F: usize = 2;

/// A word's number; in thousandths from F on.
type Words = [Option<i64>; 7];
type Point = [i64; 2];

// ---- words

/// So many digits at the front: their number, their count, and what is left.
fn digits(text: &[u8], most: usize) -> Result<(i64, usize, &[u8]), u8> {
    let n = text.iter().take_while(|b| b.is_ascii_digit()).count();
    if n < 1 || n > most {
        return Err(32);
    }
    let value = text[..n].iter().fold(0, |v, b| 10 * v + i64::from(b - b'0'));
    Ok((value, n, &text[n..]))
}

/// The number after a letter, and what is left: N and G have no point, and they and F no sign.
fn number(text: &[u8], letter: usize) -> Result<(i64, &[u8]), u8> {
    let (sign, text) = match text {
        [b'-', rest @ ..] if letter > F => (-1, rest),
        [b'+', rest @ ..] if letter > F => (1, rest),
        _ => (1, text),
    };
    let (whole, _, rest) = digits(text, 7)?;
    if letter < F {
        return Ok((whole, rest));
    }
    let [b'.', rest @ ..] = rest else { return Ok((sign * whole * 1000, rest)) };
    let (part, n, rest) = digits(rest, 3)?;
    Ok((sign * (whole * 1000 + part * [100, 10, 1][n - 1]), rest))
}

/// The words of a line by their letters, or the number of the question.
fn words_of(mut text: &[u8]) -> Result<Words, u8> {
    let (mut words, mut twice) = ([None; 7], false);
    if text.len() > 80 {
        return Err(31);
    }
    while let [first, rest @ ..] = text {
        text = rest;
        if *first != b' ' {
            let letter = LETTERS.iter().position(|l| l == first).ok_or(32u8)?;
            let (value, rest) = number(rest, letter)?;
            twice |= words[letter].replace(value).is_some();
            text = rest;
        }
    }
    if twice {
        return Err(33);
    }
    Ok(words)
}

// ---- arcs, seen from the centre; clockwise is counterclockwise in the mirror of the X axis

fn least_root(s: i64) -> i64 {
    let r = (s as f64).sqrt() as i64;
    r + i64::from(r * r < s)
}

fn nearest_root(n: i64) -> i64 {
    ((n as f64).sqrt() + 0.5) as i64
}

/// -m <= F < m
fn on_circle(square: i64, [x, y]: Point) -> bool {
    let (larger, f) = (x.abs().max(y.abs()), x * x + y * y - square);
    -larger <= f && f < larger
}

/// The quadrant, and the point as seen there: along falls and across grows on the way.
struct Place {
    quadrant: i64,
    along: i64,
    across: i64,
}

fn place([x, y]: Point) -> Place {
    let (quadrant, along, across) = match (x, y) {
        (1.., 0..) => (0, x, y),
        (..=0, 1..) => (1, y, -x),
        (..=-1, _) => (2, -x, -y),
        _ => (3, -y, x),
    };
    Place { quadrant, along, across }
}

impl Place {
    /// The number on the way round: each quadrant has `quarter` points.
    fn rank(&self, quarter: i64) -> i64 {
        self.quadrant * quarter + if self.across <= self.along { self.across } else { quarter - self.along }
    }

    /// The pulses on both axes up to here: in each quadrant twice as many as the radius has.
    fn pulses(&self, radius: i64) -> i64 {
        2 * radius * self.quadrant + radius - self.along + self.across
    }
}

/// What a block takes.
struct Rest {
    cycles: i64,
    charges: i64,
}

struct Arc {
    clockwise: bool,
    centre: Point,
    square: i64,
}

impl Arc {
    fn seen(&self, at: Point) -> Point {
        let y = at[1] - self.centre[1];
        [at[0] - self.centre[0], if self.clockwise { -y } else { y }]
    }

    /// Question 16 without walking there: of the axes that the way passes, each circle point is in travel.
    fn stays(&self, from: &Place, to: &Place) -> bool {
        let (up, down) = (TRAVEL - self.centre[1], self.centre[1] + TRAVEL);
        let (up, down) = if self.clockwise { (down, up) } else { (up, down) };
        let room = [TRAVEL - self.centre[0], up, self.centre[0] + TRAVEL, down];
        let passed = match (to.quadrant - from.quadrant) & 3 {
            0 if to.across - to.along <= from.across - from.along => 4,
            other => other,
        };
        (1..=passed).all(|k| {
            let r = room[(from.quadrant + k) as usize & 3];
            r >= 0 && self.square <= r * r + r
        })
    }

    /// The cycles from one place to another, a whole turn where they are the same, and what they are charged: a diagonal step has two
    /// pulses, a straight one has one.
    fn rest(&self, from: &Place, to: &Place) -> Rest {
        let (quarter, radius) = (nearest_root(2 * self.square), nearest_root(self.square));
        let (n, pulses) = (to.rank(quarter) - from.rank(quarter), to.pulses(radius) - from.pulses(radius));
        let (cycles, pulses) = if n <= 0 { (n + 4 * quarter, pulses + 8 * radius) } else { (n, pulses) };
        Rest { cycles, charges: STRAIGHT * cycles + (DIAGONAL - STRAIGHT) * (pulses - cycles) }
    }
}

// ---- the listing

struct Listing {
    bytes: Vec<u8>,
    to: io::StdoutLock<'static>,
}

impl Listing {
    fn text(&mut self, text: &[u8]) {
        self.bytes.extend_from_slice(text);
    }

    /// A number, not negative, and the byte after it.
    fn number(&mut self, n: i64, after: u8) {
        let mut back = [after; 21];
        let (mut at, mut rest) = (20, n as u64);
        while at == 20 || rest > 0 {
            at -= 1;
            back[at] = b'0' + (rest % 10) as u8;
            rest /= 10;
        }
        self.bytes.extend_from_slice(&back[at..]);
    }

    fn with_sign(&mut self, n: i64, after: u8) {
        if n < 0 {
            self.bytes.push(b'-');
        }
        self.number(n.abs(), after);
    }

    fn hand_out(&mut self) {
        self.to.write_all(&self.bytes).expect("written");
        self.bytes.clear();
    }
}

// ---- the job

/// At these settings 64 bits hold a job's ticks, as in the program in C; the core carries them in two numbers.
#[derive(Default)]
struct Job {
    at: Point,
    motion: Option<i64>,
    feed: Option<i64>,
    line: i64,
    remainder: i64,
    blocks: i64,
    cycles: i64,
    ticks: i64,
}

fn width(v: i64) -> i64 {
    64 - i64::from(v.leading_zeros())
}

/// Questions 34 to 37 about the words of a line; motion and feed are those known after it.
fn words_no(words: &Words, motion: Option<i64>, feed: Option<i64>) -> Result<(), u8> {
    if words[1].is_some_and(|g| !(1..=3).contains(&g)) {
        return Err(34);
    }
    if words[3..].iter().flatten().any(|v| v * P % 1000 != 0) {
        return Err(35);
    }
    let (placed, centred) = (words[3].is_some() || words[4].is_some(), words[5].is_some() || words[6].is_some());
    if (placed || centred) && (motion.is_none() || feed.is_none()) {
        return Err(36);
    }
    let right = if motion.is_some_and(|g| g > 1) { centred || !placed } else { !centred };
    if !right {
        return Err(37);
    }
    Ok(())
}

fn pulses(word: Option<i64>, missing: i64) -> i64 {
    word.map_or(missing, |v| v * P / 1000)
}

impl Job {
    /// An accepted block: its row, and the feed to its end.
    fn block(&mut self, kind: u8, all: Rest, end: Point, feed: i64, bits: i64, out: &mut Listing) {
        let (cycles, due, fed) = (all.cycles, all.charges * CAPACITY, PER_FEED * feed);
        let ticks = (due - self.remainder + fed - 1) / fed;
        self.remainder += ticks * fed - due;
        self.blocks += 1;
        self.cycles += cycles;
        self.ticks += ticks;
        self.at = end;
        if out.bytes.len() > PIECE {
            out.hand_out();
        }
        out.number(self.blocks, b' ');
        out.number(self.line, b' ');
        out.text(&[kind, b' ']);
        out.number(cycles, b' ');
        out.with_sign(end[0], b' ');
        out.with_sign(end[1], b' ');
        out.number(bits, b'\n');
    }

    fn arc_block(&mut self, end: Point, feed: i64, clockwise: bool, offset: Point, out: &mut Listing) -> Result<(), u8> {
        let [i, j] = offset;
        if i.abs() > TRAVEL || j.abs() > TRAVEL || (i == 0 && j == 0) {
            return Err(14);
        }
        let a = Arc { clockwise, centre: [self.at[0] + i, self.at[1] + j], square: i * i + j * j };
        if !on_circle(a.square, a.seen(end)) {
            return Err(15);
        }
        let (from, to) = (place(a.seen(self.at)), place(a.seen(end)));
        if !a.stays(&from, &to) {
            return Err(16);
        }
        self.block(b'A', a.rest(&from, &to), end, feed, width(nearest_root(a.square)), out);
        Ok(())
    }

    /// What a line with X, Y, I or J asks for.
    fn moved(&mut self, words: &Words, motion: i64, feed: i64, out: &mut Listing) -> Result<(), u8> {
        let end = [pulses(words[3], self.at[0]), pulses(words[4], self.at[1])];
        if motion == 1 && end == self.at {
            return Ok(());
        }
        if !(1..=CAPACITY).contains(&feed) {
            return Err(11);
        }
        if end.iter().any(|v| v.abs() > TRAVEL) {
            return Err(12);
        }
        if motion != 1 {
            return self.arc_block(end, feed, motion == 2, [pulses(words[5], 0), pulses(words[6], 0)], out);
        }
        let [a, b] = [0, 1].map(|k| (end[k] - self.at[k]).abs());
        let cycles = least_root(a * a + b * b);
        self.block(b'L', Rest { cycles, charges: STRAIGHT * cycles }, end, feed, width(a.max(b)), out);
        Ok(())
    }

    /// One text line: its row goes out, or the number of the question comes back.
    fn text_line(&mut self, text: &[u8], out: &mut Listing) -> Result<(), u8> {
        let words = words_of(text)?;
        let (motion, feed) = (words[1].or(self.motion), words[2].or(self.feed));
        words_no(&words, motion, feed)?;
        if words[3..].iter().any(Option::is_some) {
            self.moved(&words, motion.unwrap_or(0), feed.unwrap_or(0) * P, out)?;
        }
        (self.motion, self.feed) = (motion, feed);
        Ok(())
    }

    /// The lines of a text to the last one, or to the one that is refused.
    fn lines(&mut self, text: &[u8], out: &mut Listing) -> Result<(), u8> {
        if text.len() > 65536 {
            self.line = 1;
            return Err(30);
        }
        for line in text.strip_suffix(b"\n").unwrap_or(text).split(|b| *b == b'\n') {
            self.line += 1;
            self.text_line(line, out)?;
        }
        Ok(())
    }
}

fn main() -> io::Result<()> {
    let mut text = Vec::with_capacity(65537);
    io::stdin().lock().take(65537).read_to_end(&mut text)?;
    let mut out = Listing { bytes: Vec::with_capacity(PIECE + 160), to: io::stdout().lock() };
    let mut job = Job::default();
    out.text(b"block line kind cycles x y bits\n");
    if let Err(no) = job.lines(&text, &mut out) {
        out.text(b"line ");
        out.number(job.line, b' ');
        out.text(b"refused ");
        out.number(i64::from(no), b'\n');
    } else {
        out.text(b"total ");
        out.number(job.blocks, b' ');
        out.number(job.cycles, b' ');
        out.number(job.ticks, b'\n');
    }
    out.hand_out();
    out.to.flush()
}
