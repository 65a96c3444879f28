//! All arcs of all small circles, cut by the core: `circles MAXN` writes a line `N POINTS ARCS CYCLES TICKS CRC` for each N, as
//! `second circles MAXN totals` does. The circle points of N are those at which the core calls an arc in work sound.

use std::io::{self, BufWriter, Write};
use std::process::ExitCode;
use verdaizka::crc::Crc;
use verdaizka::fields::quarter_cycles;
use verdaizka::{word, Machine, Settings, Why, ABI, USUAL, WORDS};

const CLOCK: i64 = 1_000;
/// The fastest feed number: a tick pays 1,000, all of a straight step's charge and the greater part of a diagonal one's.
const FEED: i64 = Settings { w: CLOCK, ..USUAL }.fastest();

type Point = (i64, i64);

/// An arc in work about the origin, at `at`, with so many cycles to do.
fn arc(n: i64, kind: i64, at: Point, end: Point, left: i64) -> Machine {
    let mut words = [0; WORDS];
    words[..=word::Y].copy_from_slice(&[ABI, 50, CLOCK, -1_000_000, 1_000_000, -1_000_000, 1_000_000, at.0, at.1]);
    words[word::WORK..=word::LEFT].copy_from_slice(&[kind, 0, 0, n, end.0, end.1, FEED, 0, quarter_cycles(n.into()), left]);
    Machine::from_words(words)
}

/// Those of a full turn, by x and then by y.
fn points(n: i64) -> Vec<Point> {
    let reach = (1..).find(|r| r * r > n).expect("a root");
    let square = (-reach..=reach).flat_map(|x| (-reach..=reach).map(move |y| (x, y)));
    square.filter(|&p| arc(n, word::KIND_CCW, p, p, 4 * quarter_cycles(n.into())).hold().is_ok()).collect()
}

/// How many points come before each on the way round counterclockwise.
fn ranks(all: &[Point]) -> Vec<i64> {
    let angle = |(x, y): Point| (y as f64).atan2(x as f64);
    let before = |p: Point| all.iter().filter(|&&q| angle(q) < angle(p)).count();
    all.iter().map(|&p| before(p) as i64).collect()
}

/// From one rank to another so many points are visited, all of them in a full turn.
fn visited(kind: i64, from: i64, to: i64, all: i64) -> i64 {
    let onward = if kind == word::KIND_CCW { to - from } else { from - to };
    (onward - 1).rem_euclid(all) + 1
}

fn pulse(code: u8) -> i64 {
    match code & 3 {
        1 => 1,
        2 => -1,
        _ => 0,
    }
}

/// The cycles and the ticks of an arc, and the CRC over the points that it visits, x and y in 4 bytes each, low byte first.
fn cut(n: i64, kind: i64, start: Point, end: Point, left: i64) -> (u64, u64, u32) {
    let mut machine = arc(n, kind, start, end, left);
    let (mut at, mut cycles, mut all, mut crc) = (start, 0, 0, Crc::new());
    let mut out = [0; 256];
    loop {
        let (why, ticks) = machine.run(u64::MAX, &mut out).expect("a sound record");
        for &byte in out[..ticks as usize].iter().filter(|&byte| byte & 16 != 0) {
            at = (at.0 + pulse(byte), at.1 + pulse(byte >> 2));
            crc.add(&(at.0 as i32).to_le_bytes());
            crc.add(&(at.1 as i32).to_le_bytes());
            cycles += 1;
        }
        all += ticks;
        if why == Why::Ended {
            assert!(at == end && machine.position() == end, "not at the end");
            return (cycles, all, crc.value());
        }
    }
}

fn write_totals(most: i64, out: &mut impl Write) -> io::Result<()> {
    for n in 1..=most {
        let all = points(n);
        let ranks = ranks(&all);
        let (mut arcs, mut cycles, mut ticks, mut crc) = (0u64, 0u64, 0u64, Crc::new());
        for kind in [word::KIND_CW, word::KIND_CCW] {
            for (&start, &from) in all.iter().zip(&ranks) {
                for (&end, &to) in all.iter().zip(&ranks) {
                    let left = visited(kind, from, to, all.len() as i64);
                    let (done, took, way) = cut(n, kind, start, end, left);
                    crc.add(format!("{n} {kind} {} {} {} {} {done} {took} {way:08x}\n", start.0, start.1, end.0, end.1).as_bytes());
                    arcs += 1;
                    cycles += done;
                    ticks += took;
                }
            }
        }
        writeln!(out, "{n} {} {arcs} {cycles} {ticks} {:08x}", all.len(), crc.value())?;
    }
    out.flush()
}

fn main() -> ExitCode {
    let Some(most) = std::env::args().nth(1).and_then(|n| n.parse().ok()) else {
        eprintln!("usage: circles MAXN");
        return ExitCode::from(2);
    };
    if let Err(error) = write_totals(most, &mut BufWriter::new(io::stdout().lock())) {
        eprintln!("circles: {error}");
        return ExitCode::from(2);
    }
    ExitCode::SUCCESS
}
