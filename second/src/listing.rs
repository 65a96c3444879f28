//! "The check program": a job text to its listing.

use std::fmt;
use std::io::{self, Write};

use crate::book::{Book, Path};
use crate::job::{Meaning, Reader};
use crate::settings::Settings;
use crate::sound::record_of;

/// How a block comes to its end: by the tick number of "Feed divider", or tick by tick.
#[derive(Clone, Copy, PartialEq, Eq, Debug)]
pub enum Pace {
    AtOnce,
    TickByTick,
}

/// "is the text at most 65,536 bytes (asked once, line 1)? 30."
pub const LONGEST_TEXT: usize = 65_536;

/// A check on its way or over: the machine where the last block ended, the G and F known, and "blocks, cycles and ticks" so far. By the
/// feeds of 02 §4 a text has room for more than 2^64 ticks.
pub struct Check {
    book: Book,
    known: Reader,
    pace: Pace,
    blocks: u64,
    cycles: u128,
    ticks: u128,
}

/// `RECORD known G F done BLOCKS CYCLES TICKS`, F in thousandths; 0 and -1 where no G and no F is known.
impl fmt::Display for Check {
    fn fmt(&self, out: &mut fmt::Formatter) -> fmt::Result {
        let (g, f) = (self.known.g.unwrap_or(0), self.known.f.map_or(-1, i128::from));
        write!(out, "{} known {g} {f} done {} {} {}", record_of(&self.book), self.blocks, self.cycles, self.ticks)
    }
}

/// The check at a machine with these settings.
pub fn check(text: &[u8], settings: &Settings, pace: Pace, out: &mut impl Write) -> io::Result<Check> {
    check_by(made(settings, out)?, text, pace, out)
}

/// The machine of a check. Where its settings are refused a first line tells it, and the machine is the one that such a make answers.
pub fn made(settings: &Settings, out: &mut impl Write) -> io::Result<Book> {
    let (book, refusal) = Book::make(*settings);
    if let Some(number) = refusal {
        writeln!(out, "settings refused {number}")?;
    }
    Ok(book)
}

/// The check by a book of its own.
pub fn check_by(book: Book, text: &[u8], pace: Pace, out: &mut impl Write) -> io::Result<Check> {
    let mut check = Check::begin(book, pace, out)?;
    let refused = if text.len() > LONGEST_TEXT { Some((1, 30)) } else { check.rows(text, out)? };
    check.end(refused, out)?;
    Ok(check)
}

impl Check {
    pub fn begin(book: Book, pace: Pace, out: &mut impl Write) -> io::Result<Check> {
        writeln!(out, "block line kind cycles x y bits")?;
        Ok(Check { book, known: Reader::default(), pace, blocks: 0, cycles: 0, ticks: 0 })
    }

    /// "At a refusal the rows so far stand and the last line is `line 3 refused 15`", else it is the total.
    pub fn end(&self, refused: Option<(usize, u32)>, out: &mut impl Write) -> io::Result<()> {
        match refused {
            Some((line, number)) => writeln!(out, "line {line} refused {number}"),
            None => writeln!(out, "total {} {} {}", self.blocks, self.cycles, self.ticks),
        }
    }

    /// A row for each block; the text line that is refused, if one is, with its number.
    pub fn rows(&mut self, text: &[u8], out: &mut impl Write) -> io::Result<Option<(usize, u32)>> {
        for (at, line) in lines(text).enumerate() {
            match self.known.line(&mut self.book, line) {
                Meaning::NoBlock => (),
                Meaning::Refused(refusal) => return Ok(Some((at + 1, refusal))),
                Meaning::Loaded { bits } => self.row(at + 1, bits, out)?,
            }
        }
        Ok(None)
    }

    /// "Fields: block number, text line, L or A, cycles, absolute end, register width". "Each block is
    /// loaded once the one before has ended, remainder kept."
    fn row(&mut self, line: usize, bits: u32, out: &mut impl Write) -> io::Result<()> {
        let book = &mut self.book;
        let kind = match book.block.map(|block| block.path) {
            Some(Path::Arc { .. }) => 'A',
            _ => 'L',
        };
        let (cycles, ticks) = match self.pace {
            Pace::AtOnce => (book.block.map_or(0, |block| block.k), book.finish_at_once()),
            Pace::TickByTick => tick_to_the_end(book),
        };
        self.blocks += 1;
        self.cycles += u128::from(cycles);
        self.ticks += ticks;
        writeln!(out, "{} {line} {kind} {cycles} {} {bits}", self.blocks, book.point)
    }
}

/// The tick bytes of the job's blocks, at most so many: every one is ticked.
pub fn ticks(text: &[u8], settings: &Settings, most: u64, out: &mut impl Write) -> io::Result<()> {
    if text.len() > LONGEST_TEXT {
        return Ok(());
    }
    let (mut reader, mut book, mut left) = (Reader::default(), Book::make(*settings).0, most);
    for line in lines(text) {
        if let Meaning::Refused(_) = reader.line(&mut book, line) {
            return Ok(());
        }
        while book.block.is_some() {
            if left == 0 {
                return Ok(());
            }
            left -= 1;
            out.write_all(&[book.tick()])?;
        }
    }
    Ok(())
}

/// "A last line may lack its LF." After a last LF there is no further line.
pub fn lines(text: &[u8]) -> impl Iterator<Item = &[u8]> {
    let without_last_lf = text.strip_suffix(b"\n").unwrap_or(text);
    let none = text.is_empty();
    without_last_lf.split(|&byte| byte == 10).filter(move |_| !none)
}

/// Cycles by the bytes that mark one, ticks by counting, the end by the byte that marks it.
fn tick_to_the_end(book: &mut Book) -> (u64, u128) {
    let (mut cycles, mut ticks) = (0, 0);
    loop {
        let byte = book.tick();
        ticks += 1;
        cycles += u64::from(byte & 16 != 0);
        if byte & 32 != 0 || book.block.is_none() {
            return (cycles, ticks);
        }
    }
}

#[cfg(test)]
mod tests {
    use super::*;
    use crate::gen_jobs;
    use crate::settings::USUAL;

    fn listing_at(text: &[u8], settings: &Settings, pace: Pace) -> String {
        let mut out = Vec::new();
        check(text, settings, pace, &mut out).unwrap();
        String::from_utf8(out).unwrap()
    }

    fn listing(text: &[u8], pace: Pace) -> String {
        listing_at(text, &USUAL, pace)
    }

    fn fast(text: &[u8]) -> String {
        listing(text, Pace::AtOnce)
    }

    const HEADER: &str = "block line kind cycles x y bits\n";

    #[test]
    fn the_listing_of_the_paper() {
        let text = b"N20 G01 X20 Y40 F100\nN30 X50 Y80\n";
        let expected = format!("{HEADER}1 1 L 2237 1000 2000 11\n2 2 L 2500 2500 4000 11\ntotal 2 4737 284220\n");
        assert_eq!(fast(text), expected);
        assert_eq!(fast(&text[..text.len() - 1]), expected);
        assert_eq!(listing(text, Pace::TickByTick), expected);
        assert_eq!(fast(b""), format!("{HEADER}total 0 0 0\n"));
        assert_eq!(fast(b"\n\n"), format!("{HEADER}total 0 0 0\n"));
        assert_eq!(fast(b"G1F1\n\nX1\nX2I1"), format!("{HEADER}1 3 L 50 50 0 6\nline 4 refused 37\n"));
    }

    /// Half a circle of N 25 has 14 cycles, 8 straight and 6 diagonal: 8,000 + 8,484 = 16,484, so that at f = q0 it ends on tick 17 and
    /// leaves 516. The next half needs 16,484 - 516 more, 16 ticks; a line's cycle after it 1,000 - 32.
    #[test]
    fn ticks_of_arcs() {
        let text = b"G3 Y0.2 J0.1 F6000\nY0 J-0.1\nG1 X0.02";
        let expected = format!("{HEADER}1 1 A 14 0 10 3\n2 2 A 14 0 0 3\n3 3 L 1 1 0 1\ntotal 3 29 34\n");
        assert_eq!(fast(text), expected);
        assert_eq!(listing(text, Pace::TickByTick), expected);
    }

    /// "Text of 65,536 bytes read; 65,537 gives 30."
    #[test]
    fn long_texts_and_lines() {
        assert_eq!(fast(&[b'\n'; 65_536]), format!("{HEADER}total 0 0 0\n"));
        assert_eq!(fast(&[b'\n'; 65_537]), format!("{HEADER}line 1 refused 30\n"));
        assert_eq!(fast(&[b'?'; 65_537]), format!("{HEADER}line 1 refused 30\n"));
        assert_eq!(fast(&[b'?'; 65_536]), format!("{HEADER}line 1 refused 31\n"));
        assert_eq!(fast(&[b' '; 80]), format!("{HEADER}total 0 0 0\n"));
        assert_eq!(fast(&[b' '; 81]), format!("{HEADER}line 1 refused 31\n"));
        assert_eq!(fast(b"\nX0.01"), format!("{HEADER}line 2 refused 35\n"));
        assert_eq!(fast(b"G1F1X0.02\r\n"), format!("{HEADER}line 1 refused 32\n"));
        assert_eq!(fast(b"G1F1X0.02"), format!("{HEADER}1 1 L 1 1 0 1\ntotal 1 1 6000\n"));
    }

    /// Any bytes get a listing whose last line is a total or a refusal.
    #[test]
    fn any_bytes_get_an_answer() {
        let mut rng = crate::rng::Rng::new(4, 4);
        for _ in 0..20_000 {
            let length = rng.below(120);
            let likely = b"XYIJGNF0123456789.+- \n\n";
            let text: Vec<u8> = (0..length).map(|_| if rng.percent(98) { rng.one_of(likely, 0) } else { rng.any() as u8 }).collect();
            let told = fast(&text);
            let last = told.lines().last().unwrap();
            assert!(last.starts_with("total ") || last.starts_with("line "));
        }
    }

    /// Another p is another length, and another travel another 12; settings that are refused are told first.
    #[test]
    fn other_settings() {
        let narrow = Settings { p: 10, w: 1_000, x_lower: 0, x_upper: 20, y_lower: -5, y_upper: 0 };
        let at_narrow = |text: &[u8]| listing_at(text, &narrow, Pace::AtOnce);
        assert_eq!(at_narrow(b"G1X2F6000"), format!("{HEADER}1 1 L 20 20 0 5\ntotal 1 20 20\n"));
        assert_eq!(at_narrow(b"G1X2F6001"), format!("{HEADER}line 1 refused 11\n"));
        assert_eq!(at_narrow(b"G1X2.1F1"), format!("{HEADER}line 1 refused 12\n"));
        assert_eq!(at_narrow(b"G1X0.02F1"), format!("{HEADER}line 1 refused 35\n"));
        let refused = Settings { x_lower: 1, ..narrow };
        assert_eq!(
            listing_at(b"G1X0.02F6000", &refused, Pace::AtOnce),
            format!("settings refused 3\n{HEADER}1 1 L 1 1 0 1\ntotal 1 1 1\n")
        );
    }

    /// "Thin foil needs 0.75 mm per minute": 50 pulses of 8,000 ticks each.
    #[test]
    fn feeds_with_points() {
        for (text, told) in [
            ("G1 X1 F0.75", "1 1 L 50 50 0 6\ntotal 1 50 400000\n"),
            ("G1 X1 F0.750", "1 1 L 50 50 0 6\ntotal 1 50 400000\n"),
            ("G1 X0.02 F0.001", "1 1 L 1 1 0 1\ntotal 1 1 6000000\n"),
            ("G1 F9999999.999\nX0\nF6000.000 X1", "1 3 L 50 50 0 6\ntotal 1 50 50\n"),
            ("G1 X1 F9999999.999", "line 1 refused 11\n"),
            ("G1 X1 F6000.001", "line 1 refused 11\n"),
            ("G1 F0.000\nX0\nX1", "line 3 refused 11\n"),
            ("G1 F0.75 X0.02\nX0.04 F1.", "1 1 L 1 1 0 1\nline 2 refused 32\n"),
            ("G1.0 F1", "line 1 refused 32\n"),
            ("N1.5", "line 1 refused 32\n"),
        ] {
            assert_eq!(fast(text.as_bytes()), format!("{HEADER}{told}"), "{text}");
            assert_eq!(listing(text.as_bytes(), Pace::TickByTick), format!("{HEADER}{told}"), "{text}");
        }
    }

    /// "f equal to q0 accepted; q0 + 1 gives 11": the largest F of every clock, to the thousandth, and one thousandth more.
    #[test]
    fn the_largest_feed_of_each_clock() {
        for w in [1_000, 1_001, 5_000, 7_777, 10_000, 19_999, 20_000] {
            for p in [1, 2, 3, 7, 8, 10, 40, 50, 80, 125, 999, 1_000] {
                let (settings, most) = (Settings { p, w, ..USUAL }, 60_000 * w / p);
                let told =
                    |feed: u64| listing_at(format!("G1 X1 F{}.{:03}", feed / 1_000, feed % 1_000).as_bytes(), &settings, Pace::AtOnce);
                // A cycle a tick where it is q0, and else a tick more for what is short of it.
                let (bits, ticks) = (64 - p.leading_zeros(), p + u64::from(60_000 * w % p > 0));
                assert_eq!(told(most), format!("{HEADER}1 1 L {p} {p} 0 {bits}\ntotal 1 {p} {ticks}\n"), "{p} {w}");
                assert_eq!(told(most + 1), format!("{HEADER}line 1 refused 11\n"), "{p} {w}");
            }
        }
    }

    /// A text of full turns as great as the travel, at the slowest feed of the fastest clock.
    #[test]
    fn more_ticks_than_64_bits_hold() {
        let (settings, text) = gen_jobs::longest();
        let told = listing_at(&text, &settings, Pace::AtOnce);
        let last: Vec<u128> = told.lines().last().unwrap().split(' ').skip(1).map(|number| number.parse().unwrap()).collect();
        let [blocks, cycles, ticks] = last[..] else { panic!("{last:?}") };
        assert!(text.len() <= LONGEST_TEXT && ticks > 3 << 64, "{ticks}");
        // The line to the edge, at once, and then turns of as many cycles and ticks each.
        let turn = "G1 X-1000000 F1200000\nG2 I1000000 F0.001";
        let one = listing_at(turn.as_bytes(), &settings, Pace::AtOnce);
        let last: Vec<u128> = one.lines().last().unwrap().split(' ').skip(1).map(|number| number.parse().unwrap()).collect();
        let way = 1_000_000;
        assert_eq!(((blocks - 1) * (last[1] - way) + way, (blocks - 1) * (last[2] - way) + way), (cycles, ticks));
    }

    /// What is left is the machine at the end of the last block, and what is known; a refused line adds nothing.
    #[test]
    fn what_a_job_leaves() {
        let end = |text: &[u8]| check(text, &USUAL, Pace::AtOnce, &mut Vec::new()).unwrap().to_string();
        let usual = "50 5000 -1000000 1000000 -1000000 1000000";
        assert_eq!(end(b""), format!("{usual} 0 0 0 0 none 0 0 known 0 -1 done 0 0 0"));
        assert_eq!(end(b"G1X0.02F7\nG2F8\nG3F9X1"), format!("{usual} 1 0 0 300000000 none 0 0 known 2 8000 done 1 1 858"));
        assert_eq!(end(b"G1F0.75\nX0.02\nF.5"), format!("{usual} 1 0 0 0 none 0 0 known 1 750 done 1 1 8000"));
        assert_eq!(end(b"F9999999.999\nF9999999.9999"), format!("{usual} 0 0 0 0 none 0 0 known 0 9999999999 done 0 0 0"));
        assert_eq!(end(&[b'\n'; 65_537]), format!("{usual} 0 0 0 0 none 0 0 known 0 -1 done 0 0 0"));
    }

    /// "a separate slow mode": ticks one by one and the tick number agree on generated jobs, at the usual settings and at others.
    #[test]
    fn ticking_agrees_with_the_tick_number() {
        let mut compared = 0;
        for index in 0..2_000 {
            let (settings, text) = if index % 2 == 0 { (USUAL, gen_jobs::job(7, index)) } else { gen_jobs::job_at(7, index) };
            let (mut at_once, mut slowly) = (Vec::new(), Vec::new());
            let end = check(&text, &settings, Pace::AtOnce, &mut at_once).unwrap();
            if (1..100_000).contains(&end.ticks) {
                let other = check(&text, &settings, Pace::TickByTick, &mut slowly).unwrap();
                assert_eq!((at_once, end.to_string()), (slowly, other.to_string()), "job {index}");
                compared += 1;
            }
        }
        assert!(compared > 300, "{compared}");
    }
}
