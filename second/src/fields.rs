//! The words of a line, one blank between, as call files and the heads of jobs have them.

use std::fmt;
use std::str::Split;

use crate::arc::Kind;
use crate::book::{Load, MOST_WAITING};
use crate::point::Point;
use crate::settings::Settings;
use crate::sound::{Record, Work};

/// Read from the left; each reading takes the words that it needs, or tells that they are not there.
#[derive(Clone)]
pub struct Fields<'a>(Split<'a, char>);

/// "Numbers are decimal, `-` before a negative one, no `+`, no leading zeros."
fn plain(word: &str) -> bool {
    let digits = word.strip_prefix('-').unwrap_or(word);
    word == "0" || !digits.starts_with(['+', '0'])
}

impl<'a> Fields<'a> {
    pub fn of(line: &'a str) -> Fields<'a> {
        Fields(line.split(' '))
    }

    pub fn word(&mut self) -> Option<&'a str> {
        self.0.next()
    }

    /// Nothing more stands in the line.
    pub fn end(&mut self) -> Option<()> {
        self.word().is_none().then_some(())
    }

    pub fn u64(&mut self) -> Option<u64> {
        self.word().filter(|word| plain(word))?.parse().ok()
    }

    pub fn i64(&mut self) -> Option<i64> {
        self.word().filter(|word| plain(word))?.parse().ok()
    }

    fn point(&mut self) -> Option<Point> {
        Some(Point::new(self.i64()?, self.i64()?))
    }

    fn kind(&mut self) -> Option<Kind> {
        Kind::of_number(self.u64()?)
    }

    fn mark(&mut self) -> Option<bool> {
        match self.word()? {
            "0" => Some(false),
            "1" => Some(true),
            _ => None,
        }
    }

    pub fn settings(&mut self) -> Option<Settings> {
        Some(Settings {
            p: self.u64()?,
            w: self.u64()?,
            x_lower: self.i64()?,
            x_upper: self.i64()?,
            y_lower: self.i64()?,
            y_upper: self.i64()?,
        })
    }

    pub fn record(&mut self) -> Option<Record> {
        let (settings, point, held, remainder, work) = (self.settings()?, self.point()?, self.mark()?, self.u64()?, self.work()?);
        let (left, waiting) = (self.u64()?, self.u64()?);
        // One that says more than sixteen has sixteen.
        let blocks = (0..waiting.min(MOST_WAITING as u64)).map(|_| self.load()).collect::<Option<_>>()?;
        Some(Record { settings, point, held, remainder, work, left, waiting, blocks })
    }

    fn work(&mut self) -> Option<Work> {
        match self.word()? {
            "none" => Some(Work::Nothing),
            "line" => Some(Work::Line { start: self.point()?, end: self.point()?, f: self.u64()?, c: self.u64()? }),
            "arc" => Some(Work::Arc { kind: self.kind()?, centre: self.point()?, n: self.u64()?, end: self.point()?, f: self.u64()? }),
            _ => None,
        }
    }

    pub fn load(&mut self) -> Option<Load> {
        match self.word()? {
            "L" => Some(Load::Line { end: self.point()?, f: self.u64()? }),
            "A" => Some(Load::Arc { kind: self.kind()?, end: self.point()?, f: self.u64()?, i: self.i64()?, j: self.i64()? }),
            _ => None,
        }
    }
}

impl fmt::Display for Point {
    fn fmt(&self, out: &mut fmt::Formatter) -> fmt::Result {
        write!(out, "{} {}", self.x, self.y)
    }
}

impl fmt::Display for Settings {
    fn fmt(&self, out: &mut fmt::Formatter) -> fmt::Result {
        write!(out, "{} {} {} {} {} {}", self.p, self.w, self.x_lower, self.x_upper, self.y_lower, self.y_upper)
    }
}

impl fmt::Display for Work {
    fn fmt(&self, out: &mut fmt::Formatter) -> fmt::Result {
        match self {
            Work::Nothing => write!(out, "none"),
            Work::Line { start, end, f, c } => write!(out, "line {start} {end} {f} {c}"),
            Work::Arc { kind, centre, n, end, f } => write!(out, "arc {} {centre} {n} {end} {f}", kind.number()),
        }
    }
}

impl fmt::Display for Load {
    fn fmt(&self, out: &mut fmt::Formatter) -> fmt::Result {
        match self {
            Load::Line { end, f } => write!(out, "L {end} {f}"),
            Load::Arc { kind, end, f, i, j } => write!(out, "A {} {end} {f} {i} {j}", kind.number()),
        }
    }
}

impl fmt::Display for Record {
    fn fmt(&self, out: &mut fmt::Formatter) -> fmt::Result {
        let Record { settings, point, held, remainder, work, left, waiting, blocks } = self;
        write!(out, "{settings} {point} {} {remainder} {work} {left} {waiting}", u8::from(*held))?;
        blocks.iter().try_for_each(|block| write!(out, " {block}"))
    }
}

#[cfg(test)]
mod tests {
    use super::*;

    #[test]
    fn numbers_as_they_are_written() {
        for word in ["0", "1", "10", "-1", "-9223372036854775808", "9223372036854775807"] {
            assert_eq!(Fields::of(word).i64().map(|n| n.to_string()).as_deref(), Some(word));
        }
        for word in ["", "-", "+1", "-+1", "01", "00", "-0", "-01", "1.0", "0x1", "9223372036854775808", " 1"] {
            assert_eq!(Fields::of(word).i64(), None, "{word}");
        }
        assert_eq!(Fields::of("18446744073709551615").u64(), Some(u64::MAX));
        assert_eq!(Fields::of("-1").u64(), None);
    }
}
