//! The reader of job text: questions 31 to 37 of a line, each over the whole line before the next,
//! "Then load's questions." Question 30 is asked once, in listing.rs.

use crate::arc::Kind;
use crate::book::{Book, Load};
use crate::point::Point;
use crate::words::{words, Number, Word};

/// "G and F count from their own line until changed"; F in thousandths of a millimetre per minute.
#[derive(Clone, Copy, PartialEq, Eq, Debug, Default)]
pub struct Reader {
    pub g: Option<u64>,
    pub f: Option<u64>,
}

#[derive(Clone, Copy, PartialEq, Eq, Debug)]
pub enum Meaning {
    NoBlock,
    Loaded { bits: u32 },
    Refused(u32),
}

/// The four lengths of a line in pulses, none for a word that does not stand.
struct Lengths {
    x: Option<i64>,
    y: Option<i64>,
    i: Option<i64>,
    j: Option<i64>,
}

impl Lengths {
    fn end_stands(&self) -> bool {
        self.x.is_some() || self.y.is_some()
    }

    fn centre_stands(&self) -> bool {
        self.i.is_some() || self.j.is_some()
    }
}

impl Reader {
    /// "A refused line leaves the known G and F and the machine as before it."
    pub fn line(&mut self, book: &mut Book, line: &[u8]) -> Meaning {
        match self.asked(book, line) {
            Err(number) => Meaning::Refused(number),
            Ok((known, bits)) => {
                *self = known;
                bits.map_or(Meaning::NoBlock, |bits| Meaning::Loaded { bits })
            }
        }
    }

    /// The G and F known from this line on, and the width of the block if one was loaded.
    fn asked(&self, book: &mut Book, line: &[u8]) -> Result<(Reader, Option<u32>), u32> {
        // "Is the line at most 80 bytes without its LF (byte 10)? 31."
        if line.len() > 80 {
            return Err(31);
        }
        // "Is it made of zero or more words, ...? 32."
        let words = words(line).ok_or(32u32)?;
        // "No letter twice? 33."
        if words.iter().enumerate().any(|(at, word)| words[..at].iter().any(|before| before.letter == word.letter)) {
            return Err(33);
        }
        // "Is G 1, 2 or 3? 34."
        let g = number_of(&words, b'G').map(Number::whole);
        if g.is_some_and(|g| !(1..=3).contains(&g)) {
            return Err(34);
        }
        // "Do X, Y, I, J fall on whole pulses? 35."
        let lengths = lengths(&words, book.settings.p).ok_or(35u32)?;
        let f = number_of(&words, b'F').map(|f| f.thousandths);
        let known = Reader { g: g.or(self.g), f: f.or(self.f) };
        let load = known.block(&lengths, book)?;
        let bits = load.map(|load| book.load(&load)).transpose()?;
        Ok((known, bits))
    }

    /// Questions 36 and 37, and the block that the line means, if it means one.
    fn block(&self, lengths: &Lengths, book: &Book) -> Result<Option<Load>, u32> {
        // "A line without X, Y, I, J makes no block"
        if !lengths.end_stands() && !lengths.centre_stands() {
            return Ok(None);
        }
        // "If one of those four stands, are a G and an F known? 36."
        let (Some(g), Some(f)) = (self.g, self.f) else {
            return Err(36);
        };
        // "Do I or J stand only under G 2 or 3, and does a line under 2 or 3 with X or Y have I or
        // J? 37."
        let kind = Kind::of_number(g);
        if lengths.centre_stands() && kind.is_none() {
            return Err(37);
        }
        if kind.is_some() && lengths.end_stands() && !lengths.centre_stands() {
            return Err(37);
        }
        // "X and Y are absolute, a missing one stays; a missing I or J is 0."
        let place = book.place();
        let end = Point::new(lengths.x.unwrap_or(place.x), lengths.y.unwrap_or(place.y));
        let (i, j) = (lengths.i.unwrap_or(0), lengths.j.unwrap_or(0));
        let f = book.feed_number(f);
        match kind {
            Some(kind) => Ok(Some(Load::Arc { kind, end, f, i, j })),
            // "nor does a straight line to the point where it stands, and then 10 to 13 are not put"; by 02 §3 that point is the place
            // where a block would start: "a straight text line to that place makes no block".
            None if end == place => Ok(None),
            None => Ok(Some(Load::Line { end, f })),
        }
    }
}

fn number_of(words: &[Word], letter: u8) -> Option<Number> {
    words.iter().find(|word| word.letter == letter).map(|word| word.number)
}

/// None if one of the four does not fall on a whole pulse.
fn lengths(words: &[Word], p: u64) -> Option<Lengths> {
    let pulses = |letter: u8| match number_of(words, letter) {
        None => Some(None),
        Some(number) => number.pulses(p).map(Some),
    };
    Some(Lengths { x: pulses(b'X')?, y: pulses(b'Y')?, i: pulses(b'I')?, j: pulses(b'J')? })
}

#[cfg(test)]
mod tests {
    use super::*;
    use crate::settings::USUAL;

    fn refusal(lines: &[&str]) -> Option<u32> {
        let (mut reader, mut book) = (Reader::default(), Book::make(USUAL).0);
        for line in lines {
            let before = reader;
            if let Meaning::Refused(number) = reader.line(&mut book, line.as_bytes()) {
                assert_eq!(before, reader);
                return Some(number);
            }
            book.finish_at_once();
        }
        None
    }

    /// docs/DECISIONS.md, "Job text, the order".
    #[test]
    fn each_question_over_the_whole_line_before_the_next() {
        for (line, number) in [
            ("G1 G1 ?", 32),
            ("G9 G9", 33),
            ("G4 X0.01", 34),
            ("G0", 34),
            ("X0.01", 35),
            ("G1 I1", 36),
            ("G1 I1 F0", 37),
            ("G1 X99999 F0", 11),
            ("G1 X99999 F1", 12),
            ("X5 F1", 36),
            ("X5 G1", 36),
            ("I0 F1 G1", 37),
            ("G2 X5 F1", 37),
            ("G1 X5 F6001", 11),
            ("G2 I0 F1", 14),
            ("G2 I20000.02 F1", 14),
            ("G3 X1 I2 F1", 15),
            ("N1 N1", 33),
            ("G3 J20000 F1", 16),
            ("G1 X20000.02 F1", 12),
            ("G2 I20000.02 Y99999 F1", 12),
            ("F1.5 F1. G0", 32),
            ("F1.5 F1.5 G0", 33),
            ("G0 F1.5", 34),
            ("X0.01 F0.013", 35),
            ("G1 X1 F0.000", 11),
            ("G1 X1 F6000.001", 11),
            ("G1 X1 F9999999.999", 11),
        ] {
            assert_eq!(refusal(&[line]), Some(number), "{line}");
        }
        for line in ["G2", "F0", "F9999999", "G1 X0 F0", "G1 X0 Y-0 F9999999", "X5F6000G1", "G2 I5 F1", "G3 J1 F10", "", "N5"] {
            assert_eq!(refusal(&[line]), None, "{line}");
        }
        for line in ["F0.000", "F9999999.999", "G1 X0 F0.0", "X5F6000.000G1", "G1 X1 F0.013", "G2 I5 F0.75", "G1 X1 F0.001"] {
            assert_eq!(refusal(&[line]), None, "{line}");
        }
    }

    /// An F with a point counts until changed as one without does, to the thousandth; a refused line leaves it.
    #[test]
    fn f_is_known_to_the_thousandth() {
        let (mut reader, mut book) = (Reader::default(), Book::make(USUAL).0);
        for (line, thousandths, feed) in [
            ("G1 X1 F0.75", 750, 37_500),
            ("X2", 750, 37_500),
            ("X3 F1.", 750, 37_500),
            ("X3 F6000.001", 750, 37_500),
            ("X3 F6000", 6_000_000, 300_000_000),
            ("X4 F0.013", 13, 650),
            ("F9999999.999", 9_999_999_999, 650),
            ("X5", 9_999_999_999, 650),
            ("X5 F0001.2", 1_200, 60_000),
        ] {
            reader.line(&mut book, line.as_bytes());
            let last = book.waiting.back().or(book.block.as_ref());
            assert_eq!((reader.f, last.map(|last| last.f)), (Some(thousandths), Some(feed)), "{line}");
        }
    }

    /// G and F are known after a line that makes no block (docs/DECISIONS.md, "Job text, the order"); I and J never carry over.
    #[test]
    fn g_and_f_count_until_changed() {
        assert_eq!(refusal(&["G1 X0 F0", "X1"]), Some(11));
        assert_eq!(refusal(&["G1 X0 F0.000", "X0", "X1"]), Some(11));
        assert_eq!(refusal(&["G1", "F100", "X1", "Y1", "X0Y0"]), None);
        assert_eq!(refusal(&["G2 I1 F100", "X5"]), Some(37));
        assert_eq!(refusal(&["G2 I1 F100", "G1 X5", "I1"]), Some(37));
        assert_eq!(refusal(&["G2 I1 F100", "F1", "J1"]), None);
    }
}
