//! Question 32: a line of job text as words.

/// A word's number. X, Y, I, J may have a sign and thousandths, F thousandths alone; N and G have neither.
#[derive(Clone, Copy, PartialEq, Eq, Debug)]
pub struct Number {
    pub minus: bool,
    pub thousandths: u64,
}

impl Number {
    pub fn whole(self) -> u64 {
        self.thousandths / 1_000
    }

    /// Millimetres to pulses: none if it does not fall on a whole pulse (question 35).
    pub fn pulses(self, p: u64) -> Option<i64> {
        let thousandths_of_pulses = u128::from(self.thousandths) * u128::from(p);
        if !thousandths_of_pulses.is_multiple_of(1_000) {
            return None;
        }
        let pulses = i64::try_from(thousandths_of_pulses / 1_000).unwrap_or(i64::MAX);
        Some(if self.minus { -pulses } else { pulses })
    }
}

#[derive(Clone, Copy, PartialEq, Eq, Debug)]
pub struct Word {
    pub letter: u8,
    pub number: Number,
}

/// "Is it made of zero or more words, with any number of blanks (byte 32) or none before, between
/// and after?" The words, or none if it is not.
pub fn words(line: &[u8]) -> Option<Vec<Word>> {
    let mut found = Vec::new();
    let mut rest = without_blanks(line);
    while !rest.is_empty() {
        let (word, after) = first_word(rest)?;
        found.push(word);
        rest = without_blanks(after);
    }
    Some(found)
}

fn without_blanks(text: &[u8]) -> &[u8] {
    let blanks = text.iter().take_while(|&&byte| byte == 32).count();
    &text[blanks..]
}

/// "A word is N, G or F with 1 to 7 digits, or X, Y, I, J with an optional sign, 1 to 7 digits and
/// optionally a point with 1 to 3 digits, in millimetres." By 02 §4 "F may take a point with 1 to 3 digits", and no sign. No word
/// begins with a digit, sign or point, so a word takes all digits that stand there.
fn first_word(text: &[u8]) -> Option<(Word, &[u8])> {
    let (&letter, rest) = text.split_first()?;
    let (number, after) = match letter {
        b'N' | b'G' => whole(rest)?,
        b'F' => decimal(rest)?,
        b'X' | b'Y' | b'I' | b'J' => signed(rest)?,
        _ => return None,
    };
    Some((Word { letter, number }, after))
}

fn whole(text: &[u8]) -> Option<(Number, &[u8])> {
    let (value, after) = digits(text, 7)?;
    Some((Number { minus: false, thousandths: value * 1_000 }, after))
}

fn decimal(text: &[u8]) -> Option<(Number, &[u8])> {
    let (whole, after) = whole(text)?;
    match after.split_first() {
        Some((b'.', part)) => {
            let (part, after) = thousandths(part)?;
            Some((Number { thousandths: whole.thousandths + part, ..whole }, after))
        }
        _ => Some((whole, after)),
    }
}

fn signed(text: &[u8]) -> Option<(Number, &[u8])> {
    let (minus, rest) = match text.split_first() {
        Some((b'-', rest)) => (true, rest),
        Some((b'+', rest)) => (false, rest),
        _ => (false, text),
    };
    let (number, after) = decimal(rest)?;
    Some((Number { minus, ..number }, after))
}

/// The 1 to 3 digits after a point: .5 is 500 thousandths.
fn thousandths(text: &[u8]) -> Option<(u64, &[u8])> {
    let (value, after) = digits(text, 3)?;
    let value = match text.len() - after.len() {
        1 => value * 100,
        2 => value * 10,
        _ => value,
    };
    Some((value, after))
}

/// All digits that stand first, if they are 1 to `most`.
fn digits(text: &[u8], most: usize) -> Option<(u64, &[u8])> {
    let count = text.iter().take_while(|byte| byte.is_ascii_digit()).count();
    if count == 0 || count > most {
        return None;
    }
    let value = text[..count].iter().fold(0, |sum, &byte| sum * 10 + u64::from(byte - b'0'));
    Some((value, &text[count..]))
}

#[cfg(test)]
mod tests {
    use super::*;

    fn is_words(line: &str) -> bool {
        words(line.as_bytes()).is_some()
    }

    /// 01's own words on words; CR is no blank (docs/DECISIONS.md, "The lines of a text").
    #[test]
    fn lines_that_are_words() {
        for line in ["", "   ", "N20 G01 X20 Y40 F100", "G1X5Y-6", "X+5", "X-0", "X-0.000", "G0000001", "N0", " X9999999.999 ", "N1N1"] {
            assert!(is_words(line), "{line}");
        }
        let lengths = ["X.5", "X5.", "X5.1234", "X12345678", "X 5", "X--5", "X5.5.5", "X+", "X5,0"];
        let whole_numbers = ["G 1", "G+1", "N-1", "N12345678"];
        let others = ["X", "G", "x5", "X5\r", "\tX5", "Z1", "%", "(a)", "/X5", "5", "\0"];
        for line in lengths.iter().chain(&whole_numbers).chain(&others) {
            assert!(!is_words(line), "{line}");
        }
    }

    /// "F may take a point with 1 to 3 digits": no sign, a digit on both sides of the point, and N and G as before.
    #[test]
    fn points_in_feeds() {
        for line in ["F0.75", "F0.001", "F1", "F1.5", "F1.50", "F1.500", "F0.000", "F0000000.0", "F9999999.999", "F1.5X1", "G1F1.5N5"] {
            assert!(is_words(line), "{line}");
        }
        let feeds = ["F1.", "F.5", "F.", "F", "F-1", "F+1", "F-0.5", "F1.2345", "F1.0000", "F12345678", "F12345678.5", "F1.5.5", "F1. 5"];
        let between = ["F1,5", "F 1.5", "F1 .5", "F1.-5", "f1.5", "F1.X1", "F1e3"];
        let others = ["N1.5", "G1.0", "G1.", "N.5", "N0.0"];
        for line in feeds.iter().chain(&between).chain(&others) {
            assert!(!is_words(line), "{line}");
        }
    }

    #[test]
    fn numbers() {
        let number = |line: &str| words(line.as_bytes()).unwrap()[0].number;
        assert_eq!(number("X-1.5"), Number { minus: true, thousandths: 1_500 });
        assert_eq!(number("X1.05"), Number { minus: false, thousandths: 1_050 });
        assert_eq!(number("X1.005").thousandths, 1_005);
        assert_eq!(number("G03").whole(), 3);
        assert_eq!(number("F100").thousandths, 100_000);
        assert_eq!(["F0.75", "F0.7", "F0.075", "F00.750"].map(|word| number(word).thousandths), [750, 700, 75, 750]);
        assert_eq!(number("F9999999.999"), Number { minus: false, thousandths: 9_999_999_999 });
        // "X0.01 at p 50 gives 35; X0.02 is one pulse."
        assert_eq!(number("X0.01").pulses(50), None);
        assert_eq!(number("X0.02").pulses(50), Some(1));
        assert_eq!(number("X-0.02").pulses(50), Some(-1));
        assert_eq!(number("X9999999.999").pulses(1_000), Some(9_999_999_999));
    }
}
