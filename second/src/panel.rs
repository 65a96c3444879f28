//! 02 §5, "Checking on the panel": a panel has room for a line and not for a text. It has listed the lines that it was given when it
//! learns that the text is too long, so that 30 comes last and not first.

use std::io::{self, Write};

use crate::listing::{lines, made, Check, Pace, LONGEST_TEXT};
use crate::settings::Settings;

/// "For a text of at most 65,536 bytes the listing equals the old one in every byte. For a longer one the rows of the whole lines before
/// byte 65,537 come first. Unless one of those was refused, 30 follows".
pub fn list(text: &[u8], settings: &Settings, out: &mut impl Write) -> io::Result<()> {
    let mut check = Check::begin(made(settings, out)?, Pace::AtOnce, out)?;
    let (read, too_long) = parted(text);
    let refused = check.rows(read, out)?.or(too_long);
    check.end(refused, out)
}

/// The lines that are asked, and of a longer text "30 .. with the line holding that byte", which is not asked itself: its "other faults
/// don't count".
fn parted(text: &[u8]) -> (&[u8], Option<(usize, u32)>) {
    if text.len() <= LONGEST_TEXT {
        return (text, None);
    }
    // A line is whole before byte 65,537 where its LF is.
    let end = text[..LONGEST_TEXT].iter().rposition(|&byte| byte == b'\n').map_or(0, |lf| lf + 1);
    let whole = &text[..end];
    (whole, Some((lines(whole).count() + 1, 30)))
}

#[cfg(test)]
mod tests {
    use super::*;
    use crate::gen_jobs;
    use crate::gen_long;
    use crate::job::{Meaning, Reader};
    use crate::listing::check;
    use crate::settings::USUAL;

    const HEADER: &str = "block line kind cycles x y bits\n";

    fn panel(text: &[u8]) -> String {
        let mut out = Vec::new();
        list(text, &USUAL, &mut out).unwrap();
        String::from_utf8(out).unwrap()
    }

    fn old(text: &[u8]) -> String {
        let mut out = Vec::new();
        check(text, &USUAL, Pace::AtOnce, &mut out).unwrap();
        String::from_utf8(out).unwrap()
    }

    /// `G1 F6000 X1` and blank lines, so many bytes in all, every line 64 bytes with its LF but for the last, and then this.
    fn after(bytes: usize, rest: &str) -> Vec<u8> {
        let mut text = vec![b' '; bytes];
        text[..11].copy_from_slice(b"G1 F6000 X1");
        text.iter_mut().skip(63).step_by(64).for_each(|byte| *byte = b'\n');
        text[bytes - 1] = b'\n';
        text.extend(rest.bytes());
        text
    }

    /// The listing of `after` where the last row is this one.
    fn listing(last: &str) -> String {
        format!("{HEADER}1 1 L 50 50 0 6\n{last}\n")
    }

    /// Of 65,536 bytes and their whole lines the one after is line 1,025.
    #[test]
    fn byte_65537_at_every_place_of_a_line() {
        for (bytes, rest) in [
            // first in its line, which may have it alone, or be empty and have it as LF
            (65_536, "X2\n"),
            (65_536, "X"),
            (65_536, "\n"),
            (65_536, "\n\nX2\n"),
            // in the middle, last, and the LF
            (65_535, "X2\n"),
            (65_535, "X2"),
            (65_534, "X2\n"),
            (65_534, "X2\nX3\n"),
            // in lines that would be refused
            (65_535, "?\n"),
            (65_535, "X2 I1\n"),
            (65_530, "X30000\n"),
            (65_533, "G4\r\n"),
        ] {
            let text = after(bytes, rest);
            assert!(text.len() > LONGEST_TEXT);
            assert_eq!(panel(&text), listing("line 1025 refused 30"), "{bytes} {rest:?}");
        }
    }

    /// Read to its end, the last line with its LF and without it.
    #[test]
    fn at_most_65536_bytes() {
        assert_eq!(panel(&after(65_536, "")), listing("total 1 50 50"));
        assert_eq!(panel(&after(65_535, "\n")), listing("total 1 50 50"));
        for text in [after(65_533, "X2\n"), after(65_534, "X2"), after(65_532, "X2\n")] {
            assert_eq!(panel(&text), listing("2 1025 L 50 100 0 6\ntotal 2 100 100"));
            assert_eq!(panel(&text), old(&text));
        }
    }

    /// "Unless one of those was refused": nothing follows its row, be it the first line or the one whose LF is byte 65,536.
    #[test]
    fn a_refused_line_before() {
        assert_eq!(panel(&after(65_534, "?\nX2\n")), listing("line 1025 refused 32"));
        assert_eq!(panel(&after(65_528, "X2 X2 ?\nX2\n")), listing("line 1025 refused 32"));
        assert_eq!(panel(&after(640, &"?\n".repeat(40_000))), listing("line 11 refused 32"));
        assert_eq!(panel("?\n".repeat(40_000).as_bytes()), format!("{HEADER}line 1 refused 32\n"));
    }

    /// A line of more than 80 bytes gets 31 where its end is before byte 65,537, and 30 where it holds that byte, with its 81st before it,
    /// there or behind it.
    #[test]
    fn long_lines() {
        for length in [81, 82, 100, 5_000] {
            let line = " ".repeat(length);
            for before in [1, 79, 80, 81, length - 1, length] {
                let lines = (65_536 - before).div_ceil(64);
                assert_eq!(panel(&after(65_536 - before, &line)[..65_536]).contains("refused 31"), before > 80, "{length} {before}");
                let told = panel(&after(65_536 - before, &format!("{line}\nX2")));
                assert_eq!(told, listing(&format!("line {} refused 30", lines + 1)), "{length} {before}");
            }
            let lines = (65_535 - length).div_ceil(64);
            for rest in ["", "\n", "X2\n", "?"] {
                let told = panel(&after(65_535 - length, &format!("{line}\n{rest}")));
                assert_eq!(told, listing(&format!("line {} refused 31", lines + 1)), "{length} {rest:?}");
            }
        }
    }

    #[test]
    fn texts_of_one_byte_alone() {
        assert_eq!(panel(b""), format!("{HEADER}total 0 0 0\n"));
        for byte in [b' ', b'?', b'X'] {
            assert_eq!(panel(&vec![byte; 65_536]), format!("{HEADER}line 1 refused 31\n"));
            assert_eq!(panel(&vec![byte; 65_537]), format!("{HEADER}line 1 refused 30\n"));
            assert_eq!(panel(&vec![byte; 1_000_000]), format!("{HEADER}line 1 refused 30\n"));
        }
        assert_eq!(panel(&[b'\n'; 65_536]), format!("{HEADER}total 0 0 0\n"));
        assert_eq!(panel(&[b'\n'; 65_537]), format!("{HEADER}line 65537 refused 30\n"));
        assert_eq!(panel(&vec![b'\n'; 1_000_000]), format!("{HEADER}line 65537 refused 30\n"));
    }

    /// The last row once more, line after line with the bytes counted: `none` where it is a total.
    fn refused(text: &[u8]) -> Option<(usize, u32)> {
        let (mut known, mut book, mut read) = (Reader::default(), made(&USUAL, &mut Vec::new()).unwrap(), 0);
        for (at, line) in text.split_inclusive(|&byte| byte == b'\n').enumerate() {
            read += line.len();
            if read > LONGEST_TEXT {
                return Some((at + 1, 30));
            }
            if let Meaning::Refused(number) = known.line(&mut book, line.strip_suffix(b"\n").unwrap_or(line)) {
                return Some((at + 1, number));
            }
            book.finish_at_once();
        }
        None
    }

    #[test]
    fn made_up_texts() {
        for index in 0..300 {
            let text = if index % 3 == 0 { gen_jobs::job(5, index) } else { gen_long::text(5, index) };
            let told = panel(&text);
            assert!(text.len() > LONGEST_TEXT || told == old(&text), "{index}");
            match refused(&text) {
                Some((line, number)) => assert!(told.ends_with(&format!("\nline {line} refused {number}\n")), "{index}"),
                None => assert!(text.len() <= LONGEST_TEXT && told.contains("\ntotal "), "{index}"),
            }
        }
    }
}
