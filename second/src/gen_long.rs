//! Made-up texts about as long as a text may be, for p 50, w 5,000 and the widest travel: mostly good lines up to byte 65,537, which is put
//! at every kind of place. Their lines are cheap to read, so that many texts can be compared.

use std::io::{self, Write};

use crate::gen_jobs;
use crate::listing::LONGEST_TEXT;
use crate::rng::Rng;
use crate::stream;

pub fn write_texts(seed: u64, count: u64, out: &mut impl Write) -> io::Result<()> {
    (0..count).try_for_each(|index| stream::write(index, None, &text(seed, index), out))
}

/// The text of this number: those of one byte alone first, then made-up ones, once in a while a short job.
pub fn text(seed: u64, index: u64) -> Vec<u8> {
    let rng = &mut Rng::new(seed, index);
    match usize::try_from(index).ok().and_then(|index| ALONE.get(index)) {
        Some(&(byte, bytes)) => vec![byte; bytes],
        None if rng.percent(5) => gen_jobs::job(seed, index),
        None => around_the_limit(rng),
    }
}

/// A line after the other that is empty, and one line that never ends.
const ALONE: [(u8, usize); 10] = [
    (b'\n', 65_536),
    (b'\n', 65_537),
    (b'\n', 65_538),
    (b'\n', 200_000),
    (b' ', 65_536),
    (b' ', 65_537),
    (b' ', 200_000),
    (b'1', 65_536),
    (b'1', 65_537),
    (b'X', 65_600),
];

/// A line of which byte 65,537 is the first byte, the LF, the first behind it or any, with whole lines before it and any behind it, cut off
/// somewhere near.
fn around_the_limit(rng: &mut Rng) -> Vec<u8> {
    let line = limit_line(rng);
    let before = match rng.below(5) {
        0 => 0,
        1 => line.len(),
        2 => line.len() + 1,
        _ => rng.below(line.len() as u64 + 1) as usize,
    };
    let mut text = lines_before(rng, LONGEST_TEXT.saturating_sub(before));
    text.extend(line);
    text.push(b'\n');
    let (end, more) = (length(rng, text.len()), rng.one_of(&[GOOD, BAD], GOOD));
    while text.len() < end {
        text.extend(rng.one_of(more, b""));
        text.push(b'\n');
    }
    text.truncate(end);
    text
}

/// How long the text is whose line at the limit ends here: mostly a little more or less than it may be, or up to that line with its LF or
/// without.
fn length(rng: &mut Rng, end_of_line: usize) -> usize {
    match rng.below(20) {
        0 => 1 + rng.below(LONGEST_TEXT as u64) as usize,
        1 => LONGEST_TEXT + rng.below(150_000) as usize,
        2..=3 => LONGEST_TEXT,
        4..=5 => LONGEST_TEXT + 1,
        6..=8 => end_of_line,
        9..=10 => end_of_line - 1,
        _ => LONGEST_TEXT - 36 + rng.below(101) as usize,
    }
}

/// Lines that are good after `G1` and an F, and leave a G1; some as long as a line may be.
const GOOD: &[&[u8]] = &[
    b"",
    b" ",
    b"N7",
    b"X1",
    b"X2",
    b"X1Y1",
    b"X-0.5 Y2.24 F6000",
    b"Y0 F0.75",
    b"G3 J0.1\nG1",
    b"   N0000001   G01   X+0000001.000   Y-0000001.000   F0006000.000              ",
    b"N1              X0.02                                                          ",
    b"                                                                                ",
];

/// The shortest lines that make blocks.
const MOVES: &[&[u8]] = &[b"X1", b"X2"];

/// Lines that are refused after `G1` and an F, each for another reason.
const BAD: &[&[u8]] =
    &[b"F0X9", b"X30000", b"G2I0", b"G3X1I2Y5", b"G1X20000\nG3J1", b"?", b"X1\r", b"X5.", b"X1X2", b"G4", b"X0.01", b"X5I1"];

/// The line that is put at the limit: good, empty, refused, or too long, also by far.
fn limit_line(rng: &mut Rng) -> Vec<u8> {
    match rng.below(10) {
        0..=3 => rng.one_of(GOOD, b"").to_vec(),
        4 => Vec::new(),
        5..=6 => rng.one_of(BAD, b"?").to_vec(),
        _ => too_long(rng),
    }
}

/// More than 80 bytes: a good line but for that, or no words either.
fn too_long(rng: &mut Rng) -> Vec<u8> {
    let most = rng.one_of(&[81, 82, 90, 170, 5_000, 66_000], 81);
    let mut line = rng.one_of(&[b"X5".as_slice(), b"", b"?", b"X1X1"], b"").to_vec();
    line.resize(rng.between(81, most) as usize, b' ');
    line
}

/// Whole lines of so many bytes, good but for one at times, which is the first, the last or any.
fn lines_before(rng: &mut Rng, bytes: usize) -> Vec<u8> {
    let mut bad = if rng.percent(70) { rng.one_of(BAD, b"?").to_vec() } else { too_long(rng) };
    bad.push(b'\n');
    match bytes.checked_sub(bad.len()) {
        Some(room) if rng.percent(20) => {
            let any = rng.below(room as u64 + 1) as usize;
            let first = rng.one_of(&[0, any, room], any);
            [good_lines(rng, first), bad, good_lines(rng, room - first)].concat()
        }
        _ => good_lines(rng, bytes),
    }
}

/// Good lines of so many bytes: all kinds, or short moves alone, the most rows that a text can have. The last is blank.
fn good_lines(rng: &mut Rng, bytes: usize) -> Vec<u8> {
    let mut text = Vec::new();
    let kinds = if rng.percent(75) { GOOD } else { MOVES };
    let mut line: &[u8] = b"G1 F6000";
    while text.len() + line.len() < bytes {
        text.extend(line);
        text.push(b'\n');
        line = rng.one_of(kinds, b"");
    }
    if text.len() < bytes {
        text.resize(bytes - 1, b' ');
        text.push(b'\n');
    }
    text
}

#[cfg(test)]
mod tests {
    use super::*;
    use crate::listing::lines;
    use crate::panel;
    use crate::settings::USUAL;
    use std::collections::HashMap;

    fn last_row(text: &[u8]) -> String {
        let mut out = Vec::new();
        panel::list(text, &USUAL, &mut out).unwrap();
        String::from_utf8(out).unwrap().lines().last().unwrap().to_string()
    }

    /// Every kind of line is what it is said to be.
    #[test]
    fn good_and_bad_lines() {
        let rng = &mut Rng::new(1, 1);
        for bytes in [0, 1, 2, 8, 9, 10, 500, 65_536] {
            for _ in 0..20 {
                let text = good_lines(rng, bytes);
                assert_eq!(text.len(), bytes);
                assert!(last_row(&text).starts_with("total ") && text.last().is_none_or(|&byte| byte == b'\n'));
            }
        }
        let numbers = BAD.iter().map(|line| last_row(&[b"G1 F6000\n", *line].concat()).rsplit(' ').next().unwrap().to_string());
        let expected = ["11", "12", "14", "15", "16", "32", "32", "32", "33", "34", "35", "37"];
        assert_eq!(numbers.collect::<Vec<_>>(), expected);
        assert!(GOOD.iter().any(|line| line.len() == 80));
    }

    /// What byte 65,537 is to its line, and what the line would be without it.
    fn place(text: &[u8]) -> (&'static str, &'static str) {
        let before = text[..LONGEST_TEXT].iter().rev().take_while(|&&byte| byte != b'\n').count();
        let line = lines(&text[LONGEST_TEXT - before..]).next().unwrap();
        let place = match before {
            _ if before == line.len() => "LF",
            0 => "first",
            _ => "middle",
        };
        let kind = match line.len() {
            0 => "empty",
            81.. => "too long",
            _ if last_row(&[b"G1 F6000\n", line].concat()).starts_with("line ") => "refused",
            _ => "good",
        };
        (place, kind)
    }

    /// How often byte 65,537 is where, and whether 30 comes of it or a line before was refused; of texts that have none whether they are as
    /// long as may be, how they end, and whether they are read to that end.
    fn met(seed: u64) -> HashMap<(&'static str, &'static str, bool), u64> {
        let mut met = HashMap::new();
        for index in 0..200 {
            let text = text(seed, index);
            let row = last_row(&text);
            let key = if text.len() > LONGEST_TEXT {
                let (place, kind) = place(&text);
                (place, kind, row.ends_with(" refused 30"))
            } else {
                let length = if text.len() == LONGEST_TEXT { "full" } else { "shorter" };
                (length, if text.ends_with(b"\n") { "with LF" } else { "without LF" }, row.starts_with("total "))
            };
            *met.entry(key).or_default() += 1;
        }
        println!("{met:?}");
        met
    }

    /// Seeds 1 and 2 are those of tests/panel.
    #[test]
    fn every_kind_of_place() {
        let mut wanted = vec![("LF", "empty")];
        for place in ["first", "middle", "LF"] {
            wanted.extend(["good", "refused", "too long"].map(|kind| (place, kind)));
        }
        for length in ["full", "shorter"] {
            wanted.extend(["with LF", "without LF"].map(|end| (length, end)));
        }
        for seed in [1, 2] {
            let met = met(seed);
            for (place, kind) in &wanted {
                assert!(met.contains_key(&(*place, *kind, true)), "{place}, {kind}");
            }
            let longer = |by_30: bool| -> u64 {
                met.iter()
                    .filter(|((place, _, told), _)| *told == by_30 && !["full", "shorter"].contains(place))
                    .map(|(_, count)| count)
                    .sum()
            };
            assert!(longer(true) > 80 && longer(false) > 15, "{} {}", longer(true), longer(false));
            assert!(["with LF", "without LF"].iter().all(|end| met.contains_key(&("full", end, false))));
        }
    }
}
