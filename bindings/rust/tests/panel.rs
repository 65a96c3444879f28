//! The wrapper checks a job that comes in pieces: whatever their lengths the listing is that of the check, and of a text that is too long
//! the rows before it is. A read leaves all that is not its own, and of the scratch buffer only the bytes held count.

use verdaizka::{word, Check, PanelCheck, PieceRead, Settings, Told, BENCH_WORDS, PANEL_WORDS, ROW_BYTES, SCRATCH_BYTES, USUAL};

const JOB: &[u8] = include_bytes!("../../../examples/gasket.job");
const LISTING: &[u8] = include_bytes!("../../../examples/gasket.listing");
const HEADER: &[u8] = b"block line kind cycles x y bits\n";
const LONGEST_TEXT: usize = 65_536;
const MOST_READS: usize = 131_074;

/// The listing of a text in pieces of these lengths, and where it leaves the check. Between two reads the words are taken out and brought
/// back, and the bytes that are free become others.
fn listing(settings: Settings, text: &[u8], mut lengths: impl Iterator<Item = usize>) -> (Vec<u8>, PanelCheck) {
    let (mut check, started) = PanelCheck::start(settings);
    assert_eq!(started, Ok(()));
    let (mut scratch, mut rows, mut all) = ([0; SCRATCH_BYTES], [0; ROW_BYTES], Vec::new());
    let (mut at, mut end) = (0, 0);
    for noise in (0..=u8::MAX).cycle() {
        if at == end {
            end = text.len().min(at + lengths.next().expect("a length"));
        }
        scratch[check.held() as usize..].fill(noise);
        rows.fill(noise);
        let done = check.read(&mut scratch, &text[at..end], end == text.len(), &mut rows).expect("a check");
        assert!(rows[done.written..].iter().all(|&byte| byte == noise));
        all.extend_from_slice(&rows[..done.written]);
        at += done.took;
        match done.told {
            Told::More => check = PanelCheck::from_words(*check.bench(), *check.panel()),
            Told::Over => break,
            Told::Short => panic!("room enough"),
        }
    }
    (all, check)
}

/// The listing of the check, and where it leaves it.
fn checked(settings: Settings, text: &[u8]) -> (Vec<u8>, Check) {
    let (mut check, started) = Check::start(settings);
    assert_eq!(started, Ok(()));
    let mut out = vec![0; 1 << 20];
    let (written, over) = check.fill(text, &mut out).expect("a check");
    assert!(over);
    out.truncate(written);
    (out, check)
}

/// Lengths from 0 to 300, all of them again and again.
fn all_lengths(from: usize) -> impl Iterator<Item = usize> {
    (from..).map(|at| at * 97 % 301)
}

#[test]
fn the_stored_listing() {
    for length in 1..=JOB.len() + 1 {
        assert_eq!(listing(USUAL, JOB, std::iter::repeat(length)).0, LISTING, "{length}");
    }
    for from in 0..301 {
        assert_eq!(listing(USUAL, JOB, all_lengths(from)).0, LISTING, "{from}");
    }
}

/// Where the bench stands, and what is known and counted, are those of the check too.
#[test]
fn the_words_of_the_check() {
    let other = Settings { p: 10, w: 1_000, x: (-100, 1_000), y: (0, 500) };
    let (short, long) = (format!("{:80}", "G1X10F300"), format!("{:81}", "G1X10F300"));
    let texts =
        ["", "\n", "G1 X10 F300\nX0", "G1X1F9\n\nN7\nG3 X0 I-0.5\n", "G1 X10 F300\nG2 F200\nX0.01", "G1X1F9\nX1000\n", &short, &long];
    for text in texts.map(str::as_bytes) {
        for settings in [USUAL, other] {
            let (all, check) = checked(settings, text);
            for length in 1..100 {
                let (got, panel) = listing(settings, text, std::iter::repeat(length));
                assert_eq!((&got, panel.bench(), panel.ticks()), (&all, check.bench(), check.ticks()));
                let of = |words: &[i64]| {
                    [word::STAGE, word::PROGRESS_G, word::PROGRESS_F, word::LINES, word::BLOCKS, word::CYCLES].map(|at| words[at])
                };
                assert_eq!(of(panel.panel()), of(check.progress()));
            }
        }
    }
}

/// A fresh check, and what each read does: the header, the front of a line, the rest of it, and the total.
#[test]
fn call_by_call() {
    let (mut check, _) = PanelCheck::start(USUAL);
    assert_eq!((check.bench(), check.panel()), (Check::start(USUAL).0.bench(), &[0, 65_536, 0, -1, 0, 0, 0, 0, 0, 0]));
    let (mut scratch, mut rows) = ([7; SCRATCH_BYTES], [7; ROW_BYTES]);
    let mut read = |piece: &[u8], last| {
        let done = check.read(&mut scratch, piece, last, &mut rows).expect("a check");
        (done, rows[..done.written].to_vec(), check.held(), check.panel()[word::PANEL_LEFT])
    };
    let done = |took, written, told| PieceRead { took, written, told };
    assert_eq!(read(b"G1 X", false), (done(0, 32, Told::More), HEADER.to_vec(), 0, 65_536));
    assert_eq!(read(b"G1 X", false), (done(4, 0, Told::More), vec![], 4, 65_532));
    assert_eq!(read(b"", false), (done(0, 0, Told::More), vec![], 4, 65_532));
    assert_eq!(read(b"10 F300\nX0", false), (done(8, 18, Told::More), b"1 1 L 500 500 0 9\n".to_vec(), 0, 65_524));
    assert_eq!(read(b"X0", true), (done(2, 16, Told::More), b"2 2 L 500 0 0 9\n".to_vec(), 0, 65_522));
    assert_eq!(read(b"", true), (done(0, 19, Told::Over), b"total 2 1000 20000\n".to_vec(), 0, 65_522));
    for (piece, last) in [(b"X1\n".as_slice(), false), (b"X1\n", true), (b"", false), (b"", true)] {
        assert_eq!(read(piece, last).0, done(0, 0, Told::Over));
    }
}

/// Less room than a line or a row may need gets nothing done.
#[test]
fn buffers_that_are_too_small() {
    let (mut check, _) = PanelCheck::start(USUAL);
    let (mut scratch, mut rows) = ([7; SCRATCH_BYTES], [7; ROW_BYTES]);
    for turn in 0..3 {
        let before = (check.clone(), scratch, rows);
        for (held, room) in [(80, 160), (0, 160), (81, 159), (81, 0), (80, 159), (0, 0)] {
            let done = check.read(&mut scratch[..held], b"X1\n", true, &mut rows[..room]);
            assert_eq!(done, Ok(PieceRead { took: 0, written: 0, told: Told::Short }), "{turn} {held} {room}");
            assert_eq!((&check, scratch, rows), (&before.0, before.1, before.2));
        }
        let done = check.read(&mut scratch, b"G1 F9", false, &mut rows);
        assert_eq!(done.map(|done| done.told), Ok(Told::More));
    }
}

/// Blank lines of 61 bytes up to the byte of this number, counted from 1, with which the tail begins.
fn with_tail(front: &str, tail: &str, first: usize) -> Vec<u8> {
    let mut text: Vec<u8> = (0..first - 1).map(|at| if (first - at) % 61 == 2 { b'\n' } else { b' ' }).collect();
    text[..front.len()].copy_from_slice(front.as_bytes());
    text.extend_from_slice(tail.as_bytes());
    text
}

/// A text of 65,536 bytes is listed to its end. Of a longer one the rows of the whole lines before byte 65,537 come first and, unless one
/// of them is refused, 30 with the line that holds it, whatever else is wrong with that.
#[test]
fn a_text_that_is_too_long() {
    let (long, longer) = (format!("{:81}", "X2"), format!("{:300}", "X2"));
    let tails = [("X2\n", 2), ("X2\n", 1), ("X2", 0), ("X2\nX", 2), ("X2\n\n", 2), ("X2\nX3\nX4\n", 2), ("G9 X\nX3\n", 3), ("G9\nX3\n", 2)];
    let lines = [(long.as_str(), 80), (&long, 79), (&longer, 100), (&longer, 0)];
    for front in ["G1 X1 F9\n", "G1 X1 F9\nG9\n"] {
        for (tail, before) in tails.into_iter().chain(lines) {
            let text = with_tail(front, tail, LONGEST_TEXT - before);
            let mut wanted = checked(USUAL, &text).0;
            if text.len() > LONGEST_TEXT {
                let whole = text[..LONGEST_TEXT].iter().rposition(|&byte| byte == b'\n').map_or(0, |lf| lf + 1);
                wanted = checked(USUAL, &text[..whole]).0;
                let last = wanted[..wanted.len() - 1].iter().rposition(|&byte| byte == b'\n').map_or(0, |lf| lf + 1);
                if wanted[last..].starts_with(b"total ") {
                    wanted.truncate(last);
                    let line = 1 + text[..whole].iter().filter(|&&byte| byte == b'\n').count();
                    wanted.extend_from_slice(format!("line {line} refused 30\n").as_bytes());
                }
            }
            for length in [1, 7, 80, 81, 82, LONGEST_TEXT, LONGEST_TEXT + 1, text.len()] {
                let got = listing(USUAL, &text, std::iter::repeat(length)).0;
                assert!(got == wanted, "{front:?} {tail:?} {before} in pieces of {length}: {}", String::from_utf8_lossy(&got));
            }
            assert!(listing(USUAL, &text, all_lengths(1)).0 == wanted, "{front:?} {tail:?} {before} in pieces of all lengths");
        }
    }
}

/// However long the text, and though each read brings one byte.
#[test]
fn a_loop_comes_to_its_end() {
    for text in [vec![b'\n'; LONGEST_TEXT], vec![b' '; LONGEST_TEXT], vec![b'\n'; 2 * LONGEST_TEXT], b"X\n".repeat(LONGEST_TEXT)] {
        let (mut check, _) = PanelCheck::start(USUAL);
        let (mut scratch, mut rows, mut at) = ([0; SCRATCH_BYTES], [0; ROW_BYTES], 0);
        let ended = (0..MOST_READS).any(|_| {
            let piece = text[at..].get(..1).unwrap_or(b"");
            let done = check.read(&mut scratch, piece, piece.is_empty(), &mut rows).expect("a check");
            at += done.took;
            done.told == Told::Over
        });
        assert!(ended);
    }
}

/// A check after its header, with these words.
fn told(words: &[(usize, i64)]) -> PanelCheck {
    let (check, _) = PanelCheck::start(USUAL);
    let (bench, mut panel): ([i64; BENCH_WORDS], [i64; PANEL_WORDS]) = (*check.bench(), *check.panel());
    panel[word::STAGE] = 1;
    for &(at, value) in words {
        panel[at] = value;
    }
    PanelCheck::from_words(bench, panel)
}

/// The ticks are carried from one word to the other, and the total has the whole number.
#[test]
fn ticks_are_carried() {
    let mut check = told(&[(word::LINES, 5), (word::TICKS, word::TICKS_UNIT - 1), (word::TICKS_HIGH, 5)]);
    let (mut scratch, mut rows) = ([0; SCRATCH_BYTES], [0; ROW_BYTES]);
    let row = check.read(&mut scratch, b"G1 X10 F300\n", false, &mut rows).expect("a check");
    assert_eq!((&rows[..row.written], row.told), (b"1 6 L 500 500 0 9\n".as_slice(), Told::More));
    assert_eq!(check.ticks(), 6_000_000_000_000_009_999);
    let total = check.read(&mut scratch, b"", true, &mut rows).expect("a check");
    assert_eq!((&rows[..total.written], total.told), (b"total 1 500 6000000000000009999\n".as_slice(), Told::Over));
}

/// Counts that no text comes to get no row, and the listing is over with them.
#[test]
fn counts_that_no_text_reaches() {
    let far = [(word::LINES, 65_537), (word::BLOCKS, 6), (word::CYCLES, 5 * 8_000_000 + 1), (word::TICKS, i64::MAX), (word::TICKS_HIGH, 6)];
    for bad in far {
        let mut check = told(&[(word::LINES, 5), bad]);
        let (mut scratch, mut rows) = ([7; SCRATCH_BYTES], [7; ROW_BYTES]);
        let done = check.read(&mut scratch, b"G1 X10 F300\n", false, &mut rows).expect("a check");
        assert_eq!((done.written, done.told, rows), (0, Told::Over, [7; ROW_BYTES]), "{bad:?}");
        assert_eq!(check.panel()[word::STAGE], 2);
    }
}
