//! The wrapper checks a job: its listing is the stored one whatever the buffer, and its words tell how far it has come, beyond 2^64 ticks
//! too.

use verdaizka::{word, Block, Check, Machine, Settings, Turn, Why, BENCH_WORDS, PROGRESS_WORDS, USUAL};

const JOB: &[u8] = include_bytes!("../../../examples/gasket.job");
const LISTING: &[u8] = include_bytes!("../../../examples/gasket.listing");

/// The listing through a buffer of this many bytes, with the words taken out and brought back between the pieces; and where it leaves the
/// check.
fn listing(settings: Settings, text: &[u8], room: usize) -> (Vec<u8>, Check) {
    let (mut check, started) = Check::start(settings);
    assert_eq!(started, Ok(()));
    let mut out = vec![0; room];
    let mut all = Vec::new();
    loop {
        let (written, over) = check.fill(text, &mut out).expect("a check");
        all.extend_from_slice(&out[..written]);
        if over {
            return (all, check);
        }
        check = Check::from_words(*check.bench(), *check.progress());
    }
}

#[test]
fn the_stored_listing() {
    for room in [160, 161, 1_000, 100_000] {
        assert_eq!(listing(USUAL, JOB, room).0, LISTING);
    }
}

/// Where the bench stands, and how far the check has come, are words of their own; those of the bench are the first of a machine's.
#[test]
fn record_and_progress() {
    let text = b"G1 X10 F300\nG2 F200\nX0.01";
    let (mut check, _) = Check::start(USUAL);
    assert_eq!((&check.bench()[..], check.progress()), (&Machine::make(USUAL).0.words()[..BENCH_WORDS], &[0, 0, 0, -1, 0, 0, 0, 0, 0]));
    let mut out = [0; 1_000];
    let (written, over) = check.fill(text, &mut out).expect("a check");
    assert_eq!((&out[..written], over), (b"block line kind cycles x y bits\n1 1 L 500 500 0 9\nline 3 refused 35\n".as_slice(), true));
    assert_eq!([word::X, word::Y, word::WORK].map(|at| check.bench()[at]), [500, 0, 0]);
    let known = [word::STAGE, word::PROGRESS_G, word::PROGRESS_F, word::BLOCKS, word::CYCLES, word::TICKS].map(|at| check.progress()[at]);
    assert_eq!((known, check.ticks()), ([2, 2, 200_000, 1, 500, 10_000], 10_000));
}

/// Less room than a row may need gets none, and changes nothing.
#[test]
fn a_buffer_that_is_too_small() {
    let (mut check, _) = Check::start(USUAL);
    let before = check.clone();
    let mut out = [7; 159];
    for size in [0, 1, 159] {
        assert_eq!(check.fill(JOB, &mut out[..size]), Ok((0, false)));
        assert_eq!((&check, out), (&before, [7; 159]));
    }
}

/// The fastest clock, at which the slowest feed, F0.001, takes the most ticks.
const SLOW: Settings = Settings { p: 1, w: 20_000, ..USUAL };
const TURNS: u64 = 4_000;

/// The cycles of a full turn of the largest radius, and what they are charged, told by its tick bytes.
fn a_turn() -> (u64, u128) {
    let (mut machine, _) = Machine::make(SLOW);
    let feed = SLOW.fastest();
    machine.load(Block::Line { x: 1_000_000, y: 0, feed }).expect("accepted");
    machine.load(Block::Arc { turn: Turn::Counterclockwise, x: 1_000_000, y: 0, feed, i: -1_000_000, j: 0 }).expect("accepted");
    let (mut cycles, mut charges, mut out) = (0, 0, vec![0; 1 << 16]);
    while machine.waiting() > 0 {
        machine.run(u64::MAX, &mut out).expect("sound");
    }
    loop {
        let (why, ticks) = machine.run(u64::MAX, &mut out).expect("sound");
        for &byte in out[..ticks as usize].iter().filter(|&byte| byte & 16 != 0) {
            cycles += 1;
            charges += if byte & 3 != 0 && byte & 12 != 0 { 1_414 } else { 1_000 };
        }
        if why == Why::Ended {
            return (cycles, charges);
        }
    }
}

/// A line and thousands of full turns at a thousandth of a pulse per minute: some 3 × 10^19 ticks, which no word of 64 bits holds.
#[test]
fn more_ticks_than_64_bits_hold() {
    let (cycles, charges) = a_turn();
    let text = format!("G1 X1000000 F0.001\nG3\n{}", "I-1000000\n".repeat(TURNS as usize));
    let (all, check) = listing(SLOW, text.as_bytes(), 1_000);
    // At one feed all through the remainder counts for nothing but the rounding at the end, and here the division leaves none.
    let (due, fed) = ((1_000 * 1_000_000 + u128::from(TURNS) * charges) * SLOW.fastest() as u128, 1_000);
    assert_eq!(due % fed, 0);
    assert!(due / fed > u128::from(u64::MAX));
    let total = format!("\ntotal {} {} {}\n", TURNS + 1, 1_000_000 + TURNS * cycles, due / fed);
    assert!(all.ends_with(total.as_bytes()), "not {total:?} at the end");
    assert_eq!(u128::try_from(check.ticks()), Ok(due / fed));
    assert_eq!((check.bench()[word::REMAINDER], check.progress()[word::PROGRESS_F]), (0, 1));
    assert!((0..word::TICKS_UNIT).contains(&check.progress()[word::TICKS]));
}

/// A check after its header, with these words of its progress.
fn told(words: &[(usize, i64)]) -> Check {
    let mut progress = [0; PROGRESS_WORDS];
    (progress[word::STAGE], progress[word::PROGRESS_F]) = (1, -1);
    for &(at, value) in words {
        progress[at] = value;
    }
    Check::from_words(*Check::start(USUAL).0.bench(), progress)
}

/// The ticks are carried from one word to the other: from the greatest words that go with five lines, one row more fills the next 10^18.
/// The total has the whole number.
#[test]
fn ticks_are_carried() {
    let mut check = told(&[(word::LINES, 5), (word::TICKS, word::TICKS_UNIT - 1), (word::TICKS_HIGH, 5)]);
    let (text, mut out) = (b"G1 X10 F300\n", [0; 1_000]);
    let (written, over) = check.fill(text, &mut out).expect("a check");
    assert_eq!((&out[..written], over), (b"1 6 L 500 500 0 9\ntotal 1 500 6000000000000009999\n".as_slice(), true));
    assert_eq!([word::TICKS, word::TICKS_HIGH].map(|at| check.progress()[at]), [9_999, 6]);
    assert_eq!(check.ticks(), 6_000_000_000_000_009_999);
}

/// Counts that no text comes to get no row, and the listing is over with them.
#[test]
fn counts_that_no_text_reaches() {
    let far = [
        (word::LINES, 65_537),
        (word::BLOCKS, 6),
        (word::CYCLES, 5 * 8_000_000 + 1),
        (word::TICKS, word::TICKS_UNIT),
        (word::TICKS, i64::MAX),
        (word::TICKS_HIGH, 6),
        (word::TICKS_HIGH, u32::MAX.into()),
    ];
    for bad in far {
        let mut check = told(&[(word::LINES, 5), bad]);
        let mut out = [7; 200];
        assert_eq!(check.fill(b"G1 X10 F300\n", &mut out), Ok((0, true)), "{bad:?}");
        assert_eq!((out, check.progress()[word::STAGE]), ([7; 200], 2));
    }
}
