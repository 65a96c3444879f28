//! Feeds with decimals: a feed number is thousandths of a pulse per minute, an F has up to three digits after its point.

use verdaizka::{word, Block, Known, Machine, Refused, Settings, Turn, ABI, BLOCK_WORDS, USUAL, WORDS};

const FASTEST: i64 = USUAL.fastest();

fn fresh() -> Machine {
    Machine::make(USUAL).0
}

fn line(x: i64, y: i64, feed: i64) -> Block {
    Block::Line { x, y, feed }
}

fn loaded(block: Block) -> Machine {
    let mut machine = fresh();
    machine.load(block).expect("accepted");
    machine
}

/// The machine after this line of text, and what is known then.
fn read(text: &str) -> (Machine, Known) {
    let (mut machine, mut known) = (fresh(), Known::none());
    assert!(matches!(machine.read_line(&mut known, text.as_bytes()), Ok(Some(_))), "{text}");
    (machine, known)
}

/// The ticks until the block in work has ended.
fn ticks_to_end(machine: &Machine) -> u64 {
    let mut machine = machine.clone();
    (1..).find(|_| machine.tick().expect("sound") & 32 != 0).expect("an end")
}

/// 0.75 mm a minute by a load and by a text line: the same record, and a pulse of 0.02 mm each 1.6 s, which are 8,000 ticks.
#[test]
fn three_quarters_of_a_millimetre() {
    let (machine, known) = read("G1 X0.1 F0.75");
    assert_eq!((&machine, known.words()), (&loaded(line(5, 0, 750 * USUAL.p)), &[1, 750]));
    let (mut ticking, mut pulses) = (machine.clone(), Vec::new());
    for tick in 1..=40_000 {
        if ticking.tick().expect("sound") & 16 != 0 {
            pulses.push(tick);
        }
    }
    assert_eq!((pulses, ticking.position(), ticking.is_busy()), (vec![8_000, 16_000, 24_000, 32_000, 40_000], (5, 0), false));
    assert_eq!(machine.ahead(39_999).expect("not too far").then.position(), (4, 0));
    let arc = Block::Arc { turn: Turn::Counterclockwise, x: 0, y: 10, feed: 37_500, i: 0, j: 5 };
    assert_eq!(read("G3 Y0.2 J0.1 F0.750").0, loaded(arc));
}

/// 01's worked case, a thousandfold; and its feed a thousandth below the half.
#[test]
fn the_worked_ticks() {
    for (feed, ticks) in [(150_000_000, 2), (149_999_000, 3), (149_999_999, 3), (FASTEST, 1), (FASTEST - 1, 2)] {
        assert_eq!(ticks_to_end(&loaded(line(1, 0, feed))), ticks, "{feed}");
    }
}

/// An F without a point is as one with zeros behind it, and a digit fewer is the same thousandths.
#[test]
fn one_feed_written_in_many_ways() {
    for (f, others) in [("100", ["100.0", "100.00", "100.000", "0000100"]), ("0.5", ["0.50", "0.500", "0000000.5", "00.5"])] {
        let (machine, known) = read(&format!("G1 X1 F{f}"));
        for other in others {
            assert_eq!(read(&format!("G1 X1 F{other}")), (machine.clone(), known.clone()), "{other}");
        }
    }
}

/// Up to seven digits, then up to three behind a point, and no sign; N and G have no point.
#[test]
fn words_that_are_none() {
    let (mut machine, mut known) = (fresh(), Known::from_words([1, 5]));
    let before = (machine.clone(), known.clone());
    let feeds = ["F", "F1.", "F.5", "F1.2345", "F1..5", "F1.5.5", "F12345678", "F12345678.5", "F-1", "F+1.5", "F 1", "F1. 5"];
    for word in feeds.into_iter().chain(["N1.5", "G1.0"]) {
        assert_eq!(machine.read_line(&mut known, format!("X1 {word}").as_bytes()), Err(Refused(32)), "{word}");
        assert_eq!((&machine, &known), (&before.0, &before.1));
    }
    assert_eq!(machine.read_line(&mut known, b"F0.000"), Ok(None));
    assert_eq!((machine.read_line(&mut known, b"X1"), known.words()), (Err(Refused(11)), &[1, 0]));
    assert_eq!(machine.read_line(&mut known, b"X1F0.001Y1.5"), Ok(Some(7)));
}

/// The F known, as a word: none, and all that seven digits and three write. No other number is one.
#[test]
fn the_feed_known() {
    for (f, answer) in [(-1, Err(Refused(36))), (0, Err(Refused(11))), (1, Ok(Some(6))), (9_999_999_999, Err(Refused(11)))] {
        let (mut machine, mut known) = (fresh(), Known::from_words([1, f]));
        assert_eq!((machine.read_line(&mut known, b""), known.words()), (Ok(None), &[1, f]));
        assert_eq!((machine.read_line(&mut known, b"X1"), known.words()), (answer, &[1, f]));
    }
    for f in [-2, 10_000_000_000, 1 << 34, i64::MIN, i64::MAX] {
        let (mut machine, mut known) = (fresh(), Known::from_words([1, f]));
        assert_eq!((machine.read_line(&mut known, b""), known.words()), (Err(Refused(9)), &[1, f]));
    }
}

/// From a thousandth of a pulse per minute to a cycle on every tick, by a load and by a line of text.
#[test]
fn the_slowest_and_the_fastest() {
    for w in [1_000, 5_000, 20_000] {
        let settings = Settings { p: 1, w, ..USUAL };
        for (feed, answer) in [(0, Err(Refused(11))), (1, Ok(1)), (60_000 * w, Ok(1)), (60_000 * w + 1, Err(Refused(11)))] {
            assert_eq!(Machine::make(settings).0.load(line(1, 0, feed)), answer, "{feed} at {w}");
            let (mut machine, mut known) = (Machine::make(settings).0, Known::from_words([1, feed]));
            assert_eq!(machine.read_line(&mut known, b"X1"), answer.map(Some), "{feed} at {w}");
        }
    }
}

/// A caller that still gives pulses per minute is not refused: its blocks take a thousand times as long.
#[test]
fn the_unit_of_before() {
    let (now, before) = (loaded(line(3, 4, 60_000_000)), loaded(line(3, 4, 60_000)));
    assert_eq!((ticks_to_end(&now), ticks_to_end(&before)), (25, 25_000));
}

/// The words of a record as layout 3 had it: on the line (3, 4) at 200,000 pulses per minute, after one tick, behind it a full turn and a
/// line, which wait.
fn of_layout_3() -> [i64; WORDS] {
    let mut words = [0; WORDS];
    let front = [3, 50, 5_000, -1_000_000, 1_000_000, -1_000_000, 1_000_000, 0, 0, 0, 200_000_000];
    words[..word::WORK].copy_from_slice(&front);
    words[word::WORK..word::QUEUE].copy_from_slice(&[1, 0, 0, 3, 4, 200_000, 5, 0, 5, 5 + 28 + 3, 2]);
    let waiting = [[3, 3, 4, 300_000, 0, 5, 7], [1, 3, 7, 7, 0, 0, 3]];
    words[word::QUEUE..word::QUEUE + 2 * BLOCK_WORDS].copy_from_slice(waiting.as_flattened());
    words
}

/// Such a record gets 9; carried over as the header says it is the one that the same calls leave here.
#[test]
fn a_record_carried_over() {
    let mut words = of_layout_3();
    assert_eq!(Machine::from_words(words).hold(), Err(Refused(9)));
    words[word::ABI] = ABI;
    let feeds = [word::NUMBERS + 4, word::QUEUE + 3, word::QUEUE + BLOCK_WORDS + 3];
    for at in feeds.into_iter().chain([word::REMAINDER]) {
        words[at] *= 1_000;
    }
    let mut machine = loaded(line(3, 4, 200_000_000));
    machine.load(Block::Arc { turn: Turn::Counterclockwise, x: 3, y: 4, feed: FASTEST, i: 0, j: 5 }).expect("accepted");
    machine.load(line(3, 7, 7_000)).expect("accepted");
    assert_eq!(machine.tick(), Ok(0));
    assert_eq!(Machine::from_words(words), machine);
    assert_eq!(Machine::from_words(words).hold(), Ok(()));
}
