//! Lines of a job text read at a machine: the block that comes into work or waits, what is known, and that a refused line leaves both.

use verdaizka::{word, Block, Known, Machine, Refused, Settings, Turn, Work, USUAL};

fn fresh() -> (Machine, Known) {
    (Machine::make(USUAL).0, Known::none())
}

#[test]
fn a_line_of_a_block() {
    let (mut machine, mut known) = fresh();
    assert_eq!(machine.work(), Work::Nothing);
    assert_eq!(machine.read_line(&mut known, b"N20 G01 X20 Y40 F100"), Ok(Some(11)));
    assert_eq!(known.words(), &[1, 100_000]);
    let line = Work::Line { start: (0, 0), end: (1_000, 2_000), feed: 5_000_000, cycles: 2_237, done: 0 };
    assert_eq!((machine.work(), machine.is_busy(), machine.position()), (line, true, (0, 0)));
}

#[test]
fn an_arc_of_each_kind() {
    for (g, turn) in [(2, Turn::Clockwise), (3, Turn::Counterclockwise)] {
        let (mut machine, mut known) = fresh();
        let line = format!("G{g} J0.1 Y0.2 F6000");
        assert_eq!(machine.read_line(&mut known, line.as_bytes()), Ok(Some(3)));
        let arc = Work::Arc { turn, centre: (0, 5), square: 25, end: (0, 10), feed: USUAL.fastest() };
        assert_eq!((machine.work(), known.words()), (arc, &[g, 6_000_000]));
    }
}

/// G and F count from their own line on; the machine stays as it was.
#[test]
fn lines_without_a_block() {
    let (mut machine, mut known) = fresh();
    let before = machine.clone();
    for (line, words) in [
        ("", [0, -1]),
        ("   ", [0, -1]),
        ("G2", [2, -1]),
        ("N7 F0", [2, 0]),
        ("F0.001", [2, 1]),
        ("F9999999 G1", [1, 9_999_999_000]),
        ("F9999999.999", [1, 9_999_999_999]),
        ("X0 Y-0", [1, 9_999_999_999]),
    ] {
        assert_eq!(machine.read_line(&mut known, line.as_bytes()), Ok(None), "{line}");
        assert_eq!((&machine, known.words()), (&before, &words), "{line}");
    }
    assert_eq!(machine.read_line(&mut known, b"F100 X1"), Ok(Some(6)));
}

/// What a millimetre is, and how fast one may go, is the machine's own.
#[test]
fn at_other_settings() {
    let (mut machine, made) = Machine::make(Settings { p: 7, w: 1_000, x: (0, 70), y: (-7, 0) });
    assert_eq!(made, Ok(()));
    let mut known = Known::from_words([1, 8_571_428]);
    assert_eq!(machine.read_line(&mut known, b"X0.5"), Err(Refused(35)));
    assert_eq!(machine.read_line(&mut known, b"X11"), Err(Refused(12)));
    assert_eq!(machine.read_line(&mut known, b"X1 F8571.429"), Err(Refused(11)));
    assert_eq!(machine.read_line(&mut known, b"X10 Y-1"), Ok(Some(7)));
    assert_eq!(machine.work(), Work::Line { start: (0, 0), end: (70, -7), feed: 59_999_996, cycles: 71, done: 0 });
}

#[test]
fn a_refused_line_leaves_machine_and_known() {
    let long = " ".repeat(81);
    let (mut machine, mut known) = (Machine::make(USUAL).0, Known::from_words([1, 6_000_001]));
    let (machine_before, known_before) = (machine.clone(), known.clone());
    for (line, number) in [
        (long.as_str(), 31),
        ("G2 F1 ?", 32),
        ("G2 F1 F1", 33),
        ("G4 F1", 34),
        ("G2 F1 X0.01", 35),
        ("G2 F1 X1", 37),
        ("G1 X1", 11),
        ("F6000 X20000.02", 12),
        ("G2 F1 I0", 14),
        ("G3 F1 I1 X1", 15),
        ("G3 F1 J20000", 16),
    ] {
        assert_eq!(machine.read_line(&mut known, line.as_bytes()), Err(Refused(number)), "{line}");
        assert_eq!((&machine, &known), (&machine_before, &known_before), "{line}");
    }
    let mut none = Known::default();
    assert_eq!(machine.read_line(&mut none, b"G1 X1"), Err(Refused(36)));
    assert_eq!(none, Known::none());
}

/// At a machine at work a line goes from where the last block will end: to there it makes no block, back to the point it makes one. Each
/// block has the F of its own line.
#[test]
fn a_machine_at_work() {
    let (mut machine, mut known) = fresh();
    assert_eq!(machine.read_line(&mut known, b"G1 F100 X1"), Ok(Some(6)));
    assert_eq!(machine.read_line(&mut known, b"X1 F5"), Ok(None));
    assert_eq!((machine.waiting(), machine.cycles_left(), known.words()), (0, 50, &[1, 5_000]));
    assert_eq!(machine.read_line(&mut known, b"Y0.02"), Ok(Some(1)));
    assert_eq!(machine.read_line(&mut known, b"X0 Y0 F7"), Ok(Some(6)));
    assert_eq!(machine.read_line(&mut known, b"G3 I0.1"), Ok(Some(3)));
    let lines = [Block::Line { x: 50, y: 1, feed: 250_000 }, Block::Line { x: 0, y: 0, feed: 350_000 }];
    let turn = Block::Arc { turn: Turn::Counterclockwise, x: 0, y: 0, feed: 350_000, i: 5, j: 0 };
    assert_eq!(machine.queue().collect::<Vec<_>>(), [lines[0], lines[1], turn]);
    assert_eq!((machine.position(), machine.cycles_left()), ((0, 0), 50 + 1 + 51 + 28));
}

/// Where sixteen wait a line is refused by 10 where it would load, after its own questions; one that makes no block is not.
#[test]
fn a_full_queue() {
    let (mut machine, mut known) = fresh();
    for at in 0..17 {
        assert_eq!(machine.read_line(&mut known, format!("G1 F100 X{}", at + 1).as_bytes()), Ok(Some(6)));
    }
    let before = *machine.words();
    assert_eq!(machine.read_line(&mut known, b"X2"), Err(Refused(10)));
    assert_eq!(machine.read_line(&mut known, b"X2 X2"), Err(Refused(33)));
    assert_eq!(machine.read_line(&mut known, b"X17 F5"), Ok(None));
    assert_eq!((machine.words(), known), (&before, Known::from_words([1, 5_000])));
}

#[test]
fn words_that_are_no_known_are_refused_by_9() {
    let bad = [[4, 100], [-1, 100], [1, -2], [1, i64::MIN], [1, i64::MAX], [1, 10_000_000_000], [i64::MAX, -1], [7, 7]];
    for words in bad {
        let (mut machine, mut known) = (Machine::make(USUAL).0, Known::from_words(words));
        let before = machine.clone();
        for line in ["", "G1 F100", "G1 F100 X1", "?"] {
            assert_eq!(machine.read_line(&mut known, line.as_bytes()), Err(Refused(9)), "{words:?} {line}");
            assert_eq!((&machine, known.words()), (&before, &words));
        }
    }
}

/// 9 comes before every question of the line.
#[test]
fn an_unsound_record_is_refused_by_9() {
    let mut words = *Machine::make(USUAL).0.words();
    words[word::X] = 1_000_001;
    let (mut machine, mut known) = (Machine::from_words(words), Known::none());
    for line in ["", "G1 F100", "G1 F100 X1", "?"] {
        assert_eq!(machine.read_line(&mut known, line.as_bytes()), Err(Refused(9)), "{line}");
        assert_eq!((machine.words(), &known), (&words, &Known::none()));
    }
}
