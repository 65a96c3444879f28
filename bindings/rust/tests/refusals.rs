//! A refused call carries its number and leaves every word and every byte.

use verdaizka::{word, Ahead, Block, Check, Known, Machine, PanelCheck, Refused, Settings, Turn, ABI, AHEAD_TICKS, USUAL};
use verdaizka::{BENCH_WORDS, BLOCK_WORDS, MOST_WAITING, PANEL_WORDS, PROGRESS_WORDS, ROW_BYTES, SCRATCH_BYTES, WORDS};

const FASTEST: i64 = USUAL.fastest();
const LINE: Block = Block::Line { x: 300, y: -400, feed: FASTEST / 5 };
/// The greatest remainder of a sound record: below a diagonal step's charge times 60,000 times w.
const MOST: i64 = 1_414 * FASTEST - 1;

fn arc(x: i64, i: i64, j: i64) -> Block {
    Block::Arc { turn: Turn::Counterclockwise, x, y: 0, feed: FASTEST / 5, i, j }
}

/// Every call on these words is refused by 9 and leaves them, with the buffer and what is known.
fn no_record(words: [i64; WORDS]) {
    let mut machine = Machine::from_words(words);
    let (mut out, mut known) = ([7; 20], Known::from_words([1, 100]));
    let nine = Refused(9);
    for block in [LINE, arc(0, 5, 0), Block::Arc { turn: Turn::Clockwise, x: 0, y: 0, feed: 1, i: 5, j: 0 }] {
        assert_eq!(machine.load(block), Err(nine));
    }
    assert_eq!(machine.tick(), Err(nine));
    assert_eq!(machine.run(10, &mut out), Err(nine));
    assert_eq!((machine.hold(), machine.release(), machine.stop()), (Err(nine), Err(nine), Err(nine)));
    assert_eq!(machine.read_line(&mut known, b"X1"), Err(nine));
    for ticks in [1, AHEAD_TICKS + 1] {
        let (Ahead { then, sums }, answer) = machine.ahead_told(ticks);
        assert_eq!((then.words(), sums, answer), (&words, (0, 0), Err(nine)));
    }
    assert_eq!((machine.words(), out, known.words()), (&words, [7; 20], &[1, 100]));
}

#[test]
fn another_layout_is_no_record() {
    let (mut idle, _) = Machine::make(USUAL);
    assert_eq!(idle.words()[word::ABI], ABI);
    let mut busy = idle.clone();
    busy.load(LINE).expect("accepted");
    idle.hold().expect("sound");
    for machine in [idle, busy] {
        for abi in [0, 1, 2, 3, 5, -1, 50, i64::MAX, i64::MIN] {
            let mut words = *machine.words();
            words[word::ABI] = abi;
            no_record(words);
        }
    }
}

#[test]
fn words_that_are_no_record() {
    no_record([7; WORDS]);
    no_record([0; WORDS]);
    let (mut machine, _) = Machine::make(USUAL);
    machine.load(LINE).expect("accepted");
    let sound = *machine.words();
    // A line's stored cycles, its root and the cycles to do are its own alone; a mark is 0 or 1, a kind at most 3; nothing is negative that
    // counts.
    let cycles = word::NUMBERS + 5;
    let bad = [(cycles, 501), (cycles, 0), (word::HELD, 2), (word::WORK, 4), (word::WORK, -1), (word::P, 0)];
    let figures = [word::ROOT, word::LEFT].into_iter().flat_map(|at| [0, 499, 501, -500, i64::MAX].map(|value| (at, value)));
    for (at, value) in bad.into_iter().chain([-1, MOST + 1, i64::MAX].map(|remainder| (word::REMAINDER, remainder))).chain(figures) {
        no_record(with(&sound, at, value));
    }
    let idle = *Machine::make(USUAL).0.words();
    for at in [word::ROOT, word::LEFT, word::WAITING] {
        no_record(with(&idle, at, 1));
    }
}

fn with(words: &[i64; WORDS], at: usize, value: i64) -> [i64; WORDS] {
    let mut words = *words;
    words[at] = value;
    words
}

/// The word of the block that waits in this place, the first being 0.
fn of_place(place: usize, word: usize) -> usize {
    word::QUEUE + place * BLOCK_WORDS + word
}

/// Some words of a block that waits.
const KIND: usize = 0;
const END_X: usize = 1;
const FEED: usize = 3;
const I: usize = 4;
const ROOT: usize = 6;

/// A line in work, and behind it a full turn of 28 cycles, 7 in a quarter, and a line of 5.
#[test]
fn words_of_blocks_that_wait() {
    let (mut machine, _) = Machine::make(USUAL);
    for block in
        [LINE, Block::Arc { turn: Turn::Clockwise, x: 300, y: -400, feed: 7, i: 0, j: 5 }, Block::Line { x: 303, y: -404, feed: 7 }]
    {
        machine.load(block).expect("accepted");
    }
    let sound = *machine.words();
    assert_eq!(machine.cycles_left(), 500 + 28 + 5);
    let figures = [(word::LEFT, 532), (word::LEFT, 534), (word::LEFT, 500), (word::ROOT, 499), (word::ROOT, 7)];
    let lengths = [1, 3, 17, -1, 2 + (1 << 32), i64::MAX, i64::MIN].map(|length| (word::WAITING, length));
    let kinds = [0, 1, 4, -2, i64::MAX].map(|kind| (of_place(0, KIND), kind));
    let roots = [(0, 6), (0, 8), (0, 28), (1, 4), (1, 6), (1, 0), (1, -5)].map(|(place, root)| (of_place(place, ROOT), root));
    let feeds = [0, -7, FASTEST + 1, i64::MAX].map(|feed| (of_place(1, FEED), feed));
    // 14 and 15 for the turn; a line has no centre, and ends in travel.
    let others = [(of_place(0, I), 1_000_001), (of_place(0, END_X), 310), (of_place(1, I), 1), (of_place(1, END_X), 1_000_001)];
    for (at, value) in figures.into_iter().chain(lengths).chain(kinds).chain(roots).chain(feeds).chain(others) {
        no_record(with(&sound, at, value));
    }
    assert_eq!(Machine::from_words(sound).hold(), Ok(()));
}

/// What stands behind the last one that waits is no part of the record: whatever it is, no answer depends on it, and it stays.
#[test]
fn words_behind_the_record() {
    for length in [0, 1, MOST_WAITING - 1] {
        let (mut clean, _) = Machine::make(USUAL);
        for at in 0..=length as i64 {
            clean.load(Block::Line { x: at + 1, y: 0, feed: FASTEST }).expect("accepted");
        }
        let end = of_place(length, 0);
        let mut words = *clean.words();
        words[end..].fill(i64::MIN);
        let mut other = Machine::from_words(words);
        assert_eq!((clean.record().len(), &clean), (end, &other));
        let mut known = [Known::none(), Known::none()];
        for call in 0..5 {
            let answers = [&mut clean, &mut other].into_iter().zip(&mut known).map(|(machine, known)| match call {
                0 => machine.hold().map(|()| 0),
                1 => machine.release().map(|()| 0),
                2 => machine.ahead(7).map(|ahead| ahead.sums.0),
                3 => machine.tick().map(i64::from),
                _ => machine.read_line(known, b"G1 F6000").map(|bits| bits.unwrap_or(0)),
            });
            assert!(answers.collect::<Vec<_>>().windows(2).all(|two| two[0].is_ok() && two[0] == two[1]), "{call}");
            assert_eq!((&clean, &other.words()[end..]), (&other, &[i64::MIN; WORDS][end..]), "{call}");
        }
        // The first that waited is in work, and a load takes the place that came free.
        assert_eq!(other.waiting(), (length as i64 - 1).max(0));
        assert_eq!(other.load(Block::Line { x: 0, y: 9, feed: 1 }), clean.load(Block::Line { x: 0, y: 9, feed: 1 }));
        assert_eq!((&clean, &other.words()[end..]), (&other, &[i64::MIN; WORDS][end..]));
        other.stop().expect("sound");
        assert_eq!((other.record().len(), &other.words()[end..]), (word::QUEUE, &[i64::MIN; WORDS][end..]));
    }
}

#[test]
fn the_greatest_remainder() {
    let (idle, _) = Machine::make(USUAL);
    let mut busy = idle.clone();
    busy.load(LINE).expect("accepted");
    for machine in [idle, busy] {
        let mut words = *machine.words();
        words[word::REMAINDER] = MOST;
        assert_eq!(Machine::from_words(words).hold(), Ok(()));
        words[word::REMAINDER] = MOST + 1;
        no_record(words);
    }
}

#[test]
fn a_refused_load_leaves_the_record() {
    let (mut machine, made) = Machine::make(Settings { p: 50, w: 5_000, x: (-1_000, 1_000), y: (-1_000, 1_000) });
    assert_eq!(made, Ok(()));
    let fresh = machine.clone();
    for (block, number) in [
        (Block::Line { x: 1, y: 0, feed: FASTEST + 1 }, 11),
        (Block::Line { x: 1, y: 0, feed: -1 }, 11),
        (Block::Line { x: 1_001, y: 0, feed: 1 }, 12),
        (Block::Line { x: 0, y: 0, feed: 1 }, 13),
        (arc(0, 0, 0), 14),
        (arc(0, 0, i64::MIN), 14),
        (arc(3, 0, 5), 15),
        (arc(0, 0, 501), 16),
    ] {
        assert_eq!(machine.load(block), Err(Refused(number)), "{block:?}");
        assert_eq!(machine, fresh);
    }
}

/// Sixteen wait, and one more is refused whatever else is wrong with it; the words are those of the seventeen.
#[test]
fn the_eighteenth_block() {
    let (mut machine, _) = Machine::make(USUAL);
    for at in 0..=MOST_WAITING as i64 {
        assert_eq!(machine.waiting(), (at - 1).max(0));
        machine.load(Block::Line { x: at + 1, y: 0, feed: FASTEST }).expect("accepted");
    }
    let full = *machine.words();
    assert_eq!((machine.record(), machine.waiting(), machine.cycles_left()), (&full[..], 16, 17));
    let lines = [(17, FASTEST), (18, FASTEST), (1 << 40, 0)].map(|(x, feed)| Block::Line { x, y: 0, feed });
    for block in lines.into_iter().chain([arc(0, 0, 0), arc(17, 5, 0)]) {
        assert_eq!(machine.load(block), Err(Refused(10)));
        assert_eq!(machine.words(), &full);
    }
    let mut known = Known::none();
    assert_eq!(machine.read_line(&mut known, b"G1 X1 F100"), Err(Refused(10)));
    assert_eq!((machine.words(), known), (&full, Known::none()));
}

#[test]
fn a_refused_make_is_the_usual_machine() {
    let usual = Machine::make(USUAL).0;
    let bad = [
        (Settings { p: 0, w: 0, ..USUAL }, 1),
        (Settings { p: -1, ..USUAL }, 1),
        (Settings { p: 1_001, ..USUAL }, 1),
        (Settings { w: 999, x: (1, 1), ..USUAL }, 2),
        (Settings { w: 20_001, ..USUAL }, 2),
        (Settings { x: (1, 5), ..USUAL }, 3),
        (Settings { y: (0, 1_000_001), ..USUAL }, 3),
    ];
    for (settings, number) in bad {
        assert_eq!(Machine::make(settings), (usual.clone(), Err(Refused(number))));
        assert_eq!(Check::start(settings), (Check::start(USUAL).0, Err(Refused(number))));
        assert_eq!(PanelCheck::start(settings), (PanelCheck::start(USUAL).0, Err(Refused(number))));
    }
}

/// A fill of words that are no check leaves them and the buffer.
#[test]
fn words_that_are_no_check() {
    let sound = Check::start(USUAL).0;
    let mut bad =
        vec![([7; BENCH_WORDS], [7; PROGRESS_WORDS]), (*sound.bench(), [7; PROGRESS_WORDS]), ([7; BENCH_WORDS], *sound.progress())];
    for abi in [0, 1, 2, 3] {
        let mut bench = *sound.bench();
        bench[word::ABI] = abi;
        bad.push((bench, *sound.progress()));
    }
    let counts = [word::AT, word::LINES, word::BLOCKS, word::CYCLES, word::TICKS, word::TICKS_HIGH].map(|at| (at, -1));
    let others = [(word::STAGE, 3), (word::STAGE, -1), (word::PROGRESS_G, 4), (word::PROGRESS_F, -2), (word::PROGRESS_F, 10_000_000_000)];
    for (at, value) in counts.into_iter().chain(others).chain([(word::TICKS_HIGH, 1 << 32)]) {
        let mut progress = *sound.progress();
        progress[at] = value;
        bad.push((*sound.bench(), progress));
    }
    for (bench, progress) in bad {
        let mut check = Check::from_words(bench, progress);
        let mut out = [7; 200];
        assert_eq!(check.fill(b"G1 X10 F300\n", &mut out), Err(Refused(9)), "{progress:?}");
        assert_eq!((check.bench(), check.progress(), out), (&bench, &progress, [7; 200]));
    }
}

/// A feed of words that are no check on the panel leaves them and both buffers, whatever the lengths of these.
#[test]
fn words_that_are_no_panel_check() {
    let sound = PanelCheck::start(USUAL).0;
    let mut bad = vec![([7; BENCH_WORDS], [7; PANEL_WORDS]), (*sound.bench(), [82; PANEL_WORDS]), ([7; BENCH_WORDS], *sound.panel())];
    for at in 0..BENCH_WORDS {
        let mut bench = *sound.bench();
        bench[at] = i64::MIN;
        bad.push((bench, *sound.panel()));
    }
    let least = (0..PANEL_WORDS).map(|at| (at, i64::MIN));
    let counts = [word::PANEL_LEFT, word::LINES, word::BLOCKS, word::CYCLES, word::TICKS, word::TICKS_HIGH, word::PANEL_HELD];
    let others = [(word::STAGE, 3), (word::STAGE, -1), (word::PROGRESS_G, 4), (word::PROGRESS_F, -2), (word::PROGRESS_F, 10_000_000_000)];
    let most = [(word::PANEL_LEFT, 65_537), (word::TICKS_HIGH, 1 << 32), (word::PANEL_HELD, 82), (word::PANEL_HELD, i64::MAX)];
    for (at, value) in least.chain(counts.map(|at| (at, -1))).chain(others).chain(most) {
        let mut panel = *sound.panel();
        panel[at] = value;
        bad.push((*sound.bench(), panel));
    }
    for (bench, panel) in bad {
        let mut check = PanelCheck::from_words(bench, panel);
        let (mut scratch, mut rows) = ([7; SCRATCH_BYTES], [7; ROW_BYTES]);
        for (held, room) in [(SCRATCH_BYTES, ROW_BYTES), (SCRATCH_BYTES - 1, ROW_BYTES), (SCRATCH_BYTES, ROW_BYTES - 1), (0, 0)] {
            let done = check.read(&mut scratch[..held], b"G1 X10 F300\n", true, &mut rows[..room]);
            assert_eq!(done, Err(Refused(9)), "{bench:?} {panel:?}");
        }
        assert_eq!((check.bench(), check.panel(), scratch, rows), (&bench, &panel, [7; SCRATCH_BYTES], [7; ROW_BYTES]));
    }
}
