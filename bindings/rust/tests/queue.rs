//! Blocks that wait: first come first cut, each from the end of the one before it, with what the feed has left over then; the cycles still
//! to do are counted down to 0, and a look-ahead goes through all of them.

mod ticking;

use ticking::ticked;
use verdaizka::{Block, Machine, Settings, Turn, Why, Work, AHEAD_TICKS};

const SETTINGS: Settings = Settings { p: 50, w: 1_000, x: (-20, 20), y: (-20, 20) };
const FASTEST: i64 = SETTINGS.fastest();

/// A line of 5 cycles, a full turn of 28, a line of 1 by 4 pulses, which has 5 too, and one of a pulse.
const BLOCKS: [Block; 4] = [
    Block::Line { x: 3, y: -4, feed: FASTEST },
    Block::Arc { turn: Turn::Counterclockwise, x: 3, y: -4, feed: 40_000_001, i: 0, j: 5 },
    Block::Line { x: 4, y: 0, feed: 7_000_000 },
    Block::Line { x: 4, y: 1, feed: FASTEST },
];
const CYCLES: [i64; 4] = [5, 28, 5, 1];

fn loaded(blocks: &[Block]) -> Machine {
    let (mut machine, made) = Machine::make(SETTINGS);
    assert_eq!(made, Ok(()));
    for &block in blocks {
        machine.load(block).expect("accepted");
    }
    machine
}

fn end_of(block: Block) -> (i64, i64) {
    match block {
        Block::Line { x, y, .. } | Block::Arc { x, y, .. } => (x, y),
    }
}

/// The first comes into work, the others wait as they were given.
#[test]
fn loads_behind_one_another() {
    for count in 1..=BLOCKS.len() {
        let machine = loaded(&BLOCKS[..count]);
        assert_eq!(machine.work(), Work::Line { start: (0, 0), end: (3, -4), feed: FASTEST, cycles: 5, done: 0 });
        assert_eq!(machine.queue().collect::<Vec<_>>(), &BLOCKS[1..count]);
        assert_eq!((machine.waiting(), machine.cycles_left()), (count as i64 - 1, CYCLES[..count].iter().sum()));
    }
}

/// Each run stops at an end, with the next block in work; a cycle takes one off what is to do, and no other tick does.
#[test]
fn runs_stop_at_each_end() {
    let (mut machine, mut out) = (loaded(&BLOCKS), [0; 7]);
    for (at, &block) in BLOCKS.iter().enumerate() {
        let mut cycles = 0;
        loop {
            let before = machine.cycles_left();
            let (why, ticks) = machine.run(u64::MAX, &mut out).expect("sound");
            let done = out[..ticks as usize].iter().filter(|&byte| byte & 16 != 0).count() as i64;
            cycles += done;
            assert_eq!(machine.cycles_left(), before - done);
            if why == Why::Ended {
                break;
            }
            assert_eq!((why, ticks), (Why::Full, 7));
        }
        assert_eq!((cycles, machine.position()), (CYCLES[at], end_of(block)));
        assert_eq!((machine.is_busy(), machine.queue().count()), (at < 3, BLOCKS.len().saturating_sub(at + 2)));
    }
    assert_eq!((machine.cycles_left(), machine.run(9, &mut out)), (0, Ok((Why::Idle, 0))));
}

/// From every state of the four blocks, over all their ends: the record ahead, and the words behind it too; and the machine stays.
#[test]
fn a_look_goes_through_what_waits() {
    let mut machine = loaded(&BLOCKS);
    while machine.is_busy() {
        let before = *machine.words();
        for ticks in (0..120).chain([AHEAD_TICKS]) {
            let (ahead, own) = (machine.ahead(ticks).expect("not too far"), ticked(&machine, ticks.min(200)));
            assert_eq!((ahead.then.words(), &ahead), (own.then.words(), &own), "{ticks}");
        }
        assert_eq!(machine.words(), &before);
        machine.tick().expect("sound");
    }
}

/// A stop drops them all, keeps the mark, and the next load starts at the point.
#[test]
fn a_stop_empties_the_queue() {
    let mut machine = ticked(&loaded(&BLOCKS), 2).then;
    machine.hold().expect("sound");
    machine.stop().expect("sound");
    assert_eq!((machine.is_busy(), machine.waiting(), machine.cycles_left(), machine.remainder()), (false, 0, 0, 0));
    assert_eq!((machine.is_held(), machine.position()), (true, (1, -2)));
    assert_eq!(machine.load(Block::Line { x: 1, y: -2, feed: 1 }), Err(verdaizka::Refused(13)));
    assert_eq!(machine.load(Block::Line { x: 3, y: -4, feed: 1 }), Ok(2));
}

/// A machine with blocks waiting can be saved and brought back; only the words of its record count.
#[test]
fn a_record_with_a_queue_can_be_saved() {
    let mut machine = ticked(&loaded(&BLOCKS), 8).then;
    let mut words = [i64::MAX; verdaizka::WORDS];
    words[..machine.record().len()].copy_from_slice(machine.record());
    let mut saved = Machine::from_words(words);
    assert_eq!(saved, machine);
    while machine.is_busy() {
        assert_eq!(saved.tick(), machine.tick());
        assert_eq!(saved, machine);
    }
}
