//! A look-ahead is what so many ticks give on a copy: the record in every word, and the pulses of their bytes. The machine stays as it is.

mod ticking;

use ticking::ticked;
use verdaizka::{word, Ahead, Block, Machine, Refused, Settings, Turn, Work, AHEAD_TICKS, USUAL};

const SETTINGS: Settings = Settings { p: 50, w: 1_000, x: (-20, 20), y: (-20, 20) };
/// Pays 1,000 charges a tick, a line's cycle or a straight step of an arc. In the remainder a charge counts as many.
const FASTEST: i64 = SETTINGS.fastest();

fn busy(block: Block) -> Machine {
    let (mut machine, made) = Machine::make(SETTINGS);
    assert_eq!(made, Ok(()));
    machine.load(block).expect("accepted");
    machine
}

fn line(feed: i64) -> Block {
    Block::Line { x: 3, y: -4, feed }
}

fn turn(feed: i64) -> Block {
    Block::Arc { turn: Turn::Clockwise, x: 0, y: 0, feed, i: 0, j: 5 }
}

fn held(mut machine: Machine) -> Machine {
    machine.hold().expect("sound");
    machine
}

/// The machine with this remainder, as none is after a load of a history.
fn left_over(machine: &Machine, remainder: i64) -> Machine {
    let mut words = *machine.words();
    words[word::REMAINDER] = remainder;
    Machine::from_words(words)
}

fn accepted(machine: &Machine, ticks: u64) -> Ahead {
    let before = machine.clone();
    let (ahead, answer) = machine.ahead_told(ticks);
    assert_eq!((answer, machine), (Ok(()), &before));
    assert_eq!(machine.ahead(ticks), Ok(ahead.clone()));
    ahead
}

/// Line (3, 4), here downward: (1, 1), (1, 2), (2, 2), (2, 3), (3, 4), and then it stands.
#[test]
fn a_line_cycle_by_cycle() {
    let machine = busy(line(FASTEST));
    for (ticks, at) in [(0, 0), (1, -1), (1, -2), (2, -2), (2, -3), (3, -4), (3, -4)].into_iter().enumerate() {
        let ahead = accepted(&machine, ticks as u64);
        assert_eq!((ahead.sums, ahead.then.position(), ahead.then.remainder()), (at, at, 0), "{ticks}");
        let line = Work::Line { start: (0, 0), end: (3, -4), feed: FASTEST, cycles: 5, done: ticks as i64 };
        assert_eq!(ahead.then.work(), if ticks < 5 { line } else { Work::Nothing });
    }
}

#[test]
fn a_look_is_its_ticks() {
    let idle = Machine::make(SETTINGS).0;
    let begun = [line(FASTEST), turn(40_000_001)].map(|block| ticked(&busy(block), 3).then);
    let marked = [held(idle.clone()), held(busy(line(FASTEST))), held(busy(turn(7)))];
    let others = [idle, busy(line(39_999_999)), busy(turn(FASTEST - 1))];
    let rich = [line(FASTEST), line(7_003), turn(FASTEST), turn(7_003)].map(|block| left_over(&busy(block), 1_414 * FASTEST - 1));
    for machine in begun.into_iter().chain(marked).chain(others).chain(rich) {
        for ticks in (0..60).chain([999, 60_001, AHEAD_TICKS - 1, AHEAD_TICKS]) {
            assert_eq!(accepted(&machine, ticks), ticked(&machine, ticks), "{ticks} from {machine:?}");
        }
    }
}

/// N 25, clockwise about (0, 5): (-1, 0) and (-2, 0) are straight steps, (-3, 1), (-4, 2) and (-5, 3) diagonal ones of 1,414; then (-5, 4).
/// So they come on ticks 1, 2, 4, 5, 7 and 8, and the whole turn, of 32,968, ends on tick 33 with 32 left over.
#[test]
fn an_arc_waits_for_its_diagonal_steps() {
    let machine = busy(turn(FASTEST));
    let ways = [(0, 0), (-1, 0), (-2, 0), (-2, 0), (-3, 1), (-4, 2), (-4, 2), (-5, 3), (-5, 4)];
    for (ticks, at) in ways.into_iter().enumerate() {
        let ahead = accepted(&machine, ticks as u64);
        assert_eq!((ahead.sums, ahead.then.position(), ahead.then.is_busy()), (at, at, true), "{ticks}");
    }
    assert_eq!(accepted(&machine, 3).then.remainder(), 1_000 * FASTEST);
    assert_eq!(accepted(&machine, 6).then.remainder(), 1_172 * FASTEST);
    let (last, end) = (accepted(&machine, 32), accepted(&machine, 33));
    assert_eq!((last.then.position(), last.then.is_busy()), ((1, 0), true));
    assert_eq!((end.then.position(), end.then.is_busy(), end.then.remainder()), ((0, 0), false, 32 * FASTEST));
}

/// At most one cycle a tick, however much is left over: 5 cycles end on tick 5, and the remainder stays.
#[test]
fn a_great_remainder() {
    let machine = left_over(&busy(line(FASTEST)), 1_400 * FASTEST);
    for (ticks, busy) in [(4, true), (5, false), (6, false)] {
        let ahead = accepted(&machine, ticks);
        assert_eq!((ahead.then.is_busy(), ahead.then.remainder()), (busy, 1_400 * FASTEST), "{ticks}");
    }
}

/// A look from the record ahead goes on where the first one ended: a million ticks at a pulse per minute do 16 cycles, and leave what
/// 40,000 of them add.
#[test]
fn looks_one_after_the_other() {
    let machine = busy(Block::Line { x: 0, y: 17, feed: 1_000 });
    let first = accepted(&machine, AHEAD_TICKS);
    assert_eq!((first.sums, first.then.remainder(), first.then.is_busy()), ((0, 16), 40_000_000_000, true));
    let second = accepted(&first.then, 19_999);
    assert_eq!((second.sums, second.then.remainder(), second.then.is_busy()), ((0, 0), 59_999_000_000, true));
    let third = accepted(&second.then, 1);
    assert_eq!((third.sums, third.then.position(), third.then.remainder(), third.then.is_busy()), ((0, 1), (0, 17), 0, false));
}

/// 38 where it works, is held and is idle: the record is the machine's own, and nothing is sent.
#[test]
fn too_many_ticks() {
    let busy = busy(line(FASTEST));
    for machine in [Machine::make(USUAL).0, held(busy.clone()), busy] {
        for ticks in [AHEAD_TICKS + 1, 1 << 32, 1 << 63, u64::MAX] {
            let before = machine.clone();
            let own = Ahead { then: before.clone(), sums: (0, 0) };
            assert_eq!(machine.ahead_told(ticks), (own, Err(Refused(38))));
            assert_eq!(machine.ahead(ticks), Err(Refused(38)));
            assert_eq!(machine, before);
        }
    }
}

/// 9 comes first, whatever the ticks, and hands the words out as they are.
#[test]
fn an_unsound_record() {
    let mut words = *busy(line(FASTEST)).words();
    words[word::X] = 21;
    let machine = Machine::from_words(words);
    for ticks in [0, 1, AHEAD_TICKS, AHEAD_TICKS + 1, u64::MAX] {
        assert_eq!(machine.ahead_told(ticks), (Ahead { then: Machine::from_words(words), sums: (0, 0) }, Err(Refused(9))));
        assert_eq!(machine.ahead(ticks), Err(Refused(9)));
    }
    assert_eq!(machine.words(), &words);
}
