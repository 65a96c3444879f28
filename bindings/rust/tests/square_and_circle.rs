//! The wrapper cuts a square and a circle: the tick bytes add up to the position, and the record can be taken out and brought back.

use verdaizka::{Block, Machine, Settings, Turn, Why};

const SETTINGS: Settings = Settings { p: 50, w: 5_000, x: (-1_000, 1_000), y: (-1_000, 1_000) };
/// 1,200 mm a minute: a cycle of a line takes five ticks.
const FEED: i64 = 1_200_000 * SETTINGS.p;

fn pulse(code: u8) -> i64 {
    [0, 1, -1, 0][usize::from(code & 3)]
}

/// Runs the block in work to its end in pieces and tells the pulse sums and the ticks.
fn cut(machine: &mut Machine) -> (i64, i64, u64) {
    let mut out = [0; 37];
    let (mut x, mut y, mut all) = (0, 0, 0);
    loop {
        let (why, ticks) = machine.run(1_000, &mut out).expect("a sound record");
        for &byte in &out[..ticks as usize] {
            x += pulse(byte);
            y += pulse(byte >> 2);
        }
        all += ticks;
        if why == Why::Ended {
            return (x, y, all);
        }
    }
}

#[test]
fn square_and_circle() {
    let (mut machine, made) = Machine::make(SETTINGS);
    assert_eq!(made, Ok(()));
    let mut at = (0, 0);
    for (x, y) in [(500, 0), (500, 500), (0, 500), (0, 0)] {
        assert_eq!(machine.load(Block::Line { x, y, feed: FEED }), Ok(9));
        let (sum_x, sum_y, ticks) = cut(&mut machine);
        at = (at.0 + sum_x, at.1 + sum_y);
        assert_eq!((at, machine.position()), ((x, y), (x, y)));
        assert_eq!(ticks, 500 * 5);
    }
    let circle = Block::Arc { turn: Turn::Counterclockwise, x: 0, y: 0, feed: FEED, i: 250, j: 0 };
    assert_eq!(machine.load(circle), Ok(8));
    // A tick pays 200 charges. Of the 1,416 cycles 584 are diagonal, since the axes have 2,000 pulses together: 1,657,776 charges, so that
    // tick 8,289 leaves 24 of them.
    let (x, y, ticks) = cut(&mut machine);
    assert_eq!((x, y, ticks), (0, 0, 8_289));
    assert_eq!((machine.position(), machine.is_busy(), machine.remainder()), ((0, 0), false, 24 * SETTINGS.fastest()));
}

#[test]
fn a_record_can_be_saved() {
    let (mut machine, _) = Machine::make(SETTINGS);
    machine.load(Block::Line { x: 300, y: -400, feed: FEED }).expect("accepted");
    machine.hold().expect("sound");
    assert_eq!(machine.tick(), Ok(0));
    machine.release().expect("sound");
    machine.tick().expect("sound");
    let mut saved = Machine::from_words(*machine.words());
    assert_eq!(cut(&mut saved), cut(&mut machine));
    machine.stop().expect("sound");
    assert_eq!(saved, machine);
}
