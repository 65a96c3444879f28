//! The plain Rust machine behind the words of a record: words 0 to 18 are decoded, the queue behind them is used where it stands.
use crate::machine::{Block, Machine, Queue, Work};
use crate::path::{Arc, Line, Point, Range, Settings};

/// The words of what is in work; which word is what, `decode` and `encode` say alone.
type Front = [i64; 19];

/// The words of a record: the queue's words stand as `Queue` has them.
#[repr(C)]
pub struct Words {
    front: Front,
    queue: Queue,
}

/// The number of this layout.
const ABI: i64 = 4;

/// None where the words are no record at all: of another layout, a mark but 0 and 1, a kind above 3, not 0 in what is not used.
fn decode(words: &Front) -> Option<Machine> {
    let [abi, p, w, x_lower, x_upper, y_lower, y_upper, x, y, held, remainder, kind, numbers @ ..] = *words;
    if abi != ABI {
        return None;
    }
    let work = match (kind, numbers) {
        (0, [0, 0, 0, 0, 0, 0, 0]) => Work::Nothing,
        (1, [a, b, c, d, feed, cycles, done]) => {
            Work::Line(Line { start: Point { x: a, y: b }, end: Point { x: c, y: d }, feed, cycles, done })
        }
        (2 | 3, [a, b, square, c, d, feed, 0]) => {
            Work::Arc(Arc { centre: Point { x: a, y: b }, square, clockwise: kind == 2, end: Point { x: c, y: d }, feed })
        }
        _ => return None,
    };
    let held = match held {
        0 => false,
        1 => true,
        _ => return None,
    };
    let settings = Settings { p, w, x: Range { lower: x_lower, upper: x_upper }, y: Range { lower: y_lower, upper: y_upper } };
    Some(Machine { settings, at: Point { x, y }, held, remainder, work })
}

/// What a call may have changed: no setting.
fn encode(m: &Machine, words: &mut Front) {
    let (kind, n) = match m.work {
        Work::Nothing => (0, [0; 7]),
        Work::Line(l) => (1, [l.start.x, l.start.y, l.end.x, l.end.y, l.feed, l.cycles, l.done]),
        Work::Arc(a) => (if a.clockwise { 2 } else { 3 }, [a.centre.x, a.centre.y, a.square, a.end.x, a.end.y, a.feed, 0]),
    };
    (words[7], words[8], words[10], words[11]) = (m.at.x, m.at.y, m.remainder, kind);
    words[12..].copy_from_slice(&n);
}

fn on_words(words: &mut Words, call: impl FnOnce(&mut Machine, &mut Queue) -> i64) -> i64 {
    let Some(mut m) = decode(&words.front) else { return -9 };
    let answer = call(&mut m, &mut words.queue);
    encode(&m, &mut words.front);
    answer
}

#[no_mangle]
pub extern "C" fn rust_words_tick(words: &mut Words) -> i64 {
    on_words(words, Machine::tick)
}

#[no_mangle]
pub extern "C" fn rust_words_load(words: &mut Words, block: &Block) -> i64 {
    on_words(words, |m, q| m.load(q, block))
}

#[no_mangle]
pub extern "C" fn rust_words_stop(words: &mut Words) -> i64 {
    on_words(words, Machine::stop)
}
