//! The core's semantics in plain Rust, for timing beside it; plain.h says what each function does. Here are runs and the root.
#![allow(clippy::missing_safety_doc)]

mod machine;
mod path;
mod words;

const CYCLE: u8 = 16;
const LAST: u8 = 32;
/// Charges, and what a tick pays for each unit of feed.
const STRAIGHT: u64 = 1_000;
const DIAGONAL: u64 = 1_414;
const PER_FEED: u64 = 1_000;

pub trait Block {
    /// One cycle onward: its byte.
    fn cycle(&mut self) -> u8;
    /// What the next cycle takes off, where a straight step takes so much.
    fn due(&self, straight: u64) -> u64;
}

#[repr(C)]
#[derive(Clone, Copy)]
pub struct Line {
    pub q: u64,
    pub a: u64,
    pub b: u64,
    pub register_x: u64,
    pub register_y: u64,
    pub done: u64,
    pub code_x: u8,
    pub code_y: u8,
}

impl Block for Line {
    #[inline]
    fn cycle(&mut self) -> u8 {
        let mut byte = CYCLE;
        self.register_x += self.a;
        if self.register_x >= self.q {
            self.register_x -= self.q;
            byte |= self.code_x;
        }
        self.register_y += self.b;
        if self.register_y >= self.q {
            self.register_y -= self.q;
            byte |= self.code_y;
        }
        self.done += 1;
        if self.done == self.q {
            byte |= LAST;
        }
        byte
    }

    #[inline]
    fn due(&self, straight: u64) -> u64 {
        straight
    }
}

#[repr(C)]
#[derive(Clone, Copy)]
pub struct Arc {
    pub along: i64,
    pub across: i64,
    pub excess: i64,
    pub left: u64,
    pub quadrant: u64,
    pub clockwise: u64,
}

/// The codes of a rise and of a fall in each quadrant, counterclockwise and then clockwise.
const RISES: [[u8; 4]; 2] = [[4, 2, 8, 1], [8, 2, 4, 1]];
const FALLS: [[u8; 4]; 2] = [[2, 8, 1, 4], [2, 4, 1, 8]];

impl Arc {
    /// Whether the next step goes on both axes.
    #[inline]
    fn diagonal(&self) -> bool {
        if self.across < self.along {
            self.excess + 2 * self.across + 1 >= self.along
        } else {
            self.excess + 1 - 2 * self.along + self.across < 0
        }
    }

    #[inline]
    fn step(&mut self) -> u8 {
        let (way, quadrant) = ((self.clockwise & 1) as usize, (self.quadrant & 3) as usize);
        let (rise, fall) = (RISES[way][quadrant], FALLS[way][quadrant]);
        if self.across < self.along {
            let risen = self.excess + 2 * self.across + 1;
            self.across += 1;
            if risen < self.along {
                self.excess = risen;
                return rise;
            }
            self.excess = risen + 1 - 2 * self.along;
            self.along -= 1;
        } else {
            let fallen = self.excess + 1 - 2 * self.along;
            self.along -= 1;
            if fallen + self.across >= 0 {
                self.excess = fallen;
                return fall;
            }
            self.excess = fallen + 2 * self.across + 1;
            self.across += 1;
        }
        rise | fall
    }
}

impl Block for Arc {
    #[inline]
    fn cycle(&mut self) -> u8 {
        let mut byte = CYCLE | self.step();
        if self.along == 0 {
            self.along = self.across;
            self.across = 0;
            self.quadrant = (self.quadrant + 1) & 3;
        }
        self.left = self.left.wrapping_sub(1);
        if self.left == 0 {
            byte |= LAST;
        }
        byte
    }

    #[inline]
    fn due(&self, straight: u64) -> u64 {
        if self.diagonal() {
            straight / STRAIGHT * DIAGONAL
        } else {
            straight
        }
    }
}

#[repr(C)]
pub struct Feed {
    capacity: u64,
    feed: u64,
    remainder: u64,
}

fn ticks<B: Block + Copy>(block: &mut B, feed: &mut Feed, out: &mut [u8]) -> u64 {
    let (mut b, mut r, mut done) = (*block, feed.remainder, out.len());
    let mut due = b.due(feed.capacity);
    for (i, byte) in out.iter_mut().enumerate() {
        r += feed.feed;
        *byte = 0;
        if r >= due {
            r -= due;
            *byte = b.cycle();
            due = b.due(feed.capacity);
            if *byte & LAST != 0 {
                done = i + 1;
                break;
            }
        }
    }
    *block = b;
    feed.remainder = r;
    done as u64
}

/// After a cycle the remainder is below the feed, so the next comes after one of two numbers of ticks.
fn line_cycles(block: &mut Line, feed: &mut Feed, out: &mut [u8]) -> u64 {
    let (mut b, f, capacity) = (*block, feed.feed, feed.capacity);
    let (whole, over) = (capacity / f, capacity % f);
    let end = ((b.q - b.done) * capacity - feed.remainder).div_ceil(f);
    let n = end.min(out.len() as u64);
    let out = &mut out[..n as usize];
    out.fill(0);
    let mut at = (capacity - feed.remainder).div_ceil(f);
    let mut r = feed.remainder + at * f - capacity;
    while let Some(byte) = out.get_mut(at as usize - 1) {
        *byte = b.cycle();
        if r >= over {
            r -= over;
            at += whole;
        } else {
            r += f - over;
            at += whole + 1;
        }
    }
    feed.remainder = r + capacity - (at - n) * f;
    *block = b;
    n
}

/// The same, by two such pairs. What is cleared may reach past the block's end: how many of its steps are diagonal is not counted first.
fn arc_cycles(block: &mut Arc, feed: &mut Feed, out: &mut [u8]) -> u64 {
    let (mut b, f) = (*block, feed.feed);
    let due = [feed.capacity, feed.capacity / STRAIGHT * DIAGONAL];
    let (whole, over) = (due.map(|due| due / f), due.map(|due| due % f));
    let n = (b.left * due[1]).div_ceil(f).min(out.len() as u64);
    let out = &mut out[..n as usize];
    out.fill(0);
    let mut d = usize::from(b.diagonal());
    let mut at = (due[d] - feed.remainder).div_ceil(f);
    let mut r = feed.remainder + at * f - due[d];
    while let Some(byte) = out.get_mut(at as usize - 1) {
        *byte = b.cycle();
        if *byte & LAST != 0 {
            feed.remainder = r;
            *block = b;
            return at;
        }
        d = usize::from(b.diagonal());
        if r >= over[d] {
            r -= over[d];
            at += whole[d];
        } else {
            r += f - over[d];
            at += whole[d] + 1;
        }
    }
    feed.remainder = r + due[d] - (at - n) * f;
    *block = b;
    n
}

macro_rules! run {
    ($name:ident, $block:ty, $run:ident) => {
        #[no_mangle]
        pub unsafe extern "C" fn $name(block: &mut $block, feed: &mut Feed, most: u64, out: *mut u8) -> u64 {
            $run(block, feed, unsafe { std::slice::from_raw_parts_mut(out, most as usize) })
        }
    };
}

run!(rust_line_ticks, Line, ticks);
run!(rust_arc_ticks, Arc, ticks);
run!(rust_line_cycles, Line, line_cycles);
run!(rust_arc_cycles, Arc, arc_cycles);

/// The least root by the hardware's, which is never rounded up to a whole number for s below 2^52.
#[no_mangle]
pub extern "C" fn rust_root(s: u64) -> u64 {
    let r = (s as i64 as f64).sqrt() as i64 as u64;
    r + u64::from(r * r < s)
}

/// The root of the standard library for whole numbers, rounded up.
#[no_mangle]
pub extern "C" fn rust_isqrt(s: u64) -> u64 {
    let r = s.isqrt();
    r + u64::from(r * r < s)
}
