//! Where a whole job stands after so many ticks, as the row of the program `jobwhere`.

use std::fmt;

use crate::book::{Block, Book, Path};
use crate::job::{Meaning, Reader};
use crate::listing::{lines, LONGEST_TEXT};
use crate::settings::Settings;

/// 1 where a block is in work, 0 where the job is over, minus the number of the refusal; block, line, ticks and cycles left; the point
/// and the remainder; and what is in work, in eight numbers.
pub struct Place {
    found: i64,
    blocks: u64,
    line: usize,
    ticks: u64,
    book: Book,
}

impl fmt::Display for Place {
    fn fmt(&self, out: &mut fmt::Formatter) -> fmt::Result {
        let Place { found, blocks, line, ticks, book } = self;
        let left = book.block.map_or(0, |block| block.k - block.c);
        write!(out, "{found} {blocks} {line} {ticks} {left} {} {} {}", book.point, book.remainder, in_work(book.block))
    }
}

fn in_work(block: Option<Block>) -> String {
    match block {
        None => "0 0 0 0 0 0 0 0".to_string(),
        Some(Block { path: Path::Line, start, end, f, k, c, .. }) => format!("1 {start} {end} {f} {k} {c}"),
        Some(Block { path: Path::Arc { kind, centre, n }, end, f, .. }) => format!("{} {centre} {n} {end} {f} 0", kind.number()),
    }
}

/// A block that ends before is ended at once; in the block in work every tick is ticked.
pub fn after(text: &[u8], settings: &Settings, ticks: u64) -> Place {
    let (mut known, mut place) = (Reader::default(), Place { found: 0, blocks: 0, line: 0, ticks, book: Book::make(*settings).0 });
    if text.len() > LONGEST_TEXT {
        return Place { found: -30, line: 1, ..place };
    }
    for line in lines(text) {
        place.line += 1;
        match known.line(&mut place.book, line) {
            Meaning::NoBlock => continue,
            Meaning::Refused(number) => return Place { found: -i64::from(number), ..place },
            Meaning::Loaded { .. } => place.blocks += 1,
        }
        let mut ended = place.book.clone();
        match u64::try_from(ended.finish_at_once()).ok().and_then(|all| place.ticks.checked_sub(all)) {
            Some(left) => (place.ticks, place.book) = (left, ended),
            None => {
                for _ in 0..place.ticks {
                    place.book.tick();
                }
                return Place { found: 1, ..place };
            }
        }
    }
    place
}

#[cfg(test)]
mod tests {
    use super::*;
    use crate::settings::USUAL;

    #[test]
    fn the_job_of_the_paper() {
        let at = |ticks| after(b"N20 G01 X20 Y40 F100\nN30 X50 Y80\n", &USUAL, ticks).to_string();
        assert_eq!(at(720), "1 1 1 720 2225 5 11 0 1 0 0 1000 2000 5000000 2237 12");
        assert_eq!(at(134_219), "1 1 1 134219 1 1000 1999 295000000000 1 0 0 1000 2000 5000000 2237 2236");
        assert_eq!(at(134_220), "1 2 2 0 2500 1000 2000 0 1 1000 2000 2500 4000 5000000 2500 0");
        assert_eq!(at(284_225), "0 2 2 5 0 2500 4000 0 0 0 0 0 0 0 0 0");
    }

    /// F0.75 does a cycle every 8,000 ticks, and F0.001 one in 6,000,000, which are more than a look-ahead goes.
    #[test]
    fn slow_feeds() {
        let at = |ticks| after(b"G1 X0.04 F0.75\nX0.06 F0.001", &USUAL, ticks).to_string();
        assert_eq!(at(7_999), "1 1 1 7999 2 0 0 299962500000 1 0 0 2 0 37500 2 0");
        assert_eq!(at(8_001), "1 1 1 8001 1 1 0 37500000 1 0 0 2 0 37500 2 1");
        assert_eq!(at(6_015_999), "1 2 2 5999999 1 2 0 299999950000 1 2 0 3 0 50 1 0");
        assert_eq!(at(6_016_000), "0 2 2 0 0 3 0 0 0 0 0 0 0 0 0 0");
    }

    /// The half circle of N 25 has its cycles on ticks 1, 2, 4, 5, 7, .. and ends on tick 17 with 17,000 - 16,484 = 516 × q0.
    #[test]
    fn an_arc_and_a_refusal() {
        let at = |ticks| after(b"G3 X0 Y0.2 J0.1 F6000\n\nX1", &USUAL, ticks).to_string();
        assert_eq!(at(3), "1 1 1 3 12 2 0 300000000000 3 0 5 25 0 10 300000000 0");
        assert_eq!(at(4), "1 1 1 4 11 3 1 175800000000 3 0 5 25 0 10 300000000 0");
        assert_eq!(at(16), "1 1 1 16 1 1 10 154800000000 3 0 5 25 0 10 300000000 0");
        assert_eq!(at(19), "-37 1 3 2 0 0 10 154800000000 0 0 0 0 0 0 0 0");
        assert_eq!(after(&[b'\n'; 65_537], &USUAL, 4).to_string(), "-30 0 1 4 0 0 0 0 0 0 0 0 0 0 0 0");
    }
}
