//! The words of a line, one blank between, and the record as a line of a call file has it (`docs/CALL-FILES.md`).

use crate::{word, Block, Machine, Settings, Turn, Work, ABI, BLOCK_WORDS, MOST_WAITING, WORDS};
use std::str::Split;

/// Read from the left; each reading takes the words that it needs, or tells that they are not there.
#[derive(Clone)]
pub struct Fields<'a> {
    rest: Split<'a, char>,
    beyond: bool,
}

/// Decimal, `-` before a negative one, no `+`, no leading zeros.
fn plain(word: &str) -> bool {
    let digits = word.strip_prefix('-').unwrap_or(word);
    word == "0" || !digits.starts_with(['+', '0'])
}

impl<'a> Fields<'a> {
    pub fn of(line: &'a str) -> Fields<'a> {
        Fields { rest: line.split(' '), beyond: false }
    }

    pub fn word(&mut self) -> Option<&'a str> {
        self.rest.next()
    }

    /// Nothing more stands in the line.
    pub fn end(&mut self) -> Option<()> {
        self.word().is_none().then_some(())
    }

    pub fn i64(&mut self) -> Option<i64> {
        self.word().filter(|word| plain(word))?.parse().ok()
    }

    pub fn u64(&mut self) -> Option<u64> {
        self.word().filter(|word| plain(word))?.parse().ok()
    }

    /// A number that is not negative: one that no word of a record holds is -1, which is out of every range.
    fn count(&mut self) -> Option<i64> {
        let count = i64::try_from(self.u64()?);
        self.beyond |= count.is_err();
        Some(count.unwrap_or(-1))
    }

    /// A number came that no word of a record holds.
    pub fn is_beyond(&self) -> bool {
        self.beyond
    }

    pub fn settings(&mut self) -> Option<Settings> {
        Some(Settings { p: self.count()?, w: self.count()?, x: (self.i64()?, self.i64()?), y: (self.i64()?, self.i64()?) })
    }

    fn turn(&mut self) -> Option<Turn> {
        match self.u64()? {
            2 => Some(Turn::Clockwise),
            3 => Some(Turn::Counterclockwise),
            _ => None,
        }
    }

    pub fn block(&mut self) -> Option<Block> {
        match self.word()? {
            "L" => Some(Block::Line { x: self.i64()?, y: self.i64()?, feed: self.count()? }),
            "A" => {
                let turn = self.turn()?;
                Some(Block::Arc { turn, x: self.i64()?, y: self.i64()?, feed: self.count()?, i: self.i64()?, j: self.i64()? })
            }
            _ => None,
        }
    }

    /// The words of a record, and behind them 0: with the roots of the blocks, which are not in the line. Where it says that more than
    /// sixteen wait, sixteen stand in it.
    pub fn record(&mut self) -> Option<Machine> {
        let s = self.settings()?;
        let (x, y) = (self.i64()?, self.i64()?);
        let held = match self.word()? {
            "0" => 0,
            "1" => 1,
            _ => return None,
        };
        let mut words = [0; WORDS];
        words[..word::WORK].copy_from_slice(&[ABI, s.p, s.w, s.x.0, s.x.1, s.y.0, s.y.1, x, y, held, self.count()?]);
        let (work, mut place) = self.work((x, y))?;
        words[word::WORK..=word::ROOT].copy_from_slice(&work);
        words[word::LEFT] = self.count()?;
        let places = self.clone().u64()?.min(MOST_WAITING as u64) as usize;
        words[word::WAITING] = self.count()?;
        for waiting in words[word::QUEUE..].chunks_exact_mut(BLOCK_WORDS).take(places) {
            let block = self.block()?;
            waiting.copy_from_slice(&waiting_words(block, place));
            place = end_of(block);
        }
        Some(Machine::from_words(words))
    }

    /// The words of what is in work, its root behind them, and where it ends, which is the point where nothing is.
    fn work(&mut self, point: (i64, i64)) -> Option<([i64; word::LEFT - word::WORK], (i64, i64))> {
        match self.word()? {
            "none" => Some(([0; word::LEFT - word::WORK], point)),
            "line" => {
                let (start, end) = ((self.i64()?, self.i64()?), (self.i64()?, self.i64()?));
                let cycles = line_cycles(start, end);
                Some(([word::KIND_LINE, start.0, start.1, end.0, end.1, self.count()?, cycles, self.count()?, cycles], end))
            }
            "arc" => {
                let kind = kind_of(self.turn()?);
                let (x, y, square, end) = (self.i64()?, self.i64()?, self.count()?, (self.i64()?, self.i64()?));
                Some(([kind, x, y, square, end.0, end.1, self.count()?, 0, quarter_cycles(i128::from(square))], end))
            }
            _ => None,
        }
    }
}

fn kind_of(turn: Turn) -> i64 {
    match turn {
        Turn::Clockwise => word::KIND_CW,
        Turn::Counterclockwise => word::KIND_CCW,
    }
}

fn end_of(block: Block) -> (i64, i64) {
    match block {
        Block::Line { x, y, .. } | Block::Arc { x, y, .. } => (x, y),
    }
}

/// The words of a block that waits and will start there.
fn waiting_words(block: Block, start: (i64, i64)) -> [i64; BLOCK_WORDS] {
    match block {
        Block::Line { x, y, feed } => [word::KIND_LINE, x, y, feed, 0, 0, line_cycles(start, (x, y))],
        Block::Arc { turn, x, y, feed, i, j } => {
            let square = |a: i64| i128::from(a) * i128::from(a);
            let root = square(i).checked_add(square(j)).map_or(0, quarter_cycles);
            [kind_of(turn), x, y, feed, i, j, root]
        }
    }
}

/// The line's own q, the least whole number whose square is at least the sum of the squared increments; 0, which is never right, where
/// it is beyond any line in travel.
fn line_cycles(start: (i64, i64), end: (i64, i64)) -> i64 {
    let (a, b) = (i128::from(end.0) - i128::from(start.0), i128::from(end.1) - i128::from(start.1));
    if a.abs() > 4_000_000 || b.abs() > 4_000_000 {
        return 0;
    }
    let sum = a * a + b * b;
    let root = sum.isqrt();
    (root + i128::from(root * root < sum)) as i64
}

/// The cycles of a quarter turn, the whole number nearest to the root of 2 N; 0, which is never right, where N is beyond any arc's.
pub fn quarter_cycles(square: i128) -> i64 {
    if !(1..=2_000_000_000_000).contains(&square) {
        return 0;
    }
    let root = (2 * square).isqrt();
    (root + i128::from(root * root + root < 2 * square)) as i64
}

/// The whole record as a call file has it. The layout's number, a line's stored cycles, roots and unused words are not in it.
pub fn record_told(machine: &Machine) -> String {
    let first: Vec<String> = machine.words()[word::P..word::WORK].iter().map(i64::to_string).collect();
    let blocks: String = machine.queue().map(|block| format!(" {}", block_told(block))).collect();
    format!("{} {} {} {}{blocks}", first.join(" "), work_told(machine.work()), machine.cycles_left(), machine.waiting())
}

fn work_told(work: Work) -> String {
    match work {
        Work::Nothing => "none".to_string(),
        Work::Line { start, end, feed, done, .. } => format!("line {} {} {} {} {feed} {done}", start.0, start.1, end.0, end.1),
        Work::Arc { turn, centre, square, end, feed } => {
            format!("arc {} {} {} {square} {} {} {feed}", kind_of(turn), centre.0, centre.1, end.0, end.1)
        }
    }
}

fn block_told(block: Block) -> String {
    match block {
        Block::Line { x, y, feed } => format!("L {x} {y} {feed}"),
        Block::Arc { turn, x, y, feed, i, j } => format!("A {} {x} {y} {feed} {i} {j}", kind_of(turn)),
    }
}

/// Whether the record told gives these words, every one of the record, so that what is not in it is right too.
pub fn is_of(told: &str, machine: &Machine) -> bool {
    Fields::of(told).record().as_ref() == Some(machine)
}
