//! Safe Rust over the C interface of the proved pulse core (`include/verdaizka.h`). The calls themselves are proved; this file and its
//! declarations of them are not.

pub mod crc;
pub mod descriptors;
pub mod fields;

/// The record as the core has it, in words of 64 bits: 134, with room for sixteen blocks that wait. Those behind the last one that waits
/// are no part of it: no answer depends on them, and a call leaves them; a look-ahead copies them.
pub const WORDS: usize = word::QUEUE + MOST_WAITING * BLOCK_WORDS;

/// How many blocks wait at most, behind the one in work.
pub const MOST_WAITING: usize = 16;

/// A block that waits, in words of 64 bits.
pub const BLOCK_WORDS: usize = 7;

/// The record of a check, on which no block ever waits, in words of 64 bits: the first of a machine's.
pub const BENCH_WORDS: usize = word::ROOT;

/// The G and F that a job text has made known, in words of 64 bits.
pub const KNOWN_WORDS: usize = 2;

/// How far a check has come, in words of 64 bits.
pub const PROGRESS_WORDS: usize = 9;

/// How far a check on the panel has come, in words of 64 bits.
pub const PANEL_WORDS: usize = 10;

/// A check on the panel holds so much of the text: a line, and a byte more that tells it to be too long.
pub const SCRATCH_BYTES: usize = 81;

/// A row of a listing has at most so many bytes.
pub const ROW_BYTES: usize = 160;

/// As far as a look-ahead goes, in ticks.
pub const AHEAD_TICKS: u64 = 1_000_000;

/// Word 0 of every record: the layout that this file knows. Words with another number there are no record.
pub const ABI: i64 = 4;

/// Which word is what, as `include/verdaizka.h` says it.
pub mod word {
    pub const ABI: usize = 0;
    pub const P: usize = 1;
    pub const W: usize = 2;
    pub const X_LOWER: usize = 3;
    pub const X_UPPER: usize = 4;
    pub const Y_LOWER: usize = 5;
    pub const Y_UPPER: usize = 6;
    pub const X: usize = 7;
    pub const Y: usize = 8;
    pub const HELD: usize = 9;
    /// In thousandths of a feed number.
    pub const REMAINDER: usize = 10;
    /// 0 nothing, then the kinds below.
    pub const WORK: usize = 11;
    /// The seven numbers of what is in work; a feed is in thousandths of a pulse per minute.
    pub const NUMBERS: usize = 12;
    /// The root of the block in work: a line's cycles, an arc's cycles of a quarter turn, 0 of nothing.
    pub const ROOT: usize = 19;
    /// The cycles still to do, over the block in work and all that wait.
    pub const LEFT: usize = 20;
    /// How many blocks wait.
    pub const WAITING: usize = 21;
    /// Seven words for each of these, first come first: kind, end, feed, the centre seen from the start, which is 0 0 of a line, and root.
    pub const QUEUE: usize = 22;

    pub const KIND_LINE: i64 = 1;
    pub const KIND_CW: i64 = 2;
    pub const KIND_CCW: i64 = 3;

    /// Of `Known`: 1, 2 or 3, 0 none; and thousandths of a millimetre per minute, 0 to 9,999,999,999, -1 none.
    pub const KNOWN_G: usize = 0;
    pub const KNOWN_F: usize = 1;

    /// Of a check's progress: 0 before the header, 1 at the text lines, 2 over.
    pub const STAGE: usize = 0;
    /// Where the next text line begins, in bytes.
    pub const AT: usize = 1;
    pub const PROGRESS_G: usize = 2;
    pub const PROGRESS_F: usize = 3;
    pub const LINES: usize = 4;
    pub const BLOCKS: usize = 5;
    pub const CYCLES: usize = 6;
    /// The ticks below `TICKS_UNIT`, and how often that: a job can take more than 64 bits hold.
    pub const TICKS: usize = 7;
    pub const TICKS_HIGH: usize = 8;
    pub const TICKS_UNIT: i64 = 1_000_000_000_000_000_000;

    /// Of a check on the panel the words of a progress, but for these: how many bytes the text may still have, in the place of `AT`,
    pub const PANEL_LEFT: usize = 1;
    /// and how many of the line being read the scratch buffer holds.
    pub const PANEL_HELD: usize = 9;
}

// A slice passes as its pointer and its length.
extern "C" {
    fn vz_make(record: *mut i64, p: i64, w: i64, xlo: i64, xhi: i64, ylo: i64, yhi: i64) -> i64;
    fn vz_load_line(record: *mut i64, x: i64, y: i64, feed: i64) -> i64;
    fn vz_load_cw(record: *mut i64, x: i64, y: i64, feed: i64, i: i64, j: i64) -> i64;
    fn vz_load_ccw(record: *mut i64, x: i64, y: i64, feed: i64, i: i64, j: i64) -> i64;
    fn vz_tick(record: *mut i64) -> i64;
    fn vz_run(record: *mut i64, budget: u64, out: *mut u8, length: usize, ticks: *mut u64) -> i64;
    fn vz_hold(record: *mut i64) -> i64;
    fn vz_release(record: *mut i64) -> i64;
    fn vz_stop(record: *mut i64) -> i64;
    fn vz_ahead(record: *const i64, ticks: u64, then: *mut i64, sums: *mut i64) -> i64;
    fn vz_read_line(record: *mut i64, known: *mut i64, line: *const u8, length: usize) -> i64;
    fn vz_check_start(bench: *mut i64, progress: *mut i64, p: i64, w: i64, xlo: i64, xhi: i64, ylo: i64, yhi: i64) -> i64;
    fn vz_check_fill(
        bench: *mut i64,
        progress: *mut i64,
        text: *const u8,
        text_length: usize,
        out: *mut u8,
        out_length: usize,
        written: *mut u64,
    ) -> i64;
    fn vz_panel_start(bench: *mut i64, panel: *mut i64, p: i64, w: i64, xlo: i64, xhi: i64, ylo: i64, yhi: i64) -> i64;
    fn vz_panel_read(
        bench: *mut i64,
        panel: *mut i64,
        scratch: *mut u8,
        scratch_length: usize,
        piece: *const u8,
        piece_length: usize,
        last: i64,
        rows: *mut u8,
        rows_length: usize,
        took: *mut u64,
        written: *mut u64,
    ) -> i64;
}

/// The number of the question that was answered by no.
#[derive(Clone, Copy, PartialEq, Eq, Debug)]
pub struct Refused(pub u32);

/// Pulses per millimetre, ticks per second, and the travel bounds in pulses.
#[derive(Clone, Copy, PartialEq, Eq, Debug)]
pub struct Settings {
    pub p: i64,
    pub w: i64,
    pub x: (i64, i64),
    pub y: (i64, i64),
}

impl Settings {
    /// The greatest feed number of settings that a make takes: a line does a cycle on every tick.
    pub const fn fastest(self) -> i64 {
        60_000 * self.w
    }
}

/// The settings of the check program, and of the machine that a refused make answers.
pub const USUAL: Settings = Settings { p: 50, w: 5_000, x: (-1_000_000, 1_000_000), y: (-1_000_000, 1_000_000) };

#[derive(Clone, Copy, PartialEq, Eq, Debug)]
pub enum Turn {
    Clockwise,
    Counterclockwise,
}

/// A block from where the last one that was loaded ends, or where the machine stands if it is idle: its absolute end in pulses, its feed
/// number in thousandths of a pulse per minute and, for an arc, the centre seen from the start.
///
/// A feed number is thousandths of a millimetre per minute times p. One in whole pulses per minute, as up to `ABI` 3, is not refused: the
/// block runs at a thousandth of the speed.
#[derive(Clone, Copy, PartialEq, Eq, Debug)]
pub enum Block {
    Line { x: i64, y: i64, feed: i64 },
    Arc { turn: Turn, x: i64, y: i64, feed: i64, i: i64, j: i64 },
}

/// What is in work: positions in pulses, the feed in thousandths of a pulse per minute, of a line its cycles and those done, of an arc the
/// square of its radius.
#[derive(Clone, Copy, PartialEq, Eq, Debug)]
pub enum Work {
    Nothing,
    Line { start: (i64, i64), end: (i64, i64), feed: i64, cycles: i64, done: i64 },
    Arc { turn: Turn, centre: (i64, i64), square: i64, end: (i64, i64), feed: i64 },
}

/// Why a run ended.
#[derive(Clone, Copy, PartialEq, Eq, Debug)]
pub enum Why {
    Idle,
    Held,
    Ended,
    Spent,
    Full,
}

/// What a look-ahead gives: the machine so many ticks on, and the sum of the pulses of those ticks on each axis, plus ones less minus ones.
#[derive(Clone, PartialEq, Eq, Debug)]
pub struct Ahead {
    pub then: Machine,
    pub sums: (i64, i64),
}

/// The call's answer, which is not negative, or the number of its refusal, which it tells as a negative one.
fn answered(told: i64) -> Result<i64, Refused> {
    if told < 0 {
        Err(Refused(u32::try_from(-told).expect("a number of the specification")))
    } else {
        Ok(told)
    }
}

/// The G and F that the lines of a job text have made known so far. Any words may stand in it: a line read with words that are none is
/// refused by 9.
#[derive(Clone, PartialEq, Eq, Debug)]
pub struct Known {
    words: [i64; KNOWN_WORDS],
}

impl Known {
    /// As before the first line of a text.
    pub fn none() -> Known {
        Known { words: [0, -1] }
    }

    pub fn from_words(words: [i64; KNOWN_WORDS]) -> Known {
        Known { words }
    }

    pub fn words(&self) -> &[i64; KNOWN_WORDS] {
        &self.words
    }
}

impl Default for Known {
    fn default() -> Known {
        Known::none()
    }
}

/// A machine. Any words may stand in it: a call on words that are no sound record is refused by 9 and leaves them. Two are equal where
/// their records are, whatever stands in the words behind those.
#[derive(Clone, Debug)]
pub struct Machine {
    words: [i64; WORDS],
}

impl PartialEq for Machine {
    fn eq(&self, other: &Machine) -> bool {
        self.record() == other.record()
    }
}

impl Eq for Machine {}

impl Machine {
    /// The machine that a make answers, and the number where it is refused: then it is the fresh one with the usual settings.
    pub fn make(s: Settings) -> (Machine, Result<(), Refused>) {
        let mut words = [0; WORDS];
        // SAFETY: the core writes the words of the record that it is lent, and no others.
        let told = unsafe { vz_make(words.as_mut_ptr(), s.p, s.w, s.x.0, s.x.1, s.y.0, s.y.1) };
        (Machine { words }, answered(told).map(|_| ()))
    }

    pub fn from_words(words: [i64; WORDS]) -> Machine {
        Machine { words }
    }

    /// All words, those behind the record too.
    pub fn words(&self) -> &[i64; WORDS] {
        &self.words
    }

    /// The words of the record alone: so many as there are with those that wait.
    pub fn record(&self) -> &[i64] {
        &self.words[..word::QUEUE + self.places() * BLOCK_WORDS]
    }

    /// How many of the sixteen places are in use, whatever the words say.
    fn places(&self) -> usize {
        self.waiting().clamp(0, MOST_WAITING as i64) as usize
    }

    /// The block comes into work, or waits behind the last one; 10 where sixteen wait. The register width, in bits.
    pub fn load(&mut self, block: Block) -> Result<i64, Refused> {
        let words = self.words.as_mut_ptr();
        // SAFETY: as in make.
        answered(match block {
            Block::Line { x, y, feed } => unsafe { vz_load_line(words, x, y, feed) },
            Block::Arc { turn: Turn::Clockwise, x, y, feed, i, j } => unsafe { vz_load_cw(words, x, y, feed, i, j) },
            Block::Arc { turn: Turn::Counterclockwise, x, y, feed, i, j } => unsafe { vz_load_ccw(words, x, y, feed, i, j) },
        })
    }

    /// One line of a job text, without its LF: the register width of the block that it loaded, none where it made no block. What the line
    /// leaves out is taken from where the last block ends. A refused line leaves the machine and what is known.
    pub fn read_line(&mut self, known: &mut Known, line: &[u8]) -> Result<Option<i64>, Refused> {
        // SAFETY: as in make, for the words of what is known too; the line is lent with its own length.
        let told = unsafe { vz_read_line(self.words.as_mut_ptr(), known.words.as_mut_ptr(), line.as_ptr(), line.len()) };
        answered(told).map(|bits| Some(bits).filter(|&bits| bits > 0))
    }

    /// The tick byte.
    pub fn tick(&mut self) -> Result<u8, Refused> {
        // SAFETY: as in make.
        answered(unsafe { vz_tick(self.words.as_mut_ptr()) }).map(|byte| u8::try_from(byte).expect("a tick byte"))
    }

    /// Why the run ended and how many ticks it did; their bytes stand at the front of the buffer. It ends with the block that was in work,
    /// though the first that waited is in work then.
    pub fn run(&mut self, budget: u64, out: &mut [u8]) -> Result<(Why, u64), Refused> {
        let mut ticks = 0;
        // SAFETY: as in make; the buffer is lent with its own length.
        let told = unsafe { vz_run(self.words.as_mut_ptr(), budget, out.as_mut_ptr(), out.len(), &mut ticks) };
        let why = match answered(told)? {
            0 => Why::Idle,
            1 => Why::Held,
            2 => Why::Ended,
            3 => Why::Spent,
            _ => Why::Full,
        };
        Ok((why, ticks))
    }

    pub fn hold(&mut self) -> Result<(), Refused> {
        // SAFETY: as in make.
        answered(unsafe { vz_hold(self.words.as_mut_ptr()) }).map(|_| ())
    }

    pub fn release(&mut self) -> Result<(), Refused> {
        // SAFETY: as in make.
        answered(unsafe { vz_release(self.words.as_mut_ptr()) }).map(|_| ())
    }

    /// Drops the block in work and all that wait.
    pub fn stop(&mut self) -> Result<(), Refused> {
        // SAFETY: as in make.
        answered(unsafe { vz_stop(self.words.as_mut_ptr()) }).map(|_| ())
    }

    /// Where so many ticks would leave the machine, and what they would send; the machine itself stays as it is, and no tick is done. Ticks
    /// while held or idle change nothing; those after a block's end are of the next one that waits, and change nothing behind the last.
    /// More than `AHEAD_TICKS` are refused by 38, after 9: to look further, look so far and from the machine ahead again.
    ///
    /// ```
    /// use verdaizka::{Block, Machine, Refused, AHEAD_TICKS, USUAL};
    ///
    /// let (mut machine, _) = Machine::make(USUAL);
    /// machine.load(Block::Line { x: 3, y: 4, feed: USUAL.fastest() }).expect("accepted");
    /// let ahead = machine.ahead(2).expect("not too far");
    /// assert_eq!((ahead.sums, ahead.then.position()), ((1, 2), (1, 2)));
    /// assert_eq!(machine.position(), (0, 0));
    ///
    /// let end = ahead.then.ahead(AHEAD_TICKS).expect("not too far");
    /// assert_eq!((end.sums, end.then.position(), end.then.is_busy()), ((2, 2), (3, 4), false));
    ///
    /// assert_eq!(machine.ahead(AHEAD_TICKS + 1), Err(Refused(38)));
    /// ```
    pub fn ahead(&self, ticks: u64) -> Result<Ahead, Refused> {
        let (ahead, answer) = self.ahead_told(ticks);
        answer.map(|()| ahead)
    }

    /// The same with what a refusal gives: the machine as it stands, and sums of 0.
    #[must_use]
    pub fn ahead_told(&self, ticks: u64) -> (Ahead, Result<(), Refused>) {
        // The core writes all of these words; one that it left out would show.
        let (mut then, mut sums) = ([i64::MIN; WORDS], [i64::MIN; 2]);
        // SAFETY: the core reads the words that it is lent, writes as many ahead and the two sums, and no others.
        let told = unsafe { vz_ahead(self.words.as_ptr(), ticks, then.as_mut_ptr(), sums.as_mut_ptr()) };
        (Ahead { then: Machine { words: then }, sums: (sums[0], sums[1]) }, answered(told).map(|_| ()))
    }

    pub fn position(&self) -> (i64, i64) {
        (self.words[word::X], self.words[word::Y])
    }

    pub fn is_held(&self) -> bool {
        self.words[word::HELD] != 0
    }

    /// What the feed has left over, in thousandths of a feed number: of a sound record below 1,414 times the fastest feed.
    pub fn remainder(&self) -> i64 {
        self.words[word::REMAINDER]
    }

    pub fn is_busy(&self) -> bool {
        self.words[word::WORK] != 0
    }

    /// The cycles still to do, over the block in work and all that wait.
    pub fn cycles_left(&self) -> i64 {
        self.words[word::LEFT]
    }

    /// How many blocks wait behind the one in work; of a sound record at most `MOST_WAITING`.
    pub fn waiting(&self) -> i64 {
        self.words[word::WAITING]
    }

    /// The blocks that wait, the first to be cut first, as they were loaded: what the words say, sound or not, a line where they name a
    /// kind that there is none of, and sixteen where they say that more wait.
    ///
    /// ```
    /// use verdaizka::{Block, Machine, USUAL};
    ///
    /// let (mut machine, _) = Machine::make(USUAL);
    /// let feed = USUAL.fastest();
    /// let (there, back) = (Block::Line { x: 3, y: 4, feed }, Block::Line { x: 0, y: 0, feed });
    /// machine.load(there).expect("accepted");
    /// machine.load(back).expect("accepted");
    /// assert_eq!((machine.waiting(), machine.cycles_left()), (1, 10));
    /// assert_eq!(machine.queue().collect::<Vec<_>>(), [back]);
    /// ```
    pub fn queue(&self) -> impl Iterator<Item = Block> + '_ {
        self.record()[word::QUEUE..].chunks_exact(BLOCK_WORDS).map(|words| {
            let (kind, x, y, feed, i, j) = (words[0], words[1], words[2], words[3], words[4], words[5]);
            match kind {
                word::KIND_CW => Block::Arc { turn: Turn::Clockwise, x, y, feed, i, j },
                word::KIND_CCW => Block::Arc { turn: Turn::Counterclockwise, x, y, feed, i, j },
                _ => Block::Line { x, y, feed },
            }
        })
    }

    /// What the words say, sound or not; nothing where they name a kind that there is none of.
    pub fn work(&self) -> Work {
        let mut numbers = [0; word::ROOT - word::NUMBERS];
        numbers.copy_from_slice(&self.words[word::NUMBERS..word::ROOT]);
        let arc = |turn| {
            let [x, y, square, end_x, end_y, feed, _] = numbers;
            Work::Arc { turn, centre: (x, y), square, end: (end_x, end_y), feed }
        };
        match self.words[word::WORK] {
            word::KIND_LINE => {
                let [x, y, end_x, end_y, feed, cycles, done] = numbers;
                Work::Line { start: (x, y), end: (end_x, end_y), feed, cycles, done }
            }
            word::KIND_CW => arc(Turn::Clockwise),
            word::KIND_CCW => arc(Turn::Counterclockwise),
            _ => Work::Nothing,
        }
    }
}

/// The check of a job text, whose listing it hands out piece by piece: the record of the bench that the job would run on, where each block
/// is loaded once the one before has ended, and how far it has come. Any words may stand in it: a fill of words that are no check is
/// refused by 9 and leaves them.
#[derive(Clone, PartialEq, Eq, Debug)]
pub struct Check {
    bench: [i64; BENCH_WORDS],
    progress: [i64; PROGRESS_WORDS],
}

impl Check {
    /// The check of a job at a fresh machine with these settings, and the number where they are refused, as a make answers them.
    pub fn start(s: Settings) -> (Check, Result<(), Refused>) {
        let (mut bench, mut progress) = ([0; BENCH_WORDS], [0; PROGRESS_WORDS]);
        let (record, way) = (bench.as_mut_ptr(), progress.as_mut_ptr());
        // SAFETY: the core writes the words of the record and of the progress that it is lent, and no others.
        let told = unsafe { vz_check_start(record, way, s.p, s.w, s.x.0, s.x.1, s.y.0, s.y.1) };
        (Check { bench, progress }, answered(told).map(|_| ()))
    }

    pub fn from_words(bench: [i64; BENCH_WORDS], progress: [i64; PROGRESS_WORDS]) -> Check {
        Check { bench, progress }
    }

    /// The words of its bench's record, where the last block ended: as the first of a machine's.
    pub fn bench(&self) -> &[i64; BENCH_WORDS] {
        &self.bench
    }

    /// The words of how far it has come.
    pub fn progress(&self) -> &[i64; PROGRESS_WORDS] {
        &self.progress
    }

    /// The ticks of the blocks so far, as its two words say it, sound or not.
    pub fn ticks(&self) -> i128 {
        ticks_of(&self.progress)
    }

    /// How many bytes of the listing stand at the front of the buffer, and whether they were the last. The text is the whole one, the
    /// same at each fill; a buffer of less than `ROW_BYTES` gets none.
    pub fn fill(&mut self, text: &[u8], out: &mut [u8]) -> Result<(usize, bool), Refused> {
        let mut written = 0;
        let (record, way) = (self.bench.as_mut_ptr(), self.progress.as_mut_ptr());
        // SAFETY: as in start; the text and the buffer are lent with their own lengths.
        let told = unsafe { vz_check_fill(record, way, text.as_ptr(), text.len(), out.as_mut_ptr(), out.len(), &mut written) };
        let over = answered(told)? == 1;
        Ok((usize::try_from(written).expect("a length"), over))
    }
}

/// The ticks that two words of a progress, or of a check on the panel, say.
fn ticks_of(words: &[i64]) -> i128 {
    let [low, high] = [word::TICKS, word::TICKS_HIGH].map(|at| i128::from(words[at]));
    high * i128::from(word::TICKS_UNIT) + low
}

/// Whether a listing goes on after a read.
#[derive(Clone, Copy, PartialEq, Eq, Debug)]
pub enum Told {
    More,
    /// The last row, a total or a refused line, was written by this read or an earlier one.
    Over,
    /// Less than `SCRATCH_BYTES` or `ROW_BYTES` of room: nothing was done.
    Short,
}

/// What a read did: how many bytes it took off the front of the piece, how many of a row stand at the front of the rows, and what follows.
#[derive(Clone, Copy, PartialEq, Eq, Debug)]
pub struct PieceRead {
    pub took: usize,
    pub written: usize,
    pub told: Told,
}

/// The check of a job text that comes in pieces and is never held: the bench, as in a `Check`, and how far it has come. The caller keeps a
/// scratch buffer beside it. Any words may stand in it: a read of words that are no check is refused by 9 and leaves them.
#[derive(Clone, PartialEq, Eq, Debug)]
pub struct PanelCheck {
    bench: [i64; BENCH_WORDS],
    panel: [i64; PANEL_WORDS],
}

impl PanelCheck {
    /// The check of a job at a fresh machine with these settings, and the number where they are refused, as a make answers them.
    pub fn start(s: Settings) -> (PanelCheck, Result<(), Refused>) {
        let (mut bench, mut panel) = ([0; BENCH_WORDS], [0; PANEL_WORDS]);
        // SAFETY: the core writes the words of the record and of the panel that it is lent, and no others.
        let told = unsafe { vz_panel_start(bench.as_mut_ptr(), panel.as_mut_ptr(), s.p, s.w, s.x.0, s.x.1, s.y.0, s.y.1) };
        (PanelCheck { bench, panel }, answered(told).map(|_| ()))
    }

    pub fn from_words(bench: [i64; BENCH_WORDS], panel: [i64; PANEL_WORDS]) -> PanelCheck {
        PanelCheck { bench, panel }
    }

    /// The words of its bench's record, where the last block ended: as the first of a machine's.
    pub fn bench(&self) -> &[i64; BENCH_WORDS] {
        &self.bench
    }

    /// The words of how far it has come.
    pub fn panel(&self) -> &[i64; PANEL_WORDS] {
        &self.panel
    }

    /// The ticks of the blocks so far, as its two words say it, sound or not.
    pub fn ticks(&self) -> i128 {
        ticks_of(&self.panel)
    }

    /// How many bytes of the line being read stand at the front of the scratch buffer, as its word says it, sound or not. No answer depends
    /// on the bytes behind them.
    pub fn held(&self) -> i64 {
        self.panel[word::PANEL_HELD]
    }

    /// Writes the header, or takes bytes of the piece up to the end of a line, of the piece or of what a text may have, and writes the row
    /// that this completes, if there is one. What it did not take comes again at the front of the next piece; the text ends with the piece
    /// that is the last one. The scratch buffer stays as it is between two reads.
    ///
    /// ```
    /// use verdaizka::{PanelCheck, Told, ROW_BYTES, SCRATCH_BYTES, USUAL};
    ///
    /// let (mut check, _) = PanelCheck::start(USUAL);
    /// let (mut scratch, mut rows, mut listing) = ([0; SCRATCH_BYTES], [0; ROW_BYTES], Vec::new());
    /// let mut pieces = [b"G1 X1".as_slice(), b"0 F300\nX", b"0\n"].into_iter();
    /// let mut piece = b"".as_slice();
    /// loop {
    ///     if piece.is_empty() {
    ///         piece = pieces.next().unwrap_or(b"");
    ///     }
    ///     let done = check.read(&mut scratch, piece, piece.is_empty(), &mut rows).expect("a check");
    ///     piece = &piece[done.took..];
    ///     listing.extend_from_slice(&rows[..done.written]);
    ///     if done.told == Told::Over {
    ///         break;
    ///     }
    /// }
    /// assert_eq!(listing, b"block line kind cycles x y bits\n1 1 L 500 500 0 9\n2 2 L 500 0 0 9\ntotal 2 1000 20000\n");
    /// ```
    pub fn read(&mut self, scratch: &mut [u8], piece: &[u8], last: bool, rows: &mut [u8]) -> Result<PieceRead, Refused> {
        let (mut took, mut written) = (0, 0);
        // SAFETY: as in start; the scratch buffer, the piece and the rows are lent with their own lengths.
        let told = unsafe {
            vz_panel_read(
                self.bench.as_mut_ptr(),
                self.panel.as_mut_ptr(),
                scratch.as_mut_ptr(),
                scratch.len(),
                piece.as_ptr(),
                piece.len(),
                i64::from(last),
                rows.as_mut_ptr(),
                rows.len(),
                &mut took,
                &mut written,
            )
        };
        let told = match answered(told)? {
            0 => Told::More,
            1 => Told::Over,
            _ => Told::Short,
        };
        let [took, written] = [took, written].map(|count| usize::try_from(count).expect("a length"));
        Ok(PieceRead { took, written, told })
    }
}
