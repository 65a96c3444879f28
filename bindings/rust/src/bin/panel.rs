//! The listing of a job text by the wrapper's check on the panel, which never holds it: `panel PIECE` reads standard input in pieces of so
//! many bytes, `panel random SEED` in pieces of 0 to 300 bytes, whose lengths this number makes up. Only the listing goes to standard
//! output. Exit status 2 where the words are no such command, the reading or the writing is at fault, or a read is not what it should be.

use std::io::{self, BufWriter, Read, Write};
use std::process::ExitCode;
use verdaizka::{descriptors, PanelCheck, PieceRead, Refused, Told, ROW_BYTES, SCRATCH_BYTES, USUAL};

/// The longest of the pieces that are made up.
const LONGEST: u64 = 300;

/// So many reads that bring a byte or the end of the text are enough for every text.
const MOST_READS: u32 = 131_074;

/// Of what a read does not write every byte stays this one.
const UNTOUCHED: u8 = 0xA5;

/// How long the next piece is.
enum Lengths {
    Same(usize),
    MadeUp(u64),
}

impl Lengths {
    fn of(arguments: &[String]) -> Option<Lengths> {
        match arguments {
            [piece] => piece.parse().ok().filter(|&piece| piece > 0).map(Lengths::Same),
            [word, seed] if word == "random" => seed.parse().ok().map(Lengths::MadeUp),
            _ => None,
        }
    }

    fn next(&mut self) -> usize {
        match self {
            Lengths::Same(length) => *length,
            Lengths::MadeUp(state) => {
                *state = state.wrapping_mul(6_364_136_223_846_793_005).wrapping_add(1_442_695_040_888_963_407);
                ((*state >> 33) % (LONGEST + 1)) as usize
            }
        }
    }
}

fn wrong(what: &str) -> io::Error {
    io::Error::other(what)
}

/// One read. Before it the check's words are taken out and brought back, as a caller may do, and all that is free becomes something else.
fn read(check: &mut PanelCheck, scratch: &mut [u8], piece: &[u8], last: bool, rows: &mut [u8]) -> io::Result<PieceRead> {
    *check = PanelCheck::from_words(*check.bench(), *check.panel());
    let held = usize::try_from(check.held()).ok().and_then(|held| scratch.get_mut(held..));
    held.ok_or_else(|| wrong("more is held than the scratch buffer has"))?.fill(UNTOUCHED);
    rows.fill(UNTOUCHED);
    let done = check.read(scratch, piece, last, rows).map_err(|Refused(number)| wrong(&format!("a read is refused by {number}")))?;
    match rows.get(done.written..) {
        Some(rest) if rest.iter().all(|&byte| byte == UNTOUCHED) => Ok(done),
        _ => Err(wrong("a byte past those written was changed")),
    }
}

/// The listing row by row. What a read did not take of a piece comes again before the next one.
fn list(text: &[u8], mut lengths: Lengths, out: &mut impl Write) -> io::Result<()> {
    let (mut scratch, mut rows) = ([0; SCRATCH_BYTES], [0; ROW_BYTES]);
    let (mut check, started) = PanelCheck::start(USUAL);
    started.map_err(|Refused(number)| wrong(&format!("a start is refused by {number}")))?;
    let (mut at, mut end, mut reads) = (0, 0, 0);
    while reads < MOST_READS {
        if at == end {
            end = text.len().min(lengths.next().saturating_add(at));
        }
        let (piece, last) = (&text[at..end], end == text.len());
        reads += u32::from(last || !piece.is_empty());
        let done = read(&mut check, &mut scratch, piece, last, &mut rows)?;
        out.write_all(&rows[..done.written])?;
        at += done.took;
        match done.told {
            Told::More => {}
            Told::Over => return Ok(()),
            Told::Short => return Err(wrong("a read has too little room")),
        }
    }
    Err(wrong(&format!("a listing that is not over after {MOST_READS} reads")))
}

fn run(lengths: Lengths) -> io::Result<()> {
    descriptors::are_open()?;
    let mut text = Vec::new();
    io::stdin().lock().read_to_end(&mut text)?;
    let mut out = BufWriter::new(io::stdout().lock());
    let listed = list(&text, lengths, &mut out);
    listed.and(out.flush())
}

fn main() -> ExitCode {
    let arguments: Vec<String> = std::env::args_os().skip(1).map(|word| word.to_string_lossy().into_owned()).collect();
    let ran = match Lengths::of(&arguments) {
        Some(lengths) => run(lengths).map_err(|error| format!("panel: {error}")),
        None => Err("usage: panel PIECE | panel random SEED, of which PIECE is at least 1".to_string()),
    };
    match ran {
        Ok(()) => ExitCode::SUCCESS,
        Err(told) => {
            // Where standard error takes nothing there is nobody left to tell.
            let _ = writeln!(io::stderr(), "{told}");
            ExitCode::from(2)
        }
    }
}
