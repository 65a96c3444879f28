//! The blocks of a job, as the core reads them: what a picture needs and the listing does not tell.
//!
//! Reads a job on standard input and writes a row for each block, up to the end of the text or the refused line, `NUMBER LINE KIND X Y CX
//! CY`: its number and text line as in the listing; 1 for a line, 2 for an arc clockwise, 3 for one counterclockwise; its end; an arc's
//! centre, for a line 0 0. Positions are in pulses. Exit status: 0, or 2 where the job cannot be read, the rows cannot be written or an
//! argument is given.

use std::io::{self, BufWriter, Read, Write};
use std::process::ExitCode;
use verdaizka::{descriptors, Block, Known, Machine, Refused, Turn, Why, Work, USUAL};

const LONGEST_TEXT: usize = 65_536;
const FASTEST: i64 = USUAL.fastest();

/// What is in work, as a row tells it and as a load takes it from where the machine stands: at the fastest feed, since where a block goes
/// does not hang on its feed.
struct Told {
    kind: u8,
    end: (i64, i64),
    centre: (i64, i64),
    block: Block,
}

fn told(machine: &Machine) -> Option<Told> {
    let start = machine.position();
    match machine.work() {
        Work::Nothing => None,
        Work::Line { end, .. } => Some(Told { kind: 1, end, centre: (0, 0), block: Block::Line { x: end.0, y: end.1, feed: FASTEST } }),
        Work::Arc { turn, centre, end, .. } => {
            let kind = if turn == Turn::Clockwise { 2 } else { 3 };
            let block = Block::Arc { turn, x: end.0, y: end.1, feed: FASTEST, i: centre.0 - start.0, j: centre.1 - start.1 };
            Some(Told { kind, end, centre, block })
        }
    }
}

/// Drops what is in work and runs this block in its place, to its end.
fn run_to_end(machine: &mut Machine, block: Block, ticks: &mut [u8]) -> Result<(), Refused> {
    machine.stop()?;
    machine.load(block)?;
    while machine.run(u64::MAX, ticks)?.0 == Why::Full {}
    Ok(())
}

fn write_rows(text: &[u8], out: &mut impl Write) -> io::Result<()> {
    let (mut machine, mut known, mut ticks) = (Machine::make(USUAL).0, Known::none(), vec![0; 1 << 16]);
    let mut number = 0;
    for (line, words) in text.strip_suffix(b"\n").unwrap_or(text).split(|&byte| byte == b'\n').enumerate() {
        // Which line is refused, and by which number, the listing tells.
        if machine.read_line(&mut known, words).is_err() {
            break;
        }
        let Some(Told { kind, end, centre, block }) = told(&machine) else { continue };
        number += 1;
        writeln!(out, "{number} {} {kind} {} {} {} {}", line + 1, end.0, end.1, centre.0, centre.1)?;
        run_to_end(&mut machine, block, &mut ticks).expect("a block that was accepted at another feed");
    }
    Ok(())
}

fn run() -> io::Result<()> {
    if std::env::args_os().len() > 1 {
        return Err(io::Error::other("it takes no argument: the job comes on standard input"));
    }
    descriptors::are_open()?;
    let mut text = Vec::new();
    // A byte more than a text may have, so that a longer one is seen to be longer: it has no blocks.
    io::stdin().lock().take(LONGEST_TEXT as u64 + 1).read_to_end(&mut text)?;
    let mut out = BufWriter::new(io::stdout().lock());
    if text.len() <= LONGEST_TEXT {
        write_rows(&text, &mut out)?;
    }
    out.flush()
}

fn main() -> ExitCode {
    match run() {
        Ok(()) => ExitCode::SUCCESS,
        Err(error) => {
            // Where standard error takes nothing there is nobody left to tell.
            let _ = writeln!(io::stderr(), "blocks: {error}");
            ExitCode::from(2)
        }
    }
}
