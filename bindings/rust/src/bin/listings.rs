//! A stream of jobs on standard input to their listings, as `second checks` writes them (second/README.md), by the wrapper's check: at the
//! settings of each job and through small buffers of all sizes, so that the listing comes in many pieces. Exit status 2 where the
//! stream, the reading or the writing is at fault, or a fill is not what it should be.

use std::io::{self, BufWriter, Read, Write};
use std::process::ExitCode;
use verdaizka::fields::{is_of, record_told, Fields};
use verdaizka::{word, Check, Machine, Refused, Settings, BENCH_WORDS, ROW_BYTES, USUAL, WORDS};

/// Less room gets no row.
const LEAST: usize = ROW_BYTES;
const MOST: usize = 400;

/// Of what a fill does not write every byte stays this one.
const UNTOUCHED: u8 = 0xA5;

struct Job<'a> {
    head: &'a str,
    settings: Settings,
    text: &'a [u8],
}

/// The first job of a stream, and what stands after it.
fn first(stream: &[u8]) -> Option<(Job<'_>, &[u8])> {
    let lf = stream.iter().position(|&byte| byte == b'\n')?;
    let head = std::str::from_utf8(&stream[..lf]).ok()?;
    let mut fields = Fields::of(head.strip_prefix("%job ")?);
    let (_, length) = (fields.u64()?, usize::try_from(fields.u64()?).ok()?);
    let settings = if fields.clone().word().is_some() { fields.settings()? } else { USUAL };
    fields.end()?;
    let (text, after) = stream[lf + 1..].split_at_checked(length)?;
    Some((Job { head, settings, text }, after.strip_prefix(b"\n")?))
}

fn wrong(what: &str) -> io::Error {
    io::Error::other(what)
}

/// One piece: how many bytes, and whether it is the last. The check's words are taken out and brought back, as a caller may do.
fn fill(check: &mut Check, text: &[u8], out: &mut [u8]) -> io::Result<(usize, bool)> {
    out.fill(UNTOUCHED);
    *check = Check::from_words(*check.bench(), *check.progress());
    let (written, over) = check.fill(text, out).map_err(|Refused(number)| wrong(&format!("a fill is refused by {number}")))?;
    match out.get(written..) {
        Some(rest) if rest.iter().all(|&byte| byte == UNTOUCHED) => Ok((written, over)),
        _ => Err(wrong("a byte past those written was changed")),
    }
}

/// The listing in pieces of sizes that go round from LEAST to MOST.
fn list(check: &mut Check, text: &[u8], sizes: &mut impl Iterator<Item = usize>, out: &mut impl Write) -> io::Result<()> {
    let mut room = [0; MOST];
    for size in sizes {
        let (written, over) = fill(check, text, &mut room[..size])?;
        out.write_all(&room[..written])?;
        if over {
            break;
        }
        if written == 0 {
            return Err(wrong(&format!("no byte of a listing in a buffer of {size}")));
        }
    }
    match fill(check, text, &mut room)? {
        (0, true) => Ok(()),
        _ => Err(wrong("a listing goes on after its last piece")),
    }
}

/// What the job leaves: `= RECORD known G F done BLOCKS CYCLES TICKS`, F in thousandths of a millimetre per minute. A check's bench is idle
/// between two rows: nothing waits, and no cycle is to do.
fn write_end(check: &Check, out: &mut impl Write) -> io::Result<()> {
    let mut words = [0; WORDS];
    words[..BENCH_WORDS].copy_from_slice(check.bench());
    let machine = Machine::from_words(words);
    let record = record_told(&machine);
    if !is_of(&record, &machine) {
        return Err(wrong(&format!("{:?} are not the words of {record}", machine.words())));
    }
    let of = |at: usize| check.progress()[at];
    let (g, f) = (of(word::PROGRESS_G), of(word::PROGRESS_F));
    writeln!(out, "= {record} known {g} {f} done {} {} {}", of(word::BLOCKS), of(word::CYCLES), check.ticks())
}

fn list_all(stream: &[u8], out: &mut impl Write) -> io::Result<()> {
    // 37 and the number of sizes share no divisor, so every size has its turn.
    let mut sizes = (0..).map(|at| LEAST + at * 37 % (MOST - LEAST + 1));
    let mut rest = stream;
    while !rest.is_empty() {
        let (job, after) = first(rest).ok_or_else(|| wrong("not a stream of jobs, or cut short"))?;
        writeln!(out, "{}", job.head)?;
        let (mut check, started) = Check::start(job.settings);
        if let Err(Refused(number)) = started {
            writeln!(out, "settings refused {number}")?;
        }
        list(&mut check, job.text, &mut sizes, out).map_err(|error| wrong(&format!("{}: {error}", job.head)))?;
        write_end(&check, out)?;
        rest = after;
    }
    Ok(())
}

fn main() -> ExitCode {
    let mut stream = Vec::new();
    let mut out = BufWriter::new(io::stdout().lock());
    let listed = io::stdin().lock().read_to_end(&mut stream).and_then(|_| list_all(&stream, &mut out));
    let flushed = out.flush();
    match listed.and(flushed) {
        Ok(()) => ExitCode::SUCCESS,
        Err(error) => {
            eprintln!("listings: {error}");
            ExitCode::from(2)
        }
    }
}
