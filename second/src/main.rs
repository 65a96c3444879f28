//! A second opinion on the pulse core, written from the words of documents 01 and 02 alone. See README.md.

mod ahead;
mod arc;
mod book;
mod calls;
mod charge;
mod circles;
mod crc;
#[cfg(test)]
mod demand3;
mod fields;
mod gen;
mod gen_jobs;
mod gen_long;
mod job;
mod line;
mod listing;
mod machine;
mod panel;
mod place;
mod point;
mod rng;
mod root;
mod settings;
mod sound;
mod stream;
#[cfg(test)]
mod units;
mod words;

use std::fs::{self, File};
use std::io::{self, BufRead, BufReader, BufWriter, Read, Write};
use std::path::Path;
use std::process::ExitCode;

use calls::{Left, Told};
use fields::Fields;
use listing::Pace;
use settings::{Settings, USUAL};

const USAGE: &str = "\
second check [AT] [FILE]             job text to its listing
second check-slow [AT] [FILE]        the same, every tick ticked
second panel [AT] [FILE]             job text to the listing of the panel, which has 30 last
second ticks MOST [AT] [FILE]        the tick bytes of a job text, at most so many
second where TICKS [AT] [FILE]       where a job stands after so many ticks, as the row of jobwhere
second checks [FILE]                 a stream of jobs to their `%job` lines, listings and what they leave
second calls [--records] [FILE]      call file to call file with answers, and with the whole record after each
second gen calls SEED COUNT          so many histories
second gen jobs SEED COUNT [DIR]     so many job texts, as a stream or as files DIR/INDEX.txt
second gen job SEED INDEX            the one job text of that number
second gen jobs-at SEED COUNT        as a stream, each with settings of its own
second gen job-at SEED INDEX         the one of that number, as a stream
second gen long SEED COUNT [DIR]     texts about as long as one may be, as a stream or as files
second circles MAXN [totals]         all arcs of all circles to MAXN
AT is --at P W XLO XHI YLO YHI, the settings; without it p 50, w 5,000 and the widest travel";

enum Failure {
    Usage,
    Told(String),
}

impl From<io::Error> for Failure {
    fn from(error: io::Error) -> Failure {
        Failure::Told(error.to_string())
    }
}

impl From<Left> for Failure {
    fn from(left: Left) -> Failure {
        Failure::Told(left.to_string())
    }
}

fn main() -> ExitCode {
    let arguments: Vec<String> = std::env::args_os().skip(1).map(|argument| argument.to_string_lossy().into_owned()).collect();
    let arguments: Vec<&str> = arguments.iter().map(String::as_str).collect();
    let mut out = BufWriter::new(io::stdout().lock());
    let done = run(&arguments, &mut out);
    let flushed = out.flush();
    let told = match (done, flushed) {
        (Ok(()), Ok(())) => return ExitCode::SUCCESS,
        (Err(Failure::Usage), _) => USAGE.to_string(),
        (Err(Failure::Told(why)), _) => why,
        (Ok(()), Err(error)) => error.to_string(),
    };
    // Where standard error is closed too there is nobody left to tell.
    let _ = writeln!(io::stderr(), "second: {told}");
    ExitCode::from(2)
}

fn run(arguments: &[&str], out: &mut impl Write) -> Result<(), Failure> {
    match *arguments {
        ["check", ref rest @ ..] => check(rest, Pace::AtOnce, out),
        ["check-slow", ref rest @ ..] => check(rest, Pace::TickByTick, out),
        ["panel", ref rest @ ..] => {
            let (settings, file) = at(rest)?;
            Ok(panel::list(&all_of(file)?, &settings, out)?)
        }
        ["ticks", most, ref rest @ ..] => {
            let (settings, file) = at(rest)?;
            Ok(listing::ticks(&all_of(file)?, &settings, number(most)?, out)?)
        }
        ["where", ticks, ref rest @ ..] => {
            let (settings, file) = at(rest)?;
            Ok(writeln!(out, "{}", place::after(&all_of(file)?, &settings, number(ticks)?))?)
        }
        ["checks", ref file @ ..] => Ok(stream::check_all(&all_of(file)?, out)?),
        ["calls", "--records", ref file @ ..] => Ok(calls::answer_file(&mut opened(file)?, Told::Records, out)?),
        ["calls", ref file @ ..] => Ok(calls::answer_file(&mut opened(file)?, Told::Answers, out)?),
        ["gen", "calls", seed, count] => Ok(gen::write_calls(number(seed)?, number(count)?, out)?),
        ["gen", "jobs", seed, count] => Ok(gen_jobs::write_jobs(number(seed)?, number(count)?, out)?),
        ["gen", "jobs", seed, count, directory] => {
            let seed = number(seed)?;
            files(number(count)?, |index| gen_jobs::job(seed, index), Path::new(directory))
        }
        ["gen", "job", seed, index] => Ok(out.write_all(&gen_jobs::job(number(seed)?, number(index)?))?),
        ["gen", "jobs-at", seed, count] => Ok(gen_jobs::write_jobs_at(number(seed)?, 0..number(count)?, out)?),
        ["gen", "job-at", seed, index] => {
            let index = number(index)?;
            Ok(gen_jobs::write_jobs_at(number(seed)?, index..index.saturating_add(1), out)?)
        }
        ["gen", "long", seed, count] => Ok(gen_long::write_texts(number(seed)?, number(count)?, out)?),
        ["gen", "long", seed, count, directory] => {
            let seed = number(seed)?;
            files(number(count)?, |index| gen_long::text(seed, index), Path::new(directory))
        }
        ["circles", most] => Ok(circles::write_all(largest_n(most)?, out)?),
        ["circles", most, "totals"] => Ok(circles::write_totals(largest_n(most)?, out)?),
        _ => Err(Failure::Usage),
    }
}

fn check(rest: &[&str], pace: Pace, out: &mut impl Write) -> Result<(), Failure> {
    let (settings, file) = at(rest)?;
    listing::check(&all_of(file)?, &settings, pace, out)?;
    Ok(())
}

/// The settings that `--at` gives, the usual ones where it does not stand, and the words after them.
fn at<'a>(rest: &'a [&'a str]) -> Result<(Settings, &'a [&'a str]), Failure> {
    match rest {
        ["--at", p, w, xlo, xhi, ylo, yhi, file @ ..] => {
            let words = [*p, *w, *xlo, *xhi, *ylo, *yhi].join(" ");
            let mut fields = Fields::of(&words);
            let settings = fields.settings().filter(|_| fields.end().is_some()).ok_or(Failure::Usage)?;
            Ok((settings, file))
        }
        _ => Ok((USUAL, rest)),
    }
}

fn number(text: &str) -> Result<u64, Failure> {
    text.parse().map_err(|_| Failure::Usage)
}

/// A million is more than anybody would wait for.
fn largest_n(text: &str) -> Result<i64, Failure> {
    text.parse().ok().filter(|n| (0..=1_000_000).contains(n)).ok_or(Failure::Usage)
}

fn opened(file: &[&str]) -> Result<Box<dyn BufRead>, Failure> {
    match *file {
        [] => Ok(Box::new(io::stdin().lock())),
        [name] => {
            let file = File::open(name).map_err(|error| Failure::Told(format!("{name}: {error}")))?;
            Ok(Box::new(BufReader::new(file)))
        }
        _ => Err(Failure::Usage),
    }
}

fn all_of(file: &[&str]) -> Result<Vec<u8>, Failure> {
    let mut text = Vec::new();
    opened(file)?.read_to_end(&mut text)?;
    Ok(text)
}

fn files(count: u64, text: impl Fn(u64) -> Vec<u8>, directory: &Path) -> Result<(), Failure> {
    fs::create_dir_all(directory)?;
    for index in 0..count {
        fs::write(directory.join(format!("{index:06}.txt")), text(index))?;
    }
    Ok(())
}
