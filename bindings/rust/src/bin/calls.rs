//! The runner of call files (`docs/CALL-FILES.md`): every line is written anew, each `>` line followed by the core's answer.
//!
//! `calls [--records]` reads standard input. With `--records` a line `= RECORD` stands after each answer, and every word of the core's
//! record is compared with it; of a record ahead every word is compared in any case, and so are the words that a call is to leave as they
//! are: all where it is refused, else those behind the record. Exit status 2, with what was answered so far: a line that is no call, a run
//! that asks for more memory than there is, and reading or writing that failed; standard error has the line and why. Also where standard
//! input or output is closed.

use std::fmt;
use std::io::{self, BufRead, BufWriter, Write};
use std::process::ExitCode;
use verdaizka::crc::Crc;
use verdaizka::fields::{is_of, record_told, Fields};
use verdaizka::{descriptors, word, Ahead, Block, Known, Machine, Refused, Settings, Why, USUAL, WORDS};

/// The longest buffer that a run is lent, in bytes: a system that promises more memory than it has would end the runner unheard.
const LONGEST_BUFFER: usize = 1 << 30;

/// What stands in the words behind a record when a machine is made or set: no answer depends on it, so that any number will do.
const UNUSED: i64 = -7_777_777_777;

enum Call<'a> {
    Make(Settings),
    /// With its words as they stand in the line where some are numbers that no word of the core's record holds.
    Record(Box<Machine>, Option<&'a str>),
    Load(Block),
    Tick,
    Hold,
    Release,
    Stop,
    Run {
        budget: u64,
        length: u64,
        fill: u8,
    },
    Text(&'a [u8]),
    Ahead(u64),
    /// A look-ahead, after which the runner goes on with the machine ahead.
    Jump(u64),
}

impl<'a> Call<'a> {
    fn of_line(line: &'a [u8]) -> Option<Call<'a>> {
        let call = std::str::from_utf8(line).ok()?.strip_prefix("> ")?;
        // All that follows the blank is the line, blanks at its end too.
        if let Some(text) = call.strip_prefix("text ") {
            return text.bytes().all(|byte| (32..=126).contains(&byte)).then_some(Call::Text(text.as_bytes()));
        }
        let mut fields = Fields::of(call);
        let made = match fields.word()? {
            "make" => Call::Make(fields.settings()?),
            "record" => {
                let machine = fields.record()?;
                Call::Record(Box::new(machine), call.strip_prefix("record ").filter(|_| fields.is_beyond()))
            }
            "load" => Call::Load(fields.block()?),
            "tick" => Call::Tick,
            "hold" => Call::Hold,
            "release" => Call::Release,
            "stop" => Call::Stop,
            "run" => Call::Run { budget: fields.u64()?, length: fields.u64()?, fill: u8::try_from(fields.u64()?).ok()? },
            "ahead" => Call::Ahead(fields.u64()?),
            "jump" => Call::Jump(fields.u64()?),
            _ => return None,
        };
        fields.end()?;
        Some(made)
    }
}

/// Why a file was left.
enum Left {
    NoCall,
    Undone(String),
    Io(io::Error),
}

impl From<io::Error> for Left {
    fn from(error: io::Error) -> Left {
        Left::Io(error)
    }
}

impl fmt::Display for Left {
    fn fmt(&self, out: &mut fmt::Formatter) -> fmt::Result {
        match self {
            Left::NoCall => write!(out, " is no call"),
            Left::Undone(why) => write!(out, ": {why}"),
            Left::Io(error) => write!(out, ": {error}"),
        }
    }
}

/// The machine of a file, and the G and F known beside it.
struct Runner {
    machine: Machine,
    known: Known,
    /// A record made up with numbers that its words cannot hold is told as it was set, and stays refused.
    made_up: Option<String>,
}

impl Runner {
    fn of(machine: Machine) -> Runner {
        let mut words = [UNUSED; WORDS];
        let record = machine.record();
        words[..record.len()].copy_from_slice(record);
        Runner { machine: Machine::from_words(words), known: Known::none(), made_up: None }
    }

    /// The answer or the number of its refusal; or why the call cannot be done here, or has written where it should not.
    fn call(&mut self, call: Call) -> Result<Result<String, Refused>, Left> {
        let (makes_anew, looks) = (matches!(call, Call::Make(_) | Call::Record(..) | Call::Jump(_)), matches!(call, Call::Ahead(_)));
        let before = *self.machine.words();
        let told = self.done(call)?;
        let written = if looks || told.is_err() { 0 } else { self.machine.record().len() };
        if !makes_anew && self.machine.words()[written..] != before[written..] {
            return Err(Left::Undone("a word that the call should leave was changed".to_string()));
        }
        Ok(told)
    }

    fn done(&mut self, call: Call) -> Result<Result<String, Refused>, Left> {
        let done = |answer: Result<(), Refused>| answer.map(|()| "done".to_string());
        Ok(match call {
            Call::Make(settings) => {
                let (machine, made) = Machine::make(settings);
                *self = Runner::of(machine);
                made.map(|()| "made".to_string())
            }
            Call::Record(machine, made_up) => {
                *self = Runner { made_up: made_up.map(str::to_string), ..Runner::of(*machine) };
                Ok("set".to_string())
            }
            Call::Load(block) => self.machine.load(block).map(|bits| format!("bits {bits}")),
            Call::Tick => self.machine.tick().map(|byte| format!("byte {byte}")),
            Call::Hold => done(self.machine.hold()),
            Call::Release => done(self.machine.release()),
            Call::Stop => done(self.machine.stop()),
            Call::Run { budget, length, fill } => self.run(budget, &mut lent(length, fill)?, fill)?,
            Call::Text(line) => {
                let read = self.machine.read_line(&mut self.known, line);
                read.map(|bits| bits.map_or("none".to_string(), |bits| format!("bits {bits}")))
            }
            Call::Ahead(ticks) => Ok(self.look(ticks)?.0),
            Call::Jump(ticks) => {
                let (told, then) = self.look(ticks)?;
                self.machine = then;
                Ok(told)
            }
        })
    }

    /// What a look tells, a refused one with its record and sums too, and the machine ahead.
    fn look(&self, ticks: u64) -> Result<(String, Machine), Left> {
        let (Ahead { then, sums: (x, y) }, answer) = self.machine.ahead_told(ticks);
        let word = answer.map_or_else(refusal_told, |()| "ahead".to_string());
        let record = self.record_told(&then);
        compared(&record, &then)?;
        Ok((format!("{word} {x} {y} {}", state_of(&record)), then))
    }

    fn run(&mut self, budget: u64, out: &mut [u8], fill: u8) -> Result<Result<String, Refused>, Left> {
        let told = self.machine.run(budget, out);
        let ticks = told.map_or(0, |(_, ticks)| ticks);
        let bytes = usize::try_from(ticks).ok().and_then(|ticks| out.split_at_checked(ticks));
        let (done, rest) = bytes.ok_or_else(|| Left::Undone(format!("{ticks} ticks in a buffer of {}", out.len())))?;
        if rest.iter().any(|&byte| byte != fill) {
            return Err(Left::Undone("a byte past the ticks was changed".to_string()));
        }
        Ok(told.map(|(why, _)| format!("{} {ticks} {}", why_told(why), bytes_told(done))))
    }

    /// The record of the runner's machine, or of the one ahead of it: a made-up record is refused, so that both are one.
    fn record_told(&self, machine: &Machine) -> String {
        self.made_up.clone().unwrap_or_else(|| record_told(machine))
    }
}

fn refusal_told(Refused(number): Refused) -> String {
    format!("refused {number}")
}

fn why_told(why: Why) -> &'static str {
    match why {
        Why::Idle => "idle",
        Why::Held => "held",
        Why::Ended => "ended",
        Why::Spent => "spent",
        Why::Full => "full",
    }
}

fn lent(length: u64, fill: u8) -> Result<Vec<u8>, Left> {
    let fits = usize::try_from(length).ok().filter(|&length| length <= LONGEST_BUFFER);
    let undone = |why: &dyn fmt::Display| Left::Undone(format!("no buffer of {length} bytes: {why}"));
    let length = fits.ok_or_else(|| undone(&format_args!("this runner lends {LONGEST_BUFFER} at most")))?;
    let mut out = Vec::new();
    out.try_reserve_exact(length).map_err(|error| undone(&error))?;
    out.resize(length, fill);
    Ok(out)
}

/// X Y HELD REM BUSY WAITING LEFT of a record told, in which the words from P on stand in their order.
fn state_of(record: &str) -> String {
    let words: Vec<&str> = record.split(' ').collect();
    let (x, work) = (word::X - word::P, word::WORK - word::P);
    let left = work
        + match words[work] {
            "none" => 1,
            "line" => 7,
            _ => 8,
        };
    format!("{} {} {} {}", words[x..work].join(" "), u8::from(words[work] != "none"), words[left + 1], words[left])
}

fn bytes_told(bytes: &[u8]) -> String {
    match bytes.len() {
        0 => "-".to_string(),
        1..=48 => bytes.iter().map(|b| format!("{b:02x}")).collect(),
        _ => format!("#{:08x}", Crc::of(bytes)),
    }
}

/// The record told has these words, every one.
fn compared(record: &str, machine: &Machine) -> Result<(), Left> {
    let undone = || Left::Undone(format!("{:?} are not the words of {record}", machine.words()));
    is_of(record, machine).then_some(()).ok_or_else(undone)
}

fn answer(runner: &mut Runner, line: &[u8], records: bool, out: &mut impl Write) -> Result<(), Left> {
    let told = runner.call(Call::of_line(line).ok_or(Left::NoCall)?)?;
    let told = told.unwrap_or_else(refusal_told);
    let record = runner.record_told(&runner.machine);
    out.write_all(line)?;
    writeln!(out, "\n< {told} | {}", state_of(&record))?;
    if records {
        compared(&record, &runner.machine)?;
        writeln!(out, "= {record}")?;
    }
    Ok(())
}

/// Where it was left, the number of the line too.
fn answer_file(input: &mut impl BufRead, records: bool, out: &mut impl Write) -> Result<(), (usize, Left)> {
    let mut runner = Runner::of(Machine::make(USUAL).0);
    let mut line = Vec::new();
    for number in 1.. {
        let left = |left: Left| (number, left);
        line.clear();
        if input.read_until(b'\n', &mut line).map_err(|error| left(error.into()))? == 0 {
            break;
        }
        let text = line.strip_suffix(b"\n").unwrap_or(&line);
        match text.first() {
            Some(b'#') => out.write_all(text).and_then(|()| out.write_all(b"\n")).map_err(|error| left(error.into()))?,
            // What an earlier run told, so that its file can be put to the runner again.
            Some(b'<' | b'=') => (),
            _ => answer(&mut runner, text, records, out).map_err(left)?,
        }
    }
    Ok(())
}

/// Where standard error takes nothing there is nobody left to tell.
fn end_by_2(why: &dyn fmt::Display) -> ExitCode {
    let _ = writeln!(io::stderr(), "calls: {why}");
    ExitCode::from(2)
}

fn main() -> ExitCode {
    let arguments: Vec<_> = std::env::args_os().skip(1).collect();
    let records = arguments == ["--records"];
    if !records && !arguments.is_empty() {
        return end_by_2(&"usage: calls [--records]");
    }
    if let Err(error) = descriptors::are_open() {
        return end_by_2(&error);
    }
    let mut out = BufWriter::new(io::stdout().lock());
    let answered = answer_file(&mut io::stdin().lock(), records, &mut out);
    let flushed = out.flush();
    match (answered, flushed) {
        (Ok(()), Ok(())) => ExitCode::SUCCESS,
        (Err((number, left)), _) => end_by_2(&format_args!("line {number}{left}")),
        (Ok(()), Err(error)) => end_by_2(&error),
    }
}
