//! The runner of call files: each `>` line is a call, answered by a `<` line. `docs/CALL-FILES.md` has the format.

use std::fmt;
use std::io::{self, BufRead, Write};

use crate::book::{Load, Why};
use crate::crc::Crc;
use crate::fields::Fields;
use crate::job::{Meaning, Reader};
use crate::machine::{Ahead, Machine};
use crate::settings::{Settings, USUAL};
use crate::sound::{Record, Work};

#[derive(Clone, PartialEq, Eq, Debug)]
pub enum Call {
    Make(Settings),
    Record(Record),
    Load(Load),
    Tick,
    Hold,
    Release,
    Stop,
    Run {
        budget: u64,
        length: u64,
        fill: u8,
    },
    /// A line of a job text, of bytes 32 to 126.
    Text(String),
    /// A look-ahead of so many ticks.
    Ahead(u64),
    /// The same, after which the machine is the one ahead.
    Jump(u64),
}

/// The line at which a file was left, and why.
#[derive(Debug)]
pub struct Left {
    pub line: usize,
    why: Reason,
}

#[derive(Debug)]
enum Reason {
    NoCall,
    Io(io::Error),
}

impl fmt::Display for Left {
    fn fmt(&self, out: &mut fmt::Formatter) -> fmt::Result {
        match &self.why {
            Reason::NoCall => write!(out, "line {} is no call", self.line),
            Reason::Io(error) => write!(out, "line {}: {error}", self.line),
        }
    }
}

/// Which lines stand after a call: its answer, or the whole record too.
#[derive(Clone, Copy, PartialEq, Eq)]
pub enum Told {
    Answers,
    Records,
}

/// Writes every line anew, each `>` line followed by its answer. Before the first make the machine is
/// the fresh one with p 50, w 5,000 and the widest travel.
pub fn answer_file(input: &mut impl BufRead, told: Told, out: &mut impl Write) -> Result<(), Left> {
    let mut runner = Runner::fresh();
    let mut line = Vec::new();
    for number in 1.. {
        let left = |why| Left { line: number, why };
        let io = |error| left(Reason::Io(error));
        line.clear();
        if input.read_until(b'\n', &mut line).map_err(io)? == 0 {
            break;
        }
        let text = line.strip_suffix(b"\n").unwrap_or(&line);
        match text.first() {
            Some(b'#') => writeln_bytes(text, out).map_err(io)?,
            // What an earlier run told, so that its file can be put to the runner again.
            Some(b'<' | b'=') => (),
            _ => {
                let call = std::str::from_utf8(text).ok().and_then(Call::of_line).ok_or(left(Reason::NoCall))?;
                writeln_bytes(text, out).map_err(io)?;
                runner.write_answer(&call, told, out).map_err(io)?;
            }
        }
    }
    Ok(())
}

fn writeln_bytes(line: &[u8], out: &mut impl Write) -> io::Result<()> {
    out.write_all(line)?;
    out.write_all(b"\n")
}

/// The machine of a call file, and the G and F known beside it.
pub struct Runner {
    pub machine: Machine,
    pub known: Reader,
}

impl Runner {
    pub fn fresh() -> Runner {
        Runner { machine: Machine::make(USUAL).0, known: Reader::default() }
    }

    fn write_answer(&mut self, call: &Call, told: Told, out: &mut impl Write) -> io::Result<()> {
        writeln!(out, "{}", self.answer(call))?;
        match told {
            Told::Answers => Ok(()),
            Told::Records => writeln!(out, "= {}", self.machine.record()),
        }
    }

    /// Does the call and tells `< ANSWER | STATE`.
    pub fn answer(&mut self, call: &Call) -> String {
        let told = self.call(call).unwrap_or_else(|number| format!("refused {number}"));
        format!("< {told} | {}", state(&self.machine.record()))
    }

    fn call(&mut self, call: &Call) -> Result<String, u32> {
        let machine = &mut self.machine;
        match *call {
            Call::Make(settings) => {
                let (made, refusal) = Machine::make(settings);
                *self = Runner { machine: made, known: Reader::default() };
                refusal.map_or(Ok("made".to_string()), Err)
            }
            Call::Record(ref record) => {
                *self = Runner { machine: Machine::of_record(record), known: Reader::default() };
                Ok("set".to_string())
            }
            Call::Load(load) => machine.load(&load).map(|bits| format!("bits {bits}")),
            Call::Tick => machine.tick().map(|byte| format!("byte {byte}")),
            Call::Hold => machine.hold().map(|()| "done".to_string()),
            Call::Release => machine.release().map(|()| "done".to_string()),
            Call::Stop => machine.stop().map(|()| "done".to_string()),
            // The book is fed "of a buffer only the length".
            Call::Run { budget, length, .. } => {
                let mut tape = Tape::new();
                let (why, ticks) = machine.run(budget, length, |byte| tape.write(byte))?;
                Ok(format!("{} {ticks} {}", word(why), tape.told()))
            }
            Call::Text(ref line) => match self.known.line(machine.asked()?, line.as_bytes()) {
                Meaning::Loaded { bits } => Ok(format!("bits {bits}")),
                Meaning::NoBlock => Ok("none".to_string()),
                Meaning::Refused(number) => Err(number),
            },
            // A refused look has more to tell than its number.
            Call::Ahead(ticks) => Ok(look(&machine.ahead(ticks))),
            Call::Jump(ticks) => {
                let ahead = machine.ahead(ticks);
                let told = look(&ahead);
                *machine = ahead.then;
                Ok(told)
            }
        }
    }
}

/// X Y HELD REM BUSY WAITING LEFT
fn state(record: &Record) -> String {
    let Record { point, held, remainder, work, waiting, left, .. } = record;
    format!("{point} {} {remainder} {} {waiting} {left}", u8::from(*held), u8::from(*work != Work::Nothing))
}

fn look(ahead: &Ahead) -> String {
    let word = ahead.refusal.map_or("ahead".to_string(), |number| format!("refused {number}"));
    format!("{word} {} {}", ahead.sums, state(&ahead.then.record()))
}

fn word(why: Why) -> &'static str {
    match why {
        Why::Idle => "idle",
        Why::Held => "held",
        Why::Ended => "ended",
        Why::Spent => "spent",
        Why::Full => "full",
    }
}

/// The tick bytes of a run: in hex up to 48 of them, else their CRC-32.
struct Tape {
    first: Vec<u8>,
    count: u64,
    crc: Crc,
}

const SHOWN: usize = 48;

impl Tape {
    fn new() -> Tape {
        Tape { first: Vec::new(), count: 0, crc: Crc::new() }
    }

    fn write(&mut self, byte: u8) {
        if self.first.len() < SHOWN {
            self.first.push(byte);
        }
        self.count += 1;
        self.crc.byte(byte);
    }

    fn told(&self) -> String {
        match self.count {
            0 => "-".to_string(),
            count if count > SHOWN as u64 => format!("#{:08x}", self.crc.value()),
            _ => self.first.iter().map(|byte| format!("{byte:02x}")).collect(),
        }
    }
}

impl Call {
    fn of_line(line: &str) -> Option<Call> {
        let call = line.strip_prefix("> ")?;
        // All that follows the blank is the line, blanks at its end too.
        if let Some(text) = call.strip_prefix("text ") {
            return text.bytes().all(|byte| (32..=126).contains(&byte)).then(|| Call::Text(text.to_string()));
        }
        let mut fields = Fields::of(call);
        let call = Call::of_fields(&mut fields)?;
        fields.end().map(|()| call)
    }

    fn of_fields(fields: &mut Fields) -> Option<Call> {
        match fields.word()? {
            "make" => Some(Call::Make(fields.settings()?)),
            "record" => Some(Call::Record(fields.record()?)),
            "load" => Some(Call::Load(fields.load()?)),
            "tick" => Some(Call::Tick),
            "hold" => Some(Call::Hold),
            "release" => Some(Call::Release),
            "stop" => Some(Call::Stop),
            "run" => Some(Call::Run { budget: fields.u64()?, length: fields.u64()?, fill: u8::try_from(fields.u64()?).ok()? }),
            "ahead" => Some(Call::Ahead(fields.u64()?)),
            "jump" => Some(Call::Jump(fields.u64()?)),
            _ => None,
        }
    }
}

impl fmt::Display for Call {
    fn fmt(&self, out: &mut fmt::Formatter) -> fmt::Result {
        match self {
            Call::Make(settings) => write!(out, "> make {settings}"),
            Call::Record(record) => write!(out, "> record {record}"),
            Call::Load(load) => write!(out, "> load {load}"),
            Call::Tick => write!(out, "> tick"),
            Call::Hold => write!(out, "> hold"),
            Call::Release => write!(out, "> release"),
            Call::Stop => write!(out, "> stop"),
            Call::Run { budget, length, fill } => write!(out, "> run {budget} {length} {fill}"),
            Call::Text(line) => write!(out, "> text {line}"),
            Call::Ahead(ticks) => write!(out, "> ahead {ticks}"),
            Call::Jump(ticks) => write!(out, "> jump {ticks}"),
        }
    }
}

#[cfg(test)]
mod tests {
    use super::*;
    use crate::gen;

    fn told(text: &str, told: Told) -> Result<String, usize> {
        let mut out = Vec::new();
        let done = answer_file(&mut text.as_bytes(), told, &mut out);
        done.map(|()| String::from_utf8(out).unwrap()).map_err(|left| left.line)
    }

    fn answers(text: &str) -> Result<String, usize> {
        told(text, Told::Answers)
    }

    /// These calls get these answers.
    fn all_answered(pairs: &[(&str, &str)]) {
        let calls: String = pairs.iter().map(|(call, _)| format!("> {call}\n")).collect();
        let expected: String = pairs.iter().map(|(call, answer)| format!("> {call}\n< {answer}\n")).collect();
        assert_eq!(answers(&calls).unwrap(), expected);
    }

    #[test]
    fn a_small_file() {
        all_answered(&[
            ("make 50 5000 -10 10 -10 10", "made | 0 0 0 0 0 0 0"),
            ("load L 1 1 300000000", "bits 1 | 0 0 0 0 1 0 2"),
            ("run 9 9 7", "ended 2 1530 | 1 1 0 0 0 0 0"),
            ("make 0 1 2 3 4 5", "refused 1 | 0 0 0 0 0 0 0"),
            ("load A 3 0 0 300000000 0 1", "bits 1 | 0 0 0 0 1 0 4"),
            // A diagonal step is charged 1,414: the second tick leaves 586 × 300,000,000.
            ("tick", "byte 0 | 0 0 0 300000000000 1 0 4"),
            ("tick", "byte 21 | 1 1 0 175800000000 1 0 3"),
            ("hold", "done | 1 1 1 175800000000 1 0 3"),
            ("run 0 0 255", "held 0 - | 1 1 1 175800000000 1 0 3"),
            ("stop", "done | 1 1 1 0 0 0 0"),
        ]);
        assert_eq!(answers("# a comment\n#\n> tick").unwrap(), "# a comment\n#\n> tick\n< byte 0 | 0 0 0 0 0 0 0\n");
    }

    #[test]
    fn an_unsound_record_answers_9() {
        let refused = "refused 9 | 11 0 1 7 0 0 0";
        all_answered(&[
            ("record 50 5000 -10 10 -10 10 11 0 1 7 none 0 0", "set | 11 0 1 7 0 0 0"),
            ("tick", refused),
            ("load L 0 0 0", refused),
            ("run 1 1 1", refused),
            ("stop", refused),
            ("release", refused),
            ("hold", refused),
            ("text ?", refused),
            ("make 50 5000 0 0 0 0", "made | 0 0 0 0 0 0 0"),
        ]);
    }

    #[test]
    fn other_lines_are_errors() {
        for line in [
            "",
            "tick",
            "> tock",
            ">tick",
            "> tick ",
            "> run 1 1 256",
            "> run -1 1 1",
            "> load A 4 0 0 1 1 1",
            "> load L 1 1",
            "> load L +1 1 1",
            "> load L 01 1 1",
            "> load L -0 1 1",
            "> load L 1 1 18446744073709551616",
            "> tick\r",
            "> text",
            "> text G1\tX1",
            "> text G1 X1\r",
            "> text é",
            "> ahead",
            "> ahead ",
            "> ahead -1",
            "> ahead +1",
            "> ahead 01",
            "> ahead 1.0",
            "> ahead 1 1",
            "> ahead 18446744073709551616",
            "> jump",
            "> jump -1",
            "> jump 1 ",
            "> jump 18446744073709551616",
        ] {
            assert_eq!(answers(&format!("# ok\n> tick\n{line}\n")), Err(3), "{line}");
        }
    }

    /// So many blocks as the record says, sixteen where it says more.
    #[test]
    fn other_records_are_errors() {
        for rest in ["", " 0", " 0 -1", " 0 0 L 1 1 1", " 1 1", " 1 1 A 1 1 1 1 1", " 1 17 L 1 1 1"] {
            let text = format!("> tick\n> record 50 5000 -10 10 -10 10 0 0 0 0 none{rest}\n");
            assert_eq!(answers(&text), Err(2), "{rest}");
        }
    }

    /// A block that waits: where it starts, that a run stops at each end, and that a look goes on through it.
    #[test]
    fn waiting_blocks() {
        all_answered(&[
            ("record 50 1000 -20 20 -20 20 0 0 0 0 line 0 0 3 4 60000000 0 7 2 L 3 5 60000000 A 2 4 6 1 1 0", "set | 0 0 0 0 1 2 7"),
            ("ahead 6", "ahead 3 5 3 5 0 0 1 0 1 | 0 0 0 0 1 2 7"),
            ("run 99 99 0", "ended 5 1514111435 | 3 4 0 0 1 1 2"),
            ("load L 3 4 60000000", "bits 2 | 3 4 0 0 1 2 5"),
            ("load L 3 4 60000000", "refused 13 | 3 4 0 0 1 2 5"),
            ("jump 1", "ahead 0 1 3 5 0 0 1 1 4 | 3 5 0 0 1 1 4"),
            ("stop", "done | 3 5 0 0 0 0 0"),
            ("make 50 1000 -20 20 -20 20", "made | 0 0 0 0 0 0 0"),
            ("text G1 X0.1 F100", "bits 3 | 0 0 0 0 1 0 5"),
            ("text X0.1", "none | 0 0 0 0 1 0 5"),
            ("text X0", "bits 3 | 0 0 0 0 1 1 10"),
            ("text G2 X1", "refused 37 | 0 0 0 0 1 1 10"),
        ]);
    }

    /// A look tells the record ahead and leaves the machine; a jump goes on with that record, whose cycles done the tick after it shows.
    #[test]
    fn looks_and_jumps() {
        all_answered(&[
            ("make 50 1000 -20 20 -20 20", "made | 0 0 0 0 0 0 0"),
            ("load L 3 4 60000000", "bits 3 | 0 0 0 0 1 0 5"),
            ("ahead 2", "ahead 1 2 1 2 0 0 1 0 3 | 0 0 0 0 1 0 5"),
            ("ahead 1000001", "refused 38 0 0 0 0 0 0 1 0 5 | 0 0 0 0 1 0 5"),
            ("jump 2", "ahead 1 2 1 2 0 0 1 0 3 | 1 2 0 0 1 0 3"),
            ("tick", "byte 17 | 2 2 0 0 1 0 2"),
            ("ahead 2", "ahead 1 2 3 4 0 0 0 0 0 | 2 2 0 0 1 0 2"),
            ("jump 18446744073709551615", "refused 38 0 0 2 2 0 0 1 0 2 | 2 2 0 0 1 0 2"),
            ("hold", "done | 2 2 1 0 1 0 2"),
            ("jump 1000000", "ahead 0 0 2 2 1 0 1 0 2 | 2 2 1 0 1 0 2"),
            ("ahead 1000001", "refused 38 0 0 2 2 1 0 1 0 2 | 2 2 1 0 1 0 2"),
            ("release", "done | 2 2 0 0 1 0 2"),
            ("jump 1000000", "ahead 1 2 3 4 0 0 0 0 0 | 3 4 0 0 0 0 0"),
            ("jump 0", "ahead 0 0 3 4 0 0 0 0 0 | 3 4 0 0 0 0 0"),
            ("jump 1000001", "refused 38 0 0 3 4 0 0 0 0 0 | 3 4 0 0 0 0 0"),
        ]);
    }

    /// 9 comes before 38; the record is the machine's own, numbers that no sound one has too.
    #[test]
    fn looks_at_an_unsound_record() {
        let refused = "refused 9 0 0 11 0 1 18446744073709551615 0 0 0 | 11 0 1 18446744073709551615 0 0 0";
        all_answered(&[
            ("record 50 5000 -10 10 -10 10 11 0 1 18446744073709551615 none 0 0", "set | 11 0 1 18446744073709551615 0 0 0"),
            ("ahead 0", refused),
            ("ahead 1000001", refused),
            ("jump 1", refused),
            ("jump 18446744073709551615", refused),
            ("ahead 1", refused),
        ]);
    }

    /// Neither a look nor a jump changes the G and F known.
    #[test]
    fn what_is_known_after_a_jump() {
        all_answered(&[
            ("text G1 X0.04 F3000", "bits 2 | 0 0 0 0 1 0 2"),
            ("jump 3", "ahead 1 0 1 0 0 150000000000 1 0 1 | 1 0 0 150000000000 1 0 1"),
            ("jump 1", "ahead 1 0 2 0 0 0 0 0 0 | 2 0 0 0 0 0 0"),
            ("ahead 9", "ahead 0 0 2 0 0 0 0 0 0 | 2 0 0 0 0 0 0"),
            ("text X0", "bits 2 | 2 0 0 0 1 0 2"),
            ("run 9 9 0", "ended 4 00120032 | 0 0 0 0 0 0 0"),
        ]);
    }

    /// G and F known stand beside the record: a refused line leaves them, a make and a record forget them.
    #[test]
    fn lines_of_a_job_text() {
        all_answered(&[
            ("make 50 5000 -10 10 -10 10", "made | 0 0 0 0 0 0 0"),
            ("text G1 F100 ", "none | 0 0 0 0 0 0 0"),
            ("text X0.02", "bits 1 | 0 0 0 0 1 0 1"),
            ("text X0.04", "bits 1 | 0 0 0 0 1 1 2"),
            ("text  Y0 ", "none | 0 0 0 0 1 1 2"),
            ("text ?", "refused 32 | 0 0 0 0 1 1 2"),
            ("run 99 99 0", "ended 60 #55cc8932 | 1 0 0 0 1 0 1"),
            ("text Y0.04 G4", "refused 34 | 1 0 0 0 1 0 1"),
            ("text Y0.04 G2", "refused 37 | 1 0 0 0 1 0 1"),
            ("text Y0.04", "bits 2 | 1 0 0 0 1 1 3"),
            ("make 50 5000 -10 10 -10 10", "made | 0 0 0 0 0 0 0"),
            ("text Y0.04", "refused 36 | 0 0 0 0 0 0 0"),
            ("text ", "none | 0 0 0 0 0 0 0"),
            ("text G1 F1", "none | 0 0 0 0 0 0 0"),
            ("record 10 5000 -10 10 -10 10 0 0 0 0 none 0 0", "set | 0 0 0 0 0 0 0"),
            ("text X0.1", "refused 36 | 0 0 0 0 0 0 0"),
            ("text G1 X0.1 F30000", "bits 1 | 0 0 0 0 1 0 1"),
        ]);
    }

    /// An F with a point stays known as one without does, behind refused lines too: F0.75 at p 50 adds 37,500,000 a tick. F0.000 is known,
    /// and 11 where a block is made. At p 1 F0.001 is feed number 1, and at w 20,000 F1200000 the most.
    #[test]
    fn lines_with_points_in_feeds() {
        all_answered(&[
            ("make 50 5000 -10 10 -10 10", "made | 0 0 0 0 0 0 0"),
            ("text G1 F0.75", "none | 0 0 0 0 0 0 0"),
            ("text X0.02", "bits 1 | 0 0 0 0 1 0 1"),
            ("tick", "byte 0 | 0 0 0 37500000 1 0 1"),
            ("stop", "done | 0 0 0 0 0 0 0"),
            ("text X0.02 F1.", "refused 32 | 0 0 0 0 0 0 0"),
            ("text X0.01 F8", "refused 35 | 0 0 0 0 0 0 0"),
            ("text X0.02 F6000.001", "refused 11 | 0 0 0 0 0 0 0"),
            ("text X0.02", "bits 1 | 0 0 0 0 1 0 1"),
            ("tick", "byte 0 | 0 0 0 37500000 1 0 1"),
            ("text F0.000", "none | 0 0 0 37500000 1 0 1"),
            ("text X0.02", "none | 0 0 0 37500000 1 0 1"),
            ("text X0.04", "refused 11 | 0 0 0 37500000 1 0 1"),
            ("make 1 20000 -10 10 -10 10", "made | 0 0 0 0 0 0 0"),
            ("text X1 G1 F0.001", "bits 1 | 0 0 0 0 1 0 1"),
            ("jump 1000000", "ahead 0 0 0 0 0 1000000000 1 0 1 | 0 0 0 1000000000 1 0 1"),
            ("text X2 F1200000.001", "refused 11 | 0 0 0 1000000000 1 0 1"),
            ("text X2 F1200000.000", "bits 1 | 0 0 0 1000000000 1 1 2"),
        ]);
    }

    /// A file with its answers and records, put to the runner again, gives itself.
    #[test]
    fn answers_and_records_of_an_input_are_skipped() {
        for index in 0..50 {
            let calls: String = gen::history(4, index).iter().map(|call| format!("{call}\n")).collect();
            for kind in [Told::Answers, Told::Records] {
                let once = told(&calls, kind).unwrap();
                assert_eq!(told(&once, kind).unwrap(), once);
            }
        }
    }

    /// A record is told as `record` takes it, with what waits, so that setting it changes nothing.
    #[test]
    fn whole_records() {
        let sixteen = "L 1 2 3 A 3 4 5 6 7 8 ".repeat(8);
        let made_up = format!("7 1 2 3 4 5 6 7 1 8 arc 2 9 10 11 12 13 14 15 17 {}", sixteen.trim_end());
        let text = format!(
            "> load L 3 4 300000000\n> tick\n> stop\n> load A 3 1 1 299999999 0 5\n> hold\n> load L -1 2 1\n\
             > load A 2 -1 4 7 0 1\n> record {made_up}\n"
        );
        let usual = "50 5000 -1000000 1000000 -1000000 1000000";
        let turn = "arc 3 1 6 25 1 1 299999999";
        let expected = [
            format!("{usual} 0 0 0 0 line 0 0 3 4 300000000 0 5 0"),
            format!("{usual} 1 1 0 0 line 0 0 3 4 300000000 1 4 0"),
            format!("{usual} 1 1 0 0 none 0 0"),
            format!("{usual} 1 1 0 0 {turn} 28 0"),
            format!("{usual} 1 1 1 0 {turn} 28 0"),
            format!("{usual} 1 1 1 0 {turn} 31 1 L -1 2 1"),
            format!("{usual} 1 1 1 0 {turn} 33 2 L -1 2 1 A 2 -1 4 7 0 1"),
            made_up,
        ];
        let all = told(&text, Told::Records).unwrap();
        let found: Vec<&str> = all.lines().filter_map(|line| line.strip_prefix("= ")).collect();
        assert_eq!(found, expected);
    }

    /// More than 48 ticks are told by their CRC-32, 48 in hex.
    #[test]
    fn long_runs() {
        let text = "> load L 60 0 300000000\n> run 48 99 0\n> stop\n> load L 97 0 300000000\n> run 99 99 0\n";
        let told = answers(text).unwrap();
        assert!(told.contains(&format!("< spent 48 {} | 48 0 0 0 1 0 12\n", "11".repeat(48))));
        let mut crc = Crc::new();
        crc.bytes(&[17; 48]);
        crc.byte(49);
        assert!(told.ends_with(&format!("< ended 49 #{:08x} | 97 0 0 0 0 0 0\n", crc.value())));
    }

    /// What the generator writes is read back as the same calls.
    #[test]
    fn written_calls_are_read_back() {
        for index in 0..3_000 {
            for call in gen::history(3, index) {
                assert_eq!(Call::of_line(&call.to_string()), Some(call));
            }
        }
    }
}
