//! A stream of job texts: of each a line `%job INDEX LENGTH`, with ` P W XLO XHI YLO YHI` after it where it has
//! settings of its own; then its LENGTH bytes and an LF.

use std::io::{self, Write};

use crate::fields::Fields;
use crate::listing::{self, Pace};
use crate::settings::{Settings, USUAL};

pub fn write(index: u64, settings: Option<Settings>, text: &[u8], out: &mut impl Write) -> io::Result<()> {
    write!(out, "%job {index} {}", text.len())?;
    if let Some(settings) = settings {
        write!(out, " {settings}")?;
    }
    out.write_all(b"\n")?;
    out.write_all(text)?;
    out.write_all(b"\n")
}

/// Of each job its `%job` line, its listing, and in a line `= ..` what it leaves.
pub fn check_all(stream: &[u8], out: &mut impl Write) -> io::Result<()> {
    let mut rest = stream;
    while !rest.is_empty() {
        let (head, job, after) = first(rest).ok_or_else(|| io::Error::other("not a stream of jobs, or cut short"))?;
        writeln!(out, "{head}")?;
        let end = listing::check(job.text, &job.settings, Pace::AtOnce, out)?;
        writeln!(out, "= {end}")?;
        rest = after;
    }
    Ok(())
}

struct Job<'a> {
    settings: Settings,
    text: &'a [u8],
}

/// The first job of a stream with its `%job` line, and what stands after it.
fn first(stream: &[u8]) -> Option<(&str, Job<'_>, &[u8])> {
    let lf = stream.iter().position(|&byte| byte == b'\n')?;
    let head = std::str::from_utf8(&stream[..lf]).ok()?;
    let mut fields = Fields::of(head.strip_prefix("%job ")?);
    let (_, length) = (fields.u64()?, usize::try_from(fields.u64()?).ok()?);
    let settings = if fields.clone().word().is_some() { fields.settings()? } else { USUAL };
    fields.end()?;
    let (text, after) = stream[lf + 1..].split_at_checked(length)?;
    Some((head, Job { settings, text }, after.strip_prefix(b"\n")?))
}
