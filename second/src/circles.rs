//! All arcs of all small circles, for comparing whole tables.

use std::io::{self, Write};

use crate::arc::{all_circle_points, walk, Kind, Walk};
use crate::charge::PAID_PER_FEED;
use crate::crc::Crc;
use crate::point::Point;

/// One line for each N, kind, start and end: `N KIND SX SY EX EY CYCLES TICKS CRC`, all seen from the centre,
/// starts and ends in the order of x, then y. The ticks are those at f = q0 from remainder 0. The CRC is over
/// the visited points in their order, each as x and y in 4 bytes, low byte first, two's complement.
pub fn write_all(most: i64, out: &mut impl Write) -> io::Result<()> {
    for n in 1..=most {
        arcs_of(n, &mut |line, _, _| out.write_all(line.as_bytes()))?;
    }
    Ok(())
}

/// One line for each N: `N POINTS ARCS CYCLES TICKS CRC`, the CRC over the lines that `write_all` gives it.
pub fn write_totals(most: i64, out: &mut impl Write) -> io::Result<()> {
    for n in 1..=most {
        let (mut arcs, mut cycles, mut ticks, mut crc) = (0u64, 0u64, 0u64, Crc::new());
        arcs_of(n, &mut |line, cycles_of_arc, ticks_of_arc| {
            arcs += 1;
            cycles += cycles_of_arc;
            ticks += ticks_of_arc;
            crc.bytes(line.as_bytes());
            Ok(())
        })?;
        writeln!(out, "{n} {} {arcs} {cycles} {ticks} {:08x}", all_circle_points(n).len(), crc.value())?;
    }
    Ok(())
}

fn arcs_of(n: i64, tell: &mut impl FnMut(&str, u64, u64) -> io::Result<()>) -> io::Result<()> {
    let mut all = all_circle_points(n);
    all.sort_by_key(|at| (at.x, at.y));
    for kind in [Kind::Clockwise, Kind::OtherWay] {
        for &start in &all {
            for &end in &all {
                let (walk, crc) = walked(n, kind, start, end)?;
                let (cycles, ticks) = (walk.cycles, walk.charges.div_ceil(PAID_PER_FEED));
                let line = format!("{n} {} {start} {end} {cycles} {ticks} {crc:08x}\n", kind.number());
                tell(&line, cycles, ticks)?;
            }
        }
    }
    Ok(())
}

fn walked(n: i64, kind: Kind, start: Point, end: Point) -> io::Result<(Walk, u32)> {
    let mut crc = Crc::new();
    let told = walk(n, kind, start, end, |at| {
        crc.bytes(&(at.x as i32).to_le_bytes());
        crc.bytes(&(at.y as i32).to_le_bytes());
    });
    let told = told.ok_or_else(|| io::Error::other(format!("no way from {start} to {end} for N {n}")))?;
    Ok((told, crc.value()))
}

#[cfg(test)]
mod tests {
    use super::*;

    #[test]
    fn n_1_as_a_table() {
        let mut out = Vec::new();
        write_all(1, &mut out).unwrap();
        let text = String::from_utf8(out).unwrap();
        let cycles: Vec<&str> = text.lines().filter_map(|line| line.split(' ').nth(6)).collect();
        // Points (-1, 0), (0, -1), (0, 1), (1, 0); clockwise first.
        assert_eq!(cycles[..16].join(" "), "4 3 1 2 1 4 2 3 3 2 4 1 2 1 3 4");
        // Every step is diagonal: 1, 2, 3, 4 of them are 1,414, 2,828, 4,242, 5,656.
        let ticks = cycles.iter().map(|cycles| ["0", "2", "3", "5", "6"][cycles.parse::<usize>().unwrap()]);
        assert!(text.lines().filter_map(|line| line.split(' ').nth(7)).eq(ticks));
        let mut totals = Vec::new();
        write_totals(1, &mut totals).unwrap();
        assert!(String::from_utf8(totals).unwrap().starts_with("1 4 32 80 128 "));
    }
}
