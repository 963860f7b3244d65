//! Refused lines, each dated past deadlines and effective days that no accepted line has reached: for each of them the
//! register is brought up to its day, and nothing of that stays.

use crate::{dates, Meter, Random, POINTS};
use std::io::{self, Write};

/// So many days after the only accepted lines: A and B are 60 and 90 days.
const LATER: usize = 400;

pub fn write(lines: u64, mut random: Random, mut output: impl Write) -> io::Result<()> {
    let meters: Vec<Meter> = (0..POINTS).map(|_| Meter::new(&mut random)).collect();
    let mut dates = dates();
    let date = dates.next().unwrap_or_default();
    let mut written = open(&meters, date, &mut output)?;
    let mut dates = dates.skip(LATER);
    let mut date = date;
    while written < lines {
        date = dates.next().unwrap_or(date);
        for slot in 0..POINTS {
            if lines <= written {
                break;
            }
            refused(&mut random, slot + 1, date, &mut output)?;
            written += 1;
        }
    }
    output.flush()
}

/// Every point is in default supply, or served by a supplier and asked for by another.
fn open(meters: &[Meter], date: u32, output: &mut impl Write) -> io::Result<u64> {
    writeln!(output, "set;{date};2;60;90;1;2")?;
    writeln!(output, "ctr;{date};3")?;
    writeln!(output, "ctr;{date};4")?;
    let mut written = 3;
    for (slot, meter) in meters.iter().enumerate() {
        let point = slot + 1;
        let key = 1_000 + point;
        writeln!(output, "enr;{date};{point};{meter}")?;
        if slot % 2 == 0 {
            writeln!(output, "i;{date};{point};{key}")?;
            written += 2;
        } else {
            writeln!(output, "demmespc;{date};{point};3;{key}")?;
            writeln!(output, "demcf;{date};{point};4;{key};{date}")?;
            written += 3;
        }
    }
    Ok(written)
}

/// A line that is refused whatever has fallen due: an index past the full turn, a false key, nothing pending, a point
/// that is enrolled already, a supplier without a contract.
fn refused(random: &mut Random, point: usize, date: u32, output: &mut impl Write) -> io::Result<()> {
    let key = 1_000 + point;
    match random.below(5) {
        0 => writeln!(output, "ri;{date};{point};{date};999999999999;0"),
        1 => writeln!(output, "demcf;{date};{point};3;{};{date}", key + 1),
        2 => writeln!(output, "adc;{date};{point};5"),
        3 => writeln!(output, "enr;{date};{point};5;3;0;1;9500"),
        _ => writeln!(output, "demmespc;{date};{point};5;{key}"),
    }
}
