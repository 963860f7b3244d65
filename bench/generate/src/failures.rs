//! Failures of suppliers, accepted and refused: of eight lines two are accepted failures, one of a supplier that holds
//! a point and one of a supplier that holds none, and two are refused ones.

use crate::{dates, POINTS};
use std::io::{self, Write};

/// On so many days a point is held by a supplier that fails: 24 periods are all that there is room for.
const DAYS_A_POINT: u64 = 20;
/// The lines of one turn.
const TURN: u64 = 8;

pub fn write(lines: u64, mut output: impl Write) -> io::Result<()> {
    let mut dates = dates();
    let date = dates.next().unwrap_or_default();
    writeln!(output, "set;{date};2;60;90;1;2")?;
    for point in 1..=POINTS {
        writeln!(output, "enr;{date};{point};5;3;0;{}", if point % 4 == 0 { "2;0" } else { "1;9500" })?;
    }
    let mut written = 1 + POINTS as u64;
    let days = DAYS_A_POINT * POINTS as u64;
    let turns_a_day = lines.div_ceil(days * TURN);
    for (day, date) in dates.take(days as usize).enumerate() {
        let point = day % POINTS + 1;
        for turn in 0..turns_a_day {
            if lines <= written {
                break;
            }
            failures(point, 3 + turn % 90, date, &mut output)?;
            written += TURN;
        }
    }
    output.flush()
}

/// A second holder on one day replaces the first, so that a day costs its point one period.
fn failures(point: usize, supplier: u64, date: u32, output: &mut impl Write) -> io::Result<()> {
    writeln!(output, "ctr;{date};{supplier}")?;
    writeln!(output, "demmespc;{date};{point};{supplier};{}", 1_000 + point)?;
    writeln!(output, "def;{date};{supplier}")?;
    writeln!(output, "def;{date};{supplier}")?;
    writeln!(output, "demmhs;{date};{point}")?;
    writeln!(output, "def;{date};1")?;
    writeln!(output, "ctr;{date};{supplier}")?;
    writeln!(output, "def;{date};{supplier}")
}
