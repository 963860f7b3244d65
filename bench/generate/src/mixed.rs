//! Every call beside readings: of sixteen turns of a point seven are readings, the others requests and their cancels,
//! suspensions, meter changes, and going out of service and in again; most lines are accepted.

use crate::{dates, open, Meter, Random, POINTS};
use std::io::{self, Write};

/// How often a point goes out of service and in again: 24 periods are all that there is room for.
const DAYS_OUT: u32 = 20;
/// How often it does so on one day: a second holder on one day replaces the first.
const TIMES_A_DAY: u32 = 20;

/// What a point needs beside its meter for its lines to be accepted.
#[derive(Clone, Copy, Default)]
struct State {
    /// The supplier that has asked for it.
    pending: Option<u64>,
    is_suspended: bool,
    days_out: u32,
}

pub fn write(lines: u64, mut random: Random, mut output: impl Write) -> io::Result<()> {
    let mut meters: Vec<Meter> = (0..POINTS).map(|_| Meter::new(&mut random)).collect();
    let mut states = [State::default(); POINTS];
    let mut dates = dates();
    let mut date = dates.next().unwrap_or_default();
    let mut written = open(&meters, date, &mut output)?;
    while written < lines {
        date = dates.next().unwrap_or(date);
        for slot in 0..POINTS {
            if lines <= written {
                break;
            }
            meters[slot].read_today = false;
            written += turn(&mut random, &mut meters[slot], &mut states[slot], slot, date, &mut output)?;
        }
    }
    output.flush()
}

/// A point's turn on a day; how many lines it wrote. A request is cancelled at the point's next turn, long before it
/// would take effect.
fn turn(
    random: &mut Random,
    meter: &mut Meter,
    state: &mut State,
    slot: usize,
    date: u32,
    output: &mut impl Write,
) -> io::Result<u64> {
    let point = slot + 1;
    let key = 1_000 + point;
    let supplier = 3 + random.below(10);
    if let Some(asking) = state.pending.take() {
        writeln!(output, "adc;{date};{point};{asking}")?;
        return Ok(1);
    }
    match random.below(16) {
        0..=6 => {
            let (index, zero_mark) = meter.turn(random);
            writeln!(output, "ri;{date};{point};{date};{index};{zero_mark}")?;
        }
        7..=9 if !state.is_suspended => {
            state.pending = Some(supplier);
            writeln!(output, "demcf;{date};{point};{supplier};{key};{date}")?;
        }
        7..=11 => {
            state.is_suspended = !state.is_suspended;
            writeln!(output, "sus;{date};{point};{}", u8::from(state.is_suspended))?;
        }
        12 | 13 => {
            let (index, zero_mark) = meter.turn(random);
            *meter = Meter::new(random);
            writeln!(output, "cdt;{date};{point};{index};{zero_mark};{meter}")?;
        }
        14 if state.days_out < DAYS_OUT => {
            state.days_out += 1;
            for _ in 0..TIMES_A_DAY {
                writeln!(output, "demmhs;{date};{point}")?;
                writeln!(output, "demmespc;{date};{point};{supplier};{key}")?;
            }
            return Ok(2 * u64::from(TIMES_A_DAY));
        }
        14 => writeln!(output, "demmespc;{date};{point};{supplier};{key}")?,
        _ => writeln!(output, "ctr;{date};{supplier}")?,
    }
    Ok(1)
}
