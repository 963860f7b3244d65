//! A plain program that does the job of `registre`, written for speed: the yardstick of the benchmark.

mod calendar;
mod line;
mod output;
mod register;

use line::{take, DateCache, PADDING};
use output::Output;
use register::Register;
use std::io::{self, Read};
use std::process::ExitCode;

const CAPACITY: usize = 1 << 17;
/// More bytes than this without a line feed cannot become a readable line.
const LONGEST_KEPT: usize = 129;

fn main() -> ExitCode {
    match run() {
        Ok(()) => ExitCode::SUCCESS,
        Err(_) => ExitCode::FAILURE,
    }
}

fn run() -> io::Result<()> {
    let mut input = io::stdin().lock();
    let mut output = Output::new(io::stdout().lock());
    let mut register: Option<Register> = None;
    let mut cache = DateCache::new();
    let mut buffer = vec![0; CAPACITY + 1 + PADDING];
    // Bytes at the front of the buffer that belong to an unfinished line.
    let mut kept = 0;
    loop {
        let count = match input.read(&mut buffer[kept..CAPACITY]) {
            Ok(count) => count,
            Err(error) if error.kind() == io::ErrorKind::Interrupted => continue,
            Err(error) => return Err(error),
        };
        if count == 0 {
            break;
        }
        let filled = kept + count;
        let Some(last_feed) = buffer[kept..filled].iter().rposition(|byte| *byte == b'\n') else {
            kept = filled.min(LONGEST_KEPT);
            continue;
        };
        let end = kept + last_feed + 1;
        take_lines(&mut register, &buffer, end, &mut cache, &mut output)?;
        buffer.copy_within(end..filled, 0);
        kept = (filled - end).min(LONGEST_KEPT);
    }
    if kept > 0 {
        buffer[kept] = b'\n';
        take_lines(&mut register, &buffer, kept + 1, &mut cache, &mut output)?;
    }
    if let Some(register) = &register {
        output.listing(register)?;
    }
    output.flush()
}

/// Takes the whole lines before `end`.
fn take_lines(
    register: &mut Option<Register>,
    buffer: &[u8],
    end: usize,
    cache: &mut DateCache,
    output: &mut Output,
) -> io::Result<()> {
    let mut at = 0;
    while at < end {
        let (kind, answer) = take(register, buffer, &mut at, cache);
        output.answer(kind, answer)?;
    }
    Ok(())
}
