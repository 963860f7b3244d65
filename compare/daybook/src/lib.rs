//! The day book of document 01, with what 02 adds to it, as a program: the literal machine, one cell for each point and
//! gas day.

pub mod book;
pub mod calendar;
pub mod line;
pub mod questions;
pub mod volume;

use book::{Answer, DayBook, POINTS};
use calendar::Calendar;
use line::{Message, LONGEST_LINE};
use std::io::{self, Read, Write};

/// The program's state: the calendar, and the day book once a `set` is accepted.
#[derive(Default)]
pub struct Registre {
    pub calendar: Calendar,
    pub book: Option<DayBook>,
}

impl Registre {
    /// Takes a line without its line feed; gives the kind that the answer prints, and the answer.
    pub fn take(&mut self, line: &[u8]) -> (&'static str, Answer) {
        let message = line::read(line, &self.calendar);
        match (message, self.book.as_mut()) {
            (Some(Message::Open { first_day, settings }), None) => {
                let number = match DayBook::open(first_day, settings) {
                    Ok(book) => {
                        self.book = Some(book);
                        0
                    }
                    Err(number) => number,
                };
                ("set", Answer { number, day: None })
            }
            (Some(Message::Call { today, call }), Some(book)) => (call.kind(), book.call(today, &call, &self.calendar)),
            _ => ("?", Answer { number: 31, day: None }),
        }
    }

    /// The answer line to a line.
    pub fn answer_line(&mut self, line: &[u8]) -> String {
        let (kind, answer) = self.take(line);
        let accepted = u64::from(answer.number == 0);
        let date = answer.day.map_or(0, |day| self.calendar.date(day));
        format!("{kind};{accepted};{};{date:08}\n", answer.number)
    }

    /// The closing listing: per enrolled point its periods and its total.
    pub fn listing(&self) -> String {
        let mut lines = String::new();
        let Some(book) = &self.book else { return lines };
        for p in 1..=POINTS {
            let Some((advance, normal)) = book.advance(p).zip(book.normal_advance(p)) else { continue };
            for period in book.periods(p) {
                let start = self.calendar.date(period.start);
                lines += &format!("{p};{start};{};{};{}\n", period.holder, period.volume, period.normal);
            }
            lines += &format!("total;{p};{advance};{normal}\n");
        }
        lines
    }

    /// Takes every line of the input and writes what the caller wants of each.
    pub fn take_all(
        &mut self,
        input: &mut impl Read,
        mut each: impl FnMut(&mut Self, &[u8]) -> io::Result<()>,
    ) -> io::Result<()> {
        let mut chunk = vec![0; 1 << 16];
        // The line read so far; of an over-long one only its first 129 bytes.
        let mut line = Vec::with_capacity(LONGEST_LINE + 1);
        let mut begun = false;
        loop {
            let count = match input.read(&mut chunk) {
                Ok(0) => break,
                Ok(count) => count,
                Err(error) if error.kind() == io::ErrorKind::Interrupted => continue,
                Err(error) => return Err(error),
            };
            for byte in &chunk[..count] {
                begun = *byte != b'\n';
                if !begun {
                    each(self, &line)?;
                    line.clear();
                } else if line.len() <= LONGEST_LINE {
                    line.push(*byte);
                }
            }
        }
        if begun {
            each(self, &line)?;
        }
        Ok(())
    }

    /// `registre`: an answer line to each line, then the listing.
    pub fn run(&mut self, input: &mut impl Read, output: &mut impl Write) -> io::Result<()> {
        self.take_all(input, |registre, line| output.write_all(registre.answer_line(line).as_bytes()))?;
        output.write_all(self.listing().as_bytes())?;
        output.flush()
    }

    /// `working`: a reply to each line of two dates.
    pub fn tell_working(&mut self, input: &mut impl Read, output: &mut impl Write) -> io::Result<()> {
        self.take_all(input, |registre, line| {
            output.write_all(questions::working_line(line, &registre.calendar).as_bytes())
        })
    }
}
