//! Answer lines from a table of ready texts, gathered in one buffer.

use crate::calendar::date_of;
use crate::line::{Kind, KIND_NAMES};
use crate::register::{Answer, Period, Register};
use std::io::{self, StdoutLock, Write};

/// The longest answer line, `demmespc;0;22;00000000`, has 23 bytes with its line feed.
const ROOM: usize = 24;
const CAPACITY: usize = 1 << 16;
/// The numbers are below this, a power of two.
const NUMBERS: usize = 64;

#[derive(Clone, Copy)]
struct Text {
    bytes: [u8; ROOM],
    length: usize,
}

pub struct Output<'a> {
    to: StdoutLock<'a>,
    /// An answer without a date, for each kind and number.
    texts: Box<[[Text; NUMBERS]; 14]>,
    buffer: Box<[u8; CAPACITY]>,
    filled: usize,
}

fn text(kind: usize, number: usize) -> Text {
    let line = format!("{};{};{number};00000000\n", KIND_NAMES[kind], u8::from(number == 0));
    let mut bytes = [0; ROOM];
    bytes[..line.len()].copy_from_slice(line.as_bytes());
    Text { bytes, length: line.len() }
}

impl<'a> Output<'a> {
    pub fn new(to: StdoutLock<'a>) -> Output<'a> {
        let texts = std::array::from_fn(|kind| std::array::from_fn(|number| text(kind, number)));
        Output { to, texts: Box::new(texts), buffer: Box::new([0; CAPACITY]), filled: 0 }
    }

    #[inline(always)]
    pub fn answer(&mut self, kind: Kind, answer: Answer) -> io::Result<()> {
        if self.filled > CAPACITY - ROOM {
            self.flush()?;
        }
        let text = &self.texts[kind as usize][usize::from(answer.number) & (NUMBERS - 1)];
        self.buffer[self.filled..self.filled + ROOM].copy_from_slice(&text.bytes);
        self.filled += text.length;
        if let Some(day) = answer.day {
            self.put_date(day);
        }
        Ok(())
    }

    /// Overwrites the eight zeros of the answer just written.
    fn put_date(&mut self, day: u32) {
        let mut date = date_of(day);
        for slot in 0..8 {
            self.buffer[self.filled - 2 - slot] = b'0' + (date % 10) as u8;
            date /= 10;
        }
    }

    /// The closing listing.
    pub fn listing(&mut self, register: &Register) -> io::Result<()> {
        self.flush()?;
        for (point, periods, advance, normal) in register.listing() {
            for period in periods {
                let Period { start, holder, volume, normal } = period;
                writeln!(self.to, "{point};{};{holder};{};{}", date_of(*start), volume.0, normal.0)?;
            }
            writeln!(self.to, "total;{point};{};{}", advance.0, normal.0)?;
        }
        Ok(())
    }

    pub fn flush(&mut self) -> io::Result<()> {
        self.to.write_all(&self.buffer[..self.filled])?;
        self.filled = 0;
        self.to.flush()
    }
}
