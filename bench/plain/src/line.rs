//! Reading a line where it stands in the buffer.

use crate::calendar::day_of;
use crate::register::{Answer, NewMeter, Register, Settings};

/// A kind of line; the order is that of the names.
#[derive(Clone, Copy)]
pub enum Kind {
    Unreadable,
    Set,
    Ctr,
    Def,
    Enr,
    Demmespc,
    I,
    Demcf,
    Adc,
    Ri,
    Cdt,
    Demmhs,
    Sus,
    Jour,
}

pub const KIND_NAMES: [&str; 14] =
    ["?", "set", "ctr", "def", "enr", "demmespc", "i", "demcf", "adc", "ri", "cdt", "demmhs", "sus", "jour"];

/// Bytes that must follow the last line feed so that a field can be read as a word.
pub const PADDING: usize = 16;

/// The last date read, since most lines give the same again.
pub struct DateCache {
    word: u64,
    day: u32,
}

impl DateCache {
    pub fn new() -> DateCache {
        DateCache { word: u64::from_le_bytes(*b"20000101"), day: 0 }
    }
}

/// Eight digits 0 as one word.
pub const ZEROS: u64 = 0x3030_3030_3030_3030;

/// Marks the bytes of a word, less ZEROS, that are no digits: the lowest mark is at the first such byte.
pub fn not_digits(digits: u64) -> u64 {
    (digits | digits.wrapping_add(0x0606_0606_0606_0606)) & 0xf0f0_f0f0_f0f0_f0f0
}

/// The number of eight digits in reading order, each a byte from 0 to 9.
fn value_of(digits: u64) -> u64 {
    let pairs = digits.wrapping_mul(10).wrapping_add(digits >> 8);
    let even = (pairs & 0x0000_00ff_0000_00ff).wrapping_mul(100 + (1_000_000 << 32));
    let odd = ((pairs >> 16) & 0x0000_00ff_0000_00ff).wrapping_mul(1 + (10_000 << 32));
    even.wrapping_add(odd) >> 32
}

/// The fields of a line, one after the other. No field reaches past the line feed.
struct Fields<'a> {
    bytes: &'a [u8],
    at: usize,
    cache: &'a mut DateCache,
}

impl Fields<'_> {
    /// The next eight bytes, which the padding makes sure of.
    #[inline(always)]
    fn word(&self) -> u64 {
        let bytes = self.bytes[self.at..].first_chunk::<8>();
        bytes.map_or(0, |bytes| u64::from_le_bytes(*bytes))
    }

    /// A number of 1 to 12 digits without a leading zero, and the byte that ends it.
    #[inline(always)]
    fn number<const END: u8>(&mut self) -> Option<u64> {
        let digits = self.word() ^ ZEROS;
        let length = not_digits(digits).trailing_zeros() / 8;
        if length == 8 {
            return self.long_number::<END>();
        }
        let leading_zero = length > 1 && digits & 0xff == 0;
        let end = (digits >> (8 * length)) as u8 ^ b'0';
        if length == 0 || leading_zero || end != END {
            return None;
        }
        self.at += length as usize + 1;
        Some(value_of(digits << (64 - 8 * length)))
    }

    /// A number of 8 or more digits.
    #[inline(never)]
    fn long_number<const END: u8>(&mut self) -> Option<u64> {
        let first = self.word() ^ ZEROS;
        if first & 0xff == 0 {
            return None;
        }
        let mut value = value_of(first);
        self.at += 8;
        for _ in 0..5 {
            let byte = self.bytes[self.at];
            self.at += 1;
            if byte == END {
                return Some(value);
            }
            let digit = byte.wrapping_sub(b'0');
            if digit > 9 {
                return None;
            }
            value = 10 * value + u64::from(digit);
        }
        None
    }

    #[inline(never)]
    fn field(&mut self) -> Option<u64> {
        self.number::<b';'>()
    }

    #[inline(never)]
    fn last_field(&mut self) -> Option<u64> {
        self.number::<b'\n'>()
    }

    #[inline(always)]
    fn date<const END: u8>(&mut self) -> Option<u32> {
        let word = self.word();
        if word != self.cache.word {
            self.cache.day = day_of(word)?;
            self.cache.word = word;
        }
        if self.bytes[self.at + 8] != END {
            return None;
        }
        self.at += 9;
        Some(self.cache.day)
    }
}

/// Takes the line at `at` and moves past its line feed. Every readable line is shorter than 129 bytes.
#[inline(always)]
pub fn take(register: &mut Option<Register>, bytes: &[u8], at: &mut usize, cache: &mut DateCache) -> (Kind, Answer) {
    let mut fields = Fields { bytes, at: *at, cache };
    match take_readable(register, &mut fields) {
        Some(answered) => {
            *at = fields.at;
            answered
        }
        None => {
            while bytes[*at] != b'\n' {
                *at += 1;
            }
            *at += 1;
            (Kind::Unreadable, Answer { number: 31, day: None })
        }
    }
}

#[inline(always)]
fn take_readable(register: &mut Option<Register>, fields: &mut Fields) -> Option<(Kind, Answer)> {
    let line = &fields.bytes[fields.at..];
    if line.starts_with(b"ri;") {
        fields.at += 3;
        return Some((Kind::Ri, reading(register.as_mut()?, fields)?));
    }
    take_other(register, fields)
}

#[inline(always)]
fn reading(register: &mut Register, fields: &mut Fields) -> Option<Answer> {
    let today = fields.date::<b';'>()?;
    let point = fields.number::<b';'>()?;
    let day = fields.date::<b';'>()?;
    let index = fields.number::<b';'>()?;
    let zero_mark = fields.number::<b'\n'>()?;
    Some(register.reading(today, point, day, index, zero_mark))
}

#[inline(never)]
fn take_other(register: &mut Option<Register>, fields: &mut Fields) -> Option<(Kind, Answer)> {
    let line = &fields.bytes[fields.at..];
    let kind = match line.first()? {
        b'a' => Kind::Adc,
        b'c' if line.starts_with(b"cd") => Kind::Cdt,
        b'c' => Kind::Ctr,
        b'd' if line.starts_with(b"demc") => Kind::Demcf,
        b'd' if line.starts_with(b"demme") => Kind::Demmespc,
        b'd' if line.starts_with(b"dem") => Kind::Demmhs,
        b'd' => Kind::Def,
        b'e' => Kind::Enr,
        b'i' => Kind::I,
        b'j' => Kind::Jour,
        b's' if line.starts_with(b"se") => Kind::Set,
        b's' => Kind::Sus,
        _ => return None,
    };
    let name = KIND_NAMES[kind as usize].as_bytes();
    if !line.starts_with(name) || line[name.len()] != b';' {
        return None;
    }
    fields.at += name.len() + 1;
    let answer = match (kind, register.as_mut()) {
        (Kind::Set, None) => open(register, fields)?,
        (_, Some(register)) => call(register, kind, fields)?,
        _ => return None,
    };
    Some((kind, answer))
}

fn open(register: &mut Option<Register>, fields: &mut Fields) -> Option<Answer> {
    let first_day = fields.date::<b';'>()?;
    let settings = Settings {
        cancel_days: fields.field()?,
        default_days: fields.field()?,
        last_resort_days: fields.field()?,
        default_supplier: fields.field()?,
        last_resort: fields.last_field()?,
    };
    *register = Register::open(first_day, &settings);
    Some(Answer { number: if register.is_some() { 0 } else { 22 }, day: None })
}

fn call(register: &mut Register, kind: Kind, fields: &mut Fields) -> Option<Answer> {
    if let Kind::Jour = kind {
        return Some(register.move_day(fields.date::<b'\n'>()?));
    }
    let today = fields.date::<b';'>()?;
    let answer = match kind {
        Kind::Ctr => register.contract(today, fields.last_field()?),
        Kind::Def => register.failure(today, fields.last_field()?),
        Kind::Enr => {
            let point = fields.field()?;
            register.enrol(today, point, &new_meter(fields)?)
        }
        Kind::Demmespc => {
            let (point, supplier) = (fields.field()?, fields.field()?);
            register.put_into_service(today, point, supplier, fields.last_field()?)
        }
        Kind::I => {
            let point = fields.field()?;
            register.default(today, point, fields.last_field()?)
        }
        Kind::Demcf => {
            let (point, supplier, key) = (fields.field()?, fields.field()?, fields.field()?);
            register.request(today, point, supplier, key, fields.date::<b'\n'>()?)
        }
        Kind::Adc => {
            let point = fields.field()?;
            register.cancel(today, point, fields.last_field()?)
        }
        Kind::Cdt => {
            let (point, index, zero_mark) = (fields.field()?, fields.field()?, fields.field()?);
            register.meter_change(today, point, index, zero_mark, &new_meter(fields)?)
        }
        Kind::Demmhs => register.out_of_service(today, fields.last_field()?),
        Kind::Sus => {
            let point = fields.field()?;
            register.suspend(today, point, fields.last_field()?)
        }
        Kind::Set | Kind::Ri | Kind::Jour | Kind::Unreadable => return None,
    };
    Some(answer)
}

/// The last five fields of an enrolment and of a meter change.
fn new_meter(fields: &mut Fields) -> Option<NewMeter> {
    Some(NewMeter {
        wheels_before: fields.field()?,
        wheels_after: fields.field()?,
        index: fields.field()?,
        code: fields.field()?,
        factor: fields.last_field()?,
    })
}
