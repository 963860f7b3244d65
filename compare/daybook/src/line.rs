//! 01, Message lines, with 02's F-4: what a line says, and the text of a message.

use crate::calendar::Calendar;

/// A line has at most 128 bytes without its line feed.
pub const LONGEST_LINE: usize = 128;

/// The fields after the kind and today, as the line gives them; dates are gas days.
#[derive(Clone, Copy, Debug, PartialEq)]
pub enum Call {
    Contract { supplier: u64 },
    Failure { supplier: u64 },
    Enrol { point: u64, new: NewMeter },
    IntoService { point: u64, supplier: u64, key: u64 },
    Default { point: u64, key: u64 },
    Request { point: u64, supplier: u64, key: u64, requested_day: u64 },
    Cancel { point: u64, supplier: u64 },
    Reading { point: u64, day: u64, index: u64, zero_mark: u64 },
    MeterChange { point: u64, index: u64, zero_mark: u64, new: NewMeter },
    OutOfService { point: u64 },
    Suspend { point: u64, mark: u64 },
    Day,
}

/// The meter that enrolment and meter change bring, as the line gives it.
#[derive(Clone, Copy, Debug, PartialEq)]
pub struct NewMeter {
    pub wheels_before: u64,
    pub wheels_after: u64,
    pub index: u64,
    /// 1 for m³, 2 for Nm³.
    pub code: u64,
    /// In ten-thousandths; 0 for an Nm³ meter.
    pub factor: u64,
}

/// The settings of an opening.
#[derive(Clone, Copy, Debug, PartialEq)]
pub struct Settings {
    /// W, working days to cancel.
    pub cancel_days: u64,
    /// A, days of default supply.
    pub default_days: u64,
    /// B, days of last-resort supply.
    pub last_resort_days: u64,
    pub default_supplier: u64,
    pub last_resort: u64,
}

#[derive(Clone, Copy, Debug, PartialEq)]
pub enum Message {
    Open { first_day: u64, settings: Settings },
    Call { today: u64, call: Call },
}

/// Each kind with the form of its fields after today: `n` a number, `d` a date.
pub const KINDS: [(&str, &str); 13] = [
    ("set", "nnnnn"),
    ("ctr", "n"),
    ("def", "n"),
    ("enr", "nnnnnn"),
    ("demmespc", "nnn"),
    ("i", "nn"),
    ("demcf", "nnnd"),
    ("adc", "nn"),
    ("ri", "ndnn"),
    ("cdt", "nnnnnnnn"),
    ("demmhs", "n"),
    ("sus", "nn"),
    ("jour", ""),
];

/// The message of a readable line.
pub fn read(line: &[u8], calendar: &Calendar) -> Option<Message> {
    if line.len() > LONGEST_LINE {
        return None;
    }
    let mut fields = line.split(|byte| *byte == b';');
    let kind = fields.next()?;
    let (name, form) = KINDS.iter().find(|(name, _)| name.as_bytes() == kind)?;
    let today = read_date(fields.next()?, calendar)?;
    let mut values = Vec::new();
    for form in form.bytes() {
        let field = fields.next()?;
        values.push(if form == b'd' { read_date(field, calendar)? } else { read_number(field)? });
    }
    if fields.next().is_some() {
        return None;
    }
    Some(message(name, today, &values))
}

fn message(kind: &str, today: u64, values: &[u64]) -> Message {
    let call = match (kind, values) {
        ("set", &[cancel_days, default_days, last_resort_days, default_supplier, last_resort]) => {
            let settings = Settings { cancel_days, default_days, last_resort_days, default_supplier, last_resort };
            return Message::Open { first_day: today, settings };
        }
        ("ctr", &[supplier]) => Call::Contract { supplier },
        ("def", &[supplier]) => Call::Failure { supplier },
        ("enr", &[point, wheels_before, wheels_after, index, code, factor]) => {
            Call::Enrol { point, new: NewMeter { wheels_before, wheels_after, index, code, factor } }
        }
        ("demmespc", &[point, supplier, key]) => Call::IntoService { point, supplier, key },
        ("i", &[point, key]) => Call::Default { point, key },
        ("demcf", &[point, supplier, key, requested_day]) => Call::Request { point, supplier, key, requested_day },
        ("adc", &[point, supplier]) => Call::Cancel { point, supplier },
        ("ri", &[point, day, index, zero_mark]) => Call::Reading { point, day, index, zero_mark },
        ("cdt", &[point, index, zero_mark, wheels_before, wheels_after, new_index, code, factor]) => {
            let new = NewMeter { wheels_before, wheels_after, index: new_index, code, factor };
            Call::MeterChange { point, index, zero_mark, new }
        }
        ("demmhs", &[point]) => Call::OutOfService { point },
        ("sus", &[point, mark]) => Call::Suspend { point, mark },
        ("jour", &[]) => Call::Day,
        _ => unreachable!("the table of kinds gives each its fields"),
    };
    Message::Call { today, call }
}

/// A decimal field: 1 to 12 digits, no leading zero except 0 itself.
pub fn read_number(field: &[u8]) -> Option<u64> {
    let leading_zero = field.len() > 1 && field[0] == b'0';
    if field.is_empty() || field.len() > 12 || leading_zero {
        return None;
    }
    read_digits(field)
}

/// A date field aaaammjj: the gas day of a real date of the calendar.
pub fn read_date(field: &[u8], calendar: &Calendar) -> Option<u64> {
    if field.len() != 8 {
        return None;
    }
    calendar.day(read_digits(field)?)
}

fn read_digits(field: &[u8]) -> Option<u64> {
    let mut value = 0;
    for byte in field {
        if !byte.is_ascii_digit() {
            return None;
        }
        value = 10 * value + u64::from(byte - b'0');
    }
    Some(value)
}

impl Message {
    pub fn kind(&self) -> &'static str {
        match self {
            Message::Open { .. } => "set",
            Message::Call { call, .. } => call.kind(),
        }
    }

    /// The line that says this message.
    pub fn text(&self, calendar: &Calendar) -> String {
        match self {
            Message::Open { first_day, settings: s } => format!(
                "set;{};{};{};{};{};{}",
                calendar.date(*first_day),
                s.cancel_days,
                s.default_days,
                s.last_resort_days,
                s.default_supplier,
                s.last_resort
            ),
            Message::Call { today, call } => {
                format!("{};{}{}", call.kind(), calendar.date(*today), call.fields(calendar))
            }
        }
    }
}

impl Call {
    pub fn kind(&self) -> &'static str {
        match self {
            Call::Contract { .. } => "ctr",
            Call::Failure { .. } => "def",
            Call::Enrol { .. } => "enr",
            Call::IntoService { .. } => "demmespc",
            Call::Default { .. } => "i",
            Call::Request { .. } => "demcf",
            Call::Cancel { .. } => "adc",
            Call::Reading { .. } => "ri",
            Call::MeterChange { .. } => "cdt",
            Call::OutOfService { .. } => "demmhs",
            Call::Suspend { .. } => "sus",
            Call::Day => "jour",
        }
    }

    fn fields(&self, calendar: &Calendar) -> String {
        match *self {
            Call::Contract { supplier } | Call::Failure { supplier } => format!(";{supplier}"),
            Call::Enrol { point, new } => format!(";{point}{}", new.fields()),
            Call::IntoService { point, supplier, key } => format!(";{point};{supplier};{key}"),
            Call::Default { point, key } => format!(";{point};{key}"),
            Call::Request { point, supplier, key, requested_day } => {
                format!(";{point};{supplier};{key};{}", calendar.date(requested_day))
            }
            Call::Cancel { point, supplier } => format!(";{point};{supplier}"),
            Call::Reading { point, day, index, zero_mark } => {
                format!(";{point};{};{index};{zero_mark}", calendar.date(day))
            }
            Call::MeterChange { point, index, zero_mark, new } => {
                format!(";{point};{index};{zero_mark}{}", new.fields())
            }
            Call::OutOfService { point } => format!(";{point}"),
            Call::Suspend { point, mark } => format!(";{point};{mark}"),
            Call::Day => String::new(),
        }
    }
}

impl NewMeter {
    fn fields(&self) -> String {
        let NewMeter { wheels_before, wheels_after, index, code, factor } = self;
        format!(";{wheels_before};{wheels_after};{index};{code};{factor}")
    }
}
