//! 01, Questions, with 02's F-1 and F-4 to F-6: holder, period, advance, a supplier's own view and working days, as
//! `ask` prints them.

use crate::book::{is_supplier, DayBook, Period, POINTS, SUPPLIERS};
use crate::calendar::Calendar;
use crate::line::{read_date, read_number};
use std::iter;

pub const USAGE: &str = "usage: ask holder P DATE | ask period P N | ask advance P | ask view S P N | \
                         ask working DATE DATE | ask all";

/// A day is a gas day; first and last are dates aaaammjj as they are given, of the calendar or not.
#[derive(Clone, Copy, Debug, PartialEq)]
pub enum Question {
    Holder { point: u64, day: u64 },
    Period { point: u64, number: u64 },
    Advance { point: u64 },
    View { supplier: u64, point: u64, number: u64 },
    Working { first: u64, last: u64 },
    All,
}

/// The question that the words after `ask` put.
pub fn read(words: &[&str], calendar: &Calendar) -> Option<Question> {
    let number = |word: &str| read_number(word.as_bytes());
    match *words {
        ["holder", p, date] => Some(Question::Holder { point: number(p)?, day: read_date(date.as_bytes(), calendar)? }),
        ["period", p, n] => Some(Question::Period { point: number(p)?, number: number(n)? }),
        ["advance", p] => Some(Question::Advance { point: number(p)? }),
        ["view", s, p, n] => Some(Question::View { supplier: number(s)?, point: number(p)?, number: number(n)? }),
        ["working", first, last] => Some(Question::Working { first: eight_digits(first)?, last: eight_digits(last)? }),
        ["all"] => Some(Question::All),
        _ => None,
    }
}

/// A word of eight digits without a leading zero.
fn eight_digits(word: &str) -> Option<u64> {
    read_number(word.as_bytes()).filter(|_| word.len() == 8)
}

impl Question {
    /// Working days are the calendar's alone.
    pub fn needs_register(&self) -> bool {
        !matches!(self, Question::Working { .. })
    }
}

/// The lines that answer a question.
pub fn answer(book: Option<&DayBook>, calendar: &Calendar, question: Question) -> String {
    match (question, book) {
        (Question::Working { first, last }, _) => working(calendar, first, last) + "\n",
        (_, None) => "unopened\n".to_string(),
        (Question::Holder { point, day }, Some(book)) => holder(book, point, day) + "\n",
        (Question::Period { point, number }, Some(book)) => period(&periods(book, point), calendar, number) + "\n",
        (Question::Advance { point }, Some(book)) => advance(book, point) + "\n",
        (Question::View { supplier, point, number }, Some(book)) => {
            view(&periods(book, point), calendar, supplier, number) + "\n"
        }
        (Question::All, Some(book)) => all(book, calendar),
    }
}

/// The reply to a line of two dates: what `ask working` tells of them.
pub fn working_line(line: &[u8], calendar: &Calendar) -> String {
    let line = String::from_utf8_lossy(line);
    let words: Vec<&str> = iter::once("working").chain(line.split(' ')).collect();
    read(&words, calendar).map_or(format!("{USAGE}\n"), |question| answer(None, calendar, question))
}

const REFUSED: &str = "refused;22";
const NOT_IN_PERIMETER: &str = "refused;41";

fn holder(book: &DayBook, point: u64, day: u64) -> String {
    let told = book.holder_on(point, day);
    told.map_or(format!("{REFUSED};0"), |holder| format!("ok;{holder};{}", book.probes(point, day)))
}

/// The periods of a point; a point that is not enrolled has none.
fn periods(book: &DayBook, point: u64) -> Vec<Period> {
    if book.advance(point).is_some() {
        book.periods(point)
    } else {
        Vec::new()
    }
}

/// A period's start as a date, its holder and its two volumes.
fn period(periods: &[Period], calendar: &Calendar, number: u64) -> String {
    let slot = (number as usize).checked_sub(1);
    let Some(period) = slot.and_then(|slot| periods.get(slot)) else { return REFUSED.to_string() };
    format!("ok;{};{};{};{}", calendar.date(period.start), period.holder, period.volume, period.normal)
}

fn advance(book: &DayBook, point: u64) -> String {
    let both = book.advance(point).zip(book.normal_advance(point));
    both.map_or(REFUSED.to_string(), |(advance, normal)| format!("ok;{advance};{normal}"))
}

/// The n-th of a point's periods that a supplier holds, oldest first: its start and end as dates, the end `-` where it
/// is open, and its two volumes.
fn view(periods: &[Period], calendar: &Calendar, supplier: u64, number: u64) -> String {
    if !is_supplier(supplier) {
        return REFUSED.to_string();
    }
    let mut own = periods.iter().filter(|period| period.holder == supplier);
    let slot = (number as usize).checked_sub(1);
    let Some(period) = slot.and_then(|slot| own.nth(slot)) else { return NOT_IN_PERIMETER.to_string() };
    let end = period.end.map_or("-".to_string(), |end| calendar.date(end).to_string());
    format!("ok;{};{end};{};{}", calendar.date(period.start), period.volume, period.normal)
}

fn working(calendar: &Calendar, first: u64, last: u64) -> String {
    calendar.working_days_of_span(first, last).map_or(REFUSED.to_string(), |count| format!("ok;{count}"))
}

/// Every question inside and just off its range; the days asked for are written as numbers.
fn all(book: &DayBook, calendar: &Calendar) -> String {
    let mut lines = String::new();
    for p in 0..=POINTS + 1 {
        lines += &format!("advance;{p};{}\n", advance(book, p));
        let periods = periods(book, p);
        let enrolled = book.points.get(p as usize).copied().flatten();
        let Some(point) = enrolled else {
            lines += &format!("holder;{p};{};{}\n", book.day, holder(book, p, book.day));
            lines += &format!("period;{p};1;{}\n", period(&periods, calendar, 1));
            for supplier in [0, 1] {
                lines += &format!("view;{supplier};{p};1;{}\n", view(&periods, calendar, supplier, 1));
            }
            continue;
        };
        for number in 0..=periods.len() as u64 + 1 {
            lines += &format!("period;{p};{number};{}\n", period(&periods, calendar, number));
        }
        for day in point.enrolment.saturating_sub(1)..=book.day + 1 {
            lines += &format!("holder;{p};{day};{}\n", holder(book, p, day));
        }
        for supplier in 0..=SUPPLIERS + 1 {
            lines += &views(&periods, calendar, supplier, p);
        }
    }
    lines
}

/// What a supplier sees of an enrolled point, from number 0 up to the first past its count.
fn views(periods: &[Period], calendar: &Calendar, supplier: u64, p: u64) -> String {
    let mut lines = String::new();
    for number in 0.. {
        let reply = view(periods, calendar, supplier, number);
        lines += &format!("view;{supplier};{p};{number};{reply}\n");
        if number > 0 && reply.starts_with("refused") {
            break;
        }
    }
    lines
}
