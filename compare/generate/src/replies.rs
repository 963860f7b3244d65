//! How often each kind of reply came for spans and for views.

use daybook::book::is_point;
use daybook::calendar::Calendar;
use std::io::{self, BufRead};

/// Of spans: refused in two ways, or a count of at least so much.
const OF_SPANS: [(&str, u64); 8] = [
    ("off the calendar", 0),
    ("out of order", 0),
    ("0", 0),
    ("1 to 9", 1),
    ("10 to 99", 10),
    ("100 to 999", 100),
    ("1,000 to 9,999", 1_000),
    ("10,000 and more", 10_000),
];
const OFF_THE_CALENDAR: usize = 0;
const OUT_OF_ORDER: usize = 1;

/// Of views: refused with 22, with 41 by its cause, or a period: open, or ended by the supplier's own next one or by
/// another's, before the supplier comes back or for good.
const OF_VIEWS: [&str; 10] = [
    "22",
    "41: point off",
    "41: not enrolled",
    "41: never held",
    "41: n = 0",
    "41: n too high",
    "open",
    "own next",
    "another's (back)",
    "another's (last)",
];
const SUPPLIER: usize = 0;
const POINT_OFF: usize = 1;
const NOT_ENROLLED: usize = 2;
const NEVER_HELD: usize = 3;
const NUMBER_0: usize = 4;
const NUMBER_TOO_HIGH: usize = 5;
const OPEN: usize = 6;
const OWN_NEXT: usize = 7;
const BACK: usize = 8;
const FOR_GOOD: usize = 9;

/// How often each kind came, by its name.
pub struct Replies<const KINDS: usize> {
    names: [&'static str; KINDS],
    counts: [u64; KINDS],
}

impl Replies<8> {
    /// Counts the lines of spans by their reply lines.
    pub fn to_spans(spans: &str, replies: &str) -> Replies<8> {
        let calendar = Calendar::default();
        let mut counts = [0; 8];
        for (span, reply) in spans.lines().zip(replies.lines()) {
            counts[of_span(span, reply, &calendar)] += 1;
        }
        Replies { names: OF_SPANS.map(|(name, _)| name), counts }
    }
}

impl Replies<10> {
    /// Counts the view lines of `ask all` in their order, and those that tell an Nm³ volume of its own.
    pub fn to_views(lines: impl BufRead) -> io::Result<(Replies<10>, u64)> {
        let (mut counts, mut converted) = ([0; 10], 0);
        let mut before = String::new();
        let mut lines = lines.lines().peekable();
        while let Some(line) = lines.next().transpose()? {
            let after = lines.peek().and_then(|line| line.as_deref().ok()).unwrap_or("");
            counts[of_view(&before, &line, after)] += 1;
            converted += u64::from(has_own_normal(&line));
            before = line;
        }
        Ok((Replies { names: OF_VIEWS, counts }, converted))
    }
}

impl<const KINDS: usize> Replies<KINDS> {
    pub fn count(&self) -> u64 {
        self.counts.iter().sum()
    }

    pub fn table(&self) -> String {
        let row = |cells: [String; KINDS]| cells.map(|cell| format!("{cell:>17}")).concat() + "\n";
        row(self.names.map(str::to_string)) + &row(self.counts.map(|count| count.to_string()))
    }

    /// The kinds that never came.
    pub fn never_came(&self) -> String {
        let missing = self.names.iter().zip(self.counts).filter(|(_, count)| *count == 0);
        match missing.map(|(name, _)| *name).collect::<Vec<_>>() {
            none if none.is_empty() => "none".to_string(),
            kinds => kinds.join(", "),
        }
    }
}

fn of_span(span: &str, reply: &str, calendar: &Calendar) -> usize {
    let Some(count) = reply.strip_prefix("ok;") else {
        let real = |date: &str| date.parse().ok().and_then(|date| calendar.day(date)).is_some();
        return if span.split(' ').all(real) { OUT_OF_ORDER } else { OFF_THE_CALENDAR };
    };
    let count: u64 = count.parse().expect("a reply has a count");
    OF_SPANS.iter().rposition(|(_, least)| count >= *least).expect("0 is a kind")
}

/// A point that is enrolled is asked from number 0 on, any other for number 1 alone.
fn of_view(before: &str, line: &str, after: &str) -> usize {
    let [before, line, after] = [before, line, after].map(fields);
    match line[..] {
        [_, _, _, _, "refused", "22"] => SUPPLIER,
        [_, _, _, "0", "refused", _] => NUMBER_0,
        [_, _, _, "1", "refused", _] if before.starts_with(&line[..3]) => NEVER_HELD,
        [_, _, point, "1", "refused", _] if point.parse().is_ok_and(is_point) => NOT_ENROLLED,
        [_, _, _, "1", "refused", _] => POINT_OFF,
        [_, _, _, _, "refused", _] => NUMBER_TOO_HIGH,
        [_, _, _, _, "ok", _, "-", ..] => OPEN,
        [_, _, _, _, "ok", _, end, ..] => match after[..] {
            [_, _, _, _, "ok", start, ..] if start == end => OWN_NEXT,
            [_, _, _, _, "ok", ..] => BACK,
            _ => FOR_GOOD,
        },
        _ => unreachable!("a view is refused or tells a period"),
    }
}

fn has_own_normal(line: &str) -> bool {
    matches!(fields(line)[..], [_, _, _, _, "ok", _, _, volume, normal] if volume != normal)
}

fn fields(line: &str) -> Vec<&str> {
    line.split(';').collect()
}
