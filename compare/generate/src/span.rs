//! Spans of days, two dates a line: each kind in turn, most of them of the calendar and in order.

use crate::random::Random;
use daybook::calendar::{easter, Calendar, FIRST_YEAR, LAST_DAY, LAST_YEAR};

type Make = fn(&mut SpanMaker) -> (u64, u64);

/// Two days of the calendar, the first not after the last.
const IN_ORDER: [Make; 14] = [
    SpanMaker::one_day,
    SpanMaker::neighbours,
    SpanMaker::weeks,
    SpanMaker::end_of_a_year,
    SpanMaker::ninth_of_may,
    SpanMaker::after_easter,
    SpanMaker::end_of_february,
    SpanMaker::blocks,
    SpanMaker::years,
    SpanMaker::decades,
    SpanMaker::whole_calendar,
    SpanMaker::first_days,
    SpanMaker::last_days,
    SpanMaker::anywhere,
];

/// Two dates that are refused.
const REFUSED: [Make; 4] =
    [SpanMaker::out_of_order, SpanMaker::before_the_calendar, SpanMaker::past_the_calendar, SpanMaker::no_date];

/// Days after 1 January on both sides of each block of 64 days.
const BLOCK_ENDS: [u64; 10] = [63, 64, 127, 128, 191, 192, 255, 256, 319, 320];

pub struct SpanMaker {
    random: Random,
    calendar: Calendar,
}

impl SpanMaker {
    pub fn new(seed: u64) -> SpanMaker {
        SpanMaker { random: Random::new(seed), calendar: Calendar::default() }
    }

    /// The next span; its number gives the kind.
    pub fn line(&mut self, number: u64) -> String {
        let kind = number as usize % (IN_ORDER.len() + REFUSED.len());
        let (first, last) = match IN_ORDER.get(kind) {
            Some(days) => self.dates(*days),
            None => REFUSED[kind - IN_ORDER.len()](self),
        };
        format!("{first} {last}\n")
    }

    fn dates(&mut self, days: Make) -> (u64, u64) {
        let (first, last) = days(self);
        (self.calendar.date(first), self.calendar.date(last))
    }

    fn any_day(&mut self) -> u64 {
        self.random.between(0, LAST_DAY)
    }

    fn any_year(&mut self) -> u64 {
        self.random.between(FIRST_YEAR, LAST_YEAR)
    }

    /// One of these years, or any.
    fn year_of(&mut self, years: &[u64]) -> u64 {
        if self.random.percent(70) {
            self.random.pick(years)
        } else {
            self.any_year()
        }
    }

    /// The day of a year that has this month and day.
    fn day_of(&self, year: u64, month_and_day: u64) -> u64 {
        self.calendar.day(10_000 * year + month_and_day).expect("a real date")
    }

    /// From at most so many days before a day to at most as many after it.
    fn around(&mut self, day: u64, most: u64) -> (u64, u64) {
        let first = day.saturating_sub(self.random.between(0, most));
        (first, (day + self.random.between(0, most)).min(LAST_DAY))
    }

    fn one_day(&mut self) -> (u64, u64) {
        let day = self.any_day();
        (day, day)
    }

    fn neighbours(&mut self) -> (u64, u64) {
        let day = self.random.below(LAST_DAY);
        (day, day + 1)
    }

    fn weeks(&mut self) -> (u64, u64) {
        let first = self.random.between(0, LAST_DAY - 40);
        (first, first + self.random.between(1, 40))
    }

    /// Leap years, common ones, 2100 and the last year, where the span ends with the calendar.
    fn end_of_a_year(&mut self) -> (u64, u64) {
        let year = self.year_of(&[2000, 2020, 2021, 2096, 2099, 2100, 2199]);
        self.around(self.day_of(year, 1231), 10)
    }

    /// Before and after 2019, from when on it is a holiday.
    fn ninth_of_may(&mut self) -> (u64, u64) {
        let year = self.year_of(&[2000, 2012, 2016, 2017, 2018, 2019, 2022, 2023]);
        self.around(self.day_of(year, 509), 3)
    }

    /// Easter Sunday, Easter Monday, Ascension or Whit Monday.
    fn after_easter(&mut self) -> (u64, u64) {
        let year = self.any_year();
        let (month, day) = easter(year);
        let after = self.random.pick(&[0, 1, 39, 50]);
        self.around(self.day_of(year, 100 * month + day) + after, 3)
    }

    fn end_of_february(&mut self) -> (u64, u64) {
        let year = self.year_of(&[2000, 2020, 2023, 2024, 2096, 2100, 2104, 2196]);
        self.around(self.day_of(year, 228), 3)
    }

    /// From or to an end of a block of 64 days, some days away or at another.
    fn blocks(&mut self) -> (u64, u64) {
        let end = self.block_end();
        match self.random.below(3) {
            0 => (end - self.random.between(0, 63), end),
            1 => (end, (end + self.random.between(0, 64)).min(LAST_DAY)),
            _ => in_order(end, self.block_end()),
        }
    }

    fn block_end(&mut self) -> u64 {
        let year = self.any_year();
        self.day_of(year, 101) + self.random.pick(&BLOCK_ENDS)
    }

    /// One to three whole years, with or without the days next to them.
    fn years(&mut self) -> (u64, u64) {
        let count = self.random.between(1, 3);
        let year = self.random.between(FIRST_YEAR, LAST_YEAR - count);
        let (first, last) = (self.day_of(year, 101), self.day_of(year + count - 1, 1231));
        (first.saturating_sub(self.random.below(2)), last + self.random.below(2))
    }

    fn decades(&mut self) -> (u64, u64) {
        let apart = 10 * self.random.between(1, 19);
        let year = self.random.between(FIRST_YEAR, LAST_YEAR - apart);
        let month_and_day = self.random.pick(&[101, 228, 301, 509, 630, 1231]);
        (self.day_of(year, month_and_day), self.day_of(year + apart, month_and_day))
    }

    fn whole_calendar(&mut self) -> (u64, u64) {
        if self.random.percent(50) {
            return (0, LAST_DAY);
        }
        (self.random.below(5), LAST_DAY - self.random.below(5))
    }

    fn first_days(&mut self) -> (u64, u64) {
        let most = self.random.pick(&[5, 40, 400]);
        in_order(self.random.below(5), self.random.below(most))
    }

    fn last_days(&mut self) -> (u64, u64) {
        let (first, last) = self.first_days();
        (LAST_DAY - last, LAST_DAY - first)
    }

    fn anywhere(&mut self) -> (u64, u64) {
        in_order(self.any_day(), self.any_day())
    }

    fn out_of_order(&mut self) -> (u64, u64) {
        loop {
            let days = self.random.pick(&IN_ORDER);
            let (first, last) = self.dates(days);
            if first < last {
                return (last, first);
            }
        }
    }

    fn before_the_calendar(&mut self) -> (u64, u64) {
        let date = self.random.pick(&[10000000, 10000101, 19000228, 19960229, 19991230, 19991231]);
        let (_, real) = self.dates(SpanMaker::one_day);
        self.random.pick(&[(date, real), (date, real), (real, date), (date, date)])
    }

    fn past_the_calendar(&mut self) -> (u64, u64) {
        let date = self.random.pick(&[22000101, 22000102, 22001231, 24000229, 99991231, 99999999]);
        let (real, _) = self.dates(SpanMaker::one_day);
        self.random.pick(&[(real, date), (real, date), (date, real), (date, date)])
    }

    /// A 29 February or a 31st that there is not, a month or a day 0 or too high; in order by the year.
    fn no_date(&mut self) -> (u64, u64) {
        let (year, month_and_day) = if self.random.percent(40) {
            (self.random.pick(&[2001, 2019, 2021, 2022, 2023, 2100, 2101, 2199]), 229)
        } else {
            (self.any_year(), self.random.pick(&[0, 15, 100, 132, 230, 431, 631, 931, 1131, 1232, 1301, 9999]))
        };
        let date = 10_000 * year + month_and_day;
        if self.random.percent(50) {
            let first = self.random.between(0, self.day_of(year, 101));
            (self.calendar.date(first), date)
        } else {
            let last = self.random.between(self.day_of(year, 1231), LAST_DAY);
            (date, self.calendar.date(last))
        }
    }
}

fn in_order(one: u64, other: u64) -> (u64, u64) {
    (one.min(other), one.max(other))
}
