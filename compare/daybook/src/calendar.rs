//! 01, The calendar: gas days 0 (Saturday, 1 January 2000) to 73,048 (31 December 2199).

pub const LAST_DAY: u64 = 73_048;

pub const FIRST_YEAR: u64 = 2000;
pub const LAST_YEAR: u64 = 2199;

/// Month lengths, common and leap.
const MONTH_LENGTHS: [[u64; 12]; 2] =
    [[31, 28, 31, 30, 31, 30, 31, 31, 30, 31, 30, 31], [31, 29, 31, 30, 31, 30, 31, 31, 30, 31, 30, 31]];

/// Holidays with a fixed month and day, the same in every year.
const FIXED_HOLIDAYS: [(u64, u64); 7] = [(1, 1), (5, 1), (6, 23), (8, 15), (11, 1), (12, 25), (12, 26)];

/// F-2: 9 May, Europe Day, is a holiday from this year on.
const EUROPE_DAY: (u64, u64) = (5, 9);
const EUROPE_DAY_FROM: u64 = 2019;

/// Holidays as days after Easter Sunday.
const AFTER_EASTER: [u64; 3] = [1, 39, 50];

pub struct Calendar {
    /// The date aaaammjj of each gas day, rising.
    dates: Vec<u64>,
    working: Vec<bool>,
}

impl Default for Calendar {
    fn default() -> Self {
        Self::new()
    }
}

impl Calendar {
    /// Walks through the 200 years once.
    pub fn new() -> Calendar {
        let mut calendar = Calendar { dates: Vec::new(), working: Vec::new() };
        for year in FIRST_YEAR..=LAST_YEAR {
            for month in 1..=12 {
                for day in 1..=month_length(year, month) {
                    calendar.dates.push(date_number(year, month, day));
                }
            }
        }
        for year in FIRST_YEAR..=LAST_YEAR {
            calendar.add_working_days(year);
        }
        calendar
    }

    fn add_working_days(&mut self, year: u64) {
        let (month, day) = easter(year);
        let easter_day = self.day(date_number(year, month, day)).expect("Easter is a date");
        let first = self.day(date_number(year, 1, 1)).expect("1 January is a date");
        let last = self.day(date_number(year, 12, 31)).expect("31 December is a date");
        for day in first..=last {
            let date = self.date(day);
            let of_month = (date / 100 % 100, date % 100);
            let fixed = FIXED_HOLIDAYS.contains(&of_month);
            let europe_day = of_month == EUROPE_DAY && year >= EUROPE_DAY_FROM;
            let movable = AFTER_EASTER.iter().any(|after| day == easter_day + after);
            // Day 0 is a Saturday, day 1 a Sunday.
            let weekend = day % 7 < 2;
            self.working.push(!weekend && !fixed && !europe_day && !movable);
        }
    }

    /// The gas day of a date aaaammjj, if it is a real date of the calendar.
    pub fn day(&self, date: u64) -> Option<u64> {
        self.dates.binary_search(&date).ok().map(|day| day as u64)
    }

    /// The date aaaammjj of a gas day.
    pub fn date(&self, day: u64) -> u64 {
        self.dates[day as usize]
    }

    /// The same day of the month three months on, or that month's last day; never past the calendar's end.
    pub fn three_months_after(&self, day: u64) -> u64 {
        let date = self.date(day);
        let (mut year, mut month, mut day_of_month) = (date / 10_000, date / 100 % 100 + 3, date % 100);
        if month > 12 {
            year += 1;
            month -= 12;
        }
        if year > LAST_YEAR {
            return LAST_DAY;
        }
        while day_of_month > month_length(year, month) {
            day_of_month -= 1;
        }
        self.day(date_number(year, month, day_of_month)).expect("a real date")
    }

    /// The number of working days after one day and before another.
    pub fn working_days_between(&self, after: u64, before: u64) -> u64 {
        (after + 1..before).filter(|day| self.working[*day as usize]).count() as u64
    }

    /// F-5: the working days between two dates aaaammjj of the calendar, the first not after the last.
    pub fn working_days_of_span(&self, first: u64, last: u64) -> Option<u64> {
        let (first, last) = self.day(first).zip(self.day(last))?;
        (first <= last).then(|| self.working_days_between(first, last))
    }
}

fn date_number(year: u64, month: u64, day: u64) -> u64 {
    year * 10_000 + month * 100 + day
}

fn is_leap(year: u64) -> bool {
    year.is_multiple_of(4) && (!year.is_multiple_of(100) || year.is_multiple_of(400))
}

fn month_length(year: u64, month: u64) -> u64 {
    MONTH_LENGTHS[is_leap(year) as usize][month as usize - 1]
}

/// Month and day of Easter Sunday by the Gregorian computus, in its form without tables.
pub fn easter(year: u64) -> (u64, u64) {
    let golden = year % 19;
    let (century, of_century) = (year / 100, year % 100);
    let moon_shift = (century - (century + 8) / 25 + 1) / 3;
    let epact = (19 * golden + century - century / 4 - moon_shift + 15) % 30;
    let to_sunday = (32 + 2 * (century % 4) + 2 * (of_century / 4) - epact - of_century % 4) % 7;
    let correction = (golden + 11 * epact + 22 * to_sunday) / 451;
    let from_march = epact + to_sunday + 114 - 7 * correction;
    (from_march / 31, from_march % 31 + 1)
}

#[cfg(test)]
mod tests {
    use super::*;

    #[test]
    fn dated_examples() {
        let calendar = Calendar::new();
        assert_eq!(calendar.dates.len() as u64, LAST_DAY + 1);
        assert_eq!(calendar.working.len() as u64, LAST_DAY + 1);
        assert_eq!(calendar.day(20200229), Some(7_364));
        assert_eq!(calendar.day(21000229), None);
        assert_eq!(calendar.day(21991231), Some(LAST_DAY));
        assert_eq!(easter(2021), (4, 4));
        assert_eq!(calendar.day(20210404), Some(7_764));
        assert_eq!(easter(2008), (3, 23));
        assert_eq!(calendar.day(20080323).unwrap() + 39, calendar.day(20080501).unwrap());
        assert_eq!(calendar.three_months_after(7_822), 7_914);
        let november = calendar.day(20211130).unwrap();
        assert_eq!(calendar.date(calendar.three_months_after(november)), 20220228);
        assert_eq!(calendar.three_months_after(LAST_DAY - 60), LAST_DAY);
    }

    #[test]
    fn whit_monday_of_2021() {
        let calendar = Calendar::new();
        let effective_day = calendar.day(20210525).unwrap();
        let on = |date| calendar.working_days_between(calendar.day(date).unwrap(), effective_day);
        assert_eq!((on(20210519), on(20210520)), (2, 1));
    }

    #[test]
    fn europe_day() {
        let calendar = Calendar::new();
        let worked = |date| calendar.working[calendar.day(date).unwrap() as usize];
        // Mondays to Fridays; 2002 and 2013 are Ascension.
        for year in [2000, 2001, 2003, 2005, 2006, 2007, 2008, 2011, 2012, 2014, 2016, 2017, 2018] {
            assert!(worked(year * 10_000 + 509), "9 May {year}");
        }
        for year in [2002, 2013, 2019, 2022, 2023, 2024, 2025, 2197] {
            assert!(!worked(year * 10_000 + 509), "9 May {year}");
        }
        let from =
            |first, last| calendar.working_days_between(calendar.day(first).unwrap(), calendar.day(last).unwrap());
        assert_eq!((from(20160506, 20160510), from(20180508, 20180510), from(20190508, 20190510)), (1, 1, 0));
    }

    #[test]
    fn at_least_ten_working_days_in_the_notice() {
        let calendar = Calendar::new();
        let fewest = (0..=LAST_DAY - 21).map(|day| calendar.working_days_between(day, day + 21)).min();
        assert_eq!(fewest, Some(10));
    }
}
