//! Gas days and dates: 0 is Saturday, 1 January 2000; 73,048 is 31 December 2199.

use crate::line::{not_digits, ZEROS};

pub const LAST_DAY: u32 = 73_048;

const FIRST_YEAR: u32 = 2000;
const YEARS: u32 = 200;
const MONTHS: usize = 12 * YEARS as usize;

/// The first day of each month of the 200 years, and the day after the last of them.
static MONTH_STARTS: [u32; MONTHS + 1] = month_starts();

const fn month_starts() -> [u32; MONTHS + 1] {
    const LENGTHS: [[u32; 12]; 2] =
        [[31, 28, 31, 30, 31, 30, 31, 31, 30, 31, 30, 31], [31, 29, 31, 30, 31, 30, 31, 31, 30, 31, 30, 31]];
    let mut starts = [0; MONTHS + 1];
    let mut month = 0;
    while month < MONTHS {
        // Of the centuries in the calendar, 2000 is a leap year and 2100 is none.
        let year = month / 12;
        let leap = year % 4 == 0 && year != 100;
        starts[month + 1] = starts[month] + LENGTHS[leap as usize][month % 12];
        month += 1;
    }
    starts
}

/// The day of eight digits aaaammjj, given as the word that holds them in reading order.
pub fn day_of(word: u64) -> Option<u32> {
    let digits = word ^ ZEROS;
    if not_digits(digits) != 0 {
        return None;
    }
    // Every second byte becomes a number of two digits: century, year, month, day.
    let pairs = digits.wrapping_mul(10).wrapping_add(digits >> 8);
    let pair = |slot: u32| (pairs >> (16 * slot)) as u32 & 0xff;
    let (century, year, month, day) = (pair(0), pair(1), pair(2), pair(3));
    let century_slot = century.wrapping_sub(FIRST_YEAR / 100);
    let month_slot = month.wrapping_sub(1);
    if century_slot > 1 || month_slot > 11 || day == 0 {
        return None;
    }
    let slot = (12 * (100 * century_slot + year) + month_slot) as usize;
    let gas_day = MONTH_STARTS[slot] + day - 1;
    (gas_day < MONTH_STARTS[slot + 1]).then_some(gas_day)
}

/// The month of a day, counted from January 2000.
fn month_of(day: u32) -> usize {
    MONTH_STARTS.partition_point(|start| *start <= day) - 1
}

/// The date aaaammjj of a day, as a number.
pub fn date_of(day: u32) -> u32 {
    let month = month_of(day);
    let (year, of_year) = (FIRST_YEAR + month as u32 / 12, month as u32 % 12 + 1);
    10_000 * year + 100 * of_year + day - MONTH_STARTS[month] + 1
}

/// The same day of the month three months on, that month's last day, or the calendar's end.
pub fn three_months_after(day: u32) -> u32 {
    let month = month_of(day);
    if month + 3 >= MONTHS {
        return LAST_DAY;
    }
    let same_day = MONTH_STARTS[month + 3] + day - MONTH_STARTS[month];
    same_day.min(MONTH_STARTS[month + 4] - 1)
}

/// The number of working days after one day and before another.
pub fn working_days_between(after: u32, before: u32) -> u32 {
    let weekdays = weekdays_before(before).saturating_sub(weekdays_before(after + 1));
    let first_year = month_of(after) / 12;
    let last_year = month_of(before) / 12;
    let mut free = 0;
    for year in first_year..=last_year {
        let holidays = holidays(year);
        for (slot, holiday) in holidays.iter().enumerate() {
            let counted = holidays[..slot].contains(holiday);
            let inside = after < *holiday && *holiday < before;
            free += u32::from(inside && !counted && holiday % 7 >= 2);
        }
    }
    weekdays - free
}

/// Mondays to Fridays among the days before this one; day 0 is a Saturday.
fn weekdays_before(day: u32) -> u32 {
    day / 7 * 5 + (day % 7).saturating_sub(2)
}

/// The eleven legal holidays of a year counted from 2000; one that stands there twice counts once.
fn holidays(year: usize) -> [u32; 11] {
    let on = |month: usize, day: u32| MONTH_STARTS[12 * year + month - 1] + day - 1;
    let easter = on(3, 1) + easter_from_march(FIRST_YEAR + year as u32) - 1;
    // 9 May is one from 2019 on.
    let europe_day = if FIRST_YEAR + year as u32 >= 2019 { on(5, 9) } else { on(5, 1) };
    [
        on(1, 1),
        on(5, 1),
        europe_day,
        on(6, 23),
        on(8, 15),
        on(11, 1),
        on(12, 25),
        on(12, 26),
        easter + 1,
        easter + 39,
        easter + 50,
    ]
}

/// Easter Sunday as a day of March (32 is 1 April), by the rule of Lilius and Clavius.
fn easter_from_march(year: u32) -> u32 {
    let golden = year % 19 + 1;
    let century = year / 100 + 1;
    let leap_years_dropped = 3 * century / 4 - 12;
    let moon_correction = (8 * century + 5) / 25 - 5;
    let sunday = 5 * year / 4 - leap_years_dropped - 10;
    let mut epact = (11 * golden + 20 + 30 + moon_correction - leap_years_dropped) % 30;
    if epact == 24 || epact == 25 && golden > 11 {
        epact += 1;
    }
    let mut full_moon = 44 - epact;
    if full_moon < 21 {
        full_moon += 30;
    }
    full_moon + 7 - (sunday + full_moon) % 7
}
