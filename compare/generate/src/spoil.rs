//! Changes to the fields of a readable call, each aimed at a rejection number.

use crate::random::Random;
use daybook::book::{Meter, Points, HIGHEST_FACTOR};
use daybook::calendar::{Calendar, LAST_DAY};
use daybook::line::{Call, NewMeter, Settings};
use daybook::volume::Counts;

/// The highest number of 12 digits.
const HIGHEST: u64 = 999_999_999_999;

/// What a spoiled field is measured against.
pub struct Around<'a> {
    pub today: u64,
    pub points: &'a Points,
    pub calendar: &'a Calendar,
    pub settings: &'a Settings,
}

/// Changes one field of the call.
pub fn spoil(random: &mut Random, call: &mut Call, around: &Around) {
    match call {
        Call::Contract { supplier } => *supplier = false_supplier(random),
        Call::Failure { supplier } => {
            *supplier = match random.below(4) {
                0 => false_supplier(random),
                1 => random.pick(&[around.settings.default_supplier, around.settings.last_resort]),
                _ => random.between(1, 99),
            }
        }
        Call::Enrol { point, new } => match random.below(8) {
            0 | 1 => *point = any_point(random),
            2 => long_numbers(random, &mut [point], new),
            _ => spoil_meter(random, new),
        },
        Call::IntoService { point, supplier, key } => match random.below(3) {
            0 => *point = any_point(random),
            1 => *supplier = any_supplier(random),
            _ => *key = false_key(random),
        },
        Call::Default { point, key } => match random.below(2) {
            0 => *point = any_point(random),
            _ => *key = false_key(random),
        },
        Call::Request { point, supplier, key, requested_day } => match random.below(6) {
            0 => *point = any_point(random),
            1 => *supplier = any_supplier(random),
            2 => *key = false_key(random),
            3 => *key = random.pick(&[*key + 1, key.saturating_sub(1), 1, 999_999_999]),
            _ => *requested_day = edge_requested_day(random, around),
        },
        Call::Cancel { point, supplier } => match random.below(2) {
            0 => *point = any_point(random),
            _ => *supplier = any_supplier(random),
        },
        Call::Reading { point, day, index, zero_mark } => {
            let known = around.points.get(*point as usize).copied().flatten();
            match (random.below(5), known) {
                (0, _) => *point = any_point(random),
                (1, _) => *zero_mark = random.pick(&[1 - (*zero_mark).min(1), 2, HIGHEST]),
                (2, Some(known)) => {
                    let day_before = known.last_day.saturating_sub(1);
                    *day = random.pick(&[known.last_day, day_before, around.today + 1, around.today]).min(LAST_DAY);
                }
                (_, Some(known)) => *index = edge_index(random, known.meter.full_turn(), known.last_index),
                (_, None) => *day = random.between(0, LAST_DAY),
            }
        }
        Call::MeterChange { point, index, zero_mark, new } => {
            let known = around.points.get(*point as usize).copied().flatten();
            match (random.below(10), known) {
                (0 | 1, _) => *point = any_point(random),
                (2, _) => *zero_mark = random.pick(&[1 - (*zero_mark).min(1), 2, 10]),
                (3, _) => long_numbers(random, &mut [point, index, zero_mark], new),
                (4, Some(known)) => *index = edge_index(random, known.meter.full_turn(), known.last_index),
                _ => spoil_meter(random, new),
            }
        }
        Call::OutOfService { point } => *point = any_point(random),
        Call::Suspend { point, mark } => match random.below(2) {
            0 => *point = any_point(random),
            _ => *mark = random.pick(&[2, 3, HIGHEST]),
        },
        Call::Day => {}
    }
}

/// Changes one setting of an opening so that it is refused.
pub fn spoil_settings(random: &mut Random, settings: &mut Settings) {
    match random.below(6) {
        0 => settings.cancel_days = random.pick(&[11, 12, HIGHEST]),
        1 => settings.default_days = random.pick(&[0, 401, HIGHEST]),
        2 => settings.last_resort_days = random.pick(&[0, 401, HIGHEST]),
        3 => settings.default_supplier = false_supplier(random),
        4 => settings.last_resort = false_supplier(random),
        _ => settings.last_resort = settings.default_supplier,
    }
}

/// Changes a field of a new meter; a false factor often stands beside another false field.
fn spoil_meter(random: &mut Random, new: &mut NewMeter) {
    match random.below(7) {
        0 => spoil_wheels(random, &mut new.wheels_before, &mut new.wheels_after),
        1 => new.code = random.pick(&[0, 3, 4, 10, 12, HIGHEST]),
        2 | 3 => new.factor = edge_factor(random, new.code),
        4 => {
            spoil_wheels(random, &mut new.wheels_before, &mut new.wheels_after);
            new.factor = edge_factor(random, new.code);
        }
        5 => {
            new.index = edge_index(random, full_turn(new), new.index);
            new.factor = edge_factor(random, new.code);
        }
        _ => new.index = edge_index(random, full_turn(new), new.index),
    }
}

/// A factor at an edge of what the code allows; most are just off it.
fn edge_factor(random: &mut Random, code: u64) -> u64 {
    match code {
        1 => random.pick(&[0, 0, HIGHEST_FACTOR + 1, HIGHEST_FACTOR + 1, HIGHEST, 1, HIGHEST_FACTOR]),
        _ => random.pick(&[1, 1, 9_500, 10_000, HIGHEST_FACTOR, HIGHEST, 0]),
    }
}

/// Many digits in every field: the line of a meter change is readable and has up to 116 bytes.
fn long_numbers(random: &mut Random, fields: &mut [&mut u64], new: &mut NewMeter) {
    let digits = random.pick(&[10, 11, 12, 12]);
    let shorter = random.pick(&[0, 30]);
    let of_meter = [&mut new.wheels_before, &mut new.wheels_after, &mut new.index, &mut new.code, &mut new.factor];
    for field in fields.iter_mut().map(|field| &mut **field).chain(of_meter) {
        let lowest = 10_u64.pow(digits - 1 - u32::from(random.percent(shorter)));
        *field = random.between(lowest, 10 * lowest - 1);
    }
}

/// The full turn of wheels that may be spoiled themselves.
fn full_turn(new: &NewMeter) -> u64 {
    let (wheels_before, wheels_after) = (new.wheels_before.min(8), new.wheels_after.min(3));
    Meter { wheels_before, wheels_after, counts: Counts::NormalCubicMetres }.full_turn()
}

fn any_point(random: &mut Random) -> u64 {
    random.pick(&[0, 33, 34, 256, 257, HIGHEST, 1, 2, 31, 32, 17])
}

fn false_supplier(random: &mut Random) -> u64 {
    random.pick(&[0, 100, 101, 256, 257, HIGHEST])
}

fn any_supplier(random: &mut Random) -> u64 {
    if random.percent(40) {
        false_supplier(random)
    } else {
        random.between(1, 99)
    }
}

fn false_key(random: &mut Random) -> u64 {
    random.pick(&[0, 1_000_000_000, 4_294_967_297, HIGHEST])
}

fn spoil_wheels(random: &mut Random, wheels_before: &mut u64, wheels_after: &mut u64) {
    if random.percent(50) {
        *wheels_before = random.pick(&[0, 9, 10, HIGHEST]);
    } else {
        *wheels_after = random.pick(&[4, 5, HIGHEST]);
    }
}

/// An index at an edge of the meter or of the last index.
fn edge_index(random: &mut Random, full_turn: u64, last_index: u64) -> u64 {
    let below_last = last_index.saturating_sub(1);
    let choices = [full_turn - 1, full_turn, full_turn + 1, last_index, below_last, last_index + 1, 0, HIGHEST];
    random.pick(&choices)
}

/// A day asked for at an edge of what may be asked.
fn edge_requested_day(random: &mut Random, around: &Around) -> u64 {
    let latest = around.calendar.three_months_after(around.today);
    let choices = [around.today.saturating_sub(1), around.today, latest, latest + 1, latest + 30, 0, LAST_DAY];
    random.pick(&choices).min(LAST_DAY)
}
