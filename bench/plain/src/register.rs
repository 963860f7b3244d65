//! The register by events and periods: what falls due is done when an accepted call passes it.

use crate::calendar::{three_months_after, working_days_between, LAST_DAY};

const POINTS: usize = 32;
const MOST_PERIODS: usize = 24;
const NOTICE: u32 = 21;
/// Later than every day: nothing falls due.
const NEVER: u32 = u32::MAX;

const POWERS: [u64; 12] = [
    1,
    10,
    100,
    1_000,
    10_000,
    100_000,
    1_000_000,
    10_000_000,
    100_000_000,
    1_000_000_000,
    10_000_000_000,
    100_000_000_000,
];

/// Accepted (number 0) or a rejection number, with the day it carries.
#[derive(Clone, Copy)]
pub struct Answer {
    pub number: u8,
    pub day: Option<u32>,
}

const ACCEPTED: Answer = refused(0);

const fn refused(number: u8) -> Answer {
    Answer { number, day: None }
}

pub struct Settings {
    pub cancel_days: u64,
    pub default_days: u64,
    pub last_resort_days: u64,
    pub default_supplier: u64,
    pub last_resort: u64,
}

#[derive(Clone, Copy, PartialEq)]
enum Supply {
    None,
    Contract,
    Default,
    LastResort,
}

/// What events change of a point; it can be run ahead on a copy.
#[derive(Clone, Copy)]
struct Standing {
    holder: u8,
    supply: Supply,
    /// NEVER unless the supply is default or last resort.
    deadline: u32,
    /// 0 if no request is pending; then the effective day is NEVER.
    pending_supplier: u8,
    effective_day: u32,
    periods: u8,
    last_start: u32,
}

impl Standing {
    const NEW: Standing = Standing {
        holder: 0,
        supply: Supply::None,
        deadline: NEVER,
        pending_supplier: 0,
        effective_day: NEVER,
        periods: 0,
        last_start: NEVER,
    };

    fn next_due(&self) -> u32 {
        self.deadline.min(self.effective_day)
    }

    fn drop_pending(&mut self) {
        self.pending_supplier = 0;
        self.effective_day = NEVER;
    }

    /// Names a holder on a day not before the last start.
    fn name(&mut self, day: u32, holder: u8, supply: Supply, deadline: u32) {
        self.holder = holder;
        self.supply = supply;
        self.deadline = deadline;
        self.periods += u8::from(self.last_start != day);
        self.last_start = day;
    }

    /// Does what falls due next; a request goes before a deadline on the same day.
    fn do_next(&mut self, rules: &Rules) {
        let day = self.next_due();
        if self.effective_day == day {
            let supplier = self.pending_supplier;
            self.drop_pending();
            self.name(day, supplier, Supply::Contract, NEVER);
        } else if self.supply == Supply::Default {
            self.name(day, rules.last_resort, Supply::LastResort, day + rules.last_resort_days);
        } else {
            self.drop_pending();
            self.name(day, 0, Supply::None, NEVER);
        }
    }

    /// Periods and those due.
    fn periods_and_due(&self) -> usize {
        let by_supply = match self.supply {
            Supply::Default => 2,
            Supply::LastResort => 1,
            Supply::None | Supply::Contract => 0,
        };
        usize::from(self.periods) + by_supply + usize::from(self.pending_supplier != 0)
    }
}

/// A volume as the wheels count it, in thousandths.
#[derive(Clone, Copy)]
pub struct Raw(pub u64);

/// A volume in normal cubic metres, in thousandths.
#[derive(Clone, Copy)]
pub struct Normal(pub u64);

impl Raw {
    /// By a factor in ten-thousandths.
    fn converted(self, factor: u64) -> Normal {
        Normal(self.0 * factor / 10_000)
    }
}

#[derive(Clone, Copy)]
pub struct Period {
    pub start: u32,
    pub holder: u8,
    pub volume: Raw,
    pub normal: Normal,
}

/// The meter that enrolment and meter change bring, as the line gives it.
pub struct NewMeter {
    pub wheels_before: u64,
    pub wheels_after: u64,
    pub index: u64,
    pub code: u64,
    pub factor: u64,
}

impl NewMeter {
    /// Number 22.
    fn out_of_range(&self) -> bool {
        !are_wheels(self.wheels_before, self.wheels_after) || self.code.wrapping_sub(1) > 1
    }

    /// Number 40.
    fn false_factor(&self) -> bool {
        if self.code == 1 {
            self.factor.wrapping_sub(1) >= 99_999
        } else {
            self.factor != 0
        }
    }

    fn full_turn(&self) -> u64 {
        POWERS[(self.wheels_before + self.wheels_after) as usize]
    }
}

#[derive(Clone, Copy)]
struct Point {
    enrolled: bool,
    suspended: bool,
    standing: Standing,
    key: u64,
    /// 10^w
    full_turn: u64,
    /// Thousandths in a unit of the last wheel.
    unit: u64,
    /// In ten-thousandths; 10,000 for a meter that counts normal cubic metres.
    factor: u64,
    last_day: u32,
    last_index: u64,
    advance: Raw,
    normal_advance: Normal,
    periods: [Period; MOST_PERIODS],
}

impl Point {
    const NEW: Point = Point {
        enrolled: false,
        suspended: false,
        standing: Standing::NEW,
        key: 0,
        full_turn: 1,
        unit: 1,
        factor: 1,
        last_day: 0,
        last_index: 0,
        advance: Raw(0),
        normal_advance: Normal(0),
        periods: [Period { start: 0, holder: 0, volume: Raw(0), normal: Normal(0) }; MOST_PERIODS],
    };

    fn ahead(&self, today: u32, rules: &Rules) -> Standing {
        let mut standing = self.standing;
        while standing.next_due() <= today {
            standing.do_next(rules);
        }
        standing
    }

    fn catch_up(&mut self, today: u32, rules: &Rules) {
        while self.standing.next_due() <= today {
            self.standing.do_next(rules);
            self.write_period();
        }
    }

    /// Names a holder: a second one on a day replaces the first.
    fn name(&mut self, day: u32, holder: u8, supply: Supply, deadline: u32) {
        self.standing.name(day, holder, supply, deadline);
        self.write_period();
    }

    fn write_period(&mut self) {
        let slot = usize::from(self.standing.periods) - 1;
        let Standing { last_start: start, holder, .. } = self.standing;
        self.periods[slot] = Period { start, holder, volume: Raw(0), normal: Normal(0) };
    }

    fn fit_meter(&mut self, new: &NewMeter) {
        self.full_turn = new.full_turn();
        self.unit = POWERS[3 - new.wheels_after as usize];
        self.factor = if new.code == 1 { new.factor } else { 10_000 };
        self.last_index = new.index;
    }

    /// Number 28 for a reading.
    fn index_disagrees(&self, index: u64, zero_mark: u64) -> bool {
        index >= self.full_turn || (index < self.last_index) != (zero_mark == 1)
    }

    /// Books a reading over the periods from the last reading's day on.
    fn book(&mut self, day: u32, index: u64, zero_mark: u64) {
        let advance = (index + zero_mark * self.full_turn) - self.last_index;
        let from_day = self.last_day;
        self.last_day = day;
        self.last_index = index;
        let total = Raw(advance * self.unit);
        let converted = total.converted(self.factor);
        self.advance.0 += total.0;
        self.normal_advance.0 += converted.0;
        let last = &mut self.periods[usize::from(self.standing.periods) - 1];
        if last.start <= from_day {
            last.volume.0 += total.0;
            last.normal.0 += converted.0;
        } else {
            self.split(from_day, day, advance);
        }
    }

    /// Splits an advance by days over several periods, from the latest back: each gets the difference of the totals at
    /// its end and its start, and of these totals converted.
    fn split(&mut self, from_day: u32, to_day: u32, advance: u64) {
        let days = u64::from(to_day - from_day);
        let mut left = Raw(advance * self.unit);
        let mut left_normal = left.converted(self.factor);
        for period in self.periods[..usize::from(self.standing.periods)].iter_mut().rev() {
            if period.start >= to_day {
                continue;
            }
            let days_before = period.start.saturating_sub(from_day);
            let before = Raw(advance * u64::from(days_before) / days * self.unit);
            let before_normal = before.converted(self.factor);
            period.volume.0 += left.0 - before.0;
            period.normal.0 += left_normal.0 - before_normal.0;
            (left, left_normal) = (before, before_normal);
            if period.start <= from_day {
                break;
            }
        }
    }
}

struct Rules {
    cancel_days: u32,
    default_days: u32,
    last_resort_days: u32,
    default_supplier: u8,
    last_resort: u8,
}

pub struct Register {
    rules: Rules,
    day: u32,
    /// No event falls due before this day.
    next_due: u32,
    under_contract: [bool; 100],
    /// Slot 0 and the last one are never enrolled.
    points: Box<[Point; POINTS + 2]>,
}

fn is_supplier(supplier: u64) -> bool {
    supplier.wrapping_sub(1) < 99
}

fn is_key(key: u64) -> bool {
    key.wrapping_sub(1) < 999_999_999
}

fn are_wheels(before: u64, after: u64) -> bool {
    before.wrapping_sub(1) < 8 && after < 4
}

/// The slot of a point's number; all numbers off the range share one that is never enrolled.
fn slot(point: u64) -> usize {
    point.min(POINTS as u64 + 1) as usize
}

impl Register {
    pub fn open(first_day: u32, settings: &Settings) -> Option<Register> {
        let Settings { cancel_days, default_days, last_resort_days, default_supplier, last_resort } = *settings;
        let in_range = cancel_days <= 10
            && default_days.wrapping_sub(1) < 400
            && last_resort_days.wrapping_sub(1) < 400
            && is_supplier(default_supplier)
            && is_supplier(last_resort)
            && default_supplier != last_resort;
        if !in_range {
            return None;
        }
        let mut under_contract = [false; 100];
        under_contract[default_supplier as usize] = true;
        under_contract[last_resort as usize] = true;
        let rules = Rules {
            cancel_days: cancel_days as u32,
            default_days: default_days as u32,
            last_resort_days: last_resort_days as u32,
            default_supplier: default_supplier as u8,
            last_resort: last_resort as u8,
        };
        let points = Box::new([Point::NEW; POINTS + 2]);
        Some(Register { rules, day: first_day, next_due: NEVER, under_contract, points })
    }

    /// Moves the register's day; every accepted call comes through here before it acts.
    #[inline(always)]
    fn move_to(&mut self, today: u32) {
        if self.next_due <= today {
            self.catch_up(today);
        }
        self.day = today;
    }

    #[cold]
    fn catch_up(&mut self, today: u32) {
        self.next_due = NEVER;
        for point in self.points.iter_mut().filter(|point| point.enrolled) {
            point.catch_up(today, &self.rules);
            self.next_due = self.next_due.min(point.standing.next_due());
        }
    }

    /// An enrolled point, or number 2.
    fn enrolled(&self, point: u64) -> Option<&Point> {
        Some(&self.points[slot(point)]).filter(|point| point.enrolled)
    }

    pub fn contract(&mut self, today: u32, supplier: u64) -> Answer {
        if !is_supplier(supplier) {
            return refused(22);
        }
        if today < self.day {
            return refused(21);
        }
        self.move_to(today);
        self.under_contract[supplier as usize] = true;
        ACCEPTED
    }

    pub fn failure(&mut self, today: u32, supplier: u64) -> Answer {
        let deadline = today + self.rules.last_resort_days;
        if !is_supplier(supplier) {
            return refused(22);
        }
        if deadline > LAST_DAY {
            return refused(20);
        }
        if today < self.day {
            return refused(21);
        }
        if !self.under_contract[supplier as usize] {
            return refused(1);
        }
        let supplier = supplier as u8;
        if supplier == self.rules.default_supplier || supplier == self.rules.last_resort {
            return refused(29);
        }
        if self.failure_fills(today, supplier) {
            return refused(30);
        }
        self.move_to(today);
        self.under_contract[usize::from(supplier)] = false;
        for point in self.points.iter_mut().filter(|point| point.enrolled) {
            if point.standing.pending_supplier == supplier {
                point.standing.drop_pending();
            }
            if point.standing.holder == supplier {
                point.name(today, self.rules.last_resort, Supply::LastResort, deadline);
                self.next_due = self.next_due.min(deadline);
            }
        }
        ACCEPTED
    }

    /// Whether a failure leaves a point that the supplier holds with too many periods.
    fn failure_fills(&self, today: u32, supplier: u8) -> bool {
        self.points.iter().filter(|point| point.enrolled).any(|point| {
            let mut standing = point.ahead(today, &self.rules);
            if standing.pending_supplier == supplier {
                standing.drop_pending();
            }
            let held = standing.holder == supplier;
            standing.name(today, self.rules.last_resort, Supply::LastResort, NEVER);
            held && standing.periods_and_due() > MOST_PERIODS
        })
    }

    pub fn enrol(&mut self, today: u32, point: u64, new: &NewMeter) -> Answer {
        if new.out_of_range() {
            return refused(22);
        }
        if new.false_factor() {
            return refused(40);
        }
        if today < self.day {
            return refused(21);
        }
        if point.wrapping_sub(1) >= POINTS as u64 {
            return refused(2);
        }
        if self.points[slot(point)].enrolled {
            return refused(23);
        }
        if new.index >= new.full_turn() {
            return refused(28);
        }
        self.move_to(today);
        let point = &mut self.points[slot(point)];
        point.enrolled = true;
        point.last_day = today;
        point.fit_meter(new);
        point.name(today, 0, Supply::None, NEVER);
        ACCEPTED
    }

    pub fn put_into_service(&mut self, today: u32, point: u64, supplier: u64, key: u64) -> Answer {
        if !is_supplier(supplier) || !is_key(key) {
            return refused(22);
        }
        if today < self.day {
            return refused(21);
        }
        if !self.under_contract[supplier as usize] {
            return refused(1);
        }
        self.serve(today, point, key, supplier as u8, Supply::Contract, NEVER)
    }

    pub fn default(&mut self, today: u32, point: u64, key: u64) -> Answer {
        if !is_key(key) {
            return refused(22);
        }
        let deadline = today + self.rules.default_days;
        if deadline + self.rules.last_resort_days > LAST_DAY {
            return refused(20);
        }
        if today < self.day {
            return refused(21);
        }
        self.serve(today, point, key, self.rules.default_supplier, Supply::Default, deadline)
    }

    /// What into service and default have in common: 2, 24, 30, then the new holder.
    fn serve(&mut self, today: u32, point: u64, key: u64, holder: u8, supply: Supply, deadline: u32) -> Answer {
        let Some(known) = self.enrolled(point) else { return refused(2) };
        let mut standing = known.ahead(today, &self.rules);
        if standing.holder != 0 {
            return refused(24);
        }
        standing.name(today, holder, supply, deadline);
        if standing.periods_and_due() > MOST_PERIODS {
            return refused(30);
        }
        self.move_to(today);
        let point = &mut self.points[slot(point)];
        point.key = key;
        point.name(today, holder, supply, deadline);
        self.next_due = self.next_due.min(deadline);
        ACCEPTED
    }

    pub fn request(&mut self, today: u32, point: u64, supplier: u64, key: u64, requested_day: u32) -> Answer {
        if !is_supplier(supplier) || !is_key(key) {
            return refused(22);
        }
        if today < self.day {
            return refused(21);
        }
        if !self.under_contract[supplier as usize] {
            return refused(1);
        }
        let Some(known) = self.enrolled(point) else { return refused(2) };
        let effective_day = requested_day.max(today + NOTICE);
        if requested_day < today || effective_day > LAST_DAY || requested_day > three_months_after(today) {
            return refused(3);
        }
        let mut standing = known.ahead(today, &self.rules);
        if key != known.key {
            return refused(4);
        }
        if standing.pending_supplier != 0 {
            return refused(5);
        }
        if standing.holder == 0 {
            return refused(6);
        }
        if known.suspended {
            return refused(7);
        }
        if standing.supply == Supply::Default && today + NOTICE >= standing.deadline {
            return Answer { number: 8, day: Some(standing.deadline) };
        }
        standing.pending_supplier = supplier as u8;
        if standing.periods_and_due() > MOST_PERIODS {
            return refused(30);
        }
        self.move_to(today);
        let standing = &mut self.points[slot(point)].standing;
        standing.pending_supplier = supplier as u8;
        standing.effective_day = effective_day;
        self.next_due = self.next_due.min(effective_day);
        Answer { number: 0, day: Some(effective_day) }
    }

    pub fn cancel(&mut self, today: u32, point: u64, supplier: u64) -> Answer {
        if !is_supplier(supplier) {
            return refused(22);
        }
        if today < self.day {
            return refused(21);
        }
        let Some(known) = self.enrolled(point) else { return refused(2) };
        let standing = known.ahead(today, &self.rules);
        if u64::from(standing.pending_supplier) != supplier {
            return refused(25);
        }
        if working_days_between(today, standing.effective_day) < self.rules.cancel_days {
            return refused(26);
        }
        self.move_to(today);
        self.points[slot(point)].standing.drop_pending();
        ACCEPTED
    }

    #[inline(always)]
    pub fn reading(&mut self, today: u32, point: u64, day: u32, index: u64, zero_mark: u64) -> Answer {
        if zero_mark > 1 {
            return refused(22);
        }
        if today < self.day {
            return refused(21);
        }
        let Some(known) = self.enrolled(point) else { return refused(2) };
        if day <= known.last_day || day > today {
            return refused(27);
        }
        if known.index_disagrees(index, zero_mark) {
            return refused(28);
        }
        self.move_to(today);
        self.points[slot(point)].book(day, index, zero_mark);
        ACCEPTED
    }

    pub fn meter_change(&mut self, today: u32, point: u64, index: u64, zero_mark: u64, new: &NewMeter) -> Answer {
        if zero_mark > 1 || new.out_of_range() {
            return refused(22);
        }
        if new.false_factor() {
            return refused(40);
        }
        if today < self.day {
            return refused(21);
        }
        let Some(known) = self.enrolled(point) else { return refused(2) };
        if today <= known.last_day {
            return refused(27);
        }
        if known.index_disagrees(index, zero_mark) || new.index >= new.full_turn() {
            return refused(28);
        }
        self.move_to(today);
        let point = &mut self.points[slot(point)];
        point.book(today, index, zero_mark);
        point.fit_meter(new);
        ACCEPTED
    }

    pub fn out_of_service(&mut self, today: u32, point: u64) -> Answer {
        if today < self.day {
            return refused(21);
        }
        let Some(known) = self.enrolled(point) else { return refused(2) };
        let mut standing = known.ahead(today, &self.rules);
        if standing.holder == 0 {
            return refused(6);
        }
        standing.drop_pending();
        standing.name(today, 0, Supply::None, NEVER);
        if standing.periods_and_due() > MOST_PERIODS {
            return refused(30);
        }
        self.move_to(today);
        let point = &mut self.points[slot(point)];
        point.standing.drop_pending();
        point.name(today, 0, Supply::None, NEVER);
        ACCEPTED
    }

    pub fn suspend(&mut self, today: u32, point: u64, mark: u64) -> Answer {
        if mark > 1 {
            return refused(22);
        }
        if today < self.day {
            return refused(21);
        }
        if self.enrolled(point).is_none() {
            return refused(2);
        }
        self.move_to(today);
        self.points[slot(point)].suspended = mark == 1;
        ACCEPTED
    }

    pub fn move_day(&mut self, today: u32) -> Answer {
        if today < self.day {
            return refused(21);
        }
        self.move_to(today);
        ACCEPTED
    }

    /// Each enrolled point with its periods and its two advances, rising.
    pub fn listing(&self) -> impl Iterator<Item = (usize, &[Period], Raw, Normal)> {
        let enrolled = self.points.iter().enumerate().filter(|(_, point)| point.enrolled);
        enrolled.map(|(number, point)| {
            let periods = &point.periods[..usize::from(point.standing.periods)];
            (number, periods, point.advance, point.normal_advance)
        })
    }
}
