//! 01, The day book, with 02's F-4 and F-6: one cell for each point and gas day, one day at a time.

use crate::calendar::{Calendar, LAST_DAY};
use crate::line::{Call, NewMeter, Settings};
use crate::volume::{Counts, Normal, Raw};

pub const POINTS: u64 = 32;
pub const SUPPLIERS: u64 = 99;
pub const HIGHEST_KEY: u64 = 999_999_999;
/// The most periods of a point.
pub const MOST_PERIODS: u64 = 24;
/// The highest correction factor of an m³ meter, in ten-thousandths.
pub const HIGHEST_FACTOR: u64 = 99_999;
/// Calendar days from a request to its earliest effective day.
pub const NOTICE: u64 = 21;

/// The kind of a point's supply.
#[derive(Clone, Copy, Debug, PartialEq)]
pub enum Supply {
    None,
    Contract,
    Default { deadline: u64 },
    LastResort { deadline: u64 },
}

/// A pending request.
#[derive(Clone, Copy, Debug, PartialEq)]
pub struct Pending {
    pub supplier: u64,
    pub effective_day: u64,
}

#[derive(Clone, Copy, Debug, PartialEq)]
pub struct Meter {
    pub wheels_before: u64,
    pub wheels_after: u64,
    pub counts: Counts,
}

impl Meter {
    /// The meter of a call that 22 and 40 let pass.
    fn of(new: &NewMeter) -> Meter {
        Meter {
            wheels_before: new.wheels_before,
            wheels_after: new.wheels_after,
            counts: Counts::of(new.code, new.factor),
        }
    }

    /// 10^w: the number of indexes of the meter.
    pub fn full_turn(&self) -> u64 {
        10_u64.pow((self.wheels_before + self.wheels_after) as u32)
    }

    /// U: thousandths in a unit of the last wheel.
    fn unit(&self) -> u64 {
        10_u64.pow(3 - self.wheels_after as u32)
    }
}

/// The fields of an enrolled point.
#[derive(Clone, Copy, Debug)]
pub struct Point {
    pub enrolment: u64,
    pub holder: u64,
    pub supply: Supply,
    pub pending: Option<Pending>,
    pub key: u64,
    pub suspended: bool,
    pub meter: Meter,
    pub last_day: u64,
    pub last_index: u64,
}

/// The holder of a point on a day, and whether it was named on that day.
#[derive(Clone, Copy)]
struct Cell {
    holder: u8,
    marked: bool,
}

const NO_CELL: Cell = Cell { holder: 0, marked: false };

/// One cell for each point; slot 0 is not used.
type Row = [Cell; POINTS as usize + 1];
pub type Points = [Option<Point>; POINTS as usize + 1];

/// An accepted reading or meter change of the list.
#[derive(Clone, Copy)]
struct BookedReading {
    point: u64,
    /// d1, the day of the reading before.
    from_day: u64,
    /// d2
    to_day: u64,
    /// V, in units of the last wheel.
    advance: u64,
    /// The meter that was read.
    meter: Meter,
}

impl BookedReading {
    /// What the wheels counted from the reading before up to so many days after it.
    fn total(&self, days: u64) -> Raw {
        Raw::of_wheels(self.advance * days / (self.to_day - self.from_day), self.meter.unit())
    }

    /// The same in normal cubic metres.
    fn converted_total(&self, days: u64) -> Normal {
        self.meter.counts.converted(self.total(days))
    }
}

/// The volumes of a day of a point.
#[derive(Clone, Copy, Default)]
struct DayVolume {
    booked: Raw,
    normal: Normal,
}

/// Accepted (number 0) or the rejection number, with the day it carries.
#[derive(Clone, Copy, Debug, PartialEq)]
pub struct Answer {
    pub number: u64,
    pub day: Option<u64>,
}

/// A period as the marked cells give it.
#[derive(Clone, Copy, Debug, PartialEq)]
pub struct Period {
    pub start: u64,
    /// The first day after it; none while it is open.
    pub end: Option<u64>,
    pub holder: u64,
    /// As the wheels count.
    pub volume: Raw,
    pub normal: Normal,
}

pub struct DayBook {
    pub settings: Settings,
    first_day: u64,
    /// The register's day.
    pub day: u64,
    pub under_contract: [bool; SUPPLIERS as usize + 1],
    pub points: Points,
    /// One row for each day from the first day on.
    cells: Vec<Row>,
    readings: Vec<BookedReading>,
}

/// What a refused call gives back.
struct Saved {
    under_contract: [bool; SUPPLIERS as usize + 1],
    points: Points,
    rows: usize,
    last_row: Row,
    readings: usize,
}

impl DayBook {
    /// Opens a register, or gives the number that refuses it.
    pub fn open(first_day: u64, settings: Settings) -> Result<DayBook, u64> {
        let in_range = settings.cancel_days <= 10
            && (1..=400).contains(&settings.default_days)
            && (1..=400).contains(&settings.last_resort_days)
            && is_supplier(settings.default_supplier)
            && is_supplier(settings.last_resort)
            && settings.default_supplier != settings.last_resort;
        if !in_range {
            return Err(22);
        }
        if first_day > LAST_DAY {
            return Err(20);
        }
        let mut under_contract = [false; SUPPLIERS as usize + 1];
        under_contract[settings.default_supplier as usize] = true;
        under_contract[settings.last_resort as usize] = true;
        Ok(DayBook {
            settings,
            first_day,
            day: first_day,
            under_contract,
            points: [None; POINTS as usize + 1],
            cells: vec![[NO_CELL; POINTS as usize + 1]],
            readings: Vec::new(),
        })
    }

    /// One call: goes day by day to today, checks, and does it; a refused call changes nothing.
    pub fn call(&mut self, today: u64, call: &Call, calendar: &Calendar) -> Answer {
        let saved = self.save();
        self.go_to(today);
        let number = self.rejection(today, call, calendar);
        if number != 0 {
            let day = self.deadline_carried(number, call);
            self.give_back(saved);
            return Answer { number, day };
        }
        let touched = self.touched(call);
        self.apply(today, call);
        if touched.iter().any(|point| self.marks_and_due(*point) > MOST_PERIODS) {
            self.give_back(saved);
            return Answer { number: 30, day: None };
        }
        self.day = today;
        let day = match call {
            Call::Request { requested_day, .. } => Some(effective_day(today, *requested_day)),
            _ => None,
        };
        Answer { number: 0, day }
    }

    /// The points brought up to a day, without a trace in the book.
    pub fn points_on(&mut self, day: u64) -> Points {
        let saved = self.save();
        self.go_to(day);
        let points = self.points;
        self.give_back(saved);
        points
    }

    fn save(&self) -> Saved {
        Saved {
            under_contract: self.under_contract,
            points: self.points,
            rows: self.cells.len(),
            last_row: self.cells[self.cells.len() - 1],
            readings: self.readings.len(),
        }
    }

    fn give_back(&mut self, saved: Saved) {
        self.under_contract = saved.under_contract;
        self.points = saved.points;
        self.cells.truncate(saved.rows);
        self.cells[saved.rows - 1] = saved.last_row;
        self.readings.truncate(saved.readings);
    }

    /// On each new day the cell takes the holder, unmarked; then the day's events, point by point.
    fn go_to(&mut self, today: u64) {
        let last_row_day = self.first_day + self.cells.len() as u64 - 1;
        for day in last_row_day + 1..=today.min(LAST_DAY) {
            self.cells.push(self.points.map(|point| match point {
                Some(point) => Cell { holder: point.holder as u8, marked: false },
                None => NO_CELL,
            }));
            for point in 1..=POINTS {
                self.events(point, day);
            }
        }
    }

    /// A pending request falling on this day; otherwise a deadline falling on it.
    fn events(&mut self, p: u64, day: u64) {
        let Some(point) = self.points[p as usize].as_mut() else { return };
        if let Some(pending) = point.pending.filter(|pending| pending.effective_day == day) {
            point.supply = Supply::Contract;
            point.pending = None;
            self.name(p, day, pending.supplier);
            return;
        }
        match point.supply {
            Supply::Default { deadline } if deadline == day => {
                point.supply = Supply::LastResort { deadline: day + self.settings.last_resort_days };
                self.name(p, day, self.settings.last_resort);
            }
            Supply::LastResort { deadline } if deadline == day => {
                point.supply = Supply::None;
                point.pending = None;
                self.name(p, day, 0);
            }
            _ => {}
        }
    }

    /// Names a holder: that day's cell is overwritten with it and marked.
    fn name(&mut self, p: u64, day: u64, holder: u64) {
        if let Some(point) = self.points[p as usize].as_mut() {
            point.holder = holder;
        }
        let row = (day - self.first_day) as usize;
        self.cells[row][p as usize] = Cell { holder: holder as u8, marked: true };
    }

    /// The enrolled point of this number.
    fn point(&self, p: u64) -> Option<&Point> {
        if is_point(p) {
            self.points[p as usize].as_ref()
        } else {
            None
        }
    }

    /// The points that a call names or, for a failure, that the supplier holds or has asked for.
    /// Only calls 2, 4, 5, 6 and 10 can be refused as full.
    fn touched(&self, call: &Call) -> Vec<u64> {
        match *call {
            Call::Failure { supplier } => (1..=POINTS)
                .filter(|p| {
                    self.point(*p).is_some_and(|point| {
                        point.holder == supplier || point.pending.is_some_and(|pending| pending.supplier == supplier)
                    })
                })
                .collect(),
            Call::IntoService { point, .. }
            | Call::Default { point, .. }
            | Call::Request { point, .. }
            | Call::OutOfService { point } => vec![point],
            _ => Vec::new(),
        }
    }

    /// A point's marked cells, and the marks that are due: pending 1, default 2, last resort 1.
    pub fn marks_and_due(&self, p: u64) -> u64 {
        let marks = self.cells.iter().filter(|row| row[p as usize].marked).count() as u64;
        let Some(point) = self.point(p) else { return marks };
        let due_by_supply = match point.supply {
            Supply::Default { .. } => 2,
            Supply::LastResort { .. } => 1,
            Supply::None | Supply::Contract => 0,
        };
        marks + due_by_supply + point.pending.is_some() as u64
    }

    /// What an accepted call does, on the state brought up to today.
    fn apply(&mut self, today: u64, call: &Call) {
        match *call {
            Call::Contract { supplier } => self.under_contract[supplier as usize] = true,
            Call::Failure { supplier } => self.fail(today, supplier),
            Call::Enrol { point: p, new } => {
                self.points[p as usize] = Some(Point {
                    enrolment: today,
                    holder: 0,
                    supply: Supply::None,
                    pending: None,
                    key: 0,
                    suspended: false,
                    meter: Meter::of(&new),
                    last_day: today,
                    last_index: new.index,
                });
                self.name(p, today, 0);
            }
            Call::IntoService { point: p, supplier, key } => {
                let point = self.enrolled(p);
                point.supply = Supply::Contract;
                point.key = key;
                self.name(p, today, supplier);
            }
            Call::Default { point: p, key } => {
                let deadline = today + self.settings.default_days;
                let point = self.enrolled(p);
                point.supply = Supply::Default { deadline };
                point.key = key;
                self.name(p, today, self.settings.default_supplier);
            }
            Call::Request { point: p, supplier, requested_day, .. } => {
                let effective_day = effective_day(today, requested_day);
                self.enrolled(p).pending = Some(Pending { supplier, effective_day });
            }
            Call::Cancel { point: p, .. } => self.enrolled(p).pending = None,
            Call::Reading { point: p, day, index, zero_mark } => self.book_reading(p, day, index, zero_mark),
            Call::MeterChange { point: p, index, zero_mark, new } => {
                self.book_reading(p, today, index, zero_mark);
                let point = self.enrolled(p);
                point.meter = Meter::of(&new);
                point.last_index = new.index;
            }
            Call::OutOfService { point: p } => {
                let point = self.enrolled(p);
                point.supply = Supply::None;
                point.pending = None;
                self.name(p, today, 0);
            }
            Call::Suspend { point: p, mark } => self.enrolled(p).suspended = mark == 1,
            Call::Day => {}
        }
    }

    /// The point of a call that passed check 2.
    fn enrolled(&mut self, p: u64) -> &mut Point {
        self.points[p as usize].as_mut().expect("check 2 has passed")
    }

    fn fail(&mut self, today: u64, supplier: u64) {
        self.under_contract[supplier as usize] = false;
        let deadline = today + self.settings.last_resort_days;
        for p in 1..=POINTS {
            let Some(point) = self.points[p as usize].as_mut() else { continue };
            if point.pending.is_some_and(|pending| pending.supplier == supplier) {
                point.pending = None;
            }
            if point.holder == supplier {
                point.supply = Supply::LastResort { deadline };
                self.name(p, today, self.settings.last_resort);
            }
        }
    }

    fn book_reading(&mut self, p: u64, day: u64, index: u64, zero_mark: u64) {
        let point = self.enrolled(p);
        let reading = BookedReading {
            point: p,
            from_day: point.last_day,
            to_day: day,
            advance: index + zero_mark * point.meter.full_turn() - point.last_index,
            meter: point.meter,
        };
        point.last_day = day;
        point.last_index = index;
        self.readings.push(reading);
    }

    /// Number 8 carries the deadline.
    fn deadline_carried(&self, number: u64, call: &Call) -> Option<u64> {
        match call {
            Call::Request { point, .. } if number == 8 => self.default_deadline(*point),
            _ => None,
        }
    }

    fn default_deadline(&self, p: u64) -> Option<u64> {
        match self.point(p)?.supply {
            Supply::Default { deadline } => Some(deadline),
            _ => None,
        }
    }

    /// The first number that applies, in the order 22, 40, 20, 21, then the lowest; 0 if none does.
    /// Number 30 looks at the state after the call and comes last by itself.
    fn rejection(&self, today: u64, call: &Call, calendar: &Calendar) -> u64 {
        const ORDER: [u64; 19] = [22, 40, 20, 21, 1, 2, 3, 4, 5, 6, 7, 8, 23, 24, 25, 26, 27, 28, 29];
        ORDER.into_iter().find(|number| self.applies(*number, today, call, calendar)).unwrap_or(0)
    }

    /// 01, Rejection codes, and 40 of 02: whether a row's condition holds for the call, on the state brought up to
    /// today.
    fn applies(&self, number: u64, today: u64, call: &Call, calendar: &Calendar) -> bool {
        match number {
            1 => self.no_contract(call),
            2 => self.false_point(call),
            3 => date_incompatible(today, call, calendar),
            4..=8 => self.request_refused(number, today, call),
            20 => self.off_calendar(today, call),
            21 => today < self.day,
            22 => field_out_of_range(call),
            23 => matches!(call, Call::Enrol { point, .. } if self.point(*point).is_some()),
            24 => self.already_served(call),
            25 => matches!(call, Call::Cancel { point, supplier } if self.pending_of(*point, *supplier).is_none()),
            26 => self.too_late(today, call, calendar),
            27 => self.reading_out_of_time(today, call),
            28 => self.index_disagrees(call),
            29 => matches!(call, Call::Failure { supplier }
                if *supplier == self.settings.default_supplier || *supplier == self.settings.last_resort),
            40 => factor_out_of_range(call),
            _ => false,
        }
    }

    fn no_contract(&self, call: &Call) -> bool {
        match *call {
            Call::Failure { supplier } | Call::IntoService { supplier, .. } | Call::Request { supplier, .. } => {
                is_supplier(supplier) && !self.under_contract[supplier as usize]
            }
            _ => false,
        }
    }

    fn false_point(&self, call: &Call) -> bool {
        match *call {
            Call::Contract { .. } | Call::Failure { .. } | Call::Day => false,
            Call::Enrol { point, .. } => !is_point(point),
            Call::IntoService { point, .. }
            | Call::Default { point, .. }
            | Call::Request { point, .. }
            | Call::Cancel { point, .. }
            | Call::Reading { point, .. }
            | Call::MeterChange { point, .. }
            | Call::OutOfService { point }
            | Call::Suspend { point, .. } => self.point(point).is_none(),
        }
    }

    /// Numbers 4 to 8, and 6 for out of service.
    fn request_refused(&self, number: u64, today: u64, call: &Call) -> bool {
        let (Call::Request { point: p, .. } | Call::OutOfService { point: p }) = *call else { return false };
        let Some(point) = self.point(p) else { return false };
        if number == 6 {
            return point.holder == 0;
        }
        let Call::Request { key, .. } = *call else { return false };
        match number {
            4 => key != point.key,
            5 => point.pending.is_some(),
            7 => point.suspended,
            8 => self.default_deadline(p).is_some_and(|deadline| today + NOTICE >= deadline),
            _ => false,
        }
    }

    fn off_calendar(&self, today: u64, call: &Call) -> bool {
        let settings = &self.settings;
        let latest = match *call {
            Call::Default { .. } => today + settings.default_days + settings.last_resort_days,
            Call::Failure { .. } => today + settings.last_resort_days,
            Call::Request { requested_day, .. } => today.max(requested_day),
            Call::Reading { day, .. } => today.max(day),
            _ => today,
        };
        latest > LAST_DAY
    }

    fn already_served(&self, call: &Call) -> bool {
        match *call {
            Call::IntoService { point, .. } | Call::Default { point, .. } => {
                self.point(point).is_some_and(|point| point.holder != 0)
            }
            _ => false,
        }
    }

    /// The request that a supplier has pending at a point.
    fn pending_of(&self, p: u64, supplier: u64) -> Option<Pending> {
        self.point(p)?.pending.filter(|pending| pending.supplier == supplier)
    }

    fn too_late(&self, today: u64, call: &Call, calendar: &Calendar) -> bool {
        let Call::Cancel { point, supplier } = *call else { return false };
        self.pending_of(point, supplier).is_some_and(|pending| {
            calendar.working_days_between(today, pending.effective_day) < self.settings.cancel_days
        })
    }

    fn reading_out_of_time(&self, today: u64, call: &Call) -> bool {
        match *call {
            Call::Reading { point, day, .. } => {
                day > today || self.point(point).is_some_and(|point| day <= point.last_day)
            }
            Call::MeterChange { point, .. } => self.point(point).is_some_and(|point| today <= point.last_day),
            _ => false,
        }
    }

    fn index_disagrees(&self, call: &Call) -> bool {
        match *call {
            Call::Enrol { new, .. } => new_index_disagrees(&new),
            Call::Reading { point, index, zero_mark, .. } => self.read_index_disagrees(point, index, zero_mark),
            Call::MeterChange { point, index, zero_mark, new } => {
                self.read_index_disagrees(point, index, zero_mark) || new_index_disagrees(&new)
            }
            _ => false,
        }
    }

    fn read_index_disagrees(&self, p: u64, index: u64, zero_mark: u64) -> bool {
        self.point(p).is_some_and(|point| {
            let turned = index < point.last_index;
            index >= point.meter.full_turn() || (zero_mark == 1) != turned
        })
    }

    /// The periods of a point: each starts at a marked cell and runs to the next, the last without end.
    pub fn periods(&self, p: u64) -> Vec<Period> {
        let volumes = self.day_volumes(p);
        let mut periods: Vec<Period> = Vec::new();
        for (slot, row) in self.cells.iter().enumerate() {
            let cell = row[p as usize];
            if cell.marked {
                let (start, holder) = (self.first_day + slot as u64, u64::from(cell.holder));
                if let Some(before) = periods.last_mut() {
                    before.end = Some(start);
                }
                periods.push(Period { start, end: None, holder, volume: Raw::default(), normal: Normal::default() });
            }
            if let Some(period) = periods.last_mut() {
                period.volume += volumes[slot].booked;
                period.normal += volumes[slot].normal;
            }
        }
        periods
    }

    /// The volumes of each day of a point, from the accepted readings of the list: a day's part is the difference of
    /// two totals of its reading.
    fn day_volumes(&self, p: u64) -> Vec<DayVolume> {
        let mut volumes = vec![DayVolume::default(); self.cells.len()];
        for reading in self.readings_of(p) {
            for k in 0..reading.to_day - reading.from_day {
                let day = &mut volumes[(reading.from_day + k - self.first_day) as usize];
                day.booked += reading.total(k + 1) - reading.total(k);
                day.normal += reading.converted_total(k + 1) - reading.converted_total(k);
            }
        }
        volumes
    }

    /// The accepted readings and meter changes of the list that name a point.
    fn readings_of(&self, p: u64) -> impl Iterator<Item = &BookedReading> {
        self.readings.iter().filter(move |reading| reading.point == p)
    }

    /// Question: the holder of a point on a day from its enrolment to the register's day.
    pub fn holder_on(&self, p: u64, day: u64) -> Option<u64> {
        let point = self.point(p)?;
        if day < point.enrolment || day > self.day {
            return None;
        }
        Some(u64::from(self.cells[(day - self.first_day) as usize][p as usize].holder))
    }

    /// F-1: how many periods of a point start after a day, plus one.
    pub fn probes(&self, p: u64, day: u64) -> u64 {
        let later = self.cells.iter().skip((day + 1 - self.first_day) as usize).filter(|row| row[p as usize].marked);
        later.count() as u64 + 1
    }

    /// Question: the registered advance of a point, the sum of V times U.
    pub fn advance(&self, p: u64) -> Option<Raw> {
        self.point(p)?;
        Some(self.readings_of(p).map(|reading| Raw::of_wheels(reading.advance, reading.meter.unit())).sum())
    }

    /// Question: the Nm³ advance of a point, the sum of its readings' converted totals.
    pub fn normal_advance(&self, p: u64) -> Option<Normal> {
        self.point(p)?;
        let converted = |reading: &BookedReading| {
            reading.meter.counts.converted(Raw::of_wheels(reading.advance, reading.meter.unit()))
        };
        Some(self.readings_of(p).map(converted).sum())
    }
}

pub fn is_supplier(supplier: u64) -> bool {
    (1..=SUPPLIERS).contains(&supplier)
}

pub fn is_point(p: u64) -> bool {
    (1..=POINTS).contains(&p)
}

/// e: the larger of the day asked for and today + 21.
pub fn effective_day(today: u64, requested_day: u64) -> u64 {
    requested_day.max(today + NOTICE)
}

fn date_incompatible(today: u64, call: &Call, calendar: &Calendar) -> bool {
    let Call::Request { requested_day, .. } = *call else { return false };
    requested_day < today
        || requested_day > calendar.three_months_after(today)
        || effective_day(today, requested_day) > LAST_DAY
}

/// The index of a new meter is at or past its full turn.
fn new_index_disagrees(new: &NewMeter) -> bool {
    new.index >= Meter::of(new).full_turn()
}

fn factor_out_of_range(call: &Call) -> bool {
    let (Call::Enrol { new, .. } | Call::MeterChange { new, .. }) = *call else { return false };
    match new.code {
        1 => new.factor == 0 || new.factor > HIGHEST_FACTOR,
        2 => new.factor != 0,
        _ => false,
    }
}

fn field_out_of_range(call: &Call) -> bool {
    let false_key = |key| key == 0 || key > HIGHEST_KEY;
    let false_wheels = |before, after| before == 0 || before > 8 || after > 3;
    let false_code = |code| code == 0 || code > 2;
    let false_meter = |new: &NewMeter| false_wheels(new.wheels_before, new.wheels_after) || false_code(new.code);
    match *call {
        Call::Contract { supplier } | Call::Failure { supplier } | Call::Cancel { supplier, .. } => {
            !is_supplier(supplier)
        }
        Call::Enrol { new, .. } => false_meter(&new),
        Call::IntoService { supplier, key, .. } | Call::Request { supplier, key, .. } => {
            !is_supplier(supplier) || false_key(key)
        }
        Call::Default { key, .. } => false_key(key),
        Call::Reading { zero_mark, .. } => zero_mark > 1,
        Call::MeterChange { zero_mark, new, .. } => zero_mark > 1 || false_meter(&new),
        Call::Suspend { mark, .. } => mark > 1,
        Call::OutOfService { .. } | Call::Day => false,
    }
}
