//! A list of lines that leads a register into deep states: a day book goes along, so most lines are accepted.

use crate::damage::damage;
use crate::random::Random;
use crate::spoil::{spoil, spoil_settings, Around};
use daybook::book::{DayBook, Meter, Point, Points, Supply, HIGHEST_FACTOR, MOST_PERIODS, POINTS};
use daybook::calendar::LAST_DAY;
use daybook::line::{Call, Message, NewMeter, Settings};
use daybook::volume::Counts;
use daybook::Registre;

/// About how many lines a list has.
const LINES: u64 = 200;

/// 9 May of 2013, which is Ascension, and of 2016, 2018 and 2019.
const NINTHS_OF_MAY: [u64; 4] = [4_877, 5_973, 6_703, 7_068];

/// What sets one list apart from another; the chances are percents.
struct Profile {
    points: Vec<u64>,
    suppliers: Vec<u64>,
    /// Chance that a line stays on the register's day.
    same_day: u64,
    /// The longest ordinary step in days.
    longest_step: u64,
    /// Chance that a step goes to a day at which something falls due.
    due_days: u64,
    /// Weight of readings and meter changes against all else.
    metering: u64,
    /// Chance that it is a meter change.
    changes: u64,
    /// Chance that a meter counts m³.
    cubic_metres: u64,
    /// Chance of a spoiled field.
    spoiled: u64,
    /// Chance of a damaged line.
    damaged: u64,
}

struct ListMaker {
    random: Random,
    profile: Profile,
    settings: Settings,
    first_day: u64,
    registre: Registre,
    text: Vec<u8>,
}

/// The list of a seed and a number.
pub fn make(seed: u64, number: u64) -> Vec<u8> {
    let mut random = Random::new(seed.wrapping_mul(0x0001_0000_01b3).wrapping_add(number));
    let settings = settings(&mut random);
    let profile = profile(&mut random);
    let first_day = first_day(&mut random);
    let registre = Registre::default();
    let mut maker = ListMaker { random, profile, settings, first_day, registre, text: Vec::new() };
    maker.before_opening();
    if let Some(ninth) = NINTHS_OF_MAY.into_iter().find(|ninth| (first_day + 21..first_day + 71).contains(ninth)) {
        maker.cancel_across(ninth);
    }
    let lines = maker.random.between(LINES * 3 / 4, LINES * 5 / 4);
    for _ in 0..lines {
        maker.line();
    }
    maker.end();
    maker.text
}

fn days(random: &mut Random) -> u64 {
    match random.below(10) {
        0..=3 => random.between(1, 10),
        4..=7 => random.between(11, 60),
        8 => random.between(61, 399),
        _ => random.pick(&[1, 20, 21, 22, 400]),
    }
}

fn settings(random: &mut Random) -> Settings {
    let default_supplier = random.pick(&[1, 2, 50, 98, 99]);
    let mut last_resort = default_supplier;
    while last_resort == default_supplier {
        last_resort = random.pick(&[1, 2, 3, 97, 99]);
    }
    Settings {
        cancel_days: random.between(0, 10),
        default_days: days(random),
        last_resort_days: days(random),
        default_supplier,
        last_resort,
    }
}

fn profile(random: &mut Random) -> Profile {
    let count = random.weighted(&[(40, 1), (30, 2), (20, 4), (6, 8), (4, POINTS)]);
    let points = match count {
        POINTS => (1..=POINTS).collect(),
        _ => (0..count).map(|_| random.pick(&[1, 2, 3, 7, 16, 30, 31, 32])).collect(),
    };
    let suppliers = (0..random.between(2, 5)).map(|_| random.pick(&[1, 2, 3, 4, 5, 6, 64, 97, 98, 99])).collect();
    Profile {
        points,
        suppliers,
        same_day: random.pick(&[15, 30, 50, 80]),
        due_days: random.pick(&[10, 25, 25, 25, 80]),
        longest_step: random.weighted(&[(40, 3), (30, 12), (25, 45), (5, 300)]),
        metering: random.weighted(&[(40, 8), (35, 25), (25, 120)]),
        changes: random.pick(&[5, 15, 15, 50]),
        cubic_metres: random.pick(&[10, 60, 60, 95]),
        spoiled: random.pick(&[5, 15, 15, 40]),
        damaged: random.pick(&[2, 5, 5, 30]),
    }
}

/// Anywhere; some weeks before a 9 May; at either end of the calendar; before a leap day that is there or is not.
fn first_day(random: &mut Random) -> u64 {
    match random.below(20) {
        0..=8 => random.between(0, LAST_DAY - 800),
        9 => random.pick(&NINTHS_OF_MAY) - random.between(21, 70),
        10 | 11 => random.below(40),
        12..=15 => LAST_DAY - random.below(900),
        16 => LAST_DAY - random.below(3),
        // 1 February 2100 and 1 February 2024.
        17 => 36_556 + random.below(20),
        18 => 8_797 + random.below(20),
        _ => 0,
    }
}

impl ListMaker {
    fn book(&mut self) -> Option<&mut DayBook> {
        self.registre.book.as_mut()
    }

    /// Writes a line and lets the day book take it.
    fn write(&mut self, line: &[u8]) {
        self.registre.take(line);
        self.text.extend_from_slice(line);
        self.text.push(b'\n');
    }

    fn write_message(&mut self, message: Message) {
        let text = message.text(&self.registre.calendar);
        if self.random.percent(self.profile.damaged) {
            let damaged = damage(&mut self.random, &text);
            self.write(&damaged);
        } else {
            self.write(text.as_bytes());
        }
    }

    /// Lines before an accepted opening, refused openings, then the opening; a few lists have none.
    fn before_opening(&mut self) {
        if self.random.percent(30) {
            for _ in 0..self.random.between(1, 5) {
                let mut settings = self.settings;
                let first_day = self.first_day;
                let message = match self.random.below(3) {
                    0 => Message::Call { today: first_day, call: Call::Day },
                    1 => Message::Call { today: first_day, call: Call::Contract { supplier: 5 } },
                    _ => {
                        spoil_settings(&mut self.random, &mut settings);
                        Message::Open { first_day, settings }
                    }
                };
                self.write_message(message);
            }
        }
        if self.random.percent(98) {
            let opening = Message::Open { first_day: self.first_day, settings: self.settings };
            let text = opening.text(&self.registre.calendar);
            self.write(text.as_bytes());
            for slot in 0..self.profile.suppliers.len() {
                let call = Call::Contract { supplier: self.profile.suppliers[slot] };
                self.write_message(Message::Call { today: self.first_day, call });
            }
        }
    }

    fn line(&mut self) {
        if self.random.below(150) == 0 {
            let (settings, first_day) = (self.settings, self.first_day);
            return self.write_message(Message::Open { first_day, settings });
        }
        let mut today = self.today();
        let points = match self.book() {
            Some(book) => book.points_on(today),
            None => [None; POINTS as usize + 1],
        };
        let p = self.random.pick(&self.profile.points);
        let mut call = self.call(p, points[p as usize], today);
        if self.random.percent(self.profile.spoiled) {
            let register_day = self.book().map_or(0, |book| book.day);
            let runs_back = register_day > 0 && self.random.percent(12);
            if runs_back {
                today = register_day - self.random.between(1, register_day.min(40));
            }
            if !runs_back || self.random.percent(30) {
                self.spoil(&mut call, &points, today);
            }
        }
        self.write_message(Message::Call { today, call });
    }

    fn spoil(&mut self, call: &mut Call, points: &Points, today: u64) {
        let around = Around { today, points, calendar: &self.registre.calendar, settings: &self.settings };
        for _ in 0..self.random.pick(&[1, 1, 1, 1, 1, 2]) {
            spoil(&mut self.random, call, &around);
        }
    }

    /// The register's day, a step later, a day at which something falls due, or (seldom) a far day.
    fn today(&mut self) -> u64 {
        let Some(book) = self.registre.book.as_ref() else { return self.first_day };
        let (day, points) = (book.day, book.points);
        if self.random.below(3_000) == 0 {
            return self.random.pick(&[day + 5_000, LAST_DAY - 100, LAST_DAY]).clamp(day, LAST_DAY);
        }
        if self.random.percent(self.profile.same_day) {
            return day;
        }
        if self.random.percent(self.profile.due_days) {
            let p = self.random.pick(&self.profile.points);
            if let Some(due) = points[p as usize].and_then(|point| self.due_day(&point)) {
                return due.clamp(day, LAST_DAY);
            }
        }
        let step = match self.random.below(40) {
            0 => self.random.between(1, 500),
            _ => self.random.between(1, self.profile.longest_step),
        };
        (day + step).min(LAST_DAY)
    }

    /// A day at or near the one on which the point's request or deadline falls.
    fn due_day(&mut self, point: &Point) -> Option<u64> {
        let mut days = Vec::new();
        if let Some(pending) = point.pending {
            let e = pending.effective_day;
            let last = self.last_day_to_cancel(e);
            days.extend([e, e, e - 1, e + 1, last, last, last, last + 1, last + 1, last + 1]);
        }
        if let Supply::Default { deadline } | Supply::LastResort { deadline } = point.supply {
            let before = self.random.between(20, 23);
            days.extend([deadline, deadline, deadline - 1, deadline + 1, deadline.saturating_sub(before)]);
        }
        if days.is_empty() {
            None
        } else {
            Some(self.random.pick(&days))
        }
    }

    /// The last day on which the request of an effective day can be cancelled.
    fn last_day_to_cancel(&self, effective_day: u64) -> u64 {
        let mut day = effective_day - 1;
        while self.registre.calendar.working_days_between(day, effective_day) < self.settings.cancel_days {
            day -= 1;
        }
        day
    }

    /// A request for a day soon after 9 May, and its cancel on the last day for it or the day after that.
    fn cancel_across(&mut self, ninth: u64) {
        let point = self.random.pick(&self.profile.points);
        let Settings { cancel_days, default_supplier, last_resort, .. } = self.settings;
        let requested_day = ninth + self.random.between(1, cancel_days + 1);
        let last = self.last_day_to_cancel(requested_day);
        let cancel_day = last + self.random.below(2);
        for (today, call) in [
            (self.first_day, self.enrol(point)),
            (self.first_day, Call::IntoService { point, supplier: default_supplier, key: 77 }),
            (requested_day - 21, Call::Request { point, supplier: last_resort, key: 77, requested_day }),
            (cancel_day, Call::Cancel { point, supplier: last_resort }),
        ] {
            self.write_message(Message::Call { today, call });
        }
    }

    /// A call that the state of the point invites.
    fn call(&mut self, p: u64, point: Option<Point>, today: u64) -> Call {
        let Some(point) = point else {
            let enrol = self.enrol(p);
            return if self.random.percent(85) { enrol } else { self.any_call(p, None, today) };
        };
        let metering = if point.last_day < today { self.profile.metering } else { 1 };
        if self.random.below(metering + 40) < metering {
            let is_change = self.random.percent(self.profile.changes);
            return if is_change { self.meter_change(p, point) } else { self.reading(p, point, today) };
        }
        if point.suspended && self.random.percent(30) {
            return Call::Suspend { point: p, mark: 0 };
        }
        if self.random.percent(12) {
            return self.any_call(p, Some(point), today);
        }
        // Where the point is full or the calendar ends, most calls would be refused: seldom try.
        if (self.is_full(p) || today + 21 > LAST_DAY) && self.random.percent(75) {
            return self.quiet_call(p, point, today);
        }
        if point.holder == 0 {
            let room = today + self.settings.default_days + self.settings.last_resort_days <= LAST_DAY;
            let default_chance = if room { 50 } else { 15 };
            return if self.random.percent(default_chance) {
                self.default(p, point)
            } else {
                self.put_into_service(p, point)
            };
        }
        match point.pending {
            Some(pending) => match self.random.below(10) {
                0..=4 => Call::Cancel { point: p, supplier: pending.supplier },
                5 | 6 => self.failure(&[pending.supplier, point.holder]),
                7 => Call::OutOfService { point: p },
                _ => Call::Day,
            },
            None => match self.random.below(10) {
                0..=5 => self.request(p, point, today),
                6 => self.failure(&[point.holder]),
                _ => Call::OutOfService { point: p },
            },
        }
    }

    /// A failure of one of these, seldom of a protected supplier.
    fn failure(&mut self, suppliers: &[u64]) -> Call {
        let supplier = self.random.pick(suppliers);
        let protected = [self.settings.default_supplier, self.settings.last_resort].contains(&supplier);
        if protected && self.random.percent(80) {
            return Call::Day;
        }
        Call::Failure { supplier }
    }

    fn is_full(&self, p: u64) -> bool {
        self.registre.book.as_ref().is_some_and(|book| book.marks_and_due(p) >= MOST_PERIODS)
    }

    /// A call that names no holder; it may bring another point into play.
    fn quiet_call(&mut self, p: u64, point: Point, today: u64) -> Call {
        if self.random.percent(15) {
            self.profile.points.push(self.random.between(1, POINTS));
        }
        match self.random.below(6) {
            0 => Call::Suspend { point: p, mark: self.random.below(2) },
            1 => Call::Contract { supplier: self.random.pick(&self.profile.suppliers) },
            2 => Call::Day,
            3 if point.last_day < today => self.meter_change(p, point),
            _ if point.last_day < today => self.reading(p, point, today),
            _ => Call::Day,
        }
    }

    /// A call of any kind, whatever the state of the point.
    fn any_call(&mut self, p: u64, point: Option<Point>, today: u64) -> Call {
        let known = point.unwrap_or(Point {
            enrolment: today,
            holder: 0,
            supply: Supply::None,
            pending: None,
            key: 77,
            suspended: false,
            meter: Meter { wheels_before: 3, wheels_after: 0, counts: Counts::NormalCubicMetres },
            last_day: today.saturating_sub(1),
            last_index: 5,
        });
        match self.random.below(14) {
            0 | 1 => Call::Contract { supplier: self.random.pick(&self.profile.suppliers) },
            2 => Call::Failure { supplier: self.random.pick(&self.profile.suppliers) },
            3 => self.enrol(p),
            4 => self.put_into_service(p, known),
            5 => self.default(p, known),
            6 => self.request(p, known, today),
            7 => Call::Cancel { point: p, supplier: self.supplier() },
            8 => self.reading(p, known, today),
            9 => self.meter_change(p, known),
            10 => Call::OutOfService { point: p },
            11 | 12 => Call::Suspend { point: p, mark: self.random.below(2) },
            _ => Call::Day,
        }
    }

    /// A supplier under contract, if there is a register.
    fn supplier(&mut self) -> u64 {
        let mut suppliers = self.profile.suppliers.clone();
        suppliers.extend([self.settings.default_supplier, self.settings.last_resort]);
        for _ in 0..10 {
            let supplier = self.random.pick(&suppliers);
            if self.registre.book.as_ref().is_some_and(|book| book.under_contract[supplier as usize]) {
                return supplier;
            }
        }
        self.random.pick(&suppliers)
    }

    /// Mostly the key that the point has, so that a later request finds it.
    fn key(&mut self, point: Point) -> u64 {
        if point.key != 0 && self.random.percent(70) {
            point.key
        } else {
            self.random.pick(&[1, 77, 78, 123_456_789, 999_999_999])
        }
    }

    fn meter(&mut self) -> Meter {
        let wheels_before = self.random.pick(&[1, 1, 2, 3, 5, 8, 8]);
        let wheels_after = self.random.below(4);
        let counts = if self.random.percent(self.profile.cubic_metres) {
            Counts::CubicMetres { factor: self.factor() }
        } else {
            Counts::NormalCubicMetres
        };
        Meter { wheels_before, wheels_after, counts }
    }

    /// A factor at an edge, one that divides awkwardly, one of everyday or any.
    fn factor(&mut self) -> u64 {
        let everyday = self.random.between(9_000, 11_000);
        let anywhere = self.random.between(1, HIGHEST_FACTOR);
        self.random.pick(&[1, HIGHEST_FACTOR, 10_000, 9_500, 9_999, 10_001, 5_000, 3_333, everyday, everyday, anywhere])
    }

    fn first_index(&mut self, meter: Meter) -> u64 {
        let full_turn = meter.full_turn();
        let near_end = full_turn - 1 - self.random.below(10);
        let anywhere = self.random.below(full_turn);
        self.random.pick(&[0, full_turn - 1, near_end, anywhere])
    }

    fn new_meter(&mut self) -> NewMeter {
        let meter = self.meter();
        let index = self.first_index(meter);
        let (code, factor) = meter.counts.code_and_factor();
        NewMeter { wheels_before: meter.wheels_before, wheels_after: meter.wheels_after, index, code, factor }
    }

    fn enrol(&mut self, p: u64) -> Call {
        Call::Enrol { point: p, new: self.new_meter() }
    }

    fn put_into_service(&mut self, p: u64, point: Point) -> Call {
        Call::IntoService { point: p, supplier: self.supplier(), key: self.key(point) }
    }

    fn default(&mut self, p: u64, point: Point) -> Call {
        Call::Default { point: p, key: self.key(point) }
    }

    /// A request by any supplier or the present holder, for a day at an edge or between.
    fn request(&mut self, p: u64, point: Point, today: u64) -> Call {
        let latest = self.registre.calendar.three_months_after(today);
        let anywhere = self.random.between(today, latest);
        let soon = (today + self.random.between(19, 24)).min(latest);
        let mut days = vec![today, soon, anywhere, latest];
        if let Supply::Default { deadline } | Supply::LastResort { deadline } = point.supply {
            // On a deadline and around the one that follows it.
            let next = deadline + self.settings.last_resort_days;
            days.extend([deadline, deadline + 1, next - 1, next, next + 1]);
        }
        let requested_day = self.random.pick(&days).clamp(today, latest);
        let supplier = if point.holder != 0 && self.random.percent(15) { point.holder } else { self.supplier() };
        let key = if point.key == 0 { 77 } else { point.key };
        Call::Request { point: p, supplier, key, requested_day }
    }

    /// An index that the last one allows, and its zero mark.
    fn next_index(&mut self, point: Point) -> (u64, u64) {
        let (full_turn, last) = (point.meter.full_turn(), point.last_index);
        if last > 0 && self.random.percent(30) {
            let anywhere = self.random.below(last);
            return (self.random.pick(&[0, last - 1, anywhere]), 1);
        }
        let room = full_turn - 1 - last;
        let anywhere = self.random.between(0, room);
        let little = self.random.between(0, room.min(50));
        (last + self.random.pick(&[little, little, anywhere, room, 0]), 0)
    }

    fn reading(&mut self, p: u64, point: Point, today: u64) -> Call {
        let earliest = (point.last_day + 1).min(today);
        let anywhere = self.random.between(earliest, today);
        let day = self.random.pick(&[today, today, anywhere, earliest]);
        let (index, zero_mark) = self.next_index(point);
        Call::Reading { point: p, day, index, zero_mark }
    }

    fn meter_change(&mut self, p: u64, point: Point) -> Call {
        let (index, zero_mark) = self.next_index(point);
        Call::MeterChange { point: p, index, zero_mark, new: self.new_meter() }
    }

    /// The last line may lack its line feed; it may also be damaged or over-long.
    fn end(&mut self) {
        match self.random.below(10) {
            0..=2 => {
                self.text.pop();
            }
            3 => {
                self.text.pop();
                self.text.push(b'\r');
            }
            4 => {
                let length = self.random.pick(&[1, 96, 97, 128, 129, 200]);
                self.text.extend(std::iter::repeat_n(b'9', length));
            }
            5 => self.text.push(b'\n'),
            _ => {}
        }
    }
}
