//! 02, F-4: codes, factors and Nm³ volumes by worked numbers.

use daybook::book::{DayBook, Period};
use daybook::calendar::{Calendar, LAST_DAY};
use daybook::line::{Call, NewMeter, Settings};

/// 26 November 2021.
const FIRST_DAY: u64 = 8_000;

struct Desk {
    book: DayBook,
    calendar: Calendar,
}

fn open() -> Desk {
    let settings =
        Settings { cancel_days: 2, default_days: 30, last_resort_days: 40, default_supplier: 1, last_resort: 2 };
    let Ok(book) = DayBook::open(FIRST_DAY, settings) else { panic!("the settings are in range") };
    Desk { book, calendar: Calendar::default() }
}

fn new_meter(wheels: (u64, u64), index: u64, code: u64, factor: u64) -> NewMeter {
    NewMeter { wheels_before: wheels.0, wheels_after: wheels.1, index, code, factor }
}

impl Desk {
    fn number(&mut self, today: u64, call: Call) -> u64 {
        self.book.call(today, &call, &self.calendar).number
    }

    fn accept(&mut self, today: u64, call: Call) {
        assert_eq!(self.number(today, call), 0, "{call:?}");
    }

    fn enrol(&mut self, wheels: (u64, u64), code: u64, factor: u64) {
        self.accept(FIRST_DAY, Call::Enrol { point: 1, new: new_meter(wheels, 0, code, factor) });
    }

    fn read(&mut self, day: u64, index: u64) {
        self.accept(day, Call::Reading { point: 1, day, index, zero_mark: 0 });
    }

    fn change(&mut self, day: u64, index: u64, code: u64, factor: u64) {
        let new = new_meter((3, 0), 0, code, factor);
        self.accept(day, Call::MeterChange { point: 1, index, zero_mark: 0, new });
    }

    fn serve(&mut self, day: u64) {
        self.accept(day, Call::IntoService { point: 1, supplier: 1, key: 77 });
    }

    /// Of each period the booked and the Nm³ volume, then both advances.
    fn volumes(&self) -> Vec<(String, String)> {
        let of = |period: &Period| (period.volume.to_string(), period.normal.to_string());
        let mut volumes: Vec<(String, String)> = self.book.periods(1).iter().map(of).collect();
        let advances = self.book.advance(1).zip(self.book.normal_advance(1)).expect("point 1 is enrolled");
        volumes.push((advances.0.to_string(), advances.1.to_string()));
        volumes
    }
}

fn told(volumes: &[(u64, u64)]) -> Vec<(String, String)> {
    volumes.iter().map(|(booked, normal)| (booked.to_string(), normal.to_string())).collect()
}

/// The number that an enrolment of this code and factor gets.
fn enrolment(wheels_before: u64, code: u64, factor: u64) -> u64 {
    open().number(FIRST_DAY, Call::Enrol { point: 1, new: new_meter((wheels_before, 0), 0, code, factor) })
}

#[test]
fn code_then_factor() {
    assert_eq!([0, 3, 10].map(|code| enrolment(3, code, 0)), [22; 3]);
    assert_eq!(enrolment(9, 1, 0), 22);
    assert_eq!([0, 1, 99_999, 100_000].map(|factor| enrolment(3, 1, factor)), [40, 0, 0, 40]);
    assert_eq!([0, 1, 10_000].map(|factor| enrolment(3, 2, factor)), [0, 40, 40]);
}

/// Lines cannot bring 20 to an enrolment or a meter change, a call can: 40 goes directly after 22.
#[test]
fn factor_before_20_and_all_else() {
    let mut desk = open();
    desk.enrol((3, 0), 2, 0);
    for (today, point, number) in [(LAST_DAY + 1, 1, 20), (FIRST_DAY - 1, 40, 21), (FIRST_DAY, 40, 2)] {
        for (code, factor) in [(1, 0), (1, 100_000), (2, 1)] {
            let new = new_meter((3, 0), 9_999, code, factor);
            assert_eq!(desk.number(today, Call::Enrol { point, new }), 40);
            assert_eq!(desk.number(today, Call::MeterChange { point, index: 9_999, zero_mark: 0, new }), 40);
        }
        let new = new_meter((3, 0), 9_999, 1, 1);
        assert_eq!(desk.number(today, Call::Enrol { point, new }), number);
        assert_eq!(desk.number(today, Call::MeterChange { point, index: 9_999, zero_mark: 0, new }), number);
    }
    let bad = new_meter((3, 0), 9_999, 1, 0);
    assert_eq!(desk.number(FIRST_DAY, Call::Enrol { point: 1, new: bad }), 40);
    assert_eq!(desk.number(FIRST_DAY, Call::Enrol { point: 1, new: new_meter((3, 0), 9_999, 1, 1) }), 23);
}

#[test]
fn booked_volume_is_the_wheels_own() {
    let mut desk = open();
    desk.enrol((3, 0), 1, 9_500);
    desk.change(8_010, 10, 2, 0);
    desk.read(8_015, 5);
    assert_eq!(desk.volumes(), told(&[(15_000, 14_500), (15_000, 14_500)]));
}

#[test]
fn converted_in_thousandths() {
    let mut desk = open();
    desk.enrol((3, 0), 1, 9_999);
    desk.read(8_001, 1);
    assert_eq!(desk.volumes(), told(&[(1_000, 999), (1_000, 999)]));
}

#[test]
fn new_holder_within_a_reading() {
    for (code, factor, periods) in
        [(1, 9_500, [(2, 1), (5, 5), (7, 6)]), (1, 10_000, [(2, 2), (5, 5), (7, 7)]), (2, 0, [(2, 2), (5, 5), (7, 7)])]
    {
        let mut desk = open();
        desk.enrol((1, 3), code, factor);
        desk.serve(8_003);
        desk.read(8_010, 7);
        assert_eq!(desk.volumes(), told(&periods));
    }
}

/// A new holder on each of the ten days, so that a period is a day.
#[test]
fn each_day_of_a_reading() {
    let mut desk = open();
    desk.enrol((1, 3), 1, 9_500);
    for k in 1..10 {
        if k % 2 == 1 {
            desk.serve(FIRST_DAY + k);
        } else {
            desk.accept(FIRST_DAY + k, Call::OutOfService { point: 1 });
        }
    }
    desk.read(8_010, 7);
    // Totals 0 0 1 2 2 3 4 4 5 6 7, converted 0 0 0 1 1 2 3 3 4 5 6.
    let days = [(0, 0), (1, 0), (1, 1), (0, 0), (1, 1), (1, 1), (0, 0), (1, 1), (1, 1), (1, 1)];
    assert_eq!(desk.volumes()[..10], told(&days));
    assert_eq!(desk.volumes()[10..], told(&[(7, 6)]));
}

#[test]
fn each_reading_converts_from_0() {
    let mut desk = open();
    desk.enrol((1, 3), 1, 5_000);
    desk.read(8_001, 1);
    desk.read(8_002, 2);
    assert_eq!(desk.volumes(), told(&[(2, 0), (2, 0)]));
}

#[test]
fn closing_reading_by_the_old_factor() {
    let mut desk = open();
    desk.enrol((3, 0), 1, 99_999);
    desk.change(8_010, 500, 1, 1);
    assert_eq!(desk.volumes(), told(&[(500_000, 4_999_950), (500_000, 4_999_950)]));
}
