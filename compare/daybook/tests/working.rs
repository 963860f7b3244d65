//! 02, F-5: the working days between two dates by worked numbers, on both sides of each boundary.

use daybook::calendar::Calendar;
use daybook::questions::{answer, read, USAGE};
use daybook::Registre;

/// The reply to two dates, without a register.
fn reply(first: u64, last: u64) -> String {
    let calendar = Calendar::default();
    let question = read(&["working", &first.to_string(), &last.to_string()], &calendar).expect("eight digits");
    answer(None, &calendar, question)
}

fn told(spans: &[(u64, u64, u64)]) {
    for &(first, last, count) in spans {
        assert_eq!(reply(first, last), format!("ok;{count}\n"), "{first} {last}");
    }
}

fn refused(spans: &[(u64, u64)]) {
    for &(first, last) in spans {
        assert_eq!(reply(first, last), "refused;22\n", "{first} {last}");
    }
}

#[test]
fn neither_day_counts() {
    // 24 May 2021 is Whit Monday.
    told(&[(20210519, 20210525, 2), (20210520, 20210525, 1), (20210521, 20210525, 0), (20210521, 20210526, 1)]);
    told(&[(20210525, 20210525, 0), (20210525, 20210526, 0), (20210525, 20210527, 1)]);
}

#[test]
fn first_not_after_last() {
    refused(&[(20210521, 20210519), (20210526, 20210525), (20220101, 20211231), (21991231, 20000101)]);
    told(&[(20210525, 20210526, 0), (20211231, 20220101, 0)]);
}

#[test]
fn years_ends() {
    told(&[(20201230, 20210105, 2), (20201231, 20210105, 1), (20201231, 20210104, 0)]);
    told(&[(20211231, 20220104, 1), (20211230, 20220104, 2)]);
    told(&[(20991230, 21000104, 1), (20991230, 21000105, 2)]);
    told(&[(21001230, 21010104, 2), (21001231, 21010104, 1), (21001231, 21010103, 0)]);
}

#[test]
fn leap_days() {
    told(&[(20240228, 20240301, 1), (20240229, 20240301, 0), (20230228, 20230301, 0)]);
    told(&[(20000228, 20000301, 1), (20960228, 20960301, 1), (21000228, 21000301, 0), (21000226, 21000302, 1)]);
    refused(&[(20230101, 20230229), (20230229, 20240101), (21000101, 21000229), (21000229, 21010101)]);
}

#[test]
fn europe_day_from_2019() {
    told(&[(20180508, 20180510, 1), (20190508, 20190510, 0), (20190507, 20190510, 1)]);
}

#[test]
fn ends_of_the_calendar() {
    told(&[(20000101, 20000101, 0), (20000101, 20000103, 0), (20000101, 20000104, 1)]);
    told(&[(21991231, 21991231, 0), (21991230, 21991231, 0), (21991229, 21991231, 1), (21991224, 21991231, 2)]);
    refused(&[(19991231, 20000104), (19991231, 19991231), (20000101, 19991231)]);
    refused(&[(21991224, 22000101), (22000101, 22000101), (22000101, 21991231)]);
    refused(&[(10000000, 20210525), (20210519, 99999999), (20210519, 20210532), (20210500, 20210525)]);
}

#[test]
fn long_spans() {
    told(&[(20000101, 21991231, 50_455), (20000103, 21991231, 50_454), (20000101, 21991230, 50_454)]);
    // 2021 has 261 Mondays to Fridays; of its 11 holidays 1 and 9 May, 15 August, 25 and 26 December are on a weekend.
    told(&[(20201231, 20220101, 255), (20210101, 20220101, 255), (20201231, 20211231, 254)]);
    // 2020 has 262 and loses seven to holidays; 2100 is a year like 2021.
    told(&[(20191231, 20210101, 255), (20991231, 21010101, 255), (20100101, 20200101, 2_526)]);
}

#[test]
fn words_that_ask_nothing() {
    let calendar = Calendar::default();
    let words: [&[&str]; 4] = [&[], &["20210519"], &["20210519", "20210525", "1"], &["20210519", "20210525", ""]];
    for words in words {
        assert_eq!(read(&[&["working"], words].concat(), &calendar), None, "{words:?}");
    }
    let no_dates =
        ["", "2021052", "202105250", "020210525", "02210525", "00000000", "2021052x", "+2021052", " 2021052"];
    for word in no_dates {
        assert_eq!(read(&["working", "20210519", word], &calendar), None, "{word}");
        assert_eq!(read(&["working", word, "20210525"], &calendar), None, "{word}");
    }
}

#[test]
fn a_reply_to_each_line() {
    let mut written = Vec::new();
    let lines = b"20210519 20210525\n20210521 20210519\n20210519\n20210519  20210525\n20210520 20210525";
    Registre::default().tell_working(&mut &lines[..], &mut written).expect("memory takes all");
    let expected = format!("ok;2\nrefused;22\n{USAGE}\n{USAGE}\nok;1\n");
    assert_eq!(String::from_utf8(written), Ok(expected));
}
