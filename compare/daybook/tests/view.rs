//! 02, F-6: what a supplier is told of its own periods by worked numbers, on both sides of each boundary.

use daybook::calendar::Calendar;
use daybook::questions::{answer, read, Question, USAGE};
use daybook::Registre;

/// Day 8,000 is 26 November 2021. Two working days to cancel, 30 of default supply, 40 of last resort; the default
/// supplier is 1, the last resort 2. An index of point 1 counts thousandths of an m³.
const OPENING: [&str; 4] =
    ["set;20211126;2;30;40;1;2", "ctr;20211126;5", "ctr;20211126;6", "enr;20211126;1;1;3;0;1;9500"];

/// 5 from 8,003, within a reading; 6 from 8,012; nobody from 8,014; 5 from 8,015, and from 8,040 by its own request. The
/// register's day is 8,050.
const WORKED: [&str; 8] = [
    "demmespc;20211129;1;5;77",
    "ri;20211206;1;20211206;7;0",
    "demmhs;20211208;1",
    "demmespc;20211208;1;6;78",
    "demmhs;20211210;1",
    "demmespc;20211211;1;5;77",
    "demcf;20211211;1;5;77;20220105",
    "jour;20220115",
];

const WORKED_OF_5: [&str; 4] =
    ["ok;20211129;20211208;5;5", "ok;20211211;20220105;0;0", "ok;20220105;-;0;0", "refused;41"];

/// The register after the opening and these lines, each of them accepted.
fn register(lines: &[&str]) -> Registre {
    let mut registre = Registre::default();
    OPENING.iter().for_each(|line| accept(&mut registre, line));
    lines.iter().for_each(|line| accept(&mut registre, line));
    registre
}

fn accept(registre: &mut Registre, line: &str) {
    assert_eq!(registre.take(line.as_bytes()).1.number, 0, "{line}");
}

fn reply(registre: &Registre, question: Question) -> String {
    answer(registre.book.as_ref(), &registre.calendar, question)
}

fn view(registre: &Registre, supplier: u64, point: u64, number: u64) -> String {
    let words = [supplier, point, number].map(|number| number.to_string());
    let question = read(&["view", &words[0], &words[1], &words[2]], &registre.calendar).expect("three numbers");
    reply(registre, question).trim_end().to_string()
}

/// What a supplier is told of point 1, from number 1 on.
fn told(registre: &Registre, supplier: u64, replies: &[&str]) {
    for (number, expected) in (1..).zip(replies) {
        assert_eq!(view(registre, supplier, 1, number), *expected, "{supplier} {number}");
    }
}

fn refused(registre: &Registre, number: u64, views: &[(u64, u64, u64)]) {
    for &(supplier, point, n) in views {
        assert_eq!(view(registre, supplier, point, n), format!("refused;{number}"), "{supplier} {point} {n}");
    }
}

#[test]
fn own_periods_oldest_first() {
    let registre = register(&WORKED);
    told(&registre, 5, &WORKED_OF_5);
    told(&registre, 6, &["ok;20211208;20211210;0;0", "refused;41"]);
    refused(&registre, 41, &[(7, 1, 1), (1, 1, 1), (2, 1, 1)]);
}

#[test]
fn others_do_not_show() {
    let mut lines = ["ctr;20211126;7", "enr;20211126;2;8;0;5;2;0", "demmespc;20211129;2;6;5"].to_vec();
    lines.extend(WORKED);
    lines.extend(["demcf;20220115;1;1;77;20220115", "demcf;20220115;2;1;5;20220401"]);
    let of_7 = lines.iter().position(|line| *line == "demmespc;20211208;1;6;78").expect("the line of 6");
    lines[of_7] = "demmespc;20211208;1;7;99";
    let registre = register(&lines);
    told(&registre, 5, &WORKED_OF_5);
    told(&registre, 7, &["ok;20211208;20211210;0;0", "refused;41"]);
    refused(&registre, 41, &[(6, 1, 1), (1, 1, 1)]);
}

#[test]
fn suppliers() {
    let mut registre = register(&["ctr;20211126;99", "demmespc;20211127;1;99;77"]);
    told(&registre, 99, &["ok;20211127;-;0;0", "refused;41"]);
    accept(&mut registre, "demcf;20211127;1;1;77;20211218");
    accept(&mut registre, "jour;20211218");
    told(&registre, 99, &["ok;20211127;20211218;0;0", "refused;41"]);
    told(&registre, 1, &["ok;20211218;-;0;0", "refused;41"]);
    // Point 1 was the operator's on 26 November.
    refused(&registre, 22, &[(0, 1, 1), (100, 1, 1), (101, 1, 1), (256, 1, 1), (999_999_999_999, 1, 1)]);
    refused(&registre, 41, &[(98, 1, 1), (2, 1, 1)]);
}

#[test]
fn points() {
    let lines = ["enr;20211126;32;8;0;5;2;0", "demmespc;20211126;1;5;77", "demmespc;20211126;32;5;77"];
    let registre = register(&lines);
    assert_eq!([1, 32].map(|point| view(&registre, 5, point, 1)), ["ok;20211126;-;0;0"; 2]);
    refused(&registre, 41, &[(5, 0, 1), (5, 2, 1), (5, 31, 1), (5, 33, 1), (5, 257, 1), (5, 999_999_999_999, 1)]);
}

#[test]
fn numbers() {
    let registre = register(&WORKED);
    refused(&registre, 41, &[(5, 1, 0), (5, 1, 4), (5, 1, 5), (5, 1, 257), (5, 1, 999_999_999_999)]);
    refused(&registre, 41, &[(6, 1, 0), (6, 1, 2), (7, 1, 0), (7, 1, 1), (7, 1, 2)]);
}

#[test]
fn supplier_before_all_else() {
    let registre = register(&WORKED);
    refused(&registre, 22, &[(0, 33, 0), (0, 33, 1), (0, 2, 1), (0, 1, 0), (100, 0, 1), (100, 1, 0), (100, 1, 2)]);
    refused(&registre, 41, &[(5, 33, 0), (5, 33, 1), (5, 1, 0), (7, 1, 1), (7, 33, 0)]);
}

#[test]
fn pending_request_is_no_end() {
    let mut registre = register(&["demmespc;20211129;1;5;77", "demcf;20211129;1;6;77;20211220"]);
    told(&registre, 5, &["ok;20211129;-;0;0", "refused;41"]);
    accept(&mut registre, "jour;20211219");
    told(&registre, 5, &["ok;20211129;-;0;0", "refused;41"]);
    refused(&registre, 41, &[(6, 1, 1)]);
    accept(&mut registre, "jour;20211220");
    told(&registre, 5, &["ok;20211129;20211220;0;0", "refused;41"]);
    told(&registre, 6, &["ok;20211220;-;0;0", "refused;41"]);
}

#[test]
fn last_period_open_or_closed() {
    let mut registre = register(&["demmespc;20211126;1;5;77", "ri;20211206;1;20211206;7;0"]);
    told(&registre, 5, &["ok;20211126;-;7;6", "refused;41"]);
    accept(&mut registre, "demmhs;20211216;1");
    told(&registre, 5, &["ok;20211126;20211216;7;6", "refused;41"]);
    // Of the 15 days read over 10 are the supplier's: floor(2 × 10 / 15) is 1, and floor(1 × 0.95) is 0.
    accept(&mut registre, "ri;20211221;1;20211221;9;0");
    told(&registre, 5, &["ok;20211126;20211216;8;6", "refused;41"]);
}

#[test]
fn replaced_on_its_own_day() {
    let mut registre = register(&["demmespc;20211127;1;5;77"]);
    told(&registre, 5, &["ok;20211127;-;0;0", "refused;41"]);
    accept(&mut registre, "demmhs;20211127;1");
    refused(&registre, 41, &[(5, 1, 0), (5, 1, 1)]);
    accept(&mut registre, "demmespc;20211127;1;6;77");
    accept(&mut registre, "def;20211127;6");
    refused(&registre, 41, &[(6, 1, 1)]);
    told(&registre, 2, &["ok;20211127;-;0;0", "refused;41"]);
}

#[test]
fn failed_supplier_sees_its_past() {
    let registre = register(&["demmespc;20211127;1;6;77", "def;20211128;6"]);
    told(&registre, 6, &["ok;20211127;20211128;0;0", "refused;41"]);
    told(&registre, 2, &["ok;20211128;-;0;0", "refused;41"]);
}

/// Default supply from 8,000 to 8,030, last resort from there to 8,070.
#[test]
fn deadlines() {
    let mut registre = register(&["i;20211126;1;77", "jour;20211225"]);
    told(&registre, 1, &["ok;20211126;-;0;0", "refused;41"]);
    refused(&registre, 41, &[(2, 1, 1)]);
    accept(&mut registre, "jour;20211226");
    told(&registre, 1, &["ok;20211126;20211226;0;0", "refused;41"]);
    told(&registre, 2, &["ok;20211226;-;0;0", "refused;41"]);
    accept(&mut registre, "jour;20220203");
    told(&registre, 2, &["ok;20211226;-;0;0", "refused;41"]);
    accept(&mut registre, "ri;20220204;1;20220204;7;0");
    // 30 of 70 days have 3 of 7, and floor(3 × 0.95) is 2; the 40 others have the rest, floor(7 × 0.95) - 2.
    told(&registre, 1, &["ok;20211126;20211226;3;2", "refused;41"]);
    told(&registre, 2, &["ok;20211226;20220204;4;4", "refused;41"]);
}

#[test]
fn refused_call_brings_nothing_up() {
    let mut registre = register(&["i;20211126;1;77"]);
    assert_eq!(registre.take(b"demmhs;20220301;2").1.number, 2);
    told(&registre, 1, &["ok;20211126;-;0;0", "refused;41"]);
    refused(&registre, 41, &[(2, 1, 1)]);
}

#[test]
fn no_register() {
    let registre = Registre::default();
    assert_eq!(view(&registre, 5, 1, 1), "unopened");
    assert_eq!(view(&registre, 0, 33, 0), "unopened");
}

#[test]
fn words_that_ask_nothing() {
    let calendar = Calendar::default();
    let asks = |words: &[&str]| read(&[&["view"], words].concat(), &calendar);
    let words: [&[&str]; 5] = [&[], &["5"], &["5", "1"], &["5", "1", "1", "1"], &["5", "1", "1", ""]];
    for words in words {
        assert_eq!(asks(words), None, "{words:?}");
    }
    for word in ["", "1000000000000", "0000000000001", "01", "00", "x", "1x", "+1", "-1", " 1", "1 "] {
        for words in [[word, "1", "1"], ["5", word, "1"], ["5", "1", word]] {
            assert_eq!(asks(&words), None, "{words:?}");
        }
    }
    let usage = "ask holder P DATE | ask period P N | ask advance P | ask view S P N | ask working DATE DATE | ask all";
    assert_eq!(USAGE, format!("usage: {usage}"));
    let highest = 999_999_999_999;
    let asked = asks(&["999999999999", "0", "100000000000"]);
    assert_eq!(asked, Some(Question::View { supplier: highest, point: 0, number: 100_000_000_000 }));
    let asked = asks(&["0", "999999999999", "999999999999"]);
    assert_eq!(asked, Some(Question::View { supplier: 0, point: highest, number: highest }));
}

/// Suppliers 0 to 100 of an enrolled point, each up to its first refused number from 1 on; two of any other point.
#[test]
fn all_suppliers_are_asked() {
    let all = reply(&register(&WORKED), Question::All);
    let views: Vec<&str> = all.lines().filter(|line| line.starts_with("view;")).collect();
    let of_1: Vec<&str> = views.iter().copied().filter(|line| line.split(';').nth(2) == Some("1")).collect();
    assert_eq!(of_1.len(), 2 * 101 + 4);
    assert_eq!(
        of_1[..4],
        ["view;0;1;0;refused;22", "view;0;1;1;refused;22", "view;1;1;0;refused;41", "view;1;1;1;refused;41"]
    );
    let of_5 = [
        "view;5;1;0;refused;41",
        "view;5;1;1;ok;20211129;20211208;5;5",
        "view;5;1;2;ok;20211211;20220105;0;0",
        "view;5;1;3;ok;20220105;-;0;0",
        "view;5;1;4;refused;41",
    ];
    assert_eq!(of_1[10..15], of_5);
    assert_eq!(of_1[204..], ["view;100;1;0;refused;22", "view;100;1;1;refused;22"]);
    assert_eq!(views.len(), of_1.len() + 2 * 33);
    assert_eq!(views[..2], ["view;0;0;1;refused;22", "view;1;0;1;refused;41"]);
    assert!(all.ends_with("period;33;1;refused;22\nview;0;33;1;refused;22\nview;1;33;1;refused;41\n"));
    // The day after the register's is the last that is asked for the holder.
    assert!(all.contains("holder;1;8051;refused;22;0\nview;0;1;0;"));
}
