//! Damage to the text of a line.

use crate::random::Random;

/// Kinds of no message: prefixes, longer words, upper case, words of other editions.
const FALSE_KINDS: [&str; 26] = [
    "",
    "s",
    "se",
    "sett",
    "SET",
    "Set",
    "c",
    "ct",
    "ctrl",
    "d",
    "de",
    "dem",
    "demm",
    "demme",
    "demmesp",
    "demmespcx",
    "demhs",
    "demc",
    "demcff",
    "ad",
    "r",
    "rix",
    "I",
    "JOUR",
    "jou",
    "total",
];

/// Dates that are none of the calendar.
const FALSE_DATES: [&str; 23] = [
    "\0\0\0\0\0\0\0\0",
    "21000229",
    "20210229",
    "20210431",
    "20211301",
    "20210001",
    "20210100",
    "20210132",
    "19991231",
    "22000101",
    "00000000",
    "99999999",
    "2021010",
    "202101011",
    "020210101",
    "",
    "2021-01-01",
    "20210a01",
    " 20210101",
    "20210101 ",
    "+2021010",
    "20211131",
    "21990230",
];

/// Fields that are no number.
const FALSE_NUMBERS: [&str; 20] = [
    "",
    "00",
    "01",
    "007",
    "0000000000001",
    "1000000000000",
    "9999999999999",
    "18446744073709551617",
    "+1",
    "-1",
    "1.0",
    "1,0",
    " 1",
    "1 ",
    "0x1",
    "1e3",
    "a",
    "1\t",
    "\u{661}",
    ":",
];

/// The text with one thing wrong; a few of the changes leave it readable.
pub fn damage(random: &mut Random, text: &str) -> Vec<u8> {
    let mut fields: Vec<String> = text.split(';').map(str::to_string).collect();
    let slot = random.below(fields.len() as u64) as usize;
    match random.below(24) {
        0 => fields[0] = random.pick(&FALSE_KINDS).to_string(),
        1 => fields[0] = fields[0].to_uppercase(),
        2 => {
            let length = random.below(fields[0].len() as u64) as usize;
            fields[0].truncate(length);
        }
        3 | 4 => fields[1] = random.pick(&FALSE_DATES).to_string(),
        5 => fields[slot] = random.pick(&FALSE_DATES).to_string(),
        6..=8 => {
            let last = fields.len() - 1;
            let slot = slot.max(2).min(last);
            fields[slot] = random.pick(&FALSE_NUMBERS).to_string();
        }
        9 => fields[slot].insert(0, '0'),
        10 => {
            fields.remove(slot);
        }
        11 => fields.insert(slot + 1, random.pick(&["0", "1", "", "20210101"]).to_string()),
        12 => fields.push(String::new()),
        13 => fields.push("0".to_string()),
        _ => return damage_bytes(random, text),
    }
    fields.join(";").into_bytes()
}

fn damage_bytes(random: &mut Random, text: &str) -> Vec<u8> {
    let mut bytes = text.as_bytes().to_vec();
    let slot = random.below(bytes.len() as u64) as usize;
    match random.below(13) {
        0 => bytes.push(b'\r'),
        1 => bytes.push(b' '),
        2 => bytes.insert(0, b' '),
        3 => bytes.clear(),
        4 => bytes[slot] = 0,
        5 => bytes.push(0),
        6 => bytes.insert(slot, random.pick(b"\0\r\t ;,.0/:\x7f\x80\xff\xb2")),
        7 => bytes[slot] = random.between(11, 255) as u8,
        8 => bytes.truncate(slot),
        9 => bytes.extend_from_slice(text.as_bytes()),
        10 => over_long(random, &mut bytes),
        11 => {
            let length = random.between(1, 130);
            bytes = (0..length).map(|_| random.between(11, 255) as u8).collect();
        }
        _ => bytes = random.pick(&[&b";"[..], b";;;;;", b"\0", b"\r", b"0", b"?", b"set", b"i;", b"#;set"]).to_vec(),
    }
    bytes
}

/// Fills the line up to lengths at the limit and past it.
fn over_long(random: &mut Random, bytes: &mut Vec<u8>) {
    let length = match random.below(40) {
        0 => random.pick(&[70_000, 131_072, 65_535]),
        1..=3 => random.pick(&[4_095, 4_096, 4_097, 8_192]),
        4..=9 => random.pick(&[192, 255, 256, 257, 300]),
        _ => random.between(94, 131) as usize,
    };
    let filling = random.pick(b"0159;x \0");
    while bytes.len() < length {
        bytes.push(filling);
    }
}
