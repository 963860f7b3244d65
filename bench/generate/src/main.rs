//! A long seeded input of one of four kinds: `readings` (daily readings of 32 points over decades, with some of every
//! other line among them), `mixed`, `late` and `failures`.

mod failures;
mod late;
mod mixed;

use std::fmt::{self, Display, Formatter};
use std::io::{self, BufWriter, Write};
use std::process::ExitCode;

const POINTS: usize = 32;
const FIRST_YEAR: u32 = 2000;
const LAST_YEAR: u32 = 2199;

/// A small generator of numbers (splitmix64).
struct Random {
    state: u64,
}

impl Random {
    fn below(&mut self, bound: u64) -> u64 {
        self.state = self.state.wrapping_add(0x9e37_79b9_7f4a_7c15);
        let mut mixed = self.state;
        mixed = (mixed ^ (mixed >> 30)).wrapping_mul(0xbf58_476d_1ce4_e5b9);
        mixed = (mixed ^ (mixed >> 27)).wrapping_mul(0x94d0_49bb_1331_11eb);
        (mixed ^ (mixed >> 31)) % bound
    }
}

/// What the readings of a point need: wheels before and after the comma, and the last index. Three meters in four count
/// m³ and have a factor.
#[derive(Clone, Copy)]
struct Meter {
    before: u32,
    after: u32,
    index: u64,
    factor: Option<u64>,
    read_today: bool,
}

/// The fields of a new meter: wheels, index, code and factor.
impl Display for Meter {
    fn fmt(&self, formatter: &mut Formatter) -> fmt::Result {
        let Meter { before, after, index, factor, .. } = self;
        let code = if factor.is_some() { 1 } else { 2 };
        write!(formatter, "{before};{after};{index};{code};{}", factor.unwrap_or(0))
    }
}

impl Meter {
    fn new(random: &mut Random) -> Meter {
        let before = 4 + random.below(3) as u32;
        let (after, index) = (random.below(4) as u32, random.below(10_000));
        // From the index, so that all else of an input is the same with and without these two fields.
        let factor = if index % 4 == 0 { None } else { Some(9_000 + index % 2_001) };
        Meter { before, after, index, factor, read_today: true }
    }

    /// Today's index, and whether it passed zero.
    fn turn(&mut self, random: &mut Random) -> (u64, u64) {
        self.read_today = true;
        let full_turn = 10_u64.pow(self.before + self.after);
        let next = self.index + random.below(40) * 10_u64.pow(self.after);
        self.index = next % full_turn;
        (self.index, u64::from(next >= full_turn))
    }
}

fn main() -> ExitCode {
    let words: Vec<String> = std::env::args().skip(1).collect();
    let number = |place: usize| words.get(place).and_then(|word| word.parse::<u64>().ok());
    let (Some(lines), Some(seed)) = (number(0), number(1)) else {
        eprintln!("usage: generate LINES SEED [readings | mixed | late | failures]");
        return ExitCode::FAILURE;
    };
    let kind = words.get(2).map_or("readings", String::as_str);
    let random = Random { state: seed };
    let output = BufWriter::with_capacity(1 << 16, io::stdout().lock());
    let written = match kind {
        "readings" => readings(lines, random, output),
        "mixed" => mixed::write(lines, random, output),
        "late" => late::write(lines, random, output),
        "failures" => failures::write(lines, output),
        _ => {
            eprintln!("no kind {kind}: readings, mixed, late or failures");
            return ExitCode::FAILURE;
        }
    };
    if written.is_ok() {
        ExitCode::SUCCESS
    } else {
        ExitCode::FAILURE
    }
}

fn readings(lines: u64, mut random: Random, mut output: impl Write) -> io::Result<()> {
    let mut meters: Vec<Meter> = (0..POINTS).map(|_| Meter::new(&mut random)).collect();
    let mut dates = dates();
    let mut date = dates.next().unwrap_or_default();
    let mut written = open(&meters, date, &mut output)?;
    while written < lines {
        date = dates.next().unwrap_or(date);
        meters.iter_mut().for_each(|meter| meter.read_today = false);
        // Readings in turn; about one line in fifteen is something else.
        let mut slot = 0;
        while slot < POINTS && written < lines {
            if random.below(15) == 0 {
                other(&mut random, &mut meters, date, &mut output)?;
            } else {
                if meters[slot].read_today {
                    writeln!(output, "jour;{date}")?;
                } else {
                    let (index, zero_mark) = meters[slot].turn(&mut random);
                    writeln!(output, "ri;{date};{};{date};{index};{zero_mark}", slot + 1)?;
                }
                slot += 1;
            }
            written += 1;
        }
    }
    output.flush()
}

/// The dates of the calendar from its first on.
fn dates() -> impl Iterator<Item = u32> {
    let leap = |year: u32| year.is_multiple_of(4) && year != 2100;
    let length = move |year: u32, month: u32| match month {
        2 => 28 + u32::from(leap(year)),
        4 | 6 | 9 | 11 => 30,
        _ => 31,
    };
    (FIRST_YEAR..=LAST_YEAR)
        .flat_map(|year| (1..=12).map(move |month| (year, month)))
        .flat_map(move |(year, month)| (1..=length(year, month)).map(move |day| 10_000 * year + 100 * month + day))
}

/// Opens the register, signs ten suppliers, enrols every point and puts it into service.
fn open(meters: &[Meter], date: u32, output: &mut impl Write) -> io::Result<u64> {
    writeln!(output, "set;{date};2;60;90;1;2")?;
    for supplier in 3..=12 {
        writeln!(output, "ctr;{date};{supplier}")?;
    }
    for (slot, meter) in meters.iter().enumerate() {
        let point = slot + 1;
        writeln!(output, "enr;{date};{point};{meter}")?;
        writeln!(output, "demmespc;{date};{point};{};{}", 3 + slot % 10, 1_000 + point)?;
    }
    Ok(11 + 2 * meters.len() as u64)
}

/// A line of another kind; most name the point's own key, some are refused, a few are unreadable.
fn other(random: &mut Random, meters: &mut [Meter], date: u32, output: &mut impl Write) -> io::Result<()> {
    let slot = random.below(POINTS as u64) as usize;
    let point = slot + 1;
    let key = 1_000 + point;
    let supplier = 3 + random.below(10);
    // Calls that name a holder are seldom, so that points fill up over decades only.
    match random.below(1_000) {
        0..=7 => writeln!(output, "demcf;{date};{point};{supplier};{key};{date}"),
        8 | 9 => writeln!(output, "demmhs;{date};{point}"),
        10..=13 => writeln!(output, "i;{date};{point};{key}"),
        14..=20 => writeln!(output, "demmespc;{date};{point};{supplier};{key}"),
        21 => writeln!(output, "def;{date};{supplier}"),
        22..=80 => writeln!(output, "ctr;{date};{supplier}"),
        81..=180 => writeln!(output, "adc;{date};{point};{supplier}"),
        181..=280 => writeln!(output, "demcf;{date};{point};{supplier};{};{date}", key + 1),
        281..=330 => writeln!(output, "sus;{date};{point};{}", u8::from(random.below(20) == 0)),
        331..=430 if !meters[slot].read_today => {
            let (index, zero_mark) = meters[slot].turn(random);
            meters[slot] = Meter::new(random);
            writeln!(output, "cdt;{date};{point};{index};{zero_mark};{}", meters[slot])
        }
        331..=480 => writeln!(output, "enr;{date};{point};5;3;0;1;9500"),
        481..=530 => writeln!(output, "ri;{date};{point};{date};999999999999;0"),
        531..=560 => writeln!(output, "ri;{date};{point};{date};0{supplier};0"),
        561..=580 => writeln!(output, "demhs;{date};{point}"),
        _ => writeln!(output, "jour;{date}"),
    }
}
