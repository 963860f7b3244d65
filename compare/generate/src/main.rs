//! Seeded lists of lines and spans of days for the comparison, the counts of what they brought, and the stored sample.

mod damage;
mod list;
mod random;
mod replies;
mod span;
mod spoil;
mod tally;

use daybook::Registre;
use replies::Replies;
use span::SpanMaker;
use std::fs;
use std::io::{self, Write};
use std::path::{Path, PathBuf};
use std::process::ExitCode;
use tally::Tally;

const USAGE: &str = "usage: generate lists N SEED FOLDER | generate tally FOLDER
       generate spans N SEED | generate replies SPANS REPLIES | generate views
       generate sample N SEED FOLDER | generate noise SEED BYTES";

fn main() -> ExitCode {
    let words: Vec<String> = std::env::args().skip(1).collect();
    let words: Vec<&str> = words.iter().map(String::as_str).collect();
    let number = |word: &str| word.parse::<u64>().ok();
    let done = match words[..] {
        ["lists", count, seed, folder] => number(count).zip(number(seed)).map(|(n, seed)| lists(n, seed, folder)),
        ["tally", folder] => Some(tally(folder)),
        ["spans", count, seed] => number(count).zip(number(seed)).map(|(n, seed)| spans(n, seed)),
        ["replies", spans, told] => Some(replies(spans, told)),
        ["views"] => Some(views()),
        ["sample", count, seed, folder] => number(count).zip(number(seed)).map(|(n, seed)| sample(n, seed, folder)),
        ["noise", seed, count] => number(seed).zip(number(count)).map(|(seed, n)| noise(seed, n)),
        _ => None,
    };
    match done {
        Some(Ok(())) => ExitCode::SUCCESS,
        Some(Err(error)) => {
            eprintln!("generate: {error}");
            ExitCode::FAILURE
        }
        None => {
            eprintln!("{USAGE}");
            ExitCode::FAILURE
        }
    }
}

/// Writes the lists 00001.in, 00002.in and so on.
fn lists(count: u64, seed: u64, folder: &str) -> io::Result<()> {
    for number in 1..=count {
        fs::write(Path::new(folder).join(format!("{number:05}.in")), list::make(seed, number))?;
    }
    Ok(())
}

/// Counts the numbers in a folder of lists with their outputs, and names the pairs that are missing.
fn tally(folder: &str) -> io::Result<()> {
    let mut tally = Tally::default();
    for input in inputs(folder)? {
        tally.add_list(&fs::read(&input)?, &fs::read(input.with_extension("out"))?);
    }
    let told = |pairs: Vec<(&str, u64)>| match pairs.len() {
        0 => "none".to_string(),
        _ => pairs.iter().map(|(kind, number)| format!("{kind} {number}")).collect::<Vec<_>>().join(", "),
    };
    let mut output = io::stdout().lock();
    writeln!(output, "{} lines; number 0 is accepted, a dash marks a pair that cannot come", tally.lines())?;
    write!(output, "{}", tally.table())?;
    writeln!(output, "{}", tally.depth())?;
    writeln!(output, "pairs that can come and never came: {}", told(tally.never_came()))?;
    writeln!(output, "pairs that came and should not: {}", told(tally.came_unforeseen()))
}

/// Writes so many spans, two dates a line.
fn spans(count: u64, seed: u64) -> io::Result<()> {
    let mut maker = SpanMaker::new(seed);
    let lines: String = (0..count).map(|number| maker.line(number)).collect();
    io::stdout().lock().write_all(lines.as_bytes())
}

/// Counts the replies to a file of spans by their kind, and names the kinds that are missing.
fn replies(spans: &str, told: &str) -> io::Result<()> {
    let replies = Replies::to_spans(&fs::read_to_string(spans)?, &fs::read_to_string(told)?);
    let mut output = io::stdout().lock();
    writeln!(output, "{} spans by their reply, refused or a count", replies.count())?;
    write!(output, "{}", replies.table())?;
    writeln!(output, "replies that can come and never came: {}", replies.never_came())
}

/// Counts the view lines on standard input by the kind of their reply, and names the kinds that are missing.
fn views() -> io::Result<()> {
    let (replies, with_own_normal) = Replies::to_views(io::stdin().lock())?;
    let mut output = io::stdout().lock();
    writeln!(output, "{} views by their reply, refused or a period by its end", replies.count())?;
    write!(output, "{}", replies.table())?;
    writeln!(output, "{with_own_normal} of the periods with an Nm³ volume of its own")?;
    writeln!(output, "replies that can come and never came: {}", replies.never_came())
}

/// Random bytes; a few of them are made line feeds, digits and separators.
fn noise(seed: u64, count: u64) -> io::Result<()> {
    let mut random = random::Random::new(seed);
    let bytes: Vec<u8> = (0..count)
        .map(|_| match random.below(6) {
            0 => random.pick(b"\n;0123456789\r\0jourset"),
            _ => random.below(256) as u8,
        })
        .collect();
    io::stdout().lock().write_all(&bytes)
}

fn inputs(folder: &str) -> io::Result<Vec<PathBuf>> {
    let paths: Result<Vec<PathBuf>, io::Error> = fs::read_dir(folder)?.map(|entry| Ok(entry?.path())).collect();
    Ok(paths?.into_iter().filter(|path| path.extension().is_some_and(|extension| extension == "in")).collect())
}

/// Writes so many short lists with their outputs: first lists that bring a new pair, then any.
fn sample(count: u64, seed: u64, folder: &str) -> io::Result<()> {
    const LONGEST: usize = 9_000;
    let mut tally = Tally::default();
    let mut written = 0;
    for number in 1.. {
        if written == count {
            break;
        }
        let input = list::make(seed, number);
        let mut output = Vec::new();
        Registre::default().run(&mut &input[..], &mut output)?;
        let missing_before = tally.never_came().len() as u64;
        let mut with_it = tally.clone();
        with_it.add_list(&input, &output);
        let brings = missing_before - with_it.never_came().len() as u64;
        // While pairs are missing, keep a place for each of them.
        if input.len() <= LONGEST && (brings > 0 || written + missing_before < count) {
            written += 1;
            tally = with_it;
            fs::write(Path::new(folder).join(format!("{written:03}.in")), &input)?;
            fs::write(Path::new(folder).join(format!("{written:03}.out")), &output)?;
        }
    }
    Ok(())
}
