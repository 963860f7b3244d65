//! `daybook` writes what `registre` writes; `daybook ask ..` what `ask ..` writes; `daybook working` what `ask working`
//! writes of the two dates on each line of its input. Usage goes to standard error.

use daybook::{questions, Registre};
use std::io::{self, BufWriter, Write};
use std::process::ExitCode;

fn main() -> ExitCode {
    let words: Vec<String> = std::env::args_os().skip(1).map(|word| word.to_string_lossy().into_owned()).collect();
    let words: Vec<&str> = words.iter().map(String::as_str).collect();
    let mut output = BufWriter::new(io::stdout().lock());
    let done = match &words[..] {
        [] => Registre::default().run(&mut io::stdin().lock(), &mut output),
        ["ask", question @ ..] => ask(question, &mut output),
        ["working"] => Registre::default().tell_working(&mut io::stdin().lock(), &mut output),
        _ => writeln!(io::stderr(), "usage: daybook [ask .. | working]"),
    };
    // A closed output ends the program; there is nobody to tell.
    match done.and_then(|()| output.flush()) {
        Ok(()) => ExitCode::SUCCESS,
        Err(_) => ExitCode::FAILURE,
    }
}

fn ask(words: &[&str], output: &mut impl Write) -> io::Result<()> {
    let mut registre = Registre::default();
    let Some(question) = questions::read(words, &registre.calendar) else {
        return writeln!(io::stderr(), "{}", questions::USAGE);
    };
    if question.needs_register() {
        registre.take_all(&mut io::stdin().lock(), |registre, line| {
            registre.take(line);
            Ok(())
        })?;
    }
    output.write_all(questions::answer(registre.book.as_ref(), &registre.calendar, question).as_bytes())
}
