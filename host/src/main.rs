//! The command `rulebook`: reads what is to be solved, asks the proved library, and says what it
//! answered. The exit status is 10 if the clauses can be met, 20 if not, 2 for bad use or bad input, and
//! 3 if an answer of the library turned out wrong.
#![deny(unsafe_code)]

mod check;
mod dimacs;
#[cfg(test)]
mod dpll;
#[allow(unsafe_code)]
mod library;
mod print;

use dimacs::{Fault, Formula};
use library::Answer;
use std::borrow::Cow;
use std::env;
use std::ffi::{OsStr, OsString};
use std::fmt::Display;
use std::fs;
use std::io::{self, BufWriter, Read, Write};
use std::process::ExitCode;

const SATISFIABLE: u8 = 10;
const UNSATISFIABLE: u8 = 20;

/// Why there is no answer.
enum Failure {
    BadUse,
    BadInput(String),
    CannotWrite(io::Error),
    /// What must never be.
    Internal(&'static str),
}

impl From<io::Error> for Failure {
    fn from(error: io::Error) -> Self {
        Failure::CannotWrite(error)
    }
}

fn main() -> ExitCode {
    let arguments: Vec<OsString> = env::args_os().skip(1).collect();
    let (status, message) = match run(&arguments) {
        Ok(status) => return ExitCode::from(status),
        Err(Failure::BadUse) => (2, "use: rulebook solve [--counts] FILE.cnf".to_string()),
        Err(Failure::BadInput(message)) => (2, format!("rulebook: {message}")),
        Err(Failure::CannotWrite(error)) => (2, format!("rulebook: can't write: {error}")),
        Err(Failure::Internal(message)) => (3, format!("rulebook: internal error: {message}")),
    };
    eprintln!("{message}");
    ExitCode::from(status)
}

fn run(arguments: &[OsString]) -> Result<u8, Failure> {
    match arguments {
        [command, file] if command == "solve" => solve(file, false),
        [command, option, file] if command == "solve" && option == "--counts" => solve(file, true),
        _ => Err(Failure::BadUse),
    }
}

/// Solves the clauses of a file, and gives the exit status. Where it is to count, a comment line says
/// how often the search had to do without its guidance.
fn solve(file: &OsStr, counting: bool) -> Result<u8, Failure> {
    let Formula { variables, clauses } = load(file)?;
    let mut out = BufWriter::new(io::stdout().lock());
    let answer = if counting {
        let (answer, fallbacks) = library::solve_counted(&clauses, variables);
        print::fallbacks(&mut out, &fallbacks)?;
        answer
    } else {
        library::solve(&clauses, variables)
    };
    let status = match answer {
        Answer::Met(model) if check::meets(&model, &clauses) => {
            print::met(&mut out, &model)?;
            SATISFIABLE
        }
        Answer::Met(_) => return Err(Failure::Internal("the model doesn't meet the clauses")),
        Answer::Never => {
            print::never(&mut out)?;
            UNSATISFIABLE
        }
        Answer::NoClauses => return Err(Failure::Internal("the clauses were refused")),
        Answer::Small => return Err(bad_input(file, "not enough memory")),
    };
    out.flush()?;
    Ok(status)
}

/// Reads the clauses of a file.
fn load(file: &OsStr) -> Result<Formula, Failure> {
    let text = read(file).map_err(|error| bad_input(file, error))?;
    dimacs::read(&text).map_err(|Fault { line, reason }| {
        Failure::BadInput(format!("{}:{line}: {reason}", shown(file)))
    })
}

/// The bytes of a file, or of the standard input if its name is `-`.
fn read(file: &OsStr) -> io::Result<Vec<u8>> {
    if file != "-" {
        return fs::read(file);
    }
    let mut text = Vec::new();
    io::stdin().lock().read_to_end(&mut text)?;
    Ok(text)
}

fn bad_input(file: &OsStr, problem: impl Display) -> Failure {
    Failure::BadInput(format!("{}: {problem}", shown(file)))
}

/// The name of a file for messages.
fn shown(file: &OsStr) -> Cow<'_, str> {
    if file == "-" {
        "<stdin>".into()
    } else {
        file.to_string_lossy()
    }
}
