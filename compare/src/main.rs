//! An independent reader of day files and an independent player of journals, written from docs/, and a comparison of
//! the programs `figure` and `fundroom` with them.

mod book;
mod check;
mod dayfile;
mod generate;
mod journal;
mod random;
mod rules;

use check::{by_bytes, by_lines, Parting, Printed};
use std::io::{self, Read, Write};
use std::path::{Path, PathBuf};
use std::process::ExitCode;

const USAGE: &str = "\
compare figure PROGRAM [--files N] [--seed S]
    Runs PROGRAM on N day files (2000) of the seed S (1) and compares what it prints.
    Status 0: all agree. 1: one differs, and is shown. 2: the comparison could not be made.
compare fundroom PROGRAM [--journals N] [--seed S]
    The same with N journals (300).
compare read
    Reads a day file from standard input and prints what is expected of figure.
compare play
    Plays a journal from standard input and prints what is expected of fundroom.
compare show NUMBER [--seed S]
    Prints the day file of that number as it is made from the seed.
compare journal NUMBER [--seed S]
    Prints the journal of that number as it is made from the seed.
";

const USUAL_FILES: usize = 2_000;
const USUAL_JOURNALS: usize = 300;
const USUAL_SEED: u64 = 1;

enum Task {
    Figure { program: PathBuf, files: usize, seed: u64 },
    Fundroom { program: PathBuf, journals: usize, seed: u64 },
    Read,
    Play,
    Show { number: usize, seed: u64 },
    Journal { number: usize, seed: u64 },
}

fn task(arguments: &[String]) -> Option<Task> {
    let arguments: Vec<&str> = arguments.iter().map(String::as_str).collect();
    let (word, given, mut options) = match arguments[..] {
        ["read"] => return Some(Task::Read),
        ["play"] => return Some(Task::Play),
        [word @ ("figure" | "fundroom" | "show" | "journal"), given, ref options @ ..] => (word, given, options),
        _ => return None,
    };
    let (mut files, mut journals, mut seed) = (USUAL_FILES, USUAL_JOURNALS, USUAL_SEED);
    while let [name, value, rest @ ..] = options {
        match (word, *name) {
            ("figure", "--files") => files = value.parse().ok()?,
            ("fundroom", "--journals") => journals = value.parse().ok()?,
            (_, "--seed") => seed = value.parse().ok()?,
            _ => return None,
        }
        options = rest;
    }
    match word {
        _ if !options.is_empty() => None,
        "figure" => Some(Task::Figure { program: given.into(), files, seed }),
        "fundroom" => Some(Task::Fundroom { program: given.into(), journals, seed }),
        "show" => Some(Task::Show { number: given.parse().ok()?, seed }),
        _ => Some(Task::Journal { number: given.parse().ok()?, seed }),
    }
}

fn figure(program: &Path, count: usize, seed: u64) -> io::Result<ExitCode> {
    let files = generate::Files::new(seed);
    let Some(n) = check::first_difference(program, dayfile::printed, |n| files.nth(n).bytes, count)? else {
        println!("figure: {count} files agree");
        return Ok(ExitCode::SUCCESS);
    };
    let case = files.nth(n);
    println!("figure: file {n} of seed {seed} differs ({})", case.about);
    println!("it is written by: compare show {n} --seed {seed}");
    difference(program, dayfile::printed, &[by_lines, by_bytes], case.bytes)
}

fn fundroom(program: &Path, count: usize, seed: u64) -> io::Result<ExitCode> {
    let nth = |n| generate::journals::nth(seed, n);
    let Some(n) = check::first_difference(program, journal::played, nth, count)? else {
        println!("fundroom: {count} journals agree");
        return Ok(ExitCode::SUCCESS);
    };
    println!("fundroom: journal {n} of seed {seed} differs");
    println!("it is written by: compare journal {n} --seed {seed}");
    difference(program, journal::played, &[journal::parts, by_lines], nth(n))
}

/// Makes the differing file smaller and shows it, with what was expected and what was printed.
fn difference(program: &Path, printed: Printed, partings: &[Parting], bytes: Vec<u8>) -> io::Result<ExitCode> {
    let whole = bytes.len();
    let small = check::shrunk(program, printed, partings, bytes)?;
    let found = check::run(program, &small)?;
    println!("input, {} bytes of {whole}:\n{}", small.len(), check::shown(&small));
    println!("expected:\n{}", check::shown(printed(&small).as_bytes()));
    println!("printed:\n{}", check::shown(&found.output));
    match found.status {
        Some(status) => println!("status {status}, expected 0"),
        None => println!("no status: stopped by a signal, or after too long a time"),
    }
    println!("standard error, expected to be empty:\n{}", check::shown(&found.errors));
    Ok(ExitCode::FAILURE)
}

/// Writes what is expected for the bytes of standard input.
fn answer(printed: Printed) -> io::Result<()> {
    let mut bytes = Vec::new();
    io::stdin().read_to_end(&mut bytes)?;
    io::stdout().write_all(printed(&bytes).as_bytes())
}

fn done(task: Task) -> io::Result<ExitCode> {
    match task {
        Task::Figure { program, files, seed } => return figure(&program, files, seed),
        Task::Fundroom { program, journals, seed } => return fundroom(&program, journals, seed),
        Task::Read => answer(dayfile::printed)?,
        Task::Play => answer(journal::played)?,
        Task::Show { number, seed } => {
            io::stdout().write_all(&generate::Files::new(seed).nth(number).bytes)?;
        }
        Task::Journal { number, seed } => io::stdout().write_all(&generate::journals::nth(seed, number))?,
    }
    Ok(ExitCode::SUCCESS)
}

fn main() -> ExitCode {
    let arguments: Vec<String> = std::env::args().skip(1).collect();
    let Some(task) = task(&arguments) else {
        eprint!("{USAGE}");
        return ExitCode::from(2);
    };
    done(task).unwrap_or_else(|error| {
        eprintln!("compare: {error}");
        ExitCode::from(2)
    })
}
