//! An ordered-set reading of docs/REFERENCE.md, to compare the proved list with.

mod acceptance;
mod classes;
mod counted;
mod files;
mod generators;
mod lines;
mod logger;
mod model;
mod operations;
mod order;
mod picture;
mod reading;
mod records;
mod replay;
mod row;
mod row_replay;
mod rule;
mod runs;
mod settings;
#[cfg(test)]
mod tests;
mod walk;

use std::io::{stdin, stdout, BufWriter};
use std::process::ExitCode;

const USAGE: &str = "\
ordered_set replay              calls on standard input, answers and checksums
ordered_set counted_replay      the same, each call with a class record beside the list
ordered_set row_replay          calls on a plain row, answers and checksums
ordered_set acceptance          calls on a list and a plain row, both answers, and whether they agree
ordered_set order               the order program
ordered_set logger              the logger program
ordered_set gen-calls SEED COUNT
ordered_set gen-damage SEED COUNT
ordered_set gen-large SEED COUNT
ordered_set gen-late SEED COUNT
ordered_set gen-order SEED COUNT
ordered_set gen-records SEED COUNT
ordered_set gen-files SEED COUNT
ordered_set gen-export SEED COUNT
ordered_set gen-counted SEED COUNT
ordered_set gen-row SEED COUNT
ordered_set gen-acceptance SEED COUNT
ordered_set gen-edges
ordered_set gen-logger-edges
ordered_set gen-counted-edges
ordered_set gen-row-edges
ordered_set gen-acceptance-edges";

fn main() -> ExitCode {
    let words: Vec<String> = std::env::args().skip(1).collect();
    let words: Vec<&str> = words.iter().map(String::as_str).collect();
    let output = BufWriter::new(stdout().lock());
    let done = match words[..] {
        ["replay"] => replay::replay(stdin().lock(), output),
        ["counted_replay"] => counted::counted_replay(stdin().lock(), output),
        ["row_replay"] => row_replay::row_replay(stdin().lock(), output),
        ["acceptance"] => acceptance::acceptance(stdin().lock(), output),
        ["order"] => order::order(stdin().lock(), output),
        ["logger"] => logger::logger(stdin().lock(), output),
        [name] => match generators::whole(name) {
            Some(made) => generators::write(made, 0, usize::MAX, output),
            None => return usage(),
        },
        [name, seed, count] => match (generators::named(name), seed.parse(), count.parse()) {
            (Some(made), Ok(seed), Ok(count)) => generators::write(made, seed, count, output),
            _ => return usage(),
        },
        _ => return usage(),
    };
    match done {
        Ok(()) => ExitCode::SUCCESS,
        Err(error) => {
            eprintln!("{error}");
            ExitCode::FAILURE
        }
    }
}

fn usage() -> ExitCode {
    eprintln!("{USAGE}");
    ExitCode::from(2)
}
