//! Traces to compare two programs with, the same for the same seed. Each is made by running
//! it, so that the next line can be chosen for the buffer at hand.

mod acceptance;
mod acceptance_edges;
mod calls;
mod counted;
mod counted_edges;
mod damage;
mod dice;
pub mod edges;
mod exports;
pub mod file_forms;
mod files;
mod keys;
mod large;
mod late;
mod logger_edges;
mod order_lines;
pub mod record_forms;
mod records;
mod retell;
mod row_edges;
mod rows;

use crate::counted as beside;
use crate::model::Model;
use crate::reading::list;
use crate::replay::{parse, run, State};
use crate::settings::Settings;
use dice::Dice;
use std::io::{Error, Result, Write};

type Generator = fn(&mut Trace);

/// Does what the fields of a line say; None if they are not readable.
type RunLine = fn(&mut State, &[&str]) -> Option<()>;

pub fn named(name: &str) -> Option<Generator> {
    Some(match name {
        "gen-calls" => calls::calls,
        "gen-damage" => damage::damage,
        "gen-large" => large::large,
        "gen-late" => late::schedule,
        "gen-order" => order_lines::order_lines,
        "gen-records" => records::records,
        "gen-files" => files::files,
        "gen-export" => exports::export,
        "gen-counted" => counted::counted,
        "gen-row" => rows::rows,
        "gen-acceptance" => acceptance::acceptance,
        _ => return None,
    })
}

/// Those that need no seed and always write the same.
pub fn whole(name: &str) -> Option<Generator> {
    Some(match name {
        "gen-edges" => edges::edges,
        "gen-logger-edges" => logger_edges::logger_edges,
        "gen-counted-edges" => counted_edges::counted_edges,
        "gen-row-edges" => row_edges::row_edges,
        "gen-acceptance-edges" => acceptance_edges::acceptance_edges,
        _ => return None,
    })
}

pub fn write(generator: Generator, seed: u64, count: usize, mut output: impl Write) -> Result<()> {
    let mut trace = Trace {
        dice: Dice::new(seed),
        state: State::at_first(),
        classes: None,
        other: None,
        left: count,
        output: &mut output,
        failed: None,
    };
    generator(&mut trace);
    trace.failed.map_or(Ok(()), Err)?;
    output.flush()
}

pub struct Trace<'a> {
    dice: Dice,
    state: State,
    /// The class record, where the calls are made with one.
    classes: Option<Vec<u32>>,
    /// How a line is run, where it is one of another program than the replays of lists.
    other: Option<RunLine>,
    /// Lines still to be written, or records of an export; those said after the last one are
    /// dropped.
    left: usize,
    output: &'a mut dyn Write,
    failed: Option<Error>,
}

impl Trace<'_> {
    fn goes_on(&self) -> bool {
        self.left > 0
    }

    /// Writes a line of a replay and does what it says.
    fn say(&mut self, line: impl AsRef<str>) {
        if self.goes_on() {
            let fields: Vec<&str> = line.as_ref().split(' ').collect();
            self.run(&fields).expect("a readable line");
            self.write(line.as_ref().as_bytes(), b"\n");
        }
    }

    /// Does what a line says; None if it is not readable.
    fn run(&mut self, fields: &[&str]) -> Option<()> {
        if let Some(run_line) = self.other {
            return run_line(&mut self.state, fields);
        }
        match &mut self.classes {
            None => _ = run(&mut self.state, &parse(fields)?),
            Some(classes) => {
                _ = beside::run(&mut self.state, classes, &beside::parse(fields)?);
            }
        }
        Some(())
    }

    fn make(&mut self, settings: &Settings) {
        let Settings { dimensions, largest_key, cells, .. } = settings;
        self.say(format!("U {dimensions} {largest_key} {cells} {}", settings.length()));
    }

    /// A line that the buffer is not told of: an unreadable one, or one of another program.
    fn write(&mut self, line: &[u8], end: &[u8]) {
        if self.goes_on() {
            self.left -= 1;
            if let Err(error) = self.output.write_all(&[line, end].concat()) {
                self.failed = Some(error);
                self.left = 0;
            }
        }
    }

    fn list(&self) -> Option<Model> {
        list(&self.state.words)
    }
}
