//! The replay of a trace of calls on a plain row: the lines of the replay but for those for bytes,
//! and after each the answer and a checksum of the row's words.

use crate::lines::answer_each;
use crate::operations::{Answer, Call, LINE_NOT_READABLE};
use crate::replay::{self, checksum, new_words, told_of_words, Line};
use crate::row::perform_on_row;
use std::io::{BufRead, Write};

pub fn row_replay(input: impl BufRead, output: impl Write) -> std::io::Result<()> {
    let mut words = Vec::new();
    answer_each(input, output, |fields| match fields.and_then(parse) {
        None => format!("{} {}", Answer::refused(LINE_NOT_READABLE), checksum(&words)),
        Some(line) => {
            let answer = run(&mut words, &line);
            told_of_words(&words, answer)
        }
    })
}

pub fn parse(fields: &[&str]) -> Option<Line> {
    replay::parse(fields).filter(|line| !matches!(line, Line::Bytes(_)))
}

/// Does what the line says. A line that is no call has no answer.
pub fn run(words: &mut Vec<u32>, line: &Line) -> Option<Answer> {
    match *line {
        Line::Make { d, k, c, length } => {
            *words = new_words(length);
            Some(perform_on_row(words, &Call::SetUp { d, k, c }))
        }
        Line::Call(ref call) => Some(perform_on_row(words, call)),
        Line::Put { index, value } => {
            if let Some(word) = words.get_mut(index as usize) {
                *word = value;
            }
            None
        }
        Line::Length(length) => {
            words.resize(length as usize, 0);
            None
        }
        Line::Bytes(_) => unreachable!("a trace of rows has no lines for bytes"),
    }
}
