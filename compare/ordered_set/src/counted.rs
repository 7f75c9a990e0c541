//! The calls with a class record beside the list, and their replay: the trace's calls, each made
//! with the record, and lines that make, alter and ask the record. What a call does to the list
//! is what it does alone.

use crate::classes::{class, full_reading, must_follow, Change, CLASS_WORDS};
use crate::lines::{answer_each, number};
use crate::operations::{
    Answer, Call, CLASSES_DIFFER, LENGTH_NOT_EXACT, LINE_NOT_READABLE, NOT_A_LIST,
};
use crate::reading::list;
use crate::replay::{self, checksum, new_words, BytesLine, State};
use crate::runs::Runs;
use std::io::{BufRead, Write};

/// The most words that a trace can make a class record of.
pub const MOST_CLASS_WORDS: u32 = 64;

#[derive(Debug)]
pub enum Line {
    /// A line of the replay.
    Beside(replay::Line),
    Length(u32),
    Put {
        index: u32,
        value: u32,
    },
    Class(u32),
}

pub fn counted_replay(input: impl BufRead, output: impl Write) -> std::io::Result<()> {
    let mut state = State::at_first();
    let mut classes = Vec::new();
    let mut runs = Runs::default();
    let mut number = 0;
    answer_each(input, output, |fields| {
        number += 1;
        let told = match fields.and_then(parse) {
            None => {
                format!("{} {}", Answer::refused(LINE_NOT_READABLE), checksum(&state.words))
            }
            Some(line) => {
                let answer = run(&mut state, &mut classes, &line);
                if let Line::Beside(line) = &line {
                    runs.note(number, line, answer, &state.words);
                }
                told(&state, &line, answer)
            }
        };
        format!("{told} {}", checksum(&classes))
    })
}

fn told(state: &State, line: &Line, answer: Option<Answer>) -> String {
    match line {
        Line::Beside(line) => replay::told(state, line, answer),
        _ => replay::told_of_words(&state.words, answer),
    }
}

pub fn parse(fields: &[&str]) -> Option<Line> {
    let word = |field| number(field, 0..=u32::MAX);
    Some(match *fields {
        ["K", len] => Line::Length(number(len, 0..=MOST_CLASS_WORDS)?),
        ["X", index, value] => Line::Put { index: word(index)?, value: word(value)? },
        ["C", class] => Line::Class(word(class)?),
        _ => Line::Beside(replay::parse(fields)?),
    })
}

/// Does what the line says. A line that is no call has no answer.
pub fn run(state: &mut State, classes: &mut Vec<u32>, line: &Line) -> Option<Answer> {
    match line {
        Line::Beside(line) => return beside(state, classes, line),
        Line::Length(length) => classes.resize(*length as usize, 0),
        Line::Put { index, value } => {
            if let Some(word) = classes.get_mut(*index as usize) {
                *word = *value;
            }
        }
        Line::Class(number) => return Some(class(classes, *number)),
    }
    None
}

fn beside(state: &mut State, classes: &mut Vec<u32>, line: &replay::Line) -> Option<Answer> {
    use replay::Line::*;
    match line {
        Make { length, .. } => {
            state.words = new_words(*length);
            Some(anew(state, classes, line, LENGTH_NOT_EXACT))
        }
        Bytes(BytesLine::Read) => Some(anew(state, classes, line, CLASSES_DIFFER)),
        Call(_) | Bytes(BytesLine::Record | BytesLine::Write) => {
            Some(on_list(state, classes, line))
        }
        Put { .. } | Length(_) | Bytes(_) => replay::run(state, line),
    }
}

/// Set up and read look at neither list nor record: what the call alone refuses, and then a record
/// that has not 32 words. The record is written anew, whatever it held.
fn anew(
    state: &mut State,
    classes: &mut Vec<u32>,
    line: &replay::Line,
    other_length: u32,
) -> Answer {
    let mut after = state.clone();
    let answer = alone(&mut after, line);
    if answer.refusal != 0 {
        return answer;
    }
    if classes.len() != CLASS_WORDS {
        return Answer::refused(other_length);
    }
    *state = after;
    *classes = full_reading(&list(&state.words).expect("the call leaves a list"));
    answer
}

/// Every other call: 3, then 15, then what it answers alone.
fn on_list(state: &mut State, classes: &mut Vec<u32>, line: &replay::Line) -> Answer {
    let Some(model) = list(&state.words) else {
        return Answer::refused(NOT_A_LIST);
    };
    if *classes != full_reading(&model) {
        return Answer::refused(CLASSES_DIFFER);
    }
    let answer = alone(state, line);
    let after = full_reading(&list(&state.words).expect("a call leaves a list"));
    must_follow(classes, change(line, answer), &after);
    *classes = after;
    answer
}

fn alone(state: &mut State, line: &replay::Line) -> Answer {
    replay::run(state, line).expect("a call is answered")
}

/// Which key is live now and was not before, or was and is not.
fn change(line: &replay::Line, answer: Answer) -> Change {
    match line {
        _ if answer.refusal != 0 => Change::None,
        replay::Line::Call(Call::Insert { .. }) => Change::Comes(answer.key),
        replay::Line::Call(Call::Take) => Change::Goes(answer.key),
        replay::Line::Bytes(BytesLine::Record) => Change::Comes(answer.key),
        _ => Change::None,
    }
}
