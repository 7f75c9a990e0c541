//! The replay of a trace: one call a line, and after each the answer and a checksum of the
//! buffer, so that two implementations can be compared word for word. Lines for bytes also show
//! a checksum of the bytes and the last number. What the takes passed must add up (runs.rs).

use crate::files::{read, write};
use crate::lines::{answer_each, number};
use crate::operations::{perform, Answer, Call, LINE_NOT_READABLE};
use crate::records::{record, NONE_YET};
use crate::runs::Runs;
use crate::settings::cells_within;
use std::io::{BufRead, Write};

pub const MOST_WORDS: u32 = 155_670;
pub const MOST_BYTES: u32 = 40_000;
pub const MOST_BYTES_OF_A_LINE: usize = 30;
const WORD_BEFORE_SET_UP: u32 = 2_779_096_485;
const BYTE_OF_NEW_BYTES: u8 = 165;
const HEX_DIGITS: &[u8] = b"0123456789abcdef";

#[derive(Debug)]
pub enum Line {
    /// A new buffer of so many words, and set up on it.
    Make {
        d: u32,
        k: u32,
        c: u32,
        length: u32,
    },
    Call(Call),
    Put {
        index: u32,
        value: u32,
    },
    Length(u32),
    Bytes(BytesLine),
}

/// The lines for bytes: B, H, Q, O, G, W and R.
#[derive(Debug)]
pub enum BytesLine {
    Make(u32),
    Append(Vec<u8>),
    Put { index: u32, value: u8 },
    Last(u64),
    Record,
    Write,
    Read,
}

/// What a replay holds between two lines.
#[derive(Clone)]
pub struct State {
    pub words: Vec<u32>,
    pub bytes: Vec<u8>,
    pub last: u64,
}

impl State {
    pub fn at_first() -> State {
        State { words: Vec::new(), bytes: Vec::new(), last: NONE_YET }
    }
}

pub fn replay(input: impl BufRead, output: impl Write) -> std::io::Result<()> {
    let mut state = State::at_first();
    let mut runs = Runs::default();
    let mut number = 0;
    answer_each(input, output, |fields| {
        number += 1;
        match fields.and_then(parse) {
            None => {
                format!("{} {}", Answer::refused(LINE_NOT_READABLE), checksum(&state.words))
            }
            Some(line) => {
                let answer = run(&mut state, &line);
                runs.note(number, &line, answer, &state.words);
                told(&state, &line, answer)
            }
        }
    })
}

pub fn told(state: &State, line: &Line, answer: Option<Answer>) -> String {
    let told = told_of_words(&state.words, answer);
    match line {
        Line::Bytes(_) => format!("{told} {} {}", checksum(&state.bytes), state.last),
        _ => told,
    }
}

pub fn told_of_words(words: &[u32], answer: Option<Answer>) -> String {
    let answer = answer.map_or("- - - -".to_string(), |answer| answer.to_string());
    format!("{answer} {}", checksum(words))
}

/// The words of a buffer before set up.
pub fn new_words(length: u32) -> Vec<u32> {
    vec![WORD_BEFORE_SET_UP; length as usize]
}

/// Does what the line says. A line that is no call has no answer.
pub fn run(state: &mut State, line: &Line) -> Option<Answer> {
    let words = &mut state.words;
    match *line {
        Line::Make { d, k, c, length } => {
            *words = new_words(length);
            Some(perform(words, &Call::SetUp { d, k, c }))
        }
        Line::Call(ref call) => Some(perform(words, call)),
        Line::Put { index, value } => {
            if let Some(word) = words.get_mut(index as usize) {
                *word = value;
            }
            None
        }
        Line::Length(length) => {
            words.resize(length as usize, 0);
            None
        }
        Line::Bytes(ref line) => run_bytes(state, line),
    }
}

fn run_bytes(state: &mut State, line: &BytesLine) -> Option<Answer> {
    let State { words, bytes, last } = state;
    match line {
        BytesLine::Make(length) => *bytes = vec![BYTE_OF_NEW_BYTES; *length as usize],
        BytesLine::Append(more) => {
            if bytes.len() + more.len() <= MOST_BYTES as usize {
                bytes.extend(more);
            }
        }
        BytesLine::Put { index, value } => {
            if let Some(byte) = bytes.get_mut(*index as usize) {
                *byte = *value;
            }
        }
        BytesLine::Last(number) => *last = *number,
        BytesLine::Record => return Some(record(words, bytes, last)),
        BytesLine::Write => return Some(write(words, bytes)),
        BytesLine::Read => return Some(read(bytes, words)),
    }
    None
}

pub fn parse(fields: &[&str]) -> Option<Line> {
    let word = |field| number(field, 0..=u32::MAX);
    let length = |field| number(field, 0..=MOST_WORDS);
    Some(match *fields {
        ["U", d, k, c, len] => {
            Line::Make { d: word(d)?, k: word(k)?, c: word(c)?, length: length(len)? }
        }
        ["N", key, value] => Line::Call(Call::Insert { key: word(key)?, value: word(value)? }),
        ["F", key] => Line::Call(Call::Find { key: word(key)? }),
        ["A", key] => Line::Call(Call::Finish { key: word(key)? }),
        ["T"] => Line::Call(Call::Take),
        ["S"] => Line::Call(Call::Sweep),
        ["P", index, value] => Line::Put { index: word(index)?, value: word(value)? },
        ["L", len] => Line::Length(length(len)?),
        _ => Line::Bytes(parse_bytes(fields)?),
    })
}

fn parse_bytes(fields: &[&str]) -> Option<BytesLine> {
    Some(match *fields {
        ["B", len] => BytesLine::Make(number(len, 0..=MOST_BYTES)?),
        ["H", digits] => BytesLine::Append(hex_run(digits)?),
        ["Q", index, value] => {
            BytesLine::Put { index: number(index, 0..=u32::MAX)?, value: number(value, 0..=255)? }
        }
        ["O", last] => BytesLine::Last(number(last, 0..=NONE_YET)?),
        ["G"] => BytesLine::Record,
        ["W"] => BytesLine::Write,
        ["R"] => BytesLine::Read,
        _ => return None,
    })
}

fn hex_run(digits: &str) -> Option<Vec<u8>> {
    let place = |byte: u8| HEX_DIGITS.iter().position(|&digit| digit == byte);
    let digits: Vec<usize> = digits.bytes().map(place).collect::<Option<_>>()?;
    let pairs = digits.chunks_exact(2);
    let whole = pairs.remainder().is_empty() && (1..=MOST_BYTES_OF_A_LINE).contains(&pairs.len());
    whole.then(|| pairs.map(|pair| (16 * pair[0] + pair[1]) as u8).collect())
}

/// The most cells of a list of that many dimensions for which a trace can have the words.
pub fn most_cells(dimensions: usize) -> usize {
    cells_within(dimensions, MOST_WORDS as usize)
}

/// The checksum h starts at the number of words or bytes; for each in order h becomes
/// (h x 1,000,003 + it) mod 2,147,483,647.
pub fn checksum<N: Copy + Into<u64>>(numbers: &[N]) -> u64 {
    let step = |h: u64, &number: &N| (h * 1_000_003 + number.into()) % 2_147_483_647;
    numbers.iter().fold(numbers.len() as u64, step)
}
