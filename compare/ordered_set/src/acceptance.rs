//! The acceptance program: each line's call is made on a list and on a plain row, both answers are
//! printed, and last whether all agreed.

use crate::lines::{answer_each, number};
use crate::operations::{perform, Answer, Call, LINE_NOT_READABLE};
use crate::replay::MOST_WORDS;
use crate::row::{perform_on_row, row_length};
use crate::settings::Settings;
use std::io::{BufRead, Write};

/// Both engines' words, none at first.
#[derive(Default)]
pub struct Pair {
    pub list: Vec<u32>,
    pub row: Vec<u32>,
}

pub fn acceptance(input: impl BufRead, mut output: impl Write) -> std::io::Result<()> {
    let mut pair = Pair::default();
    let (mut lines, mut first_that_differs) = (0, None);
    answer_each(input, &mut output, |fields| {
        lines += 1;
        let call = fields.and_then(parse);
        let unreadable = Answer::refused(LINE_NOT_READABLE);
        let (list, row) = match &call {
            Some(call) => both(&mut pair, call),
            None => (unreadable, unreadable),
        };
        if call.is_some_and(|call| !agree(&call, list, row)) && first_that_differs.is_none() {
            first_that_differs = Some(lines);
        }
        format!("{list} {row}")
    })?;
    match first_that_differs {
        None => writeln!(output, "SAME on {lines} lines")?,
        Some(line) => writeln!(output, "DIFFER first on line {line}")?,
    }
    output.flush()
}

pub fn parse(fields: &[&str]) -> Option<Call> {
    let word = |field| number(field, 0..=u32::MAX);
    Some(match *fields {
        ["U", d, k, c] => Call::SetUp { d: word(d)?, k: word(k)?, c: word(c)? },
        ["N", key, value] => Call::Insert { key: word(key)?, value: word(value)? },
        ["F", key] => Call::Find { key: word(key)? },
        ["A", key] => Call::Finish { key: word(key)? },
        ["T"] => Call::Take,
        ["S"] => Call::Sweep,
        _ => return None,
    })
}

/// The answers of list and row. A set up in range is made on new words of the exact lengths,
/// another one on the words as they stand; one that needs too many words is not made.
pub fn both(pair: &mut Pair, call: &Call) -> (Answer, Answer) {
    if let Call::SetUp { d, k, c } = *call {
        if let Some(settings) = Settings::new(d, k, c) {
            if settings.length() > MOST_WORDS as usize {
                let unreadable = Answer::refused(LINE_NOT_READABLE);
                return (unreadable, unreadable);
            }
            pair.list = vec![0; settings.length()];
            pair.row = vec![0; row_length(settings.cells)];
        }
    }
    (perform(&mut pair.list, call), perform_on_row(&mut pair.row, call))
}

/// The plain row 9. An insert, a find and a finish count what a row has not: cells looked at, or
/// links moved.
pub fn agree(call: &Call, list: Answer, row: Answer) -> bool {
    let counts_for_itself =
        matches!(call, Call::Insert { .. } | Call::Find { .. } | Call::Finish { .. });
    let same_count = counts_for_itself || list.count == row.count;
    list.refusal == row.refusal && list.key == row.key && list.value == row.value && same_count
}
