//! The order program: entries of a class, a unit and a serial in one list of 512 cells.

use crate::lines::{answer_each, number};
use crate::operations::{perform, Answer, Call, LINE_NOT_READABLE};
use crate::settings::exact_length;
use std::io::{BufRead, Write};

/// The order program 1.
const SET_UP: Call = Call::SetUp { d: 8, k: u32::MAX, c: 512 };

pub fn order(input: impl BufRead, output: impl Write) -> std::io::Result<()> {
    let mut words = fresh_list();
    answer_each(input, output, |fields| {
        let answer = match fields.and_then(parse) {
            None => Answer::refused(LINE_NOT_READABLE),
            Some(call) => perform(&mut words, &call),
        };
        answer.to_string()
    })
}

pub fn fresh_list() -> Vec<u32> {
    let mut words = vec![0; exact_length(8, 512)];
    let fresh = perform(&mut words, &SET_UP);
    assert!(fresh.refusal == 0, "set up was turned away: {fresh}");
    words
}

/// The order program 1: the five kinds of line.
fn parse(fields: &[&str]) -> Option<Call> {
    Some(match *fields {
        ["N", class, unit, serial, value] => {
            Call::Insert { key: key(class, unit, serial)?, value: number(value, 0..=u32::MAX)? }
        }
        ["F", class, unit, serial] => Call::Find { key: key(class, unit, serial)? },
        ["A", class, unit, serial] => Call::Finish { key: key(class, unit, serial)? },
        ["T"] => Call::Take,
        ["S"] => Call::Sweep,
        _ => return None,
    })
}

/// Entries 1 and 2.
pub fn key(class: &str, unit: &str, serial: &str) -> Option<u32> {
    let (class, unit) = (number(class, 0..=15)?, number(unit, 1..=65_535)?);
    Some(class << 28 | unit << 12 | number(serial, 0..=4_095)?)
}
