//! How both programs read a line: The order program 2 and 3.

use std::io::{BufRead, Write};
use std::ops::RangeInclusive;
use std::str::FromStr;

const MOST_BYTES: usize = 64;

/// Gives the fields of every line of the input to the answering function, None for a line
/// that is empty, too long or no text, and prints what it answers. A last line without line
/// feed counts; after a last line feed there is no further line.
pub fn answer_each(
    input: impl BufRead,
    mut output: impl Write,
    mut answer: impl FnMut(Option<&[&str]>) -> String,
) -> std::io::Result<()> {
    for line in input.split(b'\n') {
        let line = line?;
        writeln!(output, "{}", answer(fields(&line).as_deref()))?;
    }
    output.flush()
}

/// Two spaces in a row, or one at an end, make an empty field, which no line has.
fn fields(line: &[u8]) -> Option<Vec<&str>> {
    if line.is_empty() || line.len() > MOST_BYTES {
        return None;
    }
    Some(std::str::from_utf8(line).ok()?.split(' ').collect())
}

pub fn number<N: FromStr + PartialOrd>(field: &str, range: RangeInclusive<N>) -> Option<N> {
    let decimal = !field.is_empty() && field.bytes().all(|byte| byte.is_ascii_digit());
    let leading_zero = field.len() > 1 && field.starts_with('0');
    if !decimal || leading_zero {
        return None;
    }
    field.parse().ok().filter(|number| range.contains(number))
}
