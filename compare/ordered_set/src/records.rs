//! A record of the logger's export: RFC 4180's grammar rule by rule, what the five fields say,
//! the seventh operation, record, and where an export's records end.

use crate::lines::number;
use crate::operations::{
    perform, Answer, Call, FULL_NUMBER_DOES_NOT_FIT, NOT_A_LIST, RECORD_BREAKS_RULES,
};
use crate::order::key;
use crate::reading::list;

/// The last number while no record has been accepted. Every number above says the same.
pub const NONE_YET: u64 = 4_294_967_296;

/// How many logger numbers there are until the next is 0 again.
const ROUND: i64 = 65_536;

/// An insert of the record's key, with the full number as value. Where the bytes mean no
/// insert, refusal 3 still comes first.
pub fn record(words: &mut [u32], bytes: &[u8], last: &mut u64) -> Answer {
    match meant(bytes, *last) {
        Err(refusal) if list(words).is_some() => Answer::refused(refusal),
        Err(_) => Answer::refused(NOT_A_LIST),
        Ok((key, full)) => {
            let answer = perform(words, &Call::Insert { key, value: full });
            if answer.refusal == 0 {
                *last = u64::from(full);
            }
            answer
        }
    }
}

/// The record's key and full number, or the refusal that a list gives it.
fn meant(bytes: &[u8], last: u64) -> Result<(u32, u32), u32> {
    let (key, own) = key_and_own(bytes).ok_or(RECORD_BREAKS_RULES)?;
    let full = full_number(own, last).ok_or(FULL_NUMBER_DOES_NOT_FIT)?;
    Ok((key, full))
}

/// The record's key and its own logger number. The text's quoting is read and its value dropped.
fn key_and_own(bytes: &[u8]) -> Option<(u32, u32)> {
    let fields = fields(bytes)?;
    let [class, unit, serial, _text, own] = &fields[..] else {
        return None;
    };
    let key = key(as_text(class)?, as_text(unit)?, as_text(serial)?)?;
    Some((key, number(as_text(own)?, 0..=65_535)?))
}

fn as_text(field: &[u8]) -> Option<&str> {
    std::str::from_utf8(field).ok()
}

/// Of the numbers that leave the record's own as remainder, the one from 32,768 below the last
/// to 32,767 above it. It lies in the last number's round of 65,536, the one before or the one
/// after. None if it is below 0 or above 32 bits.
pub fn full_number(own: u32, last: u64) -> Option<u32> {
    if last >= NONE_YET {
        return Some(own + ROUND as u32);
    }
    let last = last as i64;
    let near = last - 32_768..=last + 32_767;
    let mut candidates = (-1..=1).map(|round| (last / ROUND + round) * ROUND + i64::from(own));
    let full = candidates.find(|full| near.contains(full));
    u32::try_from(full.expect("65,536 numbers in a row leave every remainder")).ok()
}

/// The values of the record's fields, None where the bytes break the grammar.
///
/// record = field *(COMMA field) \[CRLF\]
pub fn fields(bytes: &[u8]) -> Option<Vec<Vec<u8>>> {
    let mut rest = Rest(bytes);
    let mut fields = vec![rest.field()?];
    while rest.goes_over(b",") {
        fields.push(rest.field()?);
    }
    rest.goes_over(b"\r\n");
    rest.0.is_empty().then_some(fields)
}

/// The bytes that no rule has gone over yet.
struct Rest<'a>(&'a [u8]);

impl Rest<'_> {
    /// Goes over these bytes if they come next.
    fn goes_over(&mut self, next: &[u8]) -> bool {
        let after = self.0.strip_prefix(next);
        self.0 = after.unwrap_or(self.0);
        after.is_some()
    }

    /// field = (escaped / non-escaped). A plain field has no quote, so the first byte decides.
    fn field(&mut self) -> Option<Vec<u8>> {
        if self.goes_over(b"\"") {
            self.escaped()
        } else {
            Some(self.non_escaped())
        }
    }

    /// escaped = DQUOTE *(TEXTDATA / COMMA / CR / LF / 2DQUOTE) DQUOTE, its first quote gone
    /// over. No field goes on after its last quote, so two quotes in a row are always a pair.
    fn escaped(&mut self) -> Option<Vec<u8>> {
        let mut value = Vec::new();
        loop {
            if self.goes_over(b"\"\"") {
                value.push(b'"');
            } else if self.goes_over(b"\"") {
                return Some(value);
            } else {
                value.push(self.next(|byte| is_textdata(byte) || b",\r\n".contains(&byte))?);
            }
        }
    }

    /// non-escaped = *TEXTDATA
    fn non_escaped(&mut self) -> Vec<u8> {
        std::iter::from_fn(|| self.next(is_textdata)).collect()
    }

    /// Goes over one byte if it is a wanted one.
    fn next(&mut self, wanted: impl Fn(u8) -> bool) -> Option<u8> {
        let (&byte, after) = self.0.split_first()?;
        wanted(byte).then(|| {
            self.0 = after;
            byte
        })
    }
}

/// TEXTDATA = %x20-21 / %x23-2B / %x2D-7E
fn is_textdata(byte: u8) -> bool {
    matches!(byte, 0x20..=0x21 | 0x23..=0x2B | 0x2D..=0x7E)
}

/// The records of an export. One ends with the first CRLF before which it has an even number of
/// quotes; what is left at the end is one too, if it is not empty.
pub fn records_of(input: &[u8]) -> Vec<&[u8]> {
    let mut records = Vec::new();
    let mut rest = input;
    while !rest.is_empty() {
        let (record, after) = rest.split_at(length_of_first(rest));
        records.push(record);
        rest = after;
    }
    records
}

fn length_of_first(input: &[u8]) -> usize {
    let mut quotes = 0;
    for (at, &byte) in input.iter().enumerate() {
        if byte == b'"' {
            quotes += 1;
        }
        if quotes % 2 == 0 && input[..=at].ends_with(b"\r\n") {
            return at + 1;
        }
    }
    input.len()
}
