//! The stored export of the logger program: every rule of a record kept and broken, numbers that
//! come round, and a list that fills up.
//!
//! Full numbers near 4,294,967,295 are not met here: they are more than 131,000 accepted records
//! away from the first, and the list has room for 511. The replay's edges have them.

use super::record_forms::*;
use super::Trace;

/// From the first record on, in order. The full numbers are 131071, 131072 (comes round), 131071
/// (and back), 131071, 163838, 131070 (exactly 32,768 apart), 98303, 65535, 32767, 14, 14, 65534,
/// 32766, 0, 14, 14, 32767, 0, 0, 1.
const NUMBERS: [u32; 20] = [
    65_535, 0, 65_535, 65_535, 32_766, 65_534, 32_767, 65_535, 32_767, 65_535, 65_535, 65_534,
    32_766, 0, 65_535, 32_768, 32_767, 0, 0, 1,
];

/// Where the last number is 1, TOO_FAR counts back, below 0. If a refused record with the number
/// HALFWAY made the last number its own, TOO_FAR would count forward.
const HALFWAY: u32 = 20_001;
const TOO_FAR: u32 = 40_001;

const MEGABYTE: usize = 1 << 20;

pub fn logger_edges(trace: &mut Trace) {
    write_all(trace, forms(COUNTS));
    numbers(trace);
    texts(trace);
    ranges(trace);
    ends(trace);
    every_byte(trace);
    megabyte(trace);
    full_list(trace);
    trace.write(b"1,8,0,a,\"1", b""); // A quote open to the end of the input.
}

fn write_all(trace: &mut Trace, records: impl IntoIterator<Item = Vec<u8>>) {
    records.into_iter().for_each(|record| trace.write(&closed(&record), b""));
}

/// A record of class 1; each group of records has a unit of its own.
fn with_text(unit: u32, serial: usize, text: &[u8]) -> Vec<u8> {
    [format!("1,{unit},{serial}").as_bytes(), text, b"1"].join(&b',')
}

fn with_number(unit: u32, serial: usize, number: u32) -> Vec<u8> {
    format!("1,{unit},{serial},a,{number}").into()
}

/// Then refusals 5, 13 and 14, each shown by a 14 not to advance the last number, and a record
/// that 13 and 14 apply to.
fn numbers(trace: &mut Trace) {
    let in_order = NUMBERS.iter().enumerate();
    write_all(trace, in_order.map(|(serial, &number)| with_number(1, serial, number)));
    let too_far = with_number(1, 100, TOO_FAR);
    let broken = [&with_number(1, 101, HALFWAY)[..], b","].concat();
    for refused in [with_number(1, 0, HALFWAY), broken, too_far.clone()] {
        write_all(trace, [refused, too_far.clone()]);
    }
    write_all(trace, [format!("16,1,100,a,{TOO_FAR}").into()]);
}

fn texts(trace: &mut Trace) {
    for (unit, all) in [(2, TEXTS), (3, BROKEN_TEXTS)] {
        let in_order = forms(all).into_iter().enumerate();
        write_all(trace, in_order.map(|(serial, text)| with_text(unit, serial, &text)));
    }
}

/// Each number at the ends of its range, past them, and broken. What is broken has a key that
/// no other record has, so that it would not be refused otherwise.
fn ranges(trace: &mut Trace) {
    for (at, ends, past) in RANGES {
        let all = [forms(ends), forms(past), forms(BROKEN_NUMBERS), long_numbers()].concat();
        for (serial, form) in all.into_iter().enumerate() {
            let good = format!("2,{},{serial},a,1", 4 + at);
            let mut fields: Vec<&[u8]> = good.split(',').map(str::as_bytes).collect();
            fields[at] = &form;
            write_all(trace, [fields.join(&b',')]);
        }
    }
}

fn long_numbers() -> Vec<Vec<u8>> {
    vec![b"0".repeat(100), b"1".repeat(1000), [b"0".repeat(100), b"1".to_vec()].concat()]
}

fn ends(trace: &mut Trace) {
    for (serial, end) in forms(BROKEN_ENDS).into_iter().enumerate() {
        write_all(trace, [[with_text(5, serial, b"a"), end].concat()]);
    }
}

/// Every byte within a text, plain and in quotes.
fn every_byte(trace: &mut Trace) {
    for byte in 0..=255 {
        let (plain, in_quotes) = ([b'a', byte, b'b'], [b'"', b'a', byte, b'b', b'"']);
        let serial = usize::from(byte);
        write_all(trace, [with_text(6, serial, &plain), with_text(7, serial, &in_quotes)]);
    }
}

/// One record, with all that quotes allow in its text.
fn megabyte(trace: &mut Trace) {
    let line = b"a line of a long text, its commas and \"quotes\" as they come\r\n";
    let text = line.repeat(MEGABYTE / line.len() + 1);
    write_all(trace, [with_text(9, 0, &quoted(&text))]);
}

/// More entries than the list has cells. Then refusals 5, 6, 13 and 14 of a full list; a 14 shows
/// that a 6 does not advance the last number.
fn full_list(trace: &mut Trace) {
    write_all(trace, (0..512).map(|serial| with_text(20, serial, b"")));
    write_all(trace, [with_number(1, 0, 1), with_number(20, 0, 2), with_number(20, 999, HALFWAY)]);
    write_all(trace, [with_number(20, 999, TOO_FAR), with_number(1, 0, TOO_FAR)]);
    write_all(trace, [with_text(20, 999, b"a\"b\"")]);
}
