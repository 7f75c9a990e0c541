//! Exports for the logger program: good and broken records, numbers that come round, keys that
//! come again, and every way for an export to end.

use super::order_lines::some_entry;
use super::record_forms::{broken, good, has_odd_quotes};
use super::Trace;

/// How far each number is from the one before, while a pace lasts; the last pace is any number.
/// Back by 32,768 again and again leads below 0.
const PACES: [&[u32]; 6] = [
    &[0, 1, 1, 1, 2, 700],
    &[32_767, 32_767, 1],
    &[32_768],
    &[32_768, 32_769, 65_535],
    &[65_535, 65_535, 64_000, 3],
    &[],
];

/// The entries that fill the list stand in one row of serials.
const FILLING: &str = "7 4711";
const MOST_ENTRIES_OF_THE_LIST: u32 = 511;

pub fn export(trace: &mut Trace) {
    let many = trace.dice.pick(&[5, 60, 300, 2500]);
    let mut entries: Vec<String> = (0..many).map(|_| some_entry(trace)).collect();
    if trace.dice.one_in(3) {
        fill(trace);
        entries.extend((0..many / 2).map(|serial| format!("{FILLING} {serial}")));
    }
    let mut own = trace.dice.between(0, 65_535);
    let mut pace = PACES[0];
    let mut is_open = false;
    while trace.left > 1 {
        if trace.dice.one_in(12) {
            pace = trace.dice.pick(&PACES);
        }
        own = next_own(trace, pace, own);
        let entry = &entries[trace.dice.below(entries.len())];
        is_open = some_record(trace, entry, own, is_open);
    }
    let entry = &entries[trace.dice.below(entries.len())];
    end(trace, entry, own);
}

/// As many entries as the list has cells for, give or take a few. An export of a few hundred
/// records would not fill it, so they count as one. Their numbers go back to near 0, so that a
/// full list meets refusal 14 too.
fn fill(trace: &mut Trace) {
    let many = trace.dice.between(MOST_ENTRIES_OF_THE_LIST - 6, MOST_ENTRIES_OF_THE_LIST + 6);
    let head = FILLING.replace(' ', ",");
    let number = |serial| [0, 32_768, 0].get(serial).copied().unwrap_or(9);
    let lines = (0..many as usize).map(|serial| format!("{head},{serial},,{}\r\n", number(serial)));
    trace.write(lines.collect::<String>().as_bytes(), b"");
}

fn next_own(trace: &mut Trace, pace: &[u32], own: u32) -> u32 {
    if pace.is_empty() {
        trace.dice.between(0, 65_535)
    } else {
        (own + trace.dice.pick(pace)) % 65_536
    }
}

/// Says whether a quote is left open. All up to the next such quote is then one record, so most
/// are closed soon by a line of their own.
fn some_record(trace: &mut Trace, entry: &str, own: u32, was_open: bool) -> bool {
    let dice = &mut trace.dice;
    let record = match dice.below(5) {
        0 => broken(dice, entry, own),
        _ => good(dice, entry, own, 20_000),
    };
    let is_open = was_open != has_odd_quotes(&record);
    let close = is_open && !dice.one_in(3);
    trace.write(&record, if close { b"\r\n\"\r\n" } else { b"\r\n" });
    is_open && !close
}

/// With its CRLF, without it or with half of it; within a record; with a quote that is open
/// before another record, or in the last field.
fn end(trace: &mut Trace, entry: &str, own: u32) {
    let record = good(&mut trace.dice, entry, own, 100);
    let cut = trace.dice.below(record.len());
    match trace.dice.below(7) {
        0 | 1 => trace.write(&record, b"\r\n"),
        2 => trace.write(&record, b""),
        3 => trace.write(&record, b"\r"),
        4 => trace.write(&record[..cut], b""),
        5 => trace.write(&record, b",\"no end\r\n1,1,1,a,1\r\n"),
        _ => trace.write(format!("{},a,\"{own}", entry.replace(' ', ",")).as_bytes(), b""),
    }
}
