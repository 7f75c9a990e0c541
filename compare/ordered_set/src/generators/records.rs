//! Records of the logger's export, laid byte by byte and handed over: good and broken ones,
//! altered ones, at every kind of last number, on full, small and damaged lists.

use super::calls::mood;
use super::damage::{alter_words, put_all};
use super::dice::Dice;
use super::order_lines::some_entry;
use super::record_forms::{broken, good, some_byte};
use super::Trace;
use crate::order::key;
use crate::records::NONE_YET;
use crate::replay::MOST_BYTES_OF_A_LINE;
use crate::settings::Settings;

/// Lines for bytes that are not readable.
pub const UNREADABLE: &[u8] = b"B|B |B 40001|B 4294967296|B 01|B +1|B -1|B 1 1|B  1|B 1 | B 1|b 1|\
    B a|H|H |H 0|H 000|H 0g|H g0|H 0A|H A0|H FF|H 00 00|H  00|H 00 | H 00|h 00|H 0x00|H -1|H 0\t|\
    H 00\r|Q|Q 0|Q 0 |Q 0 256|Q 0 4294967296|Q 4294967296 0|Q 0 00|Q 00 0|Q 0 01|Q 0 -1|Q 0 a|\
    Q 0 0 0|Q  0 0|Q 0  0|q 0 0|O|O |O 4294967297|O 00|O 01|O -1|O +1|O 18446744073709551615|\
    O 18446744073709551616|O 18446744073709551617|O 0 0|O  0|o 0|O a|G |G 0|G G| G|GG|g|G\r|G\0|\
    BB 1|HH 00|B1|H00|O0";

/// How far a record's own number is from the last: at the ends of forward and back.
const APART: [i64; 13] =
    [0, 1, -1, 2, -2, 1000, -1000, 32_766, 32_767, 32_768, 32_769, -32_767, -32_766];

/// Last numbers are as far as this from 0, or from the one that says that there is none.
const FROM_AN_END: [u64; 10] = [0, 1, 2, 32_766, 32_767, 32_768, 32_769, 65_535, 65_536, 98_304];

/// The traces of other seeds may stand before this one, so it says its last number first.
pub fn records(trace: &mut Trace) {
    trace.say(format!("O {NONE_YET}"));
    while trace.goes_on() {
        let entries = begin(trace);
        let keys: Vec<u32> = entries.iter().map(|entry| key_of(entry)).collect();
        for _ in 0..trace.dice.between(4, 30) {
            scene(trace, &entries, &keys);
        }
    }
}

/// A fresh list, at times with a K that some entries are above, and the entries for it: mostly
/// so many that it fills up.
fn begin(trace: &mut Trace) -> Vec<String> {
    let dice = &mut trace.dice;
    let k = match dice.below(5) {
        0 => dice.pick(&[15, 500_000, 268_435_455, 268_914_688, 4_294_967_294]),
        _ => u32::MAX,
    };
    let most_cells = dice.pick(&[6, 24]);
    let (d, c) = (dice.pick(&[2, 3, 4, 8, 8, 8, 15, 16]), dice.between(3, most_cells));
    trace.make(&Settings::new(d, k, c).expect("settings in range"));
    let many = trace.dice.between(2, 2 * c);
    (0..many).map(|_| some_entry(trace)).collect()
}

pub fn key_of(entry: &str) -> u32 {
    let fields: Vec<&str> = entry.split(' ').collect();
    key(fields[0], fields[1], fields[2]).expect("an entry")
}

fn scene(trace: &mut Trace, entries: &[String], keys: &[u32]) {
    if trace.dice.one_in(4) {
        let last = some_last(&mut trace.dice);
        trace.say(format!("O {last}"));
    }
    let entry = &entries[trace.dice.below(entries.len())];
    match trace.dice.below(16) {
        0..=5 => hand_over(trace, entry, true),
        6..=9 => hand_over(trace, entry, false),
        10 | 11 => altered(trace, entry),
        12 => longer_by_bytes(trace, entry),
        13 => damaged(trace),
        14 => mood(trace, keys, 8),
        _ => unreadable(trace),
    }
}

fn some_last(dice: &mut Dice) -> u64 {
    match dice.below(4) {
        0 => u64::from(dice.any_size()),
        1 => NONE_YET,
        2 => dice.pick(&FROM_AN_END),
        _ => NONE_YET - dice.pick(&FROM_AN_END),
    }
}

fn some_own(trace: &mut Trace) -> u32 {
    let last = trace.state.last as i64;
    match trace.dice.below(8) {
        0 => trace.dice.pick(&[0, 1, 32_767, 32_768, 65_534, 65_535]),
        1 => trace.dice.between(0, 65_535),
        _ => (last + trace.dice.pick(&APART)).rem_euclid(65_536) as u32,
    }
}

/// A record once, at times twice: an accepted one is live then.
pub fn hand_over(trace: &mut Trace, entry: &str, is_good: bool) {
    let own = some_own(trace);
    let dice = &mut trace.dice;
    let mut record = if is_good { good(dice, entry, own, 3000) } else { broken(dice, entry, own) };
    if dice.one_in(2) {
        record.extend(b"\r\n");
    }
    let again = dice.one_in(8);
    lay(trace, &record);
    trace.say("G");
    if again {
        trace.say("G");
    }
}

/// Mostly by lines of many bytes, at times each byte by a line of its own.
pub fn lay(trace: &mut Trace, bytes: &[u8]) {
    let dice = &mut trace.dice;
    if bytes.len() < 20 && dice.one_in(12) {
        trace.say(format!("B {}", bytes.len()));
        for (index, byte) in bytes.iter().enumerate() {
            trace.say(format!("Q {index} {byte}"));
        }
        return;
    }
    let most = MOST_BYTES_OF_A_LINE as u32;
    let part = if bytes.len() < 100 { dice.between(5, most) } else { most };
    trace.say("B 0");
    bytes.chunks(part as usize).for_each(|part| append(trace, part));
}

pub fn append(trace: &mut Trace, bytes: &[u8]) {
    let digits: String = bytes.iter().map(|byte| format!("{byte:02x}")).collect();
    trace.say(format!("H {digits}"));
}

/// One byte of a good record is another, then the old one again. The byte past the end is none.
fn altered(trace: &mut Trace, entry: &str) {
    let own = some_own(trace);
    let record = good(&mut trace.dice, entry, own, 100);
    lay(trace, &record);
    for _ in 0..trace.dice.between(1, 4) {
        let index = trace.dice.below(record.len() + 1);
        let byte = some_byte(&mut trace.dice);
        trace.say(format!("Q {index} {byte}"));
        trace.say("G");
        if let Some(old) = record.get(index) {
            trace.say(format!("Q {index} {old}"));
        }
    }
    trace.say("G");
}

/// A good record, and the same with bytes put after its end.
fn longer_by_bytes(trace: &mut Trace, entry: &str) {
    let own = some_own(trace);
    let record = good(&mut trace.dice, entry, own, 100);
    lay(trace, &record);
    for _ in 0..trace.dice.between(1, 4) {
        let byte = [some_byte(&mut trace.dice)];
        let more = trace.dice.pick(&[&b"\r\n"[..], b"\r\n", b"\r", b"\n", b",", b"\"", &byte]);
        append(trace, more);
        trace.say("G");
    }
}

/// The bytes at hand are handed over with a list that is none any more.
fn damaged(trace: &mut Trace) {
    let Some(model) = trace.list() else {
        return; // The trace ended before the buffer was put back.
    };
    let kept = trace.state.words.clone();
    match trace.dice.below(3) {
        0 => trace.say(format!("L {}", kept.len() + 1)),
        _ => alter_words(trace, &model, 1),
    }
    trace.say("G");
    if trace.list().is_none() {
        put_all(trace, &kept, |_| false);
    }
    trace.say("G");
}

fn unreadable(trace: &mut Trace) {
    let lines: Vec<&[u8]> = UNREADABLE.split(|&byte| byte == b'|').collect();
    let digits = trace.dice.pick(&[1, 59, 61, 62, 63, 64, 128, 1000]);
    let run = format!("H {}", "0".repeat(digits));
    let line = if trace.dice.one_in(4) { run.as_bytes() } else { trace.dice.pick(&lines) };
    trace.write(line, b"\n");
}
