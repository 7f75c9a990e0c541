//! Calls on plain rows at the ends of their ranges: settings, lengths, each sentence of what a row is,
//! each word of one, and the largest row that a trace has words for.

use super::edges::{say_all, FOURTEEN_STEPS, LATE_BEFORE_ALL, LATE_NOTE};
use super::rows::{run_line, UNREADABLE};
use super::Trace;
use crate::replay::MOST_WORDS;
use crate::row::{row, row_length, BEFORE_PLACES, PLACE};
use crate::settings::{exact_length, MOST_CELLS};
use std::collections::BTreeSet;

/// No words, then words that are no row: those of a list's set up among them.
const AT_FIRST: &str =
    "F 1|N 1 1|A 1|T|S|N 0 0|F 0|A 0|P 0 1|L 0|T|U 2 15 8 71|T|U 2 15 8 25|S|U 2 15 8 27|F 1";

const EVERY_CALL: &str = "F 0|F 1|A 1|N 0 1|N 1 1|T|S";

/// A full row with a dead key inserted again: three keys.
const FULL_ROW: &str = "U 2 15 4 14|N 6 60|N 5 50|N 9 90|N 7 70|N 5 51|T|N 7 70|N 4 40|N 5 52|\
    N 5 53|N 7 70|T|T|T|T|N 9 91|N 1 10|S|N 1 10|N 9 92|T|T|S|N 15 1|N 1 2";

/// Keys at the ends of their range, finds and finishes of live, dead and absent ones.
const KEYS: &str =
    "U 2 15 6 20|N 15 4294967295|N 1 0|N 0 1|N 16 1|N 4294967295 1|F 1|F 15|F 2|F 16|F 0|\
    A 1|A 2|A 16|A 0|T|F 1|A 1|N 1 7|T|T|T|F 15|A 15|S|F 15|A 15|A 1|T|S|U 16 4294967295 3 11|\
    N 4294967295 4294967295|N 1 1|N 2 2|F 4294967295|T|T|T|N 4294967295 0|T|S|S|T";

/// A position between dead keys, taken past, swept and put back by late keys.
const POSITIONS: &str =
    "U 2 100 9 29|N 10 1|N 20 2|N 30 3|N 40 4|N 50 5|T|T|T|N 15 6|N 12 7|T|T|N 30 8|T|\
    N 10 9|S|T|T|N 45 1|T|T|T|N 50 2|N 5 3|N 20 4|T|T|T|S|N 60 5|N 55 6|T|S|T|S|T";

/// Keys 2 and 6 are dead and 9 is live; one place is unused.
const THREE_STAND: &str = "U 2 15 5 17|N 6 60|N 2 20|N 9 90|T|T";

/// Words of three keys that are altered together.
const SENTENCES: &str = "P 4 2|F 9|P 10 1|F 6|P 4 6|F 6|P 4 0|F 6|P 10 2|F 6|P 13 2|F 9|P 12 0|F 9|T|\
    P 4 9|T|N 9 91|P 3 4|F 9|P 14 10|F 9|P 16 1|F 9|P 15 7|F 10|P 16 2|F 10|P 15 0|F 10|P 14 9|F 9|P 14 15|\
    F 9|P 14 16|F 9|P 1 16|F 16|P 3 3|F 9";

pub fn row_edges(trace: &mut Trace) {
    trace.other = Some(run_line);
    say_all(trace, AT_FIRST);
    few_words(trace);
    set_ups(trace);
    for steps in [FOURTEEN_STEPS, FULL_ROW, KEYS, POSITIONS] {
        trace.say("U 2 15 8 26");
        say_all(trace, steps);
    }
    for steps in [LATE_NOTE, LATE_BEFORE_ALL] {
        say_all(trace, &steps.replace("U 2 15 8 71", "U 2 15 8 26"));
        say_all(trace, "T|N 2 21|T|T|S|T|S");
    }
    every_word(trace);
    say_all(trace, THREE_STAND);
    say_all(trace, SENTENCES);
    largest(trace);
    for line in UNREADABLE.split(|&byte| byte == b'|') {
        trace.write(line, b"\n");
    }
    for length in [63, 64, 65, 66, 4_096, 70_000] {
        trace.write(&b"T".repeat(length), b"\n");
    }
    say_all(trace, "U 2 15 3 11|N 1 1");
    trace.write(b"T", b""); // A last line without line feed.
}

/// Rows cut, and extended with words 0, from 0 to 20 words.
fn few_words(trace: &mut Trace) {
    for c in [3, 4, 5] {
        for length in 0..=20 {
            say_all(trace, &format!("U 2 15 {c} {length}|{EVERY_CALL}"));
            say_all(trace, &format!("U 2 15 {c} {}|L {length}|{EVERY_CALL}", row_length(c)));
        }
    }
}

fn set_ups(trace: &mut Trace) {
    for d in [1, 2, 15, 16, 17] {
        for c in [0, 1, 2, 3, 4, 512, 4_097, MOST_CELLS, MOST_CELLS + 1] {
            let exact = row_length(c);
            let lengths = [0, exact - 1, exact, exact + 1, exact + PLACE, exact_length(d, c)];
            for length in BTreeSet::from(lengths.map(|length| length.min(MOST_WORDS as usize))) {
                say_all(trace, &format!("U {d} 0 {c} {length}|U {d} 1 {c} {length}"));
                say_all(trace, &format!("U {d} 4294967295 {c} {length}|F 1"));
            }
        }
    }
    say_all(trace, "U 4294967295 1 3 11|U 2 1 4294967295 11|U 0 0 0 0|U 2 4294967295 3 11");
}

/// Each word of a row with each of many values: finds and finishes on those that are a row still,
/// and every call on those that are none.
fn every_word(trace: &mut Trace) {
    say_all(trace, THREE_STAND);
    let kept = trace.state.words.clone();
    let values = (0..=17).chain([20, 60, 90, 262_144, 262_145, 2_147_483_648, u32::MAX]);
    for (index, value) in (0..kept.len()).flat_map(|index| values.clone().map(move |v| (index, v)))
    {
        trace.say(format!("P {index} {value}"));
        let is_row = row(&trace.state.words).is_some();
        say_all(trace, if is_row { "F 9|A 2" } else { "F 9|A 2|N 7 70|T|S" });
        trace.say(format!("P {index} {}", kept[index]));
    }
}

/// The most places that a trace has words for.
fn largest(trace: &mut Trace) {
    let c = (MOST_WORDS as usize - BEFORE_PLACES) / PLACE + 1;
    let length = row_length(c);
    say_all(
        trace,
        &format!("U 16 4294967295 {c} {length}|N 4294967295 7|N 1 8|F 1|T|N 2 9|S|T|T|T|S"),
    );
    say_all(trace, &format!("P {} 1|F 1|P {} 0|F 1|P {length} 1|F 1", length - 1, length - 1));
    say_all(trace, &format!("L {}|F 1|L {length}|F 1|P 2 {}|F 1", length - 1, c + 1));
    say_all(trace, &format!("U 16 4294967295 {} {MOST_WORDS}|T", c + 1));
}
