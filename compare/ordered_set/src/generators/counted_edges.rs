//! Calls with a class record at the ends of their ranges: each neighbouring pair of each order of
//! refusals, each word and each length of a record, and keys at the borders of the classes.

use super::counted::{at_hand, put_record, UNREADABLE};
use super::edges::{say_all, FOURTEEN_STEPS, LATE_BEFORE_ALL, LATE_NOTE};
use super::records::append;
use super::Trace;
use crate::classes::CLASS_WORDS;
use crate::counted::MOST_CLASS_WORDS;
use crate::settings::{exact_length, Settings};

/// Nothing is there yet: no words, no bytes and no record.
const AT_FIRST: &str = "C 0|C 16|F 1|N 1 1|A 1|T|S|W|R|G|X 0 1|K 0|X 0 1|U 1 15 8 71|U 2 15 8 71|\
    U 2 15 8 70|F 1|K 32|F 1|C 0|C 15|C 16|X 31 7|X 32 7|C 15|U 1 15 8 71|U 2 15 8 70|C 15|U 2 15 8 71|C 15";

/// Keys 6 and 9 wait and 5 is dead, all of class 0; their file has 49 bytes.
const TWO_WAIT: &str = "K 32|U 2 15 8 71|N 6 60|N 5 50|N 9 90|T|C 0";

/// Every call that checks list and record, with keys that are 0, above K, dead, live and absent.
const EVERY_CALL: &str =
    "N 0 1|N 16 1|N 5 1|N 6 1|N 7 1|F 0|F 16|F 5|F 6|F 7|A 0|A 16|A 5|A 7|T|S|W|G";

/// Questions about classes at the ends of their range and past them.
const EVERY_QUESTION: &str =
    "C 0|C 1|C 7|C 14|C 15|C 16|C 17|C 31|C 32|C 256|C 268435456|C 2147483648|C 4294967295";

pub fn counted_edges(trace: &mut Trace) {
    trace.classes = Some(Vec::new());
    say_all(trace, AT_FIRST);
    lengths_of_a_record(trace);
    set_ups(trace);
    lists_and_records(trace);
    own_refusals(trace);
    writes(trace);
    logged(trace);
    reads(trace);
    every_word(trace);
    borders(trace);
    one_class_after_another(trace);
    full_list(trace);
    classes_as_they_stand(trace);
    for steps in [&format!("U 2 15 8 71|{FOURTEEN_STEPS}"), LATE_NOTE, LATE_BEFORE_ALL] {
        for step in steps.split('|') {
            say_all(trace, &format!("{step}|C 0"));
        }
    }
    unreadable_lines(trace);
    trace.write(b"C 0", b""); // A last line without line feed.
}

/// Cut, and extended with words 0, from 0 to 64 words: on words that are no list, and on a list.
/// A record of any length but 32 is 15, and 2 at set up, after 1.
fn lengths_of_a_record(trace: &mut Trace) {
    say_all(trace, "K 32|U 2 15 8 71|N 6 60|N 5 50|N 9 90|T");
    let kept = at_hand(trace).to_vec();
    for length in 0..=MOST_CLASS_WORDS {
        say_all(trace, &format!("K {length}|C 0|C 15|C 16|F 6|N 0 1|S"));
        put_record(trace, &kept);
        trace.say("F 6");
    }
    for length in 0..=MOST_CLASS_WORDS {
        say_all(trace, &format!("K {length}|U 2 15 2 71|U 2 15 8 71|U 2 15 8 70|F 6"));
    }
    say_all(trace, "K 32|U 2 15 8 71|F 6");
}

/// 1, then 2 for either length; what was lent stays as it was.
fn set_ups(trace: &mut Trace) {
    for length in [31, 32, 33] {
        say_all(trace, &format!("K {length}|X 0 7|X 30 7|X {} 7", length - 1));
        for (d, k, c) in [(1, 15, 8), (17, 15, 8), (2, 0, 8), (2, 15, 2), (2, 15, 262_145)] {
            let exact = exact_length(d, 8.min(c));
            for words in [0, exact, exact + 1] {
                trace.say(format!("U {d} {k} {c} {words}"));
            }
        }
        for words in [0, 70, 72, 71] {
            say_all(trace, &format!("U 2 15 8 {words}|C 0"));
        }
    }
    say_all(trace, "K 32|U 2 15 8 71");
}

/// 3 before 15: lists and words that are none, with records that are right, damaged, shorter and
/// longer.
fn lists_and_records(trace: &mut Trace) {
    say_all(trace, TWO_WAIT);
    say_all(trace, "B 49");
    let kept = at_hand(trace).to_vec();
    for (damage, repair) in [("P 2 9", "P 2 8"), ("L 70", "L 71"), ("L 72", "L 71")] {
        let last = trace.state.words[70];
        for record in ["X 32 1", "X 0 3", "K 31", "K 33", "K 0"] {
            say_all(trace, &format!("{damage}|{record}|{EVERY_CALL}"));
            say_all(trace, &format!("{repair}|P 70 {last}|{EVERY_CALL}"));
            put_record(trace, &kept);
            trace.say("F 6");
        }
        // what was taken comes again
        say_all(trace, TWO_WAIT);
    }
}

/// 15 before 4 to 8: every call on a list with a damaged record, and then with the right one. On an
/// empty list a take would be 7; on a full one an insert 6.
fn own_refusals(trace: &mut Trace) {
    for list in ["U 2 15 3 31", "U 2 15 3 31|N 5 50|N 6 60|T", "U 2 15 3 31|N 5 50|N 6 60|T|T"] {
        trace.say("K 32");
        say_all(trace, list);
        let kept = at_hand(trace).to_vec();
        for record in ["X 0 4294967295", "X 1 4294967295", "X 30 1", "X 31 15", "K 31", "K 33"] {
            trace.say(record);
            say_all(trace, EVERY_CALL);
            put_record(trace, &kept);
        }
        say_all(trace, EVERY_CALL);
    }
}

/// 3, 15, 12: with room and one byte too little.
fn writes(trace: &mut Trace) {
    say_all(trace, TWO_WAIT);
    for room in [49, 48, 0] {
        say_all(trace, &format!("B {room}|P 0 3|X 0 1|W|P 0 2|W|X 0 2|W"));
        say_all(trace, "P 0 3|W|P 0 2|K 31|W|K 33|W|K 32|W");
    }
}

/// 3, 15, 13, 14, 4: a record that breaks the grammar, one whose number does not fit, and one whose
/// key is above K, 4,097; then good ones, one whose key is live, and one that no cell is free for.
/// The last number stays where one is refused.
fn logged(trace: &mut Trace) {
    say_all(trace, "K 32|U 2 4097 4 39");
    for record in ["0,1,1,,", "16,1,1,,1", "0,1,1,,65535", "0,1,2,,1", "1,1,0,,1"] {
        trace.say("O 0");
        log(trace, record);
    }
    log(trace, "0,1,1,,1");
    log(trace, "0,1,1,,2");
    say_all(trace, "N 1 10|N 2 20|O 4294967296");
    log(trace, "0,1,0,,3");
    say_all(trace, "T|T|S");
    log(trace, "0,1,0,,3");
    log(trace, "0,1,0,,4");
    // every class, its least and its greatest entry
    trace.make(&Settings::new(8, u32::MAX, 40).expect("settings in range"));
    for class in 0..16 {
        for entry in ["65535,4095", "1,0"] {
            trace.say("B 0");
            append(trace, format!("{class},{entry},,{class}").as_bytes());
            say_all(trace, &format!("G|C {class}"));
        }
    }
}

/// One record of the logger, with the list and the class record damaged and not.
fn log(trace: &mut Trace, record: &str) {
    trace.say("B 0");
    append(trace, record.as_bytes());
    let kept = at_hand(trace).to_vec();
    for damage in ["X 2 1", "K 31", "K 33"] {
        say_all(trace, &format!("{damage}|P 0 3|G|P 0 2|G"));
        put_record(trace, &kept);
    }
    say_all(trace, "P 0 3|G|P 0 2|G|C 0");
}

/// 11, 2, then 15 for the length alone: bytes that are no file, a list of another length, and
/// records of every kind, each with the one before. Damaged words and records are written anew.
fn reads(trace: &mut Trace) {
    for record in ["K 32", "K 31", "K 33", "K 0", "K 64", "X 0 1", "X 31 4294967295"] {
        say_all(trace, TWO_WAIT);
        say_all(trace, "B 49|W|T");
        trace.say(record);
        for words in ["L 70", "L 72", "L 0", "L 71", "L 71|P 0 3"] {
            say_all(trace, words);
            say_all(trace, "Q 0 3|R|Q 0 2|R|C 0|F 9");
        }
        say_all(trace, "K 32|R|C 0|F 9|T|C 0");
    }
    // a file of a list with keys of several classes, read over one with keys of others
    say_all(trace, "U 8 4294967295 8 125|N 268435455 1|N 268435456 2|N 4294967295 3|B 57|W");
    say_all(
        trace,
        "U 8 4294967295 8 125|N 2147483648 4|C 8|R|C 0|C 1|C 8|C 15|T|C 0|T|C 1|T|C 15|R|C 0",
    );
    // an empty one
    say_all(trace, "U 8 4294967295 8 125|B 33|W|N 1 1|C 0|R|C 0");
}

/// Each word of a record altered in four ways and put back. The question about its class answers it
/// as it stands, and so it does the others.
fn every_word(trace: &mut Trace) {
    say_all(trace, "K 32|U 4 4294967295 40 409");
    for class in 0..16u32 {
        if class != 5 {
            say_all(trace, &format!("N {} 1|N {} 2", (class << 28) + 6, (class << 28) + 5));
        }
    }
    say_all(trace, "T|B 0");
    let kept = at_hand(trace).to_vec();
    for (index, &word) in kept.iter().enumerate() {
        for other in [word.wrapping_add(1), word.wrapping_sub(1), word ^ 1 << 31, word ^ 1 << 28] {
            trace.say(format!("X {index} {other}"));
            say_all(trace, &format!("F 6|T|N 1 1|C {}|C {}", index / 2, (index / 2 + 1) % 16));
        }
        say_all(trace, &format!("A 6|S|W|G|X {index} {word}|F 6"));
    }
    // counts and keys exchanged: of one class, of all
    say_all(trace, &format!("X 4 {}|X 5 {}|C 2|F 6|T", kept[5], kept[4]));
    put_record(trace, &kept);
    let exchanged: Vec<u32> = (0..CLASS_WORDS).map(|index| kept[index ^ 1]).collect();
    put_record(trace, &exchanged);
    say_all(trace, "C 2|F 6|T|N 1 1");
    // sixteen counts and then sixteen keys
    let apart: Vec<u32> = (0..CLASS_WORDS).map(|index| kept[index % 16 * 2 + index / 16]).collect();
    put_record(trace, &apart);
    say_all(trace, "C 2|F 6|T|N 1 1");
    // those of the class beside
    let beside: Vec<u32> = (0..CLASS_WORDS).map(|index| kept[(index + 2) % CLASS_WORDS]).collect();
    put_record(trace, &beside);
    say_all(trace, "C 2|F 6|T|N 1 1");
    put_record(trace, &kept);
    say_all(trace, "C 2|F 6|T|C 0|N 1 1|C 0");
}

/// The first and the last key of each class, and one beside: put in from the last to the first, asked
/// after each, and taken.
fn borders(trace: &mut Trace) {
    for d in [2, 8, 16] {
        trace.say("K 32");
        trace.make(&Settings::new(d, u32::MAX, 64).expect("settings in range"));
        for class in (0..16u32).rev() {
            let least = class << 28;
            for key in [least | 0x0fff_ffff, least | 0x0fff_fffe, (least + 1).max(2), least.max(1)]
            {
                say_all(trace, &format!("N {key} {class}|C {class}"));
            }
        }
        say_all(trace, EVERY_QUESTION);
        for place in 0..65u32 {
            say_all(trace, &format!("T|C {}|C {}", (place / 4).min(15), (place / 4 + 1).min(15)));
        }
    }
    // K amid a class, and at its borders
    for k in [268_435_455, 268_435_456, 268_435_457, 536_870_911] {
        trace.make(&Settings::new(4, k, 8).expect("settings in range"));
        for key in [k, k - 1, 268_435_455, 268_435_456, 1] {
            say_all(trace, &format!("N {key} 1|C 0|C 1|C 2"));
        }
        say_all(trace, "T|C 0|C 1|T|C 0|C 1|T|C 0|C 1|T|C 0|C 1|T|C 0|C 1|T|C 0|C 1");
    }
}

/// The least key taken with and without another behind it, a lesser one that comes late, dead keys
/// inserted again, a class that is empty, finds and finishes and sweeps between.
fn one_class_after_another(trace: &mut Trace) {
    say_all(trace, "K 32|U 8 4294967295 12 181");
    say_all(trace, "N 536870913 1|C 2|N 536870914 2|C 2|N 536870912 3|C 2|T|C 2|T|C 2|T|C 2|T|C 2");
    say_all(trace, "N 536870914 4|C 2|N 536870912 5|C 2|F 536870913|F 536870912|C 2|S|C 2|C 1|C 3");
    say_all(trace, "N 268435456 6|C 1|C 2|T|C 1|C 2|S|C 1|C 2|A 536870914|C 2|T|T|C 2|T|S|C 2");
    say_all(trace, "N 5 50|N 6 60|N 4 40|C 0|N 6 61|C 0|N 0 1|C 0|T|C 0|N 4 41|C 0|T|T|T|T|C 0");
}

/// No cell is free: 6 leaves the record, and after a take a dead key is put in again.
fn full_list(trace: &mut Trace) {
    say_all(trace, "K 32|U 2 4294967295 4 39|N 1 1|N 268435456 2|N 4294967295 3|N 7 7|C 0");
    say_all(
        trace,
        "N 1 1|C 0|T|C 0|N 7 7|C 0|N 1 1|C 0|T|T|C 1|N 7 7|T|C 15|N 7 7|T|S|N 7 7|C 0|C 15",
    );
}

/// Words that no list has, in the places asked about and in all others.
fn classes_as_they_stand(trace: &mut Trace) {
    say_all(trace, "L 0|K 32");
    for index in 0..CLASS_WORDS {
        trace.say(format!("X {index} {}", 4_294_967_295 - index as u32));
    }
    say_all(trace, EVERY_QUESTION);
    (0..17).for_each(|class| trace.say(format!("C {class}")));
    for length in [31, 33, 0, 64] {
        trace.say(format!("K {length}"));
        say_all(trace, EVERY_QUESTION);
    }
    say_all(trace, "K 32|U 2 15 8 71");
    say_all(trace, EVERY_QUESTION);
}

fn unreadable_lines(trace: &mut Trace) {
    say_all(trace, TWO_WAIT);
    for line in UNREADABLE.split(|&byte| byte == b'|') {
        trace.write(line, b"\n");
    }
    for digits in [60, 61, 62, 63, 64, 1000] {
        trace.write(format!("C {}", "1".repeat(digits)).as_bytes(), b"\n");
        trace.write(format!("K 32{}", " ".repeat(digits)).as_bytes(), b"\n");
    }
    say_all(trace, "F 6|T|C 0");
}
