//! The ends of every range of docs/REFERENCE.md, and those of the trace's own format.

use super::file_forms::{Form, C, COUNT, D, K};
use super::files::UNREADABLE as UNREADABLE_FOR_FILES;
use super::records::{append, lay, UNREADABLE as UNREADABLE_FOR_BYTES};
use super::Trace;
use crate::records::NONE_YET;
use crate::replay::{most_cells, MOST_BYTES, MOST_BYTES_OF_A_LINE, MOST_WORDS};
use crate::settings::{exact_length, Settings, MOST_CELLS};
use std::collections::BTreeSet;

/// The fourteen steps.
pub const FOURTEEN_STEPS: &str = "N 6 60|N 5 50|N 9 90|F 6|T|T|N 2 20|T|T|N 6 61|T|T|S|N 5 51";

/// A note that comes late, when all before it are dead.
pub const LATE_NOTE: &str = "U 2 15 8 71|N 4 40|N 5 50|N 6 60|N 9 90|T|T|T|T|N 8 80";

/// A late one with no key below it, so that the position is the head.
pub const LATE_BEFORE_ALL: &str = "U 2 15 8 71|N 4 40|N 5 50|N 9 90|T|T|T|N 2 20";

/// What may come after a late note: a take, dead keys that come late in their turn, the
/// position's own among them, and one that comes when it is not the least live key.
const AFTER_LATE_NOTE: &str = "T|N 8 81|T|N 9 91|T|N 9 92|T|N 4 41|T|N 6 61|N 5 51|N 8 82|T|T|T|T|\
    N 1 10|T|N 1 11|T|T|N 9 93|N 4 42|S|T|N 4 43|T|T|S";

/// A full buffer with a dead key inserted again: three cells beside the head.
const FULL_BUFFER: &str = "U 2 15 4 39|N 6 60|N 5 50|N 9 90|N 7 70|N 5 51|T|N 7 70|N 4 40|N 5 52|\
    N 5 53|N 7 70|T|T|T|T|N 9 91|N 1 10|S|N 1 10|N 9 92|T|T|S|N 15 1|N 1 2";

const UNREADABLE: &[u8] = b"| |T | T|T\r|T\t|T\0|\0|t|s|TT|T 1|S 0|X|F|F |F  1|F 1 |F 1 2|f 1|\
    F 01|F 00|F +1|F -1|F 1.0|F 0x1|F 4294967296|F 18446744073709551617|A|A 1 1|N|N 1|N 1 2 3|\
    N 1  2|N 1\t2|N 1 4294967296|P 1|P 4294967296 1|L|L 155671|U 2 15 8|U 2 15 8 155671|\
    U 2 15 8 71 0|F \xC3\xA9 \xFF";

/// No words, no bytes and no last number yet.
const RECORDS_AT_FIRST: &str = "G|Q 0 1|H 2c|G|Q 0 1|Q 1 1|B 1|G|O 0|G|O 4294967296|B 0|G";

/// Bytes up to the most that there can be.
const MANY_BYTES: &str = "B 40000|G|H 2c|Q 39999 44|Q 40000 44|Q 4294967295 255|G|B 39999|H 2c2c|\
    H 2c|H 2c|G|B 0|G|H 00|H ff|H 0123456789abcdef|Q 0 0|Q 0 255|Q 9 0|Q 10 0|G|B 3|G|B 1|G";

/// No words and no list, with room for a file and without.
const FILES_AT_FIRST: &str = "W|R|B 33|W|R|B 0|W|R";

/// Two keys wait and one is dead; their file has 49 bytes.
const TWO_WAIT: &str = "U 2 15 8 71|N 6 60|N 5 50|N 9 90|T";

pub fn edges(trace: &mut Trace) {
    say_all(trace, FILES_AT_FIRST);
    say_all(trace, RECORDS_AT_FIRST);
    few_words(trace);
    set_ups(trace);
    keys_at_the_ends(trace);
    say_all(trace, FULL_BUFFER);
    for late in [LATE_NOTE, LATE_BEFORE_ALL] {
        say_all(trace, late);
        say_all(trace, AFTER_LATE_NOTE);
    }
    trace.say("U 2 15 8 71");
    say_all(trace, FOURTEEN_STEPS);
    unreadable_lines(trace);
    changed_lengths(trace);
    many_bytes(trace);
    last_numbers(trace);
    unreadable_lines_for_bytes(trace);
    files_of_empty_and_full_lists(trace);
    every_byte_of_a_file(trace);
    every_cut_of_a_file(trace);
    into_other_lists(trace);
    settings_of_files(trace);
    keys_of_files(trace);
    bodies_of_files(trace);
    files_of_the_other_tag(trace);
    every_byte_of_the_other_tag(trace);
    greatest_files(trace);
    unreadable_lines_for_files(trace);
    trace.write(b"T", b""); // A last line without line feed.
}

pub fn say_all(trace: &mut Trace, lines: &str) {
    lines.split('|').for_each(|line| trace.say(line));
}

fn every_operation(trace: &mut Trace, key: u32) {
    say_all(trace, &format!("F {key}|N {key} 7|N {key} 8|F {key}|A {key}|T|A {key}|S"));
}

/// No buffer yet, and buffers that have no whole header or nothing after it.
fn few_words(trace: &mut Trace) {
    every_operation(trace, 1);
    trace.say("P 0 1");
    for length in [1, 4, 5, 6, 0] {
        trace.say(format!("L {length}"));
        every_operation(trace, length);
        say_all(trace, "W|R");
    }
}

fn set_ups(trace: &mut Trace) {
    for d in [1, 2, 15, 16, 17] {
        for c in [2, 3, 4096, 4097, MOST_CELLS - 1, MOST_CELLS, MOST_CELLS + 1] {
            let exact = exact_length(d, c) as u32;
            // with a cell's coordinates beside its links, as buffers were before
            let old = exact + c as u32 * d as u32;
            // where there can't be as many words the range of C alone decides
            let lengths =
                [0, exact - 1, exact, exact + 1, old].map(|length| length.min(MOST_WORDS));
            for length in BTreeSet::from(lengths) {
                say_all(trace, &format!("U {d} 0 {c} {length}|U {d} 1 {c} {length}"));
                trace.say(format!("U {d} 4294967295 {c} {length}"));
            }
        }
    }
    say_all(trace, "U 0 15 8 45|U 2 15 0 7|U 2147483648 15 8 71|U 2 15 2147483648 71");
    trace.say("U 4294967295 4294967295 4294967295 0");
    every_operation(trace, 1);
}

fn keys_at_the_ends(trace: &mut Trace) {
    for (d, c) in [(2, 3), (2, 8), (15, 8), (16, 8), (16, 4097), (2, most_cells(2) as u32)] {
        // fewer where a call takes long
        let largest_keys = if c < 4097 { &[1, 2, 15, u32::MAX][..] } else { &[2, u32::MAX] };
        for &k in largest_keys {
            trace.make(&Settings::new(d, k, c).expect("settings in range"));
            for key in [0, 1, k, k.saturating_add(1)] {
                every_operation(trace, key);
            }
            for key in [k, 1, k / 2, 0, u32::MAX] {
                trace.say(format!("N {key} 4294967295"));
            }
            every_operation(trace, k);
        }
    }
}

fn unreadable_lines(trace: &mut Trace) {
    for line in UNREADABLE.split(|&byte| byte == b'|') {
        trace.write(line, b"\n");
    }
    for length in [60, 62, 63, 64, 1000, 100_000] {
        trace.write(format!("F {}", "1".repeat(length)).as_bytes(), b"\n");
        trace.write(format!("T{}", " ".repeat(length)).as_bytes(), b"\n");
    }
    trace.say("P 4294967295 4294967295");
    every_operation(trace, 5);
}

/// One word short or long, none at all, and back again.
fn changed_lengths(trace: &mut Trace) {
    let exact = trace.state.words.len() as u32;
    // the last but one: a word for each link more, as buffers had when cells held their coordinates
    let old = exact + trace.state.words[0] * trace.state.words[2];
    for length in [exact - 1, exact, exact + 1, exact, 0, 4, 5, exact, old, MOST_WORDS] {
        trace.say(format!("L {length}"));
        every_operation(trace, 3);
    }
}

fn many_bytes(trace: &mut Trace) {
    trace.say("U 8 4294967295 8 189");
    say_all(trace, MANY_BYTES);
    for length in [MOST_BYTES_OF_A_LINE, MOST_BYTES_OF_A_LINE - 1] {
        trace.say(format!("B {}", MOST_BYTES as usize - length));
        append(trace, &[b','; MOST_BYTES_OF_A_LINE]);
        trace.say("G");
    }
}

/// Records whose number is as far from the last as forward and back go, at last numbers from
/// which that leads to both ends of the full numbers and past them. The takes show the values.
fn last_numbers(trace: &mut Trace) {
    trace.make(&Settings::new(8, u32::MAX, 128).expect("settings in range"));
    let ends = [0, 1, 32_767, 32_768, 65_535, 65_536].map(|low| [low, NONE_YET - 1 - low]);
    let lasts = ends.concat().into_iter().chain([NONE_YET]);
    let apart = [0, 1, 32_767, 32_768, 32_769, 65_535];
    let cases = lasts.flat_map(|last| apart.map(|apart| (last, (last + apart) % 65_536)));
    for (serial, (last, own)) in cases.enumerate() {
        trace.say("B 0");
        append(trace, format!("1,117,{serial},,{own}").as_bytes());
        say_all(trace, &format!("O {last}|G|G"));
    }
    for _ in 0..128 {
        trace.say("T");
    }
}

/// Beside readable ones, after which the bytes and the last number are seen to be as before.
fn unreadable_lines_for_bytes(trace: &mut Trace) {
    say_all(trace, "B 0|H 31|O 7");
    for line in UNREADABLE_FOR_BYTES.split(|&byte| byte == b'|') {
        trace.write(line, b"\n");
    }
    for digits in [59, 61, 62, 63, 64, 1000] {
        trace.write(format!("H {}", "0".repeat(digits)).as_bytes(), b"\n");
    }
    trace.say("G");
}

/// Into one byte fewer than the file has, as many, one more and none; then read back.
fn write_and_read(trace: &mut Trace, file_length: usize) {
    for room in [file_length - 1, 0, file_length + 1, file_length] {
        say_all(trace, &format!("B {room}|W|R"));
    }
}

fn files_of_empty_and_full_lists(trace: &mut Trace) {
    for (d, k, c) in [(2, 1, 3), (2, 15, 3), (2, 15, 8), (15, u32::MAX, 8), (16, u32::MAX, 8)] {
        trace.make(&Settings::new(d, k, c).expect("settings in range"));
        write_and_read(trace, 33);
        let keys = (k - (c - 1).min(k) + 1)..=k;
        let many = keys.clone().count();
        keys.rev().for_each(|key| trace.say(format!("N {key} {}", key / 2)));
        write_and_read(trace, 33 + 8 * many);
        // full of dead keys, and then of one live key and dead ones
        (0..many).for_each(|_| trace.say("T"));
        say_all(trace, "B 33|W");
        trace.say(format!("N {k} 4294967295"));
        write_and_read(trace, 41);
        say_all(trace, "T|T|S");
    }
}

/// Each byte is altered in three ways and put back.
fn every_byte_of_a_file(trace: &mut Trace) {
    say_all(trace, TWO_WAIT);
    say_all(trace, "B 49|W");
    let file = trace.state.bytes.clone();
    for (index, byte) in file.iter().enumerate() {
        for other in [byte.wrapping_add(1), byte.wrapping_sub(1), byte ^ 128] {
            say_all(trace, &format!("Q {index} {other}|R"));
        }
        trace.say(format!("Q {index} {byte}"));
    }
    say_all(trace, "R|T|T|T");
}

/// The first bytes of a file, more and more of them, and then more than it has.
fn every_cut_of_a_file(trace: &mut Trace) {
    say_all(trace, TWO_WAIT);
    say_all(trace, "B 49|W");
    let file = trace.state.bytes.clone();
    say_all(trace, "B 0|R");
    for byte in file.iter().chain(&[0, 0]) {
        append(trace, &[*byte]);
        trace.say("R");
    }
}

/// A file goes into every list of its length, whatever its D, K and C: that of D = 3, C = 7 is
/// the same. Of another length it goes into none, and then the file decides which refusal it is.
fn into_other_lists(trace: &mut Trace) {
    say_all(trace, TWO_WAIT);
    say_all(trace, "B 49|W");
    for other in
        ["2 16 8 71", "2 4294967295 8 71", "3 15 7 71", "0 0 0 71", "2 15 9 79", "16 1 3 87"]
    {
        say_all(trace, &format!("U {other}|N 1 1|R|T|W"));
        say_all(trace, "Q 0 3|R|Q 0 2|L 70|R|W|L 72|R|L 0|R|L 71|R|W|F 9");
    }
}

/// Lays a file, and reads it into words of the length that it asks for, one fewer and one more.
fn read_form(trace: &mut Trace, form: &Form, length: usize) {
    trace.say("B 0");
    for part in form.bytes().chunks(MOST_BYTES_OF_A_LINE) {
        append(trace, part);
    }
    for length in [length - 1, length + 1, length].map(|length| length.min(MOST_WORDS as usize)) {
        say_all(trace, &format!("L {length}|R"));
    }
}

fn settings_of_files(trace: &mut Trace) {
    const MOST: u32 = MOST_CELLS as u32;
    let ends = [
        (D, &[0, 1, 2, 15, 16, 17, u32::MAX][..]),
        (K, &[0, 1, 2, 3, 15, 1 << 31, u32::MAX]),
        (C, &[0, 2, 3, 4, 4096, 4097, MOST - 1, MOST, MOST + 1, u32::MAX]),
    ];
    for (place, numbers) in ends {
        for &number in numbers {
            for pairs in [&[][..], &[(1, 7)], &[(1, 7), (2, 0)], &[(1, 7), (2, 0), (3, u32::MAX)]] {
                let mut form = Form::new([2, 15, 8], pairs);
                form.set(place, number);
                let [d, c] = [D, C].map(|place| form.get(place) as usize);
                read_form(trace, &form, exact_length(d.min(17), c.min(MOST_CELLS)));
                say_all(trace, "T|F 1");
            }
        }
    }
    // every one of them at its end
    for settings in [[2, 1, 3], [16, u32::MAX, 4096], [1, 0, 2], [17, 0, 4097], [2, 1, 19_457]] {
        let form = Form::new(settings, &[(1, 1)]);
        read_form(trace, &form, exact_length(settings[0] as usize, settings[2] as usize));
        say_all(trace, "W|T|T");
    }
}

/// Keys at and past the ends of their range, equal, descending; C - 1 of them, C, and one more.
fn keys_of_files(trace: &mut Trace) {
    for k in [15, u32::MAX] {
        let past = k.wrapping_add(1);
        for keys in [
            &[0][..],
            &[1],
            &[k],
            &[past],
            &[k - 1, k],
            &[k, past],
            &[0, 1],
            &[1, 1],
            &[2, 1],
            &[1, 3, 2],
            &[1, 2, 2],
            &[2, 2, 3],
            &[1, 2, 3],
            &[1, 2, k],
            &[1, k, k],
            &[1, 2, 3, 4],
            &[1, 2, 3, 4, 5],
        ] {
            let pairs: Vec<(u32, u32)> = keys.iter().map(|&key| (key, key ^ 5)).collect();
            read_form(trace, &Form::new([2, k, 4], &pairs), exact_length(2, 4));
            say_all(trace, "N 4 4|T|T");
        }
    }
}

fn bodies_of_files(trace: &mut Trace) {
    for pairs in [&[][..], &[(1, 7), (2, 0)]] {
        for form in Form::new([2, 15, 4], pairs).other_bodies() {
            read_form(trace, &form, exact_length(2, 4));
        }
    }
}

/// A full list with as many keys as there can be bytes for, with the fewest dimensions and with the
/// most; then one key more, which count and length say too. No words stand while the bytes are laid.
fn greatest_files(trace: &mut Trace) {
    const CELLS: u32 = (MOST_BYTES - 33) / 8;
    let (few, long) = (CELLS - 1, 33 + 8 * (CELLS - 1));
    let pairs: Vec<(u32, u32)> = (1..CELLS).map(|i| (859_000 * i + 1, i)).collect();
    let [narrow, wide] = [2, 16].map(|d| exact_length(d, CELLS as usize));
    trace.say("L 0");
    read_form(trace, &Form::new([2, u32::MAX, CELLS], &pairs), narrow);
    say_all(trace, &format!("F 859001|F 859002|N 1 1|B {}|W|B {MOST_BYTES}|W|R", long - 1));
    say_all(trace, &format!("B {long}|W|R|Q 22 16|R|L {wide}|R|T|N 1 1|S|T|S|N 1 1|R"));
    append(trace, &[u32::MAX.to_be_bytes(), [0; 4]].concat());
    trace.say("R");
    put_bytes(trace, 31, &(few as u16 + 1).to_be_bytes());
    trace.say("R");
    put_bytes(trace, 15, &(2 + 8 * CELLS).to_be_bytes());
    say_all(trace, "R|L 0|R");
}

/// Writes some bytes in a row, one a line.
fn put_bytes(trace: &mut Trace, from: usize, bytes: &[u8]) {
    for (index, byte) in (from..).zip(bytes) {
        trace.say(format!("Q {index} {byte}"));
    }
}

/// An entries body with tag 3 and a count in four bytes, of few keys and of as many as two bytes
/// can't say: the first are no file, and the bytes of the second can't be laid. So all are refused by
/// 11, whatever the words' length. The same for tag 2 with four bytes and tag 3 with two.
fn files_of_the_other_tag(trace: &mut Trace) {
    for (c, keys) in [(8, 0), (8, 2), (8, 7), (4097, 2), (65_537, 2), (262_144, 2), (262_145, 2)] {
        let pairs: Vec<(u32, u32)> = (1..=keys).map(|key| (key, key ^ 5)).collect();
        let form = Form::new([2, u32::MAX, c], &pairs);
        for (tag, bytes) in [(3, 4), (3, 2), (2, 4), (2, 2)] {
            read_form(trace, &form.counted(tag, bytes), exact_length(2, c as usize));
            say_all(trace, "F 1|T");
        }
        // counts that do not fit the pairs
        let mut other = form.counted(3, 4);
        for count in [65_535, 65_536, 65_538, c - 1, c, 1 << 31, u32::MAX] {
            other.set(COUNT, count);
            read_form(trace, &other, exact_length(2, c as usize));
        }
    }
}

/// Each byte in front of the pairs, of a file with tag 3 and four bytes for the count, is altered in
/// three ways and put back; then the tag is 2 and the two first bytes of the count are taken away.
fn every_byte_of_the_other_tag(trace: &mut Trace) {
    say_all(trace, TWO_WAIT);
    let file = Form::new([2, 15, 8], &[(6, 60), (9, 90)]).counted(3, 4).bytes();
    lay(trace, &file);
    for (index, byte) in file.iter().enumerate().take(35) {
        for other in [byte.wrapping_add(1), byte.wrapping_sub(1), byte ^ 128] {
            say_all(trace, &format!("Q {index} {other}|R"));
        }
        trace.say(format!("Q {index} {byte}"));
    }
    lay(trace, &[&file[..31], &file[33..]].concat());
    say_all(trace, "R|Q 10 2|R|Q 18 18|R|T|T|T");
}

fn unreadable_lines_for_files(trace: &mut Trace) {
    say_all(trace, TWO_WAIT);
    say_all(trace, "B 49|W");
    for line in UNREADABLE_FOR_FILES.split(|&byte| byte == b'|') {
        trace.write(line, b"\n");
    }
    say_all(trace, "W|R");
}
