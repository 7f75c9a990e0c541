//! Calls with a class record beside the list: keys of every class, each word of the record and its
//! length altered, lists altered under the record, records of the logger and files between, and
//! questions about classes.

use super::calls::mood;
use super::damage::{alter_words, draw_another, put_all};
use super::dice::Dice;
use super::files::{altered_form, over_a_restart, write_into_rooms};
use super::keys::{clustered_keys, some_settings};
use super::order_lines::some_entry;
use super::records::{hand_over, key_of};
use super::Trace;
use crate::classes::{full_reading, CLASS_WORDS};
use crate::counted::MOST_CLASS_WORDS;
use crate::model::Model;
use crate::records::NONE_YET;
use crate::settings::Settings;

/// Lines for the record that are not readable.
pub const UNREADABLE: &[u8] = b"K|K |K 65|K 4294967296|K 01|K 032|K +1|K -1|K 1 1|K  1|K 1 | K 1|\
    k 1|K a|KK 1|K1|X|X |X 0|X 0 |X 0 4294967296|X 4294967296 0|X 0 00|X 00 0|X 0 -1|X 0 a|\
    X 0 0 0|X  0 0|X 0  0|x 0 0|X 0 0\r|C|C |C 4294967296|C 18446744073709551616|C 00|C 01|C -1|\
    C +1|C 1 1|C  1|C 1 | C 1|c 1|C a|C 1\r|C\0|CC 1|C1";

/// The traces of other seeds may stand before this one, so it first says what it begins with.
pub fn counted(trace: &mut Trace) {
    trace.classes = Some(Vec::new());
    say_each(trace, &["K 0", "L 0", "B 0", &format!("O {NONE_YET}")]);
    while trace.goes_on() {
        let entries: Vec<String> = (0..12).map(|_| some_entry(trace)).collect();
        let keys = begin(trace, &entries);
        for _ in 0..trace.dice.between(4, 16) {
            scene(trace, &entries, &keys);
        }
    }
}

/// A fresh pair, mostly for keys of every class, and the keys that will be used on it. At times
/// the first set up finds a record of another length.
fn begin(trace: &mut Trace, entries: &[String]) -> Vec<u32> {
    let most_cells = trace.dice.pick(&[4, 12, 24, 40]);
    let settings = match trace.dice.below(4) {
        0 => some_settings(&mut trace.dice, most_cells),
        _ => {
            let (d, c) =
                (trace.dice.pick(&[2, 4, 8, 8, 15, 16]), trace.dice.between(3, most_cells));
            Settings::new(d, u32::MAX, c).expect("settings in range")
        }
    };
    if trace.dice.one_in(4) {
        some_length(trace);
        trace.make(&settings);
    }
    trace.say("K 32");
    trace.make(&settings);
    let many = trace.dice.between(2, 2 * settings.cells as u32) as usize;
    if settings.largest_key < u32::MAX {
        return clustered_keys(&mut trace.dice, &settings, many);
    }
    let mut keys: Vec<u32> = entries.iter().map(|entry| key_of(entry)).collect();
    keys.extend((0..many).map(|_| some_key_of_a_class(&mut trace.dice)));
    keys.retain(|&key| key != 0);
    keys
}

/// At the ends of a class, near them, or any of it.
fn some_key_of_a_class(dice: &mut Dice) -> u32 {
    let least = dice.between(0, 15) << 28;
    match dice.below(4) {
        0 => least,
        1 => least | 0x0fff_ffff,
        2 => (least | 0x0fff_ffff) - dice.between(0, 3),
        _ => least + dice.between(0, 0x0fff_ffff),
    }
}

fn scene(trace: &mut Trace, entries: &[String], keys: &[u32]) {
    if !trace.dice.one_in(6) {
        mend(trace);
    }
    let Some(model) = trace.list() else {
        return read_or_set_up(trace);
    };
    match trace.dice.below(20) {
        0..=4 => mood(trace, keys, 12),
        5..=8 => altered_record(trace, keys),
        9 | 10 => other_length(trace, keys),
        11 | 12 => altered_list(trace, &model, keys),
        13 | 14 => other_list(trace, model, keys),
        15 | 16 => logged(trace, entries),
        17 | 18 => kept_in_a_file(trace, &model, keys),
        _ => unreadable(trace),
    }
    questions(trace);
}

/// The record as a full reading of the list gives it, if there is one.
fn mend(trace: &mut Trace) {
    if let Some(model) = trace.list() {
        put_record(trace, &full_reading(&model));
    }
}

/// Writes every word that differs.
pub fn put_record(trace: &mut Trace, wanted: &[u32]) {
    if at_hand(trace).len() != wanted.len() {
        trace.say(format!("K {}", wanted.len()));
    }
    let differs = |(index, word): &(usize, &u32)| at_hand(trace).get(*index) != Some(*word);
    let lines: Vec<String> = wanted
        .iter()
        .enumerate()
        .filter(differs)
        .map(|(i, word)| format!("X {i} {word}"))
        .collect();
    lines.iter().for_each(|line| trace.say(line));
}

/// The class record's words.
pub fn at_hand<'a>(trace: &'a Trace) -> &'a [u32] {
    trace.classes.as_deref().unwrap_or_default()
}

/// One question, at times two.
fn questions(trace: &mut Trace) {
    for _ in 0..trace.dice.between(1, 2) {
        let dice = &mut trace.dice;
        let class = match dice.below(8) {
            0 => 16,
            1 => dice.pick(&[17, 31, 32, 256, 268_435_456, 1 << 31, 1 << 28 | 1, u32::MAX]),
            _ => dice.between(0, 15),
        };
        trace.say(format!("C {class}"));
    }
}

/// Every call that a record may refuse by 15, in some order; none alters list or record if it is
/// refused.
fn every_call(trace: &mut Trace, keys: &[u32]) {
    let dice = &mut trace.dice;
    // 15 comes before 4
    let find = if dice.one_in(4) { 0 } else { dice.pick(keys) };
    let mut lines = [
        format!("N {} {}", dice.pick(keys), dice.any_size()),
        format!("F {find}"),
        format!("A {}", dice.pick(keys)),
        "T".to_string(),
        "S".to_string(),
        "W".to_string(),
        "G".to_string(),
    ];
    dice.shuffle(&mut lines);
    let many = dice.between(2, 7) as usize;
    lines[..many].iter().for_each(|line| trace.say(line));
}

/// One word of the record is another, or several are: then the calls, and the old words again. At
/// times the record is written anew by a read or a set up.
fn altered_record(trace: &mut Trace, keys: &[u32]) {
    let kept = at_hand(trace).to_vec();
    if kept.len() != CLASS_WORDS {
        return every_call(trace, keys);
    }
    let index = trace.dice.below(CLASS_WORDS);
    let other = trace.dice.below(CLASS_WORDS);
    match trace.dice.below(8) {
        0 => exchange(trace, index, other),
        // a count and its key, and one class and the next
        1 => exchange(trace, index, index ^ 1),
        2 => exchange(trace, index, index ^ 2),
        _ => {
            let dice = &mut trace.dice;
            let old = kept[index];
            let key = dice.pick(keys);
            let value = match dice.below(8) {
                0..=2 => old.wrapping_add(1),
                3 | 4 => old.wrapping_sub(1),
                5 => kept[other],
                6 => key,
                _ => dice.pick(&[0, u32::MAX, old ^ 1 << 31]),
            };
            trace.say(format!("X {index} {value}"));
        }
    }
    trace.say(format!("C {}", index / 2));
    every_call(trace, keys);
    if trace.dice.one_in(8) {
        let past = trace.dice.pick(&[32, 33, 64, u32::MAX]);
        trace.say(format!("X {past} 7"));
    }
    put_record(trace, &kept);
    trace.say("F 1");
}

fn exchange(trace: &mut Trace, one: usize, other: usize) {
    let (at_one, at_other) = (at_hand(trace)[one], at_hand(trace)[other]);
    trace.say(format!("X {one} {at_other}"));
    trace.say(format!("X {other} {at_one}"));
}

/// Some word becomes any.
fn spoil(trace: &mut Trace) {
    let (index, value) = (trace.dice.below(CLASS_WORDS), trace.dice.any_size());
    trace.say(format!("X {index} {value}"));
}

fn some_length(trace: &mut Trace) {
    let any = trace.dice.between(0, MOST_CLASS_WORDS);
    let length = trace.dice.pick(&[0, 1, 16, 31, 31, 33, 33, 64, any, any]);
    trace.say(format!("K {length}"));
}

/// The record is shorter or longer: the calls, a set up, a read. Mended, they are accepted.
fn other_length(trace: &mut Trace, keys: &[u32]) {
    let kept = at_hand(trace).to_vec();
    some_length(trace);
    questions(trace);
    every_call(trace, keys);
    match trace.dice.below(4) {
        0 => read_or_set_up(trace),
        1 => trace.say("R"),
        _ => (),
    }
    put_record(trace, &kept);
    every_call(trace, keys);
}

/// Words of the list are others, beside a record that is right, damaged or of another length. What
/// is no list is 3, whatever the record is; what is one still mostly has the same record.
fn altered_list(trace: &mut Trace, model: &Model, keys: &[u32]) {
    let (words, classes) = (trace.state.words.clone(), at_hand(trace).to_vec());
    match trace.dice.below(4) {
        0 => trace.say(format!("L {}", words.len() + 1)),
        1 => trace.say(format!("L {}", words.len() - 1)),
        _ => alter_words(trace, model, 1),
    }
    match trace.dice.below(4) {
        0 => some_length(trace),
        1 => spoil(trace),
        _ => (),
    }
    every_call(trace, keys);
    if trace.list().is_none() {
        put_all(trace, &words, |_| false);
    }
    put_record(trace, &classes);
    trace.say("T");
}

/// Another list is drawn under the record: keys live, dead or of another class. Then the record is
/// made to fit.
fn other_list(trace: &mut Trace, model: Model, keys: &[u32]) {
    let kept = trace.state.words.clone();
    draw_another(trace, model);
    every_call(trace, keys);
    if trace.list().is_none() {
        return put_all(trace, &kept, |_| false);
    }
    mend(trace);
    every_call(trace, keys);
}

/// Records of the logger, good and broken, with a record of classes that is right or damaged.
fn logged(trace: &mut Trace, entries: &[String]) {
    let kept = at_hand(trace).to_vec();
    for _ in 0..trace.dice.between(1, 3) {
        let entry = &entries[trace.dice.below(entries.len())];
        let is_good = !trace.dice.one_in(3);
        if trace.dice.one_in(4) {
            let end = trace.dice.pick(&[0, 1, 32_768, NONE_YET - 1, NONE_YET]);
            trace.say(format!("O {end}"));
        }
        hand_over(trace, entry, is_good);
        if trace.dice.one_in(3) && kept.len() == CLASS_WORDS {
            let right = at_hand(trace).to_vec();
            spoil(trace);
            trace.say("G");
            put_record(trace, &right);
        }
    }
}

/// Written and read back, with the record right, damaged and of another length.
fn kept_in_a_file(trace: &mut Trace, model: &Model, keys: &[u32]) {
    match trace.dice.below(5) {
        0 => write_into_rooms(trace, model),
        1 => altered_form(trace, model, keys),
        _ => over_a_restart(trace, model),
    }
    match trace.dice.below(4) {
        0 => some_length(trace),
        1 => spoil(trace),
        _ => (),
    }
    say_each(trace, &["R", "T"]);
    if trace.dice.one_in(2) {
        trace.say("K 32");
        trace.say("R");
    }
}

fn say_each(trace: &mut Trace, lines: &[&str]) {
    lines.iter().for_each(|line| trace.say(line));
}

/// A list again where there is none: by a set up, with settings in range or not, or by the bytes at
/// hand.
fn read_or_set_up(trace: &mut Trace) {
    if trace.dice.one_in(3) {
        trace.say("R");
        return;
    }
    let settings = some_settings(&mut trace.dice, 24);
    match trace.dice.below(4) {
        0 => trace.say(format!("U 1 15 8 {}", settings.length())),
        1 => {
            let length = trace.dice.pick(&[0, 70, 72]);
            trace.say(format!("U 2 15 8 {length}"));
        }
        _ => trace.make(&settings),
    }
}

fn unreadable(trace: &mut Trace) {
    let lines: Vec<&[u8]> = UNREADABLE.split(|&byte| byte == b'|').collect();
    let line = trace.dice.pick(&lines);
    trace.write(line, b"\n");
}
