//! Lists written to files and read back: into room enough and too little, into the same words,
//! other ones, damaged ones and other lengths; and files altered, cut, extended and reordered.

use super::calls::mood;
use super::damage::alter_words;
use super::file_forms::{altered, Form};
use super::keys::{clustered_keys, some_settings};
use super::records::{append, lay};
use super::Trace;
use crate::files::Kept;
use crate::model::Model;
use crate::replay::MOST_WORDS;
use crate::settings::{cells_within, exact_length, Settings};

/// Lines near W and R that are not readable.
pub const UNREADABLE: &[u8] = b"W |W 0| W|WW|w|W\r|W\0|R |R 0| R|RR|r|R\r|R\0|WR|W R|R W";

pub fn files(trace: &mut Trace) {
    while trace.goes_on() {
        let keys = begin(trace);
        for _ in 0..trace.dice.between(3, 12) {
            scene(trace, &keys);
        }
    }
}

/// A fresh list, at times with many cells, and keys for it.
fn begin(trace: &mut Trace) -> Vec<u32> {
    let most_cells = trace.dice.pick(&[6, 24, 24, 60]);
    let settings = match trace.dice.below(16) {
        0 => Settings::new(trace.dice.pick(&[2, 8, 16]), u32::MAX, trace.dice.between(4000, 4200)),
        _ => Some(some_settings(&mut trace.dice, most_cells)),
    };
    let settings = settings.expect("settings in range");
    trace.make(&settings);
    let many = trace.dice.between(2, 2 * settings.cells.min(40) as u32) as usize;
    let keys = clustered_keys(&mut trace.dice, &settings, many);
    mood(trace, &keys, 20);
    keys
}

fn scene(trace: &mut Trace, keys: &[u32]) {
    let Some(model) = trace.list() else {
        return read_anew(trace);
    };
    match trace.dice.below(16) {
        0..=2 => write_into_rooms(trace, &model),
        3..=5 => over_a_restart(trace, &model),
        6 | 7 => altered_bytes(trace, &model),
        8..=12 => altered_form(trace, &model, keys),
        13 => damaged(trace, &model),
        14 => unreadable(trace),
        _ => read_anew(trace),
    }
    let calls = trace.dice.pick(&[4, 8, 16]);
    mood(trace, keys, calls);
}

/// How many bytes the list's file has.
fn file_length(model: &Model) -> usize {
    Kept::of(model).file().len()
}

/// Writes the list into bytes of exactly its file's length.
fn write_exactly(trace: &mut Trace, model: &Model) {
    trace.say(format!("B {}", file_length(model)));
    trace.say("W");
}

/// Enough, exactly enough, one too few, none; and bytes that hold a file, which a shorter one is
/// then written over.
pub fn write_into_rooms(trace: &mut Trace, model: &Model) {
    let exact = file_length(model);
    for _ in 0..trace.dice.between(1, 4) {
        let more = trace.dice.below(60);
        let room = trace.dice.pick(&[exact, exact, exact - 1, exact + 1, exact + more, 0, 32, 33]);
        trace.say(format!("B {room}"));
        trace.say("W");
        if trace.dice.one_in(2) {
            trace.say("R");
        }
    }
    if trace.dice.one_in(3) {
        write_exactly(trace, model);
        for _ in 0..trace.dice.between(1, 3) {
            trace.say("T");
        }
        trace.say("W");
        trace.say("R");
    }
}

/// The list is written, the words become others, and the file is read into them.
pub fn over_a_restart(trace: &mut Trace, model: &Model) {
    write_exactly(trace, model);
    let exact = model.settings.length();
    match trace.dice.below(8) {
        0 => (),
        1 => alter_words(trace, model, 3),
        2 => {
            let length = trace.dice.pick(&[0, 5, exact - 1, exact + 1]);
            trace.say(format!("L {length}"));
        }
        3 => {
            let other = some_settings(&mut trace.dice, 24);
            trace.make(&other);
        }
        // set up is refused, and leaves the words of a new buffer
        4 => trace.say(format!("U 0 0 0 {exact}")),
        5 => trace.say("L 0"),
        6 => {
            if let Some((d, c)) = other_of_length(&model.settings) {
                trace.say(format!("U {d} 4294967295 {c} {exact}"));
            }
        }
        _ => (0..trace.dice.between(1, 9)).for_each(|_| trace.say("T")),
    }
    trace.say("R");
    if trace.state.words.len() != exact {
        trace.say(format!("L {exact}"));
        trace.say("R");
    }
}

/// Another D, with the C that asks for the same length, if there is one.
fn other_of_length(settings: &Settings) -> Option<(usize, usize)> {
    let others = (2..=16).filter(|&d| d != settings.dimensions);
    let mut both = others.map(|d| (d, cells_within(d, settings.length())));
    both.find(|&(d, c)| c >= 3 && exact_length(d, c) == settings.length())
}

/// Single bytes of a file are others, then the old ones again: in front of the pairs as often as
/// among them. The one past the end is none.
fn altered_bytes(trace: &mut Trace, model: &Model) {
    write_exactly(trace, model);
    let file = trace.state.bytes.clone();
    for _ in 0..trace.dice.between(2, 8) {
        let dice = &mut trace.dice;
        let many = dice.pick(&[33, file.len() + 1]);
        let index = dice.below(many);
        let old = file.get(index).copied().unwrap_or(0);
        let any = dice.between(0, 255) as u8;
        let bit = 1 << dice.between(0, 7);
        let byte = dice.pick(&[old.wrapping_add(1), old.wrapping_sub(1), old ^ bit, 0, 255, any]);
        trace.say(format!("Q {index} {byte}"));
        trace.say("R");
        trace.say(format!("Q {index} {old}"));
    }
    match trace.dice.below(4) {
        0 => append(trace, &[0]),
        1 => trace.say(format!("B {}", file.len())),
        _ => (),
    }
    trace.say("R");
}

/// A file for this list or one like it, with something altered; mostly the words have the length
/// that it asks for.
pub fn altered_form(trace: &mut Trace, model: &Model, keys: &[u32]) {
    let form = some_form(trace, &model.settings, keys);
    for _ in 0..trace.dice.between(1, 3) {
        let bytes = altered(&mut trace.dice, &form);
        lay(trace, &bytes);
        make_length(trace, &bytes);
        trace.say("R");
    }
    if trace.dice.one_in(3) {
        let room = trace.dice.between(33, 200);
        trace.say(format!("B {room}"));
        trace.say("W");
    }
}

/// Keeps the keys at hand or some of them, and values.
fn some_form(trace: &mut Trace, settings: &Settings, keys: &[u32]) -> Form {
    let mut keys: Vec<u32> = keys.to_vec();
    let most = settings.cells - 1;
    trace.dice.shuffle(&mut keys);
    let least = if trace.dice.one_in(3) { most } else { 0 };
    keys.truncate(trace.dice.between(least as u32, most as u32) as usize);
    keys.truncate(trace.dice.pick(&[2, 8, 60]));
    keys.sort_unstable();
    keys.dedup();
    let pairs: Vec<(u32, u32)> = keys.iter().map(|&key| (key, trace.dice.any_size())).collect();
    let Settings { dimensions, largest_key, cells, .. } = *settings;
    Form::new([dimensions as u32, largest_key, cells as u32], &pairs)
}

/// The words get the length that the bytes' D and C ask for, if there can be so many; at times
/// one more or fewer, or they are left as they are.
fn make_length(trace: &mut Trace, bytes: &[u8]) {
    let number = |at: usize| {
        let four = bytes.get(at..)?.first_chunk()?;
        Some(u64::from(u32::from_be_bytes(*four)))
    };
    let (Some(d), Some(c)) = (number(19), number(27)) else {
        return;
    };
    let wanted = 5 + d + c.saturating_mul(6 + d);
    if wanted + 1 > u64::from(MOST_WORDS) || trace.dice.one_in(4) {
        return;
    }
    let length = trace.dice.pick(&[wanted, wanted, wanted, wanted, wanted - 1, wanted + 1]);
    if length != trace.state.words.len() as u64 {
        trace.say(format!("L {length}"));
    }
}

/// A file for other settings, into whatever the words are.
fn read_anew(trace: &mut Trace) {
    let most_cells = trace.dice.pick(&[6, 24]);
    let settings = some_settings(&mut trace.dice, most_cells);
    let keys = clustered_keys(&mut trace.dice, &settings, 2 * settings.cells);
    let form = some_form(trace, &settings, &keys);
    lay(trace, &form.bytes());
    if trace.state.words.len() != settings.length() {
        trace.say("R");
        trace.say(format!("L {}", settings.length()));
    }
    trace.say("R");
    if trace.dice.one_in(2) {
        trace.say("W");
    }
    mood(trace, &keys, 12);
}

/// Words that are no list any more, mostly: with room and without.
fn damaged(trace: &mut Trace, model: &Model) {
    let exact = file_length(model);
    let room = exact + trace.dice.below(3);
    trace.say(format!("B {room}"));
    match trace.dice.below(4) {
        0 => trace.say(format!("L {}", trace.state.words.len() + 1)),
        1 => trace.say("L 0"),
        _ => alter_words(trace, model, 1),
    }
    trace.say("W");
    trace.say("R");
    if trace.dice.one_in(2) {
        let room = trace.dice.pick(&[0, 32, exact - 1]);
        trace.say(format!("B {room}"));
        trace.say("W");
    }
}

fn unreadable(trace: &mut Trace) {
    let lines: Vec<&[u8]> = UNREADABLE.split(|&byte| byte == b'|').collect();
    let line = trace.dice.pick(&lines);
    trace.write(line, b"\n");
}
