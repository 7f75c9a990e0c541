//! Calls on plain rows, and rows that were altered: every word, lengths, and rows that no calls lead
//! to. After an alteration all operations are called; what is no row is then put back.

use super::damage::put_all;
use super::keys::{clustered_keys, neighbour, some_settings};
use super::Trace;
use crate::replay::State;
use crate::row::{row, row_length, At, Row, BEFORE_PLACES, PLACE};
use crate::row_replay;
use crate::settings::Settings;

/// Lines that are not readable, or are lines of the other replays.
pub const UNREADABLE: &[u8] =
    b"| |T | T|T\r|T\0|t|s|TT|T 1|S 0|X|F|F |F  1|F 1 |F 1 2|f 1|F 01|F 00|\
    F +1|F -1|F 1.0|F 0x1|F 4294967296|F 18446744073709551617|A|A 1 1|A 4294967296|N|N 1|N 1 2 3|\
    N 1  2|N 1\t2|N 1 4294967296|N 4294967296 1|P|P 1|P 1 1 1|P 4294967296 1|P 1 4294967296|L|L 01|\
    L 155671|L 4294967296|U 2 15 8|U 2 15 8 155671|U 2 15 8 26 0|U 2 15 8 026|U 2 15 4294967296 26|\
    F \xC3\xA9 \xFF|G|W|R|B 0|H 00|Q 0 0|O 0|K 32|C 0|X 0 0";

/// What is called while a mood lasts; a call is as frequent as its letter. Inserts: `i`, `u` at or
/// below the position, `r` of a dead key. Finds: `f`, `n` near a standing key. `a` finish, `t` take,
/// `s` sweep, `e` any of a key at the end of its range or past it.
const MOODS: [&str; 6] = ["iiiifna", "iiiurfnattse", "ttttfi", "rruuttn", "iiittsr", "uuutttsiii"];

pub fn run_line(state: &mut State, fields: &[&str]) -> Option<()> {
    row_replay::run(&mut state.words, &row_replay::parse(fields)?);
    Some(())
}

/// The traces of other seeds may stand before this one, so it first says what it begins with.
pub fn rows(trace: &mut Trace) {
    trace.other = Some(run_line);
    trace.say("L 0");
    while trace.goes_on() {
        let keys = begin(trace);
        for _ in 0..trace.dice.between(4, 16) {
            scene(trace, &keys);
        }
    }
}

pub fn make_row(trace: &mut Trace, settings: &Settings) {
    let Settings { dimensions, largest_key, cells, .. } = settings;
    trace.say(format!("U {dimensions} {largest_key} {cells} {}", row_length(*cells)));
}

/// A fresh row, and the keys that will be used on it: mostly more than it has room for. At times a
/// set up that is refused comes before.
fn begin(trace: &mut Trace) -> Vec<u32> {
    let most_cells = trace.dice.pick(&[4, 8, 16, 40]);
    let settings = some_settings(&mut trace.dice, most_cells);
    if trace.dice.one_in(3) {
        let (d, c, length) = (settings.dimensions, settings.cells, row_length(settings.cells));
        let longer = length + trace.dice.below(4) * PLACE;
        let line = match trace.dice.below(5) {
            0 => format!("U {} 15 {c} {length}", trace.dice.pick(&[0, 1, 17])),
            1 => format!("U {d} 0 {c} {length}"),
            2 => format!("U {d} 15 {} {length}", trace.dice.pick(&[0, 1, 2, 262_145])),
            3 => format!("U {d} 15 {c} {}", trace.dice.below(length)),
            _ => format!("U {d} 15 {c} {}", longer + 1),
        };
        trace.say(line);
        every_operation(trace, &[1]);
    }
    make_row(trace, &settings);
    let many = trace.dice.between(2, 2 * settings.cells as u32) as usize;
    clustered_keys(&mut trace.dice, &settings, many)
}

fn scene(trace: &mut Trace, keys: &[u32]) {
    let Some(at_hand) = row(&trace.state.words) else {
        return; // The trace ended before the row was put back.
    };
    let kept = trace.state.words.clone();
    match trace.dice.below(12) {
        0..=4 => return mood(trace, keys),
        5..=8 => {
            for _ in 0..trace.dice.pick(&[1, 1, 1, 1, 2, 3]) {
                alter_word(trace, &at_hand, keys);
            }
        }
        9 => tell_another(trace, at_hand, keys),
        10 => change_length(trace),
        _ => unreadable(trace),
    }
    every_operation(trace, keys);
    if row(&trace.state.words).is_none() {
        put_all(trace, &kept, |_| false);
    }
}

fn mood(trace: &mut Trace, keys: &[u32]) {
    let letters = trace.dice.pick(&MOODS);
    for _ in 0..trace.dice.between(3, 30) {
        let Some(at_hand) = row(&trace.state.words).filter(|_| trace.goes_on()) else {
            return;
        };
        let letter = trace.dice.pick(letters.as_bytes());
        let key = some_key(trace, &at_hand, keys, letter);
        let value = trace.dice.any_size();
        let kind = if letter == b'e' { trace.dice.pick(b"ifa") } else { letter };
        trace.say(match kind {
            b't' => "T".to_string(),
            b's' => "S".to_string(),
            b'f' | b'n' => format!("F {key}"),
            b'a' => format!("A {key}"),
            _ => format!("N {key} {value}"),
        });
    }
}

/// One of the keys as the letter says, or any if there is none such.
fn some_key(trace: &mut Trace, at_hand: &Row, keys: &[u32], letter: u8) -> u32 {
    let dice = &mut trace.dice;
    let largest = at_hand.settings.largest_key;
    let standing = || at_hand.standing.keys().copied();
    let wanted: Vec<u32> = match letter {
        b'r' => standing().filter(|key| at_hand.standing[key] == At::Dead).collect(),
        b'u' => {
            let late = keys.iter().copied().chain(standing());
            late.filter(|&key| key <= at_hand.position).collect()
        }
        b'n' => standing().map(|key| neighbour(dice, &at_hand.settings, key)).collect(),
        b'e' => vec![0, 1, largest, largest.saturating_add(1), u32::MAX],
        b'i' if !dice.one_in(4) => {
            keys.iter().copied().filter(|key| !at_hand.standing.contains_key(key)).collect()
        }
        _ => Vec::new(),
    };
    dice.pick(if wanted.is_empty() { keys } else { &wanted })
}

fn every_operation(trace: &mut Trace, keys: &[u32]) {
    let dice = &mut trace.dice;
    // Key 0 is refused 4 by a row and 3 by any other words.
    let find = if dice.one_in(8) { 0 } else { dice.pick(keys) };
    let mut lines = [
        format!("N {} {}", dice.pick(keys), dice.any_size()),
        format!("F {find}"),
        format!("A {}", dice.pick(keys)),
        "T".to_string(),
        "S".to_string(),
    ];
    dice.shuffle(&mut lines);
    lines.iter().for_each(|line| trace.say(line));
}

/// Any word; those before the places, those of keys and those just behind them more often.
fn alter_word(trace: &mut Trace, at_hand: &Row, keys: &[u32]) {
    let used = BEFORE_PLACES + PLACE * at_hand.standing.len();
    let length = trace.state.words.len();
    let dice = &mut trace.dice;
    let index = match dice.below(4) {
        0 => dice.below(BEFORE_PLACES),
        1 => dice.below(used),
        2 => used.saturating_sub(PLACE) + dice.below(2 * PLACE),
        _ => dice.below(length),
    };
    let index = index.min(length - 1);
    let value = some_value(trace, at_hand, keys, index);
    trace.say(format!("P {index} {value}"));
}

/// Near the old value, at the end of a range, or from elsewhere in the row.
fn some_value(trace: &mut Trace, at_hand: &Row, keys: &[u32], index: usize) -> u32 {
    let words = &trace.state.words;
    let old = words[index];
    let dice = &mut trace.dice;
    let elsewhere = words[dice.below(words.len())];
    let greatest = at_hand.standing.keys().next_back().copied().unwrap_or(1);
    let count = at_hand.standing.len() as u32;
    match dice.below(12) {
        0 | 1 => old.wrapping_add(1),
        2 | 3 => old.wrapping_sub(1),
        4 => dice.between(0, 3),
        5 => dice.pick(&[count, count + 1, at_hand.settings.cells as u32]),
        6 => dice.pick(&[greatest, greatest - 1, greatest.saturating_add(1)]),
        7 => dice.pick(&[u32::MAX, old ^ 0x8000_0000, old ^ 0x0001_0000, 262_144, 262_145]),
        8 => dice.pick(keys),
        9 => at_hand.position,
        _ => elsewhere,
    }
}

/// An altered row is written: one that no calls lead to, or one that breaks a single sentence.
fn tell_another(trace: &mut Trace, mut told: Row, keys: &[u32]) {
    for _ in 0..trace.dice.between(1, 3) {
        let standing: Vec<u32> = told.standing.keys().copied().chain([0]).collect();
        let key = trace.dice.pick(&standing);
        let value = trace.dice.any_size();
        match trace.dice.below(6) {
            0 | 1 => told.position = key,
            2 if key != 0 => _ = told.standing.insert(key, At::Dead),
            3 if key != 0 => _ = told.standing.insert(key, At::Live(value)),
            4 => _ = told.standing.remove(&key),
            _ if told.standing.len() < told.settings.cells - 1 => {
                _ = told.standing.insert(trace.dice.pick(keys), At::Live(value));
            }
            _ => {}
        }
    }
    let words = told.words();
    put_all(trace, &words, |_| false);
}

/// Words or places more or fewer, with or without C saying so, or hardly a word left.
fn change_length(trace: &mut Trace) {
    let (length, c) = (trace.state.words.len(), trace.state.words[2]);
    let (changed, cells) = match trace.dice.below(6) {
        0 => (length - 1, c),
        1 => (length + 1, c),
        2 => (trace.dice.below(8), c),
        3 | 4 => (length + PLACE, c + 1),
        _ => (length - PLACE, c - 1),
    };
    trace.say(format!("L {changed}"));
    if trace.dice.one_in(2) {
        trace.say(format!("P 2 {cells}"));
    }
}

fn unreadable(trace: &mut Trace) {
    let lines: Vec<&[u8]> = UNREADABLE.split(|&byte| byte == b'|').collect();
    let line = trace.dice.pick(&lines);
    trace.write(line, b"\n");
}
