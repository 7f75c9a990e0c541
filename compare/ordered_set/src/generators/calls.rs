//! Calls on small lists: clustered keys, revived keys, late urgent ones, full buffers, sweeps
//! amid debts, finishes, and finds of absent keys near present ones.

use super::keys::{clustered_keys, neighbour, some_settings};
use super::late::late_note;
use super::Trace;
use crate::model::{Mark, Model, Standing};

/// What is called while a mood lasts, stage after stage; a call is as frequent as its letter.
/// Inserts: `i`, `u` at or below the position (urgent) and at times a take at once, `r` of a
/// dead key (revived). Finds: `f`, `n` near a standing key. Finishes: `a`, `o` of an owing key.
/// `t` take, `s` sweep, `e` any of a key at the end of its range or past it.
const MOODS: &[&[&str]] = &[
    &["iiiifna"],
    &["iiiifna"],
    &["iiiurfnaottse"],
    &["tttfio"],
    &["rruuttn"],
    &["iiittsr"],
    &LATE,
    &LATE,
];

/// Notes come and are taken; then urgent ones come late, with dead keys below them.
const LATE: [&str; 3] = ["iiis", "tttttf", "uuuut"];

pub fn calls(trace: &mut Trace) {
    while trace.goes_on() {
        let keys = begin(trace, 40);
        for _ in 0..trace.dice.between(2, 10) {
            mood(trace, &keys, 40);
        }
    }
}

/// A fresh list, and the keys that will be used on it: mostly more than it has cells.
pub fn begin(trace: &mut Trace, most_cells: u32) -> Vec<u32> {
    let settings = some_settings(&mut trace.dice, most_cells);
    let many = trace.dice.between(2, 2 * settings.cells as u32) as usize;
    trace.make(&settings);
    clustered_keys(&mut trace.dice, &settings, many)
}

pub fn mood(trace: &mut Trace, keys: &[u32], most_calls: u32) {
    let stages = trace.dice.pick(MOODS);
    for letters in stages {
        stage(trace, keys, letters.as_bytes(), most_calls / stages.len() as u32);
    }
}

fn stage(trace: &mut Trace, keys: &[u32], letters: &[u8], most_calls: u32) {
    for _ in 0..trace.dice.between(3, most_calls.max(3)) {
        // The trace may end while the buffer is altered, and then there is no list.
        let Some(model) = trace.list().filter(|_| trace.goes_on()) else {
            return;
        };
        let letter = trace.dice.pick(letters);
        if letter == b'u' {
            late_note(trace);
            continue;
        }
        let key = some_key(trace, &model, keys, letter);
        let value = trace.dice.any_size();
        let kind = if letter == b'e' { trace.dice.pick(b"ifa") } else { letter };
        trace.say(match kind {
            b't' => "T".to_string(),
            b's' => "S".to_string(),
            b'f' | b'n' => format!("F {key}"),
            b'a' | b'o' => format!("A {key}"),
            _ => format!("N {key} {value}"),
        });
    }
}

/// One of the keys as the letter says, or any of the list's own if there is none such.
fn some_key(trace: &mut Trace, model: &Model, keys: &[u32], letter: u8) -> u32 {
    let dice = &mut trace.dice;
    let standing = |wanted: fn(&Standing) -> bool| {
        let above_head = model.standing.range(1..);
        above_head.filter(|(_, at)| wanted(at)).map(|(&key, _)| key).collect::<Vec<u32>>()
    };
    let largest = model.settings.largest_key;
    let mut wanted: Vec<u32> = match letter {
        b'r' => standing(|at| at.mark == Mark::Dead),
        b'o' => standing(|at| at.owes),
        b'n' => standing(|_| true),
        b'e' => vec![0, 1, largest, largest.saturating_add(1), u32::MAX],
        b'i' if !dice.one_in(4) => {
            keys.iter().copied().filter(|key| !model.standing.contains_key(key)).collect()
        }
        _ => Vec::new(),
    };
    if wanted.is_empty() {
        wanted = keys.to_vec();
    }
    let key = dice.pick(&wanted);
    if letter == b'n' {
        neighbour(dice, &model.settings, key)
    } else {
        key
    }
}
