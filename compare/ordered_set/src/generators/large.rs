//! Calls on large lists: filled, taken from, inserted into at or below the position, swept and
//! filled again. A list is filled whole where the lines left allow it.

use super::keys::{clustered_keys, neighbour};
use super::late::late_note;
use super::Trace;
use crate::replay::most_cells;
use crate::settings::Settings;

/// The first list has 4,096 cells, one more, or as many as a trace can have words for.
pub fn large(trace: &mut Trace) {
    let dimensions = some_dimensions(trace);
    let cells = trace.dice.pick(&[4096, 4097, most_cells(dimensions as usize) as u32]);
    season(trace, dimensions, cells);
    while trace.goes_on() {
        let dimensions = some_dimensions(trace);
        let most = (trace.left / 4).clamp(64, most_cells(dimensions as usize)) as u32;
        let cells = trace.dice.between(most / 2, most);
        season(trace, dimensions, cells);
    }
}

fn some_dimensions(trace: &mut Trace) -> u32 {
    trace.dice.pick(&[2, 2, 3, 4, 8, 15, 16])
}

fn season(trace: &mut Trace, dimensions: u32, cells: u32) {
    let largest_key = trace.dice.pick(&[u32::MAX, 1_048_575, 9_999]);
    let settings = Settings::new(dimensions, largest_key, cells).expect("settings in range");
    trace.make(&settings);
    let keys = many_keys(trace, &settings);
    let part = (trace.left / 4).clamp(20, settings.cells + settings.cells / 8);
    insert_all(trace, &keys[..part.min(keys.len())]);
    take_and_ask(trace, &settings, &keys, part / 3);
    late_notes(trace, part / 6);
    trace.say("S");
    let from = trace.dice.below(keys.len());
    insert_all(trace, &keys[from..keys.len().min(from + part / 2)]);
    take_and_ask(trace, &settings, &keys, part / 4);
    late_notes(trace, part / 6);
    trace.say("S");
    trace.say("S");
}

/// More keys than cells: clusters, or numbers in a row, or any; in some order.
fn many_keys(trace: &mut Trace, settings: &Settings) -> Vec<u32> {
    let dice = &mut trace.dice;
    let many = settings.cells + settings.cells / 8;
    let mut keys: Vec<u32> = match dice.below(3) {
        0 => clustered_keys(dice, settings, many),
        1 => (1..=settings.largest_key.min(many as u32)).collect(),
        _ => (0..many).map(|_| dice.between(1, settings.largest_key)).collect(),
    };
    keys.sort_unstable();
    keys.dedup();
    match dice.below(3) {
        0 => (),
        1 => keys.reverse(),
        _ => dice.shuffle(&mut keys),
    }
    keys
}

fn insert_all(trace: &mut Trace, keys: &[u32]) {
    for key in keys {
        let value = trace.dice.any_size();
        trace.say(format!("N {key} {value}"));
    }
}

fn take_and_ask(trace: &mut Trace, settings: &Settings, keys: &[u32], many: usize) {
    for _ in 0..many {
        let dice = &mut trace.dice;
        let key = dice.pick(keys);
        let near = neighbour(dice, settings, key);
        let line = match dice.below(10) {
            0..=4 => "T".to_string(),
            5 => format!("F {key}"),
            6 => format!("F {near}"),
            7 => format!("A {key}"),
            _ => format!("N {} {}", dice.pick(&[key, near]), dice.word()),
        };
        trace.say(line);
    }
}

/// Takes in a row, so that many dead keys are left behind, and then notes that come late.
fn late_notes(trace: &mut Trace, many: usize) {
    (0..many).for_each(|_| trace.say("T"));
    (0..many).for_each(|_| late_note(trace));
}
