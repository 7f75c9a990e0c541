//! Buffers that were altered: most are no list any more, some still are one that no call
//! leaves. After the alteration all operations are called; what is no list is then put back.

use super::calls::{begin, mood};
use super::retell::{retell, some_standing, stowaway};
use super::Trace;
use crate::model::Model;
use crate::picture::picture;
use crate::settings::*;

/// A drawing that differs in more words than this is not worth its lines.
const MOST_PUTS: usize = 150;

pub fn damage(trace: &mut Trace) {
    while trace.goes_on() {
        let most_cells = trace.dice.pick(&[8, 12, 24]);
        let keys = begin(trace, most_cells);
        for _ in 0..trace.dice.between(4, 12) {
            mood(trace, &keys, 12);
            for _ in 0..trace.dice.between(1, 6) {
                alter_and_call(trace, &keys);
            }
        }
    }
}

fn alter_and_call(trace: &mut Trace, keys: &[u32]) {
    let Some(model) = trace.list() else {
        return; // The trace ended before the buffer was put back.
    };
    let kept = trace.state.words.clone();
    match trace.dice.below(12) {
        0..=4 => alter_words(trace, &model, 1),
        5 => alter_words(trace, &model, 3),
        6 => swap_words(trace, &model),
        7 => change_length(trace, &model),
        _ => draw_another(trace, model),
    }
    every_operation(trace, keys);
    if trace.list().is_none() {
        put_all(trace, &kept, |_| false);
    }
}

fn every_operation(trace: &mut Trace, keys: &[u32]) {
    let dice = &mut trace.dice;
    // Key 0 is refused 4 by a list and 3 by any other buffer.
    let find = if dice.one_in(8) { 0 } else { dice.pick(keys) };
    let mut lines = [
        format!("N {} {}", dice.pick(keys), dice.any_size()),
        format!("F {find}"),
        format!("A {}", dice.pick(keys)),
        "T".to_string(),
        "S".to_string(),
    ];
    dice.shuffle(&mut lines);
    lines.iter().for_each(|line| trace.say(line));
}

/// Writes every word that differs, except the forgotten ones.
pub fn put_all(trace: &mut Trace, wanted: &[u32], mut forgotten: impl FnMut(usize) -> bool) {
    if trace.state.words.len() != wanted.len() {
        trace.say(format!("L {}", wanted.len()));
    }
    for index in differences(&trace.state.words, wanted) {
        if !forgotten(index) {
            trace.say(format!("P {index} {}", wanted[index]));
        }
    }
}

fn differences(words: &[u32], wanted: &[u32]) -> Vec<usize> {
    (0..wanted.len()).filter(|&index| words.get(index) != wanted.get(index)).collect()
}

/// Header, path, the words of a debt, and each kind of cell word.
pub fn alter_words(trace: &mut Trace, model: &Model, many: usize) {
    let settings = &model.settings;
    for _ in 0..many {
        let index = match trace.dice.below(8) {
            0 => trace.dice.below(HEADER),
            1 => settings.path_word(trace.dice.below(settings.dimensions)),
            2 | 3 if model.standing.values().any(|at| at.owes) => some_debt_word(trace, model),
            _ => settings.word(some_cell(trace, model), some_field(trace, settings)),
        };
        let value = match index {
            1 => some_largest_key(trace, model),
            _ => some_value(trace, model, index),
        };
        trace.say(format!("P {index} {value}"));
    }
}

/// The ends of what the base and the keys allow, and one past them.
fn some_largest_key(trace: &mut Trace, model: &Model) -> u32 {
    let settings = &model.settings;
    let greatest_key = model.standing.keys().next_back().copied().unwrap_or(0);
    let of_base = settings.greatest_of_base();
    let least_of_base = (settings.base - 1).pow(settings.dimensions as u32);
    trace.dice.pick(&[
        greatest_key,
        greatest_key.saturating_sub(1),
        of_base,
        of_base.saturating_add(1),
        least_of_base,
        least_of_base - 1,
    ])
}

/// One of an owing cell's three words, or a link that is owed or next to those.
fn some_debt_word(trace: &mut Trace, model: &Model) -> usize {
    let settings = &model.settings;
    let owing = model.standing.iter().filter_map(|(&n, at)| Some((at.cell, model.debt(n)?)));
    let owing: Vec<_> = owing.map(|(n, debt)| (n, debt.owed, debt.low, debt.high)).collect();
    let (n, c, low, high) = trace.dice.pick(&owing);
    let d = low + trace.dice.below(high - low + 1);
    let c = model.standing[&c].cell;
    match trace.dice.below(5) {
        0 => settings.link_word(n, d),
        1 => settings.link_word(c, d),
        _ => settings.word(n, trace.dice.pick(&[OWED, LOW, HIGH])),
    }
}

/// The head, the position, a free cell, or any.
fn some_cell(trace: &mut Trace, model: &Model) -> u32 {
    match trace.dice.below(5) {
        0 => 0,
        1 => model.standing[&model.position].cell,
        2 if !model.free.is_empty() => trace.dice.pick(&model.free),
        3 => trace.dice.below(model.settings.cells) as u32,
        _ => model.standing[&some_standing(trace, model)].cell,
    }
}

/// Each of the six words before the links, and twice as often a link.
fn some_field(trace: &mut Trace, settings: &Settings) -> usize {
    let d = trace.dice.below(settings.dimensions);
    match trace.dice.below(BEFORE_LINKS + 2) {
        field if field < BEFORE_LINKS => field,
        _ => BEFORE_LINKS + d,
    }
}

/// Near the old value, at the end of a range, or from elsewhere in the buffer.
fn some_value(trace: &mut Trace, model: &Model, index: usize) -> u32 {
    let settings = &model.settings;
    let old = trace.state.words[index];
    let cells_away = settings.cell_length() * trace.dice.below(settings.cells);
    let same_kind = trace.state.words[(index + cells_away) % trace.state.words.len()];
    let key = some_standing(trace, model);
    let dice = &mut trace.dice;
    match dice.below(12) {
        0 | 1 => old.wrapping_add(1),
        2 | 3 => old.wrapping_sub(1),
        4 => dice.between(0, 3),
        5 => dice.between(0, settings.cells as u32),
        6 => dice.pick(&[settings.base, settings.base - 1, settings.dimensions as u32]),
        7 => key,
        8 => dice.pick(&[u32::MAX, old ^ 0x8000_0000, old ^ 0x0001_0000]),
        _ => same_kind,
    }
}

/// Two links of one cell, two path words, or the same kind of word of two cells.
fn swap_words(trace: &mut Trace, model: &Model) {
    let settings = &model.settings;
    let (one, other) = (some_cell(trace, model), some_cell(trace, model));
    let field = some_field(trace, settings);
    let [d, e] = [0, 1].map(|_| trace.dice.below(settings.dimensions));
    let (x, y) = match trace.dice.below(4) {
        0 => (settings.link_word(one, d), settings.link_word(one, e)),
        1 => (settings.path_word(d), settings.path_word(e)),
        2 => (settings.link_word(one, d), settings.link_word(other, d)),
        _ => (settings.word(one, field), settings.word(other, field)),
    };
    let (at_x, at_y) = (trace.state.words[x], trace.state.words[y]);
    trace.say(format!("P {x} {at_y}"));
    trace.say(format!("P {y} {at_x}"));
}

/// A word or a cell more or fewer, with or without C saying so, or hardly a word left.
fn change_length(trace: &mut Trace, model: &Model) {
    let (length, cell) = (trace.state.words.len(), model.settings.cell_length());
    let (changed, cells) = match trace.dice.below(5) {
        0 => (length - 1, model.settings.cells),
        1 => (length + 1, model.settings.cells),
        2 => (trace.dice.below(7), model.settings.cells),
        3 => (length + cell, model.settings.cells + 1),
        _ => (length - cell, model.settings.cells - 1),
    };
    trace.say(format!("L {changed}"));
    if trace.dice.one_in(2) {
        trace.say(format!("P 2 {cells}"));
    }
}

/// An altered model is drawn: a list, or a buffer that breaks a single sentence. At times
/// words of the drawing are forgotten: one, about half of them, or all links, so that a debt
/// is faked or cleared and nothing moved.
pub fn draw_another(trace: &mut Trace, mut model: Model) {
    for _ in 0..trace.dice.pick(&[1, 1, 2]) {
        retell(trace, &mut model);
    }
    let mut drawn = picture(&model);
    if trace.dice.one_in(8) {
        drawn = stowaway(trace, model.clone());
    }
    let differing = differences(&trace.state.words, &drawn);
    if differing.is_empty() || differing.len() > MOST_PUTS {
        return;
    }
    let one = trace.dice.pick(&differing);
    match trace.dice.below(8) {
        0 | 1 => put_all(trace, &drawn, |index| index == one),
        2 => {
            let half = trace.dice.next();
            put_all(trace, &drawn, |index| half >> (index % 64) & 1 == 0);
        }
        3 => {
            let (from, cell) = (model.settings.word(0, 0), model.settings.cell_length());
            put_all(trace, &drawn, |index| index >= from && (index - from) % cell >= BEFORE_LINKS);
        }
        _ => put_all(trace, &drawn, |_| false),
    }
}
