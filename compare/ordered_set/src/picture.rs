//! Every word of the buffer, from the model alone.

use crate::model::{Mark, Model, Standing};
use crate::settings::*;

pub fn picture(model: &Model) -> Vec<u32> {
    let mut words = vec![0; model.settings.length()];
    draw_header(model, &mut words);
    for d in 0..model.settings.dimensions {
        words[model.settings.path_word(d)] = model.path(d);
    }
    for (&key, at) in &model.standing {
        draw_cell(model, key, at, &mut words);
        draw_debt(model, key, at, &mut words);
        draw_links(model, key, at, &mut words);
    }
    draw_free_chain(model, &mut words);
    words
}

fn draw_header(model: &Model, words: &mut [u32]) {
    let settings = &model.settings;
    words[0] = settings.dimensions as u32;
    words[1] = settings.largest_key;
    words[2] = settings.cells as u32;
    words[3] = settings.base;
}

/// The words 1 and 3: mark and value.
fn draw_cell(model: &Model, key: u32, at: &Standing, words: &mut [u32]) {
    let settings = &model.settings;
    let (mark, value) = match at.mark {
        Mark::Live => (1, at.value),
        Mark::Dead => (2, 0),
    };
    words[settings.word(at.cell, KEY)] = key;
    words[settings.word(at.cell, VALUE)] = value;
    words[settings.word(at.cell, MARK)] = mark;
}

/// Debts 4.
fn draw_debt(model: &Model, key: u32, at: &Standing, words: &mut [u32]) {
    if let Some(debt) = model.debt(key) {
        words[model.settings.word(at.cell, OWED)] = model.standing[&debt.owed].cell;
        words[model.settings.word(at.cell, LOW)] = debt.low as u32;
        words[model.settings.word(at.cell, HIGH)] = debt.high as u32;
    }
}

/// Debts 3.
fn draw_links(model: &Model, key: u32, at: &Standing, words: &mut [u32]) {
    let debt = model.debt(key);
    for d in model.dimension(key)..model.settings.dimensions {
        let owed = debt.as_ref().filter(|debt| debt.covers(d));
        let holder = owed.map_or(at.cell, |debt| model.standing[&debt.owed].cell);
        if let Some(y) = model.least_larger_at(key, d) {
            words[model.settings.link_word(holder, d)] = model.standing[&y].cell;
        }
    }
}

/// The words 4.
fn draw_free_chain(model: &Model, words: &mut [u32]) {
    let mut place = FIRST_FREE;
    for &cell in model.free.iter().rev() {
        words[place] = cell;
        place = model.settings.word(cell, KEY);
    }
    words[place] = 0;
}
