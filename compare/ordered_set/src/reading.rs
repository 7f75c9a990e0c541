//! Is this buffer a list? The model is read out of the words, what the model cannot show is
//! tested sentence by sentence, and every word is compared with the model's picture.

use crate::model::{Mark, Model, Standing};
use crate::picture::picture;
use crate::settings::*;
use std::collections::BTreeMap;

/// A list 1.
pub fn list(words: &[u32]) -> Option<Model> {
    let settings = read_settings(words)?;
    let standing = read_standing(&settings, words)?;
    let free = read_free_chain(&settings, words)?;
    let position = read_position(&settings, words)?;
    let model = Model { settings, standing, free, position };
    let holds = head_is_cell_0(&model)
        && chain_meets_every_free_cell(&model)
        && debts_are_allowed(&model)
        && all_up_to_position_are_dead(&model)
        && picture(&model) == words;
    holds.then_some(model)
}

fn read_settings(words: &[u32]) -> Option<Settings> {
    let &[dimensions, largest_key, cells, base, _] = words.first_chunk::<HEADER>()?;
    Settings::new(dimensions, largest_key, cells)
        .filter(|settings| settings.base == base && settings.length() == words.len())
}

/// Numbers 2; How cells hang together 1.
fn read_standing(settings: &Settings, words: &[u32]) -> Option<BTreeMap<u32, Standing>> {
    let mut standing = BTreeMap::new();
    for cell in 0..settings.cells as u32 {
        let mark = match words[settings.word(cell, MARK)] {
            0 => continue,
            1 => Mark::Live,
            2 => Mark::Dead,
            _ => return None,
        };
        let key = words[settings.word(cell, KEY)];
        let read = Standing {
            cell,
            value: words[settings.word(cell, VALUE)],
            mark,
            owes: words[settings.word(cell, OWED)] != 0,
        };
        if key > settings.largest_key || standing.insert(key, read).is_some() {
            return None;
        }
    }
    Some(standing)
}

/// The words 4: the free chain.
fn read_free_chain(settings: &Settings, words: &[u32]) -> Option<Vec<u32>> {
    let mut met = vec![false; settings.cells];
    let mut chain = Vec::new();
    let mut cell = words[FIRST_FREE];
    while cell != 0 {
        let again = met.get_mut(cell as usize)?;
        if *again || words[settings.word(cell, MARK)] != 0 {
            return None;
        }
        *again = true;
        chain.push(cell);
        cell = words[settings.word(cell, KEY)];
    }
    chain.reverse();
    Some(chain)
}

/// The position 1: the last word of the path.
fn read_position(settings: &Settings, words: &[u32]) -> Option<u32> {
    let cell = words[settings.path_word(settings.dimensions - 1)];
    let stands = (cell as usize) < settings.cells && words[settings.word(cell, MARK)] != 0;
    stands.then(|| words[settings.word(cell, KEY)])
}

/// The words 2: the head.
fn head_is_cell_0(model: &Model) -> bool {
    let head = model.standing.get(&0);
    head.is_some_and(|head| head.cell == 0 && head.mark == Mark::Dead)
}

/// The chain met free cells alone and none twice, so the numbers decide.
fn chain_meets_every_free_cell(model: &Model) -> bool {
    model.free.len() + model.standing.len() == model.settings.cells
}

/// Debts 2.
fn debts_are_allowed(model: &Model) -> bool {
    let mut owing = model.standing.iter().filter(|(_, at)| at.owes);
    owing.all(|(&n, _)| {
        let debt = model.debt(n);
        n != 0 && debt.is_some_and(|debt| !model.standing[&debt.owed].owes && debt.low < debt.high)
    })
}

/// The position 1: all up to the position are dead.
fn all_up_to_position_are_dead(model: &Model) -> bool {
    let mut up_to = model.standing.range(..=model.position);
    up_to.all(|(_, at)| at.mark == Mark::Dead)
}
