//! Models altered in one way: the drawing is then a list that no call leaves, or breaks a
//! single rule of docs/REFERENCE.md.

use super::keys::neighbour;
use super::Trace;
use crate::model::{Mark, Model};
use crate::picture::picture;
use crate::settings::*;

pub fn retell(trace: &mut Trace, model: &mut Model) {
    let key = some_standing(trace, model);
    match trace.dice.below(10) {
        0 => trace.dice.shuffle(&mut model.free),
        1 => rename_cells(trace, model),
        2..=4 => flip_debt(trace, model, key),
        5 => move_position(trace, model, key),
        6 => remark(trace, model, key),
        7 => move_key(trace, model, key),
        8 => resize(trace, model),
        _ => break_chain(trace, model, key),
    }
}

pub fn some_standing(trace: &mut Trace, model: &Model) -> u32 {
    let keys: Vec<u32> = model.standing.keys().copied().collect();
    trace.dice.pick(&keys)
}

/// Two cells other than the head change places.
fn rename_cells(trace: &mut Trace, model: &mut Model) {
    let [one, other] = [0, 1].map(|_| trace.dice.between(1, model.settings.cells as u32 - 1));
    let standing = model.standing.values_mut().map(|at| &mut at.cell);
    for cell in standing.chain(&mut model.free) {
        if *cell == one {
            *cell = other;
        } else if *cell == other {
            *cell = one;
        }
    }
}

/// A debt where none is, or none where one is: of any cell, or of one that may owe.
fn flip_debt(trace: &mut Trace, model: &mut Model, key: u32) {
    let may_owe = |&n: &u32| {
        let c = model.next_larger(n);
        n != 0 && c.is_some_and(|c| model.dimension(n) < model.settings.shared(n, c))
    };
    let mut able: Vec<u32> = model.standing.keys().copied().filter(may_owe).collect();
    able.push(key);
    let one = trace.dice.pick(&able);
    model.standing.entry(one).and_modify(|at| at.owes = !at.owes);
}

/// Mostly to one that all cells up to which are dead.
fn move_position(trace: &mut Trace, model: &mut Model, key: u32) {
    let live = model.least_live().unwrap_or(u32::MAX);
    let mut dead: Vec<u32> = model.standing.range(..live).map(|(&key, _)| key).collect();
    dead.push(key);
    model.position = trace.dice.pick(&dead);
}

fn remark(trace: &mut Trace, model: &mut Model, key: u32) {
    let value = trace.dice.any_size();
    let mark = trace.dice.pick(&[Mark::Live, Mark::Dead]);
    model.standing.entry(key).and_modify(|at| (at.value, at.mark) = (value, mark));
}

/// The cell stands for another key: a list if no debt depends on the old one.
fn move_key(trace: &mut Trace, model: &mut Model, key: u32) {
    let to = neighbour(&mut trace.dice, &model.settings, key);
    if key == 0 || model.standing.contains_key(&to) {
        return;
    }
    if let Some(at) = model.standing.remove(&key) {
        model.standing.insert(to, at);
    }
    if model.position == key {
        model.position = to;
    }
}

/// A free cell more, or another K, whose base may be another.
fn resize(trace: &mut Trace, model: &mut Model) {
    let (d, k) = (model.settings.dimensions as u32, model.settings.largest_key);
    let c = model.settings.cells as u32;
    let greatest_key = model.standing.keys().next_back().copied().unwrap_or(0);
    let resized = if trace.dice.one_in(2) {
        model.free.push(c);
        Settings::new(d, k, c + 1)
    } else {
        let most = model.settings.greatest_of_base();
        Settings::new(d, trace.dice.pick(&[greatest_key.max(1), most, k / 2 + 1]), c)
    };
    model.settings = resized.expect("settings in range");
}

/// A chain that misses a free cell, meets one twice, or meets a standing one.
fn break_chain(trace: &mut Trace, model: &mut Model, key: u32) {
    if model.free.is_empty() {
        return;
    }
    let place = trace.dice.below(model.free.len());
    match trace.dice.below(3) {
        0 => drop(model.free.remove(place)),
        1 => model.free.insert(0, model.free[place]),
        _ => model.free.insert(place, model.standing[&key].cell),
    }
}

/// A cell off the free chain that is marked but hangs nowhere: of a key that stands elsewhere
/// too, or of one that nothing leads to.
pub fn stowaway(trace: &mut Trace, mut model: Model) -> Vec<u32> {
    let like = some_standing(trace, &model);
    let near = neighbour(&mut trace.dice, &model.settings, like);
    let key = trace.dice.pick(&[like, near]);
    let mark = trace.dice.between(1, 2);
    let cell = model.free.pop();
    let mut words = picture(&model);
    if let Some(cell) = cell {
        words[model.settings.word(cell, KEY)] = key;
        words[model.settings.word(cell, MARK)] = mark;
    }
    words
}
