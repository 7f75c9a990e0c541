//! Settings and keys worth trying: keys that share coordinates make links, debts and branches.

use super::dice::Dice;
use crate::settings::Settings;

pub fn some_settings(dice: &mut Dice, most_cells: u32) -> Settings {
    let dimensions = match dice.below(4) {
        0 => dice.between(2, 16),
        _ => dice.pick(&[2, 3, 4, 8, 15, 16]),
    };
    let largest_key = some_largest_key(dice, dimensions);
    let cells = match dice.below(4) {
        0 => dice.between(3, 6),
        _ => dice.between(3, most_cells),
    };
    Settings::new(dimensions, largest_key, cells).expect("settings in range")
}

/// Around a power, small, the largest, or any.
fn some_largest_key(dice: &mut Dice, dimensions: u32) -> u32 {
    match dice.below(6) {
        0 | 1 => {
            let base = dice.between(2, 6);
            let power = base.saturating_pow(dimensions);
            power.saturating_add(dice.between(0, 2)).saturating_sub(2)
        }
        2 => dice.between(1, 40),
        3 | 4 => u32::MAX,
        _ => dice.any_size().max(1),
    }
}

/// A few keys and their neighbours: each further key differs from one before in a coordinate.
pub fn clustered_keys(dice: &mut Dice, settings: &Settings, many: usize) -> Vec<u32> {
    let largest = settings.largest_key;
    let seeds = [1, largest, dice.between(1, largest), dice.between(1, largest)];
    let mut keys: Vec<u32> = (0..dice.between(1, 3)).map(|_| dice.pick(&seeds)).collect();
    while keys.len() < many {
        let near = dice.pick(&keys);
        keys.push(neighbour(dice, settings, near));
    }
    keys
}

/// A key in range that differs from this one in one coordinate, or by one.
pub fn neighbour(dice: &mut Dice, settings: &Settings, key: u32) -> u32 {
    let d = dice.below(settings.dimensions);
    let step = settings.above_sharing(0, d + 1);
    let times = u64::from(dice.between(1, settings.base.min(4) - 1));
    let moved = match dice.below(5) {
        0 => u64::from(key) + 1,
        1 => u64::from(key).saturating_sub(1),
        2 => u64::from(key).saturating_sub(step * times),
        _ => u64::from(key) + step * times,
    };
    if (1..=u64::from(settings.largest_key)).contains(&moved) {
        moved as u32
    } else {
        dice.between(1, settings.largest_key)
    }
}
