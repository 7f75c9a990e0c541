//! The walk, on the words: link by link.

use crate::settings::*;
use std::cmp::Ordering;

/// The keys of the cells gone to, in the order of going. For a list alone.
///
/// Looked and the walk 1: one step.
pub fn walk(settings: &Settings, words: &[u32], k: u32) -> Vec<u32> {
    let mut gone_to = Vec::new();
    let (mut cell, mut d) = (0, 0);
    while d < settings.dimensions {
        let at = settings.coordinate(words[settings.word(cell, KEY)], d);
        match at.cmp(&settings.coordinate(k, d)) {
            Ordering::Less => match link_read(settings, words, cell, d) {
                0 => break,
                next => {
                    cell = next;
                    gone_to.push(words[settings.word(cell, KEY)]);
                }
            },
            Ordering::Equal => d += 1,
            Ordering::Greater => break,
        }
    }
    gone_to
}

/// Looked and the walk 2.
fn link_read(settings: &Settings, words: &[u32], cell: u32, d: usize) -> u32 {
    let owed = words[settings.word(cell, OWED)];
    let low = words[settings.word(cell, LOW)] as usize;
    let high = words[settings.word(cell, HIGH)] as usize;
    let read_from = if owed != 0 && low <= d && d < high { owed } else { cell };
    words[settings.link_word(read_from, d)]
}
