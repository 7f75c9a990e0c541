//! The class record: 32 words beside a list, for each class from 0 to 15 how many of its keys
//! are live and the least of them. What a full reading gives is found by the ranges of the
//! ordered map, and beside it goes what each call does to the record, as a second statement.

use crate::model::{Mark, Model};
use crate::operations::{Answer, CLASSES_DIFFER, CLASS_OUT_OF_RANGE};

/// The class record 2: two words for each class.
pub const CLASS_WORDS: usize = 32;

/// The class record 1: the keys of a class have its number in their first four bits.
const BITS_BEHIND: u32 = 28;
const ALL_BEHIND: u32 = 0x0fff_ffff;

/// The class record 3: what a full reading of the list gives.
pub fn full_reading(model: &Model) -> Vec<u32> {
    let mut classes = Vec::new();
    for least in (0..16).map(|class| class << BITS_BEHIND) {
        let of_class = model.standing.range(least..=least | ALL_BEHIND);
        let live = of_class.filter(|(_, at)| at.mark == Mark::Live);
        let keys: Vec<u32> = live.map(|(&key, _)| key).collect();
        classes.extend([keys.len() as u32, keys.first().copied().unwrap_or(0)]);
    }
    let live = model.standing.values().filter(|at| at.mark == Mark::Live).count();
    assert!(total(&classes) == live, "{live} keys are live, and the classes have {classes:?}");
    classes
}

/// The counts of all classes, added up.
pub fn total(classes: &[u32]) -> usize {
    classes.chunks(2).map(|of_class| of_class[0] as usize).sum()
}

/// The question about one class: the record alone, and of it the two words of the class.
pub fn class(classes: &[u32], class: u32) -> Answer {
    if classes.len() != CLASS_WORDS {
        return Answer::refused(CLASSES_DIFFER);
    }
    match classes.chunks(2).nth(class as usize) {
        Some(of_class) => Answer::done(of_class[1], 0, of_class[0] as usize),
        None => Answer::refused(CLASS_OUT_OF_RANGE),
    }
}

/// What an accepted call does to a record.
#[derive(Clone, Copy, Debug)]
pub enum Change {
    None,
    Comes(u32),
    Goes(u32),
}

/// A second statement: the record after a call has to be the one before with the key put in, or
/// with the key gone, which then was the least of its class and of all.
pub fn must_follow(before: &[u32], change: Change, after: &[u32]) {
    let mut expected = before.to_vec();
    match change {
        Change::None => (),
        Change::Comes(key) => {
            let at = 2 * (key / 268_435_456) as usize;
            expected[at] += 1;
            if before[at] == 0 || key < before[at + 1] {
                expected[at + 1] = key;
            }
        }
        Change::Goes(key) => {
            let at = 2 * (key / 268_435_456) as usize;
            assert!(
                before[..at].iter().all(|&word| word == 0),
                "{key} is not the least: {before:?}"
            );
            assert!(before[at + 1] == key, "{key} is not the least of its class: {before:?}");
            expected[at] -= 1;
            // which key is the least now, the record before can't say
            expected[at + 1] = after[at + 1];
            let is_next = if expected[at] == 0 { after[at + 1] == 0 } else { after[at + 1] > key };
            assert!(is_next, "after the take of {key}: {after:?}");
        }
    }
    assert!(expected == after, "{change:?} makes {after:?} of {before:?}");
}
