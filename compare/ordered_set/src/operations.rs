//! The six operations: each reads the model out of the words, does its work on the model and
//! draws the words again. What is refused leaves the words as they are.

use crate::model::{Debt, Mark, Model, Standing};
use crate::picture::picture;
use crate::reading::list;
use crate::rule::rule;
use crate::settings::Settings;
use crate::walk::walk;

#[derive(Clone, Debug, PartialEq)]
pub enum Call {
    SetUp { d: u32, k: u32, c: u32 },
    Insert { key: u32, value: u32 },
    Find { key: u32 },
    Finish { key: u32 },
    Take,
    Sweep,
}

/// The operations: the four numbers.
#[derive(Clone, Copy, Debug, PartialEq)]
pub struct Answer {
    pub refusal: u32,
    pub key: u32,
    pub value: u32,
    pub count: u32,
}

/// Refusals. Number 9 is retired: a cell owed from that is not standing makes the buffer no list,
/// which is 3.
pub const OUT_OF_RANGE: u32 = 1;
pub const LENGTH_NOT_EXACT: u32 = 2;
pub const NOT_A_LIST: u32 = 3;
pub const KEY_OUT_OF_RANGE: u32 = 4;
pub const KEY_IS_LIVE: u32 = 5;
pub const NO_FREE_CELL: u32 = 6;
pub const NOTHING_LIVE: u32 = 7;
pub const KEY_NOT_THERE: u32 = 8;
pub const LINE_NOT_READABLE: u32 = 10;
pub const FILE_BREAKS_RULES: u32 = 11;
pub const NO_ROOM_FOR_FILE: u32 = 12;
pub const RECORD_BREAKS_RULES: u32 = 13;
pub const FULL_NUMBER_DOES_NOT_FIT: u32 = 14;
pub const CLASSES_DIFFER: u32 = 15;

/// A class is refused by the number that a key is.
pub const CLASS_OUT_OF_RANGE: u32 = KEY_OUT_OF_RANGE;

impl Answer {
    pub fn refused(refusal: u32) -> Answer {
        Answer::refused_with(refusal, 0, 0)
    }

    fn refused_with(refusal: u32, key: u32, count: usize) -> Answer {
        Answer { refusal, ..Answer::done(key, 0, count) }
    }

    pub fn done(key: u32, value: u32, count: usize) -> Answer {
        Answer { refusal: 0, key, value, count: count as u32 }
    }
}

impl std::fmt::Display for Answer {
    fn fmt(&self, to: &mut std::fmt::Formatter) -> std::fmt::Result {
        let Answer { refusal, key, value, count } = self;
        write!(to, "{refusal} {key} {value} {count}")
    }
}

pub fn perform(words: &mut [u32], call: &Call) -> Answer {
    if let Call::SetUp { d, k, c } = *call {
        return set_up(words, d, k, c);
    }
    let Some(mut model) = list(words) else {
        return Answer::refused(NOT_A_LIST);
    };
    let answer = answer(&mut model, words, call);
    if answer.refusal == 0 {
        draw_again(&model, words, call);
    }
    answer
}

/// The old words are never looked at.
fn set_up(words: &mut [u32], d: u32, k: u32, c: u32) -> Answer {
    let Some(settings) = Settings::new(d, k, c) else {
        return Answer::refused(OUT_OF_RANGE);
    };
    if words.len() != settings.length() {
        return Answer::refused(LENGTH_NOT_EXACT);
    }
    draw_again(&Model::fresh(settings), words, &Call::SetUp { d, k, c });
    Answer::done(0, 0, 0)
}

fn draw_again(model: &Model, words: &mut [u32], call: &Call) {
    if matches!(call, Call::Find { .. }) {
        assert!(picture(model) == words, "a find writes: {call:?}");
    }
    leave(model, words, call);
}

/// What a call leaves has to be a list again, and the one that was meant.
pub fn leave(model: &Model, words: &mut [u32], after: &impl std::fmt::Debug) {
    words.copy_from_slice(&picture(model));
    assert!(list(words).as_ref() == Some(model), "no list, or another one, after {after:?}");
}

fn answer(model: &mut Model, words: &[u32], call: &Call) -> Answer {
    let in_range = 1..=model.settings.largest_key;
    match *call {
        Call::Insert { key, .. } | Call::Find { key } | Call::Finish { key }
            if !in_range.contains(&key) =>
        {
            Answer::refused(KEY_OUT_OF_RANGE)
        }
        Call::Insert { key, value } => insert(model, key, value, looked(model, words, key)),
        Call::Find { key } => find(model, key, looked(model, words, key)),
        Call::Finish { key } => finish(model, key),
        Call::Take => take(model),
        Call::Sweep => sweep(model),
        Call::SetUp { .. } => unreachable!("set up reads no list"),
    }
}

/// Looked and the walk 3 and 4: walk and rule name the same cells, at most D(b-1).
fn looked(model: &Model, words: &[u32], key: u32) -> usize {
    let settings = &model.settings;
    let mut gone_to = walk(settings, words, key);
    gone_to.sort_unstable();
    let counted: Vec<u32> = rule(model, key).into_iter().collect();
    assert!(
        gone_to == counted,
        "walk and rule disagree on {key}: gone to {gone_to:?}, counted {counted:?}"
    );
    let most = settings.dimensions * (settings.base as usize - 1);
    assert!(counted.len() <= most, "looked for {key} is above D(b-1): {counted:?}");
    counted.len()
}

/// The operations 2: where the position goes.
fn insert(model: &mut Model, key: u32, value: u32, looked: usize) -> Answer {
    match model.standing.get_mut(&key) {
        Some(at) if at.mark == Mark::Live => {
            return Answer::refused_with(KEY_IS_LIVE, key, looked);
        }
        Some(dead) => {
            dead.mark = Mark::Live;
            dead.value = value;
        }
        None => match model.free.pop() {
            None => return Answer::refused_with(NO_FREE_CELL, key, looked),
            Some(cell) => put_new(model, cell, key, value),
        },
    }
    if key <= model.position {
        model.position = model.next_smaller(key).expect("the head stands below every key");
        must_be_taken_next(model, key, value);
    }
    Answer::done(key, 0, looked)
}

/// All up to the old position were dead, and no key stands between the new position and this
/// one. So the next take has to hand out this key, and to pass no other.
fn must_be_taken_next(model: &Model, key: u32, value: u32) {
    let next = take(&mut model.clone());
    assert!(
        next == Answer::done(key, value, 1),
        "{key} came late, and the next take does not answer 0 {key} {value} 1 but {next}"
    );
}

/// The operations 2: a key that does not stand.
fn put_new(model: &mut Model, cell: u32, n: u32, value: u32) {
    let before = model.clone();
    let new = Standing { cell, value, mark: Mark::Live, owes: false };
    model.standing.insert(n, new);
    let (parent, p) = model.parent(n);
    model.finish(parent);
    if let Some(c) = before.link(parent, p) {
        model.finish(c);
        let q = model.settings.shared(n, c);
        if p < q {
            owe(model, n, c, p, q);
        }
    }
}

fn owe(model: &mut Model, n: u32, c: u32, p: usize, q: usize) {
    if let Some(at) = model.standing.get_mut(&n) {
        at.owes = true;
    }
    let stated = Debt { owed: c, low: p, high: q };
    assert!(
        model.debt(n) == Some(stated),
        "the debt of the new key {n} is not owed {c}, low {p}, high {q}"
    );
}

fn find(model: &Model, key: u32, looked: usize) -> Answer {
    match model.standing.get(&key) {
        Some(at) if at.mark == Mark::Live => Answer::done(key, at.value, looked),
        _ => Answer::refused_with(KEY_NOT_THERE, key, looked),
    }
}

/// The operations 4.
fn finish(model: &mut Model, key: u32) -> Answer {
    if !model.standing.contains_key(&key) {
        return Answer::refused_with(KEY_NOT_THERE, key, 0);
    }
    let moved = model.debt(key).map_or(0, |debt| debt.high - debt.low);
    model.finish(key);
    Answer::done(key, 0, moved)
}

/// The operations 5.
fn take(model: &mut Model) -> Answer {
    let Some(key) = model.least_live() else {
        return Answer::refused_with(NOTHING_LIVE, 0, standing_above_position(model, u32::MAX));
    };
    let passed = standing_above_position(model, key);
    let taken = model.standing.get_mut(&key).expect("a live key stands");
    taken.mark = Mark::Dead;
    let value = std::mem::take(&mut taken.value);
    model.position = key;
    Answer::done(key, value, passed)
}

fn standing_above_position(model: &Model, up_to: u32) -> usize {
    let above = |key: &&u32| model.position < **key && **key <= up_to;
    model.standing.keys().filter(above).count()
}

/// The operations 6.
fn sweep(model: &mut Model) -> Answer {
    model.standing.values_mut().for_each(|at| at.owes = false);
    let below_live = model.least_live().map_or(u32::MAX, |live| live - 1);
    let mut dead = model.standing.range(..=below_live);
    model.position = dead.next_back().map_or(0, |(&key, _)| key);
    let between = |key: &u32| 0 < *key && *key < model.position;
    let freed: Vec<u32> = model.standing.keys().copied().filter(between).collect();
    for key in &freed {
        let at = model.standing.remove(key).expect("a freed key stood");
        model.free.push(at.cell);
    }
    Answer::done(0, 0, freed.len())
}
