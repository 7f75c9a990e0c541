//! Urgent notes that come late: inserts at or below the position, after which it falls back;
//! and a schedule of such notes.

use super::dice::Dice;
use super::keys::neighbour;
use super::order_lines::some_entry;
use super::records::key_of;
use super::Trace;
use crate::model::{Mark, Model};
use crate::settings::Settings;

/// Dead keys that should stand up to the position before a note comes late.
const SEVERAL: usize = 4;

/// A key at or below the position: its own, another dead one or a new one; at times a take at
/// once. Mostly near the position, so that dead keys are left below. Where too few are dead, or
/// none is, the position goes up instead.
pub fn late_note(trace: &mut Trace) {
    let Some(model) = trace.list() else {
        return;
    };
    let up_to = model.standing.range(..=model.position);
    let dead: Vec<u32> = up_to.map(|(&key, _)| key).skip(1).collect();
    if dead.is_empty() || dead.len() < SEVERAL && !trace.dice.one_in(4) {
        return go_up(trace, &model);
    }
    let key = some_late_key(&mut trace.dice, &model, &dead);
    let (value, take) = (trace.dice.any_size(), trace.dice.one_in(2));
    trace.say(format!("N {key} {value}"));
    if take {
        trace.say("T");
    }
}

fn some_late_key(dice: &mut Dice, model: &Model, dead: &[u32]) -> u32 {
    let from = if dice.one_in(4) { 0 } else { dead.len().saturating_sub(SEVERAL) };
    let near = dice.pick(&dead[from..]);
    match dice.below(8) {
        0 => model.position,
        1 | 2 => near,
        _ => new_up_to_position(dice, model, near),
    }
}

/// A take, so that more dead keys are left behind. Where nothing is live, the greatest key comes
/// again first.
fn go_up(trace: &mut Trace, model: &Model) {
    let greatest = model.standing.keys().next_back();
    if let (None, Some(key @ 1..)) = (model.least_live(), greatest) {
        let value = trace.dice.any_size();
        trace.say(format!("N {key} {value}"));
    }
    trace.say("T");
}

/// A key that does not stand, near this dead one; or the dead one if some tries give none.
fn new_up_to_position(dice: &mut Dice, model: &Model, near: u32) -> u32 {
    let is_new = |key: &u32| *key < model.position && !model.standing.contains_key(key);
    let mut tried = (0..20).map(|_| neighbour(dice, &model.settings, near));
    tried.find(is_new).unwrap_or(near)
}

/// On the order program's list. In every shift notes come and most are taken; then urgent ones
/// come late, some at a time, and takes between them.
///
/// The position is read right after a take alone, where it is the taken key. So every rule for
/// the position after an insert gets the same lines, and sums of passed can be compared.
pub fn schedule(trace: &mut Trace) {
    trace.make(&Settings::new(8, u32::MAX, 512).expect("settings in range"));
    while trace.goes_on() {
        shift(trace);
        if trace.list().is_some_and(|model| model.free.len() < 200) {
            trace.say("S");
        }
    }
}

fn shift(trace: &mut Trace) {
    for _ in 0..trace.dice.between(60, 120) {
        note(trace, u32::MAX);
    }
    let left = trace.dice.between(20, 40);
    let reached = take_down_to(trace, left as usize);
    for _ in 0..trace.dice.between(20, 40) {
        let (notes, further) = (trace.dice.between(1, 3), trace.dice.between(0, 2));
        (0..notes).for_each(|_| note(trace, reached));
        (0..notes + further).for_each(|_| trace.say("T"));
    }
}

/// A key of some entry, at most this one and not live; none if some tries give none.
fn note(trace: &mut Trace, most: u32) {
    let Some(model) = trace.list() else {
        return;
    };
    let live = |key| model.standing.get(&key).is_some_and(|at| at.mark == Mark::Live);
    let mut tried = (0..50).map(|_| key_of(&some_entry(trace)));
    if let Some(key) = tried.find(|&key| key <= most && !live(key)) {
        let value = trace.dice.any_size();
        trace.say(format!("N {key} {value}"));
    }
}

/// Takes while more keys than these are live; gives the key taken last.
fn take_down_to(trace: &mut Trace, left: usize) -> u32 {
    loop {
        let Some(model) = trace.list().filter(|_| trace.goes_on()) else {
            return 0;
        };
        let live = model.standing.values().filter(|at| at.mark == Mark::Live);
        if live.count() <= left {
            return model.position;
        }
        trace.say("T");
    }
}
