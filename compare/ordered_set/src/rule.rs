//! The rule for looked, over the standing keys in order: no link and no search.

use crate::model::Model;
use std::collections::BTreeSet;

/// The keys that looked counts for k.
pub fn rule(model: &Model, k: u32) -> BTreeSet<u32> {
    let keys: Vec<u32> = model.standing.keys().copied().collect();
    let mut counted: BTreeSet<u32> = keys
        .windows(2)
        .filter(|pair| is_counted(model, pair[0], pair[1], k))
        .map(|pair| pair[1])
        .collect();
    counted.extend(plus_one(model, &keys, k));
    counted
}

/// Looked and the walk 4: the cells that count.
fn is_counted(model: &Model, next_smaller: u32, x: u32, k: u32) -> bool {
    let settings = &model.settings;
    let e = settings.shared(next_smaller, x);
    settings.shared(x, k) >= e && settings.coordinate(x, e) <= settings.coordinate(k, e)
}

/// Looked and the walk 4: one more.
fn plus_one(model: &Model, keys: &[u32], k: u32) -> Option<u32> {
    let above = keys.iter().copied().find(|&x| x > k)?;
    let most = keys.iter().map(|&x| model.settings.shared(x, k)).max()?;
    (model.settings.shared(above, k) == most).then_some(above)
}
