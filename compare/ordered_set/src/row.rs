//! The plain row: its words written and read, and what each call does to it. A row shares with a
//! list the ranges of its settings and the numbers of the refusals.

use crate::operations::*;
use crate::settings::Settings;
use std::collections::BTreeMap;

/// D, K, C, how many keys stand, the key of the position.
pub const BEFORE_PLACES: usize = 5;

/// Key, value, mark.
pub const PLACE: usize = 3;

const LIVE: u32 = 1;
const DEAD: u32 = 2;

#[derive(Clone, Copy, Debug, PartialEq)]
pub enum At {
    Live(u32),
    Dead,
}

#[derive(Clone, Debug, PartialEq)]
pub struct Row {
    pub settings: Settings,
    pub standing: BTreeMap<u32, At>,
    /// The key of the position; 0 is the head's.
    pub position: u32,
}

/// The plain row 1; the number need not be in range.
pub fn row_length(cells: usize) -> usize {
    BEFORE_PLACES + PLACE * cells.saturating_sub(1)
}

impl Row {
    /// The plain row 3.
    pub fn fresh(settings: Settings) -> Row {
        Row { settings, standing: BTreeMap::new(), position: 0 }
    }

    /// The plain row 1.
    pub fn words(&self) -> Vec<u32> {
        let Settings { dimensions, largest_key, cells, .. } = self.settings;
        let [d, c, n] = [dimensions, cells, self.standing.len()].map(|number| number as u32);
        let mut words = vec![d, largest_key, c, n, self.position];
        for (&key, at) in &self.standing {
            words.extend(match *at {
                At::Live(value) => [key, value, LIVE],
                At::Dead => [key, 0, DEAD],
            });
        }
        words.resize(row_length(cells).max(words.len()), 0);
        words
    }

    fn least_live(&self) -> Option<(u32, u32)> {
        self.standing.iter().find_map(|(&key, at)| match *at {
            At::Live(value) => Some((key, value)),
            At::Dead => None,
        })
    }

    fn next_smaller(&self, key: u32) -> u32 {
        self.standing.range(..key).next_back().map_or(0, |(&below, _)| below)
    }

    fn above_position(&self, up_to: u32) -> usize {
        self.standing.keys().filter(|&&key| self.position < key && key <= up_to).count()
    }

    fn has_room(&self) -> bool {
        self.standing.len() < self.settings.cells - 1
    }
}

/// The plain row 2. Keys that do not ascend, and words of unused places that are not 0, are not
/// written so.
pub fn row(words: &[u32]) -> Option<Row> {
    let (&[d, k, c, n, position], places) = words.split_first_chunk::<BEFORE_PLACES>()?;
    let settings = Settings::new(d, k, c)?;
    if words.len() != row_length(settings.cells) || n as usize > settings.cells - 1 {
        return None;
    }
    let mut standing = BTreeMap::new();
    for place in places.chunks_exact(PLACE).take(n as usize) {
        let at = match place[1..] {
            [value, LIVE] => At::Live(value),
            [0, DEAD] => At::Dead,
            _ => return None,
        };
        standing.insert(place[0], at);
    }
    let read = Row { settings, standing, position };
    let holds = read.standing.keys().all(|key| (1..=k).contains(key))
        && (position == 0 || read.standing.contains_key(&position))
        && read.least_live().map_or(true, |(key, _)| key > position)
        && read.words() == words;
    holds.then_some(read)
}

pub fn perform_on_row(words: &mut [u32], call: &Call) -> Answer {
    if let Call::SetUp { d, k, c } = *call {
        return set_up(words, d, k, c);
    }
    let Some(mut row) = row(words) else {
        return Answer::refused(NOT_A_LIST);
    };
    let before = row.clone();
    let answer = answer(&mut row, call);
    let alters = answer.refusal == 0 && !matches!(call, Call::Find { .. } | Call::Finish { .. });
    assert!(alters || row == before, "{call:?} is answered {answer} and alters the row");
    leave(&row, words, call);
    answer
}

fn set_up(words: &mut [u32], d: u32, k: u32, c: u32) -> Answer {
    let Some(settings) = Settings::new(d, k, c) else {
        return Answer::refused(OUT_OF_RANGE);
    };
    if words.len() != row_length(settings.cells) {
        return Answer::refused(LENGTH_NOT_EXACT);
    }
    leave(&Row::fresh(settings), words, &Call::SetUp { d, k, c });
    Answer::done(0, 0, 0)
}

/// What a call leaves has to be a row again, and the one that was meant.
fn leave(meant: &Row, words: &mut [u32], after: &Call) {
    words.copy_from_slice(&meant.words());
    assert!(row(words).as_ref() == Some(meant), "no row, or another one, after {after:?}");
}

fn answer(row: &mut Row, call: &Call) -> Answer {
    let in_range = 1..=row.settings.largest_key;
    let refused = |refusal, key| Answer { refusal, ..Answer::done(key, 0, 0) };
    match *call {
        Call::Insert { key, .. } | Call::Find { key } | Call::Finish { key }
            if !in_range.contains(&key) =>
        {
            Answer::refused(KEY_OUT_OF_RANGE)
        }
        Call::Insert { key, value } => match row.standing.get(&key) {
            Some(At::Live(_)) => refused(KEY_IS_LIVE, key),
            None if !row.has_room() => refused(NO_FREE_CELL, key),
            _ => {
                insert(row, key, value);
                Answer::done(key, 0, 0)
            }
        },
        Call::Find { key } => match row.standing.get(&key) {
            Some(&At::Live(value)) => Answer::done(key, value, 0),
            _ => refused(KEY_NOT_THERE, key),
        },
        Call::Finish { key } => match row.standing.get(&key) {
            Some(_) => Answer::done(key, 0, 0),
            None => refused(KEY_NOT_THERE, key),
        },
        Call::Take => take(row),
        Call::Sweep => Answer::done(0, 0, sweep(row)),
        Call::SetUp { .. } => unreachable!("set up reads no row"),
    }
}

/// The plain row 4. A key that comes late has to be taken next, and no other be passed.
fn insert(row: &mut Row, key: u32, value: u32) {
    row.standing.insert(key, At::Live(value));
    if key <= row.position {
        row.position = row.next_smaller(key);
        let next = take(&mut row.clone());
        assert!(
            next == Answer::done(key, value, 1),
            "{key} came late, and the next take is {next}"
        );
    }
}

/// The plain row 6.
fn take(row: &mut Row) -> Answer {
    let Some((key, value)) = row.least_live() else {
        let above = Answer::done(0, 0, row.above_position(u32::MAX));
        return Answer { refusal: NOTHING_LIVE, ..above };
    };
    let passed = row.above_position(key);
    row.standing.insert(key, At::Dead);
    row.position = key;
    Answer::done(key, value, passed)
}

/// The plain row 7.
fn sweep(row: &mut Row) -> usize {
    let stood = row.standing.len();
    row.position = match row.least_live() {
        Some((live, _)) => row.next_smaller(live),
        None => row.standing.keys().next_back().copied().unwrap_or(0),
    };
    let kept = row.position;
    row.standing.retain(|&key, _| key >= kept);
    stood - row.standing.len()
}
