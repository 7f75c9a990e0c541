//! The plain row: agreement with the list on random calls from a fresh pair, its words, damage of every word against a check that is
//! written here from docs/REFERENCE.md, *The plain row 2*, lengths from 0 to 20, and the orders of refusals.

mod common;

use common::{fresh, Dice};
use mdlist_host::*;
use std::collections::{BTreeMap, BTreeSet};

fn fresh_row(d: u32, k: u32, c: u32) -> Vec<u32> {
    // what the words held does not matter
    let mut words = vec![7; row_words(c)];
    assert_eq!(row::set_up(d, k, c, &mut words), Ok(()));
    words
}

/// An answer with the figures that are compared: cells looked at and links moved are left out.
#[derive(Clone, Copy, Debug, PartialEq)]
struct Compared {
    refusal: u32,
    value: u32,
    count: u32,
    /// Of a take.
    key: u32,
}

impl Compared {
    const NONE: Compared = Compared { refusal: 0, value: 0, count: 0, key: 0 };

    fn refused(refusal: Refusal) -> Compared {
        let count = if let Refusal::NothingLive { above } = refusal { above } else { 0 };
        Compared { refusal: refusal.number(), count, ..Compared::NONE }
    }

    fn without_count(answered: Result<u32, Refusal>) -> Compared {
        answered.map_or_else(Compared::refused, |_| Compared::NONE)
    }

    fn of_find(answered: Result<Found, Refusal>) -> Compared {
        answered.map_or_else(Compared::refused, |found| Compared { value: found.value, ..Compared::NONE })
    }

    fn of_take(answered: Result<Taken, Refusal>) -> Compared {
        answered.map_or_else(Compared::refused, |taken| Compared { refusal: 0, value: taken.value, count: taken.passed, key: taken.key })
    }

    fn of_sweep(answered: Result<u32, Refusal>) -> Compared {
        answered.map_or_else(Compared::refused, |freed| Compared { count: freed, ..Compared::NONE })
    }
}

#[derive(Clone, Copy, Debug)]
enum Made {
    Insert(u32, u32),
    Find(u32),
    Finish(u32),
    Take,
    Sweep,
}

fn on_list(list: &mut List<'_>, made: Made) -> Compared {
    match made {
        Made::Insert(key, value) => Compared::without_count(list.insert(key, value)),
        Made::Find(key) => Compared::of_find(list.find(key)),
        Made::Finish(key) => Compared::without_count(list.finish(key)),
        Made::Take => Compared::of_take(list.take()),
        Made::Sweep => Compared::of_sweep(list.sweep()),
    }
}

/// The same on a row, whose own figures have to be 0 where the list counts cells looked at or links moved.
fn on_row(row: &mut Row<'_>, made: Made) -> Compared {
    let no_count = |answered: Result<u32, Refusal>| {
        assert!(matches!(answered, Ok(0) | Err(_)), "{made:?} answers {answered:?}");
        no_looked(answered.err());
        Compared::without_count(answered)
    };
    match made {
        Made::Insert(key, value) => no_count(row.insert(key, value)),
        Made::Find(key) => {
            let answered = row.find(key);
            no_looked(answered.err());
            assert!(answered.map_or(true, |found| found.looked == 0));
            Compared::of_find(answered)
        }
        Made::Finish(key) => no_count(row.finish(key)),
        Made::Take => Compared::of_take(row.take()),
        Made::Sweep => Compared::of_sweep(row.sweep()),
    }
}

fn no_looked(refusal: Option<Refusal>) {
    if let Some(Refusal::KeyLive { looked } | Refusal::NoFreeCell { looked } | Refusal::NotThere { looked }) = refusal {
        assert_eq!(looked, 0);
    }
}

/// The functions of both archives, whose answers have the key too.
mod sys {
    #[repr(C)]
    #[derive(Clone, Copy, Debug, PartialEq)]
    pub struct Answer {
        pub refusal: u32,
        pub key: u32,
        pub value: u32,
        pub count: u32,
    }

    extern "C" {
        pub fn mdlist_insert(list: *mut u32, len: usize, key: u32, value: u32) -> Answer;
        pub fn mdlist_find(list: *const u32, len: usize, key: u32) -> Answer;
        pub fn mdlist_finish(list: *mut u32, len: usize, key: u32) -> Answer;
        pub fn mdlist_take(list: *mut u32, len: usize) -> Answer;
        pub fn mdlist_sweep(list: *mut u32, len: usize) -> Answer;
        pub fn row_insert(row: *mut u32, len: usize, key: u32, value: u32) -> Answer;
        pub fn row_find(row: *const u32, len: usize, key: u32) -> Answer;
        pub fn row_finish(row: *const u32, len: usize, key: u32) -> Answer;
        pub fn row_take(row: *mut u32, len: usize) -> Answer;
        pub fn row_sweep(row: *mut u32, len: usize) -> Answer;
    }
}

/// All four numbers of a call on both, the list's with 0 where it counts cells looked at or links moved.
fn four_numbers(list: &mut [u32], row: &mut [u32], made: Made) -> [sys::Answer; 2] {
    let ((list, n), (row, m)) = ((list.as_mut_ptr(), list.len()), (row.as_mut_ptr(), row.len()));
    // SAFETY: each pointer goes with the length of its slice, and no function keeps it
    let [by_list, by_row] = unsafe {
        match made {
            Made::Insert(key, value) => [sys::mdlist_insert(list, n, key, value), sys::row_insert(row, m, key, value)],
            Made::Find(key) => [sys::mdlist_find(list, n, key), sys::row_find(row, m, key)],
            Made::Finish(key) => [sys::mdlist_finish(list, n, key), sys::row_finish(row, m, key)],
            Made::Take => [sys::mdlist_take(list, n), sys::row_take(row, m)],
            Made::Sweep => [sys::mdlist_sweep(list, n), sys::row_sweep(row, m)],
        }
    };
    let exempt = !matches!(made, Made::Take | Made::Sweep);
    [if exempt { sys::Answer { count: 0, ..by_list } } else { by_list }, by_row]
}

#[test]
fn same_four_numbers_as_the_list() {
    let mut dice = Dice(777);
    for _ in 0..100 {
        let (d, c) = (2 + dice.below(15) as u32, 3 + dice.below(40) as u32);
        let k = [2, 15, 1_000, u32::MAX][dice.below(4) as usize];
        let (mut list, mut row) = (fresh(d, k, c), fresh_row(d, k, c));
        for number in 0..1_000 {
            let (mood, key) = (number / 50 % 3, some_key(&mut dice, k, 2 * c));
            let made = some_call(&mut dice, mood, key);
            let [by_list, by_row] = four_numbers(&mut list, &mut row, made);
            assert_eq!(by_row, by_list, "call {number}, {made:?}, D = {d}, K = {k}, C = {c}");
        }
    }
}

/// A key at random: small keys are drawn often enough to meet standing ones.
fn some_key(dice: &mut Dice, k: u32, near: u32) -> u32 {
    match dice.below(12) {
        0 => [0, k, k.wrapping_add(1), u32::MAX][dice.below(4) as usize],
        1..=3 => 1 + ((dice.below(1 << 31) << 1 | dice.below(2)) % u64::from(k)) as u32,
        _ => 1 + dice.below(u64::from(near.min(k))) as u32,
    }
}

/// Calls in a mood: filling, taking out, late inserts, or all kinds.
fn some_call(dice: &mut Dice, mood: u64, key: u32) -> Made {
    let value = dice.below(1 << 31) as u32;
    match (mood, dice.below(10)) {
        (0, 0..=7) | (1, 0..=2) | (_, 0..=4) => Made::Insert(key, value),
        (1, 3..=8) | (_, 7 | 8) => Made::Take,
        (_, 5) => Made::Find(key),
        (_, 6) => Made::Finish(key),
        _ => Made::Sweep,
    }
}

/// Makes random calls on a fresh pair; answers how often each refusal came, and the greatest passed and freed.
fn side_by_side(dice: &mut Dice, [d, k, c]: [u32; 3], near: u32, calls: u32, met: &mut BTreeMap<u32, u32>) -> (u32, u32) {
    let (mut of_list, mut of_row) = (fresh(d, k, c), fresh_row(d, k, c));
    let (mut list, mut row) = (List::new(&mut of_list), Row::new(&mut of_row));
    let (mut passed, mut freed, mut mood) = (0, 0, 0);
    for number in 0..calls {
        if dice.below(40) == 0 {
            mood = dice.below(3);
        }
        let key = some_key(dice, k, near);
        let made = some_call(dice, mood, key);
        let (by_list, by_row) = (on_list(&mut list, made), on_row(&mut row, made));
        assert_eq!(by_row, by_list, "call {number}, {made:?}, D = {d}, K = {k}, C = {c}");
        *met.entry(by_row.refusal).or_default() += 1;
        match made {
            Made::Take => passed = passed.max(by_row.count),
            Made::Sweep => freed = freed.max(by_row.count),
            _ => {}
        }
    }
    assert!(is_row(row.words()), "a call left no row");
    (passed, freed)
}

#[test]
fn same_answers_as_the_list_small() {
    let mut dice = Dice(7);
    let (mut met, mut most) = (BTreeMap::new(), (0, 0));
    for round in 0..300 {
        let (d, c) = (2 + dice.below(15) as u32, 3 + dice.below(if round % 2 == 0 { 6 } else { 60 }) as u32);
        let k = [1, 2, 15, 100, 65_536, u32::MAX - 1, u32::MAX][dice.below(7) as usize];
        let (passed, freed) = side_by_side(&mut dice, [d, k, c], 2 * c, 1_000, &mut met);
        most = (most.0.max(passed), most.1.max(freed));
    }
    // every refusal of the five calls on rows, and figures above 1
    assert_eq!(met.keys().copied().collect::<Vec<_>>(), [0, 4, 5, 6, 7, 8]);
    assert!(met.values().all(|times| *times > 1_000), "{met:?}");
    assert!(most.0 > 10 && most.1 > 10, "{most:?}");
}

#[test]
fn same_answers_as_the_list_large() {
    let mut dice = Dice(77);
    let mut met = BTreeMap::new();
    for (settings, near, calls) in [
        ([2, u32::MAX, 4_096], 6_000, 12_000),
        ([8, u32::MAX, 4_096], u32::MAX, 12_000),
        ([16, u32::MAX, 20_000], 30_000, 4_000),
        ([8, 1_000_000, MOST_CELLS], 1_000_000, 300),
    ] {
        side_by_side(&mut dice, settings, near, calls, &mut met);
    }
    assert!(met[&0] > 5_000, "{met:?}");
}

/// The largest row filled whole, so that it has no room, and taken from.
#[test]
fn largest_row_full() {
    let (c, n) = (MOST_CELLS, MOST_CELLS - 1);
    let mut words = vec![0; row_words(c)];
    words[..5].copy_from_slice(&[16, u32::MAX, c, n, 0]);
    for (at, place) in words[5..].chunks_exact_mut(3).enumerate() {
        place.copy_from_slice(&[16_000 * (at as u32 + 1), at as u32, 1]);
    }
    let mut row = Row::new(&mut words);
    assert_eq!(row.insert(1, 0), Err(Refusal::NoFreeCell { looked: 0 }));
    assert_eq!(row.find(16_000 * n), Ok(Found { value: n - 1, looked: 0 }));
    assert_eq!(row.take(), Ok(Taken { key: 16_000, value: 0, passed: 1 }));
    assert_eq!(row.take(), Ok(Taken { key: 32_000, value: 1, passed: 1 }));
    assert_eq!(row.sweep(), Ok(1));
    assert_eq!(row.insert(1, 10), Ok(0));
    assert_eq!(row.insert(2, 20), Err(Refusal::NoFreeCell { looked: 0 }));
    assert_eq!(row.take(), Ok(Taken { key: 1, value: 10, passed: 1 }));
    assert_eq!(row.take(), Ok(Taken { key: 48_000, value: 2, passed: 2 }));
}

/// The words after each call: docs/REFERENCE.md, *The plain row* 3 to 7.
#[test]
fn words_after_calls() {
    let mut words = fresh_row(2, 15, 6);
    let mut after = |made: Made, expected: [u32; 4], head: [u32; 2], places: &[u32]| {
        let answer = on_row(&mut Row::new(&mut words), made);
        assert_eq!([answer.refusal, answer.key, answer.value, answer.count], expected, "{made:?}");
        assert_eq!(words[..3], [2, 15, 6]);
        assert_eq!(words[3..5], head, "{made:?}");
        let (used, unused) = words[5..].split_at(places.len());
        assert_eq!(used, places, "{made:?}");
        assert!(unused.iter().all(|word| *word == 0), "{made:?}");
    };
    after(Made::Insert(6, 60), [0; 4], [1, 0], &[6, 60, 1]);
    after(Made::Insert(2, 20), [0; 4], [2, 0], &[2, 20, 1, 6, 60, 1]);
    after(Made::Insert(9, 90), [0; 4], [3, 0], &[2, 20, 1, 6, 60, 1, 9, 90, 1]);
    after(Made::Take, [0, 2, 20, 1], [3, 2], &[2, 0, 2, 6, 60, 1, 9, 90, 1]);
    after(Made::Take, [0, 6, 60, 1], [3, 6], &[2, 0, 2, 6, 0, 2, 9, 90, 1]);
    // a late key: the position goes to the next smaller standing key
    after(Made::Insert(5, 50), [0; 4], [4, 2], &[2, 0, 2, 5, 50, 1, 6, 0, 2, 9, 90, 1]);
    // the position's own key revived, the least: the head
    after(Made::Insert(2, 21), [0; 4], [4, 0], &[2, 21, 1, 5, 50, 1, 6, 0, 2, 9, 90, 1]);
    after(Made::Sweep, [0; 4], [4, 0], &[2, 21, 1, 5, 50, 1, 6, 0, 2, 9, 90, 1]);
    after(Made::Take, [0, 2, 21, 1], [4, 2], &[2, 0, 2, 5, 50, 1, 6, 0, 2, 9, 90, 1]);
    after(Made::Take, [0, 5, 50, 1], [4, 5], &[2, 0, 2, 5, 0, 2, 6, 0, 2, 9, 90, 1]);
    after(Made::Finish(5), [0; 4], [4, 5], &[2, 0, 2, 5, 0, 2, 6, 0, 2, 9, 90, 1]);
    after(Made::Find(9), [0, 0, 90, 0], [4, 5], &[2, 0, 2, 5, 0, 2, 6, 0, 2, 9, 90, 1]);
    // the last dead key below every live one is kept, above the position
    after(Made::Sweep, [0, 0, 0, 2], [2, 6], &[6, 0, 2, 9, 90, 1]);
    after(Made::Take, [0, 9, 90, 1], [2, 9], &[6, 0, 2, 9, 0, 2]);
    after(Made::Insert(6, 61), [0; 4], [2, 0], &[6, 61, 1, 9, 0, 2]);
    after(Made::Take, [0, 6, 61, 1], [2, 6], &[6, 0, 2, 9, 0, 2]);
    after(Made::Take, [7, 0, 0, 1], [2, 6], &[6, 0, 2, 9, 0, 2]);
}

/// Whether words are a row, sentence by sentence of docs/REFERENCE.md, *The plain row 2*.
fn is_row(words: &[u32]) -> bool {
    let &[d, k, c, n, position, ref places @ ..] = words else { return false };
    let in_range = (2..=16).contains(&d) && k >= 1 && (3..=262_144).contains(&c);
    if !in_range || places.len() as u64 != 3 * (u64::from(c) - 1) || n > c - 1 {
        return false;
    }
    let (used, unused) = places.split_at(3 * n as usize);
    let keys: Vec<u32> = used.chunks(3).map(|place| place[0]).collect();
    let marks_are_right = used.chunks(3).all(|place| match *place {
        [key, _, 1] => key > position,
        [_, value, 2] => value == 0,
        _ => false,
    });
    keys.iter().all(|key| (1..=k).contains(key))
        && keys.windows(2).all(|two| two[0] < two[1])
        && marks_are_right
        && (position == 0 || keys.contains(&position))
        && unused.iter().all(|word| *word == 0)
}

/// Rows to damage: empty, full, with free places, with dead keys below, at and above the position.
fn rows() -> Vec<Vec<u32>> {
    let mut rows = vec![fresh_row(2, 15, 3), fresh_row(16, u32::MAX, 5)];
    for (settings, calls) in [
        ([2, 15, 3], "N6 N9"),
        ([2, 15, 4], "N6 N9 N15 T"),
        ([3, 100, 6], "N6 N9 N15 T T"),
        ([2, 15, 6], "N6 N2 N9 T T N5"),
        ([2, 9, 6], "N6 N2 N9 T T N5 T S N1 T"),
        ([8, u32::MAX, 7], "N6 N2 N9 N4294967295 T T N5 N6"),
        ([8, u32::MAX, 8], "N6 N2 N9 T T T N6 T"),
    ] {
        let [d, k, c] = settings;
        let mut words = fresh_row(d, k, c);
        for call in calls.split(' ') {
            let (kind, key) = call.split_at(1);
            match kind {
                "N" => assert!(row::insert(&mut words, key.parse().expect("a key"), 1_000).is_ok()),
                "T" => assert!(row::take(&mut words).is_ok()),
                _ => assert!(row::sweep(&mut words).is_ok()),
            }
        }
        rows.push(words);
    }
    rows
}

type Call = fn(&mut [u32]) -> Result<(), Refusal>;

/// The refusal of each of the five calls. Those that are refused alter nothing, and those that are not leave a row.
fn refusals(words: &[u32]) -> [u32; 5] {
    let calls: [Call; 5] = [
        |words| row::insert(words, 7, 70).map(|_| ()),
        |words| row::find(words, 6).map(|_| ()),
        |words| row::finish(words, 9).map(|_| ()),
        |words| row::take(words).map(|_| ()),
        |words| row::sweep(words).map(|_| ()),
    ];
    calls.map(|call| {
        let mut copy = words.to_vec();
        let refusal = call(&mut copy).map_or_else(Refusal::number, |()| 0);
        assert!(refusal == 0 || copy == words, "refused by {refusal} and altered {words:?} to {copy:?}");
        assert!(refusal != 0 || is_row(&copy), "left no row: {words:?} to {copy:?}");
        refusal
    })
}

/// All five calls refuse by 3 exactly if the words are no row.
fn refused_as_they_should(words: &[u32]) -> bool {
    let wanted = is_row(words);
    let refusals = refusals(words);
    assert!(refusals.iter().all(|refusal| (*refusal != 3) == wanted), "{words:?} is a row: {wanted}, and refused by {refusals:?}");
    wanted
}

/// Values to put in place of a word: near it, at the ends of ranges, and every word of the row.
fn other_values(words: &[u32], at: usize) -> BTreeSet<u32> {
    let old = words[at];
    let mut values: BTreeSet<u32> = (0..=20).chain([262_144, 262_145, u32::MAX - 1, u32::MAX]).collect();
    values.extend([old.wrapping_add(1), old.wrapping_sub(1), old ^ 0x8000_0000, old ^ 0x1_0000]);
    values.extend(words);
    values.remove(&old);
    values
}

#[test]
fn every_word_damaged() {
    let (mut still, mut no_longer) = (0, 0);
    for words in rows() {
        assert!(refused_as_they_should(&words));
        for at in 0..words.len() {
            for value in other_values(&words, at) {
                let mut damaged = words.clone();
                damaged[at] = value;
                if refused_as_they_should(&damaged) {
                    still += 1;
                } else {
                    no_longer += 1;
                }
            }
        }
    }
    // D, K, a live key's value, a mark, the position: some words are another row's
    assert!(still > 500 && no_longer > 3_000, "{still} {no_longer}");
}

/// Two and three words altered, each by a value that fits the row now and then, so that rows come which no calls lead to.
#[test]
fn several_words_damaged() {
    let mut dice = Dice(3);
    let (mut still, mut no_longer) = (0, 0);
    let rows = rows();
    for _ in 0..100_000 {
        let mut words = rows[dice.below(rows.len() as u64) as usize].clone();
        for _ in 0..2 + dice.below(2) {
            // settings, count and position as often as all places
            let among = if dice.below(2) == 0 { 5 } else { words.len() };
            let at = dice.below(among as u64) as usize;
            let values: Vec<u32> = other_values(&words, at).into_iter().collect();
            words[at] = values[dice.below(values.len() as u64) as usize];
        }
        if refused_as_they_should(&words) {
            still += 1;
        } else {
            no_longer += 1;
        }
    }
    assert!(still > 2_000 && no_longer > 50_000, "{still} {no_longer}");
}

/// Each sentence of what a row is broken alone, and what is allowed though no calls lead to it.
#[test]
fn rows_by_sentence() {
    let good = [2, 15, 5, 3, 6, 2, 0, 2, 6, 0, 2, 9, 90, 1, 0, 0, 0];
    let with = |puts: &[(usize, u32)]| {
        let mut words = good;
        puts.iter().for_each(|(at, value)| words[*at] = *value);
        words
    };
    for (wanted, puts) in [
        (true, &[][..]),
        (false, &[(0, 1)]),
        (false, &[(0, 17)]),
        (true, &[(0, 16)]),
        (false, &[(1, 0)]),
        (false, &[(1, 8)]),
        (true, &[(1, 9)]),
        (false, &[(2, 4)]),
        (false, &[(2, 6)]),
        (false, &[(3, 5)]),
        (false, &[(3, 4)]),
        (false, &[(3, 2)]),
        // the position: a key between, one above all, a live key, the head
        (false, &[(4, 5)]),
        (false, &[(4, 10)]),
        (false, &[(4, 9)]),
        (true, &[(4, 2)]),
        (true, &[(4, 0)]),
        // keys: 0, twice the same, descending
        (false, &[(5, 0)]),
        (false, &[(5, 6)]),
        (false, &[(5, 7)]),
        (false, &[(8, 9), (4, 9)]),
        // marks, and the value of a dead key
        (false, &[(7, 0)]),
        (false, &[(7, 3)]),
        (false, &[(13, 0)]),
        (false, &[(6, 1)]),
        // a live key at the position, and below it
        (false, &[(10, 1)]),
        (false, &[(7, 1)]),
        (true, &[(10, 1), (4, 2)]),
        // dead keys above the position, and nothing live
        (true, &[(4, 0), (13, 2), (12, 0)]),
        // words of the unused place
        (false, &[(14, 10)]),
        (false, &[(15, 1)]),
        (false, &[(16, 2)]),
        (true, &[(3, 4), (14, 10), (16, 1)]),
    ] {
        assert_eq!(is_row(&with(puts)), wanted, "{puts:?}");
        assert_eq!(refused_as_they_should(&with(puts)), wanted, "{puts:?}");
    }
}

#[test]
fn lengths_from_0_to_20() {
    for c in [3, 4, 5, 6] {
        let words = fresh_row(2, 15, c);
        for length in 0..=20 {
            let mut cut = words.clone();
            cut.resize(length, 0);
            assert_eq!(refused_as_they_should(&cut), length == row_words(c), "C = {c}, {length} words");
            let set_up = row::set_up(2, 15, c, &mut cut);
            assert_eq!(set_up, if length == row_words(c) { Ok(()) } else { Err(Refusal::WrongLength) });
        }
    }
    // a list is no row, and a row no list
    assert_eq!(row::take(&mut fresh(2, 15, 8)), Err(Refusal::NotAList));
    assert_eq!(take(&mut fresh_row(2, 15, 8)), Err(Refusal::NotAList));
}

#[test]
fn settings_at_the_ends_of_their_ranges() {
    for (d, k, c, in_range) in [
        (1, 15, 8, false),
        (2, 15, 8, true),
        (16, 15, 8, true),
        (17, 15, 8, false),
        (2, 0, 8, false),
        (2, 1, 8, true),
        (2, u32::MAX, 8, true),
        (2, 15, 0, false),
        (2, 15, 2, false),
        (2, 15, 3, true),
        (2, 15, MOST_CELLS, true),
        (2, 15, MOST_CELLS + 1, false),
        (2, 15, u32::MAX, false),
    ] {
        // 1 comes before 2, so that a length need not fit settings out of range
        let mut words = vec![7; if in_range { row_words(c) } else { 4 }];
        let before = words.clone();
        assert_eq!(row::set_up(d, k, c, &mut words), if in_range { Ok(()) } else { Err(Refusal::OutOfRange) }, "{d} {k} {c}");
        assert_eq!(words != before, in_range);
        assert_eq!(is_row(&words), in_range);
    }
}

/// Each refusal before the next: 1, 2; 3, 4, 5, 6; 3, 4, 8; 3, 7.
#[test]
fn orders_of_refusals() {
    let mut short = [7; 4];
    assert_eq!(row::set_up(1, 15, 3, &mut short), Err(Refusal::OutOfRange));
    assert_eq!(row::set_up(2, 15, 3, &mut short), Err(Refusal::WrongLength));
    // full: 2 is dead, 6 live
    let mut full = fresh_row(2, 15, 3);
    assert_eq!((row::insert(&mut full, 2, 20), row::insert(&mut full, 6, 60)), (Ok(0), Ok(0)));
    assert!(row::take(&mut full).is_ok());
    // no row: the position is not a standing key
    let mut broken = full.clone();
    broken[4] = 3;
    for key in [0, 16, u32::MAX] {
        assert_eq!(row::insert(&mut broken, key, 1), Err(Refusal::NotAList));
        assert_eq!(row::find(&broken, key), Err(Refusal::NotAList));
        assert_eq!(row::finish(&broken, key), Err(Refusal::NotAList));
        assert_eq!(row::insert(&mut full, key, 1), Err(Refusal::BadKey));
        assert_eq!(row::find(&full, key), Err(Refusal::BadKey));
        assert_eq!(row::finish(&full, key), Err(Refusal::BadKey));
    }
    assert_eq!(row::take(&mut broken), Err(Refusal::NotAList));
    assert_eq!(row::sweep(&mut broken), Err(Refusal::NotAList));
    // 5 before 6; a dead key needs no room; a key that does not stand does
    assert_eq!(row::insert(&mut full, 6, 1), Err(Refusal::KeyLive { looked: 0 }));
    assert_eq!(row::insert(&mut full, 7, 1), Err(Refusal::NoFreeCell { looked: 0 }));
    assert_eq!(row::find(&full, 2), Err(Refusal::NotThere { looked: 0 }));
    assert_eq!(row::finish(&full, 2), Ok(0));
    assert_eq!(row::find(&full, 7), Err(Refusal::NotThere { looked: 0 }));
    assert_eq!(row::finish(&full, 7), Err(Refusal::NotThere { looked: 0 }));
    assert_eq!(row::insert(&mut full, 2, 21), Ok(0));
    for _ in 0..2 {
        assert!(row::take(&mut full).is_ok());
    }
    assert_eq!(row::take(&mut full), Err(Refusal::NothingLive { above: 0 }));
    assert_eq!(row::sweep(&mut full), Ok(1));
    assert_eq!(row::sweep(&mut full), Ok(0));
}

/// A `Row` that is refused at set up is none, and one on words that are no row refuses each call and leaves them.
#[test]
fn rows_in_lent_words() {
    let mut words = [7; row_words(8)];
    assert!(Row::set_up(2, 15, 7, &mut words).is_err());
    assert_eq!(words, [7; row_words(8)]);
    let mut row = Row::new(&mut words);
    assert_eq!(row.insert(1, 1), Err(Refusal::NotAList));
    assert_eq!(row.find(1), Err(Refusal::NotAList));
    assert_eq!(row.finish(1), Err(Refusal::NotAList));
    assert_eq!(row.take(), Err(Refusal::NotAList));
    assert_eq!(row.sweep(), Err(Refusal::NotAList));
    assert_eq!(row.words(), [7; row_words(8)]);
    assert_eq!((row_words(0), row_words(1), row_words(3)), (5, 5, 11));
}
