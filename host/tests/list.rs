//! The list through its Rust functions: fourteen steps, units that begin alike, notes for one unit, notes that come late, the edges, the
//! texts of the refusals, the methods of `List`, and a random comparison with an ordered map.

mod common;

use common::{entry_key, fresh, Dice};
use mdlist_host::*;
use std::collections::{BTreeMap, BTreeSet};

fn taken(key: u32, value: u32, passed: u32) -> Result<Taken, Refusal> {
    Ok(Taken { key, value, passed })
}

#[test]
fn fourteen_steps() {
    let mut l = fresh(2, 15, 8);
    assert_eq!(insert(&mut l, 6, 60), Ok(0));
    assert_eq!(insert(&mut l, 5, 50), Ok(1));
    assert_eq!(insert(&mut l, 9, 90), Ok(1));
    assert_eq!(find(&l, 6), Ok(Found { value: 60, looked: 2 }));
    assert_eq!(take(&mut l), taken(5, 50, 1));
    assert_eq!(take(&mut l), taken(6, 60, 1));
    assert_eq!(insert(&mut l, 2, 20), Ok(0));
    assert_eq!(take(&mut l), taken(2, 20, 1));
    assert_eq!(take(&mut l), taken(9, 90, 3));
    assert_eq!(insert(&mut l, 6, 61), Ok(2));
    assert_eq!(take(&mut l), taken(6, 61, 1));
    assert_eq!(take(&mut l), Err(Refusal::NothingLive { above: 1 }));
    assert_eq!(sweep(&mut l), Ok(3));
    assert_eq!(insert(&mut l, 5, 51), Ok(1));
}

/// Units 117 and 1117 of one class are both accepted, found, and taken in order: docs/REFERENCE.md, *Entries*.
#[test]
fn unit_1117_beside_unit_117() {
    let mut l = fresh(8, u32::MAX, 512);
    assert_eq!(insert(&mut l, entry_key(1, 117, 0), 41), Ok(0));
    assert_eq!(insert(&mut l, entry_key(1, 1117, 0), 42), Ok(1));
    assert_eq!(insert(&mut l, entry_key(0, 117, 0), 43), Ok(0));
    assert_eq!(insert(&mut l, entry_key(1, 117, 0), 44), Err(Refusal::KeyLive { looked: 1 }));
    assert_eq!(find(&l, entry_key(1, 1117, 0)).map(|f| f.value), Ok(42));
    assert_eq!(take(&mut l), taken(479_232, 43, 1));
    assert_eq!(take(&mut l), taken(268_914_688, 41, 1));
    assert_eq!(take(&mut l), taken(273_010_688, 42, 1));
    assert_eq!(take(&mut l), Err(Refusal::NothingLive { above: 0 }));
}

/// Two notes for one unit in one class are both accepted, and taken in the order of their serials: docs/REFERENCE.md, *Entries*.
#[test]
fn two_notes_for_one_unit() {
    let mut l = fresh(8, u32::MAX, 512);
    assert!(insert(&mut l, entry_key(1, 117, 4_095), 72).is_ok());
    assert!(insert(&mut l, entry_key(1, 117, 0), 71).is_ok());
    assert!(insert(&mut l, entry_key(1, 118, 0), 73).is_ok());
    assert_eq!(take(&mut l), taken(268_914_688, 71, 1));
    assert_eq!(take(&mut l), taken(268_918_783, 72, 1));
    assert_eq!(take(&mut l), taken(268_918_784, 73, 1));
}

/// The words of a cell: docs/REFERENCE.md, *The words*.
fn cell(list: &[u32], x: u32) -> &[u32] {
    let d = list[0] as usize;
    let length = 6 + d;
    &list[5 + d + x as usize * length..][..length]
}

/// The key of the position: its cell is the last word of the path.
fn position(list: &[u32]) -> u32 {
    cell(list, list[4 + list[0] as usize])[0]
}

/// The keys that stand, the head's 0 among them.
fn standing(list: &[u32]) -> BTreeSet<u32> {
    (0..list[2]).map(|x| cell(list, x)).filter(|words| words[2] != 0).map(|words| words[0]).collect()
}

/// A note at or below the position moves it to the key before the note's, and the next take passes no other: docs/REFERENCE.md,
/// *The operations 2*.
#[test]
fn late_note() {
    let mut l = fresh(2, 15, 8);
    for key in [4, 5, 6, 9] {
        assert!(insert(&mut l, key, 10 * key).is_ok());
    }
    for key in [4, 5, 6, 9] {
        assert_eq!(take(&mut l), taken(key, 10 * key, 1));
    }
    assert_eq!(insert(&mut l, 8, 80), Ok(2));
    assert_eq!(position(&l), 6);
    assert_eq!(take(&mut l), taken(8, 80, 1));
    // the position's own key, which is dead now
    assert_eq!(insert(&mut l, 8, 81), Ok(2));
    assert_eq!(position(&l), 6);
    assert_eq!(take(&mut l), taken(8, 81, 1));
    // a dead key and then a new one with no other below
    assert_eq!(insert(&mut l, 4, 41), Ok(1));
    assert_eq!(position(&l), 0);
    assert_eq!(take(&mut l), taken(4, 41, 1));
    assert_eq!(insert(&mut l, 2, 20), Ok(0));
    assert_eq!(position(&l), 0);
    assert_eq!(take(&mut l), taken(2, 20, 1));
    // a key above the position leaves it: 4, 5, 6 and 8 are passed again
    assert_eq!(insert(&mut l, 9, 91), Ok(3));
    assert_eq!(position(&l), 2);
    assert_eq!(take(&mut l), taken(9, 91, 5));
}

#[test]
fn every_late_note_is_taken_next() {
    let mut dice = Dice(4);
    let [mut new, mut revived, mut own, mut above_several] = [0; 4];
    for (d, k, c) in [(2, 15, 8), (3, 1000, 40), (8, u32::MAX, 64), (15, 1_048_575, 20), (16, u32::MAX, 30)] {
        let mut list = fresh(d, k, c);
        for _ in 0..3000 {
            let (before, stood) = (position(&list), standing(&list));
            let key = match dice.below(8) {
                0 => before.max(1),
                1 => 1 + dice.below(u64::from(k)) as u32,
                _ => 1 + dice.below(u64::from(k.min(60))) as u32,
            };
            let value = dice.below(1 << 31) as u32;
            match dice.below(16) {
                0..=7 => match insert(&mut list, key, value) {
                    Ok(_) if key <= before => {
                        assert_eq!(Some(&position(&list)), stood.range(..key).next_back());
                        // on a copy, so that notes also come late after one that waits
                        assert_eq!(take(&mut list.clone()), taken(key, value, 1));
                        new += u32::from(!stood.contains(&key));
                        revived += u32::from(stood.contains(&key));
                        own += u32::from(key == before);
                        above_several += u32::from(stood.range(1..key).count() >= 3);
                    }
                    Ok(_) => assert_eq!(position(&list), before),
                    Err(Refusal::KeyLive { .. }) => (),
                    Err(refusal) => {
                        assert!(matches!(refusal, Refusal::NoFreeCell { .. }), "{refusal}");
                        assert!(sweep(&mut list).is_ok());
                    }
                },
                8 => _ = finish(&mut list, key),
                _ => _ = take(&mut list),
            }
        }
    }
    let seen = [new, revived, own, above_several];
    assert!(seen.iter().all(|many| *many > 500), "{seen:?}");
}

/// The texts that the refusals of real calls show, and their numbers: docs/REFERENCE.md, *Refusals*.
#[test]
fn refusals_as_texts() {
    let mut l = fresh(2, 15, 4);
    for key in [3, 7, 11] {
        assert!(insert(&mut l, key, key).is_ok());
    }
    let short = &mut [0; 3];
    let shown = [
        (set_up(2, 0, 8, short).unwrap_err(), "refusal 1: D, K or C is out of range"),
        (set_up(2, 15, 8, short).unwrap_err(), "refusal 2: the slice has not the exact length"),
        (sweep(short).unwrap_err(), "refusal 3: the words are not a list, or not a row"),
        (find(&l, 16).unwrap_err(), "refusal 4: the key is 0 or above K, or the class above 15"),
        (insert(&mut l, 7, 0).unwrap_err(), "refusal 5: the key is live already; cells looked at: 1"),
        (insert(&mut l, 5, 0).unwrap_err(), "refusal 6: no cell is free; cells looked at: 1"),
        (take(&mut fresh(2, 15, 4)).unwrap_err(), "refusal 7: nothing is live; standing keys above the position: 0"),
        (find(&l, 15).unwrap_err(), "refusal 8: the key is not there; cells looked at: 2"),
        (read(b"", short).unwrap_err(), "refusal 11: the bytes are not a file of a list"),
        (write(&l, &mut []).unwrap_err(), "refusal 12: there is no room for the file"),
        (record(&mut l, b"", &mut 0).unwrap_err(), "refusal 13: the record breaks the grammar or a field's range"),
        (record(&mut l, b"0,1,0,,65535", &mut 0).unwrap_err(), "refusal 14: the full number does not fit in 32 bits"),
        (counted::take(&mut l, &mut []).unwrap_err(), "refusal 15: the class record is not the list's, or has not 32 words"),
        (
            batch(&mut l, &[Call::take()], &mut []).unwrap_err(),
            "refusal 19: the words are no batch of calls, or there is no room for the answers",
        ),
        (Refusal::Unknown(9), "refusal 9: no call answers it; the archive and the package do not belong together"),
    ];
    for (refusal, text) in shown {
        let error: Box<dyn std::error::Error> = Box::new(refusal);
        assert_eq!(error.to_string(), text);
        assert!(text.starts_with(&format!("refusal {}: ", u32::from(refusal))));
    }
}

/// The methods of `List` do what the functions do, word for word, and a `List` made anew on the words goes on with them.
#[test]
fn list_methods_beside_the_functions() {
    let mut l = fresh(2, 15, 8);
    let mut words = vec![7; words_needed(2, 8)];
    let mut list = List::set_up(2, 15, 8, &mut words).unwrap();
    assert_eq!(list.words(), l);
    for key in [6, 5, 5, 9, 16] {
        assert_eq!(list.insert(key, 10 * key), insert(&mut l, key, 10 * key));
        assert_eq!(list.words(), l);
    }
    assert_eq!(list.find(9), find(&l, 9));
    assert_eq!(list.find(10), Err(Refusal::NotThere { looked: 2 }));
    assert_eq!(list.insert(4, 40), insert(&mut l, 4, 40));
    let mut list = List::new(&mut words);
    assert_eq!(list.finish(4), Ok(1));
    assert_eq!(finish(&mut l, 4), Ok(1));
    assert_eq!(list.words(), l);
    for _ in 0..5 {
        assert_eq!(list.take(), take(&mut l));
        assert_eq!(list.words(), l);
    }
    assert_eq!(list.sweep(), Ok(3));
    assert_eq!(sweep(&mut l), Ok(3));
    assert_eq!(words, l);
}

/// A `List` on words that are not a list refuses each call and leaves them; a set up that is refused gives no `List`.
#[test]
fn list_on_other_words() {
    let mut words = vec![7; 87];
    let mut list = List::new(&mut words);
    assert_eq!(list.insert(1, 1), Err(Refusal::NotAList));
    assert_eq!(list.find(1), Err(Refusal::NotAList));
    assert_eq!(list.finish(1), Err(Refusal::NotAList));
    assert_eq!(list.take(), Err(Refusal::NotAList));
    assert_eq!(list.sweep(), Err(Refusal::NotAList));
    assert_eq!(List::set_up(2, 15, 7, &mut words).err(), Some(Refusal::WrongLength));
    assert!(words.iter().all(|w| *w == 7));
}

#[test]
fn edges() {
    for (d, k, c) in [(1, 15, 8), (17, 15, 8), (2, 0, 8), (2, 15, 2), (2, 15, MOST_CELLS + 1), (2, 15, u32::MAX)] {
        let mut l = vec![7; 200_000];
        assert_eq!(set_up(d, k, c, &mut l), Err(Refusal::OutOfRange));
        assert!(l.iter().all(|w| *w == 7));
    }
    for (d, k, c) in [(2, 15, 8), (16, u32::MAX, 4096), (16, u32::MAX, 4097), (2, 1, 3)] {
        for n in [0, words_needed(d, c) - 1, words_needed(d, c) + 1] {
            let mut l = vec![7; n];
            assert_eq!(set_up(d, k, c, &mut l), Err(Refusal::WrongLength));
            assert!(l.iter().all(|w| *w == 7));
        }
        let mut l = fresh(d, k, c);
        assert_eq!(insert(&mut l, 0, 1), Err(Refusal::BadKey));
        assert_eq!(insert(&mut l, 1, 1), Ok(0));
        if k < u32::MAX {
            assert_eq!(insert(&mut l, k + 1, 1), Err(Refusal::BadKey));
        }
        assert!(insert(&mut l, k, 2).is_ok() || k == 1);
    }
}

#[test]
fn full_list_takes_a_dead_key_again() {
    let mut l = fresh(2, 15, 4);
    for key in [3, 7, 11] {
        assert!(insert(&mut l, key, key).is_ok());
    }
    assert!(matches!(insert(&mut l, 5, 5), Err(Refusal::NoFreeCell { .. })));
    assert_eq!(take(&mut l), taken(3, 3, 1));
    assert!(insert(&mut l, 3, 30).is_ok());
    assert_eq!(take(&mut l), taken(3, 30, 1));
}

#[test]
fn empty_slice_is_no_list() {
    let mut none: [u32; 0] = [];
    assert_eq!(find(&none, 1), Err(Refusal::NotAList));
    assert_eq!(insert(&mut none, 1, 1), Err(Refusal::NotAList));
    assert_eq!(take(&mut none), Err(Refusal::NotAList));
    assert_eq!(sweep(&mut none), Err(Refusal::NotAList));
    assert_eq!(finish(&mut none, 1), Err(Refusal::NotAList));
    assert_eq!(write(&none, &mut []), Err(Refusal::NotAList));
    assert_eq!(read(&[], &mut none), Err(Refusal::BadFile));
    assert_eq!(set_up(2, 15, 8, &mut none), Err(Refusal::WrongLength));
}

#[test]
fn damaged_list_is_refused_and_left_alone() {
    let mut l = fresh(3, 63, 10);
    for key in [20, 21, 5, 6, 40] {
        assert!(insert(&mut l, key, key).is_ok());
    }
    for i in 0..l.len() {
        let mut bad = l.clone();
        bad[i] = bad[i].wrapping_add(1);
        let before = bad.clone();
        if find(&bad, 20) == Err(Refusal::NotAList) {
            assert_eq!(insert(&mut bad, 9, 9), Err(Refusal::NotAList));
            assert_eq!(take(&mut bad), Err(Refusal::NotAList));
            assert_eq!(sweep(&mut bad), Err(Refusal::NotAList));
            assert_eq!(bad, before);
        }
    }
}

#[test]
fn two_lists_side_by_side_and_one_amid_other_words() {
    let n = words_needed(2, 8);
    let mut words = vec![9u32; 3 * n + 20];
    let (front, back) = words.split_at_mut(n + 10);
    let first = &mut front[5..5 + n];
    let second = &mut back[5..5 + n];
    assert_eq!(set_up(2, 15, 8, first), Ok(()));
    assert_eq!(set_up(2, 15, 8, second), Ok(()));
    assert_eq!(insert(first, 6, 60), Ok(0));
    assert_eq!(insert(second, 5, 50), Ok(0));
    assert_eq!(take(first), taken(6, 60, 1));
    assert_eq!(take(second), taken(5, 50, 1));
    assert!(words[..5].iter().chain(&words[5 + n..n + 15]).chain(&words[n + 15 + n..]).all(|w| *w == 9));
}

#[test]
fn random_calls_beside_an_ordered_map() {
    let mut dice = Dice(2026);
    for (d, k, c) in [(2, 15, 8), (3, 1000, 40), (8, 1_048_575, 64), (16, u32::MAX, 30), (15, u32::MAX, 20)] {
        let mut list = fresh(d, k, c);
        let mut map = BTreeMap::new();
        for _ in 0..3000 {
            let key = match dice.below(3) {
                0 => 1 + dice.below(u64::from(k)) as u32,
                _ => 1 + dice.below(u64::from(k.min(60))) as u32,
            };
            match dice.below(8) {
                0..=3 => {
                    let value = dice.below(1 << 32) as u32;
                    match insert(&mut list, key, value) {
                        Ok(_) => assert_eq!(map.insert(key, value), None),
                        Err(Refusal::KeyLive { .. }) => assert!(map.contains_key(&key)),
                        Err(Refusal::NoFreeCell { .. }) => {
                            assert!(!map.contains_key(&key));
                            assert!(sweep(&mut list).is_ok());
                        }
                        other => panic!("{other:?}"),
                    }
                }
                4 => assert_eq!(find(&list, key).ok().map(|f| f.value), map.get(&key).copied()),
                5 => assert!(finish(&mut list, key).is_ok() || !map.contains_key(&key)),
                6 => assert_eq!(take(&mut list).ok().map(|t| (t.key, t.value)), map.pop_first()),
                _ => assert!(sweep(&mut list).is_ok()),
            }
        }
        while let Some(pair) = map.pop_first() {
            assert_eq!(take(&mut list).ok().map(|t| (t.key, t.value)), Some(pair));
        }
        assert!(matches!(take(&mut list), Err(Refusal::NothingLive { .. })));
    }
}
