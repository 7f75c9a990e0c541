//! Many calls after one check: a random comparison with the same calls made alone, the refusals of a batch through the words as the archive
//! reads them, and `drain` beside takes.

mod common;

use common::{entry_key, fresh, Dice};
use mdlist_host::*;
use std::panic::{catch_unwind, resume_unwind, AssertUnwindSafe};

/// The functions of the archive as they are, to hand over words that no `Call` can be.
mod sys {
    #[repr(C)]
    pub struct Answer {
        pub refusal: u32,
        pub key: u32,
        pub value: u32,
        pub count: u32,
    }

    extern "C" {
        pub fn mdlist_insert(list: *mut u32, len: usize, key: u32, value: u32) -> Answer;
        pub fn mdlist_find(list: *const u32, len: usize, key: u32) -> Answer;
        pub fn mdlist_finish(list: *mut u32, len: usize, key: u32) -> Answer;
        pub fn mdlist_take(list: *mut u32, len: usize) -> Answer;
        pub fn mdlist_sweep(list: *mut u32, len: usize) -> Answer;
        pub fn mdlist_batch(
            list: *mut u32,
            len: usize,
            calls: *const u32,
            calls_len: usize,
            answers: *mut u32,
            answers_len: usize,
        ) -> Answer;
    }
}

fn four(a: sys::Answer) -> [u32; 4] {
    [a.refusal, a.key, a.value, a.count]
}

fn batch_words(list: &mut [u32], calls: &[u32], answers: &mut [u32]) -> [u32; 4] {
    let (list, len) = (list.as_mut_ptr(), list.len());
    // SAFETY: three slices that do not overlap, each its pointer and its length
    four(unsafe { sys::mdlist_batch(list, len, calls.as_ptr(), calls.len(), answers.as_mut_ptr(), answers.len()) })
}

/// Makes a call alone, given as the three words of a batch.
fn alone_words(list: &mut [u32], [kind, key, value]: [u32; 3]) -> [u32; 4] {
    let (list, len) = (list.as_mut_ptr(), list.len());
    // SAFETY: the words are lent to one call after the other
    four(unsafe {
        match kind {
            1 => sys::mdlist_insert(list, len, key, value),
            2 => sys::mdlist_find(list, len, key),
            3 => sys::mdlist_finish(list, len, key),
            4 => sys::mdlist_take(list, len),
            _ => sys::mdlist_sweep(list, len),
        }
    })
}

fn call([kind, key, value]: [u32; 3]) -> Call {
    match kind {
        1 => Call::insert(key, value),
        2 => Call::find(key),
        3 => Call::finish(key),
        4 => Call::take(),
        _ => Call::sweep(),
    }
}

/// Makes a call by its function: the answer to it in a batch reads the same.
fn alone_typed(list: &mut [u32], [kind, key, value]: [u32; 3], answer: Answered) {
    match kind {
        1 => assert_eq!(answer.inserted(), insert(list, key, value)),
        2 => assert_eq!(answer.found(), find(list, key)),
        3 => assert_eq!(answer.finished(), finish(list, key)),
        4 => assert_eq!(answer.taken(), take(list)),
        _ => assert_eq!(answer.swept(), sweep(list)),
    }
}

/// The words of a call at random; those that it does not need are anything. The key is at times that of the call before.
fn any_call(dice: &mut Dice, k: u32, before: u32) -> [u32; 3] {
    let kind = match dice.below(20) {
        0..=8 => 1,
        9..=11 => 2,
        12..=14 => 3,
        15..=18 => 4,
        _ => 5,
    };
    let key = match dice.below(20) {
        0 => 0,
        1 => k.saturating_add(1 + dice.below(3) as u32),
        2..=6 => 1 + dice.below(u64::from(k)) as u32,
        7..=11 if kind != 1 => before,
        _ => 1 + dice.below(u64::from(k.min(60))) as u32,
    };
    [kind, key, (2 * dice.below(1 << 31)) as u32 + dice.below(2) as u32]
}

fn any_calls(dice: &mut Dice, k: u32, count: usize) -> Vec<[u32; 3]> {
    let mut before = 0;
    let mut next = || {
        let call = any_call(dice, k, before);
        before = call[1];
        call
    };
    (0..count).map(|_| next()).collect()
}

/// No call, one, some, or many.
fn any_length(dice: &mut Dice) -> usize {
    match dice.below(8) {
        0 => 0,
        1 => 1,
        2 => 20 + dice.below(100) as usize,
        _ => 2 + dice.below(12) as usize,
    }
}

/// What the words of the answers hold before a batch.
const UNSET: u32 = 2_779_096_485;

#[test]
fn random_batches_beside_calls_made_alone() {
    let mut dice = Dice(1517);
    let mut answered = [0; 20];
    let (mut accepted_after_refused, mut moved, mut freed) = (0, 0, 0);
    for (d, k, c) in [(2, 15, 8), (3, 1000, 40), (8, 1_048_575, 64), (16, u32::MAX, 30), (15, u32::MAX, 20), (2, 1, 3), (8, u32::MAX, 100)]
    {
        // one list for calls made alone, one for batches of words, one for batches of `Call`
        let [mut alone, mut by_words, mut typed] = [(); 3].map(|_| fresh(d, k, c));
        for _ in 0..1500 {
            let count = any_length(&mut dice);
            let calls = any_calls(&mut dice, k, count);
            let past = dice.below(9) as usize;
            let mut answers = vec![UNSET; 4 * calls.len() + past];
            assert_eq!(batch_words(&mut by_words, calls.as_flattened(), &mut answers), [0, 0, 0, calls.len() as u32]);
            let mut answers_typed = vec![Answered::NONE; calls.len() + past];
            let calls_typed: Vec<Call> = calls.iter().map(|words| call(*words)).collect();
            assert_eq!(List::new(&mut typed).batch(&calls_typed, &mut answers_typed), Ok(calls.len()));
            let mut alone_again = alone.clone();
            let mut refused = false;
            for (i, words) in calls.iter().enumerate() {
                let expected = alone_words(&mut alone, *words);
                assert_eq!(answers[4 * i..4 * i + 4], expected, "{:?}", calls_typed[i]);
                alone_typed(&mut alone_again, *words, answers_typed[i]);
                answered[expected[0] as usize] += 1;
                accepted_after_refused += u32::from(refused && expected[0] == 0);
                moved += u32::from(words[0] == 3 && expected[3] > 0);
                freed += u32::from(words[0] == 5 && expected[3] > 0);
                refused |= expected[0] != 0;
            }
            assert!(alone == alone_again && alone == by_words && alone == typed, "{calls_typed:?}");
            assert!(answers[4 * calls.len()..].iter().all(|word| *word == UNSET));
            assert!(answers_typed[calls.len()..].iter().all(|answer| *answer == Answered::NONE));
        }
    }
    for refusal in [0, 4, 5, 6, 7, 8] {
        assert!(answered[refusal] > 1000, "{answered:?}");
    }
    assert!([1, 2, 3, 9, 13, 14, 19].iter().all(|refusal| answered[*refusal] == 0), "{answered:?}");
    assert!(accepted_after_refused > 10_000 && moved > 100 && freed > 1000, "{accepted_after_refused} {moved} {freed}");
}

/// Many more calls than cells.
#[test]
fn a_long_batch() {
    let mut dice = Dice(100_000);
    let [mut alone, mut batched] = [(); 2].map(|_| fresh(2, 15, 8));
    let calls = any_calls(&mut dice, 15, 100_000);
    let mut answers = vec![UNSET; 400_000];
    assert_eq!(batch_words(&mut batched, calls.as_flattened(), &mut answers), [0, 0, 0, 100_000]);
    let expected: Vec<u32> = calls.iter().flat_map(|words| alone_words(&mut alone, *words)).collect();
    assert!(answers == expected && batched == alone);
}

/// The call reads and writes what it is lent, and no word beside it.
#[test]
fn a_batch_amid_other_words() {
    let n = words_needed(2, 8);
    let mut list = vec![9; n + 10];
    assert_eq!(set_up(2, 15, 8, &mut list[5..n + 5]), Ok(()));
    let calls = [7, 7, 7, 1, 6, 60, 1, 6, 61, 4, 7, 7, 7, 7, 7];
    let mut answers = [9; 22];
    assert_eq!(batch_words(&mut list[5..n + 5], &calls[3..12], &mut answers[5..17]), [0, 0, 0, 3]);
    assert_eq!(answers[5..17], [0, 6, 0, 0, 5, 6, 0, 1, 0, 6, 60, 1]);
    assert!(answers[..5].iter().chain(&answers[17..]).all(|word| *word == 9));
    assert!(list[..5].iter().chain(&list[n + 5..]).all(|word| *word == 9));
}

/// A list with live, dead and free cells, and something owed.
fn some_list() -> Vec<u32> {
    let mut list = fresh(3, 63, 10);
    for key in [20, 21, 5, 6, 40, 39] {
        assert!(insert(&mut list, key, 10 * key).is_ok());
    }
    assert_eq!(take(&mut list).map(|t| t.key), Ok(5));
    list
}

#[test]
fn no_calls() {
    let mut list = some_list();
    let before = list.clone();
    let mut answers = [UNSET; 5];
    assert_eq!(batch_words(&mut list, &[], &mut []), [0, 0, 0, 0]);
    assert_eq!(batch_words(&mut list, &[], &mut answers), [0, 0, 0, 0]);
    assert_eq!(batch(&mut list, &[], &mut []), Ok(0));
    assert_eq!(batch(&mut list, &[], &mut [Answered::NONE]), Ok(0));
    assert_eq!(list, before);
    assert_eq!(answers, [UNSET; 5]);
    assert_eq!(batch(&mut [], &[], &mut []), Err(Refusal::NotAList));
    assert_eq!(batch_words(&mut [], &[], &mut answers), [3, 0, 0, 0]);
    assert_eq!(answers, [UNSET; 5]);
}

/// Hands words over that are refused by a number: no word of the list or of the answers is changed.
fn refused_words(list: &[u32], calls: &[u32], room: usize, refusal: u32) {
    let (mut after, mut answers) = (list.to_vec(), vec![UNSET; room]);
    assert_eq!(batch_words(&mut after, calls, &mut answers), [refusal, 0, 0, 0], "{calls:?} with room {room}");
    assert!(after == list && answers.iter().all(|word| *word == UNSET), "{calls:?} with room {room}");
}

/// Every form of words that are no batch.
fn no_batches() -> Vec<(Vec<u32>, usize)> {
    let mut forms = Vec::new();
    let good: Vec<u32> = [[1, 9, 90], [4, 0, 0], [2, 6, 0], [5, 0, 0], [3, 21, 0]].concat();
    // not whole calls: up to five, and one or two words
    for words in (0..=good.len()).filter(|words| words % 3 != 0) {
        forms.push((good[..words].to_vec(), 100));
    }
    // a kind that is none of the five, in each place
    for place in 0..5 {
        for kind in [0, 6, 7, 255, 256 + 1, 65_536 + 4, 1 << 31, u32::MAX] {
            let mut calls = good.clone();
            calls[3 * place] = kind;
            forms.push((calls, 20));
        }
    }
    // too little room for the answers of one to five calls
    for calls in 1..=5 {
        forms.extend((0..4 * calls).map(|room| (good[..3 * calls].to_vec(), room)));
    }
    // all at once
    forms.push((vec![0, 0, 0, 0], 0));
    forms
}

#[test]
fn refused_by_19() {
    let list = some_list();
    for (calls, room) in no_batches() {
        refused_words(&list, &calls, room, 19);
    }
    // the same calls with just the room
    let mut after = list.clone();
    let mut answers = [UNSET; 20];
    let good = [[1, 9, 90], [4, 0, 0], [2, 6, 0], [5, 0, 0], [3, 21, 0]];
    assert_eq!(batch_words(&mut after, good.as_flattened(), &mut answers), [0, 0, 0, 5]);
    assert!(after != list && !answers.contains(&UNSET));
}

/// The list is checked first.
#[test]
fn refused_by_3_before_19() {
    let mut long = some_list();
    long.push(0);
    for list in [&[][..], &[7; 87], &long, &long[..long.len() - 2]] {
        refused_words(list, &[], 0, 3);
        refused_words(list, &[4, 0, 0], 4, 3);
        for (calls, room) in no_batches() {
            refused_words(list, &calls, room, 3);
        }
    }
}

#[test]
fn damaged_list_is_refused_and_left_alone() {
    let list = some_list();
    let mut refused = 0;
    for i in 0..list.len() {
        let mut bad = list.clone();
        bad[i] = bad[i].wrapping_add(1);
        if find(&bad, 20) == Err(Refusal::NotAList) {
            refused_words(&bad, &[1, 9, 90, 4, 0, 0, 5, 0, 0], 12, 3);
            refused_words(&bad, &[1, 9, 90, 6, 0, 0, 5, 0, 0], 12, 3);
            refused += 1;
        } else {
            assert_eq!(batch(&mut bad, &[Call::take()], &mut [Answered::NONE]), Ok(1));
        }
    }
    assert!(refused > list.len() / 2, "{refused}");
}

#[test]
fn refused_by_the_typed_functions() {
    let list = some_list();
    let calls = [Call::insert(9, 90), Call::take(), Call::find(6), Call::finish(21), Call::sweep()];
    for count in 1..=5 {
        for room in 0..count {
            let (mut after, mut answers) = (list.clone(), vec![Answered::NONE; room]);
            assert_eq!(batch(&mut after, &calls[..count], &mut answers), Err(Refusal::BadBatch));
            assert_eq!(List::new(&mut after).batch(&calls[..count], &mut answers), Err(Refusal::BadBatch));
            assert!(after == list && answers.iter().all(|answer| *answer == Answered::NONE));
            assert_eq!(batch(&mut after[1..], &calls[..count], &mut answers), Err(Refusal::NotAList));
            assert!(after == list && answers.iter().all(|answer| *answer == Answered::NONE));
        }
    }
    let mut answers = [Answered::NONE; 5];
    assert_eq!(batch(&mut [7; 87], &calls, &mut answers), Err(Refusal::NotAList));
    assert_eq!(answers, [Answered::NONE; 5]);
}

/// An answer that no call has given is no accepted call, however it is read.
#[test]
fn no_answer_yet() {
    let none = Refusal::Unknown(u32::MAX);
    assert_eq!(Answered::NONE.inserted(), Err(none));
    assert_eq!(Answered::NONE.found(), Err(none));
    assert_eq!(Answered::NONE.finished(), Err(none));
    assert_eq!(Answered::NONE.taken(), Err(none));
    assert_eq!(Answered::NONE.swept(), Err(none));
}

#[test]
fn calls_as_texts() {
    const CALLS: [Call; 5] = [Call::insert(6, 60), Call::find(5), Call::finish(4), Call::take(), Call::sweep()];
    assert_eq!(format!("{CALLS:?}"), "[insert(6, 60), find(5), finish(4), take(), sweep()]");
    for (i, call) in CALLS.iter().enumerate() {
        assert_eq!(CALLS.iter().position(|other| other == call), Some(i));
    }
}

/// Notes of a night put in by one batch, some of them taken by a second, and the rest drained: docs/REFERENCE.md, *Entries*.
#[test]
fn notes_most_urgent_first() {
    let mut words = fresh(8, u32::MAX, 512);
    let mut list = List::new(&mut words);
    let notes = [(1, 1_117, 0), (0, 117, 0), (1, 117, 1), (1, 117, 0), (1, 117, 1), (15, 65_535, 4_095)];
    let calls: Vec<Call> =
        (1..).zip(notes).map(|(value, (class, unit, serial))| Call::insert(entry_key(class, unit, serial), value)).collect();
    let mut answers = [Answered::NONE; 6];
    assert_eq!(list.batch(&calls, &mut answers), Ok(6));
    let refused: Vec<usize> = (0..6).filter(|i| answers[*i].inserted().is_err()).collect();
    assert_eq!(refused, [4]);
    assert!(matches!(answers[4].inserted(), Err(Refusal::KeyLive { .. })));
    assert_eq!(list.batch(&[Call::take(); 2], &mut answers), Ok(2));
    let mut values: Vec<u32> = answers[..2].iter().map(|answer| answer.taken().unwrap().value).collect();
    assert_eq!(list.drain(|taken| values.push(taken.value)), Ok(3));
    assert_eq!(values, [2, 4, 3, 1, 6]);
}

/// Takes up to the one that is refused by 7.
fn taken_alone(list: &mut [u32]) -> Vec<Taken> {
    let taken = std::iter::from_fn(|| take(list).ok()).collect();
    assert!(matches!(take(list), Err(Refusal::NothingLive { .. })));
    taken
}

/// A list of D = 3, K = 999,999 and C = 1,100 with some live keys, in no order.
fn list_of(dice: &mut Dice, live: u32) -> Vec<u32> {
    let mut list = fresh(3, 999_999, 1_100);
    let mut inserted = 0;
    while inserted < live {
        let calls: Vec<Call> = (inserted..live).map(|value| Call::insert(1 + dice.below(999_999) as u32, value)).collect();
        let mut answers = vec![Answered::NONE; calls.len()];
        assert_eq!(batch(&mut list, &calls, &mut answers), Ok(calls.len()));
        inserted += answers.iter().filter(|answer| answer.inserted().is_ok()).count() as u32;
    }
    list
}

/// Drains a list, and takes from another: both hand out and leave the same. Answers how many there were.
fn drained(list: &mut [u32]) -> u32 {
    let mut alone = list.to_vec();
    let mut taken = Vec::new();
    let count = List::new(list).drain(|entry| taken.push(entry)).unwrap();
    assert_eq!(taken, taken_alone(&mut alone));
    assert!(list == alone && taken.len() == count as usize);
    count
}

#[test]
fn drain_beside_takes() {
    let mut dice = Dice(256);
    for live in [0, 1, 2, 63, 64, 65, 255, 256, 257, 511, 512, 513, 1_000, 1_099] {
        let mut list = list_of(&mut dice, live);
        assert_eq!(drained(&mut list), live);
        assert_eq!(drained(&mut list), 0);
    }
}

/// Lists with dead keys before, between and after the live ones.
#[test]
fn drain_after_random_calls() {
    let mut dice = Dice(64);
    let mut counts = 0;
    for (d, k, c) in [(2, 15, 8), (3, 1000, 40), (8, 1_048_575, 400), (16, u32::MAX, 30), (2, 1, 3)] {
        let mut list = fresh(d, k, c);
        for _ in 0..60 {
            let count = dice.below(u64::from(2 * c)) as usize;
            for words in any_calls(&mut dice, k, count) {
                alone_words(&mut list, words);
            }
            counts += drained(&mut list);
            assert_eq!(drained(&mut list), 0);
        }
    }
    assert!(counts > 2000, "{counts}");
}

#[test]
fn drain_on_other_words() {
    let mut words = vec![7; 87];
    assert_eq!(drain(&mut words, |taken| panic!("{taken:?}")), Err(Refusal::NotAList));
    assert_eq!(List::new(&mut []).drain(|taken| panic!("{taken:?}")), Err(Refusal::NotAList));
    assert!(words.iter().all(|word| *word == 7));
}

/// If `each` unwinds, what it was not given is live again, with its value.
#[test]
fn drain_that_unwinds_loses_nothing() {
    let mut dice = Dice(600);
    for stop in [0, 1, 2, 100, 254, 255, 256, 257, 400, 511, 512, 598, 599] {
        let mut list = list_of(&mut dice, 600);
        let all = taken_alone(&mut list.clone());
        let mut given = Vec::new();
        let unwound = catch_unwind(AssertUnwindSafe(|| {
            drain(&mut list, |taken| {
                given.push(taken);
                if given.len() > stop {
                    resume_unwind(Box::new(stop));
                }
            })
        }));
        assert_eq!(unwound.unwrap_err().downcast_ref(), Some(&stop));
        assert_eq!(given, all[..=stop]);
        let rest = taken_alone(&mut list);
        let entry = |taken: &Taken| (taken.key, taken.value);
        assert!(rest.iter().map(entry).eq(all[stop + 1..].iter().map(entry)), "{stop}");
    }
}
