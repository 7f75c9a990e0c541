//! Lists with a class record beside them: what a record's words are, agreement with a model after random calls, batches and reads, the
//! orders of refusals, damage of every word, lengths from 0 to 64, the question about one class, and the example `screen`.

mod common;
#[path = "../examples/screen.rs"]
#[allow(dead_code)]
mod screen;

use common::{entry_key, Dice};
use mdlist_host::*;
use std::collections::BTreeMap;

/// Where a class begins.
const KEYS_PER_CLASS: u32 = 268_435_456;

/// What waits: each live key with its value.
type Waiting = BTreeMap<u32, u32>;

/// A list, its class record and, for the calls that need them, bytes and a last number.
#[derive(Clone, Debug, PartialEq)]
struct Lent {
    words: Vec<u32>,
    classes: Vec<u32>,
    bytes: Vec<u8>,
    last: u64,
}

impl Lent {
    fn fresh(d: u32, k: u32, c: u32) -> Lent {
        // what the words held does not matter
        let mut lent = Lent { words: vec![7; words_needed(d, c)], classes: vec![7; CLASS_WORDS], bytes: vec![], last: NONE_YET };
        assert_eq!(counted::set_up(d, k, c, &mut lent.words, &mut lent.classes), Ok(()));
        assert_eq!(lent.classes, [0; CLASS_WORDS]);
        lent
    }

    fn with(mut self, keys: &[u32]) -> Lent {
        for key in keys {
            assert!(counted::insert(&mut self.words, &mut self.classes, *key, key / 2).is_ok());
        }
        self
    }

    /// The number of the refusal of a call, 0 if it is accepted. One that is refused alters nothing.
    fn refusal(&mut self, call: fn(&mut Lent) -> Result<(), Refusal>) -> u32 {
        let before = self.clone();
        let refusal = call(self).map_or_else(Refusal::number, |()| 0);
        assert!(refusal == 0 || *self == before, "a call was refused by {refusal} and altered something");
        refusal
    }

    /// Makes the call, which is accepted, on a copy.
    fn accepts(&self, call: fn(&mut Lent) -> Result<(), Refusal>) -> bool {
        self.clone().refusal(call) == 0
    }

    fn holds(&self, waiting: &Waiting) {
        assert_eq!(self.classes, of_keys(waiting.keys().copied()));
        for number in 0..16 {
            let at = 2 * number as usize;
            let expected = InClass { count: self.classes[at], least: self.classes[at + 1] };
            assert_eq!(counted::class(&self.classes, number), Ok(expected));
        }
    }
}

/// The record of some keys, whatever their order.
fn of_keys(keys: impl Iterator<Item = u32>) -> Vec<u32> {
    let mut classes = vec![0; CLASS_WORDS];
    for key in keys {
        let at = 2 * (key / KEYS_PER_CLASS) as usize;
        classes[at + 1] = if classes[at] == 0 { key } else { key.min(classes[at + 1]) };
        classes[at] += 1;
    }
    classes
}

/// A call with its name.
type Named = (&'static str, fn(&mut Lent) -> Result<(), Refusal>);

/// Every call but set up, read and the question, with a key that is in range.
const CALLS: [Named; 9] = [
    ("insert", |l| counted::insert(&mut l.words, &mut l.classes, 7, 1).map(|_| ())),
    ("find", |l| counted::find(&l.words, &l.classes, 6).map(|_| ())),
    ("finish", |l| counted::finish(&mut l.words, &l.classes, 6).map(|_| ())),
    ("take", |l| counted::take(&mut l.words, &mut l.classes).map(|_| ())),
    ("sweep", |l| counted::sweep(&mut l.words, &l.classes).map(|_| ())),
    ("record", |l| counted::record(&mut l.words, &mut l.classes, b"0,1,2,text,7\r\n", &mut l.last).map(|_| ())),
    ("write", |l| counted::write(&l.words, &l.classes, &mut l.bytes).map(|_| ())),
    ("batch", |l| counted::batch(&mut l.words, &mut l.classes, &[Call::take()], &mut [Answered::NONE]).map(|_| ())),
    ("batch of none", |l| counted::batch(&mut l.words, &mut l.classes, &[], &mut []).map(|_| ())),
];

/// Calls that a list refuses by itself, each with the number that it gives then.
const REFUSED: [(u32, Named); 12] = [
    (4, ("insert of key 0", |l| counted::insert(&mut l.words, &mut l.classes, 0, 1).map(|_| ()))),
    (4, ("find of key 0", |l| counted::find(&l.words, &l.classes, 0).map(|_| ()))),
    (4, ("finish of a key above K", |l| counted::finish(&mut l.words, &l.classes, u32::MAX).map(|_| ()))),
    (5, ("insert of a live key", |l| counted::insert(&mut l.words, &mut l.classes, 6, 1).map(|_| ()))),
    (6, ("insert into a full list", |l| counted::insert(&mut l.words, &mut l.classes, 7, 1).map(|_| ()))),
    (8, ("find of a dead key", |l| counted::find(&l.words, &l.classes, 5).map(|_| ()))),
    (8, ("finish of a key that does not stand", |l| counted::finish(&mut l.words, &l.classes, 7).map(|_| ()))),
    (12, ("write into no room", |l| counted::write(&l.words, &l.classes, &mut l.bytes[..40]).map(|_| ()))),
    (13, ("record that breaks the grammar", |l| counted::record(&mut l.words, &mut l.classes, b"0,1,2,7", &mut l.last).map(|_| ()))),
    (14, ("record whose number does not fit", |l| counted::record(&mut l.words, &mut l.classes, b"0,1,2,,65535", &mut { 0 }).map(|_| ()))),
    (4, ("record whose key is above K", |l| counted::record(&mut l.words, &mut l.classes, b"15,1,2,,7", &mut l.last).map(|_| ()))),
    (19, ("batch without room", |l| counted::batch(&mut l.words, &mut l.classes, &[Call::take()], &mut []).map(|_| ()))),
];

/// Keys 5 (dead), 6 and 9, and no free cell; K is 4,098, so that one record's key is in range.
fn full() -> Lent {
    let mut lent = Lent::fresh(2, 4_098, 4).with(&[6, 5, 9]);
    assert_eq!(counted::take(&mut lent.words, &mut lent.classes).map(|taken| taken.key), Ok(5));
    lent.bytes = vec![0; 100];
    lent
}

/// The same with room for more keys.
fn roomy() -> Lent {
    let mut lent = Lent::fresh(2, 4_098, 8).with(&[6, 5, 9]);
    assert_eq!(counted::take(&mut lent.words, &mut lent.classes).map(|taken| taken.key), Ok(5));
    lent.bytes = vec![0; 100];
    lent
}

#[test]
fn words_of_a_record() {
    let keys = [entry_key(0, 117, 0), entry_key(1, 117, 0), entry_key(1, 1_117, 0), entry_key(15, 65_535, 4_095)];
    let lent = Lent::fresh(8, u32::MAX, 16).with(&keys);
    let mut expected = [0; CLASS_WORDS];
    expected[..4].copy_from_slice(&[1, 479_232, 2, 268_914_688]);
    expected[30..].copy_from_slice(&[1, u32::MAX]);
    assert_eq!(lent.classes, expected);
}

/// The first and the last key of each class, and of a K that lies amid a class.
#[test]
fn borders_of_the_classes() {
    for d in [2, 8, 15, 16] {
        let mut lent = Lent::fresh(d, u32::MAX, 64);
        let mut waiting = Waiting::new();
        for class in (0..16).rev() {
            let least = class * KEYS_PER_CLASS;
            for key in [least + (KEYS_PER_CLASS - 1), least.max(1)] {
                assert!(counted::insert(&mut lent.words, &mut lent.classes, key, key).is_ok());
                waiting.insert(key, key);
                lent.holds(&waiting);
                assert_eq!(counted::class(&lent.classes, class), Ok(InClass { count: (waiting.len() as u32 - 1) % 2 + 1, least: key }));
            }
        }
        while let Some((key, value)) = waiting.pop_first() {
            let taken = counted::take(&mut lent.words, &mut lent.classes).expect("something is live");
            assert_eq!((taken.key, taken.value), (key, value));
            lent.holds(&waiting);
        }
        assert_eq!(lent.classes, [0; CLASS_WORDS]);
    }
}

/// A key near the others, of any class.
fn some_key(dice: &mut Dice, k: u32) -> u32 {
    let key = match dice.below(4) {
        0 => 1 + dice.below(u64::from(k)),
        1 => dice.below(16) * u64::from(KEYS_PER_CLASS) + dice.below(4),
        2 => (1 + dice.below(16)) * u64::from(KEYS_PER_CLASS) - 1 - dice.below(4),
        _ => 1 + dice.below(60),
    };
    (key as u32).clamp(1, k)
}

/// Random calls on a list with a record and on one without, which does the same; the record is the model's after each.
#[test]
fn random_calls_beside_the_list_alone_and_a_model() {
    let mut dice = Dice(515);
    let mut answered = BTreeMap::<u32, u32>::new();
    for (d, k, c) in [(2, 15, 8), (3, 1_000, 40), (8, u32::MAX, 64), (16, u32::MAX, 30), (15, 600_000_000, 20), (4, u32::MAX, 200)] {
        let (mut lent, mut alone) = (Lent::fresh(d, k, c), common::fresh(d, k, c));
        let (mut waiting, mut last, mut logger) = (Waiting::new(), NONE_YET, Logger::new());
        for _ in 0..3_000 {
            let key = if dice.below(40) == 0 { 0 } else { some_key(&mut dice, k) };
            let value = dice.below(1 << 31) as u32;
            let mut list = Counted::new(&mut lent.words, &mut lent.classes);
            let refusal = match dice.below(16) {
                0..=6 => {
                    let done = list.insert(key, value);
                    assert_eq!(done, insert(&mut alone, key, value));
                    if done.is_ok() {
                        waiting.insert(key, value);
                    }
                    done.err()
                }
                7 => {
                    let done = list.find(key);
                    assert_eq!(done, find(&alone, key));
                    done.err()
                }
                8 => {
                    let done = list.finish(key);
                    assert_eq!(done, finish(&mut alone, key));
                    done.err()
                }
                9..=12 => {
                    let done = list.take();
                    assert_eq!(done, take(&mut alone));
                    assert_eq!(done.ok().map(|taken| (taken.key, taken.value)), waiting.pop_first());
                    done.err()
                }
                13 => {
                    let done = list.sweep();
                    assert_eq!(done, sweep(&mut alone));
                    done.err()
                }
                14 => {
                    let record = format!("{},{},{},,{}", dice.below(17), dice.below(4), dice.below(3), dice.below(65_536));
                    let done = list.record(record.as_bytes(), &mut logger);
                    assert_eq!(done, mdlist_host::record(&mut alone, record.as_bytes(), &mut last));
                    assert_eq!(logger.last(), u32::try_from(last).ok());
                    if let Ok(recorded) = done {
                        waiting.insert(recorded.key, recorded.number);
                    }
                    done.err()
                }
                _ => {
                    let [mut file, mut other] = [(); 2].map(|_| vec![9; 40 + 8 * dice.below(40) as usize]);
                    other.resize(file.len(), 9);
                    let done = list.write(&mut file);
                    assert_eq!(done, write(&alone, &mut other));
                    assert!(file == other);
                    done.err()
                }
            };
            *answered.entry(refusal.map_or(0, Refusal::number)).or_default() += 1;
            assert!(lent.words == alone);
            lent.holds(&waiting);
        }
    }
    for number in [0, 4, 5, 6, 7, 8, 12, 13] {
        assert!(answered.get(&number).is_some_and(|many| *many > 20), "{answered:?}");
    }
    assert!(answered.keys().all(|number| *number != 15), "{answered:?}");
}

/// Batches beside batches on the list alone, and what a read of the list's file leaves.
#[test]
fn random_batches_and_reads() {
    let mut dice = Dice(516);
    for (d, k, c) in [(2, 15, 8), (8, u32::MAX, 64), (16, u32::MAX, 30), (4, 900_000_000, 100)] {
        let (mut lent, mut alone) = (Lent::fresh(d, k, c), common::fresh(d, k, c));
        for round in 0..300 {
            let count = dice.below(40) as usize;
            let calls: Vec<Call> = (0..count)
                .map(|_| match dice.below(10) {
                    0..=4 => Call::insert(some_key(&mut dice, k), round),
                    5 => Call::find(some_key(&mut dice, k)),
                    6 => Call::finish(some_key(&mut dice, k)),
                    7 | 8 => Call::take(),
                    _ => Call::sweep(),
                })
                .collect();
            let [mut ours, mut theirs] = [(); 2].map(|_| vec![Answered::NONE; count + 2]);
            assert_eq!(Counted::new(&mut lent.words, &mut lent.classes).batch(&calls, &mut ours), Ok(count));
            assert_eq!(batch(&mut alone, &calls, &mut theirs), Ok(count));
            assert!(ours == theirs && lent.words == alone, "{calls:?}");
            let waiting = kept(&alone);
            lent.holds(&waiting);

            let mut file = vec![0; file_length(waiting.len())];
            assert_eq!(counted::write(&lent.words, &lent.classes, &mut file), Ok(file.len()));
            // whatever words and record held
            let mut other = Lent { words: vec![7; lent.words.len()], classes: vec![round; CLASS_WORDS], bytes: vec![], last: 0 };
            assert!(Counted::read(&file, &mut other.words, &mut other.classes).is_ok());
            other.holds(&waiting);
            let mut read_alone = vec![7; alone.len()];
            assert_eq!(read(&file, &mut read_alone), Ok(waiting.len()));
            assert!(other.words == read_alone);
            if dice.below(8) == 0 {
                (lent, alone) = (other, read_alone);
            }
        }
    }
}

/// What waits in a list, by its file.
fn kept(list: &[u32]) -> Waiting {
    let mut file = vec![0; file_length(list[2] as usize)];
    let length = write(list, &mut file).expect("a list and room for any file");
    let number = |four: &[u8]| u32::from_be_bytes(four.try_into().expect("four bytes"));
    file[33..length].chunks(8).map(|pair| (number(&pair[..4]), number(&pair[4..]))).collect()
}

/// Each word of the record becomes another: 15 for every call, and for those too that the list would refuse by itself.
#[test]
fn every_word_damaged() {
    let rights = [full(), roomy(), Lent { bytes: vec![0; 100], ..Lent::fresh(2, 4_098, 4) }];
    for right in rights {
        for index in 0..CLASS_WORDS {
            let word = right.classes[index];
            for other in [word.wrapping_add(1), word.wrapping_sub(1), !word, word ^ 1 << 28] {
                let mut lent = right.clone();
                lent.classes[index] = other;
                for (name, call) in CALLS.into_iter().chain(REFUSED.map(|(_, named)| named)) {
                    assert_eq!(lent.refusal(call), 15, "{name} with word {index} {other}");
                }
                // the question reads no other words, and answers its own as they stand
                for number in 0..16 {
                    let at = 2 * number as usize;
                    let expected = InClass { count: lent.classes[at], least: lent.classes[at + 1] };
                    assert_eq!(counted::class(&lent.classes, number), Ok(expected));
                }
                lent.classes[index] = word;
                assert_eq!(lent, right);
            }
        }
    }
}

/// Records that are wrong as a whole: keys before counts, counts apart from keys, those of another list, all words the same.
#[test]
fn records_of_other_forms() {
    let right = roomy().with(&[1, 2]);
    let classes = &right.classes;
    let exchanged = (0..CLASS_WORDS).map(|i| classes[i ^ 1]).collect();
    let apart = (0..CLASS_WORDS).map(|i| classes[i % 16 * 2 + i / 16]).collect();
    let beside = (0..CLASS_WORDS).map(|i| classes[(i + 30) % CLASS_WORDS]).collect();
    let with_dead = of_keys([1, 2, 5, 6, 9].into_iter());
    for other in [exchanged, apart, beside, with_dead, roomy().classes, vec![0; CLASS_WORDS], vec![u32::MAX; CLASS_WORDS]] {
        let mut lent = Lent { classes: other, ..right.clone() };
        for (name, call) in CALLS {
            assert_eq!(lent.refusal(call), 15, "{name} with {:?}", lent.classes);
        }
    }
    assert!(CALLS.iter().all(|(_, call)| right.accepts(*call)));
}

/// A record of another length is 15, whatever its words are: cut, or with words more, 0 or others.
#[test]
fn lengths_of_a_record() {
    for length in 0..=64 {
        for more in [0, 7] {
            let mut lent = roomy();
            lent.classes.resize(length, more);
            let expected = if length == CLASS_WORDS { 0 } else { 15 };
            for (name, call) in CALLS {
                assert_eq!(lent.clone().refusal(call), expected, "{name} with {length} words");
            }
            for number in [0, 15] {
                assert_eq!(counted::class(&lent.classes, number).map_or_else(Refusal::number, |_| 0), expected);
            }
            // 15 before 4
            for number in [16, 17, 32, 1 << 28, u32::MAX] {
                assert_eq!(counted::class(&lent.classes, number).map_or_else(Refusal::number, |_| 0), expected.max(4));
            }
        }
    }
}

/// 3 comes before 15, and 15 before what a call refuses by itself.
#[test]
fn order_of_refusals() {
    for (number, (name, call)) in REFUSED {
        let right = full();
        let is_no_list = |mut lent: Lent| {
            lent.words[0] = 3;
            lent.refusal(call)
        };
        assert_eq!(right.clone().refusal(call), number, "{name}");
        let mut damaged = right.clone();
        damaged.classes[1] = 5;
        let mut short = right.clone();
        short.classes.pop();
        let mut long = right.clone();
        long.classes.push(0);
        for lent in [damaged, short, long] {
            assert_eq!(lent.clone().refusal(call), 15, "{name}");
            assert_eq!(is_no_list(lent), 3, "{name}");
        }
        assert_eq!(is_no_list(right), 3, "{name}");
    }
    // 7, on an empty list
    let mut empty = Lent::fresh(2, 15, 8);
    let take = CALLS[3].1;
    assert_eq!(empty.refusal(take), 7);
    empty.classes[30] = 1;
    assert_eq!(empty.refusal(take), 15);
    empty.words.push(0);
    assert_eq!(empty.refusal(take), 3);
}

/// A refused batch leaves the words of its answers; 19 comes last.
#[test]
fn refused_batches() {
    let right = roomy();
    let calls = [Call::insert(7, 1), Call::take()];
    for (words, classes, room, number) in [(3, 5, 1, 3), (3, 6, 2, 3), (2, 5, 1, 15), (2, 5, 2, 15), (2, 6, 1, 19), (2, 6, 2, 0)] {
        let mut lent = right.clone();
        (lent.words[0], lent.classes[1]) = (words, classes);
        let before = lent.clone();
        let mut answers = vec![Answered::NONE; room];
        let done = counted::batch(&mut lent.words, &mut lent.classes, &calls, &mut answers);
        assert_eq!(done.map_or_else(Refusal::number, |_| 0), number);
        assert!(number == 0 || lent == before && answers.iter().all(|answer| *answer == Answered::NONE));
    }
}

/// Set up: 1, then 2 for either length. Nothing is altered then, and otherwise the record is written anew.
#[test]
fn order_of_set_up() {
    let right = roomy();
    for length in 0..=64 {
        for (d, c, words, number) in
            [(1, 8, 71, 1), (2, 2, 71, 1), (1, 8, 70, 1), (2, 8, 70, 2), (2, 8, 72, 2), (2, 8, 0, 2), (2, 8, 71, 0)]
        {
            let mut lent = right.clone();
            lent.words.resize(words, 0);
            lent.classes.resize(length, 7);
            let before = lent.clone();
            let number = if number == 0 && length != CLASS_WORDS { 2 } else { number };
            let done = counted::set_up(d, 15, c, &mut lent.words, &mut lent.classes);
            assert_eq!(done.map_or_else(Refusal::number, |()| 0), number, "D = {d}, C = {c}, {words} and {length} words");
            if number == 0 {
                assert_eq!(lent.classes, [0; CLASS_WORDS]);
                assert!(lent.words == common::fresh(2, 15, 8));
            } else {
                assert_eq!(lent, before);
            }
        }
    }
}

/// Read: 11, then 2, then 15 for the record's length alone; damaged words and a damaged record are written anew.
#[test]
fn order_of_read() {
    let right = roomy();
    let mut file = vec![0; file_length(2)];
    assert_eq!(counted::write(&right.words, &right.classes, &mut file), Ok(file.len()));
    for length in 0..=64 {
        for (cut, words, number) in [(1, 70, 11), (1, 71, 11), (0, 70, 2), (0, 72, 2), (0, 71, 0)] {
            let mut lent = right.clone();
            lent.words.resize(words, 0);
            lent.words[0] = 3;
            lent.classes.resize(length, 7);
            lent.classes.first_mut().into_iter().for_each(|word| *word = 99);
            let before = lent.clone();
            let number = if number == 0 && length != CLASS_WORDS { 15 } else { number };
            let done = counted::read(&file[cut..], &mut lent.words, &mut lent.classes);
            assert_eq!(done.map_or_else(Refusal::number, |_| 0), number, "{words} and {length} words, {cut} bytes cut");
            if number == 0 {
                lent.holds(&Waiting::from([(6, 3), (9, 4)]));
            } else {
                assert_eq!(lent, before);
            }
        }
    }
}

/// Whatever the other words hold, and whatever its own are.
#[test]
fn question_reads_its_two_words() {
    let mut dice = Dice(15);
    for number in 0..16u32 {
        let at = 2 * number as usize;
        for own in [[0, 0], [1, u32::MAX], [u32::MAX, 0], [7, number * KEYS_PER_CLASS]] {
            for _ in 0..50 {
                let mut classes = [0; CLASS_WORDS].map(|_: u32| (dice.below(1 << 31) * 2 + dice.below(2)) as u32);
                classes[at..at + 2].copy_from_slice(&own);
                assert_eq!(counted::class(&classes, number), Ok(InClass { count: own[0], least: own[1] }));
            }
        }
    }
    for number in (16..300).chain([1 << 16, 1 << 28, 1 << 31, u32::MAX]) {
        assert_eq!(counted::class(&[7; CLASS_WORDS], number), Err(Refusal::BadKey));
    }
}

/// The calls write what they are lent and no word beside it.
#[test]
fn record_amid_other_words() {
    let n = words_needed(2, 8);
    let (mut words, mut classes) = (vec![9; n + 10], vec![9; CLASS_WORDS + 10]);
    let (list, record) = (&mut words[5..n + 5], &mut classes[5..CLASS_WORDS + 5]);
    let mut list = Counted::set_up(2, 15, 8, list, record).expect("settings in range");
    assert_eq!(list.insert(6, 60), Ok(0));
    assert_eq!(list.insert(5, 50), Ok(1));
    assert_eq!(list.take().map(|taken| taken.key), Ok(5));
    assert_eq!(list.sweep(), Ok(0));
    assert_eq!(list.classes()[..4], [1, 6, 0, 0]);
    assert!(words[..5].iter().chain(&words[n + 5..]).all(|word| *word == 9));
    assert!(classes[..5].iter().chain(&classes[CLASS_WORDS + 5..]).all(|word| *word == 9));
}

/// A call without a record leaves one that differs, which is refused; a read and a write of the list's file make it right again.
#[test]
fn list_used_without_its_record() {
    let mut lent = roomy();
    assert!(insert(&mut lent.words, 3, 30).is_ok());
    for (name, call) in CALLS {
        assert_eq!(lent.refusal(call), 15, "{name}");
    }
    let mut file = vec![0; file_length(3)];
    assert_eq!(write(&lent.words, &mut file), Ok(file.len()));
    assert_eq!(counted::read(&file, &mut lent.words, &mut lent.classes), Ok(3));
    lent.holds(&Waiting::from([(3, 30), (6, 3), (9, 4)]));
}

/// The largest list: every class full, then taken from by batches.
#[test]
fn largest_list() {
    let c = MOST_CELLS;
    let mut lent = Lent::fresh(8, u32::MAX, c);
    let keys: Vec<u32> = (1..c).map(|i| i.wrapping_mul(2_654_435_769).max(1)).collect();
    let calls: Vec<Call> = keys.iter().map(|key| Call::insert(*key, !key)).collect();
    let mut answers = vec![Answered::NONE; calls.len()];
    assert_eq!(counted::batch(&mut lent.words, &mut lent.classes, &calls, &mut answers), Ok(calls.len()));
    let mut waiting: Waiting = keys.iter().map(|key| (*key, !key)).collect();
    assert_eq!(waiting.len(), keys.len());
    lent.holds(&waiting);
    let half = waiting.len() / 2;
    assert_eq!(counted::batch(&mut lent.words, &mut lent.classes, &vec![Call::take(); half], &mut answers), Ok(half));
    for _ in 0..half {
        waiting.pop_first();
    }
    lent.holds(&waiting);
    let total: u32 = (0..16).map(|number| counted::class(&lent.classes, number).expect("a class").count).sum();
    assert_eq!(total as usize, waiting.len());
}

/// The text of a screen, from a record alone.
#[test]
fn screen_of_a_record() {
    let lent = Lent::fresh(8, u32::MAX, 16).with(&[entry_key(1, 1_117, 3), entry_key(1, 117, 12), entry_key(15, 65_535, 4_095)]);
    let text = screen::shown(&lent.classes).expect("a record");
    let lines: Vec<&str> = text.lines().collect();
    assert_eq!(lines.len(), 17);
    assert_eq!(lines[1..3], ["    0        0", "    1        2          117      12"]);
    assert_eq!(lines[16], "   15        1        65535    4095");
    assert_eq!(screen::shown(&lent.classes[1..]), Err(Refusal::BadClasses));
}

/// The example for a second: one screen, with entries that came in meanwhile.
#[test]
fn screen_for_a_second() {
    let mut output = Vec::new();
    screen::shift(1, &mut output).expect("the list is never refused");
    let text = String::from_utf8(output).expect("text");
    let waiting =
        text.lines().skip(1).take(16).map(|line| line.split_whitespace().nth(1).expect("a count").parse::<u32>().expect("a number"));
    assert_eq!(text.lines().count(), 18);
    assert!(waiting.sum::<u32>() > 0);
}
