//! Lists of as many cells as there can be: filled in every order, emptied, swept and filled again, in batches and beside an ordered map;
//! written and read about where the number of the keys needs four bytes; the ends of C's range; and files with tag 3 altered, cut and
//! extended in every field. A batch checks the list once, so that there are few checks of so many words.

mod common;

use common::{fresh, Dice};
use mdlist_host::*;
use std::collections::{BTreeMap, BTreeSet};

const K: u32 = u32::MAX;

/// As many keys as stand in a full list.
const FULL: usize = MOST_CELLS as usize - 1;

/// The keys of a list and what its calls answer, by docs/REFERENCE.md, *The operations*, without cells and links.
struct Model {
    live: BTreeMap<u32, u32>,
    standing: BTreeSet<u32>,
    position: u32,
    cells: usize,
    /// D(b-1).
    most_looked: u32,
}

#[derive(Clone, Copy, Debug)]
enum Asked {
    Insert(u32, u32),
    Find(u32),
    Finish(u32),
    Take,
    Sweep,
}

impl Asked {
    fn call(self) -> Call {
        match self {
            Asked::Insert(key, value) => Call::insert(key, value),
            Asked::Find(key) => Call::find(key),
            Asked::Finish(key) => Call::finish(key),
            Asked::Take => Call::take(),
            Asked::Sweep => Call::sweep(),
        }
    }
}

impl Model {
    /// Of a list that was set up.
    fn of(list: &[u32]) -> Model {
        let [d, _, c, b] = [list[0], list[1], list[2], list[3]];
        Model { live: BTreeMap::new(), standing: BTreeSet::new(), position: 0, cells: c as usize, most_looked: d * (b - 1) }
    }

    /// Makes the call on the keys; whether the answer is theirs. Looked and the links that a finish moves are within their bounds.
    fn agrees(&mut self, asked: Asked, answer: Answered) -> bool {
        match asked {
            Asked::Insert(key, value) => match (self.insert(key, value), answer.inserted()) {
                (0, Ok(looked)) => looked <= self.most_looked,
                (5, Err(Refusal::KeyLive { looked })) | (6, Err(Refusal::NoFreeCell { looked })) => looked <= self.most_looked,
                _ => false,
            },
            Asked::Find(key) => match (self.live.get(&key), answer.found()) {
                (Some(value), Ok(found)) => *value == found.value && found.looked <= self.most_looked,
                (None, Err(Refusal::NotThere { looked })) => looked <= self.most_looked,
                _ => false,
            },
            Asked::Finish(key) => match answer.finished() {
                Ok(moved) => self.standing.contains(&key) && moved <= 16,
                refused => refused == Err(Refusal::NotThere { looked: 0 }) && !self.standing.contains(&key),
            },
            Asked::Take => answer.taken() == self.take(),
            Asked::Sweep => answer.swept() == Ok(self.sweep()),
        }
    }

    /// The refusal.
    fn insert(&mut self, key: u32, value: u32) -> u32 {
        if self.live.contains_key(&key) {
            return 5;
        }
        if !self.standing.contains(&key) && self.standing.len() == self.cells - 1 {
            return 6;
        }
        self.live.insert(key, value);
        self.standing.insert(key);
        if key <= self.position {
            self.position = self.standing.range(..key).next_back().copied().unwrap_or(0);
        }
        0
    }

    fn above_position(&self, up_to: u32) -> u32 {
        self.standing.range(self.position.saturating_add(1)..).take_while(|key| **key <= up_to).count() as u32
    }

    fn take(&mut self) -> Result<Taken, Refusal> {
        let Some((key, value)) = self.live.pop_first() else {
            return Err(Refusal::NothingLive { above: self.above_position(K) });
        };
        let passed = self.above_position(key);
        self.position = key;
        Ok(Taken { key, value, passed })
    }

    fn sweep(&mut self) -> u32 {
        let below = self.live.first_key_value().map_or(u64::from(K) + 1, |(key, _)| u64::from(*key));
        self.position = self.standing.iter().take_while(|key| u64::from(**key) < below).last().copied().unwrap_or(0);
        let left = self.standing.split_off(&self.position);
        std::mem::replace(&mut self.standing, left).len() as u32
    }
}

/// Makes the calls in one batch and compares each answer.
fn made(list: &mut [u32], model: &mut Model, asked: &[Asked]) {
    let calls: Vec<Call> = asked.iter().map(|asked| asked.call()).collect();
    let mut answers = vec![Answered::NONE; calls.len()];
    assert_eq!(batch(list, &calls, &mut answers), Ok(calls.len()));
    for (asked, answer) in asked.iter().zip(answers) {
        assert!(model.agrees(*asked, answer), "{asked:?} {answer:?}");
    }
}

/// So many keys from 1 to K, ascending; the dice decide which.
fn some_keys(dice: &mut Dice, many: usize) -> Vec<u32> {
    let mut keys = BTreeSet::new();
    while keys.len() < many {
        keys.insert((((dice.below(1 << 16) << 16) | dice.below(1 << 16)) as u32).max(1));
    }
    keys.into_iter().collect()
}

#[derive(Clone, Copy)]
enum Order {
    Ascending,
    Descending,
    Random,
}

const ORDERS: [Order; 3] = [Order::Ascending, Order::Descending, Order::Random];

fn ordered(dice: &mut Dice, keys: &[u32], order: Order) -> Vec<u32> {
    let mut keys = keys.to_vec();
    match order {
        Order::Ascending => (),
        Order::Descending => keys.reverse(),
        Order::Random => (1..keys.len()).rev().for_each(|i| keys.swap(i, dice.below(i as u64 + 1) as usize)),
    }
    keys
}

/// Inserts, each with a value of its own.
fn inserts(keys: &[u32]) -> Vec<Asked> {
    keys.iter().map(|key| Asked::Insert(*key, key.wrapping_mul(2_654_435_761))).collect()
}

/// Fills a list of so many cells in an order, empties it by takes, sweeps it, fills it again with other keys in the next order, and makes
/// calls of every kind on it.
fn fill_empty_fill_again(d: u32, orders: [Order; 2]) {
    let mut dice = Dice(u64::from(d));
    let mut list = fresh(d, K, MOST_CELLS);
    let mut model = Model::of(&list);
    // one key too many
    let keys = ordered(&mut dice, &some_keys(&mut Dice(7), FULL + 1), orders[0]);
    let (left_out, first) = (keys[FULL], keys[0]);
    let refused = [Asked::Insert(first, 1), Asked::Find(left_out), Asked::Find(first), Asked::Finish(left_out)];
    made(&mut list, &mut model, &[inserts(&keys), refused.to_vec()].concat());
    assert_eq!((model.live.len(), list[4]), (FULL, 0), "full, and no cell is free");

    let finds: Vec<Asked> = keys.iter().step_by(101).map(|key| Asked::Find(*key)).collect();
    let takes = vec![Asked::Take; FULL + 1];
    made(&mut list, &mut model, &[&finds[..], &takes, &[Asked::Sweep, Asked::Sweep]].concat());
    assert_eq!((model.live.len(), model.standing.len()), (0, 1), "the position stays");

    let keys = ordered(&mut dice, &some_keys(&mut Dice(8), FULL), orders[1]);
    made(&mut list, &mut model, &inserts(&keys));
    assert_eq!(model.standing.len(), FULL);
    let mixed: Vec<Asked> = (0..30_000)
        .map(|_| {
            let key = keys[dice.below(keys.len() as u64) as usize];
            // keys that come late are often among the first
            let early = model.standing.range(key / 1_000..).next().copied().unwrap_or(key);
            match dice.below(100) {
                0..=49 => Asked::Take,
                50..=64 => Asked::Insert(early, key),
                65..=74 => Asked::Insert(early.wrapping_add(1).max(1), key),
                75..=84 => Asked::Find(key),
                85..=97 => Asked::Finish(key),
                98 => Asked::Insert(key, 1),
                _ => Asked::Find(early),
            }
        })
        .collect();
    let (one, two) = mixed.split_at(mixed.len() / 2);
    made(&mut list, &mut model, &[one, &[Asked::Sweep], two, &[Asked::Sweep]].concat());
    // the least keys one by one: drain makes batches of 256, each with a check
    let left: Vec<(u32, u32)> = model.live.clone().into_iter().collect();
    made(&mut list, &mut model, &vec![Asked::Take; left.len() + 1]);
}

#[test]
fn full_emptied_swept_and_filled_again_8() {
    for (first, second) in [(0, 1), (1, 2), (2, 0)] {
        fill_empty_fill_again(8, [ORDERS[first], ORDERS[second]]);
    }
}

#[test]
fn full_emptied_swept_and_filled_again_16() {
    for (first, second) in [(0, 2), (1, 0), (2, 1)] {
        fill_empty_fill_again(16, [ORDERS[first], ORDERS[second]]);
    }
}

#[test]
fn cells_at_the_ends_of_their_range() {
    for d in [2, 8, 16] {
        for c in [2, 3, 4_096, 4_097, MOST_CELLS - 1, MOST_CELLS, MOST_CELLS + 1] {
            let exact = words_needed(d, c);
            let in_range = (3..=MOST_CELLS).contains(&c);
            let of_length = if in_range { Err(Refusal::WrongLength) } else { Err(Refusal::OutOfRange) };
            let mut words = vec![7; exact + 1];
            assert_eq!(set_up(d, K, c, &mut words), of_length);
            assert_eq!(set_up(d, K, c, &mut words[..exact - 1]), of_length);
            assert!(words.iter().all(|word| *word == 7));
            assert_eq!(set_up(d, K, c, &mut words[..exact]), if in_range { Ok(()) } else { of_length });
            assert_eq!(find(&words[..exact], 1), if in_range { Err(Refusal::NotThere { looked: 0 }) } else { Err(Refusal::NotAList) });
            assert_eq!(words[exact], 7);
        }
    }
    assert_eq!(words_needed(16, MOST_CELLS), 5_767_189);
}

/// The numbers of a file in their order: docs/REFERENCE.md, *Files*. Each may be another than the rules say.
#[derive(Clone)]
struct Numbers {
    bodies: u8,
    settings: (u8, u32, u32),
    entries: (u8, u32, u32),
    d: u32,
    k: u32,
    c: u32,
    count: u32,
    count_bytes: usize,
    pairs: Vec<(u32, u32)>,
}

impl Numbers {
    /// As the rules say.
    fn of([d, k, c]: [u32; 3], pairs: Vec<(u32, u32)>) -> Numbers {
        let count = pairs.len() as u32;
        let entries = if count <= 65_535 { (2, 31, 2 + 8 * count) } else { (3, 31, 4 + 8 * count) };
        let count_bytes = if count <= 65_535 { 2 } else { 4 };
        Numbers { bodies: 2, settings: (1, 19, 12), entries, d, k, c, count, count_bytes, pairs }
    }

    /// With a tag, and so many bytes for the count, which the length fits.
    fn counted(&self, tag: u8, count_bytes: usize) -> Numbers {
        let long = count_bytes + 8 * self.pairs.len();
        Numbers { entries: (tag, 31, long as u32), count_bytes, ..self.clone() }
    }

    fn bytes(&self) -> Vec<u8> {
        let mut file = vec![self.bodies];
        for (tag, offset, length) in [self.settings, self.entries] {
            file.push(tag);
            file.extend(offset.to_be_bytes());
            file.extend(length.to_be_bytes());
        }
        for number in [self.d, self.k, self.c] {
            file.extend(number.to_be_bytes());
        }
        file.extend(&self.count.to_be_bytes()[4 - self.count_bytes..]);
        for (key, value) in &self.pairs {
            file.extend(key.to_be_bytes());
            file.extend(value.to_be_bytes());
        }
        file
    }
}

/// A list with so many live keys that came in random order, dead ones among them, and the live pairs.
fn waiting(d: u32, c: u32, many: usize) -> (Vec<u32>, Vec<(u32, u32)>) {
    let mut dice = Dice(many as u64);
    let mut list = fresh(d, K, c);
    let mut model = Model::of(&list);
    // those that are taken come first and are below the others
    let dead = (c as usize - 1 - many).min(1_000);
    let keys = some_keys(&mut dice, dead + many);
    let taken = ordered(&mut dice, &keys[..dead], Order::Random);
    let live = ordered(&mut dice, &keys[dead..], Order::Random);
    made(&mut list, &mut model, &[inserts(&taken), vec![Asked::Take; dead], inserts(&live)].concat());
    (list, model.live.into_iter().collect())
}

/// The file of a list is what the numbers say, is not written into one byte fewer, and read gives the list that inserts in ascending order
/// give.
fn write_and_read(d: u32, c: u32, many: usize) {
    let (list, pairs) = waiting(d, c, many);
    let file = Numbers::of([d, K, c], pairs.clone()).bytes();
    assert_eq!(file.len(), file_length(many));
    let mut room = vec![165; file.len() + 8];
    assert_eq!(write(&list, &mut room[..file.len() - 1]), Err(Refusal::NoRoom));
    assert!(room.iter().all(|byte| *byte == 165));
    assert_eq!(write(&list, &mut room), Ok(file.len()));
    assert!(room[..file.len()] == file, "the file is another: D = {d}, C = {c}, {many} keys");
    assert_eq!(room[file.len()..], [165; 8]);

    let mut back = vec![7; list.len()];
    assert_eq!(read(&file, &mut back), Ok(many));
    let mut by_inserts = fresh(d, K, c);
    let mut model = Model::of(&by_inserts);
    let ascending: Vec<Asked> = pairs.iter().map(|(key, value)| Asked::Insert(*key, *value)).collect();
    made(&mut by_inserts, &mut model, &ascending);
    assert!(back == by_inserts, "the list is another: D = {d}, C = {c}, {many} keys");
    room.fill(165);
    assert_eq!(write(&back, &mut room), Ok(file.len()));
    assert!(room[..file.len()] == file, "the file is not written again");
    made(&mut back, &mut model, &vec![Asked::Take; many + 1]);
}

#[test]
fn written_and_read_8() {
    for (c, many) in [(MOST_CELLS, 65_535), (MOST_CELLS, 65_536), (MOST_CELLS, FULL), (65_536, 65_535), (65_537, 65_536)] {
        write_and_read(8, c, many);
    }
}

#[test]
fn written_and_read_16() {
    for many in [65_535, 65_536, FULL] {
        write_and_read(16, MOST_CELLS, many);
    }
}

/// Words that a file is read into, which are left as they were if it is refused.
struct Words {
    words: Vec<u32>,
    before: Vec<u32>,
}

impl Words {
    fn of_length(length: usize) -> Words {
        let words: Vec<u32> = (1..=length as u32).collect();
        Words { before: words.clone(), words }
    }

    fn refuse(&mut self, file: &[u8], refusal: Refusal, what: &str) {
        assert_eq!(read(file, &mut self.words), Err(refusal), "{what}");
        assert!(self.words == self.before, "{what}: words altered");
    }
}

/// Pairs of keys with a number between any two.
fn even_pairs(many: u32) -> Vec<(u32, u32)> {
    (1..=many).map(|i| (2 * i, !i)).collect()
}

#[test]
fn altered_files_of_tag_3() {
    const MANY: u32 = 65_536;
    const C: u32 = MANY + 2;
    let right = Numbers::of([2, 1_000_000, C], even_pairs(MANY));
    let mut words = Words::of_length(words_needed(2, C));
    let mut refused = |numbers: Numbers, refusal: Refusal, what: &str| words.refuse(&numbers.bytes(), refusal, what);

    for bodies in [0, 1, 3, 255] {
        refused(Numbers { bodies, ..right.clone() }, Refusal::BadFile, "bodies");
    }
    for settings in [(0, 19, 12), (2, 19, 12), (3, 19, 12), (1, 18, 12), (1, 31, 12), (1, 19, 11), (1, 19, 16), (1, 0, 0)] {
        refused(Numbers { settings, ..right.clone() }, Refusal::BadFile, "settings body");
    }
    let long = 4 + 8 * MANY;
    for length in [0, 2, long - 8, long - 2, long - 1, long + 1, long + 8, 2 + 8 * 65_535, 4, 1 << 31, u32::MAX] {
        refused(Numbers { entries: (3, 31, length), ..right.clone() }, Refusal::BadFile, "length of the entries");
    }
    for offset in [0, 19, 30, 32, 33, u32::MAX] {
        refused(Numbers { entries: (3, offset, long), ..right.clone() }, Refusal::BadFile, "offset of the entries");
    }
    for (tag, count_bytes) in [(2, 4), (2, 2), (3, 2), (3, 3), (2, 3), (1, 4), (4, 4), (0, 4), (255, 4), (4, 2)] {
        refused(right.counted(tag, count_bytes), Refusal::BadFile, "tag and bytes of the count");
        // with the length of a whole file of tag 3
        refused(Numbers { entries: (tag, 31, long), count_bytes, ..right.clone() }, Refusal::BadFile, "tag and bytes of the count");
    }
    for count in [0, 1, 2, 65_535, MANY + 1, C - 1, C, C + 1, 262_143, 262_144, 1 << 24, u32::MAX] {
        refused(Numbers { count, ..right.clone() }, Refusal::BadFile, "count");
    }
    for d in [0, 1, 17, 1 << 31, u32::MAX] {
        refused(Numbers { d, ..right.clone() }, Refusal::BadFile, "D");
    }
    for d in [3, 8, 16] {
        refused(Numbers { d, ..right.clone() }, Refusal::WrongLength, "D");
    }
    for k in [0, 1, 2 * MANY - 1] {
        refused(Numbers { k, ..right.clone() }, Refusal::BadFile, "K");
    }
    // as many keys as cells, or more; then more cells than there can be
    for c in [0, 2, 3, 4_096, 65_535, MANY, MOST_CELLS + 1, 1 << 31, u32::MAX] {
        refused(Numbers { c, ..right.clone() }, Refusal::BadFile, "C");
    }
    for c in [MANY + 1, MANY + 3, MOST_CELLS] {
        refused(Numbers { c, ..right.clone() }, Refusal::WrongLength, "C");
    }
    let last = MANY as usize - 1;
    for (place, key) in
        [(0, 0), (0, 4), (0, u32::MAX), (1, 2), (1, 6), (1, 1), (last - 1, 2 * MANY), (last, 2 * MANY - 2), (last, 0), (last, 1_000_001)]
    {
        let mut numbers = right.clone();
        numbers.pairs[place].0 = key;
        refused(numbers, Refusal::BadFile, "a key");
    }
    let mut twice = right.clone();
    twice.pairs.swap(40_000, 40_001);
    refused(twice, Refusal::BadFile, "two pairs exchanged");
    // one pair fewer and one more: count and length fit the pairs, but not the tag or C
    let fewer = Numbers::of([2, 1_000_000, C], even_pairs(MANY - 1));
    refused(fewer.counted(3, 4), Refusal::BadFile, "65,535 keys under tag 3");
    refused(Numbers::of([2, 1_000_000, C], even_pairs(C)), Refusal::BadFile, "as many keys as cells");

    // what is a file still is read, and is what writing gives
    let mut list = words.words;
    let mut other = right.clone();
    (other.k, other.pairs[0].0, other.pairs[last]) = (K, 1, (K, 0));
    for numbers in [right, other] {
        let file = numbers.bytes();
        assert_eq!(read(&file, &mut list), Ok(MANY as usize));
        let mut back = vec![0; file.len()];
        assert_eq!(write(&list, &mut back), Ok(file.len()));
        assert!(back == file);
    }
}

/// Every byte in front of the pairs: those of the table of contents and of the count are one way alone.
#[test]
fn altered_bytes_of_tag_3() {
    let file = Numbers::of([2, 1_000_000, 65_537], even_pairs(65_536)).bytes();
    let mut words = Words::of_length(words_needed(2, 65_537));
    for index in (0..19).chain(31..35) {
        let old = file[index];
        for byte in [0, 1, 2, 3, 4, 127, 128, 255, old.wrapping_add(1), old.wrapping_sub(1), old ^ 1, old ^ 128] {
            let mut altered = file.clone();
            altered[index] = byte;
            if byte != old {
                words.refuse(&altered, Refusal::BadFile, &format!("byte {index} is {byte}"));
            }
        }
    }
}

#[test]
fn cut_or_extended_files_of_tag_3() {
    let file = Numbers::of([2, 1_000_000, 65_537], even_pairs(65_536)).bytes();
    let mut words = Words::of_length(words_needed(2, 65_537));
    let long = file.len();
    assert_eq!(long, 524_323);
    for length in (0..=60).chain([1_000, 32_793, 524_313, 524_315, 524_321, 524_322]) {
        words.refuse(&file[..length], Refusal::BadFile, "cut at its end");
        words.refuse(&file[long - length..], Refusal::BadFile, "cut at its start");
        if (1..=long - 31).contains(&length) {
            words.refuse(&[&file[..31], &file[31 + length..]].concat(), Refusal::BadFile, "cut within");
        }
    }
    for more in [&[0][..], &[255], &[0, 0], &[255; 8], &[0; 100]] {
        words.refuse(&[&file[..], more].concat(), Refusal::BadFile, "extended");
        words.refuse(&[more, &file[..]].concat(), Refusal::BadFile, "extended at its start");
        words.refuse(&[&file[..31], more, &file[31..]].concat(), Refusal::BadFile, "extended within");
    }
    // 11 comes before 2
    assert_eq!(read(&file, &mut [0; 9]), Err(Refusal::WrongLength));
    assert_eq!(read(&file[1..], &mut [0; 9]), Err(Refusal::BadFile));
}

/// Tag 3 with a count that fits two bytes is refused whatever C is, and before the length is looked at.
#[test]
fn few_keys_under_tag_3() {
    for (c, many) in
        [(3, 0), (3, 2), (8, 7), (8, 1), (4_097, 2), (4_097, 4_096), (65_536, 65_535), (65_537, 2), (MOST_CELLS, 0), (MOST_CELLS, 7)]
    {
        let right = Numbers::of([2, K, c], even_pairs(many));
        let mut words = Words::of_length(words_needed(2, c));
        for (tag, count_bytes) in [(3, 4), (3, 2), (2, 4)] {
            let file = right.counted(tag, count_bytes).bytes();
            words.refuse(&file, Refusal::BadFile, "tag and bytes of the count");
            assert_eq!(read(&file, &mut [0; 5]), Err(Refusal::BadFile));
        }
        assert_eq!(read(&right.bytes(), &mut words.words), Ok(many as usize));
    }
}
