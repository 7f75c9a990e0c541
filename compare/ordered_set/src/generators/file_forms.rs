//! Files as they may be written, number by number: by the rules, or with something altered.

use super::dice::Dice;

/// Places of numbers in a form; from PAIRS on stand key and value in turn.
const BODIES: usize = 0;
const FIRST_TAG: usize = 1;
const SETTINGS_OFFSET: usize = 2;
const SETTINGS_LENGTH: usize = 3;
const SECOND_TAG: usize = 4;
const ENTRIES_OFFSET: usize = 5;
const ENTRIES_LENGTH: usize = 6;
pub const D: usize = 7;
pub const K: usize = 8;
pub const C: usize = 9;
pub const COUNT: usize = 10;
const PAIRS: usize = 11;

/// The most keys whose number is written in two bytes.
pub const MOST_OF_TWO_BYTES: u32 = 65_535;

/// The numbers of a file in their order, each with the number of its bytes.
#[derive(Clone)]
pub struct Form(Vec<(u32, usize)>);

impl Form {
    pub fn new([d, k, c]: [u32; 3], pairs: &[(u32, u32)]) -> Form {
        let table = [(2, 1), (1, 1), (19, 4), (12, 4), (2, 1), (31, 4), (0, 4)];
        let mut form = Form([&table[..], &[(d, 4), (k, 4), (c, 4), (0, 2)]].concat());
        form.set_pairs(pairs);
        form
    }

    /// Tag, count and length are made to fit.
    pub fn set_pairs(&mut self, pairs: &[(u32, u32)]) {
        self.0.truncate(PAIRS);
        self.0.extend(pairs.iter().flat_map(|&(key, value)| [(key, 4), (value, 4)]));
        self.set(COUNT, pairs.len() as u32);
        if pairs.len() as u32 <= MOST_OF_TWO_BYTES {
            self.set_counted(2, 2);
        } else {
            self.set_counted(3, 4);
        }
    }

    /// A tag of the entries body, and a number of bytes for the count; the length is made to fit.
    pub fn set_counted(&mut self, tag: u32, bytes: usize) {
        self.set(SECOND_TAG, tag);
        self.0[COUNT].1 = bytes;
        let pairs = (self.0.len() - PAIRS) / 2;
        self.set(ENTRIES_LENGTH, (bytes + 8 * pairs) as u32);
    }

    pub fn counted(&self, tag: u32, bytes: usize) -> Form {
        let mut form = self.clone();
        form.set_counted(tag, bytes);
        form
    }

    pub fn pairs(&self) -> Vec<(u32, u32)> {
        self.0[PAIRS..].chunks_exact(2).map(|pair| (pair[0].0, pair[1].0)).collect()
    }

    pub fn get(&self, place: usize) -> u32 {
        self.0[place].0
    }

    pub fn set(&mut self, place: usize, number: u32) {
        self.0[place].0 = number;
    }

    fn with(&self, numbers: &[(usize, u32)]) -> Form {
        let mut form = self.clone();
        numbers.iter().for_each(|&(place, number)| form.set(place, number));
        form
    }

    /// The same numbers in other bodies, or as many with other tags. No one is a file.
    pub fn other_bodies(&self) -> Vec<Form> {
        let mut forms: Vec<Form> = [0, 1, 3, 255].map(|many| self.with(&[(BODIES, many)])).into();
        for tags in [[1, 1], [2, 2], [2, 1], [0, 2], [1, 3], [3, 2], [3, 3], [1, 4]] {
            forms.push(self.with(&[(FIRST_TAG, tags[0]), (SECOND_TAG, tags[1])]));
        }
        forms.extend(self.with_other_counts());
        forms.extend(self.with_a_gap());
        forms.extend([self.with_a_third(), self.entries_first(), self.lines_exchanged()]);
        forms
    }

    /// Tag 3 with a count of so few keys, in four bytes and in two; tag 2 with four; and bytes that
    /// are fewer or more than both. The table of contents fits the pairs, or the other tag.
    fn with_other_counts(&self) -> Vec<Form> {
        let [many, long] = [COUNT, ENTRIES_LENGTH].map(|place| self.get(place));
        let wide = self.counted(3, 4);
        let mut forms = vec![
            wide.clone(),
            wide.with(&[(ENTRIES_LENGTH, long)]),
            self.counted(2, 4),
            self.counted(2, 4).with(&[(ENTRIES_LENGTH, long)]),
            self.counted(3, 2).with(&[(ENTRIES_LENGTH, long + 2)]),
            self.counted(2, 3),
            self.counted(3, 3),
            self.counted(2, 1),
        ];
        for other in [65_535, 65_536, many << 16, many + 65_536, self.get(C), u32::MAX] {
            forms.push(wide.with(&[(COUNT, other)]));
            let fits = other.wrapping_mul(8).wrapping_add(4);
            forms.push(wide.with(&[(COUNT, other), (ENTRIES_LENGTH, fits)]));
        }
        forms
    }

    /// A byte after the table of contents or between the bodies: one that no body has, or that
    /// the body before or after it has.
    fn with_a_gap(&self) -> Vec<Form> {
        let [mut before, mut between] = [self.clone(), self.clone()];
        before.0.insert(D, (0, 1));
        between.0.insert(COUNT, (0, 1));
        vec![
            before.with(&[(SETTINGS_OFFSET, 20), (ENTRIES_OFFSET, 32)]),
            before.with(&[(SETTINGS_LENGTH, 13), (ENTRIES_OFFSET, 32)]),
            between.with(&[(ENTRIES_OFFSET, 32)]),
            between.with(&[(SETTINGS_LENGTH, 13), (ENTRIES_OFFSET, 32)]),
            between.with(&[(ENTRIES_LENGTH, self.get(ENTRIES_LENGTH) + 1)]),
            self.with(&[(SETTINGS_LENGTH, 13)]),
            self.with(&[(SETTINGS_LENGTH, 14), (ENTRIES_OFFSET, 33)]),
        ]
    }

    /// A third body, which is empty.
    fn with_a_third(&self) -> Form {
        let end = 31 + self.get(ENTRIES_LENGTH);
        let mut form = self.with(&[(BODIES, 3), (SETTINGS_OFFSET, 28), (ENTRIES_OFFSET, 40)]);
        form.0.splice(D..D, [(3, 1), (end + 9, 4), (0, 4)]);
        form
    }

    fn entries_first(&self) -> Form {
        let (mut form, long) = (self.clone(), self.get(ENTRIES_LENGTH));
        let settings: Vec<(u32, usize)> = form.0.drain(D..COUNT).collect();
        form.0.extend(settings);
        let lines = [(2, 1), (19, 4), (long, 4), (1, 1), (19 + long, 4), (12, 4)];
        form.0.splice(FIRST_TAG..D, lines);
        form
    }

    /// The bodies stand in their order, and the table of contents names the second one first.
    fn lines_exchanged(&self) -> Form {
        let mut form = self.clone();
        form.0[FIRST_TAG..D].rotate_left(SECOND_TAG - FIRST_TAG);
        form
    }

    pub fn bytes(&self) -> Vec<u8> {
        let bytes = |&(number, long): &(u32, usize)| number.to_be_bytes()[4 - long..].to_vec();
        self.0.iter().flat_map(bytes).collect()
    }
}

/// A file with something altered; at times it is one still.
pub fn altered(dice: &mut Dice, form: &Form) -> Vec<u8> {
    let mut form = form.clone();
    match dice.below(20) {
        0..=2 => one_number(dice, &mut form),
        3 => exchange_numbers(dice, &mut form),
        4 => settings_at_an_end(dice, &mut form),
        5 => count_and_length(dice, &mut form),
        6..=8 => other_pairs(dice, &mut form),
        9 => as_many_as_cells(dice, &mut form),
        10 | 11 => {
            let others = form.other_bodies();
            form = others[dice.below(others.len())].clone();
        }
        12 => return turned_number(dice, &form),
        13 => return cut(dice, &form),
        14..=18 => other_count(dice, &mut form),
        _ => return extended(dice, &form),
    }
    form.bytes()
}

/// In front of the pairs as often as among them.
fn some_place(dice: &mut Dice, form: &Form) -> usize {
    let many = dice.pick(&[PAIRS, form.0.len()]);
    dice.below(many)
}

fn one_number(dice: &mut Dice, form: &mut Form) {
    let (place, another) = (some_place(dice, form), some_place(dice, form));
    let (old, bits) = (form.get(place), 8 * form.0[place].1 as u32);
    let number = match dice.below(8) {
        0 | 1 => old.wrapping_add(1),
        2 | 3 => old.wrapping_sub(1),
        4 => old ^ 1 << dice.between(0, bits - 1),
        5 => dice.pick(&[0, u32::MAX]),
        6 => form.get(another),
        _ => dice.any_size(),
    };
    form.set(place, number);
}

fn exchange_numbers(dice: &mut Dice, form: &mut Form) {
    let (one, other) = (some_place(dice, form), some_place(dice, form));
    form.0.swap(one, other);
}

/// The ends of the ranges of D, K and C, and one past them; K at and below the greatest key.
fn settings_at_an_end(dice: &mut Dice, form: &mut Form) {
    let greatest = form.pairs().last().map_or(1, |pair| pair.0);
    let (place, number) = match dice.below(3) {
        0 => (D, dice.pick(&[0, 1, 2, 3, 15, 16, 17, 1 << 16, 1 << 31, u32::MAX])),
        1 => (K, dice.pick(&[0, 1, greatest, greatest - 1, greatest.saturating_add(1), u32::MAX])),
        _ => (C, dice.pick(&[0, 1, 2, 3, 4, 4096, 4097, 262_144, 262_145, 1 << 31, u32::MAX])),
    };
    form.set(place, number);
}

/// Which do not fit each other any more, or fit but not the pairs that there are.
fn count_and_length(dice: &mut Dice, form: &mut Form) {
    let count = form.get(COUNT);
    let other = dice.pick(&[0, 1, count + 1, count.saturating_sub(1), count ^ 256, 65_535]);
    match dice.below(3) {
        0 => form.set(COUNT, other),
        1 => form.set(ENTRIES_LENGTH, 2 + 8 * other),
        _ => {
            form.set(COUNT, other);
            form.set(ENTRIES_LENGTH, 2 + 8 * other);
        }
    }
}

/// The entries body as another tag has it, wholly or in part, at times in a list of more cells:
/// the length says what the count's bytes and the pairs are, and the count what it said or the
/// least that four bytes are for.
fn other_count(dice: &mut Dice, form: &mut Form) {
    let (tag, bytes) = dice.pick(&[(3, 4), (3, 4), (3, 4), (3, 2), (2, 4), (3, 3), (4, 4)]);
    form.set_counted(tag, bytes);
    let count = form.get(COUNT);
    if dice.one_in(3) {
        form.set(COUNT, dice.pick(&[65_535, 65_536, count << 16, count + 65_536, 262_143]));
    }
    if dice.one_in(3) {
        form.set(C, dice.pick(&[4096, 4097, 65_536, 65_537, 262_143, 262_144, 262_145]));
    }
    if dice.one_in(4) {
        let fits = form.get(COUNT).wrapping_mul(8).wrapping_add(dice.pick(&[2, 4]));
        form.set(ENTRIES_LENGTH, fits);
    }
}

/// Keys that are equal, descending, 0, K or above it; pairs that are missing or turned about.
fn other_pairs(dice: &mut Dice, form: &mut Form) {
    let mut pairs = form.pairs();
    if pairs.is_empty() {
        pairs.push((dice.pick(&[0, 1, form.get(K)]), dice.any_size()));
    }
    let (one, other) = (dice.below(pairs.len()), dice.below(pairs.len()));
    let last = pairs.len() - 1;
    match dice.below(10) {
        0 => pairs.swap(one, other),
        1 => pairs.reverse(),
        2 => pairs.insert(one, pairs[one]),
        3 => pairs[one].0 = pairs[other].0,
        4 => pairs[0].0 = 0,
        5 => pairs[last].0 = form.get(K).wrapping_add(dice.between(0, 1)),
        6 => pairs[last].0 = dice.pick(&[u32::MAX, 1 << 31, form.get(K) / 2]),
        7 => drop(pairs.remove(one)),
        8 => pairs[one] = (pairs[one].1, pairs[one].0),
        _ => pairs[one].0 = pairs[one.saturating_sub(1)].0.wrapping_add(dice.between(0, 1)),
    }
    form.set_pairs(&pairs);
}

/// C - 1 pairs, or C, or one more: where K allows it with keys in a row.
fn as_many_as_cells(dice: &mut Dice, form: &mut Form) {
    let many = (form.get(C) + dice.between(0, 2)).saturating_sub(1).min(200);
    let first = if dice.one_in(2) { 1 } else { form.get(K).saturating_sub(many - 1).max(1) };
    let pairs: Vec<(u32, u32)> = (0..many).map(|i| (first + i, dice.any_size())).collect();
    form.set_pairs(&pairs);
}

/// A number with its least significant byte first.
fn turned_number(dice: &mut Dice, form: &Form) -> Vec<u8> {
    let place = some_place(dice, form);
    let from: usize = form.0[..place].iter().map(|number| number.1).sum();
    let mut bytes = form.bytes();
    bytes[from..from + form.0[place].1].reverse();
    bytes
}

/// Bytes are missing: the last ones, the first one, or one between.
fn cut(dice: &mut Dice, form: &Form) -> Vec<u8> {
    let mut bytes = form.bytes();
    match dice.below(4) {
        0 => bytes.truncate(dice.below(bytes.len())),
        1 => bytes.truncate(bytes.len() - dice.pick(&[1, 2, 4, 8])),
        2 => drop(bytes.remove(0)),
        _ => drop(bytes.remove(dice.below(bytes.len()))),
    }
    bytes
}

/// Bytes are more: after the last, or somewhere.
fn extended(dice: &mut Dice, form: &Form) -> Vec<u8> {
    let mut bytes = form.bytes();
    let at = if dice.one_in(2) { bytes.len() } else { dice.below(bytes.len()) };
    let byte = dice.pick(&[0, 1, 2, 165, 255]);
    let many = dice.pick(&[1, 1, 2, 8]);
    bytes.splice(at..at, std::iter::repeat_n(byte, many));
    bytes
}
