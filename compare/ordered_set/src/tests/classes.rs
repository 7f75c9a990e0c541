//! The class record: the words of one, what a full reading gives by going over all cells, the
//! orders of refusals, lengths and damage, the question about one class, and which refusals the
//! generators lead to.

use super::generated;
use crate::classes::{class, full_reading, must_follow, total, Change, CLASS_WORDS};
use crate::counted::{counted_replay, parse, run, Line};
use crate::operations::Answer;
use crate::reading::list;
use crate::replay::{self, State};
use crate::settings::*;
use std::collections::{BTreeMap, BTreeSet};

/// A list with its record.
struct Pair {
    state: State,
    classes: Vec<u32>,
}

impl Pair {
    /// What these lines leave, with a record of 32 words from the start.
    fn after(lines: &str) -> Pair {
        let mut pair = Pair { state: State::at_first(), classes: Vec::new() };
        pair.say("K 32");
        lines.split('|').for_each(|line| _ = pair.say(line));
        pair
    }

    fn say(&mut self, line: &str) -> Option<[u32; 4]> {
        let fields: Vec<&str> = line.split(' ').collect();
        let line = parse(&fields).expect("a readable line");
        let given = run(&mut self.state, &mut self.classes, &line)?;
        Some([given.refusal, given.key, given.value, given.count])
    }

    /// The refusal of a call, which then alters nothing.
    fn refusal(&mut self, line: &str) -> u32 {
        let before = (self.state.clone(), self.classes.clone());
        let refusal = self.say(line).expect("a call")[0];
        let State { words, bytes, last } = &self.state;
        let kept = (words, bytes, *last, &self.classes)
            == (&before.0.words, &before.0.bytes, before.0.last, &before.1);
        // set up makes the buffer first
        assert!(refusal == 0 || kept || line.starts_with('U'), "{line} was refused and alters");
        refusal
    }
}

/// Keys 5 and 6 of class 0, 7 of class 1 and the last one; 5 is taken.
const FOUR: &str = "U 8 4294967295 8 125|N 6 60|N 5 50|N 268435463 70|N 4294967295 80|T";

#[test]
fn words_of_a_record() {
    let pair = Pair::after(FOUR);
    let mut expected = [0; CLASS_WORDS];
    expected[..4].copy_from_slice(&[1, 6, 1, 268_435_463]);
    expected[30..].copy_from_slice(&[1, 4_294_967_295]);
    assert_eq!(pair.classes, expected);
    assert_eq!(Pair::after("U 8 4294967295 8 125").classes, [0; CLASS_WORDS]);
}

/// The last key of a class and the first of the next.
#[test]
fn borders_of_the_classes() {
    let mut pair = Pair::after("U 8 4294967295 64 909");
    for class in 0..16u32 {
        let least = class << 28;
        for key in [least | 0x0fff_ffff, least.max(1)] {
            assert_eq!(pair.say(&format!("N {key} 1")).expect("a call")[0], 0);
            assert_eq!(key / 268_435_456, class);
        }
        assert_eq!(pair.say(&format!("C {class}")), Some([0, least.max(1), 0, 2]));
    }
    assert_eq!(total(&pair.classes), 32);
    for class in 0..16u32 {
        let greatest = class << 28 | 0x0fff_ffff;
        pair.say("T");
        assert_eq!(pair.say(&format!("C {class}")), Some([0, greatest, 0, 1]));
        pair.say("T");
        assert_eq!(pair.say(&format!("C {class}")), Some([0, 0, 0, 0]));
    }
    assert_eq!(pair.classes, [0; CLASS_WORDS]);
}

/// A full reading once more, by going over the cells and dividing.
fn by_cells(words: &[u32]) -> Vec<u32> {
    let settings = list(words).expect("a list").settings;
    let mut classes = vec![0; CLASS_WORDS];
    for cell in 1..settings.cells as u32 {
        if words[settings.word(cell, MARK)] == 1 {
            let key = words[settings.word(cell, KEY)];
            let at = 2 * (key as usize / 268_435_456);
            classes[at + 1] = if classes[at] == 0 { key } else { key.min(classes[at + 1]) };
            classes[at] += 1;
        }
    }
    classes
}

/// What a generated trace leads to: each call's letter with its refusals. A refused call alters
/// nothing, after an accepted one the record is the full reading, and of every question the record
/// alone decides.
fn seen_in(name: &str, seed: u64, lines: usize) -> BTreeMap<char, BTreeSet<u32>> {
    let mut pair = Pair { state: State::at_first(), classes: Vec::new() };
    let mut seen: BTreeMap<char, BTreeSet<u32>> = BTreeMap::new();
    for text in generated(name, seed, lines).split(|&byte| byte == b'\n') {
        let Ok(text) = std::str::from_utf8(text) else {
            continue;
        };
        let fields: Vec<&str> = text.split(' ').collect();
        if text.len() > 64 || parse(&fields).is_none() {
            continue;
        }
        let letter = text.chars().next().expect("a letter");
        if !"UNFATSGWRC".contains(letter) {
            pair.say(text);
            continue;
        }
        let refusal = pair.refusal(text);
        seen.entry(letter).or_default().insert(refusal);
        if refusal == 0 && letter != 'C' {
            assert_eq!(pair.classes, by_cells(&pair.state.words), "{text}");
        }
    }
    seen
}

#[test]
fn every_refusal_in_traces_of_counted_calls() {
    let expected: [(char, &[u32]); 10] = [
        ('U', &[0, 1, 2]),
        ('N', &[0, 3, 4, 5, 6, 15]),
        ('F', &[0, 3, 4, 8, 15]),
        ('A', &[0, 3, 4, 8, 15]),
        ('T', &[0, 3, 7, 15]),
        ('S', &[0, 3, 15]),
        ('G', &[0, 3, 4, 5, 6, 13, 14, 15]),
        ('W', &[0, 3, 12, 15]),
        ('R', &[0, 2, 11, 15]),
        ('C', &[0, 4, 15]),
    ];
    let expected: BTreeMap<char, BTreeSet<u32>> =
        expected.map(|(letter, refusals)| (letter, refusals.iter().copied().collect())).into();
    let mut of_seeds: BTreeMap<char, BTreeSet<u32>> = BTreeMap::new();
    for (letter, refusals) in (1..=8).flat_map(|seed| seen_in("gen-counted", seed, 1500)) {
        of_seeds.entry(letter).or_default().extend(refusals);
    }
    assert_eq!(of_seeds, expected);
    assert_eq!(seen_in("gen-counted-edges", 0, usize::MAX), expected);
}

/// Each word altered in several ways: every call is refused by 15, whatever it would say of the
/// list; with the list damaged too, by 3.
#[test]
fn damaged_words() {
    let right = Pair::after(&format!("{FOUR}|B 0"));
    for index in 0..CLASS_WORDS {
        let word = right.classes[index];
        for other in [word.wrapping_add(1), word.wrapping_sub(1), word ^ 1 << 31, word ^ 7, !word] {
            let mut pair = Pair { state: right.state.clone(), classes: right.classes.clone() };
            pair.classes[index] = other;
            for call in ["N 0 1", "N 6 1", "N 7 1", "F 0", "F 6", "A 0", "A 6", "T", "S", "W", "G"]
            {
                assert_eq!(pair.refusal(call), 15, "{index} {other} {call}");
            }
            pair.say("P 0 9");
            for call in ["N 0 1", "F 6", "A 6", "T", "S", "W", "G"] {
                assert_eq!(pair.refusal(call), 3, "{index} {other} {call}");
            }
        }
    }
}

#[test]
fn lengths() {
    for length in 0..=64 {
        let mut pair = Pair::after(&format!("{FOUR}|B 64|W"));
        let file = pair.state.bytes[..57].to_vec();
        pair.classes.resize(length, 0);
        let other = length != CLASS_WORDS;
        let expected = |right: u32, otherwise: u32| if other { otherwise } else { right };
        assert_eq!(pair.refusal("F 6"), expected(0, 15));
        assert_eq!(pair.refusal("F 0"), expected(4, 15));
        assert_eq!(pair.refusal("C 16"), expected(4, 15));
        assert_eq!(pair.refusal("C 15"), expected(0, 15));
        // no file, then the list's length, then the record's
        assert_eq!(pair.refusal("R"), 11);
        pair.state.bytes = file;
        pair.say("L 124");
        assert_eq!(pair.refusal("R"), 2);
        pair.say("L 125");
        assert_eq!(pair.refusal("R"), expected(0, 15));
        assert_eq!(pair.refusal("U 2 15 2 71"), 1);
        assert_eq!(pair.refusal("U 2 15 8 70"), 2);
        assert_eq!(pair.refusal("U 2 15 8 71"), expected(0, 2));
    }
}

/// The words of other classes do not matter, and the two of its own are answered as they stand.
#[test]
fn question_reads_two_words() {
    for number in 0..16 {
        for others in [0, 7, u32::MAX] {
            let mut classes = [others; CLASS_WORDS];
            classes[2 * number] = 5;
            classes[2 * number + 1] = 9;
            assert_eq!(class(&classes, number as u32), Answer::done(9, 0, 5));
        }
    }
    for number in [16, 17, 32, 1 << 28, u32::MAX] {
        assert_eq!(class(&[7; CLASS_WORDS], number), Answer::refused(4));
        assert_eq!(class(&[7; CLASS_WORDS - 1], number), Answer::refused(15));
        assert_eq!(class(&[7; CLASS_WORDS + 1], number), Answer::refused(15));
    }
}

/// Damaged words and records are written anew by a read and a set up.
#[test]
fn written_anew() {
    let mut pair = Pair::after(&format!("{FOUR}|B 57|W"));
    let right = pair.classes.clone();
    pair.classes.fill(7);
    pair.say("P 0 9");
    assert_eq!(pair.say("R"), Some([0, 0, 0, 3]));
    assert_eq!(pair.classes, right);
    pair.classes.fill(7);
    assert_eq!(pair.say("U 2 15 8 71"), Some([0; 4]));
    assert_eq!(pair.classes, [0; CLASS_WORDS]);
}

/// A reading that leaves the taken key, or counts it in the class beside, is found by the second
/// statement.
#[test]
#[should_panic(expected = "after the take of 6")]
fn least_key_kept() {
    let before = Pair::after(FOUR).classes;
    let mut after = before.clone();
    after[0] = 0;
    must_follow(&before, Change::Goes(6), &after);
}

#[test]
#[should_panic(expected = "Comes(4)")]
fn counted_beside() {
    let before = Pair::after(FOUR).classes;
    let mut after = before.clone();
    (after[1], after[2]) = (4, 2);
    must_follow(&before, Change::Comes(4), &after);
}

/// A line of the replay prints what it prints there, and the record's checksum.
#[test]
fn lines_with_a_record() {
    let lines = "C 0|K 32|U 2 15 8 71|N 6 60|C 0|X 0 2|C 0|F 6|T|X 0 1|T|K 65|B 1|K 0|C 0";
    let mut output = Vec::new();
    counted_replay(lines.replace('|', "\n").as_bytes(), &mut output).expect("memory is written");
    let output = String::from_utf8(output).expect("numbers");
    let answers: Vec<&str> = output.lines().collect();
    let starts = [
        "15 0 0 0 0 0",
        "- - - - 0 ",
        "0 0 0 0 ",
        "0 6 0 0 ",
        "0 6 0 1 ",
        "- - - - ",
        "0 6 0 2 ",
        "15 0 0 0 ",
        "15 0 0 0 ",
        "- - - - ",
        "0 6 60 1 ",
        "10 0 0 0 ",
        "- - - - ",
        "- - - - ",
        "15 0 0 0 ",
    ];
    assert_eq!(answers.len(), starts.len());
    for (answer, start) in answers.iter().zip(starts) {
        assert!(answer.starts_with(start), "{answer}");
    }
    let fields: Vec<usize> = answers.iter().map(|answer| answer.split(' ').count()).collect();
    assert_eq!(fields, [6, 6, 6, 6, 6, 6, 6, 6, 6, 6, 6, 6, 8, 6, 6]);
    // the record is made of 32 words 0: h starts at 32
    let zeros = (0..32).fold(32u64, |h, _| h * 1_000_003 % 2_147_483_647);
    assert_eq!(answers[1].split(' ').nth(5), Some(&zeros.to_string()[..]));
    assert!(matches!(parse(&["C", "4294967295"]), Some(Line::Class(u32::MAX))));
    assert!(parse(&["X", "0"]).is_none() && replay::parse(&["C", "1"]).is_none());
}

/// The record of a list is the same whatever cells hold its keys and whatever is owed.
#[test]
fn record_of_the_keys_alone() {
    let one = Pair::after("U 8 4294967295 8 125|N 6 1|N 5 2|N 268435463 3");
    let other = Pair::after("U 2 4294967295 9 79|N 268435463 3|N 4 7|N 5 2|N 6 1|T|S");
    assert_eq!(one.classes, other.classes);
    let model = list(&one.state.words).expect("a list");
    assert_eq!(full_reading(&model), one.classes);
}
