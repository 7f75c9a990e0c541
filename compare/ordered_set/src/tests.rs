//! The fourteen steps and the printed example, and second statements of what the program does, by the words.

mod classes;
mod files;
mod records;
mod rows;
mod runs;

use crate::generators::edges::{FOURTEEN_STEPS, LATE_BEFORE_ALL, LATE_NOTE};
use crate::generators::{named, whole, write};
use crate::model::Model;
use crate::operations::{perform, Answer, Call};
use crate::order::order;
use crate::reading::list;
use crate::replay::{most_cells, parse, run, Line, State};
use crate::settings::*;
use std::collections::BTreeMap;

fn line(text: &str) -> Line {
    let fields: Vec<&str> = text.split(' ').collect();
    parse(&fields).expect("a readable line")
}

fn owing(model: &Model) -> Vec<u32> {
    let owes = model.standing.iter().filter(|(_, at)| at.owes);
    owes.map(|(&key, _)| key).collect()
}

#[test]
fn bases_are_the_table() {
    let table = [65536, 1626, 256, 85, 41, 24, 16, 12, 10, 8, 7, 6, 5, 5, 4];
    let bases: Vec<u32> = (2..=16).map(|d| base(d, u32::MAX)).collect();
    assert_eq!(bases, table);
    assert_eq!([base(2, 15), base(8, 1_048_575), base(2, 16), base(16, 1)], [4, 6, 5, 2]);
    let lengths = [(8, 512), (16, 4096), (16, MOST_CELLS)].map(|(d, c)| exact_length(d, c));
    assert_eq!(lengths, [7_181, 90_133, 5_767_189]);
    assert_eq!([2, 8, 16].map(most_cells), [19_457, 11_118, 7_074]);
}

/// Set up at each end of C's range: the words have the exact length, or are none.
#[test]
fn cells_at_the_ends() {
    for (c, refusal, on_no_words) in [
        (2, 1, 1),
        (3, 0, 2),
        (4096, 0, 2),
        (4097, 0, 2),
        (262_143, 0, 2),
        (262_144, 0, 2),
        (262_145, 1, 1),
    ] {
        let call = Call::SetUp { d: 2, k: 15, c };
        let mut words = vec![7; exact_length(2, c as usize)];
        assert_eq!(perform(&mut words, &call), Answer::refused(refusal), "{c}");
        assert_eq!(list(&words).is_some(), refusal == 0);
        assert_eq!(perform(&mut [], &call), Answer::refused(on_no_words), "{c}");
    }
}

#[test]
fn fourteen_steps() {
    // Each answer, then the key of the position and who owes.
    let expected: [([u32; 4], u32, &[u32]); 14] = [
        ([0, 6, 0, 0], 0, &[]),
        ([0, 5, 0, 1], 0, &[5]),
        ([0, 9, 0, 1], 0, &[]),
        ([0, 6, 60, 2], 0, &[]),
        ([0, 5, 50, 1], 5, &[]),
        ([0, 6, 60, 1], 6, &[]),
        ([0, 2, 0, 0], 0, &[]),
        ([0, 2, 20, 1], 2, &[]),
        ([0, 9, 90, 3], 9, &[]),
        ([0, 6, 0, 2], 5, &[]),
        ([0, 6, 61, 1], 6, &[]),
        ([7, 0, 0, 1], 6, &[]),
        ([0, 0, 0, 3], 9, &[]),
        ([0, 5, 0, 1], 0, &[]),
    ];
    let mut state = State::at_first();
    run(&mut state, &line("U 2 15 8 71"));
    for (step, (answer, position, owes)) in FOURTEEN_STEPS.split('|').zip(expected) {
        assert_eq!(answered(&mut state, step), answer, "{step}");
        let model = list(&state.words).expect("a list");
        assert_eq!((model.position, &owing(&model)[..]), (position, owes), "{step}");
        if step == "S" {
            assert_eq!(model.free, [7, 6, 5, 4, 2, 1], "the chain 1, 2, 4, 5, 6, 7");
        }
    }
    let model = list(&state.words).expect("a list");
    assert_eq!(model.standing[&5].cell, 1);
}

/// The four numbers that a call answers.
fn answered(state: &mut State, call: &str) -> [u32; 4] {
    let given = run(state, &line(call)).expect("a call");
    [given.refusal, given.key, given.value, given.count]
}

/// Makes the calls one after the other; gives the last one's answer and the key of the position.
fn left_by(calls: &str) -> ([u32; 4], u32) {
    let mut state = State::at_first();
    let answers = calls.split('|').map(|call| answered(&mut state, call));
    let last = answers.last().expect("a call");
    (last, list(&state.words).expect("a list").position)
}

/// 8 hangs from 4 and stands after 6.
#[test]
fn late_note() {
    assert_eq!(left_by(LATE_NOTE), ([0, 8, 0, 2], 6));
    assert_eq!(left_by(&format!("{LATE_NOTE}|T")), ([0, 8, 80, 1], 8));
    // The position's own key again, which is dead now.
    assert_eq!(left_by(&format!("{LATE_NOTE}|T|N 8 81")), ([0, 8, 0, 2], 6));
    assert_eq!(left_by(&format!("{LATE_NOTE}|T|N 8 81|T")), ([0, 8, 81, 1], 8));
    // A key above the position leaves it, and the dead ones between are passed.
    assert_eq!(left_by(&format!("{LATE_NOTE}|N 9 91")), ([0, 9, 0, 3], 6));
    assert_eq!(left_by(&format!("{LATE_NOTE}|T|N 10 100|T")), ([0, 10, 100, 2], 10));
}

/// Keys with no other below them: a new one, then a dead one.
#[test]
fn late_note_before_all() {
    assert_eq!(left_by(LATE_BEFORE_ALL), ([0, 2, 0, 0], 0));
    assert_eq!(left_by(&format!("{LATE_BEFORE_ALL}|T")), ([0, 2, 20, 1], 2));
    assert_eq!(left_by(&format!("{LATE_BEFORE_ALL}|T|N 2 21")), ([0, 2, 0, 1], 0));
    assert_eq!(left_by(&format!("{LATE_BEFORE_ALL}|T|N 2 21|T")), ([0, 2, 21, 1], 2));
}

#[test]
fn printed_order() {
    let input = "N 1 117 0 41\nN 1 1117 0 42\nN 0 117 0 43\nN 1 117 0 44\nT\nT\nT\nT\n";
    let output = "0 268914688 0 0\n0 273010688 0 1\n0 479232 0 0\n5 268914688 0 1\n\
                  0 479232 43 1\n0 268914688 41 1\n0 273010688 42 1\n7 0 0 0\n";
    assert_eq!(ordered(input.as_bytes()), output);
}

#[test]
fn two_notes_for_one_unit() {
    let input = "N 1 117 2 72\nN 1 117 1 71\nT\nT\nT\n";
    let output = "0 268914690 0 0\n0 268914689 0 1\n0 268914689 71 1\n0 268914690 72 1\n7 0 0 0\n";
    assert_eq!(ordered(input.as_bytes()), output);
}

#[test]
fn order_lines_at_the_ends() {
    assert_eq!(ordered(b""), "");
    assert_eq!(ordered(b"\n"), "10 0 0 0\n");
    assert_eq!(ordered(b"T\n\nT"), "7 0 0 0\n10 0 0 0\n7 0 0 0\n");
    assert_eq!(ordered(&[b'1'; 100_000]), "10 0 0 0\n");
    assert_eq!(
        ordered(b"N 15 65535 4095 4294967295\nN 16 1 0 0\nF 0 0 0\nN 1 1 4096 0\nN 1 1 0"),
        "0 4294967295 0 0\n10 0 0 0\n10 0 0 0\n10 0 0 0\n10 0 0 0\n"
    );
}

fn ordered(input: &[u8]) -> String {
    let mut output = Vec::new();
    order(input, &mut output).expect("no input or output fails");
    String::from_utf8(output).expect("numbers")
}

fn generated(name: &str, seed: u64, lines: usize) -> Vec<u8> {
    let mut made = Vec::new();
    let generator = whole(name).or(named(name)).expect("a generator");
    write(generator, seed, lines, &mut made).expect("memory is written");
    made
}

/// The calls of a generated trace, each with the words before and after it.
fn for_each_call(name: &str, lines: usize, mut see: impl FnMut(&Model, &Line, &[u32], &[u32])) {
    let trace = generated(name, 1, lines);
    let mut state = State::at_first();
    for text in std::str::from_utf8(&trace).expect("readable lines").lines() {
        let line = line(text);
        let (before, model) = (state.words.clone(), list(&state.words));
        let answer = run(&mut state, &line);
        if answer.is_some_and(|answer| answer.refusal != 0) {
            assert!(before == state.words, "a refusal changes a word");
        } else if let Some(model) = model {
            see(&model, &line, &before, &state.words);
        }
    }
}

/// What an insert at or below the position is a case of.
fn kinds_of_late(before: &Model, key: u32, after: &Model) -> [(&'static str, bool); 5] {
    let stood = before.standing.contains_key(&key);
    [
        ("new", !stood),
        ("revived", stood),
        ("the position's own", key == before.position),
        ("above several dead keys", before.standing.range(1..key).count() >= 3),
        ("apart from its parent", after.parent(key).0 != after.position),
    ]
}

/// How many such inserts a trace has, by kind, and how many of them a take follows.
fn late_notes(name: &str, lines: usize) -> BTreeMap<&'static str, u32> {
    let mut seen = BTreeMap::new();
    let mut came_late = false;
    for_each_call(name, lines, |model, line, _, after| {
        let late_before = std::mem::take(&mut came_late);
        let kinds = match *line {
            Line::Call(Call::Insert { key, .. }) if key <= model.position => {
                came_late = true;
                kinds_of_late(model, key, &list(after).expect("a list")).to_vec()
            }
            Line::Call(Call::Take) => vec![("taken next", late_before)],
            _ => Vec::new(),
        };
        for (kind, is_so) in kinds {
            *seen.entry(kind).or_default() += u32::from(is_so);
        }
    });
    seen
}

#[test]
fn traces_have_late_notes_of_every_kind() {
    for (name, lines, least) in [("gen-calls", 5000, 100), ("gen-large", 2000, 20)] {
        let seen = late_notes(name, lines);
        assert!(seen.len() == 6 && seen.values().all(|&many| many >= least), "{name}: {seen:?}");
    }
}

/// Links and path once more, by going over all standing keys.
#[test]
fn settled_shape_by_all_keys() {
    for_each_call("gen-calls", 2000, |model, _, _, _| {
        let settings = &model.settings;
        let keys: Vec<u32> = model.standing.keys().copied().collect();
        for (x, d) in keys.iter().flat_map(|&x| (0..settings.dimensions).map(move |d| (x, d))) {
            let larger = |y: u32| settings.coordinate(y, d) > settings.coordinate(x, d);
            let mut led_to = keys.iter().filter(|&&y| settings.shared(x, y) == d && larger(y));
            let expected = led_to.next().filter(|_| d >= model.dimension(x));
            assert_eq!(model.link(x, d).as_ref(), expected);
        }
        for d in 0..settings.dimensions {
            let sharing = |y: &&u32| settings.shared(model.position, **y) > d;
            let least = keys.iter().find(sharing).expect("the position shares all");
            assert_eq!(model.path(d), model.standing[least].cell);
        }
    });
}

/// Insert and finish once more, as changes of single words.
#[test]
fn insert_and_finish_by_words() {
    let mut seen = [0; 3];
    let mut see = |model: &Model, line: &Line, before: &[u32], after: &[u32]| {
        let mut words = before.to_vec();
        match *line {
            Line::Call(Call::Insert { key, value }) => {
                let new = list(after).expect("a list");
                if let Some(dead) = model.standing.get(&key) {
                    revive_by_words(&model.settings, &mut words, dead.cell, value);
                    seen[1] += 1;
                } else {
                    put_new_by_words(model, &new, &mut words, key, value);
                    seen[0] += 1;
                }
                if key <= model.position {
                    redraw_path_by_words(&new, &mut words, key);
                }
            }
            Line::Call(Call::Finish { key }) => {
                finish_by_words(&model.settings, &mut words, model.standing[&key].cell);
                seen[2] += 1;
            }
            _ => return,
        }
        assert!(words == after, "{line:?} by words is another buffer");
    };
    for_each_call("gen-calls", 20_000, &mut see);
    for_each_call("gen-damage", 20_000, &mut see);
    assert!(seen.iter().all(|&many| many > 1000), "too few calls: {seen:?}");
}

/// Debts 5.
fn finish_by_words(settings: &Settings, words: &mut [u32], n: u32) {
    let [c, low, high] = [OWED, LOW, HIGH].map(|field| words[settings.word(n, field)]);
    for d in low as usize..high as usize {
        words[settings.link_word(n, d)] = std::mem::take(&mut words[settings.link_word(c, d)]);
    }
    write_fields(settings, words, n, [(OWED, 0), (LOW, 0), (HIGH, 0)]);
}

fn write_fields(settings: &Settings, words: &mut [u32], cell: u32, fields: [(usize, u32); 3]) {
    for (field, word) in fields {
        words[settings.word(cell, field)] = word;
    }
}

fn revive_by_words(settings: &Settings, words: &mut [u32], cell: u32, value: u32) {
    words[settings.word(cell, VALUE)] = value;
    words[settings.word(cell, MARK)] = 1;
}

fn put_new_by_words(before: &Model, new: &Model, words: &mut [u32], key: u32, value: u32) {
    let settings = &before.settings;
    let (parent, p) = new.parent(key);
    let (parent_cell, n) = (new.standing[&parent].cell, words[FIRST_FREE]);
    words[FIRST_FREE] = words[settings.word(n, KEY)];
    finish_by_words(settings, words, parent_cell);
    words[settings.link_word(parent_cell, p)] = n;
    if let Some(c) = before.link(parent, p) {
        let (q, c) = (settings.shared(key, c), before.standing[&c].cell);
        finish_by_words(settings, words, c);
        words[settings.link_word(n, q)] = c;
        if p < q {
            write_fields(settings, words, n, [(OWED, c), (LOW, p as u32), (HIGH, q as u32)]);
        }
    }
    write_fields(settings, words, n, [(KEY, key), (VALUE, value), (MARK, 1)]);
}

/// The path to the greatest of the keys below, by going over all standing keys.
fn redraw_path_by_words(new: &Model, words: &mut [u32], key: u32) {
    let settings = &new.settings;
    let below = new.standing.keys().copied().filter(|&x| x < key);
    let position = below.max().expect("the head");
    for d in 0..settings.dimensions {
        let mut sharing = new.standing.iter().filter(|(&y, _)| settings.shared(position, y) > d);
        words[settings.path_word(d)] = sharing.next().expect("the position").1.cell;
    }
}
