//! The plain row: its words after each call, each sentence of what a row is, what the generators lead
//! to; and the acceptance program: its lines, its verdict, and that lists and rows agree.

use super::generated;
use crate::acceptance::{acceptance, agree};
use crate::operations::{Answer, Call};
use crate::replay::Line;
use crate::row::{perform_on_row, row, row_length};
use crate::row_replay::{parse, row_replay, run};
use crate::settings::MOST_CELLS;
use std::collections::{BTreeMap, BTreeSet};

fn line(text: &str) -> Line {
    let fields: Vec<&str> = text.split(' ').collect();
    parse(&fields).expect("a readable line")
}

fn answered(words: &mut Vec<u32>, call: &str) -> [u32; 4] {
    let given = run(words, &line(call)).expect("a call");
    [given.refusal, given.key, given.value, given.count]
}

/// Each call of docs/REFERENCE.md, The plain row: its answer, and the words from the number of keys
/// up to the unused ones.
#[test]
fn words_after_calls() {
    let mut words = Vec::new();
    for (call, answer, left) in [
        ("U 2 15 6 20", [0; 4], &[0, 0][..]),
        ("N 6 60", [0, 6, 0, 0], &[1, 0, 6, 60, 1]),
        ("N 2 20", [0, 2, 0, 0], &[2, 0, 2, 20, 1, 6, 60, 1]),
        ("N 9 90", [0, 9, 0, 0], &[3, 0, 2, 20, 1, 6, 60, 1, 9, 90, 1]),
        ("T", [0, 2, 20, 1], &[3, 2, 2, 0, 2, 6, 60, 1, 9, 90, 1]),
        ("T", [0, 6, 60, 1], &[3, 6, 2, 0, 2, 6, 0, 2, 9, 90, 1]),
        // A key that comes late, and the position's own key again.
        ("N 5 50", [0, 5, 0, 0], &[4, 2, 2, 0, 2, 5, 50, 1, 6, 0, 2, 9, 90, 1]),
        ("N 2 21", [0, 2, 0, 0], &[4, 0, 2, 21, 1, 5, 50, 1, 6, 0, 2, 9, 90, 1]),
        ("N 5 51", [5, 5, 0, 0], &[4, 0, 2, 21, 1, 5, 50, 1, 6, 0, 2, 9, 90, 1]),
        ("N 15 1", [0, 15, 0, 0], &[5, 0, 2, 21, 1, 5, 50, 1, 6, 0, 2, 9, 90, 1, 15, 1, 1]),
        ("N 1 1", [6, 1, 0, 0], &[5, 0, 2, 21, 1, 5, 50, 1, 6, 0, 2, 9, 90, 1, 15, 1, 1]),
        ("T", [0, 2, 21, 1], &[5, 2, 2, 0, 2, 5, 50, 1, 6, 0, 2, 9, 90, 1, 15, 1, 1]),
        ("T", [0, 5, 50, 1], &[5, 5, 2, 0, 2, 5, 0, 2, 6, 0, 2, 9, 90, 1, 15, 1, 1]),
        ("F 6", [8, 6, 0, 0], &[5, 5, 2, 0, 2, 5, 0, 2, 6, 0, 2, 9, 90, 1, 15, 1, 1]),
        ("A 6", [0, 6, 0, 0], &[5, 5, 2, 0, 2, 5, 0, 2, 6, 0, 2, 9, 90, 1, 15, 1, 1]),
        ("A 7", [8, 7, 0, 0], &[5, 5, 2, 0, 2, 5, 0, 2, 6, 0, 2, 9, 90, 1, 15, 1, 1]),
        ("F 9", [0, 9, 90, 0], &[5, 5, 2, 0, 2, 5, 0, 2, 6, 0, 2, 9, 90, 1, 15, 1, 1]),
        ("F 16", [4, 0, 0, 0], &[5, 5, 2, 0, 2, 5, 0, 2, 6, 0, 2, 9, 90, 1, 15, 1, 1]),
        // The last dead key below every live one is kept, though it is above the position.
        ("S", [0, 0, 0, 2], &[3, 6, 6, 0, 2, 9, 90, 1, 15, 1, 1]),
        ("T", [0, 9, 90, 1], &[3, 9, 6, 0, 2, 9, 0, 2, 15, 1, 1]),
        ("N 6 61", [0, 6, 0, 0], &[3, 0, 6, 61, 1, 9, 0, 2, 15, 1, 1]),
        ("T", [0, 6, 61, 1], &[3, 6, 6, 0, 2, 9, 0, 2, 15, 1, 1]),
        ("T", [0, 15, 1, 2], &[3, 15, 6, 0, 2, 9, 0, 2, 15, 0, 2]),
        ("T", [7, 0, 0, 0], &[3, 15, 6, 0, 2, 9, 0, 2, 15, 0, 2]),
        ("S", [0, 0, 0, 2], &[1, 15, 15, 0, 2]),
    ] {
        assert_eq!(answered(&mut words, call), answer, "{call}");
        let mut expected = [&[2, 15, 6], left].concat();
        expected.resize(20, 0);
        assert_eq!(words, expected, "{call}");
    }
}

#[test]
fn nothing_live_counts_what_stands_above() {
    let mut words = Vec::new();
    let calls = "U 2 15 8 26|N 6 60|N 9 90|T|T|N 6 61|T|T";
    let last = calls.split('|').map(|call| answered(&mut words, call)).last();
    assert_eq!(last, Some([7, 0, 0, 1]));
}

/// Each sentence of The plain row 2 broken alone, and what is allowed though no calls lead to it.
#[test]
fn rows_by_sentence() {
    let good = [2, 15, 5, 3, 6, 2, 0, 2, 6, 0, 2, 9, 90, 1, 0, 0, 0];
    for (is_row, puts) in [
        (true, &[][..]),
        (false, &[(0, 1)]),
        (false, &[(0, 17)]),
        (true, &[(0, 16)]),
        (false, &[(1, 0)]),
        (false, &[(1, 8)]),
        (true, &[(1, 9)]),
        (false, &[(2, 4)]),
        (false, &[(2, 6)]),
        (false, &[(3, 5)]),
        (false, &[(3, 4)]),
        (false, &[(3, 2)]),
        (false, &[(4, 5)]),
        (false, &[(4, 10)]),
        (false, &[(4, 9)]),
        (true, &[(4, 2)]),
        (true, &[(4, 0)]),
        (false, &[(5, 0)]),
        (false, &[(5, 6)]),
        (false, &[(5, 7)]),
        (false, &[(7, 0)]),
        (false, &[(7, 3)]),
        (false, &[(13, 0)]),
        (false, &[(6, 1)]),
        (false, &[(10, 1)]),
        (false, &[(7, 1)]),
        (true, &[(10, 1), (4, 2)]),
        (true, &[(4, 0), (13, 2), (12, 0)]),
        (false, &[(14, 10)]),
        (false, &[(15, 1)]),
        (false, &[(16, 2)]),
        (true, &[(3, 4), (14, 10), (16, 1)]),
    ] {
        let mut words = good.to_vec();
        puts.iter().for_each(|&(at, value)| words[at] = value);
        assert_eq!(row(&words).is_some(), is_row, "{puts:?}");
        let refusal = perform_on_row(&mut words, &Call::Take).refusal;
        assert_eq!(refusal == 3, !is_row, "{puts:?}");
    }
    for length in 0..=20 {
        let mut words = good.to_vec();
        words.resize(length, 0);
        assert_eq!(row(&words).is_some(), length == good.len());
    }
    assert_eq!([3, 8, 512, MOST_CELLS].map(row_length), [11, 26, 1_538, 786_434]);
}

fn replayed(trace: &[u8]) -> String {
    let mut output = Vec::new();
    row_replay(trace, &mut output).expect("no input or output fails");
    String::from_utf8(output).expect("numbers")
}

/// The checksum of no words is 0, and an unreadable line does nothing.
#[test]
fn lines_of_the_replay() {
    assert_eq!(replayed(b""), "");
    let (zeros, with_5) = (sum(&[0, 0, 0]), sum(&[0, 5, 0]));
    let expected =
        format!("3 0 0 0 0\n10 0 0 0 0\n- - - - {zeros}\n- - - - {with_5}\n- - - - {with_5}\n");
    assert_eq!(replayed(b"T\n\nL 3\nP 1 5\nP 3 5"), expected);
    assert_eq!(replayed(b"G\nW\nR\nB 0\nO 0\nK 1\nC 0\n"), "10 0 0 0 0\n".repeat(7));
}

fn sum(words: &[u32]) -> String {
    let step = |h: u64, &word: &u32| (h * 1_000_003 + u64::from(word)) % 2_147_483_647;
    words.iter().fold(words.len() as u64, step).to_string()
}

/// Which refusals each kind of line meets, how many words by kind are altered so that the row is none
/// any more, and how many altered rows still are rows.
#[test]
fn traces_have_refusals_and_damage_of_every_kind() {
    let trace = generated("gen-row", 1, 20_000);
    let mut words = Vec::new();
    let mut refusals: BTreeMap<char, BTreeSet<u32>> = BTreeMap::new();
    let mut broken = BTreeMap::new();
    let mut still = 0;
    for text in trace.split(|&byte| byte == b'\n') {
        let Some(line) = std::str::from_utf8(text).ok().and_then(|text| {
            let fields: Vec<&str> = text.split(' ').collect();
            parse(&fields)
        }) else {
            continue;
        };
        let before = words.clone();
        let answer = run(&mut words, &line);
        if let Some(answer) = answer {
            let made = matches!(line, Line::Make { .. });
            assert!(answer.refusal == 0 || made || words == before, "a refusal changes a word");
            refusals.entry(text[0] as char).or_default().insert(answer.refusal);
        }
        if let (Line::Put { index, .. }, Some(read)) = (&line, row(&before)) {
            let used = 5 + 3 * read.standing.len();
            let kind = match *index as usize {
                index if index < 5 => index,
                index if index < used => 5 + (index - 5) % 3,
                index => 8 + (index - 5) % 3,
            };
            match row(&words) {
                None => *broken.entry(kind).or_insert(0) += 1,
                Some(after) => still += u32::from(after != read),
            }
        }
    }
    let met: Vec<(char, Vec<u32>)> =
        refusals.into_iter().map(|(kind, met)| (kind, met.into_iter().collect())).collect();
    assert_eq!(
        met,
        [
            ('A', vec![0, 3, 4, 8]),
            ('F', vec![0, 3, 4, 8]),
            ('N', vec![0, 3, 4, 5, 6]),
            ('S', vec![0, 3]),
            ('T', vec![0, 3, 7]),
            ('U', vec![0, 1, 2]),
        ]
    );
    assert!(broken.len() == 11 && broken.values().all(|&many| many >= 5), "{broken:?}");
    assert!(still >= 100, "{still} altered rows are rows still");
}

/// Every word of a row is altered so that it is none any more, but the value of its live key.
#[test]
fn edges_have_every_word() {
    let trace = generated("gen-row-edges", 0, usize::MAX);
    let answers = replayed(&trace);
    let lines = trace.split(|&byte| byte == b'\n');
    let mut words = Vec::new();
    let mut broken = BTreeSet::new();
    for (text, answer) in lines.zip(answers.lines()) {
        let readable = std::str::from_utf8(text).ok().filter(|text| text.len() <= 64);
        let Some(line) = readable.and_then(|text| parse(&text.split(' ').collect::<Vec<_>>()))
        else {
            assert!(answer.starts_with("10 0 0 0 "), "{answer}");
            continue;
        };
        let before = row(&words).is_some();
        run(&mut words, &line);
        if let Line::Put { index, .. } = line {
            if before && words.len() == 17 && row(&words).is_none() {
                broken.insert(index);
            }
        }
    }
    assert_eq!(broken, (0..17).filter(|&index| index != 12).collect());
}

fn accepted(trace: &[u8]) -> String {
    let mut output = Vec::new();
    acceptance(trace, &mut output).expect("no input or output fails");
    String::from_utf8(output).expect("numbers")
}

#[test]
fn lines_of_acceptance() {
    assert_eq!(accepted(b""), "SAME on 0 lines\n");
    assert_eq!(accepted(b"\n"), "10 0 0 0 10 0 0 0\nSAME on 1 lines\n");
    assert_eq!(accepted(b"T"), "3 0 0 0 3 0 0 0\nSAME on 1 lines\n");
    let trace = "U 2 15 8\nN 6 60\nN 5 50\nN 6 61\nA 5\nF 6\nT\nU 1 15 8\nU 2 15 262144\nT\nT\nS\nN 0 1\nN 1\n";
    let answers =
        "0 0 0 0 0 0 0 0\n0 6 0 0 0 6 0 0\n0 5 0 1 0 5 0 0\n5 6 0 2 5 6 0 0\n0 5 0 1 0 5 0 0\n\
                   0 6 60 2 0 6 60 0\n0 5 50 1 0 5 50 1\n1 0 0 0 1 0 0 0\n10 0 0 0 10 0 0 0\n\
                   0 6 60 1 0 6 60 1\n7 0 0 0 7 0 0 0\n0 0 0 1 0 0 0 1\n4 0 0 0 4 0 0 0\n\
                   10 0 0 0 10 0 0 0\nSAME on 14 lines\n";
    assert_eq!(accepted(trace.as_bytes()), answers);
}

/// The most cells of a list with 155,670 words at most, and one more.
#[test]
fn lists_of_too_many_words() {
    for (d, c) in [(2, 19_457), (8, 11_118), (16, 7_074)] {
        let trace = format!("U {d} 15 {c}\nN 1 10\nU {d} 15 {}\nF 1\n", c + 1);
        let answers = "0 0 0 0 0 0 0 0\n0 1 0 0 0 1 0 0\n10 0 0 0 10 0 0 0\n0 1 10 1 0 1 10 0\n";
        assert_eq!(accepted(trace.as_bytes()), format!("{answers}SAME on 4 lines\n"));
    }
}

/// Refusal, key and value always count, the count of a take, of 7 and of a sweep too.
#[test]
fn what_has_to_agree() {
    let answer = |refusal, key, value, count| Answer { refusal, key, value, count };
    let calls = [
        (Call::SetUp { d: 2, k: 15, c: 8 }, false),
        (Call::Insert { key: 6, value: 60 }, true),
        (Call::Find { key: 6 }, true),
        (Call::Finish { key: 6 }, true),
        (Call::Take, false),
        (Call::Sweep, false),
    ];
    let one = answer(0, 6, 60, 1);
    for (call, count_is_exempt) in calls {
        assert!(agree(&call, one, one));
        assert!(!agree(&call, one, answer(8, 6, 60, 1)), "{call:?}");
        assert!(!agree(&call, one, answer(0, 7, 60, 1)), "{call:?}");
        assert!(!agree(&call, one, answer(0, 6, 61, 1)), "{call:?}");
        assert_eq!(agree(&call, one, answer(0, 6, 60, 0)), count_is_exempt, "{call:?}");
    }
    assert!(!agree(&Call::Take, answer(7, 0, 0, 2), answer(7, 0, 0, 1)));
}

/// On all generated lines; every refusal of the calls is among the answers.
#[test]
fn lists_and_rows_agree() {
    let mut refusals = BTreeSet::new();
    for (name, seed, count) in [
        ("gen-acceptance-edges", 0, usize::MAX),
        ("gen-acceptance", 1, 8_000),
        ("gen-acceptance", 2, 8_000),
        ("gen-acceptance", 3, 8_000),
    ] {
        let trace = generated(name, seed, count);
        let answers = accepted(&trace);
        let lines = answers.lines().count() - 1;
        assert!(lines == count || count == usize::MAX);
        assert_eq!(answers.lines().last(), Some(&format!("SAME on {lines} lines")[..]), "{name}");
        let numbers = answers.lines().take(lines).map(|line| line.split(' ').collect::<Vec<_>>());
        refusals.extend(numbers.map(|numbers| {
            assert!(numbers.len() == 8 && numbers[0] == numbers[4]);
            numbers[0].to_string()
        }));
    }
    let refusals: Vec<&str> = refusals.iter().map(String::as_str).collect();
    assert_eq!(refusals, ["0", "1", "10", "3", "4", "5", "6", "7", "8"]);
}
