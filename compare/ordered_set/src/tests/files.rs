//! Files: the printed bytes of one, lengths, what altering a byte leads to, reading once more by
//! set up, inserts and finishes, and which refusals the generators lead to.

use super::{generated, line};
use crate::files::{read, write, Kept};
use crate::generators::file_forms::{Form, COUNT};
use crate::model::{Mark, Model};
use crate::operations::{perform, Answer, Call};
use crate::reading::list;
use crate::replay::{parse, run, BytesLine, Line, State};
use crate::settings::exact_length;
use std::collections::{BTreeMap, BTreeSet};

/// The list that these calls leave.
fn after(calls: &str) -> Vec<u32> {
    let mut state = State::at_first();
    for call in calls.split('|') {
        let answer = run(&mut state, &line(call)).expect("a call");
        assert_eq!(answer.refusal, 0, "{call}");
    }
    state.words
}

/// The list's file, in room with some bytes more, which are kept.
fn file(words: &[u32]) -> Vec<u8> {
    let mut room = vec![7; 40_000];
    let answer = write(words, &mut room);
    let long = answer.count as usize;
    assert_eq!(answer, Answer::done(0, 0, long));
    assert!(room[long..].iter().all(|&byte| byte == 7));
    room.truncate(long);
    room
}

fn live(model: &Model) -> BTreeMap<u32, u32> {
    let live = model.standing.iter().filter(|(_, at)| at.mark == Mark::Live);
    live.map(|(&key, at)| (key, at.value)).collect()
}

const TWO_WAIT: &str = "U 2 15 8 71|N 6 60|N 5 50|N 9 4294967295|T";

#[rustfmt::skip]
const FILE_OF_TWO: [u8; 49] = [
    2, // bodies
    1, 0, 0, 0, 19, 0, 0, 0, 12,
    2, 0, 0, 0, 31, 0, 0, 0, 18,
    0, 0, 0, 2, 0, 0, 0, 15, 0, 0, 0, 8,
    0, 2,
    0, 0, 0, 6, 0, 0, 0, 60,
    0, 0, 0, 9, 255, 255, 255, 255,
];

#[test]
fn bytes_of_a_file() {
    assert_eq!(file(&after(TWO_WAIT)), FILE_OF_TWO);
    assert_eq!(Form::new([2, 15, 8], &[(6, 60), (9, u32::MAX)]).bytes(), FILE_OF_TWO);
}

/// As printed in Files 4.
#[test]
fn printed_file() {
    let printed = "02  01 00000013 0000000c  02 0000001f 0000000a  00000002 0000000f 00000008  \
                   0001 00000006 0000003c";
    assert_eq!(digits(&file(&after("U 2 15 8 71|N 6 60"))), printed.replace(' ', ""));
    let begins =
        "02  01 00000013 0000000c  03 0000001f 00080004  00000002 ffffffff 00040000  00010000";
    let words = read_in([2, u32::MAX, 262_144], &keys_in_a_row(65_536));
    let mut room = vec![0; 524_323];
    assert_eq!(write(&words, &mut room), Answer::done(0, 0, 524_323));
    assert_eq!(digits(&room[..35]), begins.replace(' ', ""));
}

fn digits(bytes: &[u8]) -> String {
    bytes.iter().map(|byte| format!("{byte:02x}")).collect()
}

/// The list that a file with these settings and pairs is read as.
fn read_in([d, k, c]: [u32; 3], pairs: &[(u32, u32)]) -> Vec<u32> {
    let mut words = vec![7; exact_length(d as usize, c as usize)];
    assert_eq!(read(&Form::new([d, k, c], pairs).bytes(), &mut words).refusal, 0);
    words
}

#[test]
fn shortest_and_longest_file() {
    assert_eq!(file(&after("U 2 15 8 71")).len(), 33);
    assert_eq!(file(&after("U 2 15 8 71|N 6 60|T")).len(), 33);
    let pairs: Vec<(u32, u32)> = (1..4096).map(|key| (key, key)).collect();
    let longest = Form::new([16, u32::MAX, 4096], &pairs).bytes();
    assert_eq!(longest.len(), 32_793);
    let mut words = vec![7; exact_length(16, 4096)];
    assert_eq!(read(&longest, &mut words), Answer::done(0, 0, 4095));
    assert_eq!(file(&words), longest);
    let one_more: Vec<(u32, u32)> = (1..4097).map(|key| (key, key)).collect();
    let too_long = Form::new([16, u32::MAX, 4096], &one_more).bytes();
    assert_eq!(read(&too_long, &mut words), Answer::refused(11));
}

/// So many keys from 1 on, each with a value.
fn keys_in_a_row(many: u32) -> Vec<(u32, u32)> {
    (1..=many).map(|key| (key, !key)).collect()
}

/// The numbers in front of the pairs, without the settings: tag and length of the entries body, and
/// the bytes of its count.
fn before_pairs(file: &[u8], count_bytes: usize) -> (u8, u32, &[u8]) {
    let length = file[15..19].try_into().expect("four bytes");
    (file[10], u32::from_be_bytes(length), &file[31..31 + count_bytes])
}

/// The last file of tag 2 and the first of tag 3, in the least list that has room and in the
/// largest; then the greatest of all.
#[test]
fn files_of_both_tags() {
    for (many, c, tag, long, count) in [
        (65_535, 65_536, 2, 524_313, &[255, 255][..]),
        (65_535, 262_144, 2, 524_313, &[255, 255]),
        (65_536, 65_537, 3, 524_323, &[0, 1, 0, 0]),
        (65_536, 262_144, 3, 524_323, &[0, 1, 0, 0]),
        (262_143, 262_144, 3, 2_097_179, &[0, 3, 255, 255]),
    ] {
        let pairs = keys_in_a_row(many);
        let bytes = Form::new([2, u32::MAX, c], &pairs).bytes();
        assert_eq!(bytes.len(), long);
        let body = long as u32 - 31;
        assert_eq!(before_pairs(&bytes, count.len()), (tag, body, count));
        let mut words = vec![7; exact_length(2, c as usize)];
        assert_eq!(read(&bytes, &mut words), Answer::done(0, 0, many as usize));
        assert_eq!(live(&list(&words).expect("a list")), pairs.into_iter().collect());
        let mut room = vec![7; long + 1];
        assert_eq!(write(&words, &mut room[..long - 1]), Answer::refused(12));
        assert_eq!(write(&words, &mut room), Answer::done(0, 0, long));
        assert_eq!((&room[..long], room[long]), (&bytes[..], 7));
        // 11 is asked before 2
        assert_eq!(read(&bytes, &mut words[1..]), Answer::refused(2));
        assert_eq!(read(&bytes[..long - 1], &mut words[1..]), Answer::refused(11));
    }
}

/// The width of the count follows the tag, and the tag the count.
#[test]
fn count_of_the_other_tag() {
    for (many, c) in [(0, 3), (2, 8), (7, 8), (2, 4097), (2, 262_144), (65_535, 262_144)] {
        let form = Form::new([2, u32::MAX, c], &keys_in_a_row(many));
        assert!(Kept::in_file(&form.bytes()).is_some());
        for (tag, bytes) in [(3, 4), (3, 2), (2, 4), (3, 3), (2, 3), (1, 2), (4, 4), (0, 2)] {
            assert_eq!(
                Kept::in_file(&form.counted(tag, bytes).bytes()),
                None,
                "{many} {tag} {bytes}"
            );
        }
    }
    let form = Form::new([2, u32::MAX, 262_144], &keys_in_a_row(65_536));
    assert!(Kept::in_file(&form.bytes()).is_some());
    for (tag, bytes) in [(3, 2), (2, 4), (2, 2), (3, 3), (2, 3), (4, 4), (1, 4), (0, 4)] {
        assert_eq!(Kept::in_file(&form.counted(tag, bytes).bytes()), None, "{tag} {bytes}");
    }
}

/// One key fewer than cells, as many, and one more, about where the tag changes and at the greatest C.
#[test]
fn count_and_cells() {
    for c in [65_535, 65_536, 65_537, 262_144] {
        for many in [c - 1, c, c + 1] {
            let bytes = Form::new([16, u32::MAX, c], &keys_in_a_row(many)).bytes();
            let answer = if many < c { Answer::refused(2) } else { Answer::refused(11) };
            assert_eq!(read(&bytes, &mut []), answer, "{many} keys, {c} cells");
        }
    }
    let bytes = Form::new([2, u32::MAX, 262_145], &keys_in_a_row(65_536)).bytes();
    assert_eq!(read(&bytes, &mut []), Answer::refused(11));
}

/// Each byte in front of the pairs of a file with tag 3 becomes another: what is accepted has other
/// settings that are in range still. Then the count, the length and the pairs do not fit each other.
#[test]
fn altered_bytes_of_tag_3() {
    let form = Form::new([2, u32::MAX, 262_144], &keys_in_a_row(65_536));
    let bytes = form.bytes();
    let mut accepted = BTreeMap::<usize, Vec<u8>>::new();
    for (index, byte) in (0..35).flat_map(|index| (0..20).map(move |byte| (index, byte))) {
        let mut other = bytes.clone();
        other[index] = byte;
        match read(&other, &mut []) {
            _ if other == bytes => (),
            Answer { refusal: 2, .. } => accepted.entry(index).or_default().push(byte),
            answer => assert_eq!(answer, Answer::refused(11), "{index} {byte}"),
        }
    }
    // C is 0x40000: 0x20000 and 0x30000 are in range, and 0x10000 are one cell too few
    let mut in_range = BTreeMap::from([(22, (3..=16).collect()), (28, vec![2, 3])]);
    in_range.extend((23..=26).map(|index| (index, (0..20).collect())));
    assert_eq!(accepted, in_range);
    let long = bytes.len();
    for cut in [0, 1, 10, 11, 19, 31, 32, 33, 34, 35, 43, long - 8, long - 1] {
        assert_eq!(Kept::in_file(&bytes[..cut]), None);
        assert_eq!(Kept::in_file(&bytes[long - cut..]), None);
    }
    for more in [&[0][..], &[255], &[255; 8]] {
        assert_eq!(Kept::in_file(&[&bytes[..], more].concat()), None);
    }
    for count in [65_535, 65_537, 262_143, 1 << 24] {
        let mut other = form.clone();
        other.set(COUNT, count);
        assert_eq!(Kept::in_file(&other.bytes()), None);
    }
}

#[test]
fn room_too_short() {
    let words = after(TWO_WAIT);
    for long in 0..49 {
        let mut room = vec![7; long];
        assert_eq!(write(&words, &mut room), Answer::refused(12));
        assert!(room.iter().all(|&byte| byte == 7));
    }
    assert_eq!(write(&words[1..], &mut []), Answer::refused(3));
    assert_eq!(write(&[], &mut [0; 99]), Answer::refused(3));
}

#[test]
fn write_then_read() {
    let words = after(TWO_WAIT);
    let mut back = vec![7; 71];
    assert_eq!(read(&file(&words), &mut back), Answer::done(0, 0, 2));
    let (before, after) = (list(&words).expect("a list"), list(&back).expect("a list"));
    assert_eq!(live(&after), live(&before));
    assert_eq!((after.position, after.standing[&6].cell, after.standing[&9].cell), (0, 1, 2));
    assert_eq!(after.free, [7, 6, 5, 4, 3]);
    for length in [0, 5, 70, 72] {
        let mut other = vec![7; length];
        assert_eq!(read(&FILE_OF_TWO, &mut other), Answer::refused(2));
        assert_eq!(read(&FILE_OF_TWO[1..], &mut other), Answer::refused(11));
        assert!(other.iter().all(|&word| word == 7));
    }
}

/// Of every byte every other one. Where D, K and C are in range, K is not below the keys and they
/// ascend, the bytes are a file, and the one of what was read; so is any other value.
#[test]
fn every_altered_byte() {
    let mut accepted = BTreeMap::new();
    for (index, byte) in (0..49).flat_map(|index| (0..=255).map(move |byte| (index, byte))) {
        let mut bytes = FILE_OF_TWO;
        bytes[index] = byte;
        if byte == FILE_OF_TWO[index] {
            continue;
        }
        let Some(kept) = Kept::in_file(&bytes) else {
            continue;
        };
        *accepted.entry(index).or_insert(0) += 1;
        let mut words = vec![7; kept.settings.length()];
        assert_eq!(read(&bytes, &mut words), Answer::done(0, 0, 2));
        assert_eq!(file(&words), bytes);
    }
    let values = [37, 38, 39, 40, 45, 46, 47, 48];
    let of_values = values.map(|index| (index, 255));
    // D from 2 to 16; K, C and the keys by their low bytes, K and C also by the higher ones
    let others =
        [(22, 14), (23, 255), (24, 255), (25, 255), (26, 246), (28, 3), (29, 255), (30, 252)];
    let of_keys = [(36, 7), (44, 8)];
    let expected: BTreeMap<usize, i32> =
        [&of_values[..], &others, &of_keys].concat().into_iter().collect();
    assert_eq!(accepted, expected);
}

#[test]
fn cut_or_extended() {
    for long in 0..49 {
        assert_eq!(Kept::in_file(&FILE_OF_TWO[..long]), None);
        assert_eq!(Kept::in_file(&FILE_OF_TWO[49 - long..]), None);
    }
    for byte in 0..=255 {
        assert_eq!(Kept::in_file(&[&FILE_OF_TWO[..], &[byte]].concat()), None);
        assert_eq!(Kept::in_file(&[&[byte], &FILE_OF_TWO[..]].concat()), None);
    }
}

#[test]
fn other_bodies() {
    for pairs in [&[][..], &[(1, 7)], &[(1, 7), (15, 0)]] {
        let form = Form::new([2, 15, 8], pairs);
        assert!(Kept::in_file(&form.bytes()).is_some());
        for other in form.other_bodies() {
            assert_eq!(Kept::in_file(&other.bytes()), None);
        }
    }
}

#[test]
fn keys_in_a_file() {
    let reads = |k: u32, c: u32, keys: &[u32]| {
        let pairs: Vec<(u32, u32)> = keys.iter().map(|&key| (key, 0)).collect();
        Kept::in_file(&Form::new([2, k, c], &pairs).bytes()).is_some()
    };
    for keys in [&[][..], &[1], &[15], &[1, 15], &[1, 2, 3], &[13, 14, 15]] {
        assert!(reads(15, 4, keys), "{keys:?}");
    }
    for keys in [&[0][..], &[16], &[0, 1], &[1, 1], &[2, 1], &[15, 16], &[1, 3, 2], &[1, 2, 3, 4]] {
        assert!(!reads(15, 4, keys), "{keys:?}");
    }
    assert!(reads(u32::MAX, 3, &[u32::MAX - 1, u32::MAX]));
    assert!(!reads(u32::MAX, 3, &[u32::MAX, 0]));
}

/// What a trace's lines W and R lead to: the refusals, how many lists were read by settings other
/// than those that the words had, and how many reads were of tag 3 and of a file but for that tag
/// and its four bytes.
#[derive(Default)]
struct Seen {
    refusals: BTreeSet<(char, u32)>,
    other_settings: u32,
    over_no_list: u32,
    of_tag_3: u32,
    but_for_tag_3: u32,
}

/// The same file under tag 2, with a count of two bytes, if the bytes are long enough.
fn under_tag_2(bytes: &[u8]) -> Option<Vec<u8>> {
    let (before, after) = (bytes.get(..31)?, bytes.get(33..)?);
    let mut file = [before, after].concat();
    file[10] = 2;
    file[15..19].copy_from_slice(&(after.len() as u32).to_be_bytes());
    Some(file)
}

/// A refused call alters nothing. A write leaves the words; a read leaves the bytes, and the words
/// that set up, inserts in ascending order and finishes leave.
fn see(trace: &[u8], seen: &mut Seen) {
    let mut state = State::at_first();
    for text in trace.split(|&byte| byte == b'\n') {
        let fields: Vec<&str> = match std::str::from_utf8(text) {
            Ok(text) => text.split(' ').collect(),
            Err(_) => continue,
        };
        let Some(said) = parse(&fields) else {
            continue;
        };
        let (words, bytes) = (state.words.clone(), state.bytes.clone());
        let answer = run(&mut state, &said);
        let (letter, answer) = match (&said, answer) {
            (Line::Bytes(BytesLine::Write), Some(answer)) => ('W', answer),
            (Line::Bytes(BytesLine::Read), Some(answer)) => ('R', answer),
            _ => continue,
        };
        seen.refusals.insert((letter, answer.refusal));
        if letter == 'R' && bytes.get(10) == Some(&3) {
            assert_eq!(answer, Answer::refused(11), "a trace has no bytes for so many keys");
            let few = under_tag_2(&bytes).and_then(|file| Kept::in_file(&file));
            seen.of_tag_3 += 1;
            seen.but_for_tag_3 += u32::from(few.is_some());
        }
        assert!(words == state.words || letter == 'R' && answer.refusal == 0, "words altered");
        assert!(bytes == state.bytes || letter == 'W' && answer.refusal == 0, "bytes altered");
        if letter == 'R' && answer.refusal == 0 {
            let kept = Kept::in_file(&bytes).expect("a file");
            if kept.waiting.len() < 100 {
                assert!(by_inserts(&kept) == state.words, "another list by inserts");
            }
            match list(&words) {
                Some(before) => seen.other_settings += u32::from(before.settings != kept.settings),
                None => seen.over_no_list += 1,
            }
        }
    }
}

/// Set up, inserts in ascending order, and finishes.
fn by_inserts(kept: &Kept) -> Vec<u32> {
    let mut words = vec![7; kept.settings.length()];
    let [d, c] = [kept.settings.dimensions, kept.settings.cells].map(|number| number as u32);
    let set_up = Call::SetUp { d, k: kept.settings.largest_key, c };
    let inserts = kept.waiting.iter().map(|(&key, &value)| Call::Insert { key, value });
    let finishes = kept.waiting.keys().map(|&key| Call::Finish { key });
    for call in std::iter::once(set_up).chain(inserts).chain(finishes) {
        assert_eq!(perform(&mut words, &call).refusal, 0);
    }
    words
}

#[test]
fn traces_of_files() {
    let every = BTreeSet::from([('W', 0), ('W', 3), ('W', 12), ('R', 0), ('R', 2), ('R', 11)]);
    let mut edges = Seen::default();
    see(&generated("gen-edges", 0, usize::MAX), &mut edges);
    assert_eq!(edges.refusals, every);
    assert!(edges.of_tag_3 > 100 && edges.but_for_tag_3 > 20);
    let mut seen = Seen::default();
    (1..=8).for_each(|seed| see(&generated("gen-files", seed, 1500), &mut seen));
    assert_eq!(seen.refusals, every);
    assert!(seen.other_settings > 20 && seen.over_no_list > 20);
    assert!(seen.of_tag_3 > 60 && seen.but_for_tag_3 > 20);
}

/// A list and the one read from its file give the same takes but for passed.
#[test]
fn takes_after_a_restart() {
    let trace = generated("gen-calls", 3, 4000);
    let mut state = State::at_first();
    for text in std::str::from_utf8(&trace).expect("readable lines").lines() {
        run(&mut state, &line(text));
        let mut words = state.words.clone();
        let mut back = vec![7; words.len()];
        assert_eq!(read(&file(&words), &mut back).refusal, 0);
        loop {
            let [one, other] = [&mut words, &mut back].map(|words| perform(words, &Call::Take));
            assert_eq!((one.refusal, one.key, one.value), (other.refusal, other.key, other.value));
            if one.refusal != 0 {
                break;
            }
        }
    }
}
