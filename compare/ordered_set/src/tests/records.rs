//! Records: the grammar's rules one by one and once more by derivation, full numbers, where a
//! record ends, and which refusals the generators lead to.

use super::generated;
use crate::generators::record_forms::{forms, BROKEN_TEXTS, TEXTS};
use crate::logger::logger;
use crate::reading::list;
use crate::records::{fields, full_number, records_of, NONE_YET};
use crate::replay::{parse, replay, run, BytesLine, Line, State};
use std::collections::BTreeSet;

/// Shows bytes as forms are written: `'` is a quote, `<` a CR and `>` an LF.
fn shown(bytes: &[u8]) -> String {
    let text = std::str::from_utf8(bytes).expect("text");
    text.replace('"', "'").replace('\r', "<").replace('\n', ">")
}

/// The fields of a record, a bar between, or `broken`.
fn read(record: &str) -> String {
    let fields = fields(&forms(record.as_bytes())[0]);
    fields.map_or("broken".to_string(), |fields| shown(&fields.join(&b'|')))
}

#[test]
fn record_and_its_end() {
    for (record, fields) in [("", ""), ("a", "a"), ("a,b", "a|b"), (",", "|"), (",,", "||")] {
        assert_eq!(read(record), fields);
        assert_eq!(read(&format!("{record}<>")), fields);
        for broken in ["<", ">", "><", "<><>", "<>>", "<<>", "<>a", "<>,", "<> "] {
            assert_eq!(read(&format!("{record}{broken}")), "broken", "{record}{broken}");
        }
    }
}

#[test]
fn escaped_fields() {
    let kept = [
        ("''", ""),
        ("'1'", "1"),
        ("'1'''", "1'"),
        ("''''", "'"),
        ("''''''", "''"),
        ("'''a''',b", "'a'|b"),
        ("'a,b',c", "a,b|c"),
        ("'a<>b<c>'<>", "a<>b<c>"),
        ("'a'',''b','c'", "a','b|c"),
    ];
    for (record, expected) in kept {
        assert_eq!(read(record), expected, "{record}");
    }
    for record in ["'1''", "'", "'''", "'a", "'a<>", "'a'b", "'a' ", "'a'<", "'a'b'", "'a\t'"] {
        assert_eq!(read(record), "broken", "{record}");
    }
}

#[test]
fn non_escaped_fields() {
    for record in ["", " ", " a ", " !#+-~", "1"] {
        assert_eq!(read(record), record);
    }
    for record in ["a'", "a'b'", "a''", " 'a'", "a<b", "a>b", "a<>b", "a\t", "a\0", "a\x7f"] {
        assert_eq!(read(record), "broken", "{record}");
    }
}

#[test]
fn every_byte_of_a_field() {
    for byte in 0..=255 {
        let textdata = (32..=126).contains(&byte) && byte != b'"' && byte != b',';
        let one_field = Some(vec![vec![byte]]);
        assert_eq!(fields(&[byte]) == one_field, textdata, "{byte}");
        let in_quotes = textdata || b",\r\n".contains(&byte);
        assert_eq!(fields(&[b'"', byte, b'"']) == one_field, in_quotes, "{byte}");
    }
}

/// The grammar once more, as a question to whole bytes: all that they may be a record of, by
/// trying every comma for the end of the first field.
fn derivations(bytes: &[u8]) -> BTreeSet<Vec<Vec<u8>>> {
    let whole = bytes.strip_suffix(b"\r\n").into_iter().chain([bytes]);
    let mut found: BTreeSet<_> = whole.filter_map(|field| Some(vec![derived(field)?])).collect();
    for comma in (0..bytes.len()).filter(|&at| bytes[at] == b',') {
        if let Some(first) = derived(&bytes[..comma]) {
            let others = derivations(&bytes[comma + 1..]).into_iter();
            found.extend(others.map(|others| [vec![first.clone()], others].concat()));
        }
    }
    found
}

/// What a whole field says: without its quotes and with each pair made one, or as it stands.
fn derived(field: &[u8]) -> Option<Vec<u8>> {
    let textdata = |byte: &u8| matches!(byte, b' '..=b'~') && !b",\"".contains(byte);
    let inside = field.strip_prefix(b"\"").and_then(|field| field.strip_suffix(b"\""));
    let Some(inside) = inside else {
        return field.iter().all(textdata).then(|| field.to_vec());
    };
    let inside = std::str::from_utf8(inside).ok()?.replace("\"\"", "\0");
    let allowed = |byte: u8| textdata(&byte) || b",\r\n\0".contains(&byte);
    inside.bytes().all(allowed).then(|| inside.replace('\0', "\"").into_bytes())
}

/// No bytes have two derivations, and the reading gives the one that there is.
#[test]
fn short_records_by_derivation() {
    let mut records = vec![Vec::new()];
    for _ in 0..=7 {
        for record in &records {
            let read: BTreeSet<_> = fields(record).into_iter().collect();
            assert_eq!(read, derivations(record), "{record:?}");
        }
        let longer = |record: &Vec<u8>| b"a,\"\r\n\x7f".map(|byte| [&record[..], &[byte]].concat());
        records = records.iter().flat_map(longer).collect();
    }
}

#[test]
fn texts_are_what_they_are_called() {
    let with_text = |text: Vec<u8>| fields(&[b"1,1,1,", &text[..], b",1"].concat());
    for text in forms(TEXTS) {
        assert!(with_text(text).is_some_and(|fields| fields.len() == 5));
    }
    for text in forms(BROKEN_TEXTS) {
        assert_eq!(with_text(text), None);
    }
}

#[test]
fn full_numbers() {
    assert_eq!(full_number(0, NONE_YET), Some(65_536));
    assert_eq!(full_number(65_535, u64::MAX), Some(131_071));
    assert_eq!(full_number(0, 65_535), Some(65_536));
    assert_eq!(full_number(65_535, 65_536), Some(65_535));
    assert_eq!(full_number(40_000, 40_000), Some(40_000));
    assert_eq!(full_number(32_767, 0), Some(32_767));
    assert_eq!(full_number(32_768, 0), None);
    assert_eq!(full_number(0, 32_768), Some(0));
    assert_eq!(full_number(65_535, NONE_YET - 1), Some(u32::MAX));
    assert_eq!(full_number(0, NONE_YET - 1), None);
    assert_eq!(full_number(32_767, NONE_YET - 1), Some(u32::MAX - 32_768));
}

/// By trying every number from 32,768 below the last to 32,767 above it.
#[test]
fn full_numbers_by_all_near_the_last() {
    for low in [0, 1, 32_767, 32_768, 32_769, 65_535, 65_536, 1_000_000] {
        for last in [low, NONE_YET - 1 - low] {
            let near = last as i64 - 32_768..=last as i64 + 32_767;
            for full in near {
                let own = full.rem_euclid(65_536) as u32;
                assert_eq!(full_number(own, last), u32::try_from(full).ok(), "{own} {last}");
            }
        }
    }
}

#[test]
fn records_of_an_export() {
    let cut = |export: &str| -> Vec<String> {
        let export = &forms(export.as_bytes())[0];
        records_of(export).into_iter().map(shown).collect()
    };
    assert_eq!(cut(""), [""; 0]);
    assert_eq!(cut("a"), ["a"]);
    assert_eq!(cut("<>"), ["<>"]);
    assert_eq!(cut("a<>b"), ["a<>", "b"]);
    assert_eq!(cut("a<>b<>"), ["a<>", "b<>"]);
    assert_eq!(cut("a<><>b<>"), ["a<>", "<>", "b<>"]);
    assert_eq!(cut("a<b>c><<>d"), ["a<b>c><<>", "d"]);
    assert_eq!(cut("'a<>b'<>c"), ["'a<>b'<>", "c"]);
    assert_eq!(cut("'a''<>b'<>c"), ["'a''<>b'<>", "c"]);
    assert_eq!(cut("a'<>b<>c<>"), ["a'<>b<>c<>"]);
    assert_eq!(cut("'a'<>'b<>"), ["'a'<>", "'b<>"]);
    assert_eq!(cut("'<'>'"), ["'<'>'"]);
}

fn logged(export: &[u8]) -> String {
    let mut output = Vec::new();
    logger(export, &mut output).expect("no input or output fails");
    String::from_utf8(output).expect("numbers")
}

#[test]
fn logger_prints_answers_and_takes() {
    assert_eq!(logged(b""), "\n7 0 0 0\n");
    let export =
        "1,117,0,'one<>''note''',65535<>class,unit,serial,text,logger number<>0,117,0,,0<>\
                  1,117,0,again,1<>'1','117','1',,65535";
    let output = "0 268914688 0 0\n13 0 0 0\n0 479232 0 0\n5 268914688 0 1\n0 268914689 0 1\n\n\
                  0 479232 131072 1\n0 268914688 131071 1\n0 268914689 131071 1\n7 0 0 0\n";
    assert_eq!(logged(&forms(export.as_bytes())[0]), output);
}

#[test]
fn lines_for_bytes() {
    let lines_and_answers = [
        ("G", "3 0 0 0 0 0 4294967296"),
        ("H 302c312c302c2c", "- - - - 0 655366460 4294967296"),
        ("H 0A", "10 0 0 0 0"),
        ("H 000", "10 0 0 0 0"),
        ("B 40001", "10 0 0 0 0"),
        ("Q 0 256", "10 0 0 0 0"),
        ("O 4294967297", "10 0 0 0 0"),
        ("W", "3 0 0 0 0 655366460 4294967296"),
        ("R", "11 0 0 0 0 655366460 4294967296"),
        ("W 0", "10 0 0 0 0"),
        ("R 0", "10 0 0 0 0"),
        ("B 1", "- - - - 0 1000168 4294967296"),
        ("Q 0 48", "- - - - 0 1000051 4294967296"),
        ("Q 1 48", "- - - - 0 1000051 4294967296"),
        ("O 0", "- - - - 0 1000051 0"),
    ];
    let (lines, answers): (Vec<&str>, Vec<&str>) = lines_and_answers.into_iter().unzip();
    let mut output = Vec::new();
    replay(lines.join("\n").as_bytes(), &mut output).expect("no input or output fails");
    let output = String::from_utf8(output).expect("numbers");
    assert_eq!(output.lines().collect::<Vec<&str>>(), answers);
}

/// A generated trace's records: an accepted one's value is the last number then, and a refused
/// one alters nothing. Gives the refusals.
fn refusals_of_records(seed: u64) -> BTreeSet<u32> {
    let trace = generated("gen-records", seed, 3000);
    let mut state = State::at_first();
    let mut refusals = BTreeSet::new();
    for text in trace.split(|&byte| byte == b'\n') {
        let fields: Vec<&str> = std::str::from_utf8(text).expect("text").split(' ').collect();
        let Some(line) = parse(&fields) else {
            continue;
        };
        let (words, last) = (state.words.clone(), state.last);
        let answer = run(&mut state, &line);
        if let (Line::Bytes(BytesLine::Record), Some(answer)) = (line, answer) {
            refusals.insert(answer.refusal);
            if answer.refusal == 0 {
                let model = list(&state.words).expect("a list");
                assert_eq!(u64::from(model.standing[&answer.key].value), state.last);
            } else {
                assert!(words == state.words && last == state.last, "a refusal alters");
            }
        }
    }
    refusals
}

#[test]
fn every_refusal_in_traces_of_records() {
    let refusals: BTreeSet<u32> = (1..=3).flat_map(refusals_of_records).collect();
    assert_eq!(refusals, BTreeSet::from([0, 3, 4, 5, 6, 13, 14]));
}

fn refusals_of_export(name: &str, seed: u64, count: usize) -> BTreeSet<u32> {
    let output = logged(&generated(name, seed, count));
    let records = output.lines().take_while(|line| !line.is_empty());
    let refusal = |line: &str| line.split(' ').next().and_then(|number| number.parse().ok());
    records.map(|line| refusal(line).expect("a refusal")).collect()
}

#[test]
fn every_refusal_in_exports() {
    let every = BTreeSet::from([0, 5, 6, 13, 14]);
    assert_eq!(refusals_of_export("gen-logger-edges", 0, usize::MAX), every);
    let of_seeds = (1..=8).flat_map(|seed| refusals_of_export("gen-export", seed, 400));
    assert_eq!(of_seeds.collect::<BTreeSet<u32>>(), every);
}
