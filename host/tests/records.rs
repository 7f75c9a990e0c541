//! Records of the logger's export through the Rust functions: rules kept and broken, the full number, what a refused record leaves, a
//! `Logger`, and comparisons with a reading of RFC 4180 that stands in this file.

mod common;

use common::{entry_key, fresh, Dice};
use mdlist_host::*;
use std::ops::RangeInclusive;

/// The values of a record's fields by RFC 4180, section 2; none if the bytes break its grammar.
fn fields(record: &[u8]) -> Option<Vec<Vec<u8>>> {
    // the CRLF of a quoted field that is not closed may go too: the field stays open
    let mut rest = record.strip_suffix(b"\r\n").unwrap_or(record);
    let mut fields = Vec::new();
    loop {
        let (field, after) = match rest {
            [b'"', inside @ ..] => escaped(inside)?,
            _ => non_escaped(rest)?,
        };
        fields.push(field);
        match after {
            [] => return Some(fields),
            [b',', next @ ..] => rest = next,
            _ => return None,
        }
    }
}

/// A quoted field from behind its first quote on, and what comes after it.
fn escaped(mut rest: &[u8]) -> Option<(Vec<u8>, &[u8])> {
    let mut value = Vec::new();
    loop {
        match rest {
            [b'"', b'"', after @ ..] => (value.push(b'"'), rest = after),
            [b'"', after @ ..] => return Some((value, after)),
            [byte @ (b'\r' | b'\n' | b' '..=b'~'), after @ ..] => (value.push(*byte), rest = after),
            _ => return None,
        };
    }
}

/// A field without quotes, and what comes after it.
fn non_escaped(rest: &[u8]) -> Option<(Vec<u8>, &[u8])> {
    let end = rest.iter().position(|byte| *byte == b',').unwrap_or(rest.len());
    let (field, after) = rest.split_at(end);
    let is_text = |byte: &u8| matches!(byte, b' '..=b'~') && *byte != b'"';
    field.iter().all(is_text).then(|| (field.to_vec(), after))
}

fn number(field: &[u8], range: RangeInclusive<u32>) -> Option<u32> {
    let text = std::str::from_utf8(field).ok()?;
    text.parse().ok().filter(|n: &u32| n.to_string() == text && range.contains(n))
}

/// The key of a record and the number that it carries.
fn key_and_own(record: &[u8]) -> Option<(u32, u32)> {
    let fields = fields(record)?;
    let [class, unit, serial, _, own] = &fields[..] else { return None };
    let key = entry_key(number(class, 0..=15)?, number(unit, 1..=65_535)?, number(serial, 0..=4_095)?);
    Some((key, number(own, 0..=65_535)?))
}

/// The first number from 32,768 below the last one on that leaves the record's own as remainder, if it has 32 bits.
fn full_number(own: u32, last: u64) -> Option<u32> {
    let Ok(last) = u32::try_from(last) else { return Some(own + 65_536) };
    let (own, lowest) = (i64::from(own), i64::from(last) - 32_768);
    u32::try_from(lowest + (own - lowest).rem_euclid(65_536)).ok()
}

/// What `record` does on words that are a list, by the reading above and an insert.
fn read_and_insert(list: &mut [u32], bytes: &[u8], last: &mut u64) -> Result<Recorded, Refusal> {
    let (key, own) = key_and_own(bytes).ok_or(Refusal::BadRecord)?;
    let number = full_number(own, *last).ok_or(Refusal::NumberOutside)?;
    let looked = insert(list, key, number)?;
    *last = u64::from(number);
    Ok(Recorded { key, number, looked })
}

/// Calls `record`, and `read_and_insert` on a second list: both answer and leave the same, and a refused call leaves all as it was.
fn compared(list: &mut [u32], bytes: &[u8], last: &mut u64) -> Result<Recorded, Refusal> {
    let before = (list.to_vec(), *last);
    let (mut second, mut second_last) = before.clone();
    let answer = record(list, bytes, last);
    let expected = read_and_insert(&mut second, bytes, &mut second_last);
    assert_eq!(answer, expected, "{} after {}", bytes.escape_ascii(), before.1);
    assert!(list == second && *last == second_last, "{} after {}", bytes.escape_ascii(), before.1);
    if answer.is_err() {
        assert!((list.to_vec(), *last) == before, "{} after {}", bytes.escape_ascii(), before.1);
    }
    answer
}

/// What a list without keys answers to a first record.
fn first(bytes: &[u8]) -> Result<Recorded, Refusal> {
    compared(&mut fresh(2, u32::MAX, 3), bytes, &mut { NONE_YET })
}

/// The full number that a record with a number of its own gets after the last one.
fn numbered(own: u32, last: u64) -> Result<u32, Refusal> {
    compared(&mut fresh(2, u32::MAX, 3), format!("0,1,0,,{own}").as_bytes(), &mut { last }).map(|r| r.number)
}

#[test]
fn good_records() {
    let text = entry_key(1, 117, 3);
    let good: &[(&[u8], u32, u32)] = &[
        (b"1,117,3,valve open,5", text, 65_541),
        (b"1,117,3,valve open,5\r\n", text, 65_541),
        (b"1,117,3,,5\r\n", text, 65_541),
        (b"1,117,3,\"\",5\r\n", text, 65_541),
        (b"1,117,3, ~!#$%&'()*+-./:;<=>?@[\\]^_`{|} ,5\r\n", text, 65_541),
        (b"\"1\",\"117\",\"3\",\"valve open\",\"5\"\r\n", text, 65_541),
        (b"\"1\",117,\"3\",,\"5\"", text, 65_541),
        (b"1,117,3,\"valve, open\",5\r\n", text, 65_541),
        (b"1,117,3,\"valve \"\"B\"\" open\",5\r\n", text, 65_541),
        (b"1,117,3,\"\"\"\",5\r\n", text, 65_541),
        (b"1,117,3,\"\"\"\"\"\",5\r\n", text, 65_541),
        (b"1,117,3,\"valve\r\nopen\",5\r\n", text, 65_541),
        (b"1,117,3,\"\r\",5\r\n", text, 65_541),
        (b"1,117,3,\"\n\",5\r\n", text, 65_541),
        (b"1,117,3,\"\r\n\r\n\",5\r\n", text, 65_541),
        (b"1,117,3,\"1,117,3,,6\r\n\",5\r\n", text, 65_541),
        (b"0,1,0,,0\r\n", 4_096, 65_536),
        (b"15,65535,4095,,65535\r\n", u32::MAX, 131_071),
    ];
    for &(bytes, key, number) in good {
        assert_eq!(first(bytes), Ok(Recorded { key, number, looked: 0 }), "{}", bytes.escape_ascii());
    }
}

#[test]
fn broken_records() {
    let broken: &[&[u8]] = &[
        // fields too few, too many or empty
        b"",
        b"\r\n",
        b",",
        b"1",
        b",,,,",
        b"1,117,3,5",
        b"1,117,3,,,5",
        b"1,117,3,valve, open,5",
        b"1,117,3,,5,",
        b",1,117,3,,5",
        b",117,3,,5",
        b"1,,3,,5",
        b"1,117,,,5",
        b"1,117,3,,",
        b"1,117,3,,\"\"",
        b"class,unit,serial,text,number",
        // numbers out of their ranges
        b"16,117,3,,5",
        b"1,0,3,,5",
        b"1,65536,3,,5",
        b"1,117,4096,,5",
        b"1,117,3,,65536",
        b"4294967297,117,3,,5",
        b"1,4294967413,3,,5",
        b"1,117,18446744073709551619,,5",
        b"1,117,3,,340282366920938463463374607431768211461",
        // what is no number
        b"01,117,3,,5",
        b"1,0117,3,,5",
        b"1,117,03,,5",
        b"1,117,00,,5",
        b"1,117,3,,05",
        b"1,117,3,,\"05\"",
        b"+1,117,3,,5",
        b"1,-117,3,,5",
        b" 1,117,3,,5",
        b"1,117 ,3,,5",
        b"1,117,3,, 5",
        b"1,117,3,,5 \r\n",
        b"1,117,3,,\" 5\"",
        b"1,117,3,,5.0",
        b"1,0x75,3,,5",
        b"1,117,3,,\"5\r\n\"",
        // quotes
        b"\"1\"\",117,3,,5",
        b"\"1\"\"\",117,3,,5",
        b"\"1\"1,117,3,,5",
        b"1\",117,3,,5",
        b"1\"\",117,3,,5",
        b"1,117,3,valve \"B\",5",
        b"1,117,3,valve \"\"B\"\",5",
        b"1,117,3,\",5",
        b"1,117,3,\"\"\",5",
        b"1,117,3,\"valve\" ,5",
        b"1,117,3, \"valve\",5",
        b"1,117,3,\"valve,5\r\n",
        b"1,117,3,,\"5",
        b"1,117,3,,\"5\r\n",
        b"1,117,3,,5\"",
        // ends of lines
        b"1,117,3,,5\r",
        b"1,117,3,,5\n",
        b"1,117,3,,5\n\r",
        b"1,117,3,,5\r\r\n",
        b"1,117,3,,5\r\n\r\n",
        b"1,117,3,,5\r\n ",
        b"1,117,3,,5\r\n1,117,4,,6\r\n",
        b"\r\n1,117,3,,5",
        b"1,117,3,valve\r\nopen,5",
        b"1,117\r\n,3,,5",
        b"1,117\r,3,,5",
        b"1,117\n,3,,5",
        b"1,117,3,\"valve\"\r,5",
        // bytes that stand nowhere
        b"1,117,3,valve\topen,5",
        b"1,117,3,\"valve\topen\",5",
        b"1,117,3,\0,5",
        b"1,117,3,,5\0",
        b"\xef\xbb\xbf1,117,3,,5",
        b"1,117,3,\"F\xc3\xbcllstand\",5",
    ];
    for bytes in broken {
        assert_eq!(first(bytes), Err(Refusal::BadRecord), "{}", bytes.escape_ascii());
    }
}

/// Of all bytes, those from 32 to 126 stand in a text; a comma or a quote only between quotes, and there a CR and an LF too.
#[test]
fn every_byte_in_a_text() {
    for byte in 0..=255u8 {
        let text = (32..=126).contains(&byte) && byte != b',' && byte != b'"';
        let plain = [b"0,1,0,a", &[byte][..], b"b,5"].concat();
        assert_eq!(first(&plain).is_ok(), text, "{byte}");
        let quoted = [b"0,1,0,\"a", &[byte][..], b"b\",5"].concat();
        assert_eq!(first(&quoted).is_ok(), text || b",\r\n".contains(&byte), "{byte}");
        let in_a_number = [b"0,1,0,,", &[byte][..]].concat();
        assert_eq!(first(&in_a_number).is_ok(), byte.is_ascii_digit(), "{byte}");
        let at_the_end = [b"0,1,0,,\"5\"", &[byte][..]].concat();
        assert_eq!(first(&at_the_end), Err(Refusal::BadRecord), "{byte}");
    }
}

/// Every text of up to five bytes that the grammar tells apart, in place of each field.
#[test]
fn every_short_field() {
    let mut texts = vec![Vec::new()];
    let mut accepted = 0;
    for length in 0..=5 {
        for text in &texts {
            for place in 0..5 {
                let mut record = [b"1".as_slice(); 5];
                record[place] = text;
                match first(&record.join(&b","[..])) {
                    Ok(_) => accepted += 1,
                    refused => assert_eq!(refused, Err(Refusal::BadRecord)),
                }
            }
        }
        if length < 5 {
            texts = texts.iter().flat_map(|text| b"1\",\r\n".map(|byte| [text, &[byte][..]].concat())).collect();
        }
    }
    assert!(accepted > 100, "{accepted}");
}

/// The call reads the bytes that it is lent and none after them.
#[test]
fn every_beginning_of_a_record() {
    let bytes = b"1,117,3,\"valve \"\"B\"\", open\r\n\",\"5\"\r\n1,117,3,,5";
    let accepted: Vec<usize> = (0..=bytes.len()).filter(|end| first(&bytes[..*end]).is_ok()).collect();
    let end = bytes.len() - b"1,117,3,,5".len();
    assert_eq!(accepted, [end - 2, end]);
    assert_eq!(first(&bytes[end..]).map(|r| r.number), Ok(65_541));
    let digits = b"0,1,0,,65535";
    let numbers: Vec<u32> = (8..=digits.len()).map(|end| first(&digits[..end]).unwrap().number).collect();
    assert_eq!(numbers, [65_542, 65_601, 66_191, 72_089, 131_071]);
}

#[test]
fn texts_of_a_megabyte() {
    let long = |text: &[u8], end: &[u8]| [b"0,1,0,", text, b",5", end].concat();
    let plain = vec![b'x'; 1 << 20];
    assert!(first(&long(&plain, b"\r\n")).is_ok());
    assert_eq!(first(&long(&plain, b"\n")), Err(Refusal::BadRecord));
    let quoted = [b"\"", b"a \"\"valve\"\",\r\n".repeat(1 << 16).as_slice(), b"\""].concat();
    assert!(first(&long(&quoted, b"")).is_ok());
    assert_eq!(first(&long(&quoted[..quoted.len() - 1], b"")), Err(Refusal::BadRecord));
    let commas = vec![b','; 1 << 20];
    assert_eq!(first(&long(&commas, b"")), Err(Refusal::BadRecord));
    let digits = [b"0,1,0,,", b"5".repeat(1 << 20).as_slice()].concat();
    assert_eq!(first(&digits), Err(Refusal::BadRecord));
}

/// Without bytes a record is one empty field. A list is checked before them.
#[test]
fn no_bytes_and_no_words() {
    for last in [0, 7, NONE_YET, u64::MAX] {
        let mut after = last;
        assert_eq!(record(&mut fresh(2, 15, 3), &[], &mut after), Err(Refusal::BadRecord));
        assert_eq!(record(&mut [], &[], &mut after), Err(Refusal::NotAList));
        assert_eq!(record(&mut [], b"0,1,0,,5", &mut after), Err(Refusal::NotAList));
        assert_eq!(after, last);
    }
}

#[test]
fn first_number() {
    for last in [NONE_YET, NONE_YET + 1, 1 << 33, 1 << 48, 1 << 63, u64::MAX - 1, u64::MAX] {
        for own in [0, 1, 32_767, 32_768, 65_534, 65_535] {
            assert_eq!(numbered(own, last), Ok(own + 65_536));
        }
    }
}

#[test]
fn numbers_forward_and_back() {
    // 100,000 is 34,464 + 65,536
    for (own, number) in [(34_464, 100_000), (34_465, 100_001), (34_463, 99_999), (65_535, 131_071), (0, 131_072)] {
        assert_eq!(numbered(own, 100_000), Ok(number));
    }
    // 32,767 is forward, 32,768 back
    assert_eq!(numbered(1_695, 100_000), Ok(132_767));
    assert_eq!(numbered(1_696, 100_000), Ok(67_232));
    assert_eq!(numbered(32_767, 131_072), Ok(163_839));
    assert_eq!(numbered(32_768, 131_072), Ok(98_304));
    // round to 0, and back from it
    assert_eq!(numbered(0, 131_071), Ok(131_072));
    assert_eq!(numbered(65_535, 131_072), Ok(131_071));
    assert_eq!(numbered(65_535, 65_536), Ok(65_535));
}

#[test]
fn numbers_near_both_ends() {
    for own in [0, 1, 32_766, 32_767] {
        assert_eq!(numbered(own, 0), Ok(own));
    }
    for own in [32_768, 32_769, 65_534, 65_535] {
        assert_eq!(numbered(own, 0), Err(Refusal::NumberOutside));
    }
    assert_eq!(numbered(65_535, 32_767), Err(Refusal::NumberOutside));
    assert_eq!(numbered(65_535, 32_768), Ok(65_535));
    assert_eq!(numbered(0, 32_768), Ok(0));
    let most = u64::from(u32::MAX);
    for own in [32_767, 32_768, 65_534, 65_535] {
        assert_eq!(numbered(own, most), Ok(u32::MAX - 65_535 + own));
    }
    for own in [0, 1, 32_765, 32_766] {
        assert_eq!(numbered(own, most), Err(Refusal::NumberOutside));
    }
    assert_eq!(numbered(0, most - 32_767), Ok(u32::MAX - 65_535));
    assert_eq!(numbered(0, most - 32_766), Err(Refusal::NumberOutside));
}

/// Every number of a record after some last ones, and every power of two as the last.
#[test]
fn every_own_number() {
    let mut list = fresh(2, u32::MAX, 3);
    for last in [0, 100_000, u64::from(u32::MAX), u64::MAX] {
        for own in 0..=65_535 {
            let mut after = last;
            let answer = record(&mut list, format!("0,1,0,,{own}").as_bytes(), &mut after).map(|r| r.number);
            assert_eq!(answer, full_number(own, last).ok_or(Refusal::NumberOutside));
            assert_eq!(after, answer.map_or(last, u64::from));
            if answer.is_ok() {
                assert_eq!(take(&mut list).map(|t| t.value), answer);
            }
        }
    }
    for bit in 0..64 {
        for last in [1u64 << bit, (1 << bit) - 1] {
            for own in [0, 1, 32_767, 32_768, 65_535] {
                assert_eq!(numbered(own, last).ok(), full_number(own, last));
            }
        }
    }
}

/// A list with K = 300,000,000 and three live keys, which has no free cell.
fn full_list() -> Vec<u32> {
    let mut list = fresh(2, 300_000_000, 4);
    let mut last = NONE_YET;
    for bytes in [b"0,1,0,,5", b"0,2,0,,6", b"1,1,0,,7"] {
        assert!(compared(&mut list, bytes, &mut last).is_ok());
    }
    assert_eq!(last, 65_543);
    list
}

#[test]
fn refused_alters_neither_list_nor_last() {
    let list = full_list();
    let refused_insert = |key| insert(&mut list.clone(), key, 0).unwrap_err();
    let (live, no_cell) = (refused_insert(entry_key(0, 1, 0)), refused_insert(entry_key(0, 3, 0)));
    assert_eq!((live.number(), no_cell.number()), (5, 6));
    let refused: &[(&[u8], u64, Refusal)] = &[
        (b"0,1,0,5", 65_543, Refusal::BadRecord),
        (b"0,1,0,\",8", NONE_YET, Refusal::BadRecord),
        (b"0,3,0,,65535", 0, Refusal::NumberOutside),
        (b"0,3,0,,0", u64::from(u32::MAX), Refusal::NumberOutside),
        (b"2,1,0,,8", 65_543, Refusal::BadKey),
        (b"2,1,0,,8", u64::MAX, Refusal::BadKey),
        (b"0,1,0,,8", 65_543, live),
        (b"0,1,0,,8", NONE_YET, live),
        (b"0,3,0,,8", 65_543, no_cell),
        (b"0,3,0,,8", u64::MAX, no_cell),
        // where several apply: 13, 14, 4, 5, 6
        (b"0,0,0,,65535", 0, Refusal::BadRecord),
        (b"2,1,4096,,8", 65_543, Refusal::BadRecord),
        (b"0,1,0,,8\n", 65_543, Refusal::BadRecord),
        (b"2,1,0,,65535", 0, Refusal::NumberOutside),
        (b"0,1,0,,65535", 0, Refusal::NumberOutside),
        (b"2,3,0,,8", NONE_YET, Refusal::BadKey),
    ];
    for &(bytes, last, refusal) in refused {
        let (mut words, mut after) = (list.clone(), [1, last, 2]);
        assert_eq!(record(&mut words, bytes, &mut after[1]), Err(refusal), "{}", bytes.escape_ascii());
        assert!(words == list && after == [1, last, 2], "{}", bytes.escape_ascii());
        // words that are no list come first
        for length in [0, 1, 4, list.len() - 1] {
            assert_eq!(record(&mut words[..length], bytes, &mut after[1]), Err(Refusal::NotAList));
        }
        words[3] += 1;
        let damaged = words.clone();
        assert_eq!(record(&mut words, bytes, &mut after[1]), Err(Refusal::NotAList));
        assert!(words == damaged && after == [1, last, 2]);
    }
}

/// A good record on a list that is damaged in any word is refused just where a find is, and then alters nothing.
#[test]
fn damaged_list_is_refused_and_left_alone() {
    let list = full_list();
    let mut refused = 0;
    for i in 0..list.len() {
        let mut bad = list.clone();
        bad[i] = bad[i].wrapping_add(1);
        let (before, mut last) = (bad.clone(), 7);
        if find(&bad, 4_096) == Err(Refusal::NotAList) {
            assert_eq!(record(&mut bad, b"0,3,0,,8", &mut last), Err(Refusal::NotAList));
            assert!(bad == before && last == 7);
            refused += 1;
        } else {
            assert_ne!(record(&mut bad, b"0,3,0,,8", &mut last), Err(Refusal::NotAList));
        }
    }
    assert!(refused > list.len() / 2);
}

/// A dead key is revived with the new full number; its entry is then live again.
#[test]
fn a_record_for_a_key_that_was_taken() {
    let (mut list, mut last) = (full_list(), 65_543);
    assert_eq!(take(&mut list).map(|t| t.value), Ok(65_541));
    assert_eq!(compared(&mut list, b"0,1,0,,8", &mut last).map(|r| r.number), Ok(65_544));
    assert_eq!(take(&mut list).map(|t| (t.key, t.value)), Ok((4_096, 65_544)));
}

/// A record's key is taken in the order of entries, whatever its number.
#[test]
fn an_export_most_urgent_first() {
    let mut words = fresh(8, u32::MAX, 512);
    let mut list = List::new(&mut words);
    let mut logger = Logger::new();
    for (bytes, refusal) in [
        ("1,117,1,\"valve 3, \"\"B\"\" side\",65534\r\n", 0),
        ("1,117,0,\"two\r\nlines\",65535\r\n", 0),
        ("class,unit,serial,text,number\r\n", 13),
        ("0,1117,0,,0\r\n", 0),
        ("1,118,0,late,65533\r\n", 0),
        ("1,118,0,twice,1\r\n", 5),
        ("15,1,0,last,2", 0),
    ] {
        assert_eq!(logger.record(&mut list, bytes.as_bytes()).err().map_or(0, u32::from), refusal, "{bytes:?}");
    }
    let taken: Vec<(u32, u32)> = std::iter::from_fn(|| list.take().ok()).map(|t| (t.key, t.value)).collect();
    let expected = [
        (entry_key(0, 1_117, 0), 131_072),
        (entry_key(1, 117, 0), 131_071),
        (entry_key(1, 117, 1), 131_070),
        (entry_key(1, 118, 0), 131_069),
        (entry_key(15, 1, 0), 131_074),
    ];
    assert_eq!(taken, expected);
    assert_eq!(logger.last(), Some(131_074));
}

const NEW: Logger = Logger::new();
const LATER: Logger = Logger::after(u32::MAX);

#[test]
fn a_logger_and_its_last_number() {
    assert_eq!(NEW.last(), None);
    assert_eq!(NEW, Logger::default());
    assert_eq!(LATER.last(), Some(u32::MAX));
    assert_eq!(Logger::after(0).last(), Some(0));
    assert_ne!(Logger::after(0), NEW);
    let mut words = fresh(2, 300_000_000, 8);
    let mut list = List::new(&mut words);
    let mut logger = NEW;
    for (bytes, refusal) in [(b"0,1,0,,65536", 13), (b"2,1,0,,65535", 4)] {
        assert_eq!(logger.record(&mut list, bytes).map_err(u32::from), Err(refusal));
        assert_eq!(logger, NEW);
    }
    assert_eq!(logger.record(&mut List::new(&mut [7; 87]), b"0,1,0,,5"), Err(Refusal::NotAList));
    assert_eq!(logger, NEW);
    assert_eq!(logger.record(&mut list, b"0,1,0,,5"), Ok(Recorded { key: 4_096, number: 65_541, looked: 0 }));
    assert_eq!(logger, Logger::after(65_541));
    assert_eq!(logger.record(&mut list, b"0,1,0,,6").map_err(u32::from), Err(5));
    assert_eq!(logger, Logger::after(65_541));
    assert_eq!(list.take().map(|t| t.value), Ok(65_541));
    assert!(list.sweep().is_ok());
    assert_eq!(logger.last(), Some(65_541));
    let mut later = LATER;
    assert_eq!(later.record(&mut list, b"0,1,0,,0"), Err(Refusal::NumberOutside));
    assert_eq!(later, LATER);
}

/// A logger whose number comes round many times, up and down again to below 0.
#[test]
fn a_logger_far_forward_and_back() {
    let mut words = fresh(2, u32::MAX, 3);
    let mut list = List::new(&mut words);
    let mut logger = Logger::new();
    let mut at = |number: i64| {
        let answer = logger.record(&mut list, format!("0,1,0,,{}", number.rem_euclid(65_536)).as_bytes());
        if let Ok(recorded) = answer {
            assert_eq!(list.take().map(|t| i64::from(t.value)), Ok(number));
            assert_eq!(logger.last(), Some(recorded.number));
        }
        answer.map(|r| i64::from(r.number))
    };
    for step in (0..=400).chain((-2..400).rev()) {
        assert_eq!(at(65_536 + 30_000 * step), Ok(65_536 + 30_000 * step));
    }
    assert_eq!(at(65_536 - 90_000), Err(Refusal::NumberOutside));
    assert_eq!(at(0), Ok(0));
    assert_eq!(at(-1), Err(Refusal::NumberOutside));
    for number in [32_767, 0, 32_767, 65_534, 32_766] {
        assert_eq!(at(number), Ok(number));
    }
}

/// One of these, at random.
fn one_of<T: Copy>(dice: &mut Dice, these: &[T]) -> T {
    these[dice.below(these.len() as u64) as usize]
}

/// A number up to `most`, mostly among the first few, at times just past `most`.
fn any_number(dice: &mut Dice, few: u64, most: u64) -> u64 {
    match dice.below(40) {
        0 => most + dice.below(3),
        1..=4 => dice.below(most + 1),
        _ => dice.below(few),
    }
}

fn any_text(dice: &mut Dice) -> Vec<u8> {
    let alphabet: &[u8] = if dice.below(2) == 0 { b"ab ~" } else { b"ab \",\r\n" };
    (0..dice.below(10)).map(|_| one_of(dice, alphabet)).collect()
}

/// A field as it is written: in quotes if it has to be, and at times if it has not.
fn written(dice: &mut Dice, value: &[u8]) -> Vec<u8> {
    if value.iter().any(|byte| b"\",\r\n".contains(byte)) || dice.below(4) == 0 {
        let doubled: Vec<u8> = value.iter().flat_map(|byte| vec![*byte; 1 + usize::from(*byte == b'"')]).collect();
        return [b"\"", &doubled[..], b"\""].concat();
    }
    value.to_vec()
}

/// A record whose numbers are mostly in their ranges; one out of four is changed in some bytes, and then mostly broken.
fn any_record(dice: &mut Dice, last: u64) -> Vec<u8> {
    let own = match dice.below(8) {
        0..=2 => any_number(dice, 65_536, 65_535),
        3 => last.wrapping_add(32_766 + dice.below(4)) % 65_536,
        _ => last.wrapping_add(dice.below(9)).wrapping_sub(3) % 65_536,
    };
    let (class, unit, serial) = (any_number(dice, 4, 15), 1 + any_number(dice, 3, 65_534), any_number(dice, 6, 4_095));
    let values = [class, unit, serial, own].map(|n| n.to_string().into_bytes());
    let text = any_text(dice);
    let values = [&values[0], &values[1], &values[2], &text, &values[3]];
    let mut bytes = values.map(|value| written(dice, value)).join(&b","[..]);
    bytes.extend_from_slice(one_of(dice, &[b"", b"\r\n"]));
    if dice.below(4) == 0 {
        for _ in 0..=dice.below(3) {
            let place = dice.below(bytes.len() as u64 + 1) as usize;
            let byte = match dice.below(8) {
                0 => dice.below(256) as u8,
                _ => one_of(dice, b"019 \",\r\na"),
            };
            match dice.below(3) {
                0 => bytes.insert(place, byte),
                1 if place < bytes.len() => bytes[place] = byte,
                _ if place < bytes.len() => _ = bytes.remove(place),
                _ => bytes.truncate(place / 2),
            }
        }
    }
    bytes
}

/// Now and then another last number: near both ends, anywhere, none.
fn any_last(dice: &mut Dice) -> u64 {
    match dice.below(6) {
        0 => dice.below(40_000),
        1 => u64::from(u32::MAX) - dice.below(40_000),
        2 => NONE_YET - 1 + dice.below(3),
        3 => u64::MAX - dice.below(1 << 31),
        4 => dice.below(1 << 31) << dice.below(34),
        _ => 2 * dice.below(1 << 31),
    }
}

#[test]
fn random_records_beside_a_plain_reading() {
    let mut dice = Dice(4180);
    let mut answered = [0; 15];
    for (d, k, c) in [(8, u32::MAX, 64), (2, 600_000_000, 12), (3, u32::MAX, 40), (16, 900_000_000, 24)] {
        let mut list = fresh(d, k, c);
        let mut last = NONE_YET;
        for _ in 0..5_000 {
            let bytes = any_record(&mut dice, last);
            let answer = compared(&mut list, &bytes, &mut last);
            answered[answer.map_or_else(u32::from, |_| 0) as usize] += 1;
            match dice.below(24) {
                0..=6 => _ = take(&mut list),
                7 => _ = sweep(&mut list),
                8 => last = any_last(&mut dice),
                _ => {}
            }
        }
    }
    for refusal in [0, 4, 5, 6, 13, 14] {
        assert!(answered[refusal] > 100, "{answered:?}");
    }
    assert_eq!(answered.iter().sum::<u32>(), 20_000);
}
