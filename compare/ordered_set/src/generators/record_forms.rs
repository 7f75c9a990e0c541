//! Records of the logger's export as they may be written: by the rules, or with one broken.

use super::dice::Dice;

/// Forms stand side by side with a bar between. In a form `'` is a quote, `<` a CR and `>` an LF.
pub fn forms(all: &[u8]) -> Vec<Vec<u8>> {
    let meant = |&byte: &u8| match byte {
        b'\'' => b'"',
        b'<' => b'\r',
        b'>' => b'\n',
        _ => byte,
    };
    all.split(|&byte| byte == b'|').map(|form| form.iter().map(meant).collect()).collect()
}

/// Texts that keep the grammar.
pub const TEXTS: &[u8] = b"|''|a| a |'a'|' '|''''|''''''|'''a'''|'a''b'|'a'',''b'|','|'a,b'|\
    '<'|'>'|'<>'|'<><>'|'><'|'a<>b'|'<>,''<>'|~! #+-|'~! #+-'";

/// Texts that break it: a bare quote, one that is not closed, bytes after the closing quote or
/// before the first, a CR, an LF or both outside quotes.
pub const BROKEN_TEXTS: &[u8] = b"'|a'|'a|a'b|'''|'a''|'a'b|'a'b'|''a|'a' | 'a'|a'b'|a''b|''''a|\
    'a''b'c|'a'b'c'|'a'''b'|'a''' |'a''b|'a','b|<|>|><|<<|a<|a>|<a|>a|a<b|a>b|a<>b|'a'<|'a'>|\
    <'a'|>'a'|'a'<'b'|'a'>'b'|'a'<>'b'|<>";

/// Written where a number belongs: empty, a leading zero, a sign, a space, numbers whose lowest
/// 32 or 64 bits are in range, bytes beside the digits; last those that break the grammar too.
pub const BROKEN_NUMBERS: &[u8] = b"|''| |' '|00|'00'|01|'01'|001|+1|-1|-0| 1|1 |' 1'|'1 '|1 1|\
    1.0|1.|1e1|0x1|1_0|a|1a|a1|/|:|1:|4294967296|4294967297|18446744073709551616|\
    18446744073709551617|'1'''|'''1'|'1''1'|''''|'1,1'|'1<>'|'<1'|'1>'|'>1'|\
    '1''|'1|1'|1'1'|'1'1|'1'1'|'1' | '1'|''1|1<|1>|<1|>1|1<>1|1\0|\x001|'1\0'|1\t|1\x7f|\xb1|\
    '\xb1'|\xd9\xa1|\xff";

/// The fields that are numbers, each with the ends of its range and with numbers past them.
pub const RANGES: [(usize, &[u8], &[u8]); 4] = [
    (0, b"0|15|'0'|'15'|9|10", b"16|'16'|17|20|100|256|257|65537"),
    (1, b"1|65535|'1'|'65535'|9|10", b"0|'0'|65536|'65536'|65537|70000|100000|131073"),
    (2, b"0|4095|'0'|'4095'|9|10", b"4096|'4096'|4097|5000|10000|65536|65537"),
    (4, b"0|'0'|30000|60000|65535|'65535'|40000|'9999'|1", b"65536|'65536'|65537|70000|100000"),
];

/// More or fewer than five fields, empty ones, other separators, a header.
pub const COUNTS: &[u8] = b"|,|,,|,,,|,,,,|,,,,,|1|a|1,1,1,1|1,1,1,a,1,|,1,1,1,a,1|1,1,1,1,1,1|\
    1,1,1,a,b,1|1,1,1,a|,1,1,a,1|1,,1,a,1|1,1,,a,1|1,1,1,a,|'1,1,1,a,1'|'1,1',1,a,1|\
    '1,1',1,1,a,1|'','','','',''|'1','1','1','1'|1,1,1,a;1|1;1;1;a;1|1 1 1 a 1|\
    class,unit,serial,text,logger number|'class','unit','serial','text','logger number'";

/// What may not end a record, or come after its CRLF.
pub const BROKEN_ENDS: &[u8] = b"<|>|><|<<>|<><>|<>>|<><|<> |<>,|<>'|<>''|<>a|<>1,1,2,a,1|,| |''";

const PLAIN: &[u8] = b" !#$%&'()*+-./0123456789:;<=>?@AZ[\\]^_`az{|}~";
const QUOTED: &[u8] = b"ab ,,\"\"\r\n\r\n~";

/// The five fields as they are written; the entry is class, unit and serial, a space between.
fn written_fields(dice: &mut Dice, entry: &str, own: u32, longest: usize) -> Vec<Vec<u8>> {
    let mut values: Vec<Vec<u8>> = entry.split(' ').map(|field| field.into()).collect();
    values.push(some_text(dice, longest));
    values.push(own.to_string().into());
    values.iter().map(|value| written(dice, value)).collect()
}

fn some_text(dice: &mut Dice, longest: usize) -> Vec<u8> {
    let length = match dice.below(50) {
        0..=9 => 0,
        49 => dice.below(longest),
        _ => dice.below(16),
    };
    let from = dice.pick(&[PLAIN, PLAIN, QUOTED]);
    (0..length).map(|_| dice.pick(from)).collect()
}

/// In quotes where it has to be, and at times where it need not.
fn written(dice: &mut Dice, value: &[u8]) -> Vec<u8> {
    let has_to = value.iter().any(|byte| b",\"\r\n".contains(byte));
    if has_to || dice.one_in(5) {
        quoted(value)
    } else {
        value.to_vec()
    }
}

pub fn quoted(value: &[u8]) -> Vec<u8> {
    let inside: Vec<&[u8]> = value.split(|&byte| byte == b'"').collect();
    [b"\"", &inside.join(&b"\"\""[..])[..], b"\""].concat()
}

/// A record by the rules, without its closing CRLF.
pub fn good(dice: &mut Dice, entry: &str, own: u32, longest: usize) -> Vec<u8> {
    if dice.one_in(4) {
        let text = some_form(dice, TEXTS);
        return [entry.replace(' ', ",").as_bytes(), &text, own.to_string().as_bytes()].join(&b',');
    }
    written_fields(dice, entry, own, longest).join(&b',')
}

/// A record with one rule broken, but for a few where the change happens to keep all.
pub fn broken(dice: &mut Dice, entry: &str, own: u32) -> Vec<u8> {
    let mut fields = written_fields(dice, entry, own, 100);
    let any = dice.below(fields.len());
    let (at, _, past) = dice.pick(&RANGES);
    match dice.below(10) {
        0 => fields[at] = some_form(dice, past),
        1 | 2 => fields[at] = some_form(dice, BROKEN_NUMBERS),
        3 | 4 => fields[3] = some_form(dice, BROKEN_TEXTS),
        5 => drop(fields.remove(any)),
        6 => fields.insert(any, some_text(dice, 10)),
        7 => put_byte_in(dice, &mut fields[any]),
        8 => return some_form(dice, COUNTS),
        _ => return [fields.join(&b','), some_form(dice, BROKEN_ENDS)].concat(),
    }
    fields.join(&b',')
}

fn some_form(dice: &mut Dice, all: &[u8]) -> Vec<u8> {
    let forms = forms(all);
    forms[dice.below(forms.len())].clone()
}

fn put_byte_in(dice: &mut Dice, field: &mut Vec<u8>) {
    let place = dice.below(field.len() + 1);
    field.insert(place, some_byte(dice));
}

/// A byte that has a meaning of its own, one that no rule has, or one at the ends of TEXTDATA.
pub fn some_byte(dice: &mut Dice) -> u8 {
    match dice.below(4) {
        0 => dice.between(0, 31) as u8,
        1 => dice.between(127, 255) as u8,
        2 => dice.pick(b"\"\"\"\r\n,"),
        _ => dice.pick(b" !#+-~\x7f\x80\x1f0"),
    }
}

/// With a CRLF, and where the quotes are odd in number with a line that closes them, so that the
/// export's next record begins after it.
pub fn closed(record: &[u8]) -> Vec<u8> {
    let close: &[u8] = if has_odd_quotes(record) { b"\"\r\n" } else { b"" };
    [record, b"\r\n", close].concat()
}

pub fn has_odd_quotes(record: &[u8]) -> bool {
    record.iter().filter(|&&byte| byte == b'"').count() % 2 == 1
}
