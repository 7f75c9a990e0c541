//! Lines for the order program: readable ones, and every kind of unreadable one.

use super::Trace;

/// Few or many entries; at times more is taken than put in, at times the list fills up.
pub fn order_lines(trace: &mut Trace) {
    let many = trace.dice.pick(&[6, 40, 300, 2500]);
    let entries: Vec<String> = (0..many).map(|_| some_entry(trace)).collect();
    let mut takes = 3;
    while trace.goes_on() {
        if trace.dice.one_in(400) {
            takes = trace.dice.pick(&[0, 0, 2, 5, 8, 15]);
        }
        let line = match trace.dice.below(5) {
            0 => unreadable(trace),
            _ => readable(trace, &entries, takes).into_bytes(),
        };
        let is_last = trace.left == 1;
        let line_feed: &[u8] = if is_last && trace.dice.one_in(2) { b"" } else { b"\n" };
        trace.write(&line, line_feed);
    }
}

/// Close together, at the ends of the ranges, or any.
pub fn some_entry(trace: &mut Trace) -> String {
    let dice = &mut trace.dice;
    match dice.below(3) {
        0 => format!("{} {} {}", dice.between(0, 2), dice.between(110, 130), dice.between(0, 3)),
        1 => {
            let (class, unit) = (dice.pick(&[0, 1, 14, 15]), dice.pick(&[1, 2, 65_534, 65_535]));
            format!("{class} {unit} {}", dice.pick(&[0, 1, 4_094, 4_095]))
        }
        _ => format!(
            "{} {} {}",
            dice.between(0, 15),
            dice.between(1, 65_535),
            dice.between(0, 4_095)
        ),
    }
}

fn readable(trace: &mut Trace, entries: &[String], takes: usize) -> String {
    let dice = &mut trace.dice;
    let entry = &entries[dice.below(entries.len())];
    match dice.below(8 + takes) {
        0..=4 => format!("N {entry} {}", dice.any_size()),
        5 => format!("N {entry} {}", dice.pick(&[0, 1, u32::MAX])),
        6 => format!("F {entry}"),
        7 if takes > 4 && dice.one_in(4) => "S".to_string(),
        7 => format!("A {entry}"),
        _ => "T".to_string(),
    }
}

const UNREADABLE: &[u8] = b"| |  |\r|\t|\0|\xFF|\xC3\xA9|T\r|S\r|T\t|T\0|T\x80|T | T|T  |t|s|\
    n 1 1 1 1|f 1 1 1|a 1 1 1|T 1|S 1|T T|TS|X|U 8 1 1|N|N |N 1|N 1 1|N 1 1 1|N 1 1 1 |\
    N 1 1 1 1 1|N 1 1 1 1 |F |A 1 | N 1 1 1 1|N  1 1 1 1|N 1  1 1 1|N 1 1  1 1|N 1 1 1  1|\
    N\t1 1 1 1|N 1 1 1 1\r|F 1|F 1 1|F 1 1 |F 1 1 1 1|A 1|A 1 1|A 1 1 1 1|\
    N 01 1 1 1|N 1 01 1 1|N 1 1 01 1|N 1 1 1 01|N 00 1 1 1|N 1 1 00 1|N 1 1 1 00|\
    N +1 1 1 1|N 1 +1 1 1|N 1 1 +1 1|N 1 1 1 +1|N -1 1 1 1|N 1 -1 1 1|N 1 1 -1 1|\
    N 16 1 1 1|N 0 0 1 1|N 15 65536 1 1|N 1 1 4096 1|N 1 1 1 4294967296|F 16 1 0|A 1 65536 0|\
    F 1 1 4096|A 1 1 4096|A 1 1 65535|F 4294967296 1 0|N 1 1 1 18446744073709551616|F 0 0 0|\
    A 0 0 0|N a 1 1 1|N 1 1 a 1";

fn unreadable(trace: &mut Trace) -> Vec<u8> {
    let dice = &mut trace.dice;
    if !dice.one_in(3) {
        let lines: Vec<&[u8]> = UNREADABLE.split(|&byte| byte == b'|').collect();
        return dice.pick(&lines).to_vec();
    }
    let length = dice.pick(&[63, 64, 65, 66, 128, 4096, 70_000]);
    let start = dice.pick(&["T", "N 1 1 1 1", "S ", "F 1 117 ", "N 1 1 1 1111111111"]);
    let filling = dice.pick(&[" ", "1", "0", "T", "\r", "\0"]);
    let line = start.to_string() + &filling.repeat(length);
    line.into_bytes()[..length].to_vec()
}
