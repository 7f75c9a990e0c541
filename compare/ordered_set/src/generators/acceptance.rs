//! Lines for the acceptance program: calls on lists and rows of many settings, set ups that are out of
//! range or too large between, and unreadable lines.

use super::calls::mood;
use super::keys::{clustered_keys, some_settings};
use super::Trace;
use crate::acceptance::{both, parse, Pair};
use crate::replay::{most_cells, State};
use crate::settings::Settings;
use std::mem::take;

pub const UNREADABLE: &[u8] = b"| |T | T|T\r|T\t|T\0|\0|\xFF|t|s|u 2 15 8|TT|T 1|S 0|X|F|F |F  1|F 1 |F 1 2|f 1|\
    F 01|F 00|F +1|F -1|F 1.0|F 0x1|F 4294967296|F 18446744073709551617|A|A |A 1 1|A 01|A 4294967296|N|N 1|\
    N 1 |N 1 2 3|N 1  2|N 1\t2|N 1 4294967296|N 4294967296 1|N 01 1|N 1 01|U|U 2|U 2 15|U 2 15 |U 2 15 8 71|\
    U 2 15 8 |U 02 15 8|U 2 015 8|U 2 15 08|U 4294967296 15 8|U 2 4294967296 8|U 2 15 4294967296|U -2 15 8|\
    P 0 1|L 0|G|W|R|B 0|H 00|Q 0 0|O 0|K 32|C 0|X 0 0|N 1 117 0 41|F 1 117 0";

/// The list alone is kept, for the next line is chosen by it.
pub fn run_line(state: &mut State, fields: &[&str]) -> Option<()> {
    let call = parse(fields)?;
    let mut pair = Pair { list: take(&mut state.words), row: Vec::new() };
    both(&mut pair, &call);
    state.words = pair.list;
    Some(())
}

pub fn acceptance(trace: &mut Trace) {
    trace.other = Some(run_line);
    while trace.goes_on() {
        let most_cells = trace.dice.pick(&[6, 20, 40, 40, 200]);
        let settings = some_settings(&mut trace.dice, most_cells);
        let Settings { dimensions, largest_key, cells, .. } = settings;
        trace.say(format!("U {dimensions} {largest_key} {cells}"));
        let many = trace.dice.between(2, 2 * settings.cells as u32) as usize;
        let keys = clustered_keys(&mut trace.dice, &settings, many);
        for _ in 0..trace.dice.between(2, 10) {
            match trace.dice.below(8) {
                0 => not_made(trace),
                1 => unreadable(trace),
                _ => mood(trace, &keys, 40),
            }
        }
    }
}

/// Out of range, or a list of more words than there may be.
fn not_made(trace: &mut Trace) {
    let dice = &mut trace.dice;
    let d = dice.between(2, 16);
    let line = match dice.below(4) {
        0 => format!("U {} 15 8", dice.pick(&[0, 1, 17, u32::MAX])),
        1 => format!("U {d} 0 8"),
        2 => format!("U {d} 15 {}", dice.pick(&[0, 1, 2, 262_145, u32::MAX])),
        _ => format!("U {d} 15 {}", dice.between(most_cells(d as usize) as u32 + 1, 262_144)),
    };
    trace.say(line);
}

fn unreadable(trace: &mut Trace) {
    let lines: Vec<&[u8]> = UNREADABLE.split(|&byte| byte == b'|').collect();
    let line = trace.dice.pick(&lines);
    trace.write(line, b"\n");
}
