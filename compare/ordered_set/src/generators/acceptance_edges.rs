//! Lines for the acceptance program at the ends of their ranges: no words yet, settings, lists of the
//! most words and one cell more, keys, late notes, and unreadable lines.

use super::acceptance::{run_line, UNREADABLE};
use super::edges::{say_all, FOURTEEN_STEPS, LATE_BEFORE_ALL, LATE_NOTE};
use super::Trace;
use crate::replay::most_cells;
use crate::settings::MOST_CELLS;

/// Neither engine has words, and a set up that is refused gives them none.
const AT_FIRST: &str =
    "T|S|F 0|F 1|A 0|A 1|N 0 0|N 1 1|U 1 15 8|T|U 2 0 8|T|U 2 15 2|T|U 2 15 262144|T|\
    U 2 15 262145|T|U 0 0 0|T|U 4294967295 4294967295 4294967295|T";

/// Keys at and past the ends of their range, live, dead, absent and late; no room.
const KEYS: &str = "U 2 15 6|N 15 4294967295|N 1 0|N 0 1|N 16 1|N 4294967295 1|F 1|F 15|F 2|F 16|F 0|A 1|A 2|\
    A 16|A 0|T|F 1|A 1|N 1 7|T|T|T|F 15|A 15|S|F 15|A 15|A 1|T|S|U 16 4294967295 3|N 4294967295 4294967295|\
    N 1 1|N 2 2|F 4294967295|T|T|T|N 4294967295 0|T|S|S|T|U 2 1 3|N 1 1|N 1 2|T|N 1 3|T|S|T";

const FULL: &str =
    "U 2 15 4|N 6 60|N 5 50|N 9 90|N 7 70|N 5 51|T|N 7 70|N 4 40|N 5 52|N 5 53|N 7 70|T|T|T|T|\
    N 9 91|N 1 10|S|N 1 10|N 9 92|T|T|S|N 15 1|N 1 2";

/// A set up that is not made leaves what waits.
const NOT_MADE: &str =
    "U 2 15 8|N 6 60|N 5 50|U 1 15 8|F 6|U 17 15 8|U 2 0 8|U 2 15 2|U 2 15 262145|F 5|\
    U 2 15 262144|F 5|U 16 15 7075|T|T|T|U 2 15 8|T";

pub fn acceptance_edges(trace: &mut Trace) {
    trace.other = Some(run_line);
    say_all(trace, AT_FIRST);
    set_ups(trace);
    say_all(trace, &format!("U 2 15 8|{FOURTEEN_STEPS}"));
    for steps in [LATE_NOTE, LATE_BEFORE_ALL] {
        say_all(trace, &steps.replace("U 2 15 8 71", "U 2 15 8"));
        say_all(trace, "T|N 2 21|T|T|S|T|S");
    }
    for steps in [KEYS, FULL, NOT_MADE] {
        say_all(trace, steps);
    }
    for line in UNREADABLE.split(|&byte| byte == b'|') {
        trace.write(line, b"\n");
    }
    for length in [63, 64, 65, 66, 4_096, 70_000] {
        trace.write(&b"T".repeat(length), b"\n");
    }
    say_all(
        trace,
        "U 8 4294967295 512|N 268914688 41|N 273010688 42|N 479232 43|N 268914688 44|T|T|T|T",
    );
    trace.write(b"T", b""); // A last line without line feed.
}

fn set_ups(trace: &mut Trace) {
    for d in [1, 2, 8, 15, 16, 17] {
        let most = most_cells(d);
        for c in [0, 2, 3, 4, most, most + 1, MOST_CELLS, MOST_CELLS + 1] {
            for k in [0, 1, u32::MAX] {
                say_all(trace, &format!("U {d} {k} {c}|F 1"));
            }
            say_all(trace, "N 1 10|N 4294967295 20|T|T|T|S");
        }
    }
}
