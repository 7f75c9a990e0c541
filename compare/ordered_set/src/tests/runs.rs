//! Runs of takes: the printed example of docs/SIZING.md, a figure that is wrong, and what the
//! generated traces have of them.

use super::{answered, for_each_call, line};
use crate::operations::{Answer, Call};
use crate::replay::{replay, run, Line, State};
use crate::runs::Runs;

/// Keys 5 and 9 are live, 2 and 6 dead, and the late key 5 has put the position back on 2.
const BEFORE: &str = "U 2 15 8 71|N 2 20|N 6 60|N 9 90|T|T|N 5 50";
const RUN: &str = "T|F 9|A 5|N 9 91|T|T";

fn before_the_run() -> State {
    let mut state = State::at_first();
    for call in BEFORE.split('|') {
        answered(&mut state, call);
    }
    state
}

/// 1 for key 5, and 2 for key 9 with the dead key 6: 5, 6 and 9 stand above 2.
#[test]
fn run_of_the_example() {
    let mut state = before_the_run();
    let answers: Vec<[u32; 4]> = RUN.split('|').map(|call| answered(&mut state, call)).collect();
    assert_eq!(answers[0], [0, 5, 50, 1]);
    assert_eq!(answers[1..4].iter().map(|answer| answer[0]).collect::<Vec<_>>(), [0, 0, 5]);
    assert_eq!(answers[4..], [[0, 9, 90, 2], [7, 0, 0, 0]]);
    let trace = format!("{BEFORE}|{RUN}").replace('|', "\n");
    replay(trace.as_bytes(), Vec::new()).expect("no input or output fails");
}

/// Makes the calls of the run, alters each count that is answered, and has them noted from line 8
/// on.
fn noted(alter: fn(u32) -> u32) {
    let mut state = before_the_run();
    let mut runs = Runs::default();
    let late = Answer { refusal: 0, key: 5, value: 0, count: 1 };
    runs.note(7, &line("N 5 50"), Some(late), &state.words);
    for (number, call) in (8..).zip(RUN.split('|').map(line)) {
        let answer = run(&mut state, &call).expect("a call");
        let altered = Answer { count: alter(answer.count), ..answer };
        runs.note(number, &call, Some(altered), &state.words);
    }
}

#[test]
fn run_adds_up() {
    noted(|count| count);
}

#[test]
#[should_panic(expected = "line 12: the takes from key 2 to key 9 passed 2, and 3 stand there")]
fn dead_key_not_passed() {
    noted(|count| count.min(1));
}

/// Key 2, where the run starts, would count too.
#[test]
#[should_panic(expected = "line 8: the takes from key 2 to key 5 passed 2, and 1 stand there")]
fn passed_from_the_head() {
    noted(|count| count + 1);
}

/// Takes that follow another take with no accepted insert, sweep or set up between, and of these
/// the ones that pass dead keys.
#[test]
fn traces_have_runs_of_takes() {
    for (name, lines) in [("gen-calls", 5000), ("gen-late", 500)] {
        let (mut follows, mut passes) = (0, 0);
        let mut running = false;
        for_each_call(name, lines, |model, line, _, _| match line {
            Line::Call(Call::Take) => {
                let next = model.least_live().expect("a take is accepted");
                let passed = model.standing.range(model.position + 1..=next).count();
                follows += u32::from(running);
                passes += u32::from(running && passed > 1);
                running = true;
            }
            Line::Call(Call::Find { .. } | Call::Finish { .. }) => {}
            _ => running = false,
        });
        assert!(follows >= 50 && passes >= 10, "{name}: {follows} follow, {passes} pass dead keys");
    }
}
