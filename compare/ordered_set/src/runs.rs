//! Runs of takes (The operations 5): what the takes of a run say that they passed, added up, is
//! what stands between where the position was at its start and where it is now.

use crate::operations::{Answer, Call};
use crate::reading::list;
use crate::replay::{BytesLine, Line};

/// A run goes on over takes, finds, finishes, writes and refused calls.
struct Run {
    /// The key of the position at the start.
    from: u32,
    passed: usize,
}

/// The run on the list that the words are, if they are one.
#[derive(Default)]
pub struct Runs {
    run: Option<Run>,
}

impl Runs {
    /// Takes note of a line of a trace, with its answer and the words that it left. Panics if the
    /// takes of the run passed another number of keys than stand between.
    pub fn note(&mut self, number: usize, line: &Line, answer: Option<Answer>, words: &[u32]) {
        let done = answer.filter(|answer| answer.refusal == 0);
        if ends_a_run(line, done) {
            self.run = list(words).map(|model| Run { from: model.position, passed: 0 });
        } else if let (Some(run), Some(done)) = (&mut self.run, done) {
            if matches!(line, Line::Call(Call::Take)) {
                run.passed += done.count as usize;
            }
            run.must_add_up(number, words);
        }
    }
}

impl Run {
    fn must_add_up(&self, number: usize, words: &[u32]) {
        let Run { from, passed } = *self;
        let Some(model) = list(words) else {
            panic!("line {number}: a call left no list");
        };
        let up_to = model.position;
        let stand = model.standing.keys().filter(|&&key| from < key && key <= up_to).count();
        assert!(
            passed == stand,
            "line {number}: the takes from key {from} to key {up_to} passed {passed}, and {stand} stand there"
        );
    }
}

/// The line may alter the standing keys, or the position other than by a take.
fn ends_a_run(line: &Line, done: Option<Answer>) -> bool {
    match line {
        Line::Make { .. } | Line::Put { .. } | Line::Length(_) => true,
        Line::Call(Call::Take | Call::Find { .. } | Call::Finish { .. }) => false,
        Line::Call(Call::SetUp { .. } | Call::Insert { .. } | Call::Sweep) => done.is_some(),
        Line::Bytes(BytesLine::Record | BytesLine::Read) => done.is_some(),
        Line::Bytes(_) => false,
    }
}
