//! The logger program: an export's records in one list, then everything taken out of it.

use crate::operations::{perform, Call};
use crate::order::fresh_list;
use crate::records::{record, records_of, NONE_YET};
use std::io::{Read, Write};

/// An answer for each record, an empty line, then an answer for each take up to refusal 7.
pub fn logger(mut input: impl Read, mut output: impl Write) -> std::io::Result<()> {
    let mut export = Vec::new();
    input.read_to_end(&mut export)?;
    let (mut words, mut last) = (fresh_list(), NONE_YET);
    for bytes in records_of(&export) {
        writeln!(output, "{}", record(&mut words, bytes, &mut last))?;
    }
    writeln!(output)?;
    loop {
        let taken = perform(&mut words, &Call::Take);
        writeln!(output, "{taken}")?;
        if taken.refusal != 0 {
            return output.flush();
        }
    }
}
