//! Parses a script, runs it, and writes its results.

use crate::bb8_runner::errors::error_at;
use crate::bb8_runner::fault::Fault;
use crate::bb8_runner::lines::{NoScript, lines_of, script_of};
use crate::bb8_runner::streams::{Sink, Source};
use crate::bb8_runner::text::{bad_line, output};
use crate::bb8_runner::verdict::Verdict;
use bb8_core::api::Moment;
use bb8_core::replay::replay;
use crate::kit::String;
use crate::kit::Global;

/// Returns the output for an input, and the message about its first bad line.
fn answer(alloc: Global, input: &[u8]) -> Result<(Verdict, String, String), Fault> {
    let lines = lines_of(alloc, input)?;
    match script_of(alloc, lines.as_slice()) {
        Ok(script) => {
            let (answers, mut pool) = replay(alloc, script.config, script.events.as_slice())?;
            // No moment is earlier than the first, so this is the state at the latest one.
            let text = output(alloc, answers.as_slice(), pool.state(Moment(0)))?;
            Ok((Verdict::Ran, text, String::new(alloc)))
        }
        Err(NoScript::BadLine(number)) => {
            let error = error_at(alloc, lines.as_slice(), number)?;
            Ok((Verdict::Bad, bad_line(alloc, number)?, error))
        }
        Err(NoScript::Memory) => Err(Fault::Memory),
    }
}

/// Writes the message about a bad line. A failed write is ignored: the output is written already.
pub fn explain<E: Sink>(verdict: Verdict, error: &[u8], errors: &mut E) {
    match verdict {
        Verdict::Ran => {}
        Verdict::Bad => {
            let _ = errors.write_whole(error);
        }
    }
}

/// Reads a script to its end, runs it, and writes the results and the final state; or the number of
/// the first bad line, and to `errors` a message about it. A failed write to `errors` is ignored.
///
/// Fails with `Read` if a read fails, `Write` if a write fails, `Memory` if a list cannot grow.
/// Nothing is written before the whole input has been read and parsed, so only after `Write` the
/// beginning of the output may have been written. bb8 has no scripts.
pub fn run_script<R: Source, W: Sink, E: Sink>(
    alloc: Global,
    reader: &mut R,
    writer: &mut W,
    errors: &mut E,
) -> Result<Verdict, Fault> {
    let input = reader.read_whole(alloc)?;
    let (verdict, text, error) = answer(alloc, input.as_slice())?;
    writer.write_whole(text.as_bytes())?;
    explain(verdict, error.as_bytes(), errors);
    Ok(verdict)
}
