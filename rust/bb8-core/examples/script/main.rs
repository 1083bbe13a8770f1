//! Runs a script of events over the erased core, as `bb8_script` does: `cargo run --example script
//! < FILE`.
//!
//! It reads standard input and writes the results of the events and the final state to standard
//! output, and a message about an invalid line to standard error. It exits with status 0 if the
//! script ran, 2 after an invalid line or argument, and 3 if reading, writing or an allocation
//! failed. `docs/SCRIPTS.md` in the repository describes the language.
//!
//! With the feature `refusals`, the variables `GRANTED` and `REFUSED` hold numbers: that many
//! requests for memory are granted, and that many after these are refused.
#![forbid(unsafe_code)]

#[macro_use]
mod kit;
#[path = "runner.rs"]
mod bb8_runner;

use bb8_runner::fault::Fault;
use bb8_runner::script::run_script;
use bb8_runner::verdict::Verdict;
use std::process::ExitCode;
use std::{env, io};

/// Runs the script on standard input.
fn run() -> Result<Verdict, Fault> {
    let run = || {
        run_script(
            kit::Global,
            &mut io::stdin(),
            &mut io::stdout(),
            &mut io::stderr(),
        )
    };
    #[cfg(feature = "refusals")]
    {
        let number = |name| env::var(name).ok()?.parse().ok();
        if let (Some(granted), Some(refused)) = (number("GRANTED"), number("REFUSED")) {
            return kit::refusals::refusing(granted, refused, run);
        }
    }
    run()
}

fn main() -> ExitCode {
    if env::args_os().len() > 1 {
        eprintln!(
            "usage: script (it reads standard input; only the proved program has `threads N`)"
        );
        return ExitCode::from(2);
    }
    match run() {
        Ok(Verdict::Ran) => ExitCode::SUCCESS,
        Ok(Verdict::Bad) => ExitCode::from(2),
        Err(fault) => {
            eprintln!("{fault}");
            ExitCode::from(3)
        }
    }
}
