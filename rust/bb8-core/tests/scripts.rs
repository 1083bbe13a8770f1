//! Runs the repository's scripts over the erased code, and compares the results with those that are
//! written there. `docs/SCRIPTS.md` describes scripts and transcripts. Some transcripts hold the
//! results of bb8 0.9.1 itself.

#[macro_use]
#[path = "../examples/script/kit.rs"]
mod kit;
#[path = "../examples/script/runner.rs"]
mod bb8_runner;

use bb8_runner::fault::Fault;
use bb8_runner::script::run_script;
use bb8_runner::verdict::Verdict;
use std::io::{self, Read, Write};
use std::{fs, path};

/// A script, and the lines that it has to write.
struct Transcript {
    title: String,
    is_run: bool,
    script: String,
    wanted: Vec<String>,
}

/// Returns a file of `crates/`.
fn read(name: &str) -> String {
    let path = path::Path::new(env!("CARGO_MANIFEST_DIR"))
        .join("../../crates")
        .join(name);
    fs::read_to_string(&path).unwrap_or_else(|error| panic!("{}: {error}", path.display()))
}

/// Returns the transcripts of a file. Those of live pools are not run.
fn transcripts(text: &str) -> Vec<Transcript> {
    let mut all: Vec<Transcript> = Vec::new();
    for line in text
        .lines()
        .filter(|line| !line.is_empty() && !line.starts_with('#'))
    {
        let title = ["== ", ":: ", "~~ "]
            .iter()
            .find_map(|mark| line.strip_prefix(mark));
        if let Some(title) = title {
            let (title, is_run) = (title.to_owned(), line.starts_with('='));
            let (script, wanted) = (String::new(), Vec::new());
            all.push(Transcript {
                title,
                is_run,
                script,
                wanted,
            });
        } else if let Some(last) = all.last_mut() {
            let (event, answer) = match (line.strip_prefix("| "), line.split_once(" | ")) {
                (Some(answer), _) => (None, Some(answer)),
                (None, Some((event, answer))) => (Some(event.trim_end_matches(' ')), Some(answer)),
                (None, None) => (Some(line), None),
            };
            last.script
                .extend(event.into_iter().flat_map(|event| [event, "\n"]));
            last.wanted.extend(answer.map(str::to_owned));
        }
    }
    all
}

/// Runs a script, and returns what it wrote.
fn run(script: &str) -> (Result<Verdict, Fault>, String) {
    let mut written = Vec::new();
    let ran = run_script(
        kit::Global,
        &mut script.as_bytes(),
        &mut written,
        &mut io::sink(),
    );
    (ran, String::from_utf8(written).unwrap())
}

/// Returns the first line that differs from the transcript, with the one that is wanted.
fn difference(transcript: &Transcript) -> Option<(Option<String>, Option<String>)> {
    let (ran, written) = run(&transcript.script);
    let is_bad = written.starts_with("line ");
    assert_eq!(
        ran,
        Ok(if is_bad { Verdict::Bad } else { Verdict::Ran }),
        "{}",
        transcript.title
    );
    let mut lines = written.lines().map(str::to_owned);
    let mut wanted = transcript.wanted.iter().cloned();
    loop {
        match (lines.next(), wanted.next()) {
            (None, None) => return None,
            (line, want) if line == want => {}
            differ => return Some(differ),
        }
    }
}

#[test]
fn transcripts_are_reproduced() {
    let all = transcripts(&read("bb8_rows/stdin"));
    let (run, not_run): (Vec<_>, Vec<_>) = all.iter().partition(|transcript| transcript.is_run);
    for transcript in &run {
        assert_eq!(difference(transcript), None, "{}", transcript.title);
    }
    println!(
        "{} transcripts, and {} of live pools or that no script can reproduce",
        run.len(),
        not_run.len()
    );
    assert!(run.len() >= 186);
}

#[test]
fn every_other_result_is_a_difference() {
    let mut changed = 0;
    for mut transcript in transcripts(&read("bb8_rows/stdin"))
        .into_iter()
        .filter(|it| it.is_run)
    {
        for line in 0..transcript.wanted.len() {
            let kept = transcript.wanted[line].clone();
            transcript.wanted[line].push('0');
            assert!(
                difference(&transcript).is_some(),
                "{}, line {line}",
                transcript.title
            );
            transcript.wanted[line] = kept;
            changed += 1;
        }
        let last = transcript.wanted.pop();
        assert!(
            difference(&transcript).is_some(),
            "{}, without its end",
            transcript.title
        );
        transcript.wanted.extend(last);
        transcript.wanted.push("unfit".to_owned());
        assert!(
            difference(&transcript).is_some(),
            "{}, with another end",
            transcript.title
        );
    }
    assert!(changed > 1000);
}

#[test]
fn the_stored_run_is_reproduced() {
    let (ran, written) = run(&read("bb8_script/stdin"));
    assert_eq!(
        (ran, written),
        (Ok(Verdict::Ran), read("bb8_script/stdout"))
    );
}

/// A stream that fails.
struct Broken;

impl Read for Broken {
    fn read(&mut self, _: &mut [u8]) -> io::Result<usize> {
        Err(io::ErrorKind::Other.into())
    }
}

impl Write for Broken {
    fn write(&mut self, _: &[u8]) -> io::Result<usize> {
        Err(io::ErrorKind::Other.into())
    }

    fn flush(&mut self) -> io::Result<()> {
        Ok(())
    }
}

#[test]
fn failing_streams_are_reported() {
    let mut written = Vec::new();
    assert_eq!(
        run_script(kit::Global, &mut Broken, &mut written, &mut io::sink()),
        Err(Fault::Read)
    );
    assert!(written.is_empty());
    let ran = run_script(
        kit::Global,
        &mut "config\n".as_bytes(),
        &mut Broken,
        &mut io::sink(),
    );
    assert_eq!(ran, Err(Fault::Write));
}

#[test]
fn a_message_that_cannot_be_written_is_no_fault() {
    let (mut written, mut script) = (Vec::new(), "config\n0 tri 0\n".as_bytes());
    let ran = run_script(kit::Global, &mut script, &mut written, &mut Broken);
    assert_eq!(ran, Ok(Verdict::Bad));
    assert_eq!(written, b"line 2: not an event\n");
}

/// Returns whether a result reports that memory was refused.
#[cfg(feature = "refusals")]
fn names_memory(answer: &str) -> bool {
    answer == "memory" || answer.contains("withheld")
}

/// Runs a script with this many requests for memory granted. Checks that it fails with nothing
/// written, or writes the usual results up to the first that reports refused memory. Returns
/// whether it wrote all of them.
#[cfg(feature = "refusals")]
fn is_granted(transcript: &Transcript, requests: u32) -> bool {
    let mut written = Vec::with_capacity(1 << 20);
    let ran = kit::refusals::granting(requests, || {
        run_script(
            kit::Global,
            &mut transcript.script.as_bytes(),
            &mut written,
            &mut io::sink(),
        )
    });
    let written = String::from_utf8(written).unwrap();
    if ran.is_err() {
        assert_eq!(
            (ran, written.as_str()),
            (Err(Fault::Memory), ""),
            "{}",
            transcript.title
        );
        return false;
    }
    let usual = written
        .lines()
        .zip(&transcript.wanted)
        .take_while(|(line, wanted)| line == wanted)
        .count();
    match written.lines().nth(usual) {
        None => usual == transcript.wanted.len(),
        Some(other) => {
            assert!(
                names_memory(other),
                "{}, {requests} granted: {other}",
                transcript.title
            );
            false
        }
    }
}

#[cfg(feature = "refusals")]
#[test]
fn refused_memory_is_reported() {
    let mut refused = 0;
    for transcript in transcripts(&read("bb8_rows/stdin"))
        .iter()
        .filter(|it| it.is_run)
    {
        let needed = (0..10_000).find(|requests| is_granted(transcript, *requests));
        refused += needed.expect("a script that needs no more than 10,000 requests");
    }
    assert!(refused > 1000);
}
