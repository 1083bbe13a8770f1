//! Writes random scripts to standard output, each with a zero byte at its end: `random_scripts SEED
//! COUNT`. The same arguments give the same scripts. `gate/differential` runs them.
//!
//! While it writes a script it applies the events to a pool. So most events name gets, connections
//! and approvals that exist; others repeat, name something else, or have a time that goes
//! backwards.
#![forbid(unsafe_code)]

mod events;

use bb8_core::api::Moment;
use bb8_core::internals::{PoolInternals, Reason};
use bb8_core::kit::Global;
use bb8_core::replay::{apply, Act, Event, Known};
use events::{configuration, time, Dice, Names};
use std::io::{self, Write};
use std::{env, process};

/// Returns how a script spells an event.
fn spelled(act: Act) -> String {
    let broken = |broken: bool| if broken { " broken" } else { "" };
    match act {
        Act::Begin => "begin".to_owned(),
        Act::Try(get) => format!("try {get}"),
        Act::CheckedOk(get) => format!("ok {get}"),
        Act::CheckedErr(get, is_broken) => format!("err {get}{}", broken(is_broken)),
        Act::GiveUp(get, Reason::TimedOut, is_broken) => {
            format!("timeout {get}{}", broken(is_broken))
        }
        Act::GiveUp(get, Reason::Cancelled, is_broken) => {
            format!("cancel {get}{}", broken(is_broken))
        }
        Act::PutBack(number, is_broken) => format!("return {number}{}", broken(is_broken)),
        Act::Detach(number) => format!("detach {number}"),
        Act::Evict(number) => format!("evict {number}"),
        Act::Fill(claimed) => format!("fill{}", if claimed { " claimed" } else { "" }),
        Act::Ask => "ask".to_owned(),
        Act::Claim => "claim".to_owned(),
        Act::Opened(number) => format!("open {number}"),
        Act::Failed(number) => format!("fail {number}"),
        Act::Add(is_broken) => format!("add{}", broken(is_broken)),
        Act::Reap => "reap".to_owned(),
        Act::Retire => "retire".to_owned(),
        Act::State => "state".to_owned(),
        Act::Join => "join".to_owned(),
        Act::Leave => "leave".to_owned(),
        Act::Close => "close".to_owned(),
        Act::Look => "look".to_owned(),
    }
}

/// Drops, doubles or lengthens a field of the first or another line, which mostly makes it invalid.
fn spoil(dice: &mut Dice, lines: &mut [String]) {
    let limit = dice.pick(&[1, lines.len()]).unwrap_or(1);
    let line = dice.below(limit as u64) as usize;
    let mut fields: Vec<_> = lines[line].split(' ').map(str::to_owned).collect();
    let field = dice.below(fields.len() as u64) as usize;
    match dice.below(3) {
        0 => drop(fields.remove(field)),
        1 => fields.insert(field, fields[field].clone()),
        _ => fields[field].push_str(
            dice.pick(&["0", "x", "=", "00000000000000000000"])
                .unwrap_or("x"),
        ),
    }
    lines[line] = fields.join(" ");
}

/// Returns a script.
fn script(dice: &mut Dice) -> Vec<u8> {
    let unit = dice.pick(&[1, 1, 700, 1_000_000]).unwrap_or(1);
    let (config, line) = configuration(dice, unit);
    let mut lines = vec![line];
    if config.is_lawful() {
        let mut pool = PoolInternals::new(Global, config);
        let mut known = Known::new(Global, 0, 0);
        let (mut names, mut latest, mut last) = (Names::default(), 0, Act::State);
        for _ in 0..dice.below(160) {
            let repeated = if dice.one_in(20) { Some(last) } else { None };
            let Some(act) = repeated.or_else(|| names.choose(dice)) else {
                continue;
            };
            let at = time(dice, &mut latest, unit);
            let answer = apply(
                &mut pool,
                &mut known,
                Event {
                    at: Moment(at),
                    act,
                },
            );
            names.note(act, answer);
            lines.push(format!("{at} {}", spelled(act)));
            last = act;
        }
    }
    if dice.one_in(10) {
        spoil(dice, &mut lines);
    }
    let mut text = lines.join("\n").into_bytes();
    text.extend(if dice.one_in(10) { None } else { Some(b'\n') });
    if dice.one_in(25) {
        // one byte is another, which mostly makes its line invalid
        let place = dice.below(text.len() as u64) as usize;
        text[place] = dice.pick(b" \n0a=+\xff").unwrap_or(b' ');
    }
    text
}

fn main() -> io::Result<()> {
    let numbers: Option<Vec<u64>> = env::args().skip(1).map(|word| word.parse().ok()).collect();
    let Some([seed, count]) = numbers.as_deref() else {
        eprintln!("usage: random_scripts SEED COUNT");
        process::exit(2);
    };
    let mut dice = Dice(*seed);
    for _ in 0..*count {
        let mut text = script(&mut dice);
        text.push(0);
        io::stdout().write_all(&text)?;
    }
    Ok(())
}
