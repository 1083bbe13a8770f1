//! Compares `start` and `serve_at_once`, which the package `bb8` calls, with `begin` and `try_get`,
//! which scripts run: three pools take the same random events, and have to have the same state.

#[path = "../examples/random_scripts/events.rs"]
mod events;

use bb8_core::api::Moment;
use bb8_core::internals::{BeginAnswer, PoolInternals, Started, TryAnswer};
use bb8_core::kit::Global;
use bb8_core::replay::{apply, Act, Answer, Event, Known};
use events::{configuration, time, Dice, Names};

/// Returns an answer with numbers in place of keys and connections.
fn plain(tried: TryAnswer<u64>) -> Answer {
    match tried {
        TryAnswer::Served(key, _, grant) => Answer::Served(key.number, grant),
        TryAnswer::Taken(key, _, grant) => Answer::Taken(key.number, grant),
        TryAnswer::Waiting(grant) => Answer::Waiting(grant),
    }
}

/// Begins a get and lets it try. Returns its number and the answer, or none if nothing began.
fn begin_and_try(pool: &mut PoolInternals<u64>, at: Moment) -> Option<(u64, Answer)> {
    match pool.begin(at) {
        Ok(BeginAnswer::Begun(get)) => {
            let tried = pool
                .try_get(at, get)
                .expect("a get that just began may try");
            Some((get.number, plain(tried)))
        }
        _ => None,
    }
}

/// Does the same in one step.
fn start(pool: &mut PoolInternals<u64>, at: Moment) -> Option<(u64, Answer)> {
    match pool.start(at) {
        Ok(Started::Tried(get, tried)) => Some((get.number, plain(tried))),
        _ => None,
    }
}

/// Does the same by `serve_at_once`, or by `start` if that is not possible. Also returns whether it
/// was possible.
fn serve_or_start(pool: &mut PoolInternals<u64>, at: Moment) -> (bool, Option<(u64, Answer)>) {
    match pool.serve_at_once(at) {
        Some(served) => (
            true,
            Some((served.get, Answer::Served(served.key.number, served.grant))),
        ),
        None => (false, start(pool, at)),
    }
}

/// Runs random events over three pools. Returns the number of gets that `serve_at_once` served.
fn compare(dice: &mut Dice) -> u32 {
    let (config, line) = configuration(dice, 1);
    if !config.is_lawful() {
        return 0;
    }
    let new = || (PoolInternals::new(Global, config), Known::new(Global, 0, 0));
    let mut pools = [new(), new(), new()];
    let (mut names, mut latest, mut at_once) = (Names::default(), 0, 0);
    for _ in 0..200 {
        let Some(act) = names.choose(dice) else {
            continue;
        };
        let at = Moment(time(dice, &mut latest, 1));
        if act == Act::Begin {
            let (is_served, served) = serve_or_start(&mut pools[2].0, at);
            let (tried, started) = (
                begin_and_try(&mut pools[0].0, at),
                start(&mut pools[1].0, at),
            );
            assert_eq!((started, served), (tried, tried), "{line}");
            at_once += u32::from(is_served);
            if let Some((get, answer)) = tried {
                names.note(Act::Try(get), answer);
            }
        } else {
            let answers: Vec<_> = pools
                .iter_mut()
                .map(|(pool, known)| apply(pool, known, Event { at, act }))
                .collect();
            assert_eq!(answers[1..], [answers[0]; 2], "{line}, {act:?}");
            names.note(act, answers[0]);
        }
        let states: Vec<_> = pools.iter_mut().map(|(pool, _)| pool.state(at)).collect();
        assert_eq!(states[1..], [states[0]; 2], "{line}, {act:?}");
    }
    at_once
}

#[test]
fn start_equals_begin_and_try_get() {
    let mut dice = Dice(1);
    let at_once: u32 = (0..2000).map(|_| compare(&mut dice)).sum();
    assert!(at_once > 1000, "{at_once} gets were served at once");
}
