//! Random configurations, events and times.

use bb8_core::api::{Config, QueueStrategy};
use bb8_core::internals::Reason;
use bb8_core::replay::{Act, Answer};
use std::time::Duration;

/// A generator of random numbers (splitmix64).
pub struct Dice(pub u64);

impl Dice {
    pub fn next(&mut self) -> u64 {
        self.0 = self.0.wrapping_add(0x9e37_79b9_7f4a_7c15);
        let mut mixed = self.0;
        mixed = (mixed ^ (mixed >> 30)).wrapping_mul(0xbf58_476d_1ce4_e5b9);
        mixed = (mixed ^ (mixed >> 27)).wrapping_mul(0x94d0_49bb_1331_11eb);
        mixed ^ (mixed >> 31)
    }

    pub fn below(&mut self, limit: u64) -> u64 {
        self.next() % limit
    }

    pub fn one_in(&mut self, many: u64) -> bool {
        self.below(many) == 0
    }

    pub fn pick<T: Copy>(&mut self, from: &[T]) -> Option<T> {
        let place = self.next() as usize;
        from.get(place.checked_rem(from.len())?).copied()
    }
}

/// Chooses a limit of this many nanoseconds, or none.
fn limit(dice: &mut Dice, unit: u64) -> Option<u64> {
    let units = dice.pick(&[1, 20, 20, 50, 50, 90, 200, u64::MAX])?;
    (!dice.one_in(3)).then_some(unit.saturating_mul(units))
}

/// Chooses a configuration whose limits are multiples of `unit` nanoseconds. Returns it with its
/// line.
pub fn configuration(dice: &mut Dice, unit: u64) -> (Config, String) {
    let mut config = Config::default();
    let mut fields = vec!["config".to_owned()];
    config.max_size = dice
        .pick(&[1, 1, 1, 1, 2, 2, 3, 5, 10, u32::MAX])
        .unwrap_or(1);
    fields.push(format!("max_size={}", config.max_size));
    config.test_on_check_out = dice.one_in(2);
    fields.push(format!(
        "check={}",
        if config.test_on_check_out {
            "on"
        } else {
            "off"
        }
    ));
    if dice.one_in(3) {
        let units = dice.pick(&[0, 1, 5, 20, 60, u64::MAX]).unwrap_or(0);
        let span = unit.saturating_mul(units);
        config.test_after = Duration::from_nanos(span);
        fields.push(format!("test_after={span}"));
    }
    if !dice.one_in(3) {
        let most = config.max_size.min(12) + u32::from(dice.one_in(20));
        let least = dice.below(u64::from(most) + 1) as u32;
        config.min_idle = Some(least);
        fields.push(format!("min_idle={least}"));
    }
    for (name, field) in [
        ("lifetime", &mut config.max_lifetime),
        ("idle", &mut config.idle_timeout),
    ] {
        if !dice.one_in(4) {
            let limit = limit(dice, unit);
            *field = limit.map(Duration::from_nanos);
            fields.push(format!(
                "{name}={}",
                limit.map_or("none".to_owned(), |it| it.to_string())
            ));
        }
    }
    if dice.one_in(2) {
        config.queue_strategy = QueueStrategy::Lifo;
        fields.push("strategy=lifo".to_owned());
    }
    (config, fields.join(" "))
}

/// Numbers of what exists, so that events can name it.
#[derive(Default)]
pub struct Names {
    /// Gets that hold no connection.
    gets: Vec<u64>,
    /// Gets that hold a connection.
    holding: Vec<u64>,
    /// Checked-out connections.
    out: Vec<u64>,
    /// Idle connections, and closed ones that were idle.
    idle: Vec<u64>,
    /// Claimed approvals.
    claimed: Vec<u64>,
}

impl Names {
    /// Takes in what an event did.
    pub fn note(&mut self, act: Act, answer: Answer) {
        if let Act::Try(get)
        | Act::CheckedOk(get)
        | Act::CheckedErr(get, _)
        | Act::GiveUp(get, ..) = act
        {
            if answer != Answer::Unfit {
                self.gets.retain(|it| *it != get);
                self.holding.retain(|it| *it != get);
            }
            match answer {
                Answer::Taken(..) => self.holding.push(get),
                Answer::Waiting(_) => self.gets.push(get),
                Answer::Closed(..) if matches!(act, Act::CheckedErr(..)) => self.gets.push(get),
                _ => {}
            }
        }
        match answer {
            Answer::Kept(number, _) | Answer::Entered(number, _) | Answer::Added(number, _) => {
                self.idle.push(number)
            }
            Answer::Served(number, _) | Answer::Taken(number, _) | Answer::Closed(number, ..) => {
                self.idle.retain(|it| *it != number)
            }
            _ => {}
        }
        match (act, answer) {
            (_, Answer::Begun(get)) => self.gets.push(get),
            (_, Answer::Served(number, _)) => self.out.push(number),
            (
                Act::PutBack(number, _) | Act::Detach(number),
                Answer::Kept(..) | Answer::Closed(..),
            ) => self.out.retain(|it| *it != number),
            (_, Answer::Claimed(number)) => self.claimed.extend(number),
            (Act::Fill(true), Answer::Granted(grant)) => {
                self.claimed
                    .extend(grant.first..grant.first + u64::from(grant.count));
            }
            (Act::Opened(number) | Act::Failed(number), _) => {
                self.claimed.retain(|it| *it != number)
            }
            _ => {}
        }
    }

    /// Chooses an event, or returns none if what it would name does not exist.
    pub fn choose(&self, dice: &mut Dice) -> Option<Act> {
        let strange = [0, 1, 2, 3, 1 << 32, u64::MAX, dice.next()];
        let one_of = |dice: &mut Dice, names: &[u64]| {
            let is_strange = dice.one_in(25);
            dice.pick(if is_strange { &strange } else { names })
        };
        Some(match dice.below(112) {
            0..=15 => Act::Begin,
            16..=35 => Act::Try(one_of(dice, &self.gets)?),
            36..=43 => Act::CheckedOk(one_of(dice, &self.holding)?),
            44..=47 => Act::CheckedErr(one_of(dice, &self.holding)?, dice.one_in(2)),
            48..=55 => {
                let reason = if dice.one_in(2) {
                    Reason::TimedOut
                } else {
                    Reason::Cancelled
                };
                let names = if dice.one_in(3) {
                    &self.holding
                } else {
                    &self.gets
                };
                Act::GiveUp(one_of(dice, names)?, reason, dice.one_in(3))
            }
            56..=68 => Act::PutBack(one_of(dice, &self.out)?, dice.one_in(4)),
            69..=77 => Act::Claim,
            78..=86 => Act::Opened(one_of(dice, &self.claimed)?),
            87..=89 => Act::Failed(one_of(dice, &self.claimed)?),
            90..=91 => Act::Fill(dice.one_in(2)),
            92..=93 => Act::Add(dice.one_in(4)),
            94..=96 => Act::Reap,
            97 => Act::State,
            98 => Act::Look,
            99..=102 => Act::Detach(one_of(dice, &self.out)?),
            103..=105 => Act::Ask,
            106..=107 => Act::Retire,
            108..=109 => Act::Evict(one_of(dice, &self.idle)?),
            _ => match dice.below(7) {
                0 => Act::Leave,
                1 => Act::Close,
                _ => Act::Join,
            },
        })
    }
}

/// Chooses the time of an event. It seldom goes backwards, and then only for this event.
pub fn time(dice: &mut Dice, latest: &mut u64, unit: u64) -> u64 {
    if dice.one_in(15) {
        return latest.saturating_sub(unit * dice.below(100));
    }
    let step = if dice.one_in(2000) {
        u64::MAX
    } else {
        dice.pick(&[0, 0, 0, 1, 5, 20, 60]).unwrap_or(0)
    };
    *latest = latest.saturating_add(unit.saturating_mul(step));
    *latest
}
