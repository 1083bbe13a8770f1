//! The output lines of a script.

use bb8_core::api::{Moment, State, Statistics};
use bb8_core::internals::Grant;
use bb8_core::replay::Answer;
use crate::kit::String;
use crate::kit::{AllocError, Global};
use std::fmt;
use std::fmt::Write;

/// The approvals granted and those withheld; neither is printed if it is 0.
#[derive(Clone, Copy)]
struct GrantPart(Grant);

impl fmt::Display for GrantPart {
    fn fmt(&self, f: &mut fmt::Formatter) -> fmt::Result {
        let Grant {
            first,
            count,
            withheld,
        } = self.0;
        if count != 0 {
            write!(f, " grant {count} at {first}")?;
        }
        if withheld != 0 {
            write!(f, " withheld {withheld}")?;
        }
        Ok(())
    }
}

/// The notified get, if there is one.
#[derive(Clone, Copy)]
struct NotifiesPart(Option<u64>);

impl fmt::Display for NotifiesPart {
    fn fmt(&self, f: &mut fmt::Formatter) -> fmt::Result {
        match self.0 {
            Some(get) => write!(f, " notifies {get}"),
            None => Ok(()),
        }
    }
}

/// The counts of gets.
#[derive(Clone, Copy)]
struct GetsPart(Statistics);

impl fmt::Display for GetsPart {
    fn fmt(&self, f: &mut fmt::Formatter) -> fmt::Result {
        let Statistics {
            get_started,
            get_direct,
            get_waited,
            get_timed_out,
            get_cancelled,
            ..
        } = self.0;
        write!(
            f,
            " started {get_started} direct {get_direct} waited {get_waited} timed_out {get_timed_out} cancelled {get_cancelled}"
        )
    }
}

/// How long gets waited, in whole microseconds, and the counts of opened and closed connections.
#[derive(Clone, Copy)]
struct ConnectionsPart(Statistics);

impl fmt::Display for ConnectionsPart {
    fn fmt(&self, f: &mut fmt::Formatter) -> fmt::Result {
        let wait = self.0.get_wait_time.as_micros();
        let created = self.0.connections_created;
        let broken = self.0.connections_closed_broken;
        let invalid = self.0.connections_closed_invalid;
        let lifetime = self.0.connections_closed_max_lifetime;
        let idle_timeout = self.0.connections_closed_idle_timeout;
        write!(
            f,
            " wait_us {wait} created {created} broken {broken} invalid {invalid} lifetime {lifetime} idle_timeout {idle_timeout}"
        )
    }
}

/// The counts of retired and detached connections.
#[derive(Clone, Copy)]
struct GonePart(Statistics);

impl fmt::Display for GonePart {
    fn fmt(&self, f: &mut fmt::Formatter) -> fmt::Result {
        let retired = self.0.connections_closed_retired;
        if retired != 0 {
            write!(f, " retired {retired}")?;
        }
        let detached = self.0.connections_detached;
        if detached != 0 {
            write!(f, " detached {detached}")?;
        }
        Ok(())
    }
}

/// The state line.
#[derive(Clone, Copy)]
struct StateText(State);

impl fmt::Display for StateText {
    fn fmt(&self, f: &mut fmt::Formatter) -> fmt::Result {
        let connections = self.0.connections;
        let idle = self.0.idle_connections;
        let statistics = self.0.statistics;
        write!(
            f,
            "state connections {connections} idle {idle}{}{}{}",
            GetsPart(statistics),
            ConnectionsPart(statistics),
            GonePart(statistics)
        )
    }
}

/// The line of a result.
#[derive(Clone, Copy)]
struct AnswerText(Answer);

impl fmt::Display for AnswerText {
    fn fmt(&self, f: &mut fmt::Formatter) -> fmt::Result {
        match self.0 {
            Answer::Begun(g) => write!(f, "begun {g}"),
            Answer::Memory => write!(f, "memory"),
            Answer::Exhausted => write!(f, "exhausted"),
            Answer::Served(k, grant) => write!(f, "served {k}{}", GrantPart(grant)),
            Answer::Taken(k, grant) => write!(f, "taken {k}{}", GrantPart(grant)),
            Answer::Waiting(grant) => write!(f, "waiting{}", GrantPart(grant)),
            Answer::Kept(k, notified) => write!(f, "kept {k}{}", NotifiesPart(notified)),
            Answer::Closed(k, grant, notified) => {
                write!(
                    f,
                    "closed {k}{}{}",
                    GrantPart(grant),
                    NotifiesPart(notified)
                )
            }
            Answer::GaveUp(notified) => write!(f, "gave up{}", NotifiesPart(notified)),
            Answer::Granted(grant) => write!(f, "granted{}", GrantPart(grant)),
            Answer::Claimed(Some(a)) => write!(f, "claimed {a}"),
            Answer::Claimed(None) => write!(f, "none"),
            Answer::Ended => write!(f, "ended"),
            Answer::Entered(a, notified) => write!(f, "entered {a}{}", NotifiesPart(notified)),
            Answer::Late(a) => write!(f, "late {a}"),
            Answer::GivenBack => write!(f, "given back"),
            Answer::Added(k, notified) => write!(f, "added {k}{}", NotifiesPart(notified)),
            Answer::Broken => write!(f, "broken"),
            Answer::NoCapacity => write!(f, "full"),
            Answer::Withheld => write!(f, "withheld"),
            Answer::Reaped {
                closed,
                by_idle,
                by_life,
                grant,
            } => {
                write!(
                    f,
                    "reaped {closed} idle {by_idle} life {by_life}{}",
                    GrantPart(grant)
                )
            }
            Answer::Shown(state) => write!(f, "{}", StateText(state)),
            Answer::Joined => write!(f, "joined"),
            Answer::Left(closed) => write!(f, "left {closed}"),
            Answer::Looked(Moment(at), true) => write!(f, "looked {at} open"),
            Answer::Looked(Moment(at), false) => write!(f, "looked {at} closed"),
            Answer::Unfit => write!(f, "unfit"),
        }
    }
}

/// Returns the output of a script that ran: a line for each result, and the state line. Fails if
/// memory is refused.
pub fn output(alloc: Global, answers: &[Answer], last: State) -> Result<String, AllocError> {
    let mut text = String::new(alloc);
    for answer in answers {
        writeln!(text, "{}", AnswerText(*answer))?;
    }
    writeln!(text, "{}", StateText(last))?;
    Ok(text)
}

/// Returns the message about the first bad line, counted from 1. Fails if memory is refused.
pub fn bad_line(alloc: Global, number: u64) -> Result<String, AllocError> {
    if number == 1 {
        format!(in alloc; "line {number}: not a configuration\n")
    } else {
        format!(in alloc; "line {number}: not an event\n")
    }
}
