//! A core that notes each of its steps as an event with its result. The proved `replay`, which
//! knows nothing of this crate, has to give the same results.

use crate::core::*;
use bb8_core::api::{Config, State};
use bb8_core::internals::{AtOnce, Grant, LeaveAnswer, PoolInternals, Unfit};
use bb8_core::kit::Global;
use bb8_core::replay::{replay, Act, Answer, Event};

/// A core with a journal.
pub(crate) struct Noted<C> {
    core: PoolInternals<Held<C>>,
    config: Config,
    notes: Vec<(Event, Answer)>,
}

fn number(get: Option<GetKey>) -> Option<u64> {
    get.map(|get| get.number)
}

fn of_try<C>(answer: &TryAnswer<C>) -> Answer {
    match answer {
        TryAnswer::Served(key, _, grant) => Answer::Served(key.number, *grant),
        TryAnswer::Taken(key, _, grant) => Answer::Taken(key.number, *grant),
        TryAnswer::Waiting(grant) => Answer::Waiting(*grant),
    }
}

fn of_give_up<C>(answer: &GiveUpAnswer<C>) -> Answer {
    match answer {
        GiveUpAnswer::GaveUp(get) => Answer::GaveUp(number(*get)),
        GiveUpAnswer::Kept(key, get) => Answer::Kept(key.number, number(*get)),
        GiveUpAnswer::Closed(key, _, grant, get) => {
            Answer::Closed(key.number, *grant, number(*get))
        }
    }
}

fn of_reap(answer: ReapAnswer) -> Answer {
    match answer {
        ReapAnswer::Reaped {
            closed,
            by_idle,
            by_life,
            grant,
        } => Answer::Reaped {
            closed,
            by_idle,
            by_life,
            grant,
        },
        ReapAnswer::Ended => Answer::Ended,
    }
}

/// Drops the first number of an empty grant, which means nothing.
fn plain(answer: Answer) -> Answer {
    let plain = |mut grant: Grant| {
        if grant.count == 0 {
            grant.first = 0;
        }
        grant
    };
    match answer {
        Answer::Served(number, grant) => Answer::Served(number, plain(grant)),
        Answer::Taken(number, grant) => Answer::Taken(number, plain(grant)),
        Answer::Waiting(grant) => Answer::Waiting(plain(grant)),
        Answer::Closed(number, grant, get) => Answer::Closed(number, plain(grant), get),
        Answer::Granted(grant) => Answer::Granted(plain(grant)),
        Answer::Reaped {
            closed,
            by_idle,
            by_life,
            grant,
        } => Answer::Reaped {
            closed,
            by_idle,
            by_life,
            grant: plain(grant),
        },
        other => other,
    }
}

impl<C> Noted<C> {
    /// Replays all events that were noted. Panics unless the results are those that were noted.
    /// Returns how many there are.
    pub(crate) fn judge(&self) -> usize {
        let events: Vec<Event> = self.notes.iter().map(|(event, _)| *event).collect();
        let (answers, _) = replay(Global, self.config, &events).expect("there is memory");
        assert_eq!(answers.len(), events.len());
        for (number, ((event, noted), proved)) in self.notes.iter().zip(answers.iter()).enumerate()
        {
            assert_eq!(plain(*noted), plain(*proved), "event {number}, {event:?}");
        }
        events.len()
    }

    /// How many asks were granted something.
    pub(crate) fn asked(&self) -> usize {
        let granted = |answer: &Answer| matches!(answer, Answer::Granted(it) if it.count > 0);
        let asked = self.notes.iter();
        asked
            .filter(|(event, answer)| event.act == Act::Ask && granted(answer))
            .count()
    }

    /// How many idle connections were closed at their own ends.
    pub(crate) fn evicted(&self) -> u64 {
        let evicted = |(event, _): &&(Event, Answer)| matches!(event.act, Act::Evict(_));
        self.notes.iter().filter(evicted).count() as u64
    }

    /// How many connections came too late.
    pub(crate) fn late(&self) -> u64 {
        let late = |(_, answer): &&(Event, Answer)| matches!(answer, Answer::Late(_));
        self.notes.iter().filter(late).count() as u64
    }

    /// Makes the journal wrong: as if the last event had had another result.
    pub(crate) fn falsify(&mut self) {
        let (_, answer) = self.notes.last_mut().expect("something happened");
        *answer = Answer::Unfit;
    }

    fn note(&mut self, at: Moment, act: Act, answer: Answer) {
        self.notes.push((Event { at, act }, answer));
    }
}

/// The steps of the core, as `PoolInternals` has them.
impl<C> Noted<C> {
    pub(crate) fn new(alloc: Global, config: Config) -> Self {
        Noted {
            core: PoolInternals::new(alloc, config),
            config,
            notes: Vec::new(),
        }
    }

    pub(crate) fn idle(&self) -> u32 {
        self.core.idle()
    }

    pub(crate) fn fits_close(&self) -> bool {
        self.core.fits_close()
    }

    pub(crate) fn serve_at_once(&mut self, at: Moment) -> Option<AtOnce<Held<C>>> {
        let served = self.core.serve_at_once(at)?;
        self.note(at, Act::Begin, Answer::Begun(served.get));
        let answer = Answer::Served(served.key.number, served.grant);
        self.note(at, Act::Try(served.get), answer);
        Some(served)
    }

    pub(crate) fn start(&mut self, at: Moment) -> Result<Started<Held<C>>, Unfit> {
        let started = self.core.start(at)?;
        match &started {
            Started::Tried(get, answer) => {
                self.note(at, Act::Begin, Answer::Begun(get.number));
                self.note(at, Act::Try(get.number), of_try(answer));
            }
            // The replay has memory, so there is nothing to compare with.
            Started::Memory => {}
            Started::Exhausted => self.note(at, Act::Begin, Answer::Exhausted),
        }
        Ok(started)
    }

    pub(crate) fn try_get(&mut self, at: Moment, get: GetKey) -> Result<TryAnswer<Held<C>>, Unfit> {
        let answer = self.core.try_get(at, get)?;
        self.note(at, Act::Try(get.number), of_try(&answer));
        Ok(answer)
    }

    pub(crate) fn checked_ok(
        &mut self,
        at: Moment,
        get: GetKey,
        hint: usize,
    ) -> Result<Key, Unfit> {
        let key = self.core.checked_ok(at, get, hint)?;
        let grant = Grant {
            first: 0,
            count: 0,
            withheld: 0,
        };
        let served = Answer::Served(key.number, grant);
        self.note(at, Act::CheckedOk(get.number), served);
        Ok(key)
    }

    pub(crate) fn checked_err(
        &mut self,
        at: Moment,
        get: GetKey,
        conn: Held<C>,
        broken: bool,
        hint: usize,
    ) -> Result<CheckedErrAnswer<Held<C>>, Held<C>> {
        let answer = self.core.checked_err(at, get, conn, broken, hint)?;
        let CheckedErrAnswer::Closed(key, _, grant, notified) = &answer;
        let closed = Answer::Closed(key.number, *grant, number(*notified));
        self.note(at, Act::CheckedErr(get.number, broken), closed);
        Ok(answer)
    }

    pub(crate) fn give_up(
        &mut self,
        at: Moment,
        get: GetKey,
        reason: Reason,
        broken: bool,
    ) -> Result<GiveUpAnswer<Held<C>>, Unfit> {
        let answer = self.core.give_up(at, get, reason, broken)?;
        let act = Act::GiveUp(get.number, reason, broken);
        self.note(at, act, of_give_up(&answer));
        Ok(answer)
    }

    pub(crate) fn give_back(
        &mut self,
        at: Moment,
        get: GetKey,
        reason: Reason,
        conn: Held<C>,
        broken: bool,
        hint: usize,
    ) -> Result<GiveUpAnswer<Held<C>>, Held<C>> {
        let answer = self.core.give_back(at, get, reason, conn, broken, hint)?;
        let act = Act::GiveUp(get.number, reason, broken);
        self.note(at, act, of_give_up(&answer));
        Ok(answer)
    }

    pub(crate) fn put_back(
        &mut self,
        at: Moment,
        key: Key,
        conn: Held<C>,
        broken: bool,
    ) -> Result<PutBackAnswer<Held<C>>, Held<C>> {
        let answer = self.core.put_back(at, key, conn, broken)?;
        let noted = match &answer {
            PutBackAnswer::Kept(get) => Answer::Kept(key.number, number(*get)),
            PutBackAnswer::Closed(_, grant, get) => {
                Answer::Closed(key.number, *grant, number(*get))
            }
        };
        self.note(at, Act::PutBack(key.number, broken), noted);
        Ok(answer)
    }

    pub(crate) fn fill(&mut self, at: Moment, claimed: bool) -> Grant {
        let grant = self.core.fill(at, claimed);
        self.note(at, Act::Fill(claimed), Answer::Granted(grant));
        grant
    }

    pub(crate) fn claim(&mut self, at: Moment) -> ClaimAnswer {
        let answer = self.core.claim(at);
        let noted = match answer {
            ClaimAnswer::Claimed(key) => Answer::Claimed(key.map(|key| key.number)),
            ClaimAnswer::Ended => Answer::Ended,
        };
        self.note(at, Act::Claim, noted);
        answer
    }

    pub(crate) fn opened(
        &mut self,
        at: Moment,
        approval: Key,
        conn: Held<C>,
    ) -> Result<OpenedAnswer<Held<C>>, Held<C>> {
        let answer = self.core.opened(at, approval, conn)?;
        let noted = match &answer {
            OpenedAnswer::Entered(get) => Answer::Entered(approval.number, number(*get)),
            OpenedAnswer::Late(_) => Answer::Late(approval.number),
        };
        self.note(at, Act::Opened(approval.number), noted);
        Ok(answer)
    }

    pub(crate) fn failed(&mut self, at: Moment, approval: Key) -> Result<(), Unfit> {
        self.core.failed(at, approval)?;
        self.note(at, Act::Failed(approval.number), Answer::GivenBack);
        Ok(())
    }

    pub(crate) fn add(
        &mut self,
        at: Moment,
        conn: Held<C>,
        broken: bool,
    ) -> Result<AddAnswer<Held<C>>, Held<C>> {
        let answer = self.core.add(at, conn, broken)?;
        let noted = match &answer {
            AddAnswer::Added(key, get) => Answer::Added(key.number, number(*get)),
            AddAnswer::Broken(_) => Answer::Broken,
            AddAnswer::NoCapacity(_) => Answer::NoCapacity,
            // As in `start`: the replay has memory.
            AddAnswer::Withheld(_) => return Ok(answer),
        };
        self.note(at, Act::Add(broken), noted);
        Ok(answer)
    }

    pub(crate) fn reap_into(&mut self, at: Moment, list: &mut ClosedList<Held<C>>) -> ReapAnswer {
        let answer = self.core.reap_into(at, list);
        self.note(at, Act::Reap, of_reap(answer));
        answer
    }

    pub(crate) fn retire_into(&mut self, at: Moment, list: &mut ClosedList<Held<C>>) -> ReapAnswer {
        let answer = self.core.retire_into(at, list);
        self.note(at, Act::Retire, of_reap(answer));
        answer
    }

    pub(crate) fn detach(&mut self, at: Moment, key: Key) -> Result<DetachAnswer, Unfit> {
        let answer = self.core.detach(at, key)?;
        let DetachAnswer::Detached(grant, get) = answer;
        let noted = Answer::Closed(key.number, grant, number(get));
        self.note(at, Act::Detach(key.number), noted);
        Ok(answer)
    }

    pub(crate) fn evict(&mut self, at: Moment, key: Key) -> Result<EvictAnswer<Held<C>>, Unfit> {
        let answer = self.core.evict(at, key)?;
        let EvictAnswer::Evicted(_, grant, get) = &answer;
        let noted = Answer::Closed(key.number, *grant, number(*get));
        self.note(at, Act::Evict(key.number), noted);
        Ok(answer)
    }

    pub(crate) fn ask(&mut self, at: Moment) -> Grant {
        let grant = self.core.ask(at);
        self.note(at, Act::Ask, Answer::Granted(grant));
        grant
    }

    pub(crate) fn close_into(&mut self, at: Moment, list: &mut ClosedList<Held<C>>) -> LeaveAnswer {
        let answer = self.core.close_into(at, list);
        let LeaveAnswer::Left(closed) = answer;
        self.note(at, Act::Close, Answer::Left(closed));
        answer
    }

    pub(crate) fn state(&mut self, at: Moment) -> State {
        let state = self.core.state(at);
        self.note(at, Act::State, Answer::Shown(state));
        state
    }
}
