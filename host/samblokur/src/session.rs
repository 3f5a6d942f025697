//! A plan in the course of its turns: the owner of a state and a turn card.

use crate::{Failure, LookupId, NodeId, Outcome, Phase, Plan, Refusal, Status, Value, VariableId};
use samblokur_sys::{Card, Executive, Library, Report, State};

/// A state and card that belong to a plan.
#[derive(Clone, Debug)]
pub struct Session<'a> {
    plan: Plan<'a>,
    state: State,
    card: Card,
}

/// How a run or a turn ended.
#[derive(Clone, Copy, Debug, PartialEq, Eq)]
pub enum Ending {
    /// No rule applies any more.
    Quiet,
    /// The budget is used and a rule still applies.
    Spent,
}

/// What a run or a turn did.
#[derive(Clone, Copy, Debug, PartialEq, Eq)]
pub struct Run {
    /// How it ended.
    pub ending: Ending,
    /// The count of micro steps.
    pub steps: u32,
    /// The next free place in the list.
    pub next: usize,
}

impl Run {
    /// What a report tells of a run or a turn.
    fn of(report: &Report) -> Result<Run, Refusal> {
        Refusal::of(report)?;
        let ending = if report.ending == 2 { Ending::Spent } else { Ending::Quiet };
        Ok(Run { ending, steps: report.steps, next: report.next })
    }
}

impl<'a> Session<'a> {
    /// A fresh start of the plan.
    ///
    /// # Errors
    /// None for an opened plan: its image was admitted already.
    pub fn fresh(plan: Plan<'a>) -> Result<Session<'a>, Refusal> {
        let mut session = Session { plan, state: State::default(), card: Card::default() };
        let mut report = Report::default();
        Library::fresh(plan.image(), &mut session.state, &mut session.card, &mut report);
        Refusal::of(&report).map(|()| session)
    }

    /// A session that goes on from a kept state and card. The next call refuses them (30) if they are none
    /// that the plan can have.
    pub fn kept(plan: Plan<'a>, state: State, card: Card) -> Session<'a> {
        Session { plan, state, card }
    }

    /// Runs to quiet under a step budget, after a fresh start, `Spent` or `NoRoom`; command words go into the
    /// list from `start` on.
    ///
    /// # Errors
    /// 30, 31, or 32 `NoRoom`, which keeps the steps done: carry the words out, then run again.
    pub fn run(&mut self, budget: u16, list: &mut [u32], start: usize) -> Result<Run, Refusal> {
        let mut report = Report::default();
        let (state, card) = (&mut self.state, &mut self.card);
        Library::run(self.plan.image(), state, card, budget, list, start, &mut report);
        Run::of(&report)
    }

    /// One call per report: the event enters, and the plan runs to quiet under a step budget; command words go
    /// into the list from `start` on. `Ending::Spent` keeps the event: run next.
    ///
    /// # Errors
    /// 30, 31, or one of 20 to 25, which leave the session as it was; or 32 `NoRoom`, which keeps the event and
    /// the steps done: carry the words out, then run.
    pub fn turn(
        &mut self,
        event: &[u8],
        budget: u16,
        list: &mut [u32],
        start: usize,
    ) -> Result<Run, Refusal> {
        let mut report = Report::default();
        let (state, card) = (&mut self.state, &mut self.card);
        Library::turn(self.plan.image(), state, card, event, budget, list, start, &mut report);
        Run::of(&report)
    }

    /// The plan.
    pub fn plan(&self) -> Plan<'a> {
        self.plan
    }

    /// The state, to be kept.
    pub fn state(&self) -> &State {
        &self.state
    }

    /// The turn card, to be kept.
    pub fn card(&self) -> Card {
        self.card
    }

    /// The serial that the next event must carry.
    pub fn next_serial(&self) -> u32 {
        self.card.serial
    }

    /// Running or Quiet; nothing for a kept card that holds neither.
    pub fn phase(&self) -> Option<Phase> {
        u8::try_from(self.card.phase).ok().and_then(Phase::of)
    }

    /// Where a node of the plan stands.
    pub fn status(&self, node: NodeId) -> Option<Status> {
        self.at_node(&self.state.status, node).and_then(Status::of)
    }

    /// What came of a node of the plan.
    pub fn outcome(&self, node: NodeId) -> Option<Outcome> {
        self.at_node(&self.state.outcome, node).and_then(Outcome::of)
    }

    /// Why a node of the plan failed.
    pub fn failure(&self, node: NodeId) -> Option<Failure> {
        self.at_node(&self.state.failure, node).and_then(Failure::of)
    }

    /// Whether a node is a command that has returned and has not ended yet.
    pub fn returned(&self, node: NodeId) -> bool {
        self.at_node(&self.state.mark, node) == Some(1)
    }

    /// The value of a variable of the plan.
    pub fn variable(&self, variable: VariableId) -> Option<Value> {
        let (v, state) = (variable.place(), &self.state);
        (variable.0 < self.plan.counts().vars).then(|| Value::of_cell(state.vartags[v], state.varbits[v]))
    }

    /// The value of a lookup of the plan.
    pub fn lookup(&self, lookup: LookupId) -> Option<Value> {
        let (l, state) = (lookup.place(), &self.state);
        (lookup.0 < self.plan.counts().looks).then(|| Value::of_cell(state.looktags[l], state.lookbits[l]))
    }

    fn at_node(&self, places: &[u8; 256], node: NodeId) -> Option<u8> {
        (node.0 < self.plan.counts().nodes).then(|| places[node.place()])
    }
}
