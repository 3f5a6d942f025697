//! A plan of a given size as a tower has them: many nodes that wait, and a few that move at each report.

use samblokur::{
    Condition, EntryId, EventBuilder, Kind, LookupId, NodeId, Outcome, PlanBuilder, Refusal, Status,
};
use samblokur_sys::{Card, Counts, Executive, Report, State};
use std::marker::PhantomData;

/// Nodes of a room: a list, a repeating command, and others that count its rounds or wait.
const ROOM: usize = 9;

const TICK: LookupId = LookupId(0);
const READING: LookupId = LookupId(1);

/// A plan image, and its commands that return in turn.
pub struct Tower {
    image: Vec<u8>,
    commands: Vec<NodeId>,
}

/// A tower in the course of its turns.
pub struct Turns<'a, E> {
    tower: &'a Tower,
    state: State,
    card: Card,
    list: Vec<u32>,
    reports: usize,
    executive: PhantomData<E>,
}

impl Tower {
    /// A tower of so many nodes: node 0, a node that ticks, and rooms.
    pub fn of(nodes: usize) -> Result<Tower, Refusal> {
        let mut plan = PlanBuilder::new();
        plan.add_lookup(Kind::Bool);
        plan.add_lookup(Kind::Real);
        let root = plan.add_list(None);
        let never = plan.constant(false);
        plan.condition(root, Condition::End, never);
        let tick = plan.lookup(TICK);
        let ticks = plan.add_variable(root, false);
        let ticking = plan.add_assignment(root, ticks, tick);
        plan.condition(ticking, Condition::Start, tick);
        plan.condition(ticking, Condition::Repeat, tick);
        let mut tower = Tower { image: Vec::new(), commands: Vec::new() };
        let mut added = 2;
        while added < nodes {
            let size = ROOM.min(nodes - added);
            tower.commands.extend(room(&mut plan, root, never, size));
            added += size;
        }
        tower.image = plan.image()?;
        Ok(tower)
    }

    /// One check; the count of checks.
    pub fn check<E: Executive>(&self) -> u32 {
        let (mut counts, mut report) = (Counts::default(), Report::default());
        1 + E::check(&self.image, &mut counts, &mut report)
    }

    /// A fresh start, run to quiet: every command is issued.
    pub fn quiet<E: Executive>(&self) -> Turns<'_, E> {
        let mut report = Report::default();
        let (mut state, mut card) = (State::default(), Card::default());
        E::fresh(&self.image, &mut state, &mut card, &mut report);
        let mut turns =
            Turns { tower: self, state, card, list: vec![0; 1024], reports: 0, executive: PhantomData };
        turns.run(100);
        turns
    }

    /// A tower that never comes to rest.
    pub fn ticking<E: Executive>(&self) -> Turns<'_, E> {
        let mut turns = self.quiet();
        turns.turn(&EventBuilder::new().value(TICK, true), 0);
        turns
    }
}

impl<E: Executive> Turns<'_, E> {
    /// A command returns with a new reading, and the plan's turn comes to quiet; the count of reports.
    pub fn report(&mut self) -> u32 {
        let command = self.tower.commands[self.reports % self.tower.commands.len()];
        self.reports += 1;
        let reading = self.reports as f64 / 8.0;
        self.turn(&EventBuilder::new().value(READING, reading).returned(command), 100);
        1
    }

    /// The count of micro steps.
    pub fn run(&mut self, budget: u16) -> u32 {
        let mut report = Report::default();
        let (state, card) = (&mut self.state, &mut self.card);
        E::run(&self.tower.image, state, card, budget, &mut self.list, 0, &mut report);
        assert_eq!(report.number, 0, "a bench run is refused");
        report.steps
    }

    fn turn(&mut self, event: &EventBuilder, budget: u16) {
        let (event, mut report) = (event.bytes(self.card.serial), Report::default());
        let (state, card) = (&mut self.state, &mut self.card);
        E::turn(&self.tower.image, state, card, &event, budget, &mut self.list, 0, &mut report);
        assert_eq!(report.number, 0, "a bench turn is refused");
    }
}

/// A list with a command that repeats for ever, and nodes that count its rounds or wait for a high reading.
fn room(plan: &mut PlanBuilder, root: NodeId, never: EntryId, size: usize) -> Option<NodeId> {
    let list = plan.add_list(root);
    plan.condition(list, Condition::End, never);
    if size == 1 {
        return None;
    }
    let rounds = plan.add_variable(list, 0);
    let command = plan.add_command(list, 1);
    let always = plan.constant(true);
    plan.condition(command, Condition::Repeat, always);
    for i in 2..size {
        let (now, one) = (plan.variable(rounds), plan.constant(1));
        let more = plan.add(now, one);
        let node = plan.add_assignment(list, rounds, more);
        let ended = plan.status(command, Status::IterationEnded);
        let waits = if i == 2 { ended } else { high_reading(plan, command) };
        plan.condition(node, Condition::Start, waits);
        plan.condition(node, Condition::Repeat, always);
        let few = plan.constant(i64::MAX);
        let below = plan.lt(now, few);
        plan.condition(node, Condition::Inv, below);
    }
    Some(command)
}

/// A reading above 1e12 after the command has ended well, which never comes.
fn high_reading(plan: &mut PlanBuilder, command: NodeId) -> EntryId {
    let (limit, reading) = (plan.constant(1e12), plan.lookup(READING));
    let high = plan.lt(limit, reading);
    let done = plan.outcome(command, Outcome::Success);
    plan.and(high, done)
}
