//! A plan whose one node waits, at the greatest depth, for a sum of 512 lookups to pass every Int.

use samblokur::{Condition, EntryId, Kind, LookupId, PlanBuilder, Refusal};
use samblokur_sys::{Card, Counts, Executive, Report, State};

/// Ten levels of a sum; LE and NOT make them twelve.
const LEAVES: u32 = 512;

/// The entries that one evaluation of the condition works out: the leaves, the sums, the limit, LE and NOT.
pub const ENTRIES: u32 = LEAVES + (LEAVES - 1) + 3;

/// A turn card's phase.
pub const RUNNING: u32 = 0;
/// A turn card's phase: the call works the condition out once more, since Quiet must mean that no rule applies.
pub const QUIET: u32 = 1;

/// A plan image.
pub struct Sum {
    image: Vec<u8>,
}

impl Sum {
    /// The plan.
    pub fn new() -> Result<Sum, Refusal> {
        let mut plan = PlanBuilder::new();
        plan.add_lookup(Kind::Int);
        let list = plan.add_list(None);
        let sum = sum_of(&mut plan, LEAVES);
        let most = plan.constant(i64::MAX);
        let within = plan.le(sum, most);
        let past = plan.not(within);
        plan.condition(list, Condition::Start, past);
        Ok(Sum { image: plan.image()? })
    }

    /// One check; the count of checks.
    pub fn check<E: Executive>(&self) -> u32 {
        let (mut counts, mut report) = (Counts::default(), Report::default());
        1 + E::check(&self.image, &mut counts, &mut report)
    }

    /// A fresh state, with the lookup 0.
    pub fn fresh<E: Executive>(&self) -> State {
        let mut state = State::default();
        self.start::<E>(&mut state);
        state
    }

    /// The same, in a state that is there.
    pub fn start<E: Executive>(&self, state: &mut State) {
        let (mut card, mut report) = (Card::default(), Report::default());
        E::fresh(&self.image, state, &mut card, &mut report);
        state.looktags[0] = 2;
    }

    /// One run of the waiting plan, which is quiet at once; the count of runs.
    pub fn run<E: Executive>(&self, state: &mut State, phase: u32) -> u32 {
        let (mut card, mut report) = (Card { serial: 0, phase }, Report::default());
        1 + E::run(&self.image, state, &mut card, 1, &mut [], 0, &mut report)
    }

    /// A turn of an event without entries; the count of turns.
    pub fn turn<E: Executive>(&self, state: &mut State) -> u32 {
        let (mut card, mut report) = (Card { serial: 0, phase: QUIET }, Report::default());
        1 + E::turn(&self.image, state, &mut card, &[0; 8], 1, &mut [], 0, &mut report)
    }
}

fn sum_of(plan: &mut PlanBuilder, leaves: u32) -> EntryId {
    if leaves == 1 {
        return plan.lookup(LookupId(0));
    }
    let (left, right) = (sum_of(plan, leaves / 2), sum_of(plan, leaves / 2));
    plan.add(left, right)
}
