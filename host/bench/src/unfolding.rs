//! A small plan whose expression, written out as a tree, is large: each of 12 entries is the AND of the one before
//! it with itself, and every condition of 256 nodes is the last. A check that walks trees goes over 7 million entries.

use samblokur::{Condition, PlanBuilder, Refusal};
use samblokur_sys::{Counts, Executive, Report};

const NODES: usize = 256;
const ENTRIES: usize = 12;

const CONDITIONS: [Condition; 7] = [
    Condition::Skip,
    Condition::Start,
    Condition::Pre,
    Condition::Inv,
    Condition::End,
    Condition::Post,
    Condition::Repeat,
];

/// A plan image.
pub struct Unfolding {
    image: Vec<u8>,
}

impl Unfolding {
    /// The plan.
    pub fn new() -> Result<Unfolding, Refusal> {
        let mut plan = PlanBuilder::new();
        let root = plan.add_list(None);
        let asked = plan.add_variable(root, true);
        let first = plan.variable(asked);
        let last = (1..ENTRIES).fold(first, |entry, _| plan.and(entry, entry));
        let below = (1..NODES).map(|_| plan.add_list(root)).collect::<Vec<_>>();
        for node in std::iter::once(root).chain(below) {
            CONDITIONS.iter().for_each(|&condition| plan.condition(node, condition, last));
        }
        Ok(Unfolding { image: plan.image()? })
    }

    /// One check; the count of checks.
    pub fn check<E: Executive>(&self) -> u32 {
        let (mut counts, mut report) = (Counts::default(), Report::default());
        1 + E::check(&self.image, &mut counts, &mut report)
    }
}
