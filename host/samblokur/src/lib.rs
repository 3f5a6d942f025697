//! A plan executive for PLEXIL whose core is proved.
//!
//! A host opens a plan image, starts a session, runs it to quiet, carries out the command words, and hands
//! what came of them back as events, one call per report:
//!
//! ```
//! use samblokur::{Ending, EventBuilder, Outcome, Plan, PlanBuilder, Session, Word};
//!
//! # fn main() -> Result<(), samblokur::Refusal> {
//! // A plan of one command, number 7.
//! let mut builder = PlanBuilder::new();
//! let scan = builder.add_command(None, 7);
//! let image = builder.image()?;
//!
//! let plan = Plan::open(&image)?;
//! let mut session = Session::fresh(plan)?;
//! let mut list = [0; 16];
//!
//! let run = session.run(100, &mut list, 0)?;
//! assert_eq!((run.ending, run.steps), (Ending::Quiet, 1));
//! assert_eq!(Word::of(list[0]), Word::Issue(scan));
//!
//! let event = EventBuilder::new().returned(scan).bytes(session.next_serial());
//! session.turn(&event, 100, &mut list, 0)?;
//! assert_eq!(session.outcome(scan), Some(Outcome::Success));
//! # Ok(())
//! # }
//! ```

mod assemble;
mod codes;
mod entries;
mod event;
mod ids;
mod plan;
mod records;
mod refusal;
mod session;
mod shown;
mod value;
mod word;

pub use assemble::PlanBuilder;
pub use codes::{Body, Condition, Failure, Kind, Operator, Outcome, Phase, Status};
pub use event::EventBuilder;
pub use ids::{EntryId, LookupId, NodeId, VariableId};
pub use plan::Plan;
pub use records::{ExpressionRecord, LookupRecord, NodeRecord, Records, VariableRecord};
pub use refusal::Refusal;
pub use samblokur_sys::{Card, Counts, State};
pub use session::{Ending, Run, Session};
pub use value::Value;
pub use word::Word;
