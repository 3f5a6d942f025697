//! `demo`: the story of revisions B and AA.

use crate::telling::upshot;
use crate::text::read_text;
use crate::trouble::Trouble;
use reader::Names;
use samblokur::{NodeId, Plan, Refusal, Session, Value, VariableId};

/// A revision: its letters, and its number from 1 for A over 26 for Z to 702 for ZZ.
#[derive(Clone, Copy)]
struct Revision {
    letters: &'static str,
    number: i64,
}

const A: Revision = Revision { letters: "A", number: 1 };
const B: Revision = Revision { letters: "B", number: 2 };
const AA: Revision = Revision { letters: "AA", number: 27 };

/// The two nodes in the order of the file: what each marks, and with what priority.
type Two = [(Revision, u16); 2];

const OPENING: &str = "\
The story of revisions B and AA

An archive of building drawings keeps, for each drawing, which sheet is current.
Sheets carry a revision: A, B, .. Z, then AA, AB and so on; a plan holds it as a
number, 1 for A, 2 for B, 26 for Z, 27 for AA. So AA is the later sheet, although
a dictionary would put it before B.

Sheet A is current. Then two nodes of one plan mark a new sheet at once. A plan
is a text:

";

const STEPS: &str = "
A plan runs in micro steps. In each, every node looks at the state before the
step, and all of them act together. Here both assignments end in the same micro
step, so both want to write one variable at one time. The executive knows
nothing of revisions: the plan's priorities decide, the larger number first.
";

const OLD_TOWER: &str = "
3. What the old tower did with the plan of 1.

   It went through the file from top to bottom and let each node write over the
   one before it, whatever its priority:

";

const STAIRCASE: &str = "   \
   The lower node in the file won, and the mark of AA was gone without a word: a
   joinery shop cut a staircase to a superseded drawing.

   Now the order in the file does not matter. The plan of 1. with its two nodes
   exchanged, B with priority 3 above AA with priority 5:

";

pub fn demo(told: &mut String) -> Result<(), Trouble> {
    let refused = Trouble::refused("the demo's plan");
    told_through(told).map_err(refused)
}

fn told_through(told: &mut String) -> Result<(), Refusal> {
    let mission = [(AA, 5), (B, 3)];
    told.push_str(OPENING);
    for line in text(mission).lines() {
        told.push_str(&format!("    {line}\n"));
    }
    told.push_str(STEPS);
    told.push_str("\n1. A higher priority on AA, as above: MarkAA has priority 5, MarkB has priority 3\n\n");
    told.push_str(&marked(mission)?);
    told.push_str("   The later sheet is current, and MarkB tells that its mark was lost.\n");
    told.push_str("\n2. Equal priorities: both nodes have priority 5\n\n");
    told.push_str(&marked([(AA, 5), (B, 5)])?);
    told.push_str("   Nothing is decided by chance: the sheet stays, and both nodes tell that their\n");
    told.push_str("   mark was lost, so that the plan or a person can decide.\n");
    told.push_str(OLD_TOWER);
    told.push_str(&marked_in_the_old_tower(mission));
    told.push_str(STAIRCASE);
    told.push_str(&marked([(B, 3), (AA, 5)])?);
    Ok(())
}

/// The old tower: each node writes in the order of the file.
fn marked_in_the_old_tower(two: Two) -> String {
    let mut told = String::new();
    let mut sheet = A;
    for (revision, _) in two {
        sheet = revision;
        told += &format!("   Mark{} marks {}: Success\n", sheet.letters, sheet.letters);
    }
    told + &format!("   Current sheet: {} ({})\n", sheet.letters, sheet.number)
}

/// Runs the plan and tells what came of it.
fn marked(two: Two) -> Result<String, Refusal> {
    let text = text(two);
    let reading = read_text(text.as_bytes()).map_err(|refused| Refusal::Unlisted(refused.number))?;
    let names = Names::of(text.as_bytes(), &reading.spans);
    let mut session = Session::fresh(Plan::open(&reading.image)?)?;
    let run = session.run(100, &mut [], 0)?;
    let sheet = session.variable(VariableId(0)).unwrap_or(Value::Unknown);
    let letters = [A, B, AA].iter().find(|revision| sheet == Value::Int(revision.number));
    let mut told = format!("   {} micro steps, then quiet: no node can move.\n", run.steps);
    told += &format!("   Current sheet: {} ({sheet})\n", letters.map_or("none", |revision| revision.letters));
    for node in [1, 2].map(NodeId) {
        told += &format!("   {}: {}\n", names.node(node), upshot(&session, node));
    }
    Ok(told)
}

/// The plan.
fn text(two: Two) -> String {
    let nodes = two.map(|(revision, priority)| {
        let Revision { letters, number } = revision;
        format!("        Mark{letters}: {{ Priority: {priority}; Assignment: current = {number}; }}\n")
    });
    format!(
        "Store: {{\n    Integer: {{ current = {}; }}\n    NodeList: {{\n{}    }}\n}}\n",
        A.number,
        nodes.concat()
    )
}
