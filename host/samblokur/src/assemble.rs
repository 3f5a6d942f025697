//! The assembler: nodes, expressions, variables and lookups into image bytes.

use crate::records::NONE;
use crate::{Condition, EntryId, Kind, LookupId, NodeId, Operator, Refusal, Value, VariableId};

/// Puts a plan image together.
///
/// `add_list`, `add_command`, `add_assignment`, `add_variable` and `add_lookup` add records and answer their
/// numbers; `priority` and `condition` set fields of a node; every other method adds an expression entry and
/// answers its number. Nothing is checked before [`crate::Plan::open`]: the assembler writes what it is told, and
/// gives an expression the kind that follows from its operands.
///
/// ```
/// use samblokur::{Condition, Plan, PlanBuilder, Session, Value};
///
/// # fn main() -> Result<(), samblokur::Refusal> {
/// // A list owns count = 0; its child does count := count + 1 and repeats while count < 3.
/// let mut plan = PlanBuilder::new();
/// let root = plan.add_list(None);
/// let count = plan.add_variable(root, 0);
///
/// let now = plan.variable(count);
/// let one = plan.constant(1);
/// let more = plan.add(now, one);
/// let child = plan.add_assignment(root, count, more);
///
/// let three = plan.constant(3);
/// let below = plan.lt(now, three);
/// plan.condition(child, Condition::Repeat, below);
///
/// let image = plan.image()?;
/// let mut session = Session::fresh(Plan::open(&image)?)?;
/// assert_eq!(session.run(100, &mut [], 0)?.steps, 14);
/// assert_eq!(session.variable(count), Some(Value::Int(3)));
/// # Ok(())
/// # }
/// ```
#[derive(Clone, Debug, Default)]
pub struct PlanBuilder {
    nodes: Vec<[u16; 12]>,
    pub(crate) exprs: Vec<Entry>,
    pub(crate) vars: Vec<Variable>,
    pub(crate) looks: Vec<Kind>,
}

#[derive(Clone, Copy, Debug)]
pub(crate) struct Entry {
    pub(crate) operator: Operator,
    pub(crate) kind: Kind,
    pub(crate) a: u16,
    pub(crate) b: u16,
    pub(crate) constant: u64,
}

#[derive(Clone, Copy, Debug)]
pub(crate) struct Variable {
    pub(crate) kind: Kind,
    owner: u16,
    initial: Value,
}

impl PlanBuilder {
    /// A plan without records.
    pub fn new() -> PlanBuilder {
        PlanBuilder::default()
    }

    /// A list. The first node of a plan has no parent.
    pub fn add_list(&mut self, parent: impl Into<Option<NodeId>>) -> NodeId {
        self.add_node(parent.into(), 0, NONE, NONE)
    }

    /// A command with its number, 0..65534.
    pub fn add_command(&mut self, parent: impl Into<Option<NodeId>>, number: u16) -> NodeId {
        self.add_node(parent.into(), 1, number, NONE)
    }

    /// An assignment of an entry's value to a variable.
    pub fn add_assignment(
        &mut self,
        parent: impl Into<Option<NodeId>>,
        variable: VariableId,
        value: EntryId,
    ) -> NodeId {
        self.add_node(parent.into(), 2, variable.0, value.0)
    }

    /// A variable of the initial value's kind.
    pub fn add_variable(&mut self, owner: NodeId, initial: impl Into<Value>) -> VariableId {
        let initial = initial.into();
        let kind = initial.kind().unwrap_or(Kind::Bool);
        self.vars.push(Variable { kind, owner: owner.0, initial });
        VariableId(last(self.vars.len()))
    }

    /// A variable that is Unknown at first.
    pub fn add_unknown_variable(&mut self, owner: NodeId, kind: Kind) -> VariableId {
        self.vars.push(Variable { kind, owner: owner.0, initial: Value::Unknown });
        VariableId(last(self.vars.len()))
    }

    /// A lookup.
    pub fn add_lookup(&mut self, kind: Kind) -> LookupId {
        self.looks.push(kind);
        LookupId(last(self.looks.len()))
    }

    /// Gives a node its priority; without it a node has priority 0.
    pub fn priority(&mut self, node: NodeId, priority: u16) {
        if let Some(record) = self.nodes.get_mut(node.place()) {
            record[2] = priority;
        }
    }

    /// Gives a node a condition; without it the condition has its default.
    pub fn condition(&mut self, node: NodeId, condition: Condition, entry: EntryId) {
        if let Some(record) = self.nodes.get_mut(node.place()) {
            record[3 + usize::from(condition.number())] = entry.0;
        }
    }

    /// The image bytes.
    ///
    /// # Errors
    /// `Count`, where the records are so many that 16-bit offsets cannot tell them: such a plan is outside the
    /// limits in any case.
    pub fn image(&self) -> Result<Vec<u8>, Refusal> {
        let mut image = Vec::new();
        for number in self.header()? {
            image.extend(number.to_le_bytes());
        }
        for field in self.nodes.iter().flatten() {
            image.extend(field.to_le_bytes());
        }
        for entry in &self.exprs {
            image.extend([entry.operator.number(), entry.kind.number()]);
            image.extend([entry.a.to_le_bytes(), entry.b.to_le_bytes(), [0; 2]].as_flattened());
            image.extend(entry.constant.to_le_bytes());
        }
        for variable in &self.vars {
            image.extend([variable.kind.number(), u8::from(variable.initial != Value::Unknown)]);
            image.extend([variable.owner.to_le_bytes(), [0; 2], [0; 2]].as_flattened());
            image.extend(variable.initial.bits().to_le_bytes());
        }
        image.extend(self.looks.iter().flat_map(|kind| [kind.number(), 0]));
        Ok(image)
    }

    /// Edition, counts, offsets and total length.
    fn header(&self) -> Result<[u16; 10], Refusal> {
        let counts = [self.nodes.len(), self.exprs.len(), self.vars.len(), self.looks.len()];
        let sizes = [24, 16, 16, 2];
        let mut header = [0; 10];
        header[0] = 1;
        let mut at = 20;
        for (i, (count, size)) in counts.into_iter().zip(sizes).enumerate() {
            header[1 + i] = u16::try_from(count).map_err(|_| Refusal::Count)?;
            header[5 + i] = u16::try_from(at).map_err(|_| Refusal::Count)?;
            at += count * size;
        }
        header[9] = u16::try_from(at).map_err(|_| Refusal::Count)?;
        Ok(header)
    }

    /// A node's record as twelve 16-bit fields; its type has the spare in the upper half.
    fn add_node(&mut self, parent: Option<NodeId>, body: u16, what: u16, value: u16) -> NodeId {
        let parent = parent.map_or(NONE, |node| node.0);
        self.nodes.push([parent, body, 0, NONE, NONE, NONE, NONE, NONE, NONE, NONE, what, value]);
        NodeId(last(self.nodes.len()))
    }
}

/// The number of the last of so many records.
pub(crate) fn last(count: usize) -> u16 {
    u16::try_from(count - 1).unwrap_or(NONE)
}
