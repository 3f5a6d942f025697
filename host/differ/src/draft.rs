//! A plan as records whose every field can be set, and its image bytes.

/// A field that names nothing.
pub const NONE: u16 = 65535;

#[derive(Clone, Default)]
pub struct Draft {
    pub nodes: Vec<Node>,
    pub exprs: Vec<Expression>,
    pub vars: Vec<Variable>,
    pub looks: Vec<Lookup>,
}

#[derive(Clone, Copy)]
pub struct Node {
    pub parent: u16,
    pub body: u8,
    pub spare: u8,
    pub priority: u16,
    pub conditions: [u16; 7],
    pub what: u16,
    pub value: u16,
}

#[derive(Clone, Copy, Default)]
pub struct Expression {
    pub operator: u8,
    pub kind: u8,
    pub a: u16,
    pub b: u16,
    pub spare: u16,
    pub constant: u64,
}

#[derive(Clone, Copy)]
pub struct Variable {
    pub kind: u8,
    pub known: u8,
    pub owner: u16,
    pub spare: u32,
    pub initial: u64,
}

#[derive(Clone, Copy)]
pub struct Lookup {
    pub kind: u8,
    pub spare: u8,
}

impl Draft {
    /// The image bytes under a true header.
    pub fn image(&self) -> Vec<u8> {
        let mut image = Vec::new();
        for number in self.header() {
            image.extend((number as u16).to_le_bytes());
        }
        for node in &self.nodes {
            image.extend(node.parent.to_le_bytes());
            image.extend([node.body, node.spare]);
            image.extend(node.priority.to_le_bytes());
            image.extend(node.conditions.map(u16::to_le_bytes).as_flattened());
            image.extend([node.what.to_le_bytes(), node.value.to_le_bytes()].as_flattened());
        }
        for e in &self.exprs {
            image.extend([e.operator, e.kind]);
            image.extend([e.a, e.b, e.spare].map(u16::to_le_bytes).as_flattened());
            image.extend(e.constant.to_le_bytes());
        }
        for variable in &self.vars {
            image.extend([variable.kind, variable.known]);
            image.extend(variable.owner.to_le_bytes());
            image.extend(variable.spare.to_le_bytes());
            image.extend(variable.initial.to_le_bytes());
        }
        image.extend(self.looks.iter().flat_map(|lookup| [lookup.kind, lookup.spare]));
        image
    }

    fn header(&self) -> [usize; 10] {
        let [n, e, v, l] = [self.nodes.len(), self.exprs.len(), self.vars.len(), self.looks.len()];
        let exprs = 20 + 24 * n;
        let vars = exprs + 16 * e;
        let looks = vars + 16 * v;
        [1, n, e, v, l, 20, exprs, vars, looks, looks + 2 * l]
    }

    /// Adds an expression and answers its number.
    pub fn push(&mut self, expression: Expression) -> u16 {
        self.exprs.push(expression);
        (self.exprs.len() - 1) as u16
    }

    /// Whether the owner is this node or above it.
    pub fn reaches(&self, node: u16, owner: u16) -> bool {
        let mut at = node;
        while at != owner && at != NONE {
            at = self.nodes[usize::from(at)].parent;
        }
        at == owner
    }
}
