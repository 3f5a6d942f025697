//! A picture of a run: a row a node, a column a micro step, coloured by status.

use crate::paint::{Mark, colour, escaped};
use crate::telling::{changes, name, upshot};
use crate::turn::{Step, Turn};
use reader::Names;
use samblokur::{NodeId, Outcome, Plan, Records, Session, Status, Word};
use std::fmt::Write;

/// Columns that a picture shows at most; the text tells the rest.
const MOST: usize = 300;

const CELL: usize = 22;
const GAP: usize = 12;
const TOP: usize = 76;
const MARGIN: usize = 16;
/// A letter's width, by which texts get their room.
const LETTER: usize = 7;
/// How far a label is moved in for each node above it.
const INDENT: usize = 12;
/// The room that the legend needs.
const LEAST_WIDTH: usize = 780;

/// Columns of one turn, with the title above them, the number of the first one, and the line below the picture.
struct Group {
    title: String,
    note: Option<String>,
    first: usize,
    columns: Vec<Column>,
}

/// The statuses after a step, and the marks of what it did.
struct Column {
    statuses: Vec<u8>,
    marks: Vec<(NodeId, Mark)>,
}

/// The picture so far.
pub struct Picture<'a> {
    title: String,
    records: Records<'a>,
    names: &'a Names,
    nodes: u16,
    groups: Vec<Group>,
    upshots: Vec<String>,
    /// Columns taken, one also by a turn without steps.
    filled: usize,
    left_out: usize,
}

impl<'a> Picture<'a> {
    pub fn new(title: String, plan: Plan<'a>, names: &'a Names) -> Picture<'a> {
        Picture {
            title,
            records: plan.records(),
            names,
            nodes: plan.counts().nodes,
            groups: Vec::new(),
            upshots: Vec::new(),
            filled: 0,
            left_out: 0,
        }
    }

    /// Adds a turn's columns; the first turn begins with the fresh state.
    pub fn add(&mut self, turn: &Turn, session: &Session) {
        self.upshots = (0..self.nodes).map(|node| came_of(session, NodeId(node))).collect();
        let mut columns = Vec::new();
        if self.groups.is_empty() {
            let statuses = turn.before.status[..usize::from(self.nodes)].to_vec();
            columns.push(Column { statuses, marks: Vec::new() });
        }
        let room = MOST.saturating_sub(self.filled).min(turn.steps.len());
        columns.extend(turn.steps[..room].iter().map(column));
        let taken = columns.len().max(1);
        if self.filled < MOST {
            let title = turn.cause.split(" (").next().unwrap_or("").to_string();
            let first = usize::from(!self.groups.is_empty());
            self.groups.push(Group { title, note: note(turn, session, self.names), first, columns });
        }
        self.filled += taken;
        self.left_out += turn.steps.len() - room;
    }

    /// The picture's text.
    pub fn svg(&self) -> String {
        let (mut body, mut x) = (String::new(), self.label_room());
        for group in &self.groups {
            self.draw_group(&mut body, group, x);
            x += width(group) + GAP;
        }
        self.draw_labels(&mut body, x);
        let bottom = self.draw_notes(&mut body, row(self.nodes) + 28);
        let longest = self.upshots.iter().map(String::len).max().unwrap_or(0);
        let (w, h) = ((x + LETTER * longest).max(LEAST_WIDTH) + MARGIN, bottom + MARGIN);
        format!(
            r##"<svg xmlns="http://www.w3.org/2000/svg" width="{w}" height="{h}" viewBox="0 0 {w} {h}" font-family="DejaVu Sans, Verdana, sans-serif" font-size="12">
<rect width="{w}" height="{h}" fill="#fff"/>
<text x="{MARGIN}" y="28" font-size="16">{}</text>
{body}</svg>
"##,
            escaped(&self.title)
        )
    }

    fn label_room(&self) -> usize {
        let label = |node| INDENT * self.depth(node) + LETTER * name(&self.records, self.names, node).len();
        2 * MARGIN + (0..self.nodes).map(|node| label(NodeId(node))).max().unwrap_or(0)
    }

    /// How many nodes are above, as far as labels are moved in.
    fn depth(&self, node: NodeId) -> usize {
        let above = |node: &NodeId| self.records.node(*node).and_then(|record| record.parent());
        std::iter::successors(above(&node), above).take(12).count()
    }

    /// The nodes' names on the left, moved in under their parents, and what came of them on the right.
    fn draw_labels(&self, body: &mut String, right: usize) {
        for (node, upshot) in (0..self.nodes).map(NodeId).zip(&self.upshots) {
            let (x, y) = (MARGIN + INDENT * self.depth(node), row(node.0) + 15);
            let _ = writeln!(
                body,
                r#"<text x="{x}" y="{y}">{}</text>"#,
                escaped(&name(&self.records, self.names, node))
            );
            let ink = if upshot.starts_with(Outcome::Failure.word()) { "#b00020" } else { "#000" };
            let _ = writeln!(body, r#"<text x="{right}" y="{y}" fill="{ink}">{}</text>"#, escaped(upshot));
        }
    }

    fn draw_group(&self, body: &mut String, group: &Group, x: usize) {
        let _ = writeln!(body, r#"<text x="{x}" y="{}">{}</text>"#, TOP - 24, escaped(&group.title));
        for node in 0..self.nodes {
            draw_row(body, group, (node, &self.names.node(NodeId(node))), x);
        }
        if group.columns.is_empty() {
            let _ =
                writeln!(body, r##"<text x="{x}" y="{}" font-size="9" fill="#555">no step</text>"##, TOP - 8);
        }
        let bottom = row(self.nodes);
        for (i, column) in group.columns.iter().enumerate() {
            let (left, middle) = (x + i * CELL, x + i * CELL + CELL / 2);
            let number = group.first + i;
            let at = TOP - 8;
            let _ = writeln!(
                body,
                r##"<text x="{middle}" y="{at}" font-size="9" text-anchor="middle" fill="#555">{number}</text>"##
            );
            let _ = writeln!(body, r##"<path d="M{left} {TOP}V{bottom}" stroke="#fff"/>"##);
            for &(node, mark) in &column.marks {
                let _ = writeln!(body, "{}", mark.shape(middle, row(node.0) + CELL / 2 - 1));
            }
        }
    }

    /// The legend and a line for each turn; the last line's place.
    fn draw_notes(&self, body: &mut String, top: usize) -> usize {
        let (mut x, mut y) = (MARGIN, top);
        for &status in Status::ALL {
            let fill = colour(status.number());
            let _ = writeln!(body, r#"<rect x="{x}" y="{}" width="14" height="14" fill="{fill}"/>"#, y - 12);
            let _ = writeln!(body, r#"<text x="{}" y="{y}">{status}</text>"#, x + 20);
            x += 36 + 8 * status.word().len();
        }
        (x, y) = (MARGIN, y + 26);
        for (mark, word) in Mark::ALL {
            let _ = writeln!(body, "{}", mark.shape(x + 7, y - 5));
            let _ = writeln!(body, r#"<text x="{}" y="{y}">{word}</text>"#, x + 20);
            x += 40 + 8 * word.len();
        }
        let cells = "A cell has the status after the step above it; 0 is the fresh state.".to_string();
        let cut = (self.left_out > 0).then(|| format!("The last {} steps are not shown.", self.left_out));
        let notes = self.groups.iter().filter_map(|group| group.note.clone());
        y += 10;
        for text in [cells].into_iter().chain(notes).chain(cut) {
            y += 18;
            let _ = writeln!(body, r#"<text x="{MARGIN}" y="{y}">{}</text>"#, escaped(&text));
        }
        y
    }
}

/// A node's outcome and failure, or that it has not come to any.
fn came_of(session: &Session, node: NodeId) -> String {
    match session.status(node) {
        Some(Status::Inactive | Status::Waiting) => "not started".to_string(),
        _ => upshot(session, node),
    }
}

/// What a turn was caused by, and the variables that it changed.
fn note(turn: &Turn, session: &Session, names: &Names) -> Option<String> {
    let told: Vec<String> = [turn.cause.clone()].into_iter().chain(changes(turn, session, names)).collect();
    (told.len() > 1 || turn.cause.contains('(')).then(|| told.join("; "))
}

fn column(step: &Step) -> Column {
    let writes =
        step.writes.iter().map(|write| (write.node, if write.lost { Mark::Lost } else { Mark::Wrote }));
    let words = step.words.iter().map(|&word| match word {
        Word::Issue(node) => (node, Mark::Issued),
        Word::Abort(node) => (node, Mark::Aborted),
    });
    Column { statuses: step.statuses.clone(), marks: writes.chain(words).collect() }
}

/// Neighbouring cells of one status are one box, so that long runs stay small.
fn draw_row(body: &mut String, group: &Group, (node, called): (u16, &str), x: usize) {
    let place = usize::from(node);
    let mut at = 0;
    for cells in group.columns.chunk_by(|a, b| a.statuses[place] == b.statuses[place]) {
        let status = cells[0].statuses[place];
        let (left, wide, fill) = (x + at * CELL, cells.len() * CELL, colour(status));
        let (y, tall) = (row(node), CELL - 2);
        let word = Status::of(status).map_or("", Status::word);
        let _ = writeln!(
            body,
            r#"<rect x="{left}" y="{y}" width="{wide}" height="{tall}" fill="{fill}"><title>{called}: {word}</title></rect>"#
        );
        at += cells.len();
    }
}

fn row(node: u16) -> usize {
    TOP + usize::from(node) * CELL
}

/// A group is as wide as its columns, and at least as its title.
fn width(group: &Group) -> usize {
    (group.columns.len() * CELL).max(LETTER * group.title.len() + 8)
}
