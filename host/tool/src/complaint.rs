//! A refusal of a text, told with its line, a caret and what could be done.

use crate::kinds;
use crate::said::{Place, Said, quoted};
use reader::{Lead, Refused, Space, Span, Undeclared, Why};

/// The lines of a complaint; the first is `file:line:column: what`.
pub fn complaint(file: &str, text: &[u8], refused: &Refused) -> String {
    let said = match &refused.why {
        Why::Text(word, expected) => of_text(text, refused.place, word, expected),
        Why::Comment(comment) => of_comment(text, comment),
        Why::Level(node) => Said::new("this node lies in level 17", node.clone())
            .hint("nodes lie in at most 16 levels; the outermost is level 1"),
        Why::Undeclared(undeclared) => of_undeclared(text, undeclared),
        Why::Twice(space, name, first) => {
            let place = Place::of(text, first.start);
            Said::new(format!("{} declared twice", quoted(text, name)), name.clone()).hint(format!(
                "the first {} of this name is declared in line {}",
                space_word(*space),
                place.line
            ))
        }
        Why::Count(counts) => of_counts(counts),
        Why::Room(length) => Said::new(format!("the image has {length} bytes, over the room for it"), 0..0),
        Why::Image(reading) => kinds::said(text, refused, reading),
    };
    said.told(file, text, refused.number)
}

fn of_text(text: &[u8], place: usize, word: &Span, expected: &[Lead]) -> Said {
    let reach = place - word.start;
    let could = |leads: &mut dyn Iterator<Item = &Lead>| {
        leads.map(|lead| lead.to_string()).collect::<Vec<_>>().join("  ")
    };
    if word.is_empty() {
        let said = Said::new("the text ends too early", word.clone());
        return said.hint(format!("what could stand here:  {}", could(&mut expected.iter())));
    }
    let said = Said::new(format!("{} cannot stand here", quoted(text, word)), word.clone()).reach(reach);
    if expected.is_empty() {
        return said.hint("the plan has ended before it");
    }
    let said = if reach > 0 && reach < word.len() {
        let token = &text[word.clone()];
        let mut goes_on = expected.iter().filter(|lead| lead.reach(token) == reach);
        said.hint(format!(
            "after {} could come:  {}",
            quoted(text, &(word.start..place)),
            could(&mut goes_on)
        ))
    } else {
        said
    };
    let said = match special(&text[word.clone()], reach, expected) {
        Some(hint) => said.hint(hint),
        None => said,
    };
    said.hint(format!("what could stand here:  {}", could(&mut expected.iter())))
}

const ATTRIBUTES: [&str; 9] = [
    "SkipCondition",
    "StartCondition",
    "PreCondition",
    "InvariantCondition",
    "EndCondition",
    "PostCondition",
    "RepeatCondition",
    "RepeatUntilCondition",
    "Priority",
];

/// Two words that a writer of plans may wonder at.
fn special(word: &[u8], reach: usize, expected: &[Lead]) -> Option<&'static str> {
    let is_attribute = ATTRIBUTES.iter().any(|attribute| attribute.as_bytes() == word);
    let is_word = word.first().is_some_and(u8::is_ascii_alphabetic);
    if is_attribute && expected.contains(&Lead::The("NodeList")) {
        Some("a node has each condition and its priority once at most; Repeat and RepeatUntil are one")
    } else if is_word && reach == word.len() && expected.contains(&Lead::Name) {
        Some("it is a reserved word, and no name")
    } else {
        None
    }
}

fn of_comment(text: &[u8], comment: &Span) -> Said {
    let is_begun = comment.len() > 1;
    let what = if is_begun { "this comment does not end" } else { "'/' begins no comment" };
    let first = if is_begun { comment.start..comment.start + 2 } else { comment.clone() };
    let hint =
        if is_begun { "it ends with */" } else { "there is no division; comments are /* .. */ and // .." };
    debug_assert!(first.end <= text.len(), "a comment is of the text");
    Said::new(what, first).hint(hint)
}

fn of_undeclared(text: &[u8], undeclared: &Undeclared) -> Said {
    let Undeclared { space, name, elsewhere, .. } = undeclared;
    let word = String::from_utf8_lossy(&text[name.clone()]);
    let said = Said::new(format!("undeclared name {}", quoted(text, name)), name.clone());
    let where_to = match space {
        Space::Command => "no command of this name is declared before the plan",
        Space::Lookup => "no lookup of this name is declared before the plan",
        Space::Variable => "neither this node nor one above it declares a variable of this name",
        Space::Node => "no node of this name is to be found from here",
    };
    let hint = match (space, nearest(text, undeclared)) {
        (Space::Variable, _) if elsewhere.contains(&Space::Lookup) => {
            format!("it is a lookup: write LookupNow({word})")
        }
        (Space::Variable, _) if elsewhere.contains(&Space::Node) => {
            format!("it is a node: ask for its state, as {word}.state == FINISHED")
        }
        (Space::Lookup, _) if elsewhere.contains(&Space::Variable) => {
            format!("it is a variable: write {word} alone")
        }
        (_, Some(other)) if text[other.clone()] == text[name.clone()] => {
            format!("{where_to}; one elsewhere has it")
        }
        (_, Some(other)) => format!("{where_to}; is it {}?", quoted(text, other)),
        (_, None) => where_to.to_string(),
    };
    said.hint(hint)
}

/// The declared name that is at most two letters away.
fn nearest<'u>(text: &[u8], undeclared: &'u Undeclared) -> Option<&'u Span> {
    let name = &text[undeclared.name.clone()];
    let near = undeclared.declared.iter().filter_map(|other| {
        let steps = distance(name, &text[other.clone()]);
        (steps <= 2 && steps < name.len()).then_some((steps, other))
    });
    near.min_by_key(|(steps, _)| *steps).map(|(_, other)| other)
}

fn of_counts(counts: &[usize; 4]) -> Said {
    let names = ["nodes", "entries of expressions", "variables", "lookups"];
    let over = counts.iter().zip([256, 2048, 128, 64]).zip(names).filter(|((count, most), _)| *count > most);
    let over: Vec<String> =
        over.map(|((count, most), name)| format!("{count} {name}, where at most {most} fit")).collect();
    Said::new(format!("the plan has {}", over.join(", and ")), 0..0)
}

fn space_word(space: Space) -> &'static str {
    match space {
        Space::Command => "command",
        Space::Lookup => "lookup",
        Space::Variable => "variable",
        Space::Node => "node",
    }
}

/// How many letters must be changed, dropped or put in to make one name the other; both are cut at 40 letters.
fn distance(a: &[u8], b: &[u8]) -> usize {
    let (a, b) = (&a[..a.len().min(40)], &b[..b.len().min(40)]);
    let mut row: Vec<usize> = (0..=b.len()).collect();
    for (i, x) in a.iter().enumerate() {
        let mut corner = row[0];
        row[0] = i + 1;
        for (j, y) in b.iter().enumerate() {
            let changed = corner + usize::from(!x.eq_ignore_ascii_case(y));
            corner = row[j + 1];
            row[j + 1] = changed.min(corner + 1).min(row[j] + 1);
        }
    }
    row[b.len()]
}
