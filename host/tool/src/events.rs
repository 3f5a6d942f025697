//! The events file: text, one event a line.

use crate::trouble::Trouble;
use reader::Names;
use samblokur::{EventBuilder, Kind, LookupId, NodeId, Records, Value};

/// An event as it was read.
pub struct Event {
    pub line: usize,
    pub text: String,
    pub builder: EventBuilder,
}

/// Reads a whole file. A value is read as the kind of its lookup.
pub fn read(file: &str, text: &str, records: &Records, names: &Names) -> Result<Vec<Event>, Trouble> {
    let mut events = Vec::new();
    for (line, raw) in (1..).zip(text.lines()) {
        let text = raw.split('#').next().unwrap_or("").trim();
        if text.is_empty() {
            continue;
        }
        let builder = event(text, records, names).map_err(|why| Trouble::Events {
            file: file.to_string(),
            line,
            why,
        })?;
        events.push(Event { line, text: text.to_string(), builder });
    }
    Ok(events)
}

fn event(text: &str, records: &Records, names: &Names) -> Result<EventBuilder, String> {
    if text == "nothing" {
        return Ok(EventBuilder::new());
    }
    text.split(';').try_fold(EventBuilder::new(), |event, part| entry(event, part.trim(), records, names))
}

fn entry(event: EventBuilder, text: &str, records: &Records, names: &Names) -> Result<EventBuilder, String> {
    let spaced = text.replace('=', " = ");
    let words: Vec<&str> = spaced.split_whitespace().collect();
    match words[..] {
        ["lookup", lookup, "unknown"] => Ok(event.unknown(LookupId(number(lookup, "lookup")?))),
        ["lookup", lookup, "=", value] => {
            let lookup = LookupId(number(lookup, "lookup")?);
            Ok(event.value(lookup, constant(value, lookup, records)?))
        }
        [name, "=", value] => {
            let lookup = names.lookup_named(name).ok_or_else(|| no_lookup(name, names))?;
            Ok(event.value(lookup, constant(value, lookup, records)?))
        }
        ["returned", node] => Ok(event.returned(returned(node, records, names)?)),
        [name, "unknown"] => {
            Ok(event.unknown(names.lookup_named(name).ok_or_else(|| no_lookup(name, names))?))
        }
        [] => Err("an entry is missing beside a semicolon".to_string()),
        _ => Err(format!(
            "{} is no entry; one is `lookup 0 = true`, `lookup 1 unknown`, `returned 3` or `nothing`, with names \
             in the place of `lookup 0` and `3` where the plan is text",
            quoted(text)
        )),
    }
}

fn no_lookup(name: &str, names: &Names) -> String {
    match names.lookups.is_empty() {
        true => format!("{} is no name of a lookup: the plan has none", quoted(name)),
        false => format!("{} is no lookup; the plan has {}", quoted(name), names.lookups.join(", ")),
    }
}

/// A node by its number, its name, or the end of its path.
fn returned(text: &str, records: &Records, names: &Names) -> Result<NodeId, String> {
    if text.bytes().next().is_some_and(|byte| byte.is_ascii_digit()) {
        return number(text, "node").map(NodeId);
    }
    match names.nodes_named(text, records)[..] {
        [node] => Ok(node),
        [] => Err(format!("{} is no number or name of a node", quoted(text))),
        [first, second, ..] => Err(format!(
            "{} is the name of {first} and of {second}; write the number, or a path as `Room.{text}`",
            quoted(text)
        )),
    }
}

fn number(text: &str, what: &str) -> Result<u16, String> {
    text.parse().map_err(|_| format!("{} is no number of a {what}", quoted(text)))
}

fn constant(text: &str, lookup: LookupId, records: &Records) -> Result<Value, String> {
    let kind = records.lookup(lookup).and_then(|record| record.kind());
    let Some(kind) = kind else {
        return Err(format!("the plan has no {lookup}; it has {} of them", records.counts().looks));
    };
    let value = match (kind, text) {
        (Kind::Bool, "true" | "True") => Some(Value::Bool(true)),
        (Kind::Bool, "false" | "False") => Some(Value::Bool(false)),
        (Kind::Bool, _) => None,
        (Kind::Int, _) => text.parse().ok().map(Value::Int),
        (Kind::Real, _) => text.parse().ok().filter(|real: &f64| real.is_finite()).map(Value::Real),
    };
    value.ok_or_else(|| format!("{lookup} is {kind}, and {} is no {kind}", quoted(text)))
}

/// A text of the file as a message may quote it.
fn quoted(text: &str) -> String {
    let short: String = text.chars().take(60).flat_map(char::escape_debug).collect();
    format!("`{short}`")
}
