//! `check`: the verdict in words, with the record that breaks a rule shown readable.

use crate::source::load;
use crate::trouble::Trouble;
use crate::written::{contents, written};
use samblokur::{Body, Condition, EntryId, NodeRecord, Plan, Records, Refusal};
use std::fmt::{Display, Write};

/// The verdict; the status is the refusal's number.
pub fn check(file: &str, told: &mut String) -> Result<u8, Trouble> {
    let image = match load(file) {
        Ok(source) => source.image,
        Err(refused @ Trouble::Text { .. }) => {
            let _ = writeln!(told, "{refused}");
            return Ok(refused.status());
        }
        Err(trouble) => return Err(trouble),
    };
    match Plan::open(&image) {
        Ok(plan) => {
            let _ = writeln!(told, "{file} is admitted: {}.", contents(&plan.records()));
            Ok(0)
        }
        Err(refusal) => {
            let _ = writeln!(told, "{file} is refused with {} {}.", refusal.number(), refusal.name());
            let _ = writeln!(told, "  {refusal}");
            for line in shown(&image, refusal) {
                let _ = writeln!(told, "  {line}");
            }
            Ok(u8::try_from(refusal.number()).unwrap_or(70))
        }
    }
}

/// What the image holds where the refusal points.
fn shown(image: &[u8], refusal: Refusal) -> Vec<String> {
    let records = Records::new(image);
    match refusal {
        Refusal::Short => vec![length(image)],
        Refusal::Edition | Refusal::Count | Refusal::Layout => header(image, &records),
        Refusal::Tree(node) | Refusal::Node(node) => line(node, records.node(node)),
        Refusal::Kind(node) | Refusal::Reach(node) => {
            let mut lines = line(node, records.node(node));
            lines.extend(conditions(&records, records.node(node)));
            lines
        }
        Refusal::Variable(variable) => line(variable, records.variable(variable)),
        Refusal::Lookup(lookup) => line(lookup, records.lookup(lookup)),
        Refusal::Expression(entry) => line(entry, records.expression(entry)),
        Refusal::Deep(entry) => {
            let mut lines = line(entry, records.expression(entry));
            lines.push(format!("{entry}: {}", written(&records, entry)));
            lines
        }
        _ => Vec::new(),
    }
}

fn line(name: impl Display, record: Option<impl Display>) -> Vec<String> {
    record.map(|record| format!("{name}: {record}")).into_iter().collect()
}

fn header(image: &[u8], records: &Records) -> Vec<String> {
    let Some(header) = records.header() else { return Vec::new() };
    let names = ["edition", "nodes", "expressions", "variables", "lookups"];
    let places = ["nodes at", "expressions at", "variables at", "lookups at", "total length"];
    let all = names.iter().chain(&places).zip(header).map(|(name, number)| format!("{name} {number}"));
    vec![format!("header: {}", all.collect::<Vec<_>>().join(", ")), length(image)]
}

/// A file is read no further than shows that it is too long for 16-bit offsets.
fn length(image: &[u8]) -> String {
    if image.len() > 65535 {
        "it has over 65535 bytes".to_string()
    } else {
        format!("it has {} bytes", image.len())
    }
}

/// The expressions that a node names, written out.
fn conditions(records: &Records, node: Option<NodeRecord>) -> Vec<String> {
    let Some(node) = node else { return Vec::new() };
    let named = Condition::ALL.iter().filter_map(|&condition| {
        node.condition(condition).map(|entry| format!("{condition}: {}", written(records, entry)))
    });
    let value = (node.body() == Some(Body::Assignment))
        .then(|| format!("variable {} := {}", node.what, written(records, EntryId(node.value))));
    named.chain(value).collect()
}
