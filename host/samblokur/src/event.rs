//! The bytes of events.

use crate::{LookupId, NodeId, Value};

/// Gathers what happened into an event.
///
/// ```
/// use samblokur::{EventBuilder, LookupId, NodeId};
///
/// let event = EventBuilder::new().value(LookupId(0), true).unknown(LookupId(1)).returned(NodeId(3));
/// assert_eq!(event.bytes(0).len(), 8 + 3 * 12);
/// ```
#[derive(Clone, Debug, Default)]
pub struct EventBuilder {
    entries: Vec<[u8; 12]>,
}

impl EventBuilder {
    /// An event that tells nothing yet.
    pub fn new() -> EventBuilder {
        EventBuilder::default()
    }

    /// A lookup has this value; `Value::Unknown` is the same as [`EventBuilder::unknown`].
    pub fn value(self, lookup: LookupId, value: impl Into<Value>) -> EventBuilder {
        match value.into() {
            Value::Unknown => self.unknown(lookup),
            value => self.entry(0, lookup.0, value.bits()),
        }
    }

    /// A lookup is not known any more.
    pub fn unknown(self, lookup: LookupId) -> EventBuilder {
        self.entry(1, lookup.0, 0)
    }

    /// A command has returned.
    pub fn returned(self, node: NodeId) -> EventBuilder {
        self.entry(2, node.0, 0)
    }

    /// The event's bytes under a serial. More than 128 entries are refused (21 Shape).
    pub fn bytes(&self, serial: u32) -> Vec<u8> {
        let count = u16::try_from(self.entries.len()).unwrap_or(u16::MAX);
        let mut bytes = serial.to_le_bytes().to_vec();
        bytes.extend(count.to_le_bytes());
        bytes.extend([0; 2]);
        bytes.extend(self.entries.iter().flatten());
        bytes
    }

    /// "form 8, spare 8, index 16, value 64".
    fn entry(mut self, form: u8, index: u16, value: u64) -> EventBuilder {
        let mut entry = [0; 12];
        entry[0] = form;
        entry[2..4].copy_from_slice(&index.to_le_bytes());
        entry[4..].copy_from_slice(&value.to_le_bytes());
        self.entries.push(entry);
        self
    }
}
