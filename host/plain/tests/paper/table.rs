//! Small plans written by hand, and a turn table that keeps state, card and list between calls.

use plain::Plain;
use samblokur_sys::{Card, Counts, Executive, Report, State};

pub const NONE: u16 = 65535;
pub const BOOL: u8 = 0;
pub const INT: u8 = 1;
pub const REAL: u8 = 2;

/// Skip, Start, Pre, Inv, End, Post, Repeat in this order.
pub const SKIP: usize = 0;
pub const START: usize = 1;
pub const PRE: usize = 2;
pub const INV: usize = 3;
pub const END: usize = 4;
pub const POST: usize = 5;
pub const REPEAT: usize = 6;

/// The records of a plan, each as its bytes.
#[derive(Default)]
pub struct Records {
    pub nodes: Vec<[u8; 24]>,
    pub exprs: Vec<[u8; 16]>,
    pub vars: Vec<[u8; 16]>,
    pub looks: Vec<[u8; 2]>,
}

impl Records {
    pub fn list(mut self, parent: u16) -> Records {
        self.nodes.push(node(parent, 0, 0, NONE, NONE));
        self
    }

    pub fn command(mut self, parent: u16, number: u16) -> Records {
        self.nodes.push(node(parent, 1, 0, number, NONE));
        self
    }

    pub fn assignment(mut self, parent: u16, variable: u16, value: u16, priority: u16) -> Records {
        self.nodes.push(node(parent, 2, priority, variable, value));
        self
    }

    /// Gives the last node a condition.
    pub fn with(mut self, condition: usize, entry: u16) -> Records {
        let node = self.nodes.last_mut().expect("a node");
        node[6 + 2 * condition..8 + 2 * condition].copy_from_slice(&entry.to_le_bytes());
        self
    }

    pub fn entry(mut self, operator: u8, kind: u8, a: u16, b: u16, constant: i64) -> Records {
        let mut bytes = [0; 16];
        bytes[..2].copy_from_slice(&[operator, kind]);
        bytes[2..4].copy_from_slice(&a.to_le_bytes());
        bytes[4..6].copy_from_slice(&b.to_le_bytes());
        bytes[8..].copy_from_slice(&constant.to_le_bytes());
        self.exprs.push(bytes);
        self
    }

    pub fn variable(mut self, kind: u8, owner: u16, initial: i64) -> Records {
        let mut bytes = [0; 16];
        bytes[..2].copy_from_slice(&[kind, 1]);
        bytes[2..4].copy_from_slice(&owner.to_le_bytes());
        bytes[8..].copy_from_slice(&initial.to_le_bytes());
        self.vars.push(bytes);
        self
    }

    pub fn lookup(mut self, kind: u8) -> Records {
        self.looks.push([kind, 0]);
        self
    }

    pub fn image(&self) -> Vec<u8> {
        let counts = [self.nodes.len(), self.exprs.len(), self.vars.len(), self.looks.len()];
        let sizes = [24, 16, 16, 2];
        let mut header = vec![1];
        header.extend(counts);
        let mut at = 20;
        for (count, size) in counts.into_iter().zip(sizes) {
            header.push(at);
            at += count * size;
        }
        header.push(at);
        let mut image: Vec<u8> = header.iter().flat_map(|&n| (n as u16).to_le_bytes()).collect();
        image.extend(self.nodes.iter().flatten());
        image.extend(self.exprs.iter().flatten());
        image.extend(self.vars.iter().flatten());
        image.extend(self.looks.iter().flatten());
        image
    }
}

fn node(parent: u16, kind: u8, priority: u16, what: u16, value: u16) -> [u8; 24] {
    let mut bytes = [255; 24];
    bytes[..2].copy_from_slice(&parent.to_le_bytes());
    bytes[2..4].copy_from_slice(&[kind, 0]);
    bytes[4..6].copy_from_slice(&priority.to_le_bytes());
    bytes[20..22].copy_from_slice(&what.to_le_bytes());
    bytes[22..24].copy_from_slice(&value.to_le_bytes());
    bytes
}

/// A plan in the course of its turns.
pub struct Table {
    pub image: Vec<u8>,
    pub state: State,
    pub card: Card,
    pub list: Vec<u32>,
    pub next: usize,
}

impl Table {
    pub fn fresh(records: &Records) -> Table {
        let (image, mut state, mut card) = (records.image(), State::default(), Card::default());
        assert_eq!(Plain::fresh(&image, &mut state, &mut card, &mut Report::default()), 0);
        Table { image, state, card, list: vec![77; 64], next: 0 }
    }

    pub fn run(&mut self, budget: u16) -> Report {
        let mut report = Report::default();
        let (state, card) = (&mut self.state, &mut self.card);
        let number = Plain::run(&self.image, state, card, budget, &mut self.list, self.next, &mut report);
        assert_eq!(number, report.number);
        self.next = report.next;
        report
    }

    pub fn turn(&mut self, serial: u32, entries: &[(u8, u16, u64)], budget: u16) -> Report {
        let mut event: Vec<u8> = serial.to_le_bytes().to_vec();
        event.extend((entries.len() as u32).to_le_bytes());
        for &(form, index, value) in entries {
            event.extend([form, 0]);
            event.extend(index.to_le_bytes());
            event.extend(value.to_le_bytes());
        }
        let mut report = Report::default();
        let (state, card, list) = (&mut self.state, &mut self.card, &mut self.list);
        Plain::turn(&self.image, state, card, &event, budget, list, self.next, &mut report);
        self.next = report.next;
        report
    }

    /// A run with the ending Quiet after so many steps.
    pub fn quiet_after(&mut self, steps: u32) {
        let next = self.next;
        let report = self.run(100);
        self.is_quiet(&report, steps, next);
    }

    /// A turn with the ending Quiet after so many steps.
    pub fn quiet_turn(&mut self, serial: u32, entries: &[(u8, u16, u64)], steps: u32) {
        let next = self.next;
        let report = self.turn(serial, entries, 100);
        self.is_quiet(&report, steps, next);
        assert_eq!(self.card.serial, serial.wrapping_add(1));
    }

    fn is_quiet(&self, report: &Report, steps: u32, next: usize) {
        assert_eq!((report.number, report.ending, report.steps), (0, 1, steps));
        assert_eq!(self.card.phase, 1);
        assert!(report.next >= next);
    }

    pub fn places(&self, node: usize) -> (u8, u8, u8) {
        (self.state.status[node], self.state.outcome[node], self.state.failure[node])
    }

    pub fn variable(&self, v: usize) -> (u8, i64) {
        (self.state.vartags[v], self.state.varbits[v].cast_signed())
    }
}

/// The number and the record of a check's answer.
pub fn checked(image: &[u8]) -> (u32, u32) {
    let (mut counts, mut report) = (Counts::default(), Report::default());
    let number = Plain::check(image, &mut counts, &mut report);
    assert_eq!((number, report.ending), (report.number, u32::from(number == 0)));
    (number, report.record)
}
