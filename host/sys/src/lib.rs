//! The C interface of include/samblokur.h as Rust sees it: its four records, its four calls and the
//! proved library behind them.
//!
//! This is the only crate of the workspace that says `unsafe`, and the only one that moves when the headers
//! do. Everything else speaks of an [`Executive`].

pub mod text;

use std::mem::{align_of, offset_of, size_of};

/// What a plan keeps between calls: the paper's 256 node places, 128 variable cells and 64 lookup cells.
///
/// A cell is a tag (0 Unknown, 1 Bool, 2 Int, 3 Real) with 64 bits; Unknown has bits 0, so equal states are
/// equal bytes.
#[repr(C)]
#[derive(Clone, Debug, PartialEq, Eq)]
pub struct State {
    /// 0 Inactive, 1 Waiting, 2 Executing, 3 Finishing, 4 Failing, 5 IterationEnded, 6 Finished.
    pub status: [u8; 256],
    /// 0 None, 1 Success, 2 Failure, 3 Skipped.
    pub outcome: [u8; 256],
    /// 0 none, 1 Pre, 2 Post, 3 Invariant, 4 Parent, 5 WriteLost.
    pub failure: [u8; 256],
    /// 1 where a command has returned and has not ended yet.
    pub mark: [u8; 256],
    /// The tags of the variables.
    pub vartags: [u8; 128],
    /// The bits of the variables.
    pub varbits: [u64; 128],
    /// The tags of the lookups.
    pub looktags: [u8; 64],
    /// The bits of the lookups.
    pub lookbits: [u64; 64],
}

impl Default for State {
    fn default() -> State {
        State {
            status: [0; 256],
            outcome: [0; 256],
            failure: [0; 256],
            mark: [0; 256],
            vartags: [0; 128],
            varbits: [0; 128],
            looktags: [0; 64],
            lookbits: [0; 64],
        }
    }
}

/// The turn card: the serial of the next event, and the phase.
#[repr(C)]
#[derive(Clone, Copy, Debug, Default, PartialEq, Eq)]
pub struct Card {
    /// The serial that the next event must carry.
    pub serial: u32,
    /// 0 Running, 1 Quiet.
    pub phase: u32,
}

/// How many records a plan image has of each sort.
#[repr(C)]
#[derive(Clone, Copy, Debug, Default, PartialEq, Eq)]
pub struct Counts {
    /// 1..256.
    pub nodes: u16,
    /// 0..2048.
    pub exprs: u16,
    /// 0..128.
    pub vars: u16,
    /// 0..64.
    pub looks: u16,
}

/// What a call answers beside the number it returns.
#[repr(C)]
#[derive(Clone, Copy, Debug, Default, PartialEq, Eq)]
pub struct Report {
    /// The paper's refusal number, 0 where nothing is refused.
    pub number: u32,
    /// The record or entry that the refusal names, else 0.
    pub record: u32,
    /// 0 refused; a run or a turn: 1 Quiet, 2 Spent; the other calls: 1 done.
    pub ending: u32,
    /// A run's or a turn's count of micro steps.
    pub steps: u32,
    /// A run's or a turn's next free place in the command list.
    pub next: usize,
}

// The layout that the header asserts on its side.
const _: () = {
    assert!(size_of::<State>() == 2752);
    assert!(align_of::<State>() == 8);
    assert!(offset_of!(State, status) == 0);
    assert!(offset_of!(State, outcome) == 256);
    assert!(offset_of!(State, failure) == 512);
    assert!(offset_of!(State, mark) == 768);
    assert!(offset_of!(State, vartags) == 1024);
    assert!(offset_of!(State, varbits) == 1152);
    assert!(offset_of!(State, looktags) == 2176);
    assert!(offset_of!(State, lookbits) == 2240);
    assert!(size_of::<Card>() == 8);
    assert!(offset_of!(Card, serial) == 0);
    assert!(offset_of!(Card, phase) == 4);
    assert!(size_of::<Counts>() == 8);
    assert!(offset_of!(Counts, nodes) == 0);
    assert!(offset_of!(Counts, exprs) == 2);
    assert!(offset_of!(Counts, vars) == 4);
    assert!(offset_of!(Counts, looks) == 6);
    assert!(size_of::<Report>() == 16 + size_of::<usize>());
    assert!(offset_of!(Report, number) == 0);
    assert!(offset_of!(Report, record) == 4);
    assert!(offset_of!(Report, ending) == 8);
    assert!(offset_of!(Report, steps) == 12);
    assert!(offset_of!(Report, next) == 16);
};

/// The four calls. Each returns the paper's refusal number, 0 where nothing is refused, and writes all of its
/// report on every path.
pub trait Executive {
    /// Checks a plan image; the counts are 0 when it is refused.
    fn check(image: &[u8], counts: &mut Counts, report: &mut Report) -> u32;

    /// Sets state and card to the plan's fresh start.
    fn fresh(image: &[u8], state: &mut State, card: &mut Card, report: &mut Report) -> u32;

    /// Runs to quiet under a step budget, writing command words from `start` on.
    fn run(
        image: &[u8],
        state: &mut State,
        card: &mut Card,
        budget: u16,
        list: &mut [u32],
        start: usize,
        report: &mut Report,
    ) -> u32;

    /// One call per report: the event enters, and the run begins.
    fn turn(
        image: &[u8],
        state: &mut State,
        card: &mut Card,
        event: &[u8],
        budget: u16,
        list: &mut [u32],
        start: usize,
        report: &mut Report,
    ) -> u32;
}

/// The proved library.
#[derive(Clone, Copy, Debug)]
pub struct Library;

unsafe extern "C" {
    fn samblokur_check(image: *const u8, image_len: usize, counts: *mut Counts, report: *mut Report) -> u32;

    fn samblokur_fresh(
        image: *const u8,
        image_len: usize,
        state: *mut State,
        card: *mut Card,
        report: *mut Report,
    ) -> u32;

    fn samblokur_run(
        image: *const u8,
        image_len: usize,
        state: *mut State,
        card: *mut Card,
        budget: u16,
        list: *mut u32,
        list_len: usize,
        start: usize,
        report: *mut Report,
    ) -> u32;

    fn samblokur_turn(
        image: *const u8,
        image_len: usize,
        state: *mut State,
        card: *mut Card,
        event: *const u8,
        event_len: usize,
        budget: u16,
        list: *mut u32,
        list_len: usize,
        start: usize,
        report: *mut Report,
    ) -> u32;
}

// SAFETY, for all four calls: every pointer comes from a reference or slice that lives through the call, the
// mutable ones are exclusive, each length is its slice's own, every bit pattern of the records is a value of
// its type, and the library keeps no pointer.
impl Executive for Library {
    fn check(image: &[u8], counts: &mut Counts, report: &mut Report) -> u32 {
        unsafe { samblokur_check(image.as_ptr(), image.len(), counts, report) }
    }

    fn fresh(image: &[u8], state: &mut State, card: &mut Card, report: &mut Report) -> u32 {
        unsafe { samblokur_fresh(image.as_ptr(), image.len(), state, card, report) }
    }

    fn run(
        image: &[u8],
        state: &mut State,
        card: &mut Card,
        budget: u16,
        list: &mut [u32],
        start: usize,
        report: &mut Report,
    ) -> u32 {
        let (words, room) = (list.as_mut_ptr(), list.len());
        unsafe { samblokur_run(image.as_ptr(), image.len(), state, card, budget, words, room, start, report) }
    }

    fn turn(
        image: &[u8],
        state: &mut State,
        card: &mut Card,
        event: &[u8],
        budget: u16,
        list: &mut [u32],
        start: usize,
        report: &mut Report,
    ) -> u32 {
        let (bytes, length) = (event.as_ptr(), event.len());
        let (words, room) = (list.as_mut_ptr(), list.len());
        let (plan, size) = (image.as_ptr(), image.len());
        unsafe { samblokur_turn(plan, size, state, card, bytes, length, budget, words, room, start, report) }
    }
}
