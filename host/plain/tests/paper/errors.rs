//! "Errors a sensible person would make", and other turns of the node rules.

use crate::table::{BOOL, END, INT, INV, NONE, POST, REAL, REPEAT, Records, SKIP, START, Table};

const WAITING: u8 = 1;
const EXECUTING: u8 = 2;
const FAILING: u8 = 4;
const FINISHED: u8 = 6;
const SUCCESS: u8 = 1;
const FAILURE: u8 = 2;

/// Entries 0: True, 1: False, 2: Unknown, 3: Bool lookup 0.
fn truths() -> Records {
    let plan = Records::default().lookup(BOOL).entry(0, BOOL, 0, 1, 1).entry(0, BOOL, 0, 1, 0);
    plan.entry(0, BOOL, 0, 0, 0).entry(2, BOOL, 0, 0, 0)
}

#[test]
fn the_last_writer_in_the_table_does_not_win() {
    let plan =
        Records::default().list(NONE).variable(INT, 0, 1).entry(0, INT, 0, 1, 10).entry(0, INT, 0, 1, 20);
    let mut table = Table::fresh(&plan.assignment(0, 0, 0, 3).assignment(0, 0, 1, 2));
    table.quiet_after(8);
    assert_eq!((table.variable(0), table.places(2)), ((2, 10), (FINISHED, FAILURE, 5)));
}

#[test]
fn an_unknown_invariant_is_no_failure() {
    let mut table = Table::fresh(&truths().list(NONE).with(INV, 2));
    table.quiet_after(4);
    assert_eq!(table.places(0), (FINISHED, SUCCESS, 0));
}

#[test]
fn a_repeat_that_is_false_or_unknown_ends() {
    for repeat in [1, 2] {
        let mut table = Table::fresh(&truths().list(NONE).with(REPEAT, repeat));
        table.quiet_after(4);
        assert_eq!(table.places(0), (FINISHED, SUCCESS, 0));
    }
}

#[test]
fn a_waiting_child_stays_under_a_finishing_parent() {
    let plan = truths().list(NONE).with(END, 3).command(0, 1).command(0, 2).with(START, 1);
    let mut table = Table::fresh(&plan);
    table.quiet_after(3);
    table.quiet_turn(0, &[(0, 0, 1)], 1);
    assert_eq!((table.places(0).0, table.places(2).0), (3, WAITING));
    table.quiet_turn(1, &[(2, 1, 0)], 4);
    assert_eq!((table.places(0), table.places(2).0), ((FINISHED, SUCCESS, 0), WAITING));
}

#[test]
fn skip_goes_before_start() {
    let mut table = Table::fresh(&truths().list(NONE).with(SKIP, 0).with(START, 0));
    table.quiet_after(1);
    assert_eq!(table.places(0), (FINISHED, 3, 0));
}

#[test]
fn post_is_read_before_the_write() {
    let plan = Records::default().variable(INT, 0, 1).entry(0, INT, 0, 1, 27).entry(1, INT, 0, 0, 0);
    let mut table = Table::fresh(&plan.entry(9, BOOL, 0, 1, 0).assignment(NONE, 0, 0, 0).with(POST, 2));
    table.quiet_after(3);
    assert_eq!((table.places(0), table.variable(0)), ((FINISHED, FAILURE, 2), (2, 27)));
}

#[test]
fn a_returned_command_fails_without_an_abort() {
    let plan = truths().list(NONE).with(INV, 3).command(0, 1).with(END, 1);
    let mut table = Table::fresh(&plan);
    table.quiet_after(3);
    table.quiet_turn(0, &[(2, 1, 0)], 0);
    assert_eq!((table.places(1).0, table.state.mark[1]), (EXECUTING, 1));
    let steps = table.turn(1, &[(0, 0, 0)], 2).steps;
    assert_eq!((steps, table.places(1), table.next), (2, (FAILING, FAILURE, 4), 1));
    table.quiet_after(4);
    assert_eq!((table.places(1), table.state.mark[1]), ((FINISHED, FAILURE, 4), 0));
}

/// A lone assignment of a real operator's value.
fn real(operator: u8, kind: u8, a: f64, b: f64) -> (u8, u64) {
    let constant = |number: f64| number.to_bits().cast_signed();
    let plan = Records::default().entry(0, REAL, 0, 1, constant(a)).entry(0, REAL, 0, 1, constant(b));
    let plan = plan.entry(operator, kind, 0, 1, 0).variable(kind, 0, 1).assignment(NONE, 0, 2, 0);
    let mut table = Table::fresh(&plan);
    table.quiet_after(3);
    (table.state.vartags[0], table.state.varbits[0])
}

#[test]
fn reals_are_ieee() {
    assert_eq!(real(9, BOOL, 0.0, -0.0), (1, 1));
    assert_eq!(real(10, BOOL, -0.0, 0.0), (1, 0));
    assert_eq!(real(11, BOOL, -0.0, 0.0), (1, 1));
    assert_eq!(real(12, REAL, 0.1, 0.2), (3, (0.1f64 + 0.2).to_bits()));
    assert_eq!(real(12, REAL, f64::MAX, f64::MAX), (0, 0));
    assert_eq!(real(13, REAL, 0.0, 0.0), (3, 0));
    assert_eq!(real(14, REAL, f64::MAX, -2.0), (0, 0));
}
