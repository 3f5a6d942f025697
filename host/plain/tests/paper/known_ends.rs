//! "Small plans with known ends": K1 to K10, worked out from the paper. Each starts fresh with budget 100.

use crate::table::{BOOL, INT, INV, NONE, PRE, REPEAT, Records, Table};

const FINISHED: u8 = 6;
const SUCCESS: u8 = 1;
const FAILURE: u8 = 2;

/// A list that owns x = 1 and y = 2, with entries 0: x, 1: y.
fn x_and_y() -> Records {
    let owner = Records::default().list(NONE).variable(INT, 0, 1).variable(INT, 0, 2);
    owner.entry(1, INT, 0, 0, 0).entry(1, INT, 1, 0, 0)
}

#[test]
fn k1_two_variables_change_places() {
    let mut table = Table::fresh(&x_and_y().assignment(0, 0, 1, 0).assignment(0, 1, 0, 0));
    table.quiet_after(8);
    assert_eq!((table.variable(0), table.variable(1)), ((2, 2), (2, 1)));
    assert_eq!(table.places(0), (FINISHED, SUCCESS, 0));
}

/// K1 with children x := 10 and x := 20 of the given priorities.
fn two_writers(first: u16, second: u16) -> Table {
    let plan = x_and_y().entry(0, INT, 0, 1, 10).entry(0, INT, 0, 1, 20);
    Table::fresh(&plan.assignment(0, 0, 2, first).assignment(0, 0, 3, second))
}

#[test]
fn k2_the_greater_priority_writes() {
    let mut table = two_writers(5, 3);
    table.quiet_after(8);
    assert_eq!(table.variable(0), (2, 10));
    assert_eq!(table.places(1), (FINISHED, SUCCESS, 0));
    assert_eq!(table.places(2), (FINISHED, FAILURE, 5));
}

#[test]
fn k3_a_tie_writes_nothing() {
    let mut table = two_writers(5, 5);
    table.quiet_after(8);
    assert_eq!(table.variable(0), (2, 1));
    assert_eq!(table.places(1), (FINISHED, FAILURE, 5));
    assert_eq!(table.places(2), (FINISHED, FAILURE, 5));
}

#[test]
fn k4_a_childless_list() {
    let mut table = Table::fresh(&Records::default().list(NONE));
    table.quiet_after(4);
    assert_eq!(table.places(0), (FINISHED, SUCCESS, 0));
}

#[test]
fn k5_a_lone_command() {
    let mut table = Table::fresh(&Records::default().command(NONE, 7));
    table.quiet_after(1);
    assert_eq!((table.list[0], table.next), (0, 1));
    table.quiet_turn(0, &[(2, 0, 0)], 2);
    assert_eq!(table.places(0), (FINISHED, SUCCESS, 0));
    assert_eq!((table.next, table.list[1]), (1, 77));
}

/// A list and its child x := x + 1 with Repeat x < 3; `owner` owns x = 0.
fn counting(owner: u16) -> Table {
    let plan = Records::default().list(NONE).variable(INT, owner, 0).entry(1, INT, 0, 0, 0);
    let plan = plan.entry(0, INT, 0, 1, 1).entry(12, INT, 0, 1, 0).entry(0, INT, 0, 1, 3);
    Table::fresh(&plan.entry(10, BOOL, 0, 3, 0).assignment(0, 0, 2, 0).with(REPEAT, 4))
}

#[test]
fn k6_repeating_while_true() {
    let mut table = counting(0);
    table.quiet_after(14);
    assert_eq!(table.variable(0), (2, 3));
}

#[test]
fn k7_a_repeating_node_that_owns_its_count() {
    let mut table = counting(1);
    let report = table.run(100);
    assert_eq!((report.number, report.ending, report.steps), (0, 2, 100));
    assert_eq!(table.card.phase, 0);
}

#[test]
fn k8_pre_false() {
    let plan = Records::default().variable(INT, 0, 5).entry(0, BOOL, 0, 1, 0).entry(0, INT, 0, 1, 9);
    let mut table = Table::fresh(&plan.assignment(NONE, 0, 1, 0).with(PRE, 0));
    table.quiet_after(2);
    assert_eq!(table.places(0), (FINISHED, FAILURE, 1));
    assert_eq!(table.variable(0), (2, 5));
}

#[test]
fn k9_an_invariant_on_a_lookup() {
    let plan = Records::default().lookup(BOOL).entry(2, BOOL, 0, 0, 0);
    let mut table = Table::fresh(&plan.list(NONE).with(INV, 0).command(0, 1));
    table.quiet_after(3);
    assert_eq!((table.list[0], table.next), (2, 1));
    table.quiet_turn(0, &[(0, 0, 0)], 2);
    assert_eq!((table.list[1], table.next), (3, 2));
    table.quiet_turn(1, &[(2, 1, 0)], 4);
    assert_eq!(table.places(0), (FINISHED, FAILURE, 3));
    assert_eq!(table.places(1), (FINISHED, FAILURE, 4));
}

/// A lone assignment of a variable by the last entry.
fn worked_out(plan: Records, kind: u8) -> (u8, i64) {
    let last = (plan.exprs.len() - 1) as u16;
    let mut table = Table::fresh(&plan.variable(kind, 0, 1).assignment(NONE, 0, last, 0));
    table.quiet_after(3);
    table.variable(0)
}

#[test]
fn k10_overflow_is_unknown_and_false_wins() {
    let sum = Records::default().entry(0, INT, 0, 1, i64::MAX).entry(0, INT, 0, 1, 1).entry(12, INT, 0, 1, 0);
    assert_eq!(worked_out(sum, INT), (0, 0));
    let both = Records::default().entry(0, BOOL, 0, 1, 0).entry(0, BOOL, 0, 0, 0).entry(7, BOOL, 0, 1, 0);
    assert_eq!(worked_out(both, BOOL), (1, 0));
}
