//! The unmarked small plans, and a plan or call for each refusal number.

use crate::table::{BOOL, INT, NONE, POST, PRE, Records, START, Table, checked};
use plain::Plain;
use samblokur_sys::{Executive, Report};

fn lists(count: u16) -> Vec<u8> {
    (1..count).fold(Records::default().list(NONE), |plan, _| plan.list(0)).image()
}

/// A chain of NOTs so deep.
fn chain(depth: u16) -> Records {
    let leaf = Records::default().list(NONE).entry(0, BOOL, 0, 1, 1);
    (1..depth).fold(leaf, |plan, i| plan.entry(6, BOOL, i - 1, 0, 0))
}

#[test]
fn sizes() {
    let smallest = lists(1);
    assert_eq!((smallest.len(), checked(&smallest)), (44, (0, 0)));
    assert_eq!(checked(&smallest[..19]), (1, 0));
    assert_eq!(checked(&lists(256)), (0, 0));
    assert_eq!(checked(&lists(257)), (3, 0));
    assert_eq!(checked(&chain(12).image()), (0, 0));
    assert_eq!(checked(&chain(13).image()), (10, 12));
}

#[test]
fn budget_nought_is_spent() {
    let mut table = Table::fresh(&Records::default().list(NONE));
    let report = table.run(0);
    assert_eq!((report.number, report.ending, report.steps, report.next), (0, 2, 0, 0));
    assert_eq!(table.card.phase, 0);
}

#[test]
fn headers() {
    let mut image = lists(1);
    image[0] = 2;
    assert_eq!(checked(&image), (2, 0));
    let mut image = lists(1);
    image[2] = 0;
    assert_eq!(checked(&image), (3, 0));
    let mut image = lists(1);
    image.push(0);
    assert_eq!(checked(&image), (4, 0));
}

#[test]
fn nodes() {
    assert_eq!(checked(&Records::default().list(0).image()), (5, 0));
    assert_eq!(checked(&Records::default().command(NONE, 1).list(0).image()), (5, 1));
    assert_eq!(checked(&Records::default().list(NONE).command(0, NONE).image()), (6, 1));
    assert_eq!(checked(&Records::default().list(NONE).with(PRE, 0).image()), (6, 0));
}

#[test]
fn records() {
    assert_eq!(checked(&Records::default().list(NONE).variable(INT, 1, 0).image()), (7, 0));
    assert_eq!(checked(&Records::default().list(NONE).variable(BOOL, 0, 2).image()), (7, 0));
    assert_eq!(checked(&Records::default().list(NONE).lookup(BOOL).lookup(3).image()), (8, 1));
    assert_eq!(checked(&Records::default().list(NONE).entry(6, BOOL, 0, 0, 0).image()), (9, 0));
    assert_eq!(checked(&Records::default().list(NONE).entry(15, BOOL, 0, 0, 0).image()), (9, 0));
}

#[test]
fn kinds_and_reach() {
    let number = Records::default().entry(0, INT, 0, 1, 1).list(NONE).with(POST, 0);
    assert_eq!(checked(&number.image()), (11, 0));
    let sister = Records::default().variable(BOOL, 1, 1).entry(1, BOOL, 0, 0, 0);
    assert_eq!(checked(&sister.list(NONE).list(0).list(0).with(PRE, 0).image()), (12, 2));
}

#[test]
fn events() {
    let plan = Records::default().list(NONE).command(0, 4).command(0, 5).lookup(BOOL);
    let mut table = Table::fresh(&plan);
    assert_eq!(table.turn(0, &[], 100).number, 20);
    table.quiet_after(3);
    let mut told = |serial, entries: &[(u8, u16, u64)]| {
        let report = table.turn(serial, entries, 0);
        (report.number, report.record)
    };
    assert_eq!(told(1, &[]), (22, 0));
    assert_eq!(told(0, &[(2, 1, 0), (2, 0, 0)]), (23, 1));
    assert_eq!(told(0, &[(0, 0, 1), (1, 0, 0)]), (24, 1));
    assert_eq!(told(0, &[(0, 0, 2)]), (23, 0));
    assert_eq!(told(0, &[(2, 1, 0)]), (0, 0));
    assert_eq!((table.card.serial, table.card.phase, table.state.mark[1]), (1, 0, 1));
    table.run(100);
    assert_eq!((table.turn(1, &[(2, 2, 0), (2, 1, 0)], 100).number, table.card.serial), (25, 1));
}

#[test]
fn shape() {
    let mut table = Table::fresh(&Records::default().list(NONE));
    table.quiet_after(4);
    let (state, card, mut report) = (&mut table.state, &mut table.card, Report::default());
    for event in [&[0; 7][..], &[0, 0, 0, 0, 1, 0, 0, 0], &[0, 0, 0, 0, 0, 0, 1, 0]] {
        assert_eq!(Plain::turn(&table.image, state, card, event, 100, &mut [7], 1, &mut report), 21);
        assert_eq!((report.steps, report.next), (0, 1));
    }
}

#[test]
fn serials_wrap() {
    let mut table = Table::fresh(&Records::default().list(NONE));
    table.quiet_after(4);
    table.card.serial = u32::MAX;
    table.quiet_turn(u32::MAX, &[], 0);
    assert_eq!(table.card.serial, 0);
}

#[test]
fn kept_states() {
    let broken: [fn(&mut Table); 6] = [
        |table| table.card.phase = 2,
        |table| table.card.phase = 1,
        |table| table.state.status[0] = 0,
        |table| table.state.mark[0] = 1,
        |table| table.state.status[9] = 1,
        |table| table.state.varbits[3] = 1,
    ];
    for breaking in broken {
        let mut table = Table::fresh(&Records::default().list(NONE));
        breaking(&mut table);
        let before = (table.state.clone(), table.card);
        let report = table.run(100);
        assert_eq!((report.number, report.steps), (30, 0));
        assert!(before == (table.state, table.card));
    }
}

#[test]
fn places_and_room() {
    let mut table = Table::fresh(&Records::default().list(NONE).command(0, 1).command(0, 2));
    table.next = 65;
    let report = table.run(100);
    assert_eq!((report.number, report.steps, report.next), (31, 0, 65));
    table.next = 63;
    let report = table.run(100);
    assert_eq!((report.number, report.ending, report.steps, report.next), (32, 0, 2, 63));
    assert_eq!((table.list[63], table.card.phase), (77, 0));
    table.next = 62;
    table.quiet_after(1);
    assert_eq!(table.list[61..], [77, 2, 4]);
}

#[test]
fn places_and_room_of_a_turn() {
    let plan =
        Records::default().lookup(BOOL).entry(2, BOOL, 0, 0, 0).list(NONE).command(0, 1).with(START, 0);
    let mut table = Table::fresh(&plan);
    table.next = 65;
    assert_eq!((table.turn(0, &[], 100).number, table.card.serial), (31, 0));
    table.next = 0;
    table.quiet_after(2);
    table.next = 64;
    let report = table.turn(0, &[(0, 0, 1)], 100);
    assert_eq!((report.number, report.ending, report.steps, report.next), (32, 0, 0, 64));
    assert_eq!((table.card.serial, table.card.phase, table.state.lookbits[0]), (1, 0, 1));
    table.next = 63;
    table.quiet_after(1);
    assert_eq!(table.list[62..], [77, 2]);
}
