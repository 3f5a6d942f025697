//! 200,000 calls to both executives; every refusal number, ending and code is met at least 100 times.

use differ::{Model, Subject, tour};

#[test]
fn the_executives_agree() {
    let tally = match tour::<Subject, Model>(2026, 200_000) {
        Ok(tally) => tally,
        Err(difference) => panic!("{difference}"),
    };
    println!("{tally}");
    assert!(tally.calls >= 200_000);
    assert!(tally.rarest() >= 100, "something is met too rarely:\n{tally}");
}
