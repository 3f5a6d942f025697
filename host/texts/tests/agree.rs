//! 200,000 texts to both readers; every answer that reading can give is met at least 100 times.

use texts::{MODEL, SUBJECT, tour};

#[test]
fn the_readers_agree() {
    let tally = match tour(&SUBJECT, &MODEL, 2026, 200_000) {
        Ok(tally) => tally,
        Err(difference) => panic!("{difference}"),
    };
    println!("{tally}");
    assert!(tally.texts >= 200_000);
    assert_eq!(tally.others, 0, "a number that no text may get");
    assert!(tally.rarest() >= 100, "something is met too rarely:\n{tally}");
}
