//! Texts with the number and place of their answers, a line each: `number place text`. The definitions of
//! crates/notation give the same answers.

use reader::PlainReader;
use samblokur_sys::text::Reads;

#[test]
fn the_answers_are_those_of_the_definitions() {
    let lines: Vec<&str> = include_str!("vectors.txt").lines().collect();
    assert!(lines.len() > 100);
    for line in lines {
        let mut parts = line.splitn(3, ' ');
        let mut number = || parts.next().and_then(|number| number.parse::<u64>().ok()).expect("a number");
        let (number, place) = (number(), number());
        let text = parts.next().unwrap_or("");
        let report = PlainReader.read(text.as_bytes(), &mut [0; 3000]);
        assert_eq!((u64::from(report.number), report.place), (number, place), "{text}");
    }
}
