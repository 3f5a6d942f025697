//! The texts that ask most of the reader's stack are read, or refused, in a thread of 256 KB.

use samblokur_sys::text::Reads;
use std::thread;
use texts::{MODEL, SUBJECT, deepest};

/// "stack under 256 KB for any text"
const MOST: usize = 256 * 1024;

#[test]
fn the_deepest_texts_are_read_within_the_stack() {
    let known: Vec<u32> = deepest().iter().map(|text| MODEL.read(text, &mut [0; 41108]).number).collect();
    let all = deepest();
    let mut image = vec![0; 41108];
    let reading = thread::Builder::new()
        .stack_size(MOST)
        .spawn(move || all.iter().map(|text| SUBJECT.read(text, &mut image).number).collect::<Vec<u32>>());
    let answers = reading.expect("a thread").join().expect("the reading ends");
    assert_eq!(answers, known);
}
