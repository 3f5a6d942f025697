//! An image that the reader made, written as text and read again, is the same bytes: under the names of its text,
//! and under names made of numbers.

use reader::{Names, read, text_of};
use samblokur::Records;
use texts::{accepted, sized};

#[test]
fn images_come_back() {
    for (text, image) in accepted(7, 3_000) {
        let reading = read(&text, 65536).expect("an accepted text");
        for names in [Names::of(&text, &reading.spans), Names::numbered(&Records::new(&image))] {
            let written = text_of(&image, &names);
            assert!(written.remarks.is_empty(), "{:?}\n{}", written.remarks, written.text);
            let again = read(written.text.as_bytes(), 65536);
            let again = again.unwrap_or_else(|refused| panic!("{refused:?}\n{}", written.text));
            assert!(
                again.image == image,
                "other bytes:\n{}\n{}",
                String::from_utf8_lossy(&text),
                written.text
            );
        }
    }
}

#[test]
fn bench_texts_have_their_size() {
    for bytes in [1000, 20_000, 200_000] {
        let text = sized(bytes);
        assert!(text.len().abs_diff(bytes) < bytes / 5, "{} bytes for {bytes}", text.len());
        assert!(read(&text, 65536).is_ok());
    }
}
