//! The tour notices a reader that is wrong in one small way.

use reader::{PlainReader, read};
use samblokur_sys::text::{Reads, TextReport};
use texts::{MODEL, tour};

/// Which small thing is wrong.
#[derive(Clone, Copy)]
enum Wrong {
    /// 40 is counted to the last whole token.
    WholeTokens,
    /// Too little room is noticed before names and counts.
    RoomFirst,
    /// The image is written before the check.
    WrittenFirst,
    /// A byte is written beyond the image.
    Beyond,
    /// 42 has the place of the name's end.
    NameEnd,
    /// The length is told on a refusal.
    LengthTold,
}

impl Reads for Wrong {
    fn read(&self, text: &[u8], image: &mut [u8]) -> TextReport {
        let mut report = PlainReader.read(text, image);
        match (self, report.number) {
            (Wrong::WholeTokens, 40) => {
                let place = (report.place as usize).min(text.len());
                let inside =
                    text[..place].iter().rev().take_while(|byte| byte.is_ascii_alphanumeric()).count();
                report.place -= inside as u64;
            }
            (Wrong::RoomFirst, 3 | 42) if image.len() < 60_000 => (report.number, report.place) = (43, 0),
            (Wrong::WrittenFirst, 9..=11) => {
                if let Some(byte) = image.first_mut() {
                    *byte = 1;
                }
            }
            (Wrong::Beyond, 0) => {
                if let Some(byte) = image.get_mut(report.length as usize) {
                    *byte = 0;
                }
            }
            (Wrong::NameEnd, 42) => report.place += 1,
            (Wrong::LengthTold, 1..) => report.length = 44,
            _ => {}
        }
        report
    }
}

#[test]
fn wrong_readers_are_noticed() {
    let all = [
        Wrong::WholeTokens,
        Wrong::RoomFirst,
        Wrong::WrittenFirst,
        Wrong::Beyond,
        Wrong::NameEnd,
        Wrong::LengthTold,
    ];
    for wrong in all {
        assert!(tour(&wrong, &MODEL, 1, 3_000).is_err());
    }
}

#[test]
fn names_come_before_counts() {
    let nodes = "{ Command: nowhere(); }".repeat(300);
    let refused =
        read(format!("{{ NodeList: {{ {nodes} }} }}").as_bytes(), 0).expect_err("an undeclared name");
    assert_eq!((refused.number, refused.place), (42, 25));
}
