//! "Small plans with known ends" as texts, read, run by the plain executive, and held to document 01's ends; and
//! what docs/NOTATION.md says of single texts.

use plain::Plain;
use reader::{Refused, read};
use samblokur_sys::{Card, Executive, Report, State};

fn image(text: &str) -> Vec<u8> {
    read(text.as_bytes(), 65536).unwrap_or_else(|refused| panic!("{text}: {refused:?}")).image
}

fn refusal(text: &str) -> (u32, usize) {
    match read(text.as_bytes(), 65536) {
        Ok(_) => (0, 0),
        Err(Refused { number, place, .. }) => (number, place),
    }
}

/// A fresh start and a run with budget 100.
fn ran(text: &str) -> (State, Report) {
    let (image, mut report) = (image(text), Report::default());
    let (mut state, mut card) = (State::default(), Card::default());
    Plain::fresh(&image, &mut state, &mut card, &mut report);
    Plain::run(&image, &mut state, &mut card, 100, &mut [0; 8], 0, &mut report);
    (state, report)
}

#[test]
fn k1_to_k8_end_as_the_paper_says() {
    let (state, report) = ran(
        "Swap: { Integer: { x = 1; y = 2; } NodeList: { A: { Assignment: x = y; } B: { Assignment: y = x; } } }",
    );
    assert_eq!((report.ending, report.steps, state.varbits[0], state.varbits[1]), (1, 8, 2, 1));
    let two = |a, b| {
        format!(
            "{{ Integer: {{ x = 1; y = 2; }} NodeList: {{ A: {{ Priority: {a}; Assignment: x = 10; }} B: {{ Priority: {b}; Assignment: x = 20; }} }} }}"
        )
    };
    let (state, _) = ran(&two(5, 3));
    assert_eq!((state.varbits[0], state.failure[1], state.failure[2]), (10, 0, 5));
    let (state, _) = ran(&two(5, 5));
    assert_eq!((state.varbits[0], state.failure[1], state.failure[2]), (1, 5, 5));
    let (state, report) = ran("{ NodeList: { } }");
    assert_eq!((report.steps, state.outcome[0]), (4, 1));
    let (_, report) = ran("Command scan = 7; { Command: scan(); }");
    assert_eq!((report.steps, report.next), (1, 1));
    let (state, report) =
        ran("{ Integer: { x = 0; } NodeList: { { RepeatCondition: x < 3; Assignment: x = x + 1; } } }");
    assert_eq!((report.steps, state.varbits[0]), (14, 3));
    let (_, report) =
        ran("{ NodeList: { { Integer: { x = 0; } RepeatUntilCondition: 3 > x; Assignment: x = x + 1; } } }");
    assert_eq!((report.ending, report.steps), (2, 100));
    let (state, report) = ran("{ Integer: { x = 1; } PreCondition: false; Assignment: x = 10; }");
    assert_eq!((report.steps, state.failure[0]), (2, 1));
}

#[test]
fn the_page_is_kept() {
    assert_eq!(refusal(""), (40, 0));
    assert_eq!(refusal("{ Priority: 1; Priority: 2; NodeList: {} }"), (40, 17));
    assert_eq!(refusal("{ Priority: 1; PreCondition: true; Priority: 2; NodeList: {} }"), (40, 36));
    assert_eq!(refusal("Command Lookup = 1; {}"), (40, 14));
    assert_eq!(refusal("{ NodeList: {} } /"), (40, 18));
    assert_eq!(refusal("{ NodeList: {} } /x"), (40, 18));
    assert_eq!(refusal("{ NodeList: {} } x"), (40, 17));
    assert_eq!(refusal("{ NodeList: {} } /* x"), (40, 21));
    assert_eq!(refusal("{ NodeList: {} } // x"), (0, 0));
    assert_eq!(refusal("{ Command: go(); }"), (42, 11));
    assert_eq!(
        refusal("{ PreCondition: A.B.state == FAILING; NodeList: { A: { NodeList: {} } } }"),
        (42, 18)
    );
    assert_eq!(refusal("Command a = 1; Command a = 2; { Command: a(); }"), (42, 23));
    assert_eq!(refusal("{ PreCondition: 1 + true; NodeList: {} }"), (9, 2));
    assert_eq!(refusal("{ PreCondition: 1; NodeList: {} }"), (11, 0));
    assert_eq!(refusal("{ PreCondition: 1234567890123456.5 == 1.0; NodeList: {} }"), (40, 32));
    assert_eq!(refusal("{ PreCondition: 1. == 1.0; NodeList: {} }"), (40, 18));
    assert_eq!(refusal("{ Boolean: { a; } PreCondition: a == NOT a == a; NodeList: {} }"), (0, 0));
}

#[test]
fn no_text_is_too_deep() {
    let parens =
        |n: usize| format!("{{ PreCondition: {}true{}; NodeList: {{}} }}", "(".repeat(n), ")".repeat(n));
    assert_eq!(refusal(&parens(1_000_000)), (0, 0));
    assert_eq!(refusal(&"(".repeat(1_000_000)), (40, 0));
    assert_eq!(refusal(&format!("{{ PreCondition: {}", "(".repeat(1_000_000))).0, 40);
    assert_eq!(
        refusal(&format!("{{ PreCondition: {}true; NodeList: {{}} }}", "NOT ".repeat(1_000_000))),
        (3, 0)
    );
    assert_eq!(
        refusal(&format!("{{ PreCondition: {}true; NodeList: {{}} }}", "NOT ".repeat(2047))),
        (10, 12)
    );
    let pending =
        format!("{{ PreCondition: {}1{} == 1; NodeList: {{}} }}", "1+(".repeat(1022), ")".repeat(1022));
    assert_eq!(refusal(&pending), (10, 1022 + 12));
    let lists = |n: usize| format!("{}{}", "{NodeList:{".repeat(n), "}}".repeat(n));
    assert_eq!(refusal(&lists(16)), (0, 0));
    assert_eq!(refusal(&lists(17)), (41, 16 * 11));
    assert_eq!(refusal(&lists(300_000)), (41, 16 * 11));
    assert_eq!(refusal(&lists(300_000)[..599_999]), (40, 599_999));
}
