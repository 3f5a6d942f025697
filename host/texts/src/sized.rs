//! Texts of a given size, as a practice would write them, with comments and with more parentheses than are needed.

use std::fmt::Write;

/// An accepted text of about so many bytes, up to 200 KB: as many nodes as the entries allow, then longer ones.
pub fn sized(bytes: usize) -> Vec<u8> {
    let nodes = (bytes / 330).clamp(3, 180);
    let each = bytes / nodes;
    let mut text =
        String::from("Command fetch = 1;\nReal Lookup humidity;\nInteger Lookup revision;\n\nStore: {\n");
    text.push_str("    Integer: { current = 0; tries_of_the_scanner = 0; }\n    NodeList: {\n");
    let pairs = each / 24;
    let (open, close) = ("( ".repeat(pairs), " )".repeat(pairs));
    for number in 0..nodes {
        let from = text.len();
        let _ = writeln!(text, "        // Sheet {number} is marked as current once the air is dry.");
        let _ = writeln!(text, "        Mark_the_sheet_{number}: {{");
        let dry = format!("{open}LookupNow(humidity) <= 60.5{close}");
        let _ = writeln!(text, "            StartCondition: {dry} AND NOT tries_of_the_scanner > {number};");
        let _ = writeln!(text, "            Priority: {number};");
        while text.len() + 160 < from + each {
            let _ = writeln!(text, "            /* {} */", "a word on this sheet ".repeat(3));
        }
        let _ =
            writeln!(text, "            Assignment: current = tries_of_the_scanner + {number};\n        }}");
    }
    text.push_str("    }\n}\n");
    text.into_bytes()
}

/// The texts that ask most of a reader's stack: 2,048 entries, all operators pending; NOT upon NOT; a million `(`.
pub fn deepest() -> Vec<Vec<u8>> {
    let within =
        |expression: String| format!("{{ PreCondition: {expression}; NodeList: {{ }} }}").into_bytes();
    let pending = 1023;
    vec![
        within(format!("{}1{}", "1 + (".repeat(pending), ")".repeat(pending))),
        within(format!("{}true", "NOT ".repeat(2047))),
        within(format!("{}true{}", "NOT (".repeat(2047), ")".repeat(2047))),
        within(format!("{}true{}", "(".repeat(1_000_000), ")".repeat(1_000_000))),
        within("(".repeat(1_000_000)),
        "{NodeList:{".repeat(100_000).into_bytes(),
    ]
}
