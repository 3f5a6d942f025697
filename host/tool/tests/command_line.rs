//! The tool from outside: what it says, its exit statuses, and that no file makes it panic.

mod outside;

use outside::{example, said, scratch, tool};
use std::fs;

/// The exit status of a Rust program that panicked.
const PANIC: i32 = 101;

fn status(arguments: &[&str]) -> i32 {
    tool(arguments).status.code().expect("no signal")
}

#[test]
fn verdicts() {
    assert_eq!(status(&["check", &example("plans/scan.plan")]), 0);
    assert_eq!(status(&["check", &example("plans/out-of-reach.plan")]), 12);
    let told = said(&["check", &example("plans/out-of-reach.plan")]);
    assert!(told.contains("12 Reach") && told.contains("Pre: variable 0"), "{told}");
    assert_eq!(status(&["show", &example("plans/out-of-reach.plan")]), 12);
    assert_eq!(status(&["run", &example("plans/out-of-reach.plan")]), 12);
}

#[test]
fn an_image_as_text() {
    let told = said(&["show", &example("plans/scan.plan")]);
    assert!(told.contains("N7: {\n                    StartCondition: v1 == 3;\n"), "{told}");
    assert!(told.contains("// No text has this image's own bytes: an entry is shared.\n"), "{told}");
    let told = said(&["show", &example("plans/sheets.plan")]);
    assert!(!told.contains("own bytes"), "{told}");
}

#[test]
fn turns() {
    let picture = scratch("scan.svg", b"");
    let (plan, events) = (example("plans/scan.plan"), example("events/scan.events"));
    let told = said(&["run", &plan, "--events", &events, "--svg", &picture]);
    assert!(told.contains("event 2 (lookup 2 = 0.93; lookup 3 = 27; returned 2): 15 steps, Quiet"), "{told}");
    assert!(told.contains("node 4: Waiting → Executing → IterationEnded → Finished (Failure, WriteLost)"));
    assert!(told.contains("variable 0: 2 → 27"));
    let drawn = fs::read_to_string(picture).expect("a picture");
    assert!(drawn.starts_with("<svg ") && drawn.ends_with("</svg>\n"));
}

#[test]
fn a_spent_turn_is_busy() {
    let (plan, events) = (example("plans/drawer.plan"), example("events/drawer.events"));
    assert_eq!(status(&["run", &plan, "--events", &events]), 0);
    assert_eq!(status(&["run", &plan, "--events", &events, "--budget", "2"]), 20);
    assert!(said(&["run", &plan, "--budget", "0"]).starts_with("fresh start: 0 steps, Spent"));
}

#[test]
fn the_demo() {
    let told = said(&["demo"]);
    let sheets: Vec<&str> = told.lines().filter(|line| line.contains("Current sheet")).collect();
    let [higher, equal, old, exchanged] = sheets[..] else { panic!("{told}") };
    assert!(higher.contains("AA (27)") && equal.contains("A (1)"));
    assert!(old.contains("B (2)") && exchanged.contains("AA (27)"));
}

#[test]
fn helps_and_mistakes() {
    for command in ["check", "show", "run", "read", "demo"] {
        assert!(said(&[command, "--help"]).starts_with(&format!("samblokur {command}")));
    }
    assert_eq!(status(&["--help"]), 0);
    assert_eq!(status(&["fly"]), 64);
    assert_eq!(status(&["run", "a.plan", "--budget", "65536"]), 64);
    assert_eq!(status(&["check", "no such file"]), 66);
    let wrong = tool(&["check"]);
    assert_eq!(String::from_utf8_lossy(&wrong.stderr).lines().count(), 1);
}

#[test]
fn events_that_are_not_understood() {
    let plan = example("plans/scan.plan");
    for (i, text) in
        ["lookup 0 = maybe", "lookup 9 = true", "lookup 3 = 0.5", "returned x", "lookup 0 = true;"]
            .iter()
            .enumerate()
    {
        let file = scratch(&format!("wrong-{i}.events"), text.as_bytes());
        let answer = tool(&["run", &plan, "--events", &file]);
        assert_eq!(answer.status.code(), Some(65), "{text}");
        assert!(String::from_utf8_lossy(&answer.stderr).contains("line 1: "), "{text}");
    }
    let unawaited = scratch("unawaited.events", b"# nothing issued yet\nreturned 7\n");
    assert_eq!(status(&["run", &plan, "--events", &unawaited]), 25);
}

#[test]
fn no_file_makes_it_panic() {
    let whole = fs::read(example("plans/scan.plan")).expect("an example");
    for at in (0..whole.len()).step_by(7) {
        let mut bytes = whole.clone();
        bytes[at] ^= 1 << (at % 8);
        let changed = scratch("changed.plan", &bytes);
        let cut = scratch("cut.plan", &whole[..at]);
        for file in [&changed, &cut] {
            for command in ["check", "show", "run"] {
                assert_ne!(status(&[command, file]), PANIC, "{command} with byte {at} changed or last");
            }
        }
        let events = scratch("bytes.events", &bytes);
        assert_ne!(status(&["run", &example("plans/scan.plan"), "--events", &events]), PANIC);
    }
}
