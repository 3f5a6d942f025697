//! The tool on plans as text: the example texts' ends, what is said of a text that is refused, and the way from text
//! to image and back.

mod outside;

use outside::{example, said, scratch, tool};
use samblokur::{Condition, NodeId, PlanBuilder};
use std::fs;

/// What is told of a run with budget 100.
fn ran(text: &str, events: Option<&str>) -> String {
    let text = example(&format!("texts/{text}.plx"));
    match events {
        None => said(&["run", &text, "--budget", "100"]),
        Some(events) => said(&["run", &text, "--budget", "100", "--events", events]),
    }
}

/// Each of these is told.
fn tells(told: &str, all: &[&str]) {
    for one in all {
        assert!(told.contains(one), "{one:?} is not told:\n{told}");
    }
}

#[test]
fn k1_to_k9_end_as_the_paper_says() {
    tells(&ran("k1", None), &["8 steps, Quiet", "x: 1 → 2", "y: 2 → 1", "Swap is Finished: Success"]);
    tells(
        &ran("k2", None),
        &[
            "8 steps, Quiet",
            "x: 1 → 10",
            "  B: Inactive → Waiting → Executing → IterationEnded → Finished (Failure, WriteLost)",
        ],
    );
    let k3 = ran("k3", None);
    assert_eq!((k3.matches("WriteLost").count(), k3.contains("x:")), (2, false), "{k3}");
    tells(&ran("k4", None), &["4 steps, Quiet", "at the end node 0 is Finished: Success"]);
    let returned = scratch("k5.events", b"returned 0\n");
    tells(
        &ran("k5", Some(&returned)),
        &["1 step, Quiet", "step 1: issued command scan of node 0", "2 steps, Quiet", "Finished: Success"],
    );
    tells(&ran("k6", None), &["14 steps, Quiet", "x: 0 → 3"]);
    tells(&ran("k7", None), &["100 steps, Spent"]);
    tells(&ran("k8", None), &["2 steps, Quiet", "Finished: Failure, Pre"]);
    let off = scratch("k9.events", b"power = false\nreturned Scan\n");
    tells(
        &ran("k9", Some(&off)),
        &[
            "3 steps, Quiet",
            "issued command scan of Scan",
            "2 steps, Quiet",
            "aborted command scan of Scan",
            "4 steps, Quiet",
            "node 0 is Finished: Failure, Invariant",
        ],
    );
}

#[test]
fn the_stories_end_well() {
    tells(
        &ran("sheets", None),
        &[
            "current: 1 → 27",
            "MarkB: Inactive → Waiting → Executing → IterationEnded → Finished (Failure, WriteLost)",
        ],
    );
    let events = |name: &str| example(&format!("events/{name}.events"));
    let told = ran("sheet", Some(&events("sheet")));
    tells(
        &told,
        &[
            "event 0 (humidity = 45.5; returned Fetch): 2 steps, Quiet\n  step 2: issued command scan of Scan\n",
            "current: 2 → 27",
            "at the end Sheet is Finished: Success",
        ],
    );
    let told = ran("fetch-scan-stamp-mark", Some(&events("fetch-scan-stamp-mark")));
    tells(
        &told,
        &[
            "event 3 (sharpness = 0.93; revision = 27; returned Scan): 3 steps",
            "current: 2 → 27",
            "at the end Sheet is Finished: Success",
        ],
    );
    let told = ran("fetch-scan-stamp-mark", Some(&events("damp-air")));
    tells(&told, &["aborted command fetch of Fetch", "at the end Sheet is Finished: Failure, Invariant"]);
    let told = ran("red-rock", Some(&events("red-rock")));
    tells(
        &told,
        &[
            "haveRR: False → True",
            "issued command RoverStop of StopDrive",
            "DriveToRedRock1 is Finished: Success",
        ],
    );
    let told = ran("red-rock-or-10m", Some(&events("ten-metres")));
    tells(&told, &["goalDist: False → True", "DriveRRorDist is Finished: Success"]);
}

/// A text, the refusal's number, and what is told of it.
const REFUSED: [(&str, i32, &[&str]); 14] = [
    (
        "Command Scan = 1;\n{ Command: Scann(); }",
        42,
        &[
            ":2:12: undeclared name 'Scann'\n",
            "  2 | { Command: Scann(); }\n    |            ^~~~~\n",
            "is it 'Scan'?",
        ],
    ),
    (
        "Real Lookup humidity;\n{ PreCondition: humidity > 45.0; NodeList: {} }",
        42,
        &["it is a lookup: write LookupNow(humidity)\n"],
    ),
    (
        "A: { NodeList: { B: { PreCondition: A; NodeList: {} } } }",
        42,
        &["it is a node: ask for its state, as A.state == FINISHED\n"],
    ),
    ("{ Integer: { x; }\n Real: { x; } NodeList: {} }", 42, &[":2:10: 'x' declared twice\n", "in line 1"]),
    (
        "Real Lookup humidity;\n{ PreCondition: LookupNow(humidity) > 45; NodeList: {} }",
        9,
        &[":2:17: 45 is an Integer and humidity a Real: write 45.0\n"],
    ),
    (
        "{ Real: { x; } Assignment: x = -3; }",
        11,
        &[":1:32: -3 is an Integer and x a Real: write -3.0\n", "^~\n"],
    ),
    (
        "{ StartCondition: 1 + 1; NodeList: {} }",
        11,
        &[":1:19: 1 + 1 is an Integer, and a condition is a Boolean\n"],
    ),
    ("{ StartCondition: NOT 1; NodeList: {} }", 9, &["NOT takes a Boolean, and 1 is an Integer\n"]),
    (
        "{ Priority: 1; Priority: 2; NodeList: {} }",
        40,
        &[
            ":1:16: 'Priority' cannot stand here\n",
            "               ~~^\n",
            "after 'Pr' could come:  PreCondition\n",
            "once at most",
        ],
    ),
    (
        "{ Boolean: { state; } NodeList: {} }",
        40,
        &["'state' cannot stand here", "it is a reserved word, and no name"],
    ),
    ("{ NodeList: {}", 40, &[":1:15: the text ends too early\n", "what could stand here:  }\n"]),
    ("{ NodeList: {} } /* the end", 40, &[":1:18: this comment does not end\n"]),
    ("{ NodeList: {} } x", 40, &[":1:18: 'x' cannot stand here\n", "the plan has ended before it"]),
    ("", 40, &[":1:1: the text ends too early\n"]),
];

#[test]
fn refusals_are_told_at_their_place() {
    for (i, (text, number, all)) in REFUSED.iter().enumerate() {
        let file = scratch(&format!("refused-{i}.plx"), text.as_bytes());
        for command in ["run", "show"] {
            let answer = tool(&[command, &file]);
            let told = String::from_utf8_lossy(&answer.stderr).into_owned();
            assert_eq!(answer.status.code(), Some(*number), "{text}\n{told}");
            assert!(told.starts_with(&file), "{told}");
            tells(&told, all);
        }
        let answer = tool(&["check", &file]);
        assert_eq!(answer.status.code(), Some(*number));
        tells(&String::from_utf8_lossy(&answer.stdout), all);
    }
}

#[test]
fn levels_and_counts_are_told() {
    let deep = scratch("deep.plx", format!("{}{}", "{NodeList:{\n".repeat(17), "}}".repeat(17)).as_bytes());
    let answer = tool(&["check", &deep]);
    assert_eq!(answer.status.code(), Some(41));
    tells(&String::from_utf8_lossy(&answer.stdout), &[":17:1: this node lies in level 17\n"]);
    let many = format!("{{ NodeList: {{ {} }} }}", "{ NodeList: {} }".repeat(256));
    let answer = tool(&["check", &scratch("many.plx", many.as_bytes())]);
    assert_eq!(answer.status.code(), Some(3));
    tells(&String::from_utf8_lossy(&answer.stdout), &["the plan has 257 nodes, where at most 256 fit"]);
}

#[test]
fn from_text_to_image_and_back() {
    for name in fs::read_dir(example("texts")).expect("the examples") {
        let text = name.expect("a file").path().to_string_lossy().into_owned();
        let image = scratch("made.plan", b"");
        assert_eq!(tool(&["read", &text, "-o", &image]).status.code(), Some(0), "{text}");
        let made = fs::read(&image).expect("an image");
        for shown in [said(&["show", &image]), said(&["show", &text])] {
            assert!(!shown.contains("own bytes"), "{shown}");
            let again = scratch("again.plan", b"");
            let written = scratch("again.plx", shown.as_bytes());
            assert_eq!(tool(&["read", &written, "-o", &again]).status.code(), Some(0), "{shown}");
            assert!(fs::read(&again).expect("an image") == made, "{shown}");
        }
    }
    let image = example("plans/drawer.plan");
    assert_eq!(tool(&["read", &image, "-o", &scratch("not.plan", b"")]).status.code(), Some(64));
}

#[test]
fn a_byte_order_mark_is_passed_over() {
    let marked = scratch("marked.plx", b"\xEF\xBB\xBF{ Command: go(); }");
    let answer = tool(&["run", &marked]);
    assert_eq!(answer.status.code(), Some(42));
    tells(&String::from_utf8_lossy(&answer.stderr), &[":1:12: undeclared name 'go'\n"]);
    assert_eq!(tool(&["check", &scratch("wide.plx", b"\xFF\xFE{\0")]).status.code(), Some(66));
}

#[test]
fn events_by_name_that_are_not_understood() {
    let plan = example("texts/fetch-scan-stamp-mark.plx");
    for (i, text) in
        ["humidty = 1.0", "humidity = true", "returned Scann", "power unknown"].iter().enumerate()
    {
        let events = scratch(&format!("unnamed-{i}.events"), text.as_bytes());
        let answer = tool(&["run", &plan, "--events", &events]);
        assert_eq!(answer.status.code(), Some(65), "{text}");
        assert!(String::from_utf8_lossy(&answer.stderr).contains("line 1: "), "{text}");
    }
}

#[test]
fn pictures_have_names() {
    let picture = scratch("names.svg", b"");
    said(&["run", &example("texts/sheets.plx"), "--svg", &picture]);
    let drawn = fs::read_to_string(picture).expect("a picture");
    tells(&drawn, &["MarkAA: sets current", "Store: list", "current: 1 → 27"]);
}

#[test]
fn no_text_makes_it_panic() {
    let whole = fs::read(example("texts/fetch-scan-stamp-mark.plx")).expect("an example");
    for at in (0..whole.len()).step_by(23) {
        let mut bytes = whole.clone();
        bytes[at] = b"{}();.=\xC3\n/"[at % 10];
        for (name, bytes) in [("changed.plx", &bytes[..]), ("cut.plx", &whole[..at])] {
            let file = scratch(name, bytes);
            for command in ["check", "show", "run"] {
                assert_ne!(tool(&[command, &file]).status.code(), Some(101), "{command} with byte {at}");
            }
        }
    }
}

/// What `show` says of an image before the text.
fn remarks(plan: &PlanBuilder) -> String {
    let told = said(&["show", &scratch("shared.plan", &plan.image().expect("a small plan"))]);
    told.lines().filter(|line| line.starts_with("//")).skip(1).collect::<Vec<_>>().join("\n")
}

/// Lists below each other, each with a condition on sums of sums of one entry.
fn sums(lists: u16, conditions: &[Condition]) -> PlanBuilder {
    let mut plan = PlanBuilder::new();
    plan.add_list(None);
    let mut sum = plan.constant(1);
    for _ in 0..10 {
        sum = plan.add(sum, sum);
    }
    let equal = plan.eq(sum, sum);
    for list in 0..lists {
        if list > 0 {
            plan.add_list(NodeId(list - 1));
        }
        for &condition in conditions {
            plan.condition(NodeId(list), condition, equal);
        }
    }
    plan
}

#[test]
fn images_without_a_text_say_so() {
    assert!(remarks(&sums(1, &[Condition::Pre])).ends_with("written out, it is refused with 3 Count."));
    assert!(remarks(&sums(9, Condition::ALL)).contains("too many to be written out"));
    assert!(
        remarks(&sums(17, &[])).contains("(an entry is unused): written out, it is refused with 41 Level.")
    );
    let mut plan = PlanBuilder::new();
    plan.add_list(None);
    plan.add_list(NodeId(0));
    plan.add_command(NodeId(0), 3);
    plan.add_command(NodeId(1), 4);
    assert!(remarks(&plan).contains("No text has this image's own bytes: the nodes are out of text order."));
}
