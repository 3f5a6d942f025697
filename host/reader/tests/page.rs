//! docs/NOTATION.md and the reader say the same: its examples are read, its reserved words are those that are no
//! names, and every word of its grammar is reserved.

use reader::read;
use std::collections::BTreeSet;

const PAGE: &str = include_str!("../../../docs/NOTATION.md");

/// The lines of an indented block, from the one that begins so.
fn block(first: &str) -> Vec<&'static str> {
    let lines = PAGE.lines().skip_while(|line| !line.trim_start().starts_with(first));
    lines.take_while(|line| line.starts_with("    ")).collect()
}

/// Whether a word may be a command's name.
fn is_name(word: &str) -> bool {
    read(format!("Command {word} = 1; {{ NodeList: {{ }} }}").as_bytes(), 65536).is_ok()
}

#[test]
fn the_first_plan_is_read() {
    let text = block("Command fetch").join("\n");
    assert!(read(text.as_bytes(), 65536).is_ok(), "{text}");
}

#[test]
fn reserved_words_are_no_names() {
    let reserved: BTreeSet<&str> =
        block("Command Lookup Boolean").iter().flat_map(|line| line.split_whitespace()).collect();
    assert_eq!(reserved.len(), 47);
    assert!(reserved.iter().all(|word| !is_name(word)));
    let table = PAGE
        .lines()
        .skip_while(|line| !line.starts_with("| Plan |"))
        .take_while(|line| line.starts_with('|'));
    for line in table {
        // The second cell is the notation's own.
        let cell = line.replace("\\|", " ").split('|').nth(2).unwrap_or("").to_string();
        for word in cell
            .split('`')
            .skip(1)
            .step_by(2)
            .flat_map(|quoted| quoted.split_whitespace().map(str::to_string).collect::<Vec<_>>())
        {
            let is_word = word.bytes().all(|byte| byte.is_ascii_alphabetic() || byte == b'_');
            assert!(!is_word || reserved.contains(word.as_str()), "{word} is not reserved");
            assert!(!is_word || !is_name(&word), "{word} is a name");
        }
    }
    assert!(["INF", "Statement", "state1", "not", "True", "DIV"].into_iter().all(is_name));
}
