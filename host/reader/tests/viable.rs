//! 40 by brute force: for all texts up to some length over a few bytes, a prefix counts exactly if some continuation
//! is found that makes it a text of the grammar. The continuations are ends of words, then a few whole endings.

use reader::PlainReader;
use samblokur_sys::text::Reads;

/// The reader that is tried.
const READER: PlainReader = PlainReader;

/// A place in a text, the bytes that are tried there, how many of them, and the continuations.
struct Place {
    head: &'static str,
    bytes: &'static [u8],
    most: usize,
    words: &'static [&'static str],
    ends: &'static [&'static str],
}

/// What ends a word, and what ends a comment wherever in it the text stands.
const WORD_ENDS: &[&str] = &["", "\n"];
const COMMENT_ENDS: &[&str] = &["*/", "/", "/\n"];

/// Where the reader refuses with 40; nothing where the text is of the grammar.
fn reach(text: &[u8]) -> Option<usize> {
    let report = READER.read(text, &mut []);
    (report.number == 40).then_some(report.place as usize)
}

impl Place {
    fn continuations(&self, begins: &[&str]) -> Vec<Vec<u8>> {
        let tails = |word: &'static str| (0..=word.len()).map(move |from| &word[from..]);
        let mut tails: Vec<&str> = self.words.iter().flat_map(|word| tails(word)).collect();
        tails.sort_unstable();
        tails.dedup();
        let words = tails.iter().flat_map(|tail| self.ends.iter().map(move |end| format!("{tail}{end}")));
        let words: Vec<String> = words.collect();
        let all =
            begins.iter().flat_map(|end| words.iter().map(move |word| format!("{end}{word}").into_bytes()));
        all.collect()
    }

    /// Tries every text; how many were tried.
    fn try_all(&self) -> usize {
        let continuations = [self.continuations(WORD_ENDS), self.continuations(COMMENT_ENDS)];
        let mut viable = vec![self.head.as_bytes().to_vec()];
        let mut tried = 0;
        for _ in 0..self.most {
            let longer = viable
                .iter()
                .flat_map(|text| self.bytes.iter().map(move |&byte| [&text[..], &[byte]].concat()));
            let longer: Vec<Vec<u8>> = longer.collect();
            tried += longer.len();
            viable = longer.into_iter().filter(|text| self.is_viable(text, &continuations)).collect();
        }
        tried
    }

    /// Whether some continuation is found; the reader must say so too.
    fn is_viable(&self, text: &[u8], [after_words, after_comments]: &[Vec<Vec<u8>>; 2]) -> bool {
        let goes_on = |more: &Vec<u8>| reach(&[text, more].concat()).is_none();
        let found =
            after_words.iter().any(goes_on) || (text.contains(&b'/') && after_comments.iter().any(goes_on));
        let shown = String::from_utf8_lossy(text);
        match reach(text) {
            None => assert!(found, "{shown:?} is of the grammar, and no continuation is found"),
            Some(place) if found => assert_eq!(place, text.len(), "{shown:?}"),
            Some(place) => assert_eq!(place, text.len() - 1, "{shown:?}"),
        }
        if !found {
            // What comes later changes nothing.
            for byte in self.bytes {
                assert_eq!(reach(&[text, &[*byte]].concat()), Some(text.len() - 1), "{shown:?} and {byte}");
            }
        }
        found
    }
}

const ATTRIBUTES: &[&str] = &[
    "SkipCondition:",
    "StartCondition:",
    "PreCondition:",
    "InvariantCondition:",
    "EndCondition:",
    "PostCondition:",
    "RepeatCondition:",
    "RepeatUntilCondition:",
    "ExitCondition:",
    "Priority:",
    "NodeList:",
    "Command:",
    "Assignment:",
    "Boolean:",
    "Integer:",
    "Real:",
];

const PLACES: &[Place] = &[
    Place {
        head: "",
        bytes: b"{}a:CoB /*\n",
        most: 5,
        words: &["Command", "Boolean", "Lookup"],
        ends: &[
            "",
            "NodeList:{}}",
            "{NodeList:{}}",
            "x:{NodeList:{}}",
            ":{NodeList:{}}",
            " c=1;{NodeList:{}}",
            "Lookup c;{NodeList:{}}",
            "c;{NodeList:{}}",
            "=1;{NodeList:{}}",
            "c=1;{NodeList:{}}",
            "c:{NodeList:{}}",
            ":a();}",
            "a();}",
            "();}",
            ":{}NodeList:{}}",
            "{}NodeList:{}}",
        ],
    },
    Place {
        head: "{Priority:1;",
        bytes: b"PreoEsINC:; /*",
        most: 4,
        words: ATTRIBUTES,
        ends: &["true;NodeList:{}}", "{}}", "1;NodeList:{}}", "{}NodeList:{}}", "a();}", "a=1;}"],
    },
    Place {
        head: "{Priority:1;PreCondition:1;",
        bytes: b"PreosR:",
        most: 4,
        words: ATTRIBUTES,
        ends: &["true;NodeList:{}}", "{}}", "1;NodeList:{}}", "{}NodeList:{}}", "a();}", "a=1;}"],
    },
    Place {
        head: "{RepeatCondition:1;",
        bytes: b"RepatUl:",
        most: 7,
        words: ATTRIBUTES,
        ends: &["true;NodeList:{}}", "{}}", "1;NodeList:{}}", "{}NodeList:{}}", "a();}", "a=1;}"],
    },
    Place {
        head: "{PreCondition:",
        bytes: b"()a1.!=-<; ",
        most: 4,
        words: &["state", "==", "&&"],
        ends: &[
            "",
            ";NodeList:{}}",
            "1;NodeList:{}}",
            "1);NodeList:{}}",
            "1));NodeList:{}}",
            "1)));NodeList:{}}",
            "1))));NodeList:{}}",
            ");NodeList:{}}",
            "));NodeList:{}}",
            ")));NodeList:{}}",
            "))));NodeList:{}}",
            "NodeList:{}}",
            "NONE;NodeList:{}}",
            "state==FAILING;NodeList:{}}",
            "state==FAILING);NodeList:{}}",
            "state==FAILING));NodeList:{}}",
            "state==FAILING)));NodeList:{}}",
            ".state==FAILING;NodeList:{}}",
            ".state==FAILING);NodeList:{}}",
            ".state==FAILING));NodeList:{}}",
        ],
    },
    Place {
        head: "{PreCondition:a ",
        bytes: b"&|<>=!.OANDR+*-/;) ",
        most: 3,
        words: &[
            "AND",
            "OR",
            "&&",
            "||",
            "<=",
            "==",
            "Assignment:a=1;}",
            "NodeList:{}}",
            "Real:{}NodeList:{}}",
            "RepeatCondition:1;NodeList:{}}",
            "RealBits(1)",
        ],
        ends: &[
            "1;NodeList:{}}",
            " 1;NodeList:{}}",
            ";NodeList:{}}",
            "NodeList:{}}",
            "state==FAILING;NodeList:{}}",
            ".state==FAILING;NodeList:{}}",
            "{}}",
            "",
            ".state==FAILING;NodeList:{}}",
        ],
    },
    Place {
        head: "{PreCondition:a.",
        bytes: b"staeoufilrT= ",
        most: 4,
        words: &["state", "outcome", "failure", "failureType", "=="],
        ends: &[
            "==FAILING;NodeList:{}}",
            "==NONE;NodeList:{}}",
            "FAILING;NodeList:{}}",
            "NONE;NodeList:{}}",
            ".state==FAILING;NodeList:{}}",
        ],
    },
    Place {
        head: "{PreCondition:a.outcome==",
        bytes: b"NOESKIPUFAL;",
        most: 4,
        words: &["NONE", "SUCCESS", "FAILURE", "SKIPPED", "PRE", "INTERRUPTED"],
        ends: &[";NodeList:{}}", "NodeList:{}}"],
    },
    Place {
        head: "{PreCondition:a.failureType!=",
        bytes: b"NOEPRSTIVAW;",
        most: 4,
        words: &["NONE", "PRE", "POST", "INVARIANT", "PARENT", "WRITE_LOST", "SKIPPED"],
        ends: &[";NodeList:{}}", "NodeList:{}}"],
    },
    Place {
        head: "Command c=",
        bytes: b"06543;.a",
        most: 6,
        words: &[""],
        ends: &[
            "0;{NodeList:{}}",
            ";{NodeList:{}}",
            "{NodeList:{}}",
            "}",
            "NodeList:{}}",
            ":{NodeList:{}}",
            "{}}",
        ],
    },
    Place {
        head: "{Real:{r=12345678901234",
        bytes: b"50.;-a_/",
        most: 4,
        words: &[""],
        ends: &["0;}NodeList:{}}", ";}NodeList:{}}", "}NodeList:{}}"],
    },
    Place {
        head: "{Integer:{i=922337203685477580",
        bytes: b"6789.;",
        most: 3,
        words: &[""],
        ends: &[";}NodeList:{}}", "}NodeList:{}}"],
    },
    Place {
        head: "{Integer:{i=-922337203685477580",
        bytes: b"6789.;",
        most: 3,
        words: &[""],
        ends: &[";}NodeList:{}}", "}NodeList:{}}"],
    },
    Place {
        head: "{PreCondition:-0009223372036854775",
        bytes: b"80.;9",
        most: 4,
        words: &["80"],
        ends: &[";NodeList:{}}", "NodeList:{}}", "8;NodeList:{}}"],
    },
    Place {
        head: "{PreCondition:-RealBits(921886843722740531",
        bytes: b"0123);.",
        most: 3,
        words: &[")", ";"],
        ends: &[";NodeList:{}}", "NodeList:{}}", ");NodeList:{}}"],
    },
    Place { head: "{NodeList:{}}", bytes: b"/* a}\n", most: 6, words: &["*/"], ends: &[""] },
    Place {
        head: "Command ",
        bytes: b"NOT_1= ",
        most: 5,
        words: &[""],
        ends: &["x=1;{NodeList:{}}", "=1;{NodeList:{}}", "1;{NodeList:{}}", ";{NodeList:{}}"],
    },
    Place {
        head: "{NodeList:{",
        bytes: b"{}a:N ",
        most: 5,
        words: &["NodeList:{}}"],
        ends: &[
            "",
            "}}",
            "}}}}",
            "x:{NodeList:{}}}}",
            ":{NodeList:{}}}}",
            "{NodeList:{}}}}",
            "NodeList:{}}}}",
            "NodeList:{}}}}}}",
        ],
    },
];

#[test]
fn the_place_of_40_is_the_longest_viable_prefix() {
    let mut tried = 0;
    for place in PLACES {
        tried += place.try_all();
    }
    assert!(tried > 20_000, "only {tried} texts");
}
