//! The paper's codes: each with its number and its word.

use std::fmt;

macro_rules! codes {
    ($about:literal $name:ident: $($number:literal $case:ident $word:literal,)+) => {
        #[doc = $about]
        #[derive(Clone, Copy, Debug, PartialEq, Eq, Hash)]
        #[repr(u8)]
        pub enum $name {
            $(#[doc = concat!("`", $word, "`, number ", $number, ".")] $case = $number,)+
        }

        impl $name {
            /// All of them, in the order of their numbers.
            pub const ALL: &[$name] = &[$($name::$case,)+];

            /// The one with this number.
            pub fn of(number: u8) -> Option<$name> {
                $name::ALL.iter().copied().find(|code| code.number() == number)
            }

            /// The paper's number.
            pub fn number(self) -> u8 {
                self as u8
            }

            /// The paper's word.
            pub fn word(self) -> &'static str {
                match self {
                    $($name::$case => $word,)+
                }
            }
        }

        impl fmt::Display for $name {
            fn fmt(&self, f: &mut fmt::Formatter<'_>) -> fmt::Result {
                f.pad(self.word())
            }
        }
    };
}

codes! { "The kind of a value."
    Kind: 0 Bool "Bool", 1 Int "Int", 2 Real "Real",
}

codes! { "What a node is."
    Body: 0 List "list", 1 Command "command", 2 Assignment "assignment",
}

codes! { "A node's conditions, in the order of its record."
    Condition: 0 Skip "Skip", 1 Start "Start", 2 Pre "Pre", 3 Inv "Inv", 4 End "End", 5 Post "Post",
    6 Repeat "Repeat",
}

codes! { "Where a node stands."
    Status: 0 Inactive "Inactive", 1 Waiting "Waiting", 2 Executing "Executing", 3 Finishing "Finishing",
    4 Failing "Failing", 5 IterationEnded "IterationEnded", 6 Finished "Finished",
}

codes! { "What came of a node."
    Outcome: 0 None "None", 1 Success "Success", 2 Failure "Failure", 3 Skipped "Skipped",
}

codes! { "Why a node failed."
    Failure: 0 None "none", 1 Pre "Pre", 2 Post "Post", 3 Invariant "Invariant", 4 Parent "Parent",
    5 WriteLost "WriteLost",
}

codes! { "Whether a rule may still apply."
    Phase: 0 Running "Running", 1 Quiet "Quiet",
}

codes! { "The operator of an expression."
    Operator: 0 Constant "constant", 1 Variable "variable", 2 Lookup "lookup", 3 Status "status",
    4 Outcome "outcome", 5 Failure "failure", 6 Not "NOT", 7 And "AND", 8 Or "OR", 9 Eq "EQ", 10 Lt "LT",
    11 Le "LE", 12 Add "ADD", 13 Sub "SUB", 14 Mul "MUL",
}
