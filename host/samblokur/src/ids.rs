//! The numbers by which a plan's records are named.

use std::fmt;

macro_rules! id {
    ($name:ident, $word:literal) => {
        #[doc = concat!("The number of a ", $word, " record.")]
        #[derive(Clone, Copy, Debug, PartialEq, Eq, PartialOrd, Ord, Hash)]
        pub struct $name(pub u16);

        impl $name {
            /// The number as a place in a table.
            pub fn place(self) -> usize {
                usize::from(self.0)
            }
        }

        impl fmt::Display for $name {
            fn fmt(&self, f: &mut fmt::Formatter<'_>) -> fmt::Result {
                write!(f, concat!($word, " {}"), self.0)
            }
        }
    };
}

id!(NodeId, "node");
id!(EntryId, "expression");
id!(VariableId, "variable");
id!(LookupId, "lookup");
