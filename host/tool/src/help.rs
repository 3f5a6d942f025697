//! The help texts.

pub const ALL: &str = "\
samblokur: a plan executive for PLEXIL over a proved library

  samblokur check FILE    says whether a plan is admitted, and why not
  samblokur show FILE     writes a plan as text
  samblokur run FILE      runs a plan, with events from a file
  samblokur read FILE -o IMAGE
                          reads a plan's text into an image
  samblokur demo          tells the story of revisions B and AA

A plan FILE is text in the notation of docs/NOTATION.md, or an image; which of
the two shows in its first bytes. Each command has --help. The exit status is 0, or the number of the refusal;
64 for a command line that is not understood, 65 for an events file that is
not, 66 for a file that cannot be read, 73 for one that cannot be written.
";

pub const CHECK: &str = "\
samblokur check FILE

Says whether the plan in FILE is admitted. If it is refused, says by which
rule, and shows the place in the text, or the record of the image that breaks
it field by field. The exit status is the refusal's number, 1 to 12 or 40 to
43.
";

pub const SHOW: &str = "\
samblokur show FILE

Writes the plan in FILE as text. An image has no names: its nodes are N0, N1
and so on, its variables v0, its lookups l0, and c7 is the command of number 7.
The text reads back into a plan that runs alike, and into the same bytes if
the image was read from a text; it says so where it does not.
";

pub const READ: &str = "\
samblokur read FILE -o IMAGE

Reads the text in FILE into the plan image IMAGE, which a host can run. A text
that is refused is shown with its line and a caret, and nothing is written; the
exit status is the refusal's number: 40 not of the notation, 41 more than 16
levels, 42 a name undeclared or declared twice, 3 too many nodes, expressions,
variables or lookups, 9 and 11 a value of another kind, 10 too deep.
";

pub const RUN: &str = "\
samblokur run FILE [--events FILE] [--budget N] [--svg OUT]

Starts the plan in FILE afresh and runs it to quiet; then each event is
a turn, in which it enters and the plan runs to quiet. For each it tells the
count of micro steps, the commands issued and aborted, the statuses that each
node went through, and the variables that changed.

  --events FILE   the events, a line each
  --budget N      the most micro steps of a turn, 0 to 65535; default 1000. A
                  turn that uses it up is Spent: the plan is not quiet yet, and
                  the next event is refused (20 Busy)
  --svg OUT       a picture of the run: a row a node, a column a micro step

An events file is text. Each line is one event; its entries are separated by
semicolons; serials are added by the tool. From # on a line is a comment, and
an empty line is passed over. Entries:

  lookup 0 = true       lookup 0 is now True (or false)
  lookup 1 = -12        lookup 1 is now -12, if it is Int; a Real may be
                        written 3, 0.5 or 1e-3
  lookup 2 unknown      lookup 2 is unknown, as every lookup is at first
  returned 3            the command of node 3 has returned
  nothing               an event without entries; stands alone

For example:  lookup 0 = true; returned 3   # the power is on, and the scanner is done

Where the plan is text, names may stand for numbers:

  humidity = 45.5; power unknown; returned Scan

A node whose name another has too is named by its path, as returned Room.Scan.
";

pub const DEMO: &str = "\
samblokur demo

Tells the story of revisions B and AA: two nodes mark the current sheet in one
micro step. It is run with a higher priority on AA and with equal priorities,
and held against what the old tower did.
";
