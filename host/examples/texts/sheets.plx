// Revisions B and AA: two nodes mark the current sheet in one micro step, and the higher priority writes.
// A revision is a number: 1 for A, 2 for B, 26 for Z, 27 for AA.
Store: {
    Integer: { current = 1; }
    NodeList: {
        MarkAA: { Priority: 5; Assignment: current = 27; }
        MarkB: { Priority: 3; Assignment: current = 2; }
    }
}
