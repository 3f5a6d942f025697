// K1: two variables change places. Quiet after 8 steps; x = 2, y = 1.
Swap: {
    Integer: { x = 1; y = 2; }
    NodeList: {
        A: { Assignment: x = y; }
        B: { Assignment: y = x; }
    }
}
