// K2: the greater priority writes. x = 10, and B's write is lost.
{
    Integer: { x = 1; y = 2; }
    NodeList: {
        A: { Priority: 5; Assignment: x = 10; }
        B: { Priority: 3; Assignment: x = 20; }
    }
}
