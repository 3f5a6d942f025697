// K3: a tie writes nothing. x keeps its initial value, and both writes are lost.
{
    Integer: { x = 1; y = 2; }
    NodeList: {
        A: { Priority: 5; Assignment: x = 10; }
        B: { Priority: 5; Assignment: x = 20; }
    }
}
