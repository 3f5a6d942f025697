// K7: the child owns x, which returns to 0 each time. Spent after 100 steps.
{
    NodeList: {
        { Integer: { x = 0; } RepeatUntilCondition: 3 > x; Assignment: x = x + 1; }
    }
}
