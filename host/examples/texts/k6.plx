// K6: repeating while True. 14 steps, x = 3.
{
    Integer: { x = 0; }
    NodeList: {
        { RepeatCondition: x < 3; Assignment: x = x + 1; }
    }
}
