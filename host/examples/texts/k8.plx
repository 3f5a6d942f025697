// K8: Pre is False. 2 steps, failure Pre.
{ Integer: { x = 1; } PreCondition: false; Assignment: x = 10; }
