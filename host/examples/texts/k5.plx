// K5: a lone command. 1 step; after its return 2 steps, Success.
Command scan = 7;
{ Command: scan(); }
