// K4: a childless list. 4 steps, Success.
{ NodeList: { } }
