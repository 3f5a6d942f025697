// K9: an invariant on a lookup. 3 steps; the lookup False: 2 steps; the return: 4 steps, Failure, Invariant.
Boolean Lookup power;
Command scan = 7;
{
    InvariantCondition: LookupNow(power);
    NodeList: { Scan: { Command: scan(); } }
}
