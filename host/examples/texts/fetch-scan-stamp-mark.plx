// A sheet is fetched, scanned, stamped and marked as current, while the air is dry enough.
Command fetch = 1;
Command scan = 2;
Command stamp = 3;
Boolean Lookup asked;
Real Lookup humidity;
Real Lookup sharpness;
Integer Lookup revision;

Sheet: {
    Integer: { current = 2; }
    StartCondition: LookupOnChange(asked);
    InvariantCondition: LookupNow(humidity) <= 60.0;
    NodeList: {
        Fetch: { Command: fetch(); }
        Scan: {
            StartCondition: Fetch.outcome == SUCCESS;
            PostCondition: LookupNow(sharpness) >= 0.8;
            RepeatCondition: Scan.failure == POST;      // a blurred scan is made again
            Command: scan();
        }
        Stamp: { StartCondition: Scan.state == FINISHED; Command: stamp(); }
        Mark: {
            StartCondition: Stamp.outcome == SUCCESS;
            PreCondition: LookupNow(revision) > current;
            Assignment: current = LookupNow(revision);
        }
    }
}
