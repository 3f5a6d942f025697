Command fetch = 1;                                  // what the cabinet can do
Command scan = 2;
Real Lookup humidity;                               // what it reports
Integer Lookup revision;
Sheet: {
    Integer: { current = 2; }                       // revision B; 27 is AA
    InvariantCondition: LookupNow(humidity) <= 60.0;
    NodeList: {
        Fetch: { Command: fetch(); }
        Scan: { StartCondition: Fetch.outcome == SUCCESS; Command: scan(); }
        Mark: { StartCondition: Scan.outcome == SUCCESS; Assignment: current = LookupNow(revision); }
    } }
