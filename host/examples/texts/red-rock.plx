/* Source 001, 4.1.1, "Drive to red rock with a continuous drive node", as far as its forms go: the scopes of variables stand for its interfaces,
   the lookup "found RR" has no frequency, and a command has a number beside its name. */
Command RoverDrive = 1;
Command RoverStop = 2;
Boolean Lookup foundRR;

DriveToRedRock1: {
    Boolean: { haveRR = false; stop = false; }
    NodeList: {
        SenseRR: { StartCondition: LookupOnChange(foundRR) == true; Assignment: haveRR = true; }
        ContDrive: {
            NodeList: {
                StartDrive: { Command: RoverDrive(); }
                StopDrive: {
                    StartCondition: stop == true && StartDrive.state == FINISHED;
                    Command: RoverStop();
                }
            }
        }
        SetRRFlag: { StartCondition: haveRR == true; Assignment: stop = true; }
    }
}
