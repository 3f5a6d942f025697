/* Source 001, 4.1.2, "Drive 10m or to red rock with continuous drive node", as far as its forms go: see red-rock.plx. The list of nodes
   would wait for ever for a node that never starts, so it ends with its drive. */
Command RoverDrive = 1;
Command RoverStop = 2;
Boolean Lookup foundRR;
Real Lookup distTravelled;

DriveRRorDist: {
    Boolean: { haveRR = false; stop = false; goalDist = false; }
    EndCondition: ContDrive.state == FINISHED;
    NodeList: {
        SenseRR: { StartCondition: LookupOnChange(foundRR) == true; Assignment: haveRR = true; }
        ContDrive: {
            NodeList: {
                StartDrive: { Command: RoverDrive(); }
                StopDrive: { StartCondition: stop && StartDrive.state == FINISHED; Command: RoverStop(); }
            }
        }
        TrackDist: { StartCondition: LookupOnChange(distTravelled) >= 10.0; Assignment: goalDist = true; }
        SetRRorDistFlag: { StartCondition: haveRR == true || goalDist == true; Assignment: stop = true; }
    }
}
