/* juniper edge inet */
firewall {
    family inet {
        replace: filter edge {
            /* yyyyyyyyyyyyyyyyyyyyyyyyyyyyyyyyyyyyyyyyyyyyyyyyyyyyyyyyyyyyyyyyyyyyyyyyyyyyyy z */
            term t {
                then {
                    accept;
                }
            }
        }
    }
}
