/* juniper edge inet */
firewall {
    family inet {
        replace: filter edge {
            /* Az09-_.,: caf__ _x _ ____________ ___ */
            term t {
                then {
                    accept;
                }
            }
        }
    }
}
