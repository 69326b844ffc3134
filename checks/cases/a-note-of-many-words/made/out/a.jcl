/* juniper edge inet */
firewall {
    family inet {
        replace: filter edge {
            /* a a a a a a a a a a a a a a a a a a a a a a a a a a a a a a a a a a a a a a a a */
            term t {
                then {
                    accept;
                }
            }
        }
    }
}
