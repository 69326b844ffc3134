/* juniper edge inet */
firewall {
    family inet {
        replace: filter edge {
            term t {
                then {
                    accept;
                }
            }
        }
    }
}
