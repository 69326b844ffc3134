/* juniper edge inet */
firewall {
    family inet {
        replace: filter edge {
            /* xxxxxxxxxxxxxxxxxxxxxxxxxxxxxxxxxxxxxxxxxxxxxxxxxxxxxxxxxxxxxxxxxxxxxxxxxxxxxxxx */
            term t {
                then {
                    accept;
                }
            }
        }
    }
}
