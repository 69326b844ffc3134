/* juniper edge inet */
firewall {
    family inet {
        replace: filter edge {
            term nnnnnnnnnnnnnnnnnnnnnnnnnnnnnnnnnnnnnnnnnnnnnnnnnnnnnnnnnnnnnnnn {
                then {
                    accept;
                }
            }
        }
    }
}
