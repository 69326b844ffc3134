/* juniper edge inet */
firewall {
    family inet {
        replace: filter edge {
            term t {
                from {
                    protocol [ 132 ];
                }
                then {
                    accept;
                }
            }
        }
    }
}
