/* juniper edge inet */
firewall {
    family inet {
        replace: filter edge {
            term b {
                from {
                    protocol [ 2 ];
                }
                then {
                    accept;
                }
            }
        }
    }
}
