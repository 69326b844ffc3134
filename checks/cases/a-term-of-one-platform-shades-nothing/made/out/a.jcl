/* juniper edge inet */
firewall {
    family inet {
        replace: filter edge {
            term b {
                from {
                    protocol [ 6 ];
                }
                then {
                    discard;
                }
            }
        }
    }
}
