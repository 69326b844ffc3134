/* juniper edge inet */
firewall {
    family inet {
        replace: filter edge {
            term a {
                from {
                    protocol [ 6 ];
                }
                then {
                    accept;
                }
            }
            term b {
                from {
                    protocol [ 6 ];
                }
                then {
                    discard;
                }
            }
        }
    }
}
