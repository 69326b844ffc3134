/* juniper edge inet */
firewall {
    family inet {
        replace: filter edge {
            term a {
                from {
                    protocol [ 1 ];
                }
                then {
                    accept;
                }
            }
        }
    }
}
