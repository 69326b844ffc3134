/* juniper edge inet */
firewall {
    family inet {
        replace: filter edge {
            term t {
                from {
                    protocol [ 17 ];
                    destination-port [ 53 ];
                }
                then {
                    accept;
                }
            }
        }
    }
}
