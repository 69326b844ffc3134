/* juniper edge inet */
firewall {
    family inet {
        replace: filter edge {
            term t {
                from {
                    protocol [ 6 ];
                    source-port [ 53 1000-2000 ];
                    destination-port [ 80 443 ];
                }
                then {
                    accept;
                }
            }
        }
    }
}
