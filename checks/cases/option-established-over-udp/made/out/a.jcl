/* juniper edge inet */
firewall {
    family inet {
        replace: filter edge {
            term t {
                from {
                    protocol [ 17 ];
                    destination-port [ 1024-65535 ];
                }
                then {
                    accept;
                }
            }
        }
    }
}
