/* juniper edge inet */
firewall {
    family inet {
        replace: filter edge {
            term web {
                from {
                    destination-address {
                        192.0.2.10/32;
                    }
                    protocol [ 6 ];
                }
                then {
                    accept;
                }
            }
        }
    }
}
