/* juniper edge inet */
firewall {
    family inet {
        replace: filter edge {
            term t {
                from {
                    source-address {
                        10.0.0.1/32;
                        10.0.0.4/30;
                    }
                    destination-address {
                        192.0.2.0/24;
                        198.51.100.1/32;
                    }
                    protocol [ 6 ];
                }
                then {
                    accept;
                }
            }
        }
    }
}
