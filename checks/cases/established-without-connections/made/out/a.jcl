/* juniper edge inet */
firewall {
    family inet {
        replace: filter edge {
            term est-tcp {
                from {
                    protocol [ 6 ];
                    tcp-established;
                }
                then {
                    accept;
                }
            }
            term est-udp {
                from {
                    protocol [ 17 ];
                    destination-port [ 1024-65535 ];
                }
                then {
                    accept;
                }
            }
        }
    }
}
