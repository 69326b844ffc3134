/* juniper edge inet */
firewall {
    family inet {
        replace: filter edge {
            term t {
                from {
                    protocol [ 6 ];
                    tcp-established;
                }
                then {
                    accept;
                }
            }
        }
    }
}
