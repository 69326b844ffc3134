/* juniper b inet */
firewall {
    family inet {
        replace: filter b {
            term t {
                from {
                    source-address {
                        192.0.2.10/32;
                    }
                }
                then {
                    accept;
                }
            }
        }
    }
}
