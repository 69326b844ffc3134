/* juniper edge inet */
firewall {
    family inet {
        replace: filter edge {
            term a {
                from {
                    source-address {
                        10.0.0.1/32;
                    }
                    protocol [ 6 ];
                }
                then {
                    syslog;
                    accept;
                }
            }
            term r {
                from {
                    source-address {
                        10.0.0.4/32;
                    }
                    protocol [ 6 ];
                }
                then {
                    reject;
                }
            }
            term x {
                from {
                    source-address {
                        10.0.0.6/32;
                    }
                    protocol [ 6 ];
                }
                then {
                    syslog;
                    reject tcp-reset;
                }
            }
            term d {
                then {
                    syslog;
                    discard;
                }
            }
        }
    }
}
