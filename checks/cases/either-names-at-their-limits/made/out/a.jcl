/* juniper edge inet */
firewall {
    family inet {
        replace: filter edge {
            term jjjjjjjjjjjjjjjjjjjjjjjjjjjjjjjjjjjjjjjjjjjjjjjjjjjjjj-src-sport {
                from {
                    source-address {
                        10.0.0.0/25;
                    }
                    protocol [ 17 ];
                    source-port [ 53 ];
                }
                then {
                    accept;
                }
            }
            term jjjjjjjjjjjjjjjjjjjjjjjjjjjjjjjjjjjjjjjjjjjjjjjjjjjjjj-src-dport {
                from {
                    source-address {
                        10.0.0.0/25;
                    }
                    protocol [ 17 ];
                    destination-port [ 53 ];
                }
                then {
                    accept;
                }
            }
            term jjjjjjjjjjjjjjjjjjjjjjjjjjjjjjjjjjjjjjjjjjjjjjjjjjjjjj-dst-sport {
                from {
                    destination-address {
                        10.0.0.0/25;
                    }
                    protocol [ 17 ];
                    source-port [ 53 ];
                }
                then {
                    accept;
                }
            }
            term jjjjjjjjjjjjjjjjjjjjjjjjjjjjjjjjjjjjjjjjjjjjjjjjjjjjjj-dst-dport {
                from {
                    destination-address {
                        10.0.0.0/25;
                    }
                    protocol [ 17 ];
                    destination-port [ 53 ];
                }
                then {
                    accept;
                }
            }
        }
    }
}
