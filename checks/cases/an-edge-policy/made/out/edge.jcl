/* juniper edge-in inet */
firewall {
    family inet {
        replace: filter edge-in {
            /* Not ours. */
            term block-bogon {
                from {
                    source-address {
                        10.0.0.0/8;
                        127.0.0.0/8;
                        172.16.0.0/12;
                        192.168.0.0/16;
                    }
                }
                then {
                    discard;
                }
            }
            term established-tcp {
                from {
                    protocol [ 6 ];
                    tcp-established;
                }
                then {
                    accept;
                }
            }
            term established-udp {
                from {
                    protocol [ 17 ];
                    destination-port [ 1024-65535 ];
                }
                then {
                    accept;
                }
            }
            term dns {
                from {
                    destination-address {
                        192.0.2.53/32;
                    }
                    protocol [ 6 17 ];
                    destination-port [ 53 ];
                }
                then {
                    accept;
                }
            }
            term web {
                from {
                    destination-address {
                        192.0.2.10/31;
                    }
                    protocol [ 6 ];
                    destination-port [ 80 443 ];
                }
                then {
                    accept;
                }
            }
            term default-deny {
                then {
                    syslog;
                    discard;
                }
            }
        }
    }
}
