/* juniper to-web inet */
firewall {
    family inet {
        replace: filter to-web {
            /* Answers, and what belongs to a connection that was accepted. */
            term answers-tcp {
                from {
                    protocol [ 6 ];
                    tcp-established;
                }
                then {
                    accept;
                }
            }
            /* Answers, and what belongs to a connection that was accepted. */
            term answers-udp {
                from {
                    protocol [ 17 ];
                    destination-port [ 1024-65535 ];
                }
                then {
                    accept;
                }
            }
            term ping {
                from {
                    protocol [ 1 ];
                    icmp-type [ 0 3 8 11 ];
                }
                then {
                    accept;
                }
            }
            term web {
                from {
                    destination-address {
                        192.0.2.10/32;
                    }
                    protocol [ 6 ];
                    destination-port [ 80 443 ];
                }
                then {
                    accept;
                }
            }
            term quic {
                from {
                    destination-address {
                        192.0.2.10/32;
                    }
                    protocol [ 17 ];
                    destination-port [ 443 ];
                }
                then {
                    accept;
                }
            }
            /* Logged, since few should come. */
            term admins {
                from {
                    source-address {
                        198.51.100.0/28;
                        198.51.100.32/28;
                    }
                    destination-address {
                        192.0.2.10/32;
                    }
                    protocol [ 6 ];
                    destination-port [ 22 ];
                }
                then {
                    syslog;
                    accept;
                }
            }
            term rest {
                then {
                    syslog;
                    reject;
                }
            }
        }
    }
}
/* juniper to-web6 inet6 */
firewall {
    family inet6 {
        replace: filter to-web6 {
            /* Answers, and what belongs to a connection that was accepted. */
            term answers-tcp {
                from {
                    next-header [ 6 ];
                    tcp-established;
                }
                then {
                    accept;
                }
            }
            /* Answers, and what belongs to a connection that was accepted. */
            term answers-udp {
                from {
                    next-header [ 17 ];
                    destination-port [ 1024-65535 ];
                }
                then {
                    accept;
                }
            }
            term ping6 {
                from {
                    next-header [ 58 ];
                    icmp-type [ 1 2 3 128 129 ];
                }
                then {
                    accept;
                }
            }
            /* IPv6 does not work without these. */
            term neighbours {
                from {
                    next-header [ 58 ];
                    icmp-type [ 133 134 135 136 ];
                }
                then {
                    accept;
                }
            }
            term web {
                from {
                    destination-address {
                        2001:db8:a::10/128;
                    }
                    next-header [ 6 ];
                    destination-port [ 80 443 ];
                }
                then {
                    accept;
                }
            }
            term quic {
                from {
                    destination-address {
                        2001:db8:a::10/128;
                    }
                    next-header [ 17 ];
                    destination-port [ 443 ];
                }
                then {
                    accept;
                }
            }
            /* Logged, since few should come. */
            term admins {
                from {
                    source-address {
                        2001:db8:ad::/64;
                    }
                    destination-address {
                        2001:db8:a::10/128;
                    }
                    next-header [ 6 ];
                    destination-port [ 22 ];
                }
                then {
                    syslog;
                    accept;
                }
            }
            term rest {
                then {
                    syslog;
                    reject;
                }
            }
        }
    }
}
