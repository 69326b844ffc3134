/* juniper tenants inet */
firewall {
    family inet {
        replace: filter tenants {
            term icmp {
                from {
                    protocol [ 1 ];
                    icmp-type [ 0 3 8 11 ];
                }
                then {
                    accept;
                }
            }
            term management {
                from {
                    source-address {
                        10.64.250.0/24;
                    }
                    protocol [ 6 ];
                    destination-port [ 22 ];
                }
                then {
                    accept;
                }
            }
            term monitoring-tcp {
                from {
                    source-address {
                        10.64.251.10/31;
                    }
                    protocol [ 6 ];
                    destination-port [ 9100 ];
                }
                then {
                    accept;
                }
            }
            term monitoring-udp {
                from {
                    source-address {
                        10.64.251.10/31;
                    }
                    protocol [ 17 ];
                    destination-port [ 161 ];
                }
                then {
                    accept;
                }
            }
            /* The leaves and spines to one another. */
            term routing {
                from {
                    source-address {
                        10.64.0.0/24;
                    }
                    destination-address {
                        10.64.0.0/24;
                    }
                    protocol [ 6 ];
                    destination-port [ 179 ];
                }
                then {
                    accept;
                }
            }
            term answers {
                from {
                    source-address {
                        10.65.1.0/24;
                        10.65.2.0/23;
                    }
                    destination-address {
                        10.65.1.0/24;
                        10.65.2.0/23;
                    }
                    protocol [ 6 ];
                    tcp-established;
                }
                then {
                    accept;
                }
            }
            term front-to-app {
                from {
                    source-address {
                        10.65.1.0/24;
                    }
                    destination-address {
                        10.65.2.0/24;
                    }
                    protocol [ 6 ];
                    destination-port [ 8443 ];
                }
                then {
                    accept;
                }
            }
            term app-to-database {
                from {
                    source-address {
                        10.65.2.0/24;
                    }
                    destination-address {
                        10.65.3.0/24;
                    }
                    protocol [ 6 ];
                    destination-port [ 5432 ];
                }
                then {
                    accept;
                }
            }
            term no-other-tenant {
                from {
                    source-address {
                        10.65.1.0/24;
                        10.65.2.0/23;
                    }
                    destination-address {
                        10.64.0.0/12;
                    }
                }
                then {
                    syslog;
                    discard;
                }
            }
            term to-the-world {
                from {
                    source-address {
                        10.65.1.0/24;
                    }
                }
                then {
                    accept;
                }
            }
            /* What nothing above names. */
            term last {
                then {
                    syslog;
                    discard;
                }
            }
        }
    }
}
/* juniper tenants6 inet6 */
firewall {
    family inet6 {
        replace: filter tenants6 {
            term icmp6 {
                from {
                    next-header [ 58 ];
                    icmp-type [ 1 2 3 128 129 ];
                }
                then {
                    accept;
                }
            }
            /* IPv6 does not work without these. */
            term neighbours {
                from {
                    next-header [ 58 ];
                    icmp-type [ 133 134 135 136 ];
                }
                then {
                    accept;
                }
            }
            term management {
                from {
                    source-address {
                        2001:db8:dc:fa::/64;
                    }
                    next-header [ 6 ];
                    destination-port [ 22 ];
                }
                then {
                    accept;
                }
            }
            term monitoring-tcp {
                from {
                    source-address {
                        2001:db8:dc:fb::/64;
                    }
                    next-header [ 6 ];
                    destination-port [ 9100 ];
                }
                then {
                    accept;
                }
            }
            term monitoring-udp {
                from {
                    source-address {
                        2001:db8:dc:fb::/64;
                    }
                    next-header [ 17 ];
                    destination-port [ 161 ];
                }
                then {
                    accept;
                }
            }
            /* The leaves and spines to one another. */
            term routing {
                from {
                    source-address {
                        2001:db8:dc:ffff::/64;
                    }
                    destination-address {
                        2001:db8:dc:ffff::/64;
                    }
                    next-header [ 6 ];
                    destination-port [ 179 ];
                }
                then {
                    accept;
                }
            }
            term answers {
                from {
                    source-address {
                        2001:db8:dc:101::/64;
                        2001:db8:dc:102::/63;
                    }
                    destination-address {
                        2001:db8:dc:101::/64;
                        2001:db8:dc:102::/63;
                    }
                    next-header [ 6 ];
                    tcp-established;
                }
                then {
                    accept;
                }
            }
            term front-to-app {
                from {
                    source-address {
                        2001:db8:dc:101::/64;
                    }
                    destination-address {
                        2001:db8:dc:102::/64;
                    }
                    next-header [ 6 ];
                    destination-port [ 8443 ];
                }
                then {
                    accept;
                }
            }
            term app-to-database {
                from {
                    source-address {
                        2001:db8:dc:102::/64;
                    }
                    destination-address {
                        2001:db8:dc:103::/64;
                    }
                    next-header [ 6 ];
                    destination-port [ 5432 ];
                }
                then {
                    accept;
                }
            }
            term no-other-tenant {
                from {
                    source-address {
                        2001:db8:dc:101::/64;
                        2001:db8:dc:102::/63;
                    }
                    destination-address {
                        2001:db8:dc::/48;
                    }
                }
                then {
                    syslog;
                    discard;
                }
            }
            term to-the-world {
                from {
                    source-address {
                        2001:db8:dc:101::/64;
                    }
                }
                then {
                    accept;
                }
            }
            /* What nothing above names. */
            term last {
                then {
                    syslog;
                    discard;
                }
            }
        }
    }
}
