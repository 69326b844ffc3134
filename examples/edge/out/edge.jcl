/* juniper outside-in inet */
firewall {
    family inet {
        replace: filter outside-in {
            /* Sources that no packet from outside may have. */
            term bogons {
                from {
                    source-address {
                        0.0.0.0/8;
                        10.0.0.0/8;
                        100.64.0.0/10;
                        127.0.0.0/8;
                        169.254.0.0/16;
                        172.16.0.0/12;
                        192.0.2.0/24;
                        192.168.0.0/16;
                        198.51.100.0/24;
                        224.0.0.0/3;
                    }
                }
                then {
                    discard;
                }
            }
            /* Our provider_s router and ours talk to each other. */
            term bgp {
                from {
                    source-address {
                        203.0.113.129/32;
                    }
                    destination-address {
                        203.0.113.130/32;
                    }
                    protocol [ 6 ];
                    destination-port [ 179 ];
                }
                then {
                    accept;
                }
            }
            /* Answers to connections that were opened from inside. */
            term established {
                from {
                    protocol [ 6 ];
                    tcp-established;
                }
                then {
                    accept;
                }
            }
            /* Answers to what our resolvers asked. */
            term resolvers {
                from {
                    destination-address {
                        192.0.2.53/32;
                        198.51.100.53/32;
                    }
                    protocol [ 17 ];
                    source-port [ 53 ];
                    destination-port [ 1024-65535 ];
                }
                then {
                    accept;
                }
            }
            /* The web servers, QUIC included. */
            term web {
                from {
                    destination-address {
                        192.0.2.10/31;
                        192.0.2.12/32;
                    }
                    protocol [ 6 17 ];
                    destination-port [ 80 443 8080-8089 ];
                }
                then {
                    accept;
                }
            }
            term dns {
                from {
                    destination-address {
                        192.0.2.53/32;
                        198.51.100.53/32;
                    }
                    protocol [ 17 ];
                    destination-port [ 53 ];
                }
                then {
                    accept;
                }
            }
            /* Zone transfers to our partners. */
            term transfers {
                from {
                    source-address {
                        203.0.113.0/27;
                        203.0.113.192/26;
                    }
                    destination-address {
                        192.0.2.53/32;
                        198.51.100.53/32;
                    }
                    protocol [ 6 ];
                    destination-port [ 53 ];
                }
                then {
                    accept;
                }
            }
            term ping {
                from {
                    protocol [ 1 ];
                    icmp-type [ 0 3 8 11 ];
                }
                then {
                    accept;
                }
            }
            term rest {
                then {
                    syslog;
                    reject;
                }
            }
        }
    }
}
/* juniper outside-in6 inet6 */
firewall {
    family inet6 {
        replace: filter outside-in6 {
            /* IPv6 does not work without these. */
            term neighbours {
                from {
                    next-header [ 58 ];
                    icmp-type [ 135 136 ];
                }
                then {
                    accept;
                }
            }
            /* Sources that no packet from outside may have. */
            term bogons {
                from {
                    source-address {
                        ::1/128;
                        2001:db8:a::/48;
                        fc00::/7;
                        fe80::/10;
                    }
                }
                then {
                    discard;
                }
            }
            /* Our provider_s router and ours talk to each other. */
            term bgp {
                from {
                    source-address {
                        2001:db8:f::1/128;
                    }
                    destination-address {
                        2001:db8:f::2/128;
                    }
                    next-header [ 6 ];
                    destination-port [ 179 ];
                }
                then {
                    accept;
                }
            }
            /* Answers to connections that were opened from inside. */
            term established {
                from {
                    next-header [ 6 ];
                    tcp-established;
                }
                then {
                    accept;
                }
            }
            /* The web servers, QUIC included. */
            term web {
                from {
                    destination-address {
                        2001:db8:a::10/128;
                    }
                    next-header [ 6 17 ];
                    destination-port [ 80 443 8080-8089 ];
                }
                then {
                    accept;
                }
            }
            /* The lab moves out in February. */
            term lab {
                from {
                    destination-address {
                        2001:db8:b::/48;
                        fc00::/7;
                    }
                    next-header [ 6 ];
                }
                then {
                    accept;
                }
            }
            term ping6 {
                from {
                    next-header [ 58 ];
                    icmp-type [ 1 2 3 128 129 ];
                }
                then {
                    accept;
                }
            }
            term rest {
                then {
                    syslog;
                    reject;
                }
            }
        }
    }
}
/* juniper outside-out inet */
firewall {
    family inet {
        replace: filter outside-out {
            term own {
                from {
                    source-address {
                        192.0.2.0/24;
                        198.51.100.0/24;
                    }
                }
                then {
                    accept;
                }
            }
            term bgp {
                from {
                    source-address {
                        203.0.113.130/32;
                    }
                    destination-address {
                        203.0.113.129/32;
                    }
                    protocol [ 6 ];
                }
                then {
                    accept;
                }
            }
            term ping {
                from {
                    protocol [ 1 ];
                    icmp-type [ 0 3 8 11 ];
                }
                then {
                    accept;
                }
            }
            /* A source here that is not ours is a mistake, or worse. */
            term rest {
                then {
                    syslog;
                    discard;
                }
            }
        }
    }
}
/* juniper outside-out6 inet6 */
firewall {
    family inet6 {
        replace: filter outside-out6 {
            term own {
                from {
                    source-address {
                        2001:db8:a::/48;
                    }
                }
                then {
                    accept;
                }
            }
            term bgp {
                from {
                    source-address {
                        2001:db8:f::2/128;
                    }
                    destination-address {
                        2001:db8:f::1/128;
                    }
                    next-header [ 6 ];
                }
                then {
                    accept;
                }
            }
            /* IPv6 does not work without these. */
            term neighbours {
                from {
                    next-header [ 58 ];
                    icmp-type [ 135 136 ];
                }
                then {
                    accept;
                }
            }
            term ping6 {
                from {
                    next-header [ 58 ];
                    icmp-type [ 1 2 3 128 129 ];
                }
                then {
                    accept;
                }
            }
            /* A source here that is not ours is a mistake, or worse. */
            term rest {
                then {
                    syslog;
                    discard;
                }
            }
        }
    }
}
