/* juniper dc-in inet */
firewall {
    family inet {
        replace: filter dc-in {
            /* Sources that nobody outside may have, ours among them. */
            term bogons {
                from {
                    source-address {
                        0.0.0.0/8;
                        10.0.0.0/8;
                        100.64.0.0/10;
                        127.0.0.0/8;
                        169.254.0.0/16;
                        172.16.0.0/12;
                        192.168.0.0/16;
                        224.0.0.0/3;
                    }
                }
                then {
                    discard;
                }
            }
            term icmp {
                from {
                    protocol [ 1 ];
                    icmp-type [ 0 3 8 11 ];
                }
                then {
                    accept;
                }
            }
            term answers {
                from {
                    destination-address {
                        198.51.100.16/28;
                    }
                    protocol [ 6 ];
                    tcp-established;
                }
                then {
                    accept;
                }
            }
            term web {
                from {
                    destination-address {
                        198.51.100.16/28;
                    }
                    protocol [ 6 ];
                    destination-port [ 80 443 ];
                }
                then {
                    accept;
                }
            }
            term quic {
                from {
                    destination-address {
                        198.51.100.16/28;
                    }
                    protocol [ 17 ];
                    destination-port [ 443 ];
                }
                then {
                    accept;
                }
            }
            /* What nothing above names. */
            term last {
                then {
                    syslog;
                    discard;
                }
            }
        }
    }
}
/* juniper dc-in6 inet6 */
firewall {
    family inet6 {
        replace: filter dc-in6 {
            /* Sources that nobody outside may have, ours among them. */
            term bogons {
                from {
                    source-address {
                        ::1/128;
                        2001:db8:dc::/48;
                        fc00::/7;
                        fec0::/10;
                    }
                }
                then {
                    discard;
                }
            }
            term icmp6 {
                from {
                    next-header [ 58 ];
                    icmp-type [ 1 2 3 128 129 ];
                }
                then {
                    accept;
                }
            }
            /* IPv6 does not work without these. */
            term neighbours {
                from {
                    next-header [ 58 ];
                    icmp-type [ 133 134 135 136 ];
                }
                then {
                    accept;
                }
            }
            term answers {
                from {
                    destination-address {
                        2001:db8:dc:80::/64;
                    }
                    next-header [ 6 ];
                    tcp-established;
                }
                then {
                    accept;
                }
            }
            term web {
                from {
                    destination-address {
                        2001:db8:dc:80::/64;
                    }
                    next-header [ 6 ];
                    destination-port [ 80 443 ];
                }
                then {
                    accept;
                }
            }
            term quic {
                from {
                    destination-address {
                        2001:db8:dc:80::/64;
                    }
                    next-header [ 17 ];
                    destination-port [ 443 ];
                }
                then {
                    accept;
                }
            }
            /* What nothing above names. */
            term last {
                then {
                    syslog;
                    discard;
                }
            }
        }
    }
}
