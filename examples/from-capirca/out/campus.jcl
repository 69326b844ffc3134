/* juniper campus4 inet */
firewall {
    family inet {
        replace: filter campus4 {
            term permit-icmp {
                from {
                    protocol [ 1 ];
                }
                then {
                    accept;
                }
            }
            /* answers */
            term permit-established-tcp {
                from {
                    protocol [ 6 ];
                    tcp-established;
                }
                then {
                    accept;
                }
            }
            /* answers */
            term permit-established-udp {
                from {
                    protocol [ 17 ];
                    destination-port [ 1024-65535 ];
                }
                then {
                    accept;
                }
            }
            term permit-dns {
                from {
                    destination-address {
                        192.0.2.53/32;
                    }
                    protocol [ 6 17 ];
                    destination-port [ 53 ];
                }
                then {
                    accept;
                }
            }
            term permit-dns-answers {
                from {
                    source-address {
                        192.0.2.53/32;
                    }
                    protocol [ 6 17 ];
                    source-port [ 53 ];
                }
                then {
                    accept;
                }
            }
            term permit-ntp {
                from {
                    destination-address {
                        192.0.2.123/32;
                    }
                    protocol [ 17 ];
                    destination-port [ 123 ];
                }
                then {
                    accept;
                }
            }
            term permit-mail {
                from {
                    destination-address {
                        192.0.2.25/32;
                    }
                    protocol [ 6 ];
                    destination-port [ 25 ];
                    tcp-initial;
                }
                then {
                    accept;
                }
            }
            term deny-to-routers {
                from {
                    destination-address {
                        192.0.2.1/32;
                        192.0.2.2/32;
                    }
                    protocol [ 6 ];
                    destination-port [ 22 ];
                }
                then {
                    syslog;
                    discard;
                }
            }
            term permit-campus {
                from {
                    source-address {
                        192.0.2.0/25;
                        192.0.2.144/28;
                        192.0.2.160/27;
                        192.0.2.192/26;
                    }
                }
                then {
                    accept;
                }
            }
            term default-deny {
                then {
                    discard;
                }
            }
        }
    }
}
/* juniper campus6 inet6 */
firewall {
    family inet6 {
        replace: filter campus6 {
            term permit-icmp {
                from {
                    next-header [ 58 ];
                }
                then {
                    accept;
                }
            }
            /* answers */
            term permit-established-tcp {
                from {
                    next-header [ 6 ];
                    tcp-established;
                }
                then {
                    accept;
                }
            }
            /* answers */
            term permit-established-udp {
                from {
                    next-header [ 17 ];
                    destination-port [ 1024-65535 ];
                }
                then {
                    accept;
                }
            }
            term permit-dns {
                from {
                    destination-address {
                        2001:db8:c::53/128;
                    }
                    next-header [ 6 17 ];
                    destination-port [ 53 ];
                }
                then {
                    accept;
                }
            }
            term permit-dns-answers {
                from {
                    source-address {
                        2001:db8:c::53/128;
                    }
                    next-header [ 6 17 ];
                    source-port [ 53 ];
                }
                then {
                    accept;
                }
            }
            term permit-campus {
                from {
                    source-address {
                        2001:db8:c::/48;
                    }
                }
                then {
                    accept;
                }
            }
            term default-deny {
                then {
                    discard;
                }
            }
        }
    }
}
