/* juniper edge inet */
firewall {
    family inet {
        replace: filter edge {
            term four {
                from {
                    protocol [ 1 ];
                    icmp-type [ 0 8 254 ];
                }
                then {
                    accept;
                }
            }
        }
    }
}
/* juniper edge inet6 */
firewall {
    family inet6 {
        replace: filter edge {
            term six {
                from {
                    next-header [ 58 ];
                    icmp-type [ 2 128 ];
                }
                then {
                    accept;
                }
            }
        }
    }
}
