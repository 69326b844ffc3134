/* juniper edge inet */
firewall {
    family inet {
        replace: filter edge {
            term four {
                from {
                    protocol [ 1 ];
                    icmp-type [ 3 ];
                    icmp-code [ 3 4 255 ];
                }
                then {
                    accept;
                }
            }
        }
    }
}
/* juniper edge inet6 */
firewall {
    family inet6 {
        replace: filter edge {
            term six {
                from {
                    next-header [ 58 ];
                    icmp-type [ 1 ];
                    icmp-code [ 0 ];
                }
                then {
                    accept;
                }
            }
        }
    }
}
