/* juniper edge inet6 */
firewall {
    family inet6 {
        replace: filter edge {
            /* why */
            term t {
                from {
                    source-address {
                        2001:db8::/32;
                    }
                    destination-address {
                        2001:db8:0:1::1/128;
                    }
                    next-header [ 6 ];
                    source-port [ 1024-65535 ];
                    destination-port [ 22 ];
                    tcp-established;
                }
                then {
                    syslog;
                    reject tcp-reset;
                }
            }
        }
    }
}
