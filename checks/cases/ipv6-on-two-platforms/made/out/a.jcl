/* juniper six inet6 */
firewall {
    family inet6 {
        replace: filter six {
            term web {
                from {
                    destination-address {
                        2001:db8::10/128;
                    }
                    next-header [ 6 ];
                }
                then {
                    accept;
                }
            }
        }
    }
}
