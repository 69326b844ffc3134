/* juniper edge inet6 */
firewall {
    family inet6 {
        replace: filter edge {
            term t {
                from {
                    next-header [ 6 ];
                    tcp-initial;
                }
                then {
                    accept;
                }
            }
        }
    }
}
