/* juniper a inet */
firewall {
    family inet {
        replace: filter a {
            term t {
                then {
                    discard;
                }
            }
        }
    }
}
/* juniper a inet6 */
firewall {
    family inet6 {
        replace: filter a {
            term t {
                then {
                    discard;
                }
            }
        }
    }
}
