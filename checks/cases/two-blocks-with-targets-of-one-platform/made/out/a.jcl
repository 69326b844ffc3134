/* juniper a inet */
firewall {
    family inet {
        replace: filter a {
            term t {
                then {
                    accept;
                }
            }
        }
    }
}
/* juniper b inet */
firewall {
    family inet {
        replace: filter b {
            term u {
                then {
                    discard;
                }
            }
        }
    }
}
