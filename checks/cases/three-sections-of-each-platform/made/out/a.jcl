/* juniper a inet */
firewall {
    family inet {
        replace: filter a {
            /* the first */
            term t {
                from {
                    protocol [ 17 ];
                }
                then {
                    accept;
                }
            }
            term u {
                then {
                    discard;
                }
            }
        }
    }
}
/* juniper b inet */
firewall {
    family inet {
        replace: filter b {
            /* the first */
            term t {
                from {
                    protocol [ 17 ];
                }
                then {
                    accept;
                }
            }
            term u {
                then {
                    discard;
                }
            }
        }
    }
}
/* juniper c inet */
firewall {
    family inet {
        replace: filter c {
            /* the first */
            term t {
                from {
                    protocol [ 17 ];
                }
                then {
                    accept;
                }
            }
            term u {
                then {
                    discard;
                }
            }
        }
    }
}
