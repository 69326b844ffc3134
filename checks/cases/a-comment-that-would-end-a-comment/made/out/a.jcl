/* juniper edge inet */
firewall {
    family inet {
        replace: filter edge {
            /* it_s __ accept_ _ done */
            term a {
                then {
                    discard;
                }
            }
        }
    }
}
