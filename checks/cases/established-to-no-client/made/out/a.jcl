/* juniper edge inet */
firewall {
    family inet {
        replace: filter edge {
            term default-deny {
                then {
                    discard;
                }
            }
        }
    }
}
