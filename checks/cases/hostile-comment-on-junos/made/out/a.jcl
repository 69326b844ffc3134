/* juniper edge inet */
firewall {
    family inet {
        replace: filter edge {
            /* __ _ term x _ then accept_ _ __ */
            term t {
                then {
                    accept;
                }
            }
        }
    }
}
