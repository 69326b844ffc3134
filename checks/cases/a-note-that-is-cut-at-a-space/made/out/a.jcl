/* juniper edge inet */
firewall {
    family inet {
        replace: filter edge {
            /* yyyyyyyyyyyyyyyyyyyyyyyyyyyyyyyyyyyyyyyyyyyyyyyyyyyyyyyyyyyyyyyyyyyyyyyyyyyyyyy */
            term t {
                then {
                    accept;
                }
            }
        }
    }
}
