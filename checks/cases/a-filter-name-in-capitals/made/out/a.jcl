/* juniper Z9_-z inet */
firewall {
    family inet {
        replace: filter Z9_-z {
            term t {
                then {
                    discard;
                }
            }
        }
    }
}
