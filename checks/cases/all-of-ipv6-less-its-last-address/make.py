"""The prefix of length K has K - 1 ones at its front: ::/1, 8000::/2, c000::/3 and so on."""
import ipaddress
import os

prefixes = ['%s/%d' % (ipaddress.IPv6Address(2 ** 128 - 2 ** (129 - length)) if length > 1 else '::', length)
            for length in range(1, 129)]
os.makedirs('made/out')
with open('made/out/a.nft', 'w') as file:
    file.write('''## nftables input inet6
add table ip6 aclgen_1
delete table ip6 aclgen_1
table ip6 aclgen_1 {
    chain input {
        type filter hook input priority 0; policy drop;
        # a
        ip6 saddr { %s } accept
    }
}
''' % ', '.join(prefixes))
